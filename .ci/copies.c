// What .ci/copies is tried on: of a function whose name begins with found_ it prints a copy, of one whose name begins with none_
// nothing.
#include <stddef.h>
#include <stdint.h>

struct table { uint16_t numbers[256]; };
struct board { uint64_t scores[8]; };
struct part { uint64_t scores[7]; };

extern void lent(void *);

// The table of numbers is copied for every symbol, as a value that is handed on.
void found_table_for_each_symbol(const uint8_t *symbols, size_t count, struct table *table, uint8_t *out) {
    for (size_t i = 0; i < count; i++) {
        struct table copy = *table;
        __asm__ volatile("" : : "r"(&copy) : "memory");
        out[i] = (uint8_t)copy.numbers[symbols[i]];
    }
}

// 64 bytes by plain moves.
void found_64_bytes(struct board *boards, size_t count) {
    for (size_t i = 1; i < count; i++) {
        boards[i] = boards[0];
        __asm__ volatile("" : : : "memory");
    }
}

// The same in one of two ways through the loop.
void found_64_bytes_on_one_way(struct board *boards, size_t count) {
    for (size_t i = 1; i < count; i++) {
        if (boards[i].scores[0] < 9) boards[i] = boards[0];
        else boards[i].scores[0] = 1;
        __asm__ volatile("" : : : "memory");
    }
}

__attribute__((noinline)) static void copy_board(struct board *to, const struct board *from) {
    *to = *from;
    __asm__ volatile("" : : : "memory");
}

// The same in a function that the loop calls.
void found_64_bytes_by_a_call(struct board *boards, size_t count) {
    for (size_t i = 1; i < count; i++) copy_board(&boards[i], &boards[0]);
}

// The table is copied byte by byte, or eight bytes at a time, in a loop of its own for every symbol.
void found_loop_inside_a_loop(const uint8_t *symbols, size_t count, const uint8_t *table, uint8_t *copy, uint8_t *out) {
    for (size_t i = 0; i < count; i++) {
        for (size_t j = 0; j < 256; j++) {
            copy[j] = table[j];
            __asm__ volatile("" : : : "memory");
        }
        out[i] = copy[symbols[i]];
    }
}

struct board first, second;

// From one place that only the linker knows to another.
void found_between_globals(size_t count) {
    for (size_t i = 0; i < count; i++) {
        second = first;
        __asm__ volatile("" : : : "memory");
    }
}

__attribute__((noinline)) static uint64_t *next_place(uint64_t **at) {
    return (*at)++;
}

// Each number read and written where a call says.
void found_at_returned_places(size_t count, uint64_t *from) {
    for (size_t i = 0; i < count; i++)
        for (size_t j = 0; j < 16; j++) {
            uint64_t number = *next_place(&from);
            *next_place(&from) = number;
        }
}

// Kept or replaced by a mask.
void found_by_a_mask(size_t count, const uint64_t *masks, uint64_t *to, const uint64_t *from) {
    for (size_t i = 0; i < count; i++)
        for (size_t j = 0; j < 16; j++) to[j] = (to[j] & ~masks[i]) | (from[j] & masks[i]);
}

// Every second byte.
void found_every_second(size_t count, uint8_t *to, const uint8_t *from) {
    for (size_t i = 0; i < count; i++) {
        for (size_t j = 0; j < 64; j++) to[j] = from[2 * j];
        __asm__ volatile("" : : : "memory");
    }
}

// A routine of which nothing is known.
void found_routine(size_t count, void *table) {
    for (size_t i = 0; i < count; i++) lent(table);
}

// Fewer than 64 bytes.
void none_56_bytes(struct part *parts, size_t count) {
    for (size_t i = 1; i < count; i++) {
        parts[i] = parts[0];
        __asm__ volatile("" : : : "memory");
    }
}

// Once, before the loop.
void none_before_the_loop(const uint8_t *symbols, size_t count, struct table *table, uint8_t *out) {
    struct table copy = *table;
    __asm__ volatile("" : : "r"(&copy) : "memory");
    for (size_t i = 0; i < count; i++) out[i] = (uint8_t)copy.numbers[symbols[i]];
}

// Each symbol looked up.
void none_looked_up(const uint8_t *symbols, size_t count, const uint8_t *table, uint8_t *out) {
    for (size_t i = 0; i < count; i++) out[i] = table[symbols[i]];
}

// Sixteen scores, each changed where it stands.
void none_changed_in_place(const uint8_t *right, size_t count, uint64_t *scores) {
    for (size_t i = 0; i < count; i++)
        for (size_t j = 0; j < 16; j++) scores[j] += right[i] >> (j & 7) & 1;
}

// Sixteen scores, each written back as it was or changed.
void none_written_back(const uint8_t *right, size_t count, uint64_t *scores) {
    for (size_t i = 0; i < count; i++)
        for (size_t j = 0; j < 16; j++) {
            uint64_t score = scores[j];
            scores[j] = right[i] == j ? score * 5 : score;
        }
}

// Cleared for each symbol.
void none_cleared(size_t count, struct table *table) {
    for (size_t i = 0; i < count; i++) {
        __builtin_memset(table, 0, sizeof *table);
        __asm__ volatile("" : : : "memory");
    }
}
