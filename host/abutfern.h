/* Abutfern: min-entropy of noise captures by MultiMCW and MultiMMC of NIST SP 800-90B, proved.
 *
 * Link libabutfern.a, which host/prove makes; README.md beside this file says how.
 *
 * Every function takes every value and refuses by number what it cannot do:
 *   0 done
 *   1 more than 16,777,216 symbols
 *   2 a lent buffer is too short, or a bit past the capture's end was asked for
 *   3 the width is 1 and a symbol is above 1; its place is returned
 *   4 counts that cannot be
 *   5 a probability or an entropy outside its range, or not a number
 *   6 not run: fewer than 4 samples (MultiMMC) or 4,096 (MultiMCW); of the board figure: one or
 *     more of the four did not run
 *   7 the width is 0, as if it were never filled in, or above 8
 *   8 of a record: a wrong length, a wrong kind, or the end of the input
 *   9 of a record: it holds what no answer is
 *   10 of a running test: see repetition.h
 * After a refusal every float is -1.0, every other field 0 but for the place of number 3, and all
 * lent memory is what it was. Refusals are tried in the order 1, 7, 6, 2, 3, and 4 before 5; the
 * board figure has its own.
 *
 * A width is 1 to 8, and none is guessed. abutfern_bit, abutfern_multi_mcw, abutfern_multi_mmc and
 * abutfern_board_figure take one, as a uint8_t: C cuts a larger number to its low byte before the
 * call, so that 260 arrives as 4. Look at it before. The literal functions and the alphabets have
 * no width and never answer 7.
 *
 * Lent memory need not be cleared. A pointer may be anything, NULL included, where its length is 0;
 * otherwise it must point to as many elements. Lent memory must not overlap the capture or other
 * lent memory.
 */
#ifndef ABUTFERN_H
#define ABUTFERN_H

#include <stdbool.h>
#include <stddef.h>
#include <stdint.h>

#ifdef __cplusplus
extern "C" {
#endif

#define ABUTFERN_SYMBOL_LIMIT 16777216 /* the most symbols of a capture */
#define ABUTFERN_COUNTERS 262140       /* u32 counters for MultiMMC on at most two values */
#define ABUTFERN_SPACE 16777216        /* u32 numbers for MultiMMC on more than two values */
#define ABUTFERN_RECORD_KIND 1         /* a record that holds an answer without who predicted */
#define ABUTFERN_RECORD_SIZE 61        /* bytes of such a record */
#define ABUTFERN_NAMED_RECORD_KIND 2   /* a record that tells who predicted as well */
#define ABUTFERN_NAMED_RECORD_SIZE 66  /* bytes of such a record */

typedef struct {
    uint64_t c;            /* correct predictions */
    uint64_t n;            /* predictions */
    uint64_t max_run_len;  /* the longest run of correct predictions */
    double p_global;       /* c / n */
    double p_global_prime; /* the upper bound of its 99% interval */
    double p_local;        /* -1.0 unless solved */
    double min_entropy;    /* bits per sample, a whole multiple of 2^-24, never overstated */
} abutfern_Estimate;

typedef struct {
    uint64_t number; /* the answer number */
    uint64_t place;  /* the first bad place, for number 3 */
    uint64_t k;      /* the alphabet's size */
    uint64_t rounds; /* bisection rounds begun, at most 1,076 */
    uint64_t winner; /* the sub-predictor that won, from 1: of MultiMCW the window (63, 255, 1023 or
                        4095 samples), of MultiMMC the level (as many samples); 0 if there is none */
    uint64_t score;  /* how often the winner's own prediction was right, at most n */
    abutfern_Estimate estimate;
} abutfern_Answer;

typedef struct { uint64_t number, place, bit; } abutfern_BitRead;
typedef struct { uint64_t number, size; } abutfern_Alphabet;
typedef struct { uint64_t number; double value; } abutfern_Value;
typedef struct { uint64_t number, rounds; double value; } abutfern_Solved;

/* which: 1 MultiMCW bits, 2 MultiMCW literal, 3 MultiMMC bits, 4 MultiMMC literal, 0 if none */
typedef struct { uint64_t number, which; double value; } abutfern_Figure;

/* size: how many bytes the record takes, 0 if refused */
typedef struct { uint64_t number, size; } abutfern_Written;

/* told: 1 if the record tells who predicted; 0 if winner and score are absent, which is not the same
 * as 0: the two fields of the answer are then 0 and say nothing. answer: what the record holds; a refusal of
 * the same number if refused */
typedef struct { uint64_t number, size, told; abutfern_Answer answer; } abutfern_Reading;

/* good: the good records before the first bad one, or all of them; number: 0 if none is bad, else
 * that of the first bad one, whose place is `good`, counted from 0; byte: where the first bad one
 * starts, or the length of the input */
typedef struct { uint64_t good, number, byte; } abutfern_Row;

/* Bit i of a capture: at width 1 the symbol itself, else the low `width` bits of each symbol,
 * highest first. Answers 1, 7, 2 (i past the end), 3 (only for the symbol that it reads). */
abutfern_BitRead abutfern_bit(const uint8_t *symbols, size_t length, uint8_t width, uint64_t i);

/* Writes to out[0..length] the number of each symbol by first sight. Answers 1, 2 (out shorter
 * than the capture). What stands beyond is unchanged. */
abutfern_Alphabet abutfern_dense_alphabet(
    const uint8_t *symbols, size_t length, uint8_t *out, size_t out_length);

/* The same with the symbols numbered in rising order. */
abutfern_Alphabet abutfern_value_sorted_alphabet(
    const uint8_t *symbols, size_t length, uint8_t *out, size_t out_length);

/* Whether a and b are equal, or close absolutely, relatively or by units in the last place. */
bool abutfern_rel_epsilon_equal(
    double a, double b, double max_abs_factor, double max_rel_factor, uint64_t max_ulp);

/* The square root, rounded correctly; not a number for a negative x or for not a number. */
double abutfern_sqrt(double x);

/* The natural logarithm: minus infinity at 0, not a number below it. */
double abutfern_ln(double x);

/* x to the whole power n, by halving n. */
double abutfern_power(double x, uint64_t n);

/* -log2 of p, rounded down to a multiple of 2^-24, at most 2^-22 below. Answers 5 (p outside
 * 1/256..1). */
abutfern_Value abutfern_min_entropy(double p);

/* The function of p whose root p_local is. Answers 4 (n > 134,217,728 or max_run_len > n),
 * 5 (p outside 1/256 up to but not 1). */
abutfern_Value abutfern_prediction_estimate_function(double p, uint64_t max_run_len, uint64_t n);

/* Its root in ldomain..1 by bisection. Answers as above, with ldomain in the place of p. */
abutfern_Solved abutfern_calc_p_local(uint64_t max_run_len, uint64_t n, double ldomain);

/* The estimate from counts and the alphabet's size. Counts have no predictors: winner and score are
 * 0. Answers 4 (c > n, max_run_len > c, c > 0 with max_run_len 0, k outside 1..256,
 * n > 134,217,728). */
abutfern_Answer abutfern_prediction_estimate(
    uint64_t c, uint64_t n, uint64_t max_run_len, uint64_t k);

/* MultiMCW on the bits of a capture. Answers 1, 7, 6, 3. */
abutfern_Answer abutfern_multi_mcw(const uint8_t *symbols, size_t length, uint8_t bits_per_symbol);

/* MultiMCW on the symbols; out needs `length` bytes and takes the translation by first sight.
 * Answers 1, 6, 2. */
abutfern_Answer abutfern_multi_mcw_literal(
    const uint8_t *symbols, size_t length, uint8_t *out, size_t out_length);

/* MultiMMC on the bits; counters needs ABUTFERN_COUNTERS numbers and takes the counts. Level L's
 * start at 2^(L+1) - 4: context times two, plus the next bit, the oldest bit highest.
 * Answers 1, 7, 6, 2, 3. */
abutfern_Answer abutfern_multi_mmc(
    const uint8_t *symbols, size_t length, uint8_t bits_per_symbol,
    uint32_t *counters, size_t counters_length);

/* MultiMMC on the symbols; out needs `length` bytes and takes the rising translation; space needs
 * ABUTFERN_SPACE numbers, which are zero afterwards, or, for at most two distinct values,
 * ABUTFERN_COUNTERS, which take the counts. Answers 1, 6, 2. */
abutfern_Answer abutfern_multi_mmc_literal(
    const uint8_t *symbols, size_t length, uint8_t *out, size_t out_length,
    uint32_t *space, size_t space_length);

/* The smallest of the four estimates, in bits per symbol, and which; none unless all four ran.
 * Answers 7 for its own width first of all; then the number of the first refused one (5 for a
 * number above 7 other than 10), 5 (an entropy out of range), 6 (one or more of the four did not
 * run: those with number 6). On each of these `which` is 0 and `value` -1.0, and the board has no
 * figure: one that is kept from an earlier call is another board's. */
abutfern_Figure abutfern_board_figure(
    abutfern_Answer mcw_bits, abutfern_Answer mcw_literal,
    abutfern_Answer mmc_bits, abutfern_Answer mmc_literal, uint8_t bits_per_symbol);

/* Records: docs/RECORDS.md has the layout. What is written in ABUTFERN_NAMED_RECORD_KIND reads as the
 * same answer, and in ABUTFERN_RECORD_KIND as the same but for winner and score, which are absent.
 * What was read writes, in its own kind, as the same bytes.
 *
 * Writes the record of an answer, of one of these kinds, at the start of out; what stands beyond is
 * unchanged. `told` is 0 where the answer's winner and score are absent, as abutfern_Reading says of
 * what was read from a record of ABUTFERN_RECORD_KIND; they are then not looked at. It is any other
 * number where they are there, as in every answer of the estimators. Answers 2 (out shorter than the
 * record, or than ABUTFERN_RECORD_SIZE bytes where there is no such kind), 8 (no such kind), 9 (an
 * answer that no estimator gives: see docs/RECORDS.md; or winner and score absent and asked for).
 * Any answer of the estimators and of abutfern_prediction_estimate is written in either kind. */
abutfern_Written abutfern_write_record(
    abutfern_Answer answer, uint64_t told, uint64_t kind, uint8_t *out, size_t out_length);

/* Reads the record at the start, whatever follows it. Answers 8, 9. Whatever its length field says,
 * no byte past `length` is read. */
abutfern_Reading abutfern_read_record(const uint8_t *bytes, size_t length);

/* Reads records that stand one after the other, up to the first bad one. No bytes are no records,
 * and no error. */
abutfern_Row abutfern_read_records(const uint8_t *bytes, size_t length);

/* The record of a place, counted from 0, found by reading those before it. Where one of them is bad
 * its number is given, and 8 past the last. To read all of them, go on by the size that
 * abutfern_read_record says. */
abutfern_Reading abutfern_record_at(const uint8_t *bytes, size_t length, uint64_t place);

#ifdef __cplusplus
}
#endif

#endif
