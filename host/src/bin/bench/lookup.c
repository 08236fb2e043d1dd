/* Each symbol's number from a table that is filled already: the least that a lookup can cost. */

#include <stddef.h>
#include <stdint.h>

void plain_lookup(const uint8_t *restrict symbols, size_t count,
                  const uint8_t table[restrict 256], uint8_t *restrict out)
{
    for (size_t i = 0; i < count; i++)
        out[i] = table[symbols[i]];
}
