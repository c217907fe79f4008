/*
 * Tells whether 32 bytes equal 32 others: 1 where they do, and else 0.
 *
 * Leaks nothing: all bytes are read, whatever they hold, and their differences
 * are gathered by arithmetic.
 */
#include <stdint.h>

uint32_t equal_bytes(const uint8_t *left, const uint8_t *right)
{
    uint32_t difference = 0;

    for (uint32_t i = 0; i < 32; i++)
        difference |= left[i] ^ right[i];
    return (difference - 1) >> 31;
}
