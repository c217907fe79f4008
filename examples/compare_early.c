/*
 * Tells whether 32 bytes equal 32 others: 1 where they do, and else 0.
 *
 * Leaks by a branch: it ends at the first bytes that differ, so that its run
 * tells how many of the first bytes are equal.
 */
#include <stdint.h>

uint32_t equal_bytes(const uint8_t *left, const uint8_t *right)
{
    for (uint32_t i = 0; i < 32; i++)
        if (left[i] != right[i])
            return 0;
    return 1;
}
