/*
 * Tells whether 4 bytes equal 4 others: 1 where they do, and else 0. Compiled
 * without optimisation, so that every value lies on the stack.
 *
 * Leaks by a branch. But its policy gives it no stack, so that its run ends by a
 * fault at the first store, and what comes after that isn't checked.
 */
#include <stdint.h>

uint32_t equal_words(const uint8_t *left, const uint8_t *right)
{
    for (uint32_t i = 0; i < 4; i++)
        if (left[i] != right[i])
            return 0;
    return 1;
}
