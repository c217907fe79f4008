/*
 * Exchanges 16 bytes with 16 others where the lowest bit of the first argument
 * is set, and else leaves them.
 *
 * Leaks nothing: all bytes are read and written whatever the bit is, and a mask
 * selects what changes.
 */
#include <stdint.h>

void swap_bytes(uint32_t exchange, uint8_t *left, uint8_t *right)
{
    uint8_t mask = (uint8_t)-(exchange & 1);

    for (uint32_t i = 0; i < 16; i++) {
        uint8_t change = mask & (left[i] ^ right[i]);

        left[i] ^= change;
        right[i] ^= change;
    }
}
