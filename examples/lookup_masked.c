/*
 * The substitution layer of the block cipher PRESENT (ISO/IEC 29192-2): each
 * half of each of eight bytes is replaced by its entry in a table of 16.
 *
 * Leaks nothing: every entry is read for every half, and a mask keeps the one
 * that is meant.
 */
#include <stdint.h>

static const uint8_t values[16] = {
    0xc, 0x5, 0x6, 0xb, 0x9, 0x0, 0xa, 0xd, 0x3, 0xe, 0xf, 0x8, 0x4, 0x7, 0x1, 0x2,
};

static uint32_t value_at(uint32_t index)
{
    uint32_t value = 0;

    for (uint32_t i = 0; i < 16; i++)
        value |= values[i] & (((index ^ i) - 1) >> 4);
    return value;
}

void substitute(uint8_t *state)
{
    for (uint32_t i = 0; i < 8; i++)
        state[i] = (uint8_t)(value_at(state[i] >> 4) << 4 | value_at(state[i] & 15));
}
