/*
 * Clears 64 bytes, and then counts whether two bytes differ.
 *
 * Leaks by a branch, but late: a check whose bound ends within the first loop sees
 * nothing of it.
 */
#include <stdint.h>

uint8_t scratch[64];
volatile uint32_t differences;

void compare_bytes(uint8_t left, uint8_t right)
{
    for (uint32_t i = 0; i < sizeof scratch; i++)
        *(volatile uint8_t *)&scratch[i] = 0;
    if (left != right)
        differences++;
}
