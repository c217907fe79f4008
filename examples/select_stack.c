/*
 * One of two bytes: the first where the lowest bit of the choice is set, and else
 * the second. Compiled without optimisation, so that every value lies on the stack.
 *
 * Leaks nothing: a mask selects, and all addresses come from the stack pointer.
 */
#include <stdint.h>

uint8_t select_byte(uint8_t choice, uint8_t first, uint8_t second)
{
    uint8_t mask = (uint8_t)-(choice & 1);

    return (first & mask) | (second & (uint8_t)~mask);
}
