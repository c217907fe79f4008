/*
 * A word under a mask that is kept in a global variable. The linker lets the code
 * find it by the register gp, which holds the address __global_pointer$.
 *
 * Leaks nothing: the one address comes from gp.
 */
#include <stdint.h>

uint32_t global_mask = 0x5a5a5a5a;

uint32_t mask_word(uint32_t word)
{
    return word ^ global_mask;
}
