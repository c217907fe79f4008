/*
 * One base64 digit (RFC 4648), read from memory, to its value, written to
 * memory: 0 to 63, and 255 for any other byte.
 *
 * Leaks nothing: every range is tested for every digit, and masks select the
 * value. The addresses of all loads and stores come from the two pointers and
 * from the stack pointer, never from the digit.
 */
#include <stdint.h>

/* The buffers that decode_memory.toml names. */
uint8_t key_digit;
uint8_t key_value;

/* All bits set where first <= digit <= last, else none. A call, for which the
   routine keeps its registers on the stack. */
__attribute__((noinline))
static uint32_t within(uint32_t digit, uint32_t first, uint32_t last)
{
    return (((digit - first) | (last - digit)) >> 31) - 1;
}

void decode_digit(uint8_t *value, const uint8_t *place)
{
    uint32_t digit = *place;
    uint32_t upper = within(digit, 'A', 'Z');
    uint32_t lower = within(digit, 'a', 'z');
    uint32_t number = within(digit, '0', '9');
    uint32_t plus = within(digit, '+', '+');
    uint32_t slash = within(digit, '/', '/');

    *value = (upper & (digit - 'A'))
           | (lower & (digit - 'a' + 26))
           | (number & (digit - '0' + 52))
           | (plus & 62)
           | (slash & 63)
           | ~(upper | lower | number | plus | slash);
}
