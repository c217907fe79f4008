/*
 * One base64 digit (RFC 4648) to its value: 0 to 63, and 255 for any other byte.
 *
 * Leaks nothing: every range is tested for every digit, and masks select the
 * value by arithmetic. The instructions that run are always the same, and none
 * of them loads or stores.
 */
#include <stdint.h>

/* All bits set where first <= digit <= last, else none. */
static uint32_t within(uint32_t digit, uint32_t first, uint32_t last)
{
    return (((digit - first) | (last - digit)) >> 31) - 1;
}

uint8_t decode_digit(uint8_t digit)
{
    uint32_t upper = within(digit, 'A', 'Z');
    uint32_t lower = within(digit, 'a', 'z');
    uint32_t number = within(digit, '0', '9');
    uint32_t plus = within(digit, '+', '+');
    uint32_t slash = within(digit, '/', '/');

    return (upper & (digit - 'A'))
         | (lower & (digit - 'a' + 26))
         | (number & (digit - '0' + 52))
         | (plus & 62)
         | (slash & 63)
         | ~(upper | lower | number | plus | slash);
}
