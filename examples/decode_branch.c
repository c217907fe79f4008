/*
 * One base64 digit (RFC 4648) to its value: 0 to 63, and 255 for any other byte.
 *
 * Leaks by control flow: the comparisons choose the way through the code, and
 * so the secret digit shows in the addresses of the instructions that run.
 */
#include <stdint.h>

uint8_t decode_digit(uint8_t digit)
{
    if (digit >= 'A' && digit <= 'Z')
        return digit - 'A';
    if (digit >= 'a' && digit <= 'z')
        return digit - 'a' + 26;
    if (digit >= '0' && digit <= '9')
        return digit - '0' + 52;
    if (digit == '+')
        return 62;
    if (digit == '/')
        return 63;
    return 255;
}
