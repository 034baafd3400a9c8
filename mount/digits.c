#include "digits.h"

/* Both loops are without branches and tables, so that the compiler makes them wide. */

void digits_write(char *restrict digits, const char *restrict bytes, size_t count)
{
    for (size_t index = 0; index < count; index++) {
        unsigned char high = (unsigned char)bytes[index] >> 4, low = (unsigned char)bytes[index] & 15;
        digits[2 * index] = (char)(high + (high > 9 ? 'a' - 10 : '0'));
        digits[2 * index + 1] = (char)(low + (low > 9 ? 'a' - 10 : '0'));
    }
}

/* What a digit stands for, or 16 and more. */
static inline unsigned char value_of(char digit)
{
    unsigned char decimal = (unsigned char)(digit - '0'), letter = (unsigned char)((digit | 32) - 'a');
    unsigned char of_letter = letter < 6 ? letter + 10 : 16;
    return decimal < 10 ? decimal : of_letter;
}

bool digits_read(char *restrict bytes, const char *restrict digits, size_t count)
{
    unsigned char all = 0;
    for (size_t index = 0; index < count; index++) {
        unsigned char high = value_of(digits[2 * index]), low = value_of(digits[2 * index + 1]);
        all |= high | low;
        bytes[index] = (char)(high << 4 | low);
    }
    return all < 16;
}
