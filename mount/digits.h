/* Bytes as two hexadecimal digits each. */
#ifndef DIGITS_H
#define DIGITS_H

#include <stdbool.h>
#include <stddef.h>

/* Writes the digits of so many bytes, twice as many. */
void digits_write(char *digits, const char *bytes, size_t count);

/* Reads so many bytes from twice as many digits of either case. False where one of them is no digit. */
bool digits_read(char *bytes, const char *digits, size_t count);

#endif
