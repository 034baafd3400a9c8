#include "replies.h"
#include "digits.h"

#include <string.h>

bool take_text(const char **at, const char *text)
{
    size_t length = strlen(text);
    if (strncmp(*at, text, length) != 0)
        return false;
    *at += length;
    return true;
}

bool take_number(const char **at, uint64_t *number)
{
    const char *begin = *at;
    *number = 0;
    for (; **at >= '0' && **at <= '9'; (*at)++)
        *number = *number * 10 + (uint64_t)(**at - '0');
    return *at != begin;
}

bool take_bytes(const char *at, char *bytes, size_t count)
{
    if (count == 0)
        return strcmp(at, "-") == 0;
    return strlen(at) == 2 * count && digits_read(bytes, at, count);
}
