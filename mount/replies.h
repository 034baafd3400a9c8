/* A reply is read from left to right: this text, or a number, or bytes to its end. */
#ifndef REPLIES_H
#define REPLIES_H

#include <stdbool.h>
#include <stddef.h>
#include <stdint.h>

/* Each goes on behind what it took. False where something else stands there. */
bool take_text(const char **at, const char *text);
bool take_number(const char **at, uint64_t *number);

/* So many bytes of two digits each, or the sign for none, and nothing behind them. */
bool take_bytes(const char *at, char *bytes, size_t count);

#endif
