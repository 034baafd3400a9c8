/* Why the program can't use its image. It says only that it can't: the adapter looks at the image then. */
#ifndef CAUSES_H
#define CAUSES_H

#include <stdbool.h>
#include <stddef.h>
#include <stdint.h>

enum { CAUSE_ROOM = 4096 + 256 };

/* Of an image with which the program didn't start. False where nothing is found. */
bool cause_at_start(const char *image, char cause[CAUSE_ROOM]);

/* Of an image that had so many bytes when the program started, once a fence has failed. */
void cause_of_fault(const char *image, uint64_t bytes, char cause[CAUSE_ROOM]);

/* How many bytes an image has, 0 where that can't be told. */
uint64_t bytes_of_image(const char *image);

#endif
