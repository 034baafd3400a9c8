/* The bytes of files: read and written in pieces, whose lines go out before the first reply is taken. */
#ifndef CONTENTS_H
#define CONTENTS_H

#include "volume.h"

/* At most so many bytes from an offset on. `count` gets how many there are. */
int volume_read(struct volume *volume, uint64_t inode, uint64_t offset, char *bytes, size_t length, size_t *count);

/* The bytes from an offset on. `count` gets how many were written: fewer where one is refused, of free pages as many as fill them. */
int volume_write(struct volume *volume, uint64_t inode, uint64_t offset, const char *bytes, size_t length, size_t *count);

#endif
