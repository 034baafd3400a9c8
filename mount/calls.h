/* The system's calls, each answered by script lines. */
#ifndef CALLS_H
#define CALLS_H

#define FUSE_USE_VERSION 35
#include <fuse_lowlevel.h>

struct volume;

/* Their user data is a `struct volume`. */
extern const struct fuse_lowlevel_ops calls;

/* No call comes any more: what directories that are still open have in memory goes. */
void calls_end(struct volume *volume);

#endif
