/* The words of the command line. */
#ifndef WORDS_H
#define WORDS_H

#include "calls.h"

#include <stdbool.h>

struct options {
    int is_foreground;
    int is_quiet;
    int is_help;
    int is_version;
    unsigned long long script_limit;
    char *image;
    char *folder;
};

/* Takes the words that are squirrel-mount's own, and leaves mount options for libfuse. False where they ask for nothing. */
bool read_options(struct fuse_args *words, struct options *options);

/* What was asked for in place of a mount, on standard output. */
void tell_help(void);
void tell_version(void);

#endif
