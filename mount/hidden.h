/* Files without a name, which hidden ones in the root keep: `.squirrel-INODE`, or `.squirrel-INODE-N` where that is taken. */
#ifndef HIDDEN_H
#define HIDDEN_H

#include "volume.h"

/* Whether a name in a directory has that form. Callers can't make one. */
bool hidden_is_form(uint64_t directory, const char *name);

/* Whether it is a hidden name of this mount, which nobody sees. */
bool hidden_is_name(struct volume *volume, uint64_t directory, const char *name);

/* Removes all hidden names: at a mount, and at its end. What else has a name of that form stays. */
int hidden_remove_all(struct volume *volume);

/* The last name of a file is to go: it gets a hidden one in its place, or beside it. */
int hidden_rename(struct volume *volume, const struct name *name);
int hidden_link(struct volume *volume, uint64_t inode);

/* The hidden name of a file goes, and the file with it where it has no other. */
void hidden_unlink(struct volume *volume, uint64_t inode);

#endif
