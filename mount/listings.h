/* Directories that are being read: the names of each as they were when its reading began. */
#ifndef LISTINGS_H
#define LISTINGS_H

#include <stddef.h>
#include <sys/types.h>

struct listing {
    struct listing *next;
    struct listing **place;     /* what leads to it: the list's head, or the one before */
    char *names;                /* each behind the last one's zero byte, or NULL */
    size_t length;
    size_t at;                  /* where a name begins, */
    off_t number;               /* and its number, from 0 on */
};

/* One more that has no names yet. NULL where memory is out. */
struct listing *listings_add(struct listing **listings);

void listings_remove(struct listing *listing);
void listings_remove_all(struct listing **listings);

/* Other names, or none, take the place of those that it has. */
void listing_take(struct listing *listing, char *names, size_t length);

/* Goes to the name of a number, or to the next one. */
void listing_seek(struct listing *listing, off_t number);
void listing_step(struct listing *listing);

/* The name that it is at, or NULL behind the last one. */
const char *listing_name(const struct listing *listing);

#endif
