/* The nodes that the system was handed, by inode number, and the names by which it met them. */
#ifndef NODES_H
#define NODES_H

#include <stdbool.h>
#include <stddef.h>
#include <stdint.h>
#include <sys/types.h>
#include <time.h>

enum { ROOT = 1, NAME_BUCKETS = 65536 };

/* For so many seconds a thread that was told of a node by its name may be about to call it. */
enum { SOUGHT_SECONDS = 5 };

struct name {
    struct name *next_of_node;
    struct name *next_in_bucket;
    uint64_t node;
    uint64_t directory;
    bool is_hidden;
    char bytes[];
};

struct times {
    struct timespec accessed, modified, changed;
};

/* That a thread was told of a node by its name. */
struct told {
    pid_t thread;           /* 0 where it isn't known */
    time_t until;           /* when it isn't about to call the node any more, in seconds since the machine's start */
};

struct node {
    struct name *names;
    uint64_t lookups;       /* how often it was handed out, less what was forgotten */
    uint64_t children;      /* how many names are known in it */
    uint32_t generation;    /* goes up when its number is taken again */
    uint32_t opens;
    bool is_hidden;         /* one of its names is the hidden one */
    bool is_directory;
    bool has_times;
    struct told last;       /* the last thread that was told of it, */
    struct told other;      /* and the last one before that was another */
    struct times times;
};

struct nodes {
    uint64_t last;          /* the greatest inode number */
    struct node *list;
    struct name **buckets;
    struct times mounted;
};

/* Memory for the inodes 1 to `last`. */
bool nodes_make(struct nodes *nodes, uint64_t last);

/* The node of an inode number. That of 0 has no name, ever. */
struct node *nodes_at(struct nodes *nodes, uint64_t inode);

/* What the system calls a node: its inode number, its generation and its kind, so that no other node is ever called so. */
uint64_t nodes_id(struct nodes *nodes, uint64_t inode);

/* The inode number of the node that is called so, or 0 where another has its number now. */
uint64_t nodes_inode(struct nodes *nodes, uint64_t id);

/* What stays known of a node that has gone: which number it had, and whether it was a directory. */
uint64_t id_inode(uint64_t id);
bool id_is_directory(uint64_t id);

/* The name in a directory, or NULL where it isn't known. */
struct name *nodes_find(struct nodes *nodes, uint64_t directory, const char *bytes);

/* A name is known to name a node, and nothing else. NULL where memory is out. */
struct name *nodes_name(struct nodes *nodes, uint64_t directory, const char *bytes, uint64_t inode);

/* A name is no longer there. */
void nodes_unname(struct nodes *nodes, uint64_t directory, const char *bytes);

/* An inode number was taken for what has just been made: whatever else had it is gone. */
void nodes_renew(struct nodes *nodes, uint64_t inode);

/* The system has forgotten a node so many times. */
void nodes_forget(struct nodes *nodes, uint64_t inode, uint64_t count);

/* Names go of a node that is neither known to the system nor open. */
void nodes_let_go(struct nodes *nodes, uint64_t inode);

/* Whether only its hidden name keeps a file that is neither known to the system nor open. */
bool nodes_is_left(struct nodes *nodes, uint64_t inode);

/* A thread is told of a node by its name. */
void nodes_tell(struct nodes *nodes, uint64_t inode, pid_t thread);

/* Whether another thread than this was told of it, and may be about to call it. */
bool nodes_is_sought(struct nodes *nodes, uint64_t inode, pid_t thread);

/* Whether this is the only name that is known of a node. */
bool nodes_is_last_name(struct nodes *nodes, const struct name *name);

const struct times *nodes_times(struct nodes *nodes, uint64_t inode);

/* The content of a node has changed now, or only what is known of it. */
void nodes_touch(struct nodes *nodes, uint64_t inode);
void nodes_touch_status(struct nodes *nodes, uint64_t inode);

/* Times that were set: those that aren't NULL. */
void nodes_set_times(struct nodes *nodes, uint64_t inode, const struct timespec *accessed, const struct timespec *modified);

#endif
