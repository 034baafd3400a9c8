/* A mounted volume: script lines about its nodes, and what their replies say. */
#ifndef VOLUME_H
#define VOLUME_H

#include "listings.h"
#include "nodes.h"
#include "program.h"

#include <stdbool.h>
#include <stddef.h>
#include <stdint.h>
#include <sys/types.h>

enum { PAGE = 4096 };

struct volume {
    struct program program;
    struct nodes nodes;
    struct listing *listings;   /* of the directories that are open */
    uid_t user;
    gid_t group;
    uint64_t image_bytes;       /* when the program started */
    uint64_t hidden_names;      /* how many there are */
    bool has_others;            /* names of their form that are none */
    bool is_quiet;              /* modes and owners that can't be kept are no error */
    char line[LONGEST_LINE + 1];
    size_t length;              /* of the line */
    int line_error;             /* why it can't be asked, or 0 */
    const char *reply;
    char *bytes;                /* what was read last */
    size_t room;                /* for them */
};

struct status {
    bool is_directory;
    uint64_t inode;
    uint64_t links;
    uint64_t size;              /* bytes of a file, names of a directory */
};

struct space {
    uint64_t free_inodes, inodes, free_pages, pages;
};

/* A line is built word by word, and asked. What names a node that has gone is ESTALE, and what is in one ENOENT. */
void line_begin(struct volume *volume, const char *command);
void line_add_node(struct volume *volume, uint64_t inode);
void line_add_name(struct volume *volume, uint64_t directory, const char *name);
void line_add_number(struct volume *volume, uint64_t number);

/* As many bytes as the line has room for, whole pages where it has room for one. Returns their number, 0 where there is none. */
size_t line_add_bytes(struct volume *volume, const char *bytes, size_t length);

/* Asks the line. 0 where it is done, or the error that stands for the refusal. */
int line_ask(struct volume *volume);

/* The same in two steps: several lines may go out before the first reply is taken, and each reply is taken. */
int line_send(struct volume *volume);
int line_take(struct volume *volume);

/* Whether the line may be sent now. Else the replies of those before it are taken first. */
bool line_may_wait(const struct volume *volume);

/* A reply that is none of those that were to come: EIO from now on. */
int volume_bad_reply(struct volume *volume);

/* A line about one node, or about one name in a directory. */
int volume_ask_node(struct volume *volume, const char *command, uint64_t inode);
int volume_ask_name(struct volume *volume, const char *command, uint64_t directory, const char *name);

int volume_stat_node(struct volume *volume, uint64_t inode, struct status *status);
int volume_stat_name(struct volume *volume, uint64_t directory, const char *name, struct status *status);
int volume_rename(struct volume *volume, uint64_t directory, const char *name, uint64_t new_directory, const char *new_name);
int volume_link(struct volume *volume, uint64_t inode, uint64_t directory, const char *name);

/* A name is made, of a new file or directory or of a file that is there; and what it names then. */
int volume_make(struct volume *volume, const char *command, uint64_t directory, const char *name, struct status *status);
int volume_make_link(struct volume *volume, uint64_t inode, uint64_t directory, const char *name, struct status *status);

int volume_truncate(struct volume *volume, uint64_t inode, uint64_t size);
int volume_space(struct volume *volume, struct space *space);

/* The names of a directory, decoded, each behind the last one's zero byte, in memory to be freed. */
int volume_list(struct volume *volume, uint64_t inode, char **names, size_t *length);

#endif
