/* The program `squirrel run IMAGE`: lines go to it, and for each one reply comes back. */
#ifndef PROGRAM_H
#define PROGRAM_H

#include <stdbool.h>
#include <stddef.h>
#include <stdint.h>
#include <sys/types.h>

enum { LONGEST_LINE = 65536, SHORT_LINES = 4096 };

/* A script may not have so many bytes. */
#define SCRIPT_LIMIT (UINT64_C(1) << 32)

struct program {
    const char *path;
    const char *image;
    uint64_t script_limit;
    uint64_t script_bytes;
    unsigned asked;     /* how many lines were sent whose reply hasn't been taken */
    char lines[SHORT_LINES];    /* short ones that go out together, with the next long one or before a reply is taken */
    size_t held;                /* how many bytes of them there are */
    pid_t process;      /* 0 where none runs */
    int script;         /* the descriptor that takes lines, and doesn't wait */
    int replies;        /* the one that gives replies */
    int errors;         /* the one that gives what it writes to standard error */
    char *buffer;       /* what was read of the replies: the next one begins at `begin` */
    size_t begin, end, room;
    bool is_broken;     /* each call is answered EIO from now on */
    int status;         /* how the last process ended, as an exit status */
};

/* Starts the program and asks it `df`. False where it ended instead: `status` tells how, and what it wrote is passed on. */
bool program_start(struct program *program);

/* Sends a line, which ends with its newline. Replies that come meanwhile are kept. False where it has no program to go to. */
bool program_send(struct program *program, const char *line, size_t length);

/* The reply to the first line that was sent and has none yet; NULL where there is none. It stands until the next call. */
const char *program_take(struct program *program);

/* Whether a line of this length may be sent while others wait for their replies. */
bool program_has_room(const struct program *program, size_t length);

/* Whether the program answers, as far as it was looked at: nothing of it was out of order. */
bool program_is_up(const struct program *program);

/* Looks at the program when something of it has come: its end, or what it wrote to standard error, which is passed on. */
void program_look(struct program *program);

/* No call is answered any more. The first cause is told. */
void program_give_up(struct program *program, const char *cause);

/* Ends the script, waits for the program's end, and passes on what it wrote. Returns its exit status. */
int program_end(struct program *program);

#endif
