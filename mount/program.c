#define _GNU_SOURCE
#include "program.h"

#include <errno.h>
#include <fcntl.h>
#include <poll.h>
#include <signal.h>
#include <stdio.h>
#include <stdlib.h>
#include <string.h>
#include <sys/wait.h>
#include <time.h>
#include <unistd.h>

/* A pipe has room for the replies to all pieces of most reads, so that the program doesn't wait for the adapter to take them. */
enum { REPLIES_ROOM = 262144, PIECE = 65536, STATUS_IN_USE = 5, STATUS_NOT_STARTED = 127 };

static const struct timespec one_try = {.tv_nsec = 20 * 1000 * 1000};

static double seconds_now(void)
{
    struct timespec now;
    clock_gettime(CLOCK_MONOTONIC, &now);
    return (double)now.tv_sec + (double)now.tv_nsec / 1e9;
}

static bool write_all(int file, const char *bytes, size_t length)
{
    while (length > 0) {
        ssize_t count = write(file, bytes, length);
        if (count < 0 && errno == EINTR)
            continue;
        if (count < 0)
            return false;
        bytes += count;
        length -= (size_t)count;
    }
    return true;
}

static ssize_t read_some(int file, char *bytes, size_t length)
{
    ssize_t count;
    do
        count = read(file, bytes, length);
    while (count < 0 && errno == EINTR);
    return count;
}

static void close_file(int *file)
{
    if (*file >= 0)
        close(*file);
    *file = -1;
}

/* In the new process: streams, a session of its own, no folder of the caller, and nothing else that the adapter has open. */
static void become_program(const struct program *program, int script, int replies, int errors)
{
    sigset_t none;
    sigemptyset(&none);
    sigprocmask(SIG_SETMASK, &none, NULL);
    signal(SIGPIPE, SIG_DFL);
    setsid();
    if (dup2(script, STDIN_FILENO) < 0 || dup2(replies, STDOUT_FILENO) < 0 || dup2(errors, STDERR_FILENO) < 0 || chdir("/") != 0)
        _exit(STATUS_NOT_STARTED);
    close_range(STDERR_FILENO + 1, ~0U, 0);
    execlp(program->path, program->path, "run", program->image, (char *)NULL);
    dprintf(STDERR_FILENO, "squirrel-mount: %s can't be started: %s\n", program->path, strerror(errno));
    _exit(STATUS_NOT_STARTED);
}

/* Pipes that no other process inherits. */
static bool make_pipes(int pipes[3][2])
{
    for (int index = 0; index < 3; index++) {
        if (pipe2(pipes[index], O_CLOEXEC) != 0) {
            while (index-- > 0) {
                close(pipes[index][0]);
                close(pipes[index][1]);
            }
            return false;
        }
    }
    return true;
}

static bool start_process(struct program *program)
{
    int pipes[3][2];
    if (!make_pipes(pipes))
        return false;
    program->process = fork();
    if (program->process == 0)
        become_program(program, pipes[0][0], pipes[1][1], pipes[2][1]);
    close(pipes[0][0]);
    close(pipes[1][1]);
    close(pipes[2][1]);
    program->script = pipes[0][1];
    program->replies = pipes[1][0];
    program->errors = pipes[2][0];
    program->script_bytes = 0;
    program->asked = 0;
    program->held = 0;
    program->begin = program->end = 0;
    if (program->process > 0) {
        fcntl(program->script, F_SETFL, O_WRONLY | O_NONBLOCK);
        fcntl(program->replies, F_SETPIPE_SZ, REPLIES_ROOM);
        return true;
    }
    program->process = 0;
    close_file(&program->script);
    close_file(&program->replies);
    close_file(&program->errors);
    return false;
}

static bool has_room(const struct program *program)
{
    return program->room - program->end >= PIECE;
}

/* Room for at least one piece behind what was read. */
static bool make_room(struct program *program)
{
    if (program->begin == program->end)
        program->begin = program->end = 0;
    if (has_room(program))
        return true;
    if (program->begin > 0) {
        memmove(program->buffer, program->buffer + program->begin, program->end - program->begin);
        program->end -= program->begin;
        program->begin = 0;
    }
    if (has_room(program))
        return true;
    size_t room = 2 * program->room + PIECE;
    char *buffer = realloc(program->buffer, room);
    if (buffer == NULL)
        return false;
    program->buffer = buffer;
    program->room = room;
    return true;
}

/* Keeps what there is of the replies, waiting where there is nothing. False at their end. */
static bool read_replies(struct program *program)
{
    if (!make_room(program))
        return false;
    ssize_t count = read_some(program->replies, program->buffer + program->end, program->room - program->end);
    if (count <= 0)
        return false;
    program->end += (size_t)count;
    return true;
}

/* The next reply without its newline, or NULL at the end of the replies. */
static const char *next_reply(struct program *program)
{
    size_t seen = 0;
    for (;;) {
        char *begin = program->buffer + program->begin;
        size_t length = program->end - program->begin;
        char *newline = length > seen ? memchr(begin + seen, '\n', length - seen) : NULL;
        if (newline != NULL) {
            *newline = '\0';
            program->begin += (size_t)(newline - begin) + 1;
            return begin;
        }
        seen = length;
        if (!read_replies(program))
            return NULL;
    }
}

/* Passes on what the program has written to standard error. */
static void pass_errors(struct program *program)
{
    char bytes[4096];
    struct pollfd errors = {.fd = program->errors, .events = POLLIN};
    while (program->errors >= 0 && poll(&errors, 1, 0) == 1) {
        ssize_t count = read_some(program->errors, bytes, sizeof bytes);
        if (count <= 0)
            close_file(&program->errors);
        else if (!write_all(STDERR_FILENO, bytes, (size_t)count))
            return;
    }
}

static int exit_status(int status)
{
    return WIFSIGNALED(status) ? 128 + WTERMSIG(status) : WEXITSTATUS(status);
}

/* Waits for the process's end. */
static void reap(struct program *program)
{
    int status;
    if (program->process == 0)
        return;
    pid_t ended;
    do
        ended = waitpid(program->process, &status, 0);
    while (ended < 0 && errno == EINTR);
    program->process = 0;
    program->status = ended > 0 ? exit_status(status) : STATUS_NOT_STARTED;
}

/* What it wrote to standard output behind its last reply. */
static void pass_replies(struct program *program)
{
    write_all(STDOUT_FILENO, program->buffer + program->begin, program->end - program->begin);
    program->begin = program->end = 0;
    while (make_room(program)) {
        ssize_t count = read_some(program->replies, program->buffer, program->room);
        if (count <= 0 || !write_all(STDOUT_FILENO, program->buffer, (size_t)count))
            return;
    }
}

/* Ends the script and waits for the program's end. What it wrote is passed on where that is wanted. */
static void end_process(struct program *program, bool is_told)
{
    close_file(&program->script);
    if (program->replies >= 0 && is_told)
        pass_replies(program);
    close_file(&program->replies);
    reap(program);
    if (is_told)
        pass_errors(program);
    close_file(&program->errors);
}

int program_end(struct program *program)
{
    end_process(program, true);
    return program->status;
}

void program_give_up(struct program *program, const char *cause)
{
    if (!program->is_broken)
        fprintf(stderr, "squirrel-mount: %s: each call is answered EIO until the volume is mounted anew\n", cause);
    program->is_broken = true;
}

/* Gives up since the program has ended. */
static void tell_end(struct program *program)
{
    char cause[64];
    /* the end of its replies may come a moment before its own */
    reap(program);
    snprintf(cause, sizeof cause, "the program ended with status %d", program->status);
    program_give_up(program, cause);
}

/* Waits until the script takes bytes. Replies are kept meanwhile, so that the program never waits for the adapter. */
static bool await_script(struct program *program)
{
    struct pollfd files[] = {
        {.fd = program->script, .events = POLLOUT},
        {.fd = program->replies, .events = POLLIN},
    };
    while (poll(files, 2, -1) < 0) {
        if (errno != EINTR)
            return false;
    }
    return files[1].revents == 0 || read_replies(program);
}

/* What can't be written has no reply: the program ends its replies, or has ended them. */
static void write_lines(struct program *program, const char *lines, size_t length)
{
    while (length > 0) {
        ssize_t count = write(program->script, lines, length);
        if (count > 0) {
            lines += count;
            length -= (size_t)count;
        } else if (errno != EINTR && (errno != EAGAIN || !await_script(program))) {
            close_file(&program->script);
            return;
        }
    }
}

/* Writes the lines that are held. */
static void let_go_lines(struct program *program)
{
    write_lines(program, program->lines, program->held);
    program->held = 0;
}

static void send_line(struct program *program, const char *line, size_t length)
{
    program->script_bytes += length;
    program->asked++;
    if (length > sizeof program->lines - program->held)
        let_go_lines(program);
    if (length > sizeof program->lines) {
        write_lines(program, line, length);
    } else {
        memcpy(program->lines + program->held, line, length);
        program->held += length;
    }
}

/* The reply to the first line that has none yet, without its newline, or NULL at the end of the replies. */
static const char *take_reply(struct program *program)
{
    let_go_lines(program);
    program->asked--;
    return next_reply(program);
}

/* What stands in place of a reply to `df` is a text of the program, which goes where it would have gone. */
static bool is_answering(struct program *program)
{
    send_line(program, "df\n", 3);
    const char *reply = take_reply(program);
    if (reply != NULL && strncmp(reply, "ok ", 3) == 0)
        return true;
    if (reply != NULL) {
        program->buffer[program->begin - 1] = '\n';
        program->begin = (size_t)(reply - program->buffer);
    }
    return false;
}

/* One try. A program that has no job is waited for, and told of where that is wanted. */
static bool try_start(struct program *program, bool is_told)
{
    if (!start_process(program)) {
        program->status = STATUS_NOT_STARTED;
        return false;
    }
    if (is_answering(program))
        return true;
    end_process(program, is_told);
    return false;
}

bool program_start(struct program *program)
{
    return try_start(program, true);
}

/* Starts it behind a script that was ended. For a second it may wait for another job that has the image. */
static bool start_anew(struct program *program)
{
    double end = seconds_now() + 1.0;
    while (!try_start(program, false)) {
        if (program->status != STATUS_IN_USE) {
            tell_end(program);
            return false;
        }
        if (seconds_now() >= end)
            return false;
        nanosleep(&one_try, NULL);
    }
    return true;
}

/* Before a line would reach the limit, the script is ended and another begun. */
static bool has_script_for(struct program *program, size_t length)
{
    if (program->process != 0 && !program_has_room(program, length)) {
        end_process(program, true);
        if (program->status != 0) {
            tell_end(program);
            return false;
        }
    }
    return program->process != 0 || start_anew(program);
}

bool program_has_room(const struct program *program, size_t length)
{
    return program->script_bytes + length < program->script_limit;
}

bool program_send(struct program *program, const char *line, size_t length)
{
    if (program->is_broken || (program->asked == 0 && !has_script_for(program, length)))
        return false;
    send_line(program, line, length);
    return true;
}

/* The end of the replies: what the program wrote besides them, and how it ended. */
static void take_end(struct program *program)
{
    close_file(&program->script);
    pass_errors(program);
    tell_end(program);
}

const char *program_take(struct program *program)
{
    const char *reply = take_reply(program);
    if (reply == NULL && !program->is_broken)
        take_end(program);
    return reply;
}

bool program_is_up(const struct program *program)
{
    return !program->is_broken;
}

void program_look(struct program *program)
{
    struct pollfd replies = {.fd = program->replies};
    pass_errors(program);
    if (!program->is_broken && poll(&replies, 1, 0) == 1)
        take_end(program);
}
