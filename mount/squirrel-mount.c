/* Mounts a volume as a folder: squirrel-mount IMAGE FOLDER [-f] [-o OPTIONS] */
#define _GNU_SOURCE
#include "calls.h"
#include "causes.h"
#include "hidden.h"
#include "volume.h"
#include "words.h"

#include <errno.h>
#include <fcntl.h>
#include <libgen.h>
#include <poll.h>
#include <signal.h>
#include <stdio.h>
#include <stdlib.h>
#include <string.h>
#include <sys/stat.h>
#include <unistd.h>

enum { STATUS_FAILED = 1, STATUS_USAGE = 2, STATUS_NO_VOLUME = 4, STATUS_NO_DEVICE = 5 };

static int fail(const char *what, const char *cause)
{
    fprintf(stderr, "squirrel-mount: %s: %s\n", what, cause);
    return STATUS_FAILED;
}

/* A path from the root, also of a file that isn't there, or whose folder isn't. NULL where memory is out. */
static char *absolute(const char *path)
{
    char *whole = realpath(path, NULL);
    if (whole != NULL)
        return whole;
    char *first = strdup(path), *second = strdup(path), *here = realpath(".", NULL);
    char *folder = realpath(dirname(first), NULL);
    int length = folder != NULL ? asprintf(&whole, "%s/%s", folder, basename(second))
                                : asprintf(&whole, "%s/%s", path[0] == '/' || here == NULL ? "" : here, path);
    free(folder);
    free(here);
    free(first);
    free(second);
    return length < 0 ? NULL : whole;
}

static bool is_below(const char *path, const char *folder)
{
    size_t length = strlen(folder);
    return strncmp(path, folder, length) == 0 && (path[length] == '/' || path[length] == '\0' || folder[length - 1] == '/');
}

/* Another path takes a path's place. */
static void replace_path(char **path, char *other)
{
    free(*path);
    *path = other;
}

/* Makes both paths absolute: neither the folder of the caller nor its words are looked at later. */
static int find_paths(struct options *options)
{
    char *folder = realpath(options->folder, NULL);
    if (folder == NULL)
        return fail(options->folder, strerror(errno));
    replace_path(&options->folder, folder);
    char *image = absolute(options->image);
    if (image == NULL)
        return fail(options->image, strerror(ENOMEM));
    replace_path(&options->image, image);
    return is_below(image, folder) ? fail(image, "the image is below the folder") : 0;
}

/* The program: SQUIRREL_PROGRAM, or `squirrel` by the path. */
static const char *program_path(void)
{
    const char *path = getenv("SQUIRREL_PROGRAM");
    if (path == NULL || *path == '\0')
        return "squirrel";
    char *whole = strchr(path, '/') != NULL ? realpath(path, NULL) : NULL;
    return whole != NULL ? whole : path;
}

/* Descriptors 0 to 2 are taken, so that none of the pipes gets one of these numbers. */
static bool has_streams(void)
{
    int file;
    do
        file = open("/dev/null", O_RDWR | O_CLOEXEC);
    while (file >= 0 && file <= STDERR_FILENO);
    close(file);
    return file >= 0;
}

static volatile sig_atomic_t is_stopped;

static void stop(int signal)
{
    (void)signal;
    is_stopped = 1;
}

/* The signals that end the mount come only where the adapter waits. `waiting` gets the mask for that. */
static void hold_signals(sigset_t *waiting)
{
    static const int ending[] = {SIGINT, SIGTERM, SIGHUP};
    struct sigaction action = {.sa_handler = stop};
    sigset_t held;
    sigemptyset(&held);
    for (size_t index = 0; index < sizeof ending / sizeof *ending; index++) {
        sigaddset(&held, ending[index]);
        sigaction(ending[index], &action, NULL);
    }
    sigprocmask(SIG_BLOCK, &held, waiting);
    for (size_t index = 0; index < sizeof ending / sizeof *ending; index++)
        sigdelset(waiting, ending[index]);
}

/* Waits for a call, for what the program writes to standard error, or for its end. Whether there may be a call. */
static bool await_call(struct fuse_session *session, struct volume *volume, const sigset_t *waiting)
{
    struct program *program = &volume->program;
    struct pollfd files[] = {
        {.fd = fuse_session_fd(session), .events = POLLIN},
        {.fd = program->errors, .events = POLLIN},
        {.fd = program_is_up(program) ? program->replies : -1},
    };
    if (ppoll(files, 3, NULL, waiting) < 0)
        return false;
    if (files[1].revents != 0 || files[2].revents != 0)
        program_look(program);
    return files[0].revents != 0;
}

/* Answers calls, one at a time, until the folder is unmounted or a signal comes. */
static void answer_calls(struct fuse_session *session, struct volume *volume, const sigset_t *waiting)
{
    struct fuse_buf call = {0};
    while (!is_stopped && !fuse_session_exited(session)) {
        if (!await_call(session, volume, waiting))
            continue;
        int length = fuse_session_receive_buf(session, &call);
        if (length > 0)
            fuse_session_process_buf(session, &call);
        else if (length < 0 && length != -EINTR && length != -EAGAIN)
            break;
    }
    free(call.mem);
}

/* The program didn't start: what stands in the way of its image is told, where that can be found. */
static int fail_start(const struct program *program)
{
    char cause[CAUSE_ROOM];
    bool is_image = program->status == STATUS_NO_DEVICE || program->status == STATUS_NO_VOLUME;
    if (is_image && cause_at_start(program->image, cause))
        fail(program->image, cause);
    return program->status != 0 ? program->status : STATUS_FAILED;
}

/* Starts the program, and looks what is in the volume. 0, or the exit status. */
static int start_volume(struct volume *volume)
{
    struct space space;
    if (!program_start(&volume->program))
        return fail_start(&volume->program);
    volume->image_bytes = bytes_of_image(volume->program.image);
    if (volume_space(volume, &space) == 0 && nodes_make(&volume->nodes, space.inodes) && hidden_remove_all(volume) == 0)
        return 0;
    int status = program_end(&volume->program);
    return status != 0 ? status : fail(volume->program.image, "the volume can't be used");
}

/* Ends the script. Files that are still open lose their hidden names before. */
static int end_volume(struct volume *volume)
{
    if (program_is_up(&volume->program) && volume->hidden_names > 0)
        hidden_remove_all(volume);
    return program_end(&volume->program);
}

/* Tells the process that waits in the foreground with which status to end. */
static void tell_caller(int *waiting, int status)
{
    char byte = (char)status;
    if (*waiting >= 0 && write(*waiting, &byte, 1) != 1)
        fprintf(stderr, "squirrel-mount: the caller has gone\n");
    if (*waiting >= 0)
        close(*waiting);
    *waiting = -1;
}

/* Leaves the terminal, the streams and the folder of the caller. */
static void detach(void)
{
    int null = open("/dev/null", O_RDWR | O_CLOEXEC);
    setsid();
    if (chdir("/") != 0 || null < 0)
        return;
    for (int stream = STDIN_FILENO; stream <= STDERR_FILENO; stream++)
        dup2(null, stream);
    close(null);
}

/* Mounts the folder and answers its calls to the end. `waiting` is where a process in the background is waited for. */
static int serve(struct fuse_session *session, struct volume *volume, const struct options *options, int *waiting)
{
    sigset_t mask;
    int status = start_volume(volume);
    if (status != 0)
        return status;
    hold_signals(&mask);
    if (fuse_session_mount(session, options->folder) != 0) {
        end_volume(volume);
        return fail(options->folder, "it can't be mounted");
    }
    fcntl(fuse_session_fd(session), F_SETFL, fcntl(fuse_session_fd(session), F_GETFL) | O_NONBLOCK);
    if (*waiting >= 0) {
        tell_caller(waiting, 0);
        detach();
    }
    answer_calls(session, volume, &mask);
    calls_end(volume);
    fuse_session_unmount(session);
    return end_volume(volume);
}

/* Goes on in a process of its own. In it, `waiting` gets where the caller waits; the caller itself ends as that process says. */
static bool fork_to_background(int *waiting)
{
    int pipe[2];
    if (pipe2(pipe, O_CLOEXEC) != 0)
        return false;
    pid_t process = fork();
    if (process < 0)
        return false;
    if (process == 0) {
        close(pipe[0]);
        *waiting = pipe[1];
        return true;
    }
    close(pipe[1]);
    char status = STATUS_FAILED;
    ssize_t count;
    do
        count = read(pipe[0], &status, 1);
    while (count < 0 && errno == EINTR);
    _exit((unsigned char)status);
}

/* The words for libfuse: mount options that always hold before those of the caller. The mount's source is the image. */
static struct fuse_session *make_session(struct fuse_args *words, struct volume *volume)
{
    char *source = NULL, *always = NULL;
    bool is_made = asprintf(&source, "fsname=%s", volume->program.image) >= 0 &&
                   fuse_opt_add_opt(&always, "default_permissions,subtype=squirrel") == 0 &&
                   fuse_opt_add_opt_escaped(&always, source) == 0 && fuse_opt_insert_arg(words, 1, "-o") == 0 &&
                   fuse_opt_insert_arg(words, 2, always) == 0;
    free(source);
    free(always);
    return is_made ? fuse_session_new(words, &calls, sizeof calls, volume) : NULL;
}

/* The volume that the words name. */
static void set_volume(struct volume *volume, const struct options *options)
{
    volume->program = (struct program){.path = program_path(), .image = options->image, .script_limit = options->script_limit,
                                       .script = -1, .replies = -1, .errors = -1};
    volume->is_quiet = options->is_quiet;
    volume->user = getuid();
    volume->group = getgid();
}

/* Mounts the volume, in the background where that is asked for. */
static int mount_volume(struct fuse_args *words, struct options *options)
{
    static struct volume volume;
    int waiting = -1;
    if (find_paths(options) != 0)
        return STATUS_FAILED;
    set_volume(&volume, options);
    if (!options->is_foreground && !fork_to_background(&waiting))
        return fail("it can't go on in the background", strerror(errno));
    struct fuse_session *session = make_session(words, &volume);
    int status = session != NULL ? serve(session, &volume, options, &waiting) : STATUS_FAILED;
    tell_caller(&waiting, status);
    if (session != NULL)
        fuse_session_destroy(session);
    return status;
}

/* Does what the words ask for. The exit status. */
static int do_words(struct fuse_args *words, struct options *options)
{
    if (!read_options(words, options))
        return STATUS_USAGE;
    if (options->is_help)
        tell_help();
    else if (options->is_version)
        tell_version();
    else
        return mount_volume(words, options);
    return 0;
}

int main(int count, char **arguments)
{
    struct fuse_args words = FUSE_ARGS_INIT(count, arguments);
    struct options options;
    signal(SIGPIPE, SIG_IGN);
    signal(SIGCHLD, SIG_DFL);
    if (!has_streams())
        return STATUS_FAILED;
    int status = do_words(&words, &options);
    free(options.image);
    free(options.folder);
    fuse_opt_free_args(&words);
    return status;
}
