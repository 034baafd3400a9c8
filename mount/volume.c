#include "volume.h"
#include "causes.h"
#include "digits.h"
#include "replies.h"

#include <errno.h>
#include <inttypes.h>
#include <stdio.h>
#include <stdlib.h>
#include <string.h>

struct refusal {
    const char *word;
    int error;
};

static const struct refusal refusals[] = {
    {"NotFound", ENOENT},   {"NotDir", ENOTDIR},       {"Exists", EEXIST},
    {"IsDir", EISDIR},      {"NotEmpty", ENOTEMPTY},   {"Root", EBUSY},
    {"IntoItself", EINVAL}, {"TooBig", EFBIG},         {"NameTooLong", ENAMETOOLONG},
    {"BadPath", EINVAL},    {"NoInodes", ENOSPC},      {"NoPages", ENOSPC},
    {"NoMemory", ENOMEM},
};

/* Lines. */

static void add_text(struct volume *volume, const char *text, size_t length)
{
    if (volume->length + length > LONGEST_LINE) {
        volume->line_error = ENAMETOOLONG;
        return;
    }
    memcpy(volume->line + volume->length, text, length);
    volume->length += length;
}

void line_begin(struct volume *volume, const char *command)
{
    volume->length = 0;
    volume->line_error = 0;
    add_text(volume, command, strlen(command));
}

void line_add_number(struct volume *volume, uint64_t number)
{
    char text[32];
    int length = snprintf(text, sizeof text, " %" PRIu64, number);
    add_text(volume, text, (size_t)length);
}

static bool is_plain(unsigned char byte)
{
    return (byte >= 'a' && byte <= 'z') || (byte >= 'A' && byte <= 'Z') || (byte >= '0' && byte <= '9') ||
           (byte != 0 && strchr("-._~", byte) != NULL);
}

/* How long a name is in a line. */
static size_t written_length(const char *name)
{
    size_t length = 0;
    for (; *name != '\0'; name++)
        length += is_plain((unsigned char)*name) ? 1 : 3;
    return length;
}

/* Writes a name to where it ends, and a slash before it. Returns where that begins. */
static char *write_before(char *end, const char *name)
{
    static const char digits[] = "0123456789ABCDEF";
    char *begin = end - written_length(name);
    for (char *at = begin; *name != '\0'; name++) {
        unsigned char byte = (unsigned char)*name;
        if (is_plain(byte)) {
            *at++ = *name;
        } else {
            *at++ = '%';
            *at++ = digits[byte >> 4];
            *at++ = digits[byte & 15];
        }
    }
    *--begin = '/';
    return begin;
}

/* How long a directory's path is in a line, where the root's is 0. False where no name of it is left. */
static bool path_length(struct volume *volume, uint64_t directory, size_t *length)
{
    *length = 0;
    while (directory != ROOT) {
        const struct name *name = nodes_at(&volume->nodes, directory)->names;
        if (name == NULL)
            return false;
        *length += 1 + written_length(name->bytes);
        directory = name->directory;
    }
    return true;
}

void line_add_name(struct volume *volume, uint64_t directory, const char *name)
{
    size_t length;
    if (volume->line_error != 0)
        return;
    if (!path_length(volume, directory, &length)) {
        volume->line_error = ENOENT;
        return;
    }
    length += 1 + written_length(name);
    if (volume->length + 1 + length > LONGEST_LINE) {
        volume->line_error = ENAMETOOLONG;
        return;
    }
    volume->line[volume->length] = ' ';
    volume->length += 1 + length;
    char *at = write_before(volume->line + volume->length, name);
    while (directory != ROOT) {
        const struct name *above = nodes_at(&volume->nodes, directory)->names;
        at = write_before(at, above->bytes);
        directory = above->directory;
    }
}

void line_add_node(struct volume *volume, uint64_t inode)
{
    const struct name *name = nodes_at(&volume->nodes, inode)->names;
    if (inode == ROOT)
        add_text(volume, " /", 2);
    else if (name == NULL)
        volume->line_error = ESTALE;
    else
        line_add_name(volume, name->directory, name->bytes);
}

/* How many bytes of these the line has room for: whole pages where it has room for one. */
static size_t room_for(const struct volume *volume, size_t length)
{
    size_t room = volume->length + 1 < LONGEST_LINE ? (LONGEST_LINE - volume->length - 1) / 2 : 0;
    if (room > PAGE)
        room -= room % PAGE;
    return length < room ? length : room;
}

size_t line_add_bytes(struct volume *volume, const char *bytes, size_t length)
{
    size_t count = room_for(volume, length);
    if (volume->line_error != 0)
        return 0;
    if (count == 0) {
        volume->line_error = ENAMETOOLONG;
        return 0;
    }
    volume->line[volume->length] = ' ';
    digits_write(volume->line + volume->length + 1, bytes, count);
    volume->length += 1 + 2 * count;
    return count;
}

/* Replies. */

static int error_of(struct volume *volume, const char *word)
{
    for (size_t index = 0; index < sizeof refusals / sizeof *refusals; index++) {
        if (strcmp(word, refusals[index].word) == 0)
            return refusals[index].error;
    }
    if (strcmp(word, "Fault") == 0 || strcmp(word, "Stopped") == 0) {
        char cause[CAUSE_ROOM];
        cause_of_fault(volume->program.image, volume->image_bytes, cause);
        program_give_up(&volume->program, cause);
        return EIO;
    }
    return volume_bad_reply(volume);
}

int volume_bad_reply(struct volume *volume)
{
    char cause[160];
    snprintf(cause, sizeof cause, "the program answered what isn't known here: %.80s", volume->reply);
    program_give_up(&volume->program, cause);
    return EIO;
}

int line_send(struct volume *volume)
{
    if (volume->program.is_broken)
        return EIO;
    if (volume->line_error != 0)
        return volume->line_error;
    volume->line[volume->length] = '\n';
    return program_send(&volume->program, volume->line, volume->length + 1) ? 0 : EIO;
}

int line_take(struct volume *volume)
{
    volume->reply = program_take(&volume->program);
    if (volume->reply == NULL || volume->program.is_broken)
        return EIO;
    if (strncmp(volume->reply, "error ", 6) == 0)
        return error_of(volume, volume->reply + 6);
    return strcmp(volume->reply, "ok") == 0 || strncmp(volume->reply, "ok ", 3) == 0 ? 0 : volume_bad_reply(volume);
}

int line_ask(struct volume *volume)
{
    int error = line_send(volume);
    return error != 0 ? error : line_take(volume);
}

bool line_may_wait(const struct volume *volume)
{
    return volume->program.asked == 0 || program_has_room(&volume->program, volume->length + 1);
}

static bool takes_status(const struct volume *volume, struct status *status)
{
    const char *at = volume->reply;
    status->is_directory = strncmp(at, "ok dir ", 7) == 0;
    return take_text(&at, status->is_directory ? "ok dir inode " : "ok file inode ") && take_number(&at, &status->inode) &&
           take_text(&at, " links ") && take_number(&at, &status->links) &&
           take_text(&at, status->is_directory ? " names " : " size ") && take_number(&at, &status->size) && *at == '\0' &&
           status->inode >= ROOT && status->inode <= volume->nodes.last;
}

/* Commands. */

int volume_ask_node(struct volume *volume, const char *command, uint64_t inode)
{
    line_begin(volume, command);
    line_add_node(volume, inode);
    return line_ask(volume);
}

int volume_ask_name(struct volume *volume, const char *command, uint64_t directory, const char *name)
{
    line_begin(volume, command);
    line_add_name(volume, directory, name);
    return line_ask(volume);
}

int volume_stat_node(struct volume *volume, uint64_t inode, struct status *status)
{
    int error = volume_ask_node(volume, "stat", inode);
    return error == 0 && !takes_status(volume, status) ? volume_bad_reply(volume) : error;
}

int volume_stat_name(struct volume *volume, uint64_t directory, const char *name, struct status *status)
{
    int error = volume_ask_name(volume, "stat", directory, name);
    return error == 0 && !takes_status(volume, status) ? volume_bad_reply(volume) : error;
}

int volume_rename(struct volume *volume, uint64_t directory, const char *name, uint64_t new_directory, const char *new_name)
{
    line_begin(volume, "rename");
    line_add_name(volume, directory, name);
    line_add_name(volume, new_directory, new_name);
    return line_ask(volume);
}

int volume_link(struct volume *volume, uint64_t inode, uint64_t directory, const char *name)
{
    line_begin(volume, "link");
    line_add_node(volume, inode);
    line_add_name(volume, directory, name);
    return line_ask(volume);
}

/* Sends the line, and behind it, where the script has room for both, that of the status of the name that it makes. */
static int ask_with_status(struct volume *volume, uint64_t directory, const char *name, struct status *status)
{
    int error = line_send(volume);
    if (error != 0)
        return error;
    line_begin(volume, "stat");
    line_add_name(volume, directory, name);
    if (!line_may_wait(volume)) {
        error = line_take(volume);
        return error != 0 ? error : volume_stat_name(volume, directory, name, status);
    }
    int status_error = line_send(volume);
    error = line_take(volume);
    if (status_error == 0)
        status_error = line_take(volume);
    if (error == 0 && status_error == 0 && !takes_status(volume, status))
        error = volume_bad_reply(volume);
    return error != 0 ? error : status_error;
}

int volume_make(struct volume *volume, const char *command, uint64_t directory, const char *name, struct status *status)
{
    line_begin(volume, command);
    line_add_name(volume, directory, name);
    return ask_with_status(volume, directory, name, status);
}

int volume_make_link(struct volume *volume, uint64_t inode, uint64_t directory, const char *name, struct status *status)
{
    line_begin(volume, "link");
    line_add_node(volume, inode);
    line_add_name(volume, directory, name);
    return ask_with_status(volume, directory, name, status);
}

int volume_truncate(struct volume *volume, uint64_t inode, uint64_t size)
{
    line_begin(volume, "truncate");
    line_add_node(volume, inode);
    line_add_number(volume, size);
    return line_ask(volume);
}

int volume_space(struct volume *volume, struct space *space)
{
    line_begin(volume, "df");
    int error = line_ask(volume);
    if (error != 0)
        return error;
    const char *at = volume->reply;
    bool is_read = take_text(&at, "ok inodes ") && take_number(&at, &space->free_inodes) && take_text(&at, " ") &&
                   take_number(&at, &space->inodes) && take_text(&at, " pages ") && take_number(&at, &space->free_pages) &&
                   take_text(&at, " ") && take_number(&at, &space->pages) && *at == '\0';
    return is_read ? 0 : volume_bad_reply(volume);
}

/* Decodes the written names behind the count of a listing into as many bytes or fewer. Returns where they end, or NULL. */
static char *decode_names(const char *at, uint64_t number, char *names)
{
    for (; number > 0; number--) {
        if (*at++ != ' ' || *at == ' ' || *at == '\0')
            return NULL;
        while (*at != ' ' && *at != '\0') {
            if (*at != '%') {
                *names++ = *at++;
                continue;
            }
            if (at[1] == '\0' || !digits_read(names, at + 1, 1) || *names == '\0')
                return NULL;
            names++;
            at += 3;
        }
        *names++ = '\0';
    }
    return *at == '\0' ? names : NULL;
}

int volume_list(struct volume *volume, uint64_t inode, char **names, size_t *length)
{
    int error = volume_ask_node(volume, "list", inode);
    if (error != 0)
        return error;
    uint64_t number;
    const char *at = volume->reply;
    if (!take_text(&at, "ok ") || !take_number(&at, &number))
        return volume_bad_reply(volume);
    *names = malloc(strlen(at) + 1);
    if (*names == NULL)
        return ENOMEM;
    const char *end = decode_names(at, number, *names);
    if (end == NULL) {
        free(*names);
        return volume_bad_reply(volume);
    }
    *length = (size_t)(end - *names);
    return 0;
}
