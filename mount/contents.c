#include "contents.h"
#include "replies.h"

#include <errno.h>

enum { READ_PIECE = 16384, WRITE_PIECE = 7 * PAGE, READS_AHEAD = 64, WRITES_AHEAD = 2 };

/* The pieces of one call, from an offset of a file on. */
struct pieces {
    struct volume *volume;
    uint64_t inode;
    uint64_t offset;
    size_t length;
    size_t sent;                    /* bytes whose lines went out */
    size_t done;                    /* bytes that were read or written, without a gap */
    size_t waiting[READS_AHEAD];    /* how long the pieces are that wait for their reply, in a ring from `first` on */
    unsigned first, count;
    bool is_ended;                  /* nothing more is sent: by a refusal, or at the end of the file */
    int error;

    /* Builds the line of the next piece, and tells how long that is. */
    size_t (*build)(struct pieces *pieces);

    /* What the reply to a piece says: how many bytes were done. */
    bool (*read_reply)(struct pieces *pieces, size_t length, size_t *got);
    char *read;
    const char *written;
};

static void end_pieces(struct pieces *pieces, int error)
{
    pieces->is_ended = true;
    pieces->error = error;
}

/* Sends the next piece. False where the replies of those before it have to be taken first. */
static bool send_piece(struct pieces *pieces)
{
    size_t length = pieces->build(pieces);
    if (!line_may_wait(pieces->volume))
        return false;
    int error = line_send(pieces->volume);
    if (error != 0) {
        end_pieces(pieces, error);
        return true;
    }
    pieces->waiting[(pieces->first + pieces->count) % READS_AHEAD] = length;
    pieces->count++;
    pieces->sent += length;
    return true;
}

/* Takes the reply of the first piece that waits. Behind the end nothing is looked at. */
static void take_piece(struct pieces *pieces)
{
    size_t length = pieces->waiting[pieces->first], got = 0;
    pieces->first = (pieces->first + 1) % READS_AHEAD;
    pieces->count--;
    int error = line_take(pieces->volume);
    if (pieces->is_ended)
        return;
    if (error == 0 && !pieces->read_reply(pieces, length, &got))
        error = volume_bad_reply(pieces->volume);
    pieces->done += got;
    if (error != 0 || got < length)
        end_pieces(pieces, error);
}

/* Sends the pieces and takes their replies, with so many lines ahead of the replies. */
static void transfer(struct pieces *pieces, unsigned ahead)
{
    for (;;) {
        bool is_sent = pieces->is_ended || pieces->sent == pieces->length;
        if (is_sent && pieces->count == 0)
            return;
        if (is_sent || pieces->count == ahead || !send_piece(pieces))
            take_piece(pieces);
    }
}

static size_t build_read(struct pieces *pieces)
{
    size_t rest = pieces->length - pieces->sent, length = rest < READ_PIECE ? rest : READ_PIECE;
    line_begin(pieces->volume, "read");
    line_add_node(pieces->volume, pieces->inode);
    line_add_number(pieces->volume, pieces->offset + pieces->sent);
    line_add_number(pieces->volume, length);
    return length;
}

static bool read_read(struct pieces *pieces, size_t length, size_t *got)
{
    uint64_t number;
    const char *at = pieces->volume->reply;
    if (!take_text(&at, "ok ") || !take_number(&at, &number) || number > length || !take_text(&at, " "))
        return false;
    *got = number;
    return take_bytes(at, pieces->read + pieces->done, number);
}

int volume_read(struct volume *volume, uint64_t inode, uint64_t offset, char *bytes, size_t length, size_t *count)
{
    struct pieces pieces = {.volume = volume, .inode = inode, .offset = offset, .length = length,
                            .build = build_read, .read_reply = read_read, .read = bytes};
    transfer(&pieces, READS_AHEAD);
    *count = pieces.done;
    return pieces.error;
}

static size_t build_write(struct pieces *pieces)
{
    size_t rest = pieces->length - pieces->sent;
    line_begin(pieces->volume, "write");
    line_add_node(pieces->volume, pieces->inode);
    line_add_number(pieces->volume, pieces->offset + pieces->sent);
    return line_add_bytes(pieces->volume, pieces->written + pieces->sent, rest < WRITE_PIECE ? rest : WRITE_PIECE);
}

static bool read_written(struct pieces *pieces, size_t length, size_t *got)
{
    uint64_t number;
    const char *at = pieces->volume->reply;
    bool is_read = take_text(&at, "ok ") && take_number(&at, &number) && *at == '\0' && number == length;
    *got = is_read ? length : 0;
    return is_read;
}

/* How many bytes from an offset on the volume has pages for. */
static int find_room(struct volume *volume, uint64_t inode, uint64_t offset, uint64_t *room)
{
    struct status status;
    struct space space;
    int error = volume_stat_node(volume, inode, &status);
    if (error == 0)
        error = volume_space(volume, &space);
    if (error != 0)
        return error;
    uint64_t end = ((status.size + PAGE - 1) / PAGE + space.free_pages) * PAGE;
    *room = end > offset ? end - offset : 0;
    return 0;
}

/* What was refused for want of pages is tried again with those that are there. */
static void fill_volume(struct pieces *pieces)
{
    uint64_t room;
    int error = find_room(pieces->volume, pieces->inode, pieces->offset + pieces->done, &room);
    if (error != 0 || room == 0 || room >= pieces->length - pieces->done)
        return;
    pieces->sent = pieces->done;
    pieces->length = pieces->done + room;
    pieces->is_ended = false;
    pieces->error = 0;
    transfer(pieces, WRITES_AHEAD);
}

int volume_write(struct volume *volume, uint64_t inode, uint64_t offset, const char *bytes, size_t length, size_t *count)
{
    struct pieces pieces = {.volume = volume, .inode = inode, .offset = offset, .length = length,
                            .build = build_write, .read_reply = read_written, .written = bytes};
    transfer(&pieces, WRITES_AHEAD);
    if (pieces.error == ENOSPC)
        fill_volume(&pieces);
    *count = pieces.done;
    if (!program_is_up(&volume->program))
        return EIO;
    return pieces.done > 0 ? 0 : pieces.error;
}
