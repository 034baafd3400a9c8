#define _GNU_SOURCE
#include "calls.h"
#include "contents.h"
#include "hidden.h"
#include "volume.h"

#include <errno.h>
#include <fcntl.h>
#include <stdio.h>
#include <stdlib.h>
#include <string.h>
#include <sys/stat.h>
#include <sys/statvfs.h>

/* For so many seconds the system may believe what it was told of a name or a node, also when the program has gone. */
static const double believed = 1.0;

static struct volume *volume_of(fuse_req_t request)
{
    return fuse_req_userdata(request);
}

/* The inode number of a node that the system names, or 0 where the node has gone and another has it. */
static uint64_t inode_of(fuse_req_t request, fuse_ino_t id)
{
    return nodes_inode(&volume_of(request)->nodes, id);
}

/* The thread that waits for the answer, 0 where it isn't known here. */
static pid_t thread_of(fuse_req_t request)
{
    return fuse_req_ctx(request)->pid;
}

static mode_t mode_of(bool is_directory)
{
    return is_directory ? S_IFDIR | 0755 : S_IFREG | 0644;
}

/* What the system is told of a node. Hidden names aren't counted. */
static struct stat attributes_of(struct volume *volume, const struct status *status)
{
    const struct times *times = nodes_times(&volume->nodes, status->inode);
    uint64_t hidden_links = nodes_at(&volume->nodes, status->inode)->is_hidden ? 1 : 0;
    uint64_t hidden_names = status->inode == ROOT ? volume->hidden_names : 0;
    struct stat attributes = {
        .st_ino = status->inode,
        .st_mode = mode_of(status->is_directory),
        .st_nlink = status->links - hidden_links,
        .st_uid = volume->user,
        .st_gid = volume->group,
        .st_size = (off_t)(status->size - hidden_names),
        .st_blksize = PAGE,
        .st_atim = times->accessed,
        .st_mtim = times->modified,
        .st_ctim = times->changed,
    };
    if (!status->is_directory)
        attributes.st_blocks = (blkcnt_t)((status->size + PAGE - 1) / PAGE * (PAGE / 512));
    return attributes;
}

/* Whether a directory was removed while it is in use. Another node may have its number. */
static bool is_removed(struct volume *volume, fuse_ino_t id)
{
    uint64_t inode = nodes_inode(&volume->nodes, id);
    return inode != ROOT && id_is_directory(id) && nodes_at(&volume->nodes, inode)->names == NULL;
}

/* A directory that was removed is empty and has no links. */
static struct stat removed_attributes(struct volume *volume, fuse_ino_t id)
{
    struct status status = {.is_directory = true};
    struct stat attributes = attributes_of(volume, &status);
    attributes.st_ino = id_inode(id);
    return attributes;
}

/* What the system is told of a node that it names. */
static int attributes_by_id(struct volume *volume, fuse_ino_t id, struct stat *attributes)
{
    struct status status;
    uint64_t inode = nodes_inode(&volume->nodes, id);
    if (is_removed(volume, id)) {
        *attributes = removed_attributes(volume, id);
        return program_is_up(&volume->program) ? 0 : EIO;
    }
    int error = volume_stat_node(volume, inode, &status);
    if (error == 0 && status.inode != inode)
        return ESTALE;
    if (error == 0)
        *attributes = attributes_of(volume, &status);
    return error;
}

/* What is handed out of a node that a name was found to name. */
static int hand_out(struct volume *volume, uint64_t directory, const char *name, const struct status *status,
                    struct fuse_entry_param *entry)
{
    struct node *node = nodes_at(&volume->nodes, status->inode);
    /* between two scripts another job may have given the number to a node of the other kind */
    if (node->lookups > 0 && node->is_directory != status->is_directory)
        nodes_renew(&volume->nodes, status->inode);
    if (!nodes_name(&volume->nodes, directory, name, status->inode))
        return ENOMEM;
    node->is_directory = status->is_directory;
    node->lookups++;
    *entry = (struct fuse_entry_param){
        .ino = nodes_id(&volume->nodes, status->inode),
        .attr = attributes_of(volume, status),
        .attr_timeout = believed,
        .entry_timeout = believed,
    };
    return 0;
}

static int look_up(struct volume *volume, uint64_t directory, const char *name, pid_t thread, struct fuse_entry_param *entry)
{
    struct status status;
    if (hidden_is_name(volume, directory, name))
        return program_is_up(&volume->program) ? ENOENT : EIO;
    int error = volume_stat_name(volume, directory, name, &status);
    if (error == 0)
        error = hand_out(volume, directory, name, &status, entry);
    if (error == 0)
        nodes_tell(&volume->nodes, status.inode, thread);
    return error;
}

/* A node is used by one less. A file that only its hidden name keeps then goes, and names go that nobody uses. */
static void let_go(struct volume *volume, uint64_t inode)
{
    if (nodes_is_left(&volume->nodes, inode))
        hidden_unlink(volume, inode);
    nodes_let_go(&volume->nodes, inode);
}

/* The system has forgotten a node so many times. */
static void forget(struct volume *volume, fuse_ino_t id, uint64_t count)
{
    uint64_t inode = nodes_inode(&volume->nodes, id);
    nodes_forget(&volume->nodes, inode, count);
    let_go(volume, inode);
}

/* Answers with a node that is handed out, which the system has not where it no longer waits for it. */
static void reply_entry(fuse_req_t request, int error, const struct fuse_entry_param *entry)
{
    struct volume *volume = volume_of(request);
    if (error != 0)
        fuse_reply_err(request, error);
    else if (fuse_reply_entry(request, entry) != 0)
        forget(volume, entry->ino, 1);
}

static void reply_attributes(fuse_req_t request, fuse_ino_t id)
{
    struct stat attributes;
    int error = attributes_by_id(volume_of(request), id, &attributes);
    if (error != 0)
        fuse_reply_err(request, error);
    else
        fuse_reply_attr(request, &attributes, believed);
}

/* Answers a call that has no line of its own. */
static void reply_up(fuse_req_t request)
{
    fuse_reply_err(request, program_is_up(&volume_of(request)->program) ? 0 : EIO);
}

static void call_init(void *user, struct fuse_conn_info *connection)
{
    (void)user;
    /* nothing else writes to the image: what the system holds of a file stays right, whatever its times say */
    if (connection->capable & FUSE_CAP_EXPLICIT_INVAL_DATA) {
        connection->want |= FUSE_CAP_EXPLICIT_INVAL_DATA;
        connection->want &= ~(unsigned)FUSE_CAP_AUTO_INVAL_DATA;
    }
    connection->want &= ~(unsigned)FUSE_CAP_WRITEBACK_CACHE;
}

static void call_lookup(fuse_req_t request, fuse_ino_t parent, const char *name)
{
    struct fuse_entry_param entry;
    int error = look_up(volume_of(request), inode_of(request, parent), name, thread_of(request), &entry);
    reply_entry(request, error, &entry);
}

static void call_forget(fuse_req_t request, fuse_ino_t id, uint64_t count)
{
    forget(volume_of(request), id, count);
    fuse_reply_none(request);
}

static void call_forget_multi(fuse_req_t request, size_t count, struct fuse_forget_data *forgets)
{
    for (size_t index = 0; index < count; index++)
        forget(volume_of(request), forgets[index].ino, forgets[index].nlookup);
    fuse_reply_none(request);
}

static void call_getattr(fuse_req_t request, fuse_ino_t id, struct fuse_file_info *file)
{
    (void)file;
    reply_attributes(request, id);
}

/* Whether a mode or an owner is to be set that no node can have. */
static bool is_changing(struct volume *volume, uint64_t inode, const struct stat *wanted, int which)
{
    mode_t mode = mode_of(nodes_at(&volume->nodes, inode)->is_directory) & 07777;
    return ((which & FUSE_SET_ATTR_MODE) && (wanted->st_mode & 07777) != mode) ||
           ((which & FUSE_SET_ATTR_UID) && wanted->st_uid != volume->user) ||
           ((which & FUSE_SET_ATTR_GID) && wanted->st_gid != volume->group);
}

static int set_size(struct volume *volume, uint64_t inode, uint64_t size)
{
    int error = volume_truncate(volume, inode, size);
    if (error == 0)
        nodes_touch(&volume->nodes, inode);
    return error;
}

static void set_times(struct volume *volume, uint64_t inode, const struct stat *wanted, int which)
{
    struct timespec now;
    clock_gettime(CLOCK_REALTIME, &now);
    const struct timespec *accessed = which & FUSE_SET_ATTR_ATIME_NOW ? &now : &wanted->st_atim;
    const struct timespec *modified = which & FUSE_SET_ATTR_MTIME_NOW ? &now : &wanted->st_mtim;
    bool sets_accessed = which & (FUSE_SET_ATTR_ATIME | FUSE_SET_ATTR_ATIME_NOW);
    bool sets_modified = which & (FUSE_SET_ATTR_MTIME | FUSE_SET_ATTR_MTIME_NOW);
    if (sets_accessed || sets_modified)
        nodes_set_times(&volume->nodes, inode, sets_accessed ? accessed : NULL, sets_modified ? modified : NULL);
}

static void call_setattr(fuse_req_t request, fuse_ino_t id, struct stat *wanted, int which, struct fuse_file_info *file)
{
    (void)file;
    struct volume *volume = volume_of(request);
    uint64_t inode = inode_of(request, id);
    int error = program_is_up(&volume->program) ? 0 : EIO;
    if (error == 0 && !volume->is_quiet && is_changing(volume, inode, wanted, which))
        error = EPERM;
    if (error == 0 && (which & FUSE_SET_ATTR_SIZE))
        error = set_size(volume, inode, (uint64_t)wanted->st_size);
    if (error != 0) {
        fuse_reply_err(request, error);
        return;
    }
    set_times(volume, inode, wanted, which);
    reply_attributes(request, id);
}

static void call_symlink(fuse_req_t request, const char *target, fuse_ino_t parent, const char *name)
{
    (void)target, (void)parent, (void)name;
    fuse_reply_err(request, program_is_up(&volume_of(request)->program) ? ENOTSUP : EIO);
}

static void call_readlink(fuse_req_t request, fuse_ino_t id)
{
    (void)id;
    fuse_reply_err(request, ENOTSUP);
}

/* Names. */

/* Makes a file or a directory, and hands it out. */
static int make(struct volume *volume, const char *command, uint64_t directory, const char *name, struct fuse_entry_param *entry)
{
    struct status status;
    if (hidden_is_form(directory, name))
        return EPERM;
    int error = volume_make(volume, command, directory, name, &status);
    if (error != 0)
        return error;
    nodes_touch(&volume->nodes, directory);
    nodes_renew(&volume->nodes, status.inode);
    return hand_out(volume, directory, name, &status, entry);
}

static void call_mknod(fuse_req_t request, fuse_ino_t parent, const char *name, mode_t mode, dev_t device)
{
    (void)device;
    struct fuse_entry_param entry;
    int error = S_ISREG(mode) ? make(volume_of(request), "create", inode_of(request, parent), name, &entry) : EPERM;
    reply_entry(request, error, &entry);
}

static void call_mkdir(fuse_req_t request, fuse_ino_t parent, const char *name, mode_t mode)
{
    (void)mode;
    struct fuse_entry_param entry;
    int error = make(volume_of(request), "mkdir", inode_of(request, parent), name, &entry);
    reply_entry(request, error, &entry);
}

/* Whether a name is the only one known of a file that is open, or that another thread may be about to call by its node. */
static bool needs_hiding(struct volume *volume, const struct name *name, pid_t thread)
{
    if (name == NULL || !nodes_is_last_name(&volume->nodes, name))
        return false;
    const struct node *node = nodes_at(&volume->nodes, name->node);
    return node->opens > 0 || (!node->is_directory && nodes_is_sought(&volume->nodes, name->node, thread));
}

/* Whether the name of a file may go that got no hidden one: nothing has the file open, and the program is up. */
static bool may_go(struct volume *volume, uint64_t inode, int error)
{
    return error != EIO && nodes_at(&volume->nodes, inode)->opens == 0;
}

/* A name has gone from its directory, and from the node that it named. */
static void enter_gone(struct volume *volume, uint64_t directory, const char *name)
{
    const struct name *known = nodes_find(&volume->nodes, directory, name);
    if (known != NULL)
        nodes_touch_status(&volume->nodes, known->node);
    nodes_touch(&volume->nodes, directory);
    nodes_unname(&volume->nodes, directory, name);
}

static int unlink_error(struct volume *volume, uint64_t directory, const char *name, pid_t thread)
{
    const struct name *known = nodes_find(&volume->nodes, directory, name);
    if (hidden_is_name(volume, directory, name))
        return ENOENT;
    if (needs_hiding(volume, known, thread)) {
        int error = hidden_rename(volume, known);
        if (error == 0 || !may_go(volume, known->node, error))
            return error;
    }
    return volume_ask_name(volume, "unlink", directory, name);
}

static void call_unlink(fuse_req_t request, fuse_ino_t parent, const char *name)
{
    struct volume *volume = volume_of(request);
    uint64_t directory = inode_of(request, parent);
    int error = unlink_error(volume, directory, name, thread_of(request));
    if (error == 0)
        enter_gone(volume, directory, name);
    fuse_reply_err(request, error);
}

static void call_rmdir(fuse_req_t request, fuse_ino_t parent, const char *name)
{
    struct volume *volume = volume_of(request);
    uint64_t directory = inode_of(request, parent);
    int error = hidden_is_name(volume, directory, name) ? ENOENT : volume_ask_name(volume, "rmdir", directory, name);
    if (error == 0)
        enter_gone(volume, directory, name);
    fuse_reply_err(request, error);
}

/* A name, and where it goes to. */
struct move {
    uint64_t directory;
    const char *name;
    uint64_t new_directory;
    const char *new_name;
    pid_t thread;
};

/* A name that was moved, over what had the new one. */
static int enter_moved(struct volume *volume, const struct move *move)
{
    const struct name *known = nodes_find(&volume->nodes, move->directory, move->name);
    uint64_t inode = known != NULL ? known->node : 0;
    bool is_named = true;
    enter_gone(volume, move->new_directory, move->new_name);
    if (inode != 0)
        is_named = nodes_name(&volume->nodes, move->new_directory, move->new_name, inode);
    enter_gone(volume, move->directory, move->name);
    return is_named ? 0 : ENOMEM;
}

/* The file that is to get a hidden name before another takes its last one, or 0. */
static uint64_t hidden_by(struct volume *volume, const struct move *move)
{
    const struct name *old = nodes_find(&volume->nodes, move->new_directory, move->new_name);
    return needs_hiding(volume, old, move->thread) ? old->node : 0;
}

/* Whether both names are one file's, so that nothing changes. */
static bool is_same_file(struct volume *volume, const struct move *move)
{
    const struct name *old = nodes_find(&volume->nodes, move->new_directory, move->new_name);
    const struct name *moved = nodes_find(&volume->nodes, move->directory, move->name);
    return old != NULL && moved != NULL && old->node == moved->node;
}

/* Moves a name. A file that needs a hidden one gets it first, so that the new name always names one. */
static int move_name(struct volume *volume, const struct move *move)
{
    bool is_same = is_same_file(volume, move);
    uint64_t hidden = is_same ? 0 : hidden_by(volume, move);
    int error = hidden != 0 ? hidden_link(volume, hidden) : 0;
    if (error != 0 && !may_go(volume, hidden, error))
        return error;
    bool is_hidden = hidden != 0 && error == 0;
    error = volume_rename(volume, move->directory, move->name, move->new_directory, move->new_name);
    if (error != 0 && is_hidden)
        hidden_unlink(volume, hidden);
    if (error != 0 || is_same)
        return error;
    return enter_moved(volume, move);
}

static int rename_error(struct volume *volume, const struct move *move, unsigned flags)
{
    struct status status;
    if (flags & ~(unsigned)RENAME_NOREPLACE)
        return EINVAL;
    if (hidden_is_name(volume, move->directory, move->name))
        return ENOENT;
    if (hidden_is_form(move->new_directory, move->new_name))
        return EPERM;
    if (flags & RENAME_NOREPLACE) {
        int error = volume_stat_name(volume, move->new_directory, move->new_name, &status);
        if (error != ENOENT)
            return error == 0 ? EEXIST : error;
    }
    return move_name(volume, move);
}

static void call_rename(fuse_req_t request, fuse_ino_t parent, const char *name, fuse_ino_t new_parent, const char *new_name,
                        unsigned flags)
{
    struct move move = {inode_of(request, parent), name, inode_of(request, new_parent), new_name, thread_of(request)};
    fuse_reply_err(request, rename_error(volume_of(request), &move, flags));
}

static int link_error(struct volume *volume, uint64_t inode, uint64_t directory, const char *name, struct fuse_entry_param *entry)
{
    struct status status;
    if (hidden_is_form(directory, name))
        return EPERM;
    int error = volume_make_link(volume, inode, directory, name, &status);
    if (error != 0)
        return error == EISDIR ? EPERM : error;
    nodes_touch(&volume->nodes, directory);
    nodes_touch_status(&volume->nodes, inode);
    return hand_out(volume, directory, name, &status, entry);
}

static void call_link(fuse_req_t request, fuse_ino_t id, fuse_ino_t new_parent, const char *new_name)
{
    struct fuse_entry_param entry;
    int error = link_error(volume_of(request), inode_of(request, id), inode_of(request, new_parent), new_name, &entry);
    reply_entry(request, error, &entry);
}

/* Open files. */

static void enter_open(struct volume *volume, uint64_t inode, struct fuse_file_info *file)
{
    nodes_at(&volume->nodes, inode)->opens++;
    file->keep_cache = 1;
}

static void enter_closed(struct volume *volume, uint64_t inode)
{
    struct node *node = nodes_at(&volume->nodes, inode);
    if (node->opens > 0)
        node->opens--;
    let_go(volume, inode);
}

static void call_create(fuse_req_t request, fuse_ino_t parent, const char *name, mode_t mode, struct fuse_file_info *file)
{
    (void)mode;
    struct volume *volume = volume_of(request);
    struct fuse_entry_param entry;
    int error = make(volume, "create", inode_of(request, parent), name, &entry);
    if (error != 0) {
        fuse_reply_err(request, error);
        return;
    }
    uint64_t inode = inode_of(request, entry.ino);
    enter_open(volume, inode, file);
    if (fuse_reply_create(request, &entry, file) != 0) {
        enter_closed(volume, inode);
        forget(volume, entry.ino, 1);
    }
}

/* Opens a node. One that has gone is ESTALE: the system walks the path anew, and finds what the name names now. */
static void call_open(fuse_req_t request, fuse_ino_t id, struct fuse_file_info *file)
{
    struct volume *volume = volume_of(request);
    uint64_t inode = inode_of(request, id);
    int error = program_is_up(&volume->program) ? 0 : EIO;
    if (error == 0 && nodes_at(&volume->nodes, inode)->names == NULL)
        error = ESTALE;
    if (error == 0 && (file->flags & O_TRUNC))
        error = set_size(volume, inode, 0);
    if (error != 0) {
        fuse_reply_err(request, error);
        return;
    }
    enter_open(volume, inode, file);
    if (fuse_reply_open(request, file) != 0)
        enter_closed(volume, inode);
}

/* Room for so many bytes, which stays for the next call. */
static bool has_bytes(struct volume *volume, size_t size)
{
    if (size <= volume->room)
        return true;
    free(volume->bytes);
    volume->bytes = malloc(size);
    volume->room = volume->bytes != NULL ? size : 0;
    return volume->bytes != NULL;
}

static void call_read(fuse_req_t request, fuse_ino_t id, size_t size, off_t offset, struct fuse_file_info *file)
{
    (void)file;
    size_t count;
    struct volume *volume = volume_of(request);
    int error = ENOMEM;
    if (has_bytes(volume, size))
        error = volume_read(volume, inode_of(request, id), (uint64_t)offset, volume->bytes, size, &count);
    if (error != 0)
        fuse_reply_err(request, error);
    else
        fuse_reply_buf(request, volume->bytes, count);
}

static void call_write(fuse_req_t request, fuse_ino_t id, const char *bytes, size_t size, off_t offset,
                       struct fuse_file_info *file)
{
    (void)file;
    size_t count;
    struct volume *volume = volume_of(request);
    uint64_t inode = inode_of(request, id);
    int error = volume_write(volume, inode, (uint64_t)offset, bytes, size, &count);
    if (count > 0)
        nodes_touch(&volume->nodes, inode);
    if (error != 0)
        fuse_reply_err(request, error);
    else
        fuse_reply_write(request, count);
}

static void call_fsync(fuse_req_t request, fuse_ino_t id, int is_data, struct fuse_file_info *file)
{
    (void)id, (void)is_data, (void)file;
    reply_up(request);
}

static void call_release(fuse_req_t request, fuse_ino_t id, struct fuse_file_info *file)
{
    (void)file;
    enter_closed(volume_of(request), inode_of(request, id));
    fuse_reply_err(request, 0);
}

/* Listings. */

static void call_opendir(fuse_req_t request, fuse_ino_t id, struct fuse_file_info *file)
{
    (void)id;
    struct volume *volume = volume_of(request);
    struct listing *listing = program_is_up(&volume->program) ? listings_add(&volume->listings) : NULL;
    if (listing == NULL) {
        fuse_reply_err(request, program_is_up(&volume->program) ? ENOMEM : EIO);
        return;
    }
    file->fh = (uintptr_t)listing;
    if (fuse_reply_open(request, file) != 0)
        listings_remove(listing);
}

static struct listing *listing_of(const struct fuse_file_info *file)
{
    return (struct listing *)(uintptr_t)file->fh;
}

static void call_releasedir(fuse_req_t request, fuse_ino_t id, struct fuse_file_info *file)
{
    (void)id;
    listings_remove(listing_of(file));
    fuse_reply_err(request, 0);
}

void calls_end(struct volume *volume)
{
    listings_remove_all(&volume->listings);
}

/* Takes the names anew. A directory that was removed has none. */
static int begin_listing(struct volume *volume, fuse_ino_t id, struct listing *listing)
{
    char *names = NULL;
    size_t length = 0;
    int error = is_removed(volume, id) ? 0 : volume_list(volume, nodes_inode(&volume->nodes, id), &names, &length);
    if (error == 0)
        listing_take(listing, names, length);
    return error;
}

/* What is told of a name in a listing: its number and kind where they are known. */
static struct stat listed_attributes(struct volume *volume, uint64_t directory, const char *name)
{
    const struct name *known = nodes_find(&volume->nodes, directory, name);
    if (known == NULL)
        return (struct stat){.st_ino = (ino_t)-1};
    return (struct stat){.st_ino = known->node, .st_mode = mode_of(nodes_at(&volume->nodes, known->node)->is_directory)};
}

static uint64_t directory_above(struct volume *volume, uint64_t inode)
{
    const struct name *name = nodes_at(&volume->nodes, inode)->names;
    return name == NULL ? ROOT : name->directory;
}

struct piece {
    char *bytes;
    size_t length, room;
};

/* One name is put behind the others, where there is room for it. */
static bool add_listed(fuse_req_t request, struct piece *piece, const char *name, const struct stat *attributes, off_t next)
{
    size_t length = fuse_add_direntry(request, piece->bytes + piece->length, piece->room - piece->length, name, attributes, next);
    if (length > piece->room - piece->length)
        return false;
    piece->length += length;
    return true;
}

/* Number 0 is the directory itself, 1 the one above it, and then come its names. */
static void fill_piece(fuse_req_t request, struct listing *listing, uint64_t inode, off_t number, struct piece *piece)
{
    struct volume *volume = volume_of(request);
    struct stat itself = {.st_ino = inode, .st_mode = S_IFDIR};
    struct stat above = {.st_ino = directory_above(volume, inode), .st_mode = S_IFDIR};
    if (number == 0 && add_listed(request, piece, ".", &itself, 1))
        number = 1;
    if (number == 1 && add_listed(request, piece, "..", &above, 2))
        number = 2;
    if (number < 2)
        return;
    listing_seek(listing, number - 2);
    for (const char *name; (name = listing_name(listing)) != NULL; listing_step(listing)) {
        struct stat attributes = listed_attributes(volume, inode, name);
        if (!hidden_is_name(volume, inode, name) && !add_listed(request, piece, name, &attributes, listing->number + 3))
            return;
    }
}

static void call_readdir(fuse_req_t request, fuse_ino_t id, size_t size, off_t offset, struct fuse_file_info *file)
{
    struct volume *volume = volume_of(request);
    struct listing *listing = listing_of(file);
    struct piece piece = {.bytes = malloc(size), .room = size};
    int error = piece.bytes == NULL ? ENOMEM : program_is_up(&volume->program) ? 0 : EIO;
    if (error == 0 && offset == 0)
        error = begin_listing(volume, id, listing);
    if (error == 0 && listing->names != NULL)
        fill_piece(request, listing, inode_of(request, id), offset, &piece);
    if (error != 0)
        fuse_reply_err(request, error);
    else
        fuse_reply_buf(request, piece.bytes, piece.length);
    free(piece.bytes);
}

static void call_statfs(fuse_req_t request, fuse_ino_t id)
{
    (void)id;
    struct space space;
    int error = volume_space(volume_of(request), &space);
    if (error != 0) {
        fuse_reply_err(request, error);
        return;
    }
    struct statvfs room = {
        .f_bsize = PAGE,
        .f_frsize = PAGE,
        .f_blocks = space.pages,
        .f_bfree = space.free_pages,
        .f_bavail = space.free_pages,
        .f_files = space.inodes,
        .f_ffree = space.free_inodes,
        .f_favail = space.free_inodes,
        .f_namemax = 110,
    };
    fuse_reply_statfs(request, &room);
}

const struct fuse_lowlevel_ops calls = {
    .init = call_init,
    .lookup = call_lookup,
    .forget = call_forget,
    .forget_multi = call_forget_multi,
    .getattr = call_getattr,
    .setattr = call_setattr,
    .readlink = call_readlink,
    .symlink = call_symlink,
    .mknod = call_mknod,
    .mkdir = call_mkdir,
    .unlink = call_unlink,
    .rmdir = call_rmdir,
    .rename = call_rename,
    .link = call_link,
    .create = call_create,
    .open = call_open,
    .read = call_read,
    .write = call_write,
    .fsync = call_fsync,
    .release = call_release,
    .opendir = call_opendir,
    .readdir = call_readdir,
    .fsyncdir = call_fsync,
    .releasedir = call_releasedir,
    .statfs = call_statfs,
};
