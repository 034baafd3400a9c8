#include "hidden.h"
#include "replies.h"

#include <errno.h>
#include <inttypes.h>
#include <stdio.h>
#include <stdlib.h>
#include <string.h>

enum { ROOM = 64 };

static const char prefix[] = ".squirrel-";

static void write_name(uint64_t inode, uint64_t number, char name[ROOM])
{
    int length = snprintf(name, ROOM, "%s%" PRIu64, prefix, inode);
    if (number > 0)
        snprintf(name + length, ROOM - (size_t)length, "-%" PRIu64, number);
}

/* The inode number in a name of that form, or 0. */
static uint64_t inode_in(const char *name)
{
    uint64_t inode, number = 0;
    char same[ROOM];
    const char *at = name;
    if (!take_text(&at, prefix) || !take_number(&at, &inode) || (take_text(&at, "-") && !take_number(&at, &number)))
        return 0;
    write_name(inode, number, same);
    return strcmp(name, same) == 0 ? inode : 0;
}

bool hidden_is_form(uint64_t directory, const char *name)
{
    return directory == ROOT && inode_in(name) != 0;
}

bool hidden_is_name(struct volume *volume, uint64_t directory, const char *name)
{
    const struct name *known = directory == ROOT ? nodes_find(&volume->nodes, directory, name) : NULL;
    return known != NULL && known->is_hidden;
}

/* Removes a name of that form where it is one: a file's, whose inode number it has. */
static int remove_one(struct volume *volume, const char *name)
{
    struct status status;
    int error = volume_stat_name(volume, ROOT, name, &status);
    if (error == 0 && !status.is_directory && status.inode == inode_in(name))
        return volume_ask_name(volume, "unlink", ROOT, name);
    volume->has_others = true;
    return error;
}

int hidden_remove_all(struct volume *volume)
{
    char *names;
    size_t length;
    int error = volume_list(volume, ROOT, &names, &length);
    if (error != 0)
        return error;
    for (const char *name = names; error == 0 && name < names + length; name += strlen(name) + 1) {
        if (hidden_is_form(ROOT, name))
            error = remove_one(volume, name);
    }
    free(names);
    return error;
}

/* A hidden name for a file that nothing else has. */
static int find_free(struct volume *volume, uint64_t inode, char name[ROOM])
{
    struct status status;
    int error = 0;
    for (uint64_t number = 0; error == 0; number++) {
        write_name(inode, number, name);
        if (!volume->has_others)
            return 0;
        error = volume_stat_name(volume, ROOT, name, &status);
    }
    return error == ENOENT ? 0 : error;
}

/* The hidden name is known from now on. */
static int enter(struct volume *volume, uint64_t inode, const char *name)
{
    struct name *known = nodes_name(&volume->nodes, ROOT, name, inode);
    if (known == NULL)
        return ENOMEM;
    known->is_hidden = true;
    nodes_at(&volume->nodes, inode)->is_hidden = true;
    volume->hidden_names++;
    return 0;
}

int hidden_rename(struct volume *volume, const struct name *name)
{
    char hidden[ROOM];
    int error = find_free(volume, name->node, hidden);
    if (error == 0)
        error = volume_rename(volume, name->directory, name->bytes, ROOT, hidden);
    return error != 0 ? error : enter(volume, name->node, hidden);
}

int hidden_link(struct volume *volume, uint64_t inode)
{
    char hidden[ROOM];
    int error = find_free(volume, inode, hidden);
    if (error == 0)
        error = volume_link(volume, inode, ROOT, hidden);
    return error != 0 ? error : enter(volume, inode, hidden);
}

void hidden_unlink(struct volume *volume, uint64_t inode)
{
    const struct name *name = nodes_at(&volume->nodes, inode)->names;
    while (name != NULL && !name->is_hidden)
        name = name->next_of_node;
    if (name == NULL)
        return;
    volume_ask_name(volume, "unlink", ROOT, name->bytes);
    nodes_unname(&volume->nodes, ROOT, name->bytes);
    nodes_at(&volume->nodes, inode)->is_hidden = false;
    volume->hidden_names--;
}
