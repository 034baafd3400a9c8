#define _GNU_SOURCE
#include "nodes.h"

#include <stdlib.h>
#include <string.h>

/* An id has the inode number below, then the generation, and one bit for the kind. */
enum { GENERATION_AT = 32, DIRECTORY_AT = 63 };

static struct timespec time_now(void)
{
    struct timespec now;
    clock_gettime(CLOCK_REALTIME, &now);
    return now;
}

bool nodes_make(struct nodes *nodes, uint64_t last)
{
    struct timespec now = time_now();
    nodes->last = last;
    nodes->list = calloc(last + 1, sizeof *nodes->list);
    nodes->buckets = calloc(NAME_BUCKETS, sizeof *nodes->buckets);
    nodes->mounted = (struct times){now, now, now};
    if (nodes->list == NULL || nodes->buckets == NULL || last > UINT32_MAX)
        return false;
    nodes->list[ROOT].is_directory = true;
    return true;
}

struct node *nodes_at(struct nodes *nodes, uint64_t inode)
{
    return &nodes->list[inode <= nodes->last ? inode : 0];
}

uint64_t nodes_id(struct nodes *nodes, uint64_t inode)
{
    const struct node *node = nodes_at(nodes, inode);
    uint64_t generation = (uint64_t)(node->generation & INT32_MAX) << GENERATION_AT;
    return inode == ROOT ? ROOT : (uint64_t)node->is_directory << DIRECTORY_AT | generation | inode;
}

uint64_t id_inode(uint64_t id)
{
    return id & UINT32_MAX;
}

bool id_is_directory(uint64_t id)
{
    return id == ROOT || id >> DIRECTORY_AT != 0;
}

uint64_t nodes_inode(struct nodes *nodes, uint64_t id)
{
    uint64_t inode = id_inode(id);
    return nodes_id(nodes, inode) == id ? inode : 0;
}

/* Where the chain begins that has the name. */
static struct name **bucket_of(struct nodes *nodes, uint64_t directory, const char *bytes)
{
    uint64_t sum = UINT64_C(14695981039346656037) ^ directory;
    sum *= UINT64_C(1099511628211);
    for (const unsigned char *at = (const unsigned char *)bytes; *at != 0; at++)
        sum = (sum ^ *at) * UINT64_C(1099511628211);
    return &nodes->buckets[(sum ^ sum >> 32) % NAME_BUCKETS];
}

struct name *nodes_find(struct nodes *nodes, uint64_t directory, const char *bytes)
{
    struct name *name = *bucket_of(nodes, directory, bytes);
    while (name != NULL && (name->directory != directory || strcmp(name->bytes, bytes) != 0))
        name = name->next_in_bucket;
    return name;
}

static void remove_name(struct nodes *nodes, struct name *name)
{
    struct name **at = bucket_of(nodes, name->directory, name->bytes);
    while (*at != name)
        at = &(*at)->next_in_bucket;
    *at = name->next_in_bucket;
    at = &nodes->list[name->node].names;
    while (*at != name)
        at = &(*at)->next_of_node;
    *at = name->next_of_node;
    nodes->list[name->directory].children--;
    free(name);
}

/* The only names of a node that isn't used go, and so on with the directory that they stood in. */
static void climb(struct nodes *nodes, uint64_t inode)
{
    for (;;) {
        struct node *node = &nodes->list[inode];
        if (node->lookups > 0 || node->opens > 0 || node->children > 0 || node->names == NULL)
            return;
        inode = node->names->directory;
        remove_name(nodes, node->names);
    }
}

void nodes_let_go(struct nodes *nodes, uint64_t inode)
{
    struct node *node = nodes_at(nodes, inode);
    while (node->lookups == 0 && node->opens == 0 && node->children == 0 && node->names != NULL) {
        uint64_t directory = node->names->directory;
        remove_name(nodes, node->names);
        climb(nodes, directory);
    }
}

struct name *nodes_name(struct nodes *nodes, uint64_t directory, const char *bytes, uint64_t inode)
{
    struct name *known = nodes_find(nodes, directory, bytes);
    if (known != NULL && known->node == inode)
        return known;
    size_t length = strlen(bytes);
    struct name *name = malloc(sizeof *name + length + 1);
    if (name == NULL)
        return NULL;
    if (known != NULL)
        remove_name(nodes, known);
    struct name **bucket = bucket_of(nodes, directory, bytes);
    *name = (struct name){nodes->list[inode].names, *bucket, inode, directory, false};
    memcpy(name->bytes, bytes, length + 1);
    nodes->list[inode].names = name;
    nodes->list[directory].children++;
    *bucket = name;
    return name;
}

void nodes_unname(struct nodes *nodes, uint64_t directory, const char *bytes)
{
    struct name *name = nodes_find(nodes, directory, bytes);
    if (name != NULL)
        remove_name(nodes, name);
    climb(nodes, directory);
}

void nodes_renew(struct nodes *nodes, uint64_t inode)
{
    struct node *node = nodes_at(nodes, inode);
    while (node->names != NULL)
        remove_name(nodes, node->names);
    node->generation++;
    node->lookups = 0;
    node->opens = 0;
    node->is_hidden = false;
    node->has_times = false;
    node->last = node->other = (struct told){0};
    nodes_touch(nodes, inode);
    node->times.accessed = node->times.modified;
}

void nodes_forget(struct nodes *nodes, uint64_t inode, uint64_t count)
{
    struct node *node = nodes_at(nodes, inode);
    node->lookups -= count < node->lookups ? count : node->lookups;
}

bool nodes_is_left(struct nodes *nodes, uint64_t inode)
{
    const struct node *node = nodes_at(nodes, inode);
    return node->is_hidden && node->opens == 0 && node->lookups == 0;
}

static time_t seconds_now(void)
{
    struct timespec now;
    clock_gettime(CLOCK_MONOTONIC_COARSE, &now);
    return now.tv_sec;
}

void nodes_tell(struct nodes *nodes, uint64_t inode, pid_t thread)
{
    struct node *node = nodes_at(nodes, inode);
    if (thread == 0 || thread != node->last.thread)
        node->other = node->last;
    node->last = (struct told){.thread = thread, .until = seconds_now() + SOUGHT_SECONDS};
}

bool nodes_is_sought(struct nodes *nodes, uint64_t inode, pid_t thread)
{
    const struct node *node = nodes_at(nodes, inode);
    bool is_own = thread != 0 && thread == node->last.thread;
    return (is_own ? node->other : node->last).until > seconds_now();
}

bool nodes_is_last_name(struct nodes *nodes, const struct name *name)
{
    return nodes->list[name->node].names == name && name->next_of_node == NULL;
}

const struct times *nodes_times(struct nodes *nodes, uint64_t inode)
{
    struct node *node = nodes_at(nodes, inode);
    return node->has_times ? &node->times : &nodes->mounted;
}

/* The times of a node, which has its own from now on. */
static struct times *own_times(struct nodes *nodes, uint64_t inode)
{
    struct node *node = nodes_at(nodes, inode);
    node->times = *nodes_times(nodes, inode);
    node->has_times = true;
    return &node->times;
}

void nodes_touch(struct nodes *nodes, uint64_t inode)
{
    struct times *times = own_times(nodes, inode);
    times->modified = times->changed = time_now();
}

void nodes_touch_status(struct nodes *nodes, uint64_t inode)
{
    own_times(nodes, inode)->changed = time_now();
}

void nodes_set_times(struct nodes *nodes, uint64_t inode, const struct timespec *accessed, const struct timespec *modified)
{
    struct times *times = own_times(nodes, inode);
    times->changed = time_now();
    if (accessed != NULL)
        times->accessed = *accessed;
    if (modified != NULL)
        times->modified = *modified;
}
