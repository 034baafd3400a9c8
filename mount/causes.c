#include "causes.h"

#include <errno.h>
#include <fcntl.h>
#include <inttypes.h>
#include <limits.h>
#include <mntent.h>
#include <stdio.h>
#include <string.h>
#include <sys/file.h>
#include <sys/stat.h>
#include <sys/statvfs.h>
#include <unistd.h>

/* A volume's pages, and what one write of a fence may need of the disk. */
enum { PAGE = 4096, FEWEST_PAGES = 16, MOST_PAGES = 65536, ONE_WRITE = 65536 };

uint64_t bytes_of_image(const char *image)
{
    struct stat status;
    return stat(image, &status) == 0 ? (uint64_t)status.st_size : 0;
}

/* The folder that an image is mounted as, where the system's table of mounts tells it. */
static bool find_folder(const char *image, char folder[PATH_MAX])
{
    struct mntent entry;
    char words[3 * PATH_MAX];
    bool is_found = false;
    FILE *table = setmntent("/proc/self/mounts", "re");
    if (table == NULL)
        return false;
    while (!is_found && getmntent_r(table, &entry, words, sizeof words) != NULL)
        is_found = strcmp(entry.mnt_type, "fuse.squirrel") == 0 && strcmp(entry.mnt_fsname, image) == 0;
    if (is_found)
        snprintf(folder, PATH_MAX, "%s", entry.mnt_dir);
    endmntent(table);
    return is_found;
}

/* An image is in use where its lock is taken, which is let go again at once. */
static bool is_in_use(int file)
{
    return flock(file, LOCK_EX | LOCK_NB) != 0 && errno == EWOULDBLOCK;
}

static void tell_use(const char *image, char cause[CAUSE_ROOM])
{
    char folder[PATH_MAX];
    if (find_folder(image, folder))
        snprintf(cause, CAUSE_ROOM, "it is in use: it is mounted as %s", folder);
    else
        snprintf(cause, CAUSE_ROOM, "it is in use by another job");
}

static bool is_volume_size(uint64_t bytes)
{
    return bytes % PAGE == 0 && bytes / PAGE >= FEWEST_PAGES && bytes / PAGE <= MOST_PAGES;
}

bool cause_at_start(const char *image, char cause[CAUSE_ROOM])
{
    uint64_t bytes = bytes_of_image(image);
    int file = open(image, O_RDWR | O_CLOEXEC | O_NONBLOCK);
    bool is_told = true;
    if (file < 0 && errno == ENOENT)
        snprintf(cause, CAUSE_ROOM, "there is no such file");
    else if (file < 0)
        snprintf(cause, CAUSE_ROOM, "it is no file that may be written: %s", strerror(errno));
    else if (is_in_use(file))
        tell_use(image, cause);
    else if (!is_volume_size(bytes))
        snprintf(cause, CAUSE_ROOM, "it has another length than a volume's: %" PRIu64 " bytes", bytes);
    else
        is_told = false;
    if (file >= 0)
        close(file);
    return is_told;
}

/* Whether the disk has no room for what a fence writes. */
static bool is_disk_full(const char *image)
{
    struct statvfs disk;
    if (statvfs(image, &disk) != 0)
        return false;
    uint64_t blocks = geteuid() == 0 ? disk.f_bfree : disk.f_bavail;
    return blocks * disk.f_frsize < ONE_WRITE;
}

void cause_of_fault(const char *image, uint64_t bytes, char cause[CAUSE_ROOM])
{
    uint64_t now = bytes_of_image(image);
    if (now != bytes)
        snprintf(cause, CAUSE_ROOM, "%s has another length than its volume's: %" PRIu64 " bytes", image, now);
    else if (is_disk_full(image))
        snprintf(cause, CAUSE_ROOM, "the disk of %s is full", image);
    else
        snprintf(cause, CAUSE_ROOM, "a fence of the device failed");
}
