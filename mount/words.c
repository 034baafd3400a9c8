#include "words.h"
#include "program.h"

#include <stddef.h>
#include <stdio.h>
#include <string.h>

static const char usage[] = "squirrel-mount IMAGE FOLDER [-f] [-o OPTIONS]";

static const char help[] =
    "\n"
    "mounts the volume in the file IMAGE as FOLDER, until `fusermount3 -u FOLDER`.\n"
    "\n"
    "  -f               stays in the foreground, and tells faults while it is mounted\n"
    "  -o quiet         a mode or an owner that can't be kept is left as it is, and no error:\n"
    "                   for rsync -a, tar -x, install, cp -p, which fail without it\n"
    "  -o ro            nothing can be changed through the folder\n"
    "  -o allow_other   other users have the folder too: files are 0644, directories 0755\n"
    "  -o auto_unmount  the folder is unmounted also where the adapter is killed\n"
    "  -o script=BYTES  a script may have so many bytes, 65553 to 4294967296: for a test\n"
    "  -o OPTION,..     other mount options go to libfuse\n"
    "  -h, --help       this screen\n"
    "  -V, --version    what squirrel-mount and libfuse are\n"
    "\n"
    "SQUIRREL_PROGRAM in the environment names another build of the program `squirrel`.\n"
    "docs/mount.md says what is kept, what isn't, and with which status it ends.\n";

static const struct fuse_opt option_words[] = {
    {"-f", offsetof(struct options, is_foreground), 1},
    {"-h", offsetof(struct options, is_help), 1},
    {"--help", offsetof(struct options, is_help), 1},
    {"-V", offsetof(struct options, is_version), 1},
    {"--version", offsetof(struct options, is_version), 1},
    {"quiet", offsetof(struct options, is_quiet), 1},
    {"script=%llu", offsetof(struct options, script_limit), 0},
    FUSE_OPT_END,
};

/* The two words that are no options; of the others only mount options are left to libfuse. */
static int take_word(void *data, const char *word, int kind, struct fuse_args *rest)
{
    (void)rest;
    struct options *options = data;
    if (kind != FUSE_OPT_KEY_NONOPT)
        return word[0] == '-' ? -1 : 1;
    char **place = options->image == NULL ? &options->image : &options->folder;
    if (*place != NULL)
        return -1;
    *place = strdup(word);
    return 0;
}

/* The least limit of a script has room for the question at its start and the longest line. */
static bool is_possible(const struct options *options)
{
    if (options->is_help || options->is_version)
        return true;
    return options->image != NULL && options->folder != NULL && options->script_limit > LONGEST_LINE + 16 &&
           options->script_limit <= SCRIPT_LIMIT;
}

bool read_options(struct fuse_args *words, struct options *options)
{
    *options = (struct options){.script_limit = SCRIPT_LIMIT};
    if (fuse_opt_parse(words, options, option_words, take_word) == 0 && is_possible(options))
        return true;
    fprintf(stderr, "squirrel-mount: usage: %s\n", usage);
    return false;
}

void tell_help(void)
{
    printf("%s\n%s", usage, help);
}

void tell_version(void)
{
    printf("squirrel-mount: mounts a Naqtoryn volume over `squirrel run`\nlibfuse %s\n", fuse_pkgversion());
    fflush(stdout);
    fuse_lowlevel_version();
}
