"""The rows of the two tables of docs/mount.md that other trials don't come to."""
import fcntl
import mmap
import os
import stat
import time

from mounts import (
    EACH_CALL_FAILS, PAGE, RENAME_EXCHANGE, RENAME_NOREPLACE, error_of, expect, expect_equal, expect_error, fallocate, opened, read,
    rename_with, replies, stand_in, write,
)

REPLIES = {
    "NotFound": "ENOENT", "NotDir": "ENOTDIR", "Exists": "EEXIST", "IsDir": "EISDIR", "NotEmpty": "ENOTEMPTY", "Root": "EBUSY",
    "IntoItself": "EINVAL", "TooBig": "EFBIG", "NameTooLong": "ENAMETOOLONG", "BadPath": "EINVAL", "NoInodes": "ENOSPC",
    "NoPages": "ENOSPC", "NoMemory": "ENOMEM",
}
NO_REPLIES = {"Fault": "a fence of the device failed", "Stopped": "a fence of the device failed",
              "odd": "the program answered what isn't known here: okay odd",
              "BadLine": "the program answered what isn't known here: error BadLine"}


def told_replies(trial):
    """Each refusal's error, told by what stands in the program's place, in two pieces; a reply of megabytes."""
    with stand_in(trial, "told", "") as mount, mount:
        for word, error in REPLIES.items():
            expect_error(error, os.mkdir, trial.at(word))
        expect_error("EPERM", os.link, trial.at("file"), trial.at("IsDir"))
        names = os.listdir(trial.at("big"))
        expect_equal("the names of a large directory", (len(names), len(set(names))), (40000, 40000))
        mount.end()
    for word, cause in NO_REPLIES.items():
        with stand_in(trial, "told", "") as mount, mount:
            file = os.open(trial.at("file"), os.O_RDONLY)
            os.fsync(file)
            for _ in range(2):
                expect_error("EIO", os.mkdir, trial.at(word))
                expect_error("EIO", os.mkdir, trial.at("NotFound"))
            expect_error("EIO", os.fsync, file)
            error_of(os.close, file)
            mount.end((0, "", f"squirrel-mount: {cause}: {EACH_CALL_FAILS}\n"))


def attributes(trial):
    before = time.time()
    write(trial.at("a"), b"a" * (PAGE + 1))
    os.mkdir(trial.at("d"))
    for name in "xy":
        write(trial.at("d", name), b"")
    shown = os.stat(trial.at("a"))
    expect_equal("a file", (oct(shown.st_mode), shown.st_nlink, shown.st_size, shown.st_blocks, shown.st_uid, shown.st_gid),
                 (oct(stat.S_IFREG | 0o644), 1, PAGE + 1, 16, os.getuid(), os.getgid()))
    shown = os.stat(trial.at("d"))
    expect_equal("a directory", (oct(shown.st_mode), shown.st_nlink, shown.st_size), (oct(stat.S_IFDIR | 0o755), 2, 2))
    for path in ("a", "d"):
        times = os.stat(trial.at(path))
        expect(before - 1 < times.st_mtime <= times.st_ctime < time.time() + 1, f"times of {path}: {times}")
    os.utime(trial.at("a"), ns=(10**9, 2 * 10**9 + 5))
    os.utime(trial.at("d"), ns=(3 * 10**9, 4 * 10**9))
    found = [os.stat(trial.at(name)) for name in ("a", "d")]
    expect_equal("times", [(shown.st_atime_ns, shown.st_mtime_ns) for shown in found],
                 [(10**9, 2 * 10**9 + 5), (3 * 10**9, 4 * 10**9)])
    write(trial.at("d", "z"), b"")
    expect(os.stat(trial.at("d")).st_mtime >= before - 1, "a directory's time stays when a name is made in it")
    os.chmod(trial.at("a"), 0o644)
    os.chown(trial.at("a"), os.getuid(), os.getgid())
    expect_error("EPERM", os.chmod, trial.at("a"), 0o600)
    expect_error("EPERM", os.chmod, trial.at("d"), 0o700)
    os.close(os.open(trial.at("secret"), os.O_CREAT | os.O_WRONLY, 0o600))
    os.mkdir(trial.at("own"), 0o700)
    expect_equal("modes that were asked for", [oct(os.stat(trial.at(name)).st_mode) for name in ("secret", "own")],
                 [oct(stat.S_IFREG | 0o644), oct(stat.S_IFDIR | 0o755)])
    os.unlink(trial.at("secret"))
    os.rmdir(trial.at("own"))
    if os.getuid() == 0:
        expect_error("EPERM", os.chown, trial.at("a"), 1, -1)
        expect_error("EPERM", os.chown, trial.at("a"), -1, 1)


def kinds(trial):
    for kind in (stat.S_IFIFO, stat.S_IFSOCK):
        expect_error("EPERM", os.mknod, trial.at("kind"), kind | 0o644)
    os.mknod(trial.at("node"), stat.S_IFREG | 0o644)
    expect_error("ENOTSUP", os.symlink, "a", trial.at("symbolic"))
    expect_error("EINVAL", os.readlink, trial.at("a"))
    expect_error("ENOTSUP", os.setxattr, trial.at("a"), "user.name", b"1")
    expect_error("ENOTSUP", os.getxattr, trial.at("a"), "user.name")
    expect_error("ENOTSUP", os.listxattr, trial.at("a"))
    with opened(trial.at("a")) as file:
        expect_error("ENOTSUP", fallocate, file, 0, 9)
        fcntl.lockf(file, fcntl.LOCK_EX | fcntl.LOCK_NB)
        fcntl.flock(file, fcntl.LOCK_EX | fcntl.LOCK_NB)


def renames(trial):
    write(trial.at("r"), b"r")
    expect_error("EEXIST", rename_with, RENAME_NOREPLACE, trial.at("r"), trial.at("a"))
    expect_error("EINVAL", rename_with, RENAME_EXCHANGE, trial.at("r"), trial.at("a"))
    rename_with(RENAME_NOREPLACE, trial.at("r"), trial.at("s"))
    expect_equal("what was renamed", read(trial.at("s")), b"r")
    for hidden_name in (".squirrel-3", ".squirrel-999"):
        expect_error("EPERM", os.mkdir, trial.at(hidden_name))
        expect_error("EPERM", os.open, trial.at(hidden_name), os.O_CREAT | os.O_WRONLY)
        expect_error("EPERM", os.rename, trial.at("s"), trial.at(hidden_name))
        expect_error("EPERM", os.link, trial.at("s"), trial.at(hidden_name))
        expect_error("ENOENT", os.rmdir, trial.at(hidden_name))
        write(trial.at("d", hidden_name), b"an ordinary name there")


def contents(trial):
    expect_error("EFBIG", os.truncate, trial.at("s"), 2**40 + 1)
    with opened(trial.at("s")) as file:
        expect_error("EFBIG", os.pwrite, file, b"1", 2**40)
        expect_equal("a read past the end", os.pread(file, 9, 5), b"")
        os.ftruncate(file, 3 * PAGE)
        expect_equal("a hole", os.pread(file, PAGE, PAGE), bytes(PAGE))
        with mmap.mmap(file, 3 * PAGE) as mapped:
            mapped[PAGE:PAGE + 3] = b"map"
            mapped.flush()
        expect_equal("what was written to a mapped file", os.pread(file, 5, PAGE - 1), b"\0map\0")
    with opened(trial.at("s"), os.O_WRONLY | os.O_TRUNC) as file:
        expect_equal("a size after O_TRUNC", os.fstat(file).st_size, 0)
    expect_error("ENAMETOOLONG", os.mkdir, trial.at("n" * 111))
    room = os.statvfs(trial.folder)
    expect_equal("names", room.f_namemax, 110)
    return f"ok inodes {room.f_ffree} {room.f_files} pages {room.f_bfree} {room.f_blocks}"


def numbers_taken_again(trial):
    """A file that gets the number of what is gone isn't taken for it, where that is still held."""
    os.mkdir(trial.at("gone"))
    write(trial.at("gone too"), b"gone")
    held = [os.open(trial.at("gone"), os.O_RDONLY), os.open(trial.at("gone too"), os.O_PATH)]
    numbers = [os.fstat(file).st_ino for file in held]
    os.rmdir(trial.at("gone"))
    removed(held[0], numbers[0])
    os.unlink(trial.at("gone too"))
    for number, name in zip(numbers, ("taken", "taken too"), strict=True):
        write(trial.at(name), name.encode())
        expect_equal("the number of a new file", os.stat(trial.at(name)).st_ino, number)
        expect_equal("what a new file reads", read(trial.at(name)), name.encode())
    removed(held[0], numbers[0])
    expect_error("ESTALE", os.fstat, held[1])
    for flags in (os.O_RDONLY, os.O_RDWR | os.O_TRUNC):
        expect_error("ESTALE", os.open, f"/proc/self/fd/{held[1]}", flags)
    expect_error("ESTALE", os.truncate, f"/proc/self/fd/{held[1]}", 0)
    for file in held:
        os.close(file)
    for name in ("taken", "taken too"):
        expect_equal("what a new file reads", read(trial.at(name)), name.encode())


def removed(directory, number):
    """A directory that was removed while it is open is empty."""
    shown = os.fstat(directory)
    expect_equal("a directory that is gone", (shown.st_ino, shown.st_nlink, shown.st_size), (number, 0, 0))
    expect_equal("its names", os.listdir(directory), [])
    for call, words in ((os.mkdir, ("new",)), (os.stat, ("new",)), (os.unlink, ("new",)), (os.open, ("new", os.O_CREAT))):
        expect_error("ENOENT", call, *words, dir_fd=directory)


def deep_paths(trial):
    """Lines as long as they may be: a path takes the room of a write's bytes, and in the end there is none for itself."""
    name, content = "%" * 110, trial.rng.randbytes(60000)
    above, depth, error = os.open(trial.folder, os.O_RDONLY), 0, None
    while error is None:
        if depth in (120, 170):
            file = os.open("file", os.O_CREAT | os.O_RDWR, 0o644, dir_fd=above)
            expect_equal("a write far below", os.write(file, content), len(content))
            expect(os.pread(file, 99999, 0) == content, "a file far below reads as other bytes")
            os.close(file)
        error = error_of(os.mkdir, name, dir_fd=above)
        if error is None:
            below = os.open(name, os.O_RDONLY, dir_fd=above)
            os.close(above)
            above, depth = below, depth + 1
    os.close(above)
    expect_equal("the end of a long path, and its names", (error, depth), ("ENAMETOOLONG", (65536 - len("mkdir ")) // 331))


def rows_of_tables(trial):
    told_replies(trial)
    trial.make(1024)
    with trial.mount() as mount:
        for part in (attributes, kinds, renames, numbers_taken_again):
            part(trial)
        space = contents(trial)
        mount.end()
    expect_equal("df", replies(trial.program, trial.image, "df"), [space])
    with trial.mount("quiet") as mount:
        os.chmod(trial.at("a"), 0o600)
        os.chown(trial.at("a"), 1, 1)
        expect_equal("a mode that was set quietly", oct(os.stat(trial.at("a")).st_mode), oct(stat.S_IFREG | 0o644))
        expect_equal("times of two files after a new mount", os.stat(trial.at("node")).st_mtime, os.stat(trial.at("s")).st_mtime)
        deep_paths(trial)
        mount.end()
