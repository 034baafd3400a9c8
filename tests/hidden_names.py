"""Files that are open without a name, and programs that are killed behind each line of what takes it."""
import concurrent.futures
import contextlib
import os
import time

from mounts import (
    KILLED, PAGE, await_so, error_of, expect, expect_equal, expect_error, listed, opened, read, replies, stand_in, write,
)


def hidden_unlink(trial, mount):
    free = trial.free()
    os.mkdir(trial.at("d"))
    with opened(trial.at("d", "a"), os.O_CREAT | os.O_RDWR) as file:
        os.write(file, b"still here")
        os.unlink(trial.at("d", "a"))
        os.rmdir(trial.at("d"))
        expect_equal("the names", os.listdir(trial.folder), [])
        expect_equal("the root's size", os.stat(trial.folder).st_size, 0)
        expect_equal("links", os.fstat(file).st_nlink, 0)
        os.pwrite(file, b"S", 0)
        os.ftruncate(file, 8)
        expect_equal("the bytes", os.pread(file, 99, 0), b"Still he")
        for name in os.listdir(trial.folder) + [f".squirrel-{os.fstat(file).st_ino}"]:
            expect_error("ENOENT", os.stat, trial.at(name))
            expect_error("ENOENT", os.unlink, trial.at(name))
    await_so(lambda: trial.free()[0] == free[0], "the inode of a closed file")


def hidden_over(trial, mount):
    free = trial.free()[0]
    write(trial.at("N"), b"old")
    with opened(trial.at("N")) as file:
        write(trial.at("O"), b"new")
        os.rename(trial.at("O"), trial.at("N"))
        expect_equal("the bytes", (os.pread(file, 9, 0), read(trial.at("N"))), (b"old", b"new"))
        expect_equal("links and names", (os.fstat(file).st_nlink, os.listdir(trial.folder)), (0, ["N"]))
        write(trial.at("O"), b"newer")
        os.rename(trial.at("O"), trial.at("N"))
        expect_equal("the bytes", (os.pread(file, 9, 0), read(trial.at("N"))), (b"old", b"newer"))
    await_so(lambda: trial.free()[0] == free - 1, "the inode of a closed file")
    os.unlink(trial.at("N"))


def held_by_another(path):
    """The file at a path as another thread was told of it, which has not opened it yet."""
    with concurrent.futures.ThreadPoolExecutor(1) as another:
        return another.submit(os.open, path, os.O_PATH).result()


def sought(trial, mount):
    """A file that another thread may be about to open outlives its name; one that nobody looked for has no hidden name."""
    free = trial.free()[0]
    for take_name in (os.unlink, lambda path: os.rename(trial.at("O"), path)):
        write(trial.at("N"), b"old")
        write(trial.at("O"), b"new")
        time.sleep(1.1)
        held = held_by_another(trial.at("N"))
        take_name(trial.at("N"))
        expect_equal("what was looked up is opened", read(f"/proc/self/fd/{held}"), b"old")
        expect_equal("links", os.fstat(held).st_nlink, 0)
        os.close(held)
        await_so(lambda: trial.free()[0] == free - len(os.listdir(trial.folder)), "the inode of a closed file")
        for name in os.listdir(trial.folder):
            os.unlink(trial.at(name))
    write(trial.at("N"), b"old")
    held = os.open(trial.at("N"), os.O_PATH)
    os.unlink(trial.at("N"))
    expect_error("ESTALE", os.open, f"/proc/self/fd/{held}", os.O_RDONLY)
    os.close(held)


def no_page_for_sought(trial):
    """Where there is no page for the hidden name of what was only looked up, its name goes all the same."""
    for take_name in (os.unlink, lambda path: os.rename(trial.at("O"), path)):
        trial.make(16)
        lines = ["create /O", "create /N", *(f"link /O /n{number}" for number in range(30)), f"truncate /O {12 * PAGE}", "df"]
        expect_equal("df", replies(trial.program, trial.image, *lines)[-1], "ok inodes 1 4 pages 0 13")
        with trial.mount() as mount:
            held = held_by_another(trial.at("N"))
            take_name(trial.at("N"))
            expect_error("ESTALE", os.open, f"/proc/self/fd/{held}", os.O_RDONLY)
            expect_error("ESTALE", os.fstat, held)
            os.close(held)
            mount.end()


def unknown_name(trial):
    """The last name that is known goes of a file that has another."""
    replies(trial.program, trial.image, "create /a", "link /a /b", "write /a 0 6162")
    with trial.mount() as mount:
        with opened(trial.at("a")) as file:
            os.unlink(trial.at("a"))
            expect_equal("links", os.fstat(file).st_nlink, 1)
            os.pwrite(file, b"A", 0)
            expect_equal("what the other name reads", (read(trial.at("b")), os.stat(trial.at("b")).st_nlink), (b"Ab", 1))
            os.unlink(trial.at("b"))
            expect_equal("links", os.fstat(file).st_nlink, 0)
            expect_equal("the bytes", os.pread(file, 9, 0), b"Ab")
        mount.end()
    expect_equal("the names", listed(trial.program, trial.image), [])


def no_page_for_hidden(trial):
    trial.make(16)
    lines = ["create /n0", *(f"link /n0 /n{number}" for number in range(1, 32)), f"truncate /n0 {12 * PAGE}", "df"]
    expect_equal("df", replies(trial.program, trial.image, *lines)[-1], "ok inodes 2 4 pages 0 13")
    with trial.mount() as mount:
        with opened(trial.at("n0")) as file:
            expect_error("ENOSPC", os.unlink, trial.at("n0"))
            expect_equal("links", os.fstat(file).st_nlink, 32)
        await_so(lambda: error_of(os.unlink, trial.at("n0")) is None, "an unlink of a file that isn't open")
        mount.end()


def killed_behind(trial, lines, act):
    """The program is killed behind so many lines of what is done, and the volume mounted anew."""
    armed = trial.work / "armed"
    armed.unlink(missing_ok=True)
    with stand_in(trial, "killed", armed) as mount, mount:
        with contextlib.suppress(OSError), opened(trial.at("N")):
            armed.write_text(str(lines))
            act()
        if error_of(os.mkdir, trial.at("more")) is None:
            await_so(lambda: error_of(os.mkdir, trial.at("more")) == "EIO", "a program that is killed")
        mount.end(KILLED)


def after_kill(trial, wanted):
    """Names and bytes after the next mount, and that no hidden name is left."""
    with trial.mount() as mount:
        found = {name: read(trial.at(name)) for name in os.listdir(trial.folder) if name != "more"}
        expect_equal("what is there", found, wanted)
        expect_equal("inodes in use", 64 - trial.free()[0], 1 + len(os.listdir(trial.folder)))
        mount.end()
    expect_equal("the names", sorted(set(listed(trial.program, trial.image)) - {"more"}), sorted(wanted))


def others(trial):
    """Of names that look like hidden ones a mount removes a file's whose inode number it has, and no others."""
    trial.make(64)
    lines = ["create /.squirrel-2", "create /.squirrel-4", "mkdir /.squirrel-9", "create /.squirrel-5-3", "create /.squirrel-02",
             "create /a", "create /.squirrel-5", "stat /a", "stat /.squirrel-5-3"]
    numbers = [reply.split()[3] for reply in replies(trial.program, trial.image, *lines)[-2:]]
    expect_equal("inode numbers", numbers, ["7", "5"])
    kept = [".squirrel-4", ".squirrel-5", ".squirrel-9", ".squirrel-02"]
    with trial.mount() as mount:
        expect_equal("the names", sorted(os.listdir(trial.folder)), sorted([*kept, "a"]))
        write(trial.at(".squirrel-4"), b"of others")
        os.mkdir(trial.at(".squirrel-9", "d"))
        expect_error("EPERM", os.rename, trial.at("a"), trial.at(".squirrel-4"))
        os.rename(trial.at(".squirrel-5"), trial.at("b"))
        expect_error("EPERM", os.rename, trial.at("b"), trial.at(".squirrel-5"))
        expect_equal("links of the root", os.stat(trial.folder).st_size, 5)
        mount.end()
    taken_names(trial)


def taken_names(trial):
    """Where the hidden name of an open file is taken it gets the next free one."""
    lines = ["rename /b /.squirrel-7", "mkdir /.squirrel-7-1", "write /a 0 61"]
    replies(trial.program, trial.image, *lines)
    before = listed(trial.program, trial.image)
    for take_name in (os.unlink, lambda path: os.rename(trial.at("O"), path)):
        with trial.mount() as mount:
            number = os.stat(trial.at("a")).st_ino
            expect_equal("the inode number of the open file", number, 7)
            write(trial.at("O"), b"new")
            with opened(trial.at("a")) as file:
                take_name(trial.at("a"))
                expect_equal("the bytes", os.pread(file, 9, 0), b"a")
                expect(".squirrel-7" in os.listdir(trial.folder), "a name of others went")
                mount.kill_program()
            mount.end(KILLED)
        expect(".squirrel-7-2" in listed(trial.program, trial.image), "the hidden name isn't the next free one")
        with trial.mount() as mount:
            mount.end()
        if take_name is os.unlink:
            replies(trial.program, trial.image, "rename /O /a", "write /a 0 61")
            replies(trial.program, trial.image, "unlink /a", "create /a", "write /a 0 61")
        expect_equal("the names", listed(trial.program, trial.image), before)


def hidden_killed(trial):
    for lines in range(3):
        trial.make(256)
        replies(trial.program, trial.image, "create /N", "write /N 0 61")
        killed_behind(trial, lines, lambda: os.unlink(trial.at("N")))
        after_kill(trial, {} if lines > 0 else {"N": b"a"})
    for lines in range(4):
        trial.make(256)
        replies(trial.program, trial.image, "create /N", "write /N 0 61", "create /O", "write /O 0 62")
        killed_behind(trial, lines, lambda: os.rename(trial.at("O"), trial.at("N")))
        after_kill(trial, {"N": b"b"} if lines > 1 else {"N": b"a", "O": b"b"})


def hidden(trial):
    trial.make(256)
    with trial.mount() as mount:
        hidden_unlink(trial, mount)
        hidden_over(trial, mount)
        sought(trial, mount)
        mount.end()
    unknown_name(trial)
    no_page_for_sought(trial)
    no_page_for_hidden(trial)
    others(trial)
    hidden_killed(trial)
