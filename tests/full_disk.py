"""A volume whose file has holes on a disk that has no room for them: a part of tests/failing."""
import errno
import os
import subprocess

from faults import Bench, Ended, fault, has_ended, whole
from jobs import Wrong, put_bytes
from listing import listed
from meant import PAGE_BYTES, Making, line_on, lines_of
from trees import may_leave, trees_after
from weaving import Volume

FULL_PAGES = 64
WRITTEN = 2 * PAGE_BYTES
ROOM_LEFT = 6 * WRITTEN
SIZE_OF_DISK = 512 * 1024


def is_done(*words):
    """Whether a command is there and ends as done."""
    try:
        return subprocess.run(words, capture_output=True).returncode == 0
    except FileNotFoundError:
        return False


def mount_memory(folder, _bench):
    """A small file system in memory."""
    return is_done("mount", "-t", "tmpfs", "-o", f"size={SIZE_OF_DISK}", "none", folder)


def mount_disk(folder, bench):
    """A small file system in a file."""
    file = bench.path("disk")
    put_bytes(file, bytes(SIZE_OF_DISK))
    return is_done("mkfs.ext4", "-q", "-F", file) and is_done("mount", "-o", "loop", file, folder)


def fill(path, room):
    """Takes all the room of a file system but so many bytes."""
    with open(path, "wb", buffering=0) as file:
        try:
            while file.write(bytes(1024)):
                pass
        except OSError as full:
            if full.errno != errno.ENOSPC:
                raise
        os.fsync(file.fileno())
        file.truncate(max(0, os.path.getsize(path) - room))
        os.fsync(file.fileno())


def check_making_full(bench):
    """There is no room for a volume, and its file isn't one."""
    has_ended(bench.run(["mkfs"], [str(FULL_PAGES)]), fault(5, "", "device fault"))
    has_ended(bench.run(["run"]), Ended(4, "not a volume\n", ""))


def write_line(path, byte):
    return f"write {path} 0 {byte * WRITTEN}"


def full_lines():
    """Lines that write more than there is room for."""
    files = ["/a", *(f"/b{number}" for number in range(2 * ROOM_LEFT // WRITTEN))]
    return [line for path in files for line in (f"create {path}", write_line(path, "61"))]


def check_writing_full(bench):
    """A volume whose file has holes fills the disk in the middle of a script. What was answered is there in the next run, and once a
    file gives up its pages another one takes them."""
    put_bytes(bench.image, b"")
    os.truncate(bench.image, PAGE_BYTES * FULL_PAGES)
    making = Making("mkfs", FULL_PAGES, None, None, b"")
    has_ended(bench.run(making.words, making.options), whole(making))
    volume = Volume(FULL_PAGES)
    lines = [line_on(volume, text) for text in full_lines()]
    ended = bench.run(["run"], script=lines_of(line.text for line in lines))
    done = ended.output.count("ok")
    replies = [line.reply for line in lines[:done]] + ["error Fault"] + ["error Stopped"] * (len(lines) - done - 1)
    has_ended(ended, fault(5, lines_of(replies), "device fault"))
    command, path, *_ = lines[done].text.split()
    if done < 2 or command != "write":
        raise Wrong(f"the line that fails is {command} {path}")
    found = listed(bench.program, bench.image)
    if not may_leave(lines[done].before, lines[done].text, found):
        raise Wrong(f"another tree is listed: {sorted(found.paths())}")
    check_going_on(bench, found, ["truncate /a 0", write_line(path, "62")])


def check_going_on(bench, tree, lines):
    """Lines that take no more of the disk are answered."""
    has_ended(bench.run(["run"], script=lines_of(lines)), Ended(0, f"ok\nok {WRITTEN}\n", ""))
    after = trees_after(tree, lines)[-1]
    if listed(bench.program, bench.image) != after:
        raise Wrong("the next run lists another tree")


def fill_disks(tally, bench):
    for name, mount in (("tmpfs", mount_memory), ("ext4", mount_disk)):
        folder = bench.path("mounted")
        os.makedirs(folder, exist_ok=True)
        if not mount(folder, bench):
            tally.skip(name, "it can't be made or mounted here")
            continue
        try:
            inside = Bench(bench.program, folder)
            inside.script, inside.told = bench.script, bench.told
            fill(inside.path("filler"), ROOM_LEFT)
            tally.case(f"{name}, mkfs", check_making_full, inside)
            tally.case(f"{name}, run", check_writing_full, inside)
        finally:
            is_done("umount", folder)
