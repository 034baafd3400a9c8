"""A volume that is mounted as a folder, for trials of the adapter: `bin/squirrel-mount` over a given build of the program."""
import contextlib
import ctypes
import errno
import os
import random
import signal
import subprocess
import time
from pathlib import Path

from listing import CLOSED, mark_of

ROOT = Path(__file__).resolve().parent.parent
START = str(ROOT / "bin" / "squirrel-mount")
RENAME_NOREPLACE, RENAME_EXCHANGE = 1, 2
LONGEST_WAIT = 120.0
STAND_IN = str(ROOT / "tests" / "stand_in.py")
UNMOUNTED = (0, "", "")
PAGE = 4096
EACH_CALL_FAILS = "each call is answered EIO until the volume is mounted anew"
KILLED = (137, "", f"squirrel-mount: the program ended with status 137: {EACH_CALL_FAILS}\n")


class Wrong(Exception):
    """What was found, where something else was to be."""


def expect(is_so, problem):
    if not is_so:
        raise Wrong(problem)


def expect_equal(what, found, wanted):
    expect(found == wanted, f"{what}: {found!r}, and not {wanted!r}")


def error_of(call, *words, **named):
    """The name of the error that a call ends with, or nothing."""
    try:
        call(*words, **named)
    except OSError as fault:
        return errno.errorcode[fault.errno]
    return None


def expect_error(wanted, call, *words, **named):
    found = error_of(call, *words, **named)
    expect(found == wanted, f"{call.__name__} {[str(word)[:60] for word in words]}: {found}, and not {wanted}")


def await_so(is_so, what):
    """Waits until something is so."""
    end = time.monotonic() + LONGEST_WAIT
    while not is_so():
        expect(time.monotonic() < end, f"{what}: not within {LONGEST_WAIT:.0f} seconds")
        time.sleep(0.005)


def make_volume(program, image, pages):
    """A fresh volume."""
    Path(image).unlink(missing_ok=True)
    subprocess.run([program, "mkfs", image, str(pages)], check=True, capture_output=True)


def replies(program, image, *lines):
    """What the program itself answers on the image, which nothing else may have at that time."""
    script = "".join(line + "\n" for line in lines)
    job = subprocess.run([program, "run", image], input=script, capture_output=True, text=True)
    expect_equal(f"a run of {lines[0][:40]}", (job.returncode, job.stderr), (0, ""))
    return job.stdout.splitlines()


def listed(program, image, directory="/"):
    """The names of a directory, as the program writes them."""
    return replies(program, image, f"list {directory}")[0].split()[2:]


def expect_closed(image, what):
    expect_equal(f"the mark after {what}", mark_of(image), CLOSED)


def start_words(image, folder, options=(), is_foreground=True):
    words = [START, str(image), str(folder)]
    words += ["-f"] if is_foreground else []
    return words + (["-o", ",".join(options)] if options else [])


def environment(program):
    return {**os.environ, "SQUIRREL_PROGRAM": str(program)}


def start_in_background(program, image, folder, options=()):
    """Its status, and what it wrote."""
    job = subprocess.run(start_words(image, folder, options, False), env=environment(program), capture_output=True, text=True,
                         timeout=LONGEST_WAIT, stdin=subprocess.DEVNULL)
    return job.returncode, job.stdout, job.stderr


def children_of(process):
    """The processes that a process has started."""
    found = []
    for entry in os.listdir("/proc"):
        if entry.isdigit():
            try:
                fields = Path("/proc", entry, "stat").read_text().rpartition(")")[2].split()
            except OSError:
                continue
            if int(fields[1]) == process and fields[0] != "Z":
                found.append(int(entry))
    return found


def unmount(folder):
    """Whether the folder could be unmounted."""
    return subprocess.run(["fusermount3", "-u", folder], capture_output=True).returncode == 0


class Mount:
    """An adapter in the foreground, with the folder that it has mounted."""

    def __init__(self, program, image, folder, options=()):
        self.folder, self.image, self.is_stand_in = str(folder), image, program == STAND_IN
        self.job = subprocess.Popen(start_words(image, folder, options), env=environment(program), stdin=subprocess.DEVNULL,
                                    stdout=subprocess.PIPE, stderr=subprocess.PIPE, text=True)
        await_so(lambda: self.job.poll() is not None or os.path.ismount(self.folder), "a mount")
        if self.job.poll() is not None:
            raise Wrong(f"the mount ended with status {self.job.returncode}: {self.job.stdout.read()}{self.job.stderr.read()}")

    def at(self, *names):
        return os.path.join(self.folder, *names)

    def program(self):
        """The process of the program."""
        found = children_of(self.job.pid)
        expect(len(found) == 1, f"the adapter has {len(found)} processes")
        return found[0]

    def kill_program(self):
        """Kills the program, and waits until it is gone."""
        process = self.program()
        os.kill(process, signal.SIGKILL)
        await_so(lambda: process not in children_of(self.job.pid), "the end of a killed program")

    def ended(self):
        """The adapter's status, and what it wrote, once it has ended."""
        out, err = self.job.communicate(timeout=LONGEST_WAIT)
        return self.job.returncode, out, err

    def end(self, wanted=UNMOUNTED):
        """Unmounts the folder; the adapter ends so. Where nothing went wrong the volume is closed."""
        await_so(lambda: unmount(self.folder), "the unmount")
        expect_equal("the end of a mount", self.ended(), wanted)
        if wanted == UNMOUNTED and not self.is_stand_in:
            expect_closed(self.image, "an unmount")

    def abandon(self):
        """Unmounts it whatever it was at."""
        if self.job.poll() is None:
            self.job.terminate()
            try:
                self.job.communicate(timeout=10)
            except subprocess.TimeoutExpired:
                self.job.kill()
                self.job.communicate()
        subprocess.run(["fusermount3", "-u", "-z", self.folder], capture_output=True)

    def __enter__(self):
        return self

    def __exit__(self, kind, fault, trace):
        if self.job.poll() is None or os.path.ismount(self.folder):
            self.abandon()


class Trial:
    """What a group works with: the program, a folder of its own, and random numbers."""

    def __init__(self, program, work, seed):
        self.program, self.work, self.rng = program, Path(work), random.Random(seed)
        self.image, self.folder, self.host = self.work / "volume", self.work / "folder", self.work / "host"
        self.folder.mkdir()
        self.host.mkdir()

    def make(self, pages):
        make_volume(self.program, self.image, pages)

    def mount(self, *options):
        return Mount(self.program, self.image, self.folder, options)

    def at(self, *names):
        return os.path.join(self.folder, *names)

    def free(self):
        """Free inodes and pages."""
        room = os.statvfs(self.folder)
        return room.f_ffree, room.f_bfree


def write(path, content):
    with open(path, "wb", buffering=0) as file:
        expect_equal(f"a write of {len(content)} bytes to {path}", file.write(content), len(content))


def read(path):
    return Path(path).read_bytes()


@contextlib.contextmanager
def opened(path, flags=os.O_RDWR, mode=0o644):
    file = os.open(path, flags, mode)
    try:
        yield file
    finally:
        os.close(file)


def do(*words, folder=None, **environment):
    """A command that has to succeed. What it wrote."""
    job = subprocess.run(words, cwd=folder, capture_output=True, text=True, env={**os.environ, **environment})
    expect(job.returncode == 0, f"{' '.join(map(str, words))}: status {job.returncode}: {job.stdout[-300:]}{job.stderr[-300:]}")
    return job.stdout


@contextlib.contextmanager
def stand_in(trial, kind, armed):
    """The program's place is taken. Gives how it is armed."""
    words = {"STAND_IN": kind, "STAND_IN_PROGRAM": trial.program, "STAND_IN_ARMED": str(armed)}
    os.environ.update(words)
    try:
        yield Mount(STAND_IN, trial.image, trial.folder)
    finally:
        for word in words:
            del os.environ[word]


LIBRARY = ctypes.CDLL(None, use_errno=True)


def rename_with(flags, old, new):
    """The system's rename with flags."""
    if LIBRARY.renameat2(-100, os.fsencode(old), -100, os.fsencode(new), flags) != 0:
        raise OSError(ctypes.get_errno(), "renameat2")


def fallocate(file, offset, length):
    """The system's own, which writes nothing in its place where a file system has none."""
    if LIBRARY.fallocate(file, 0, ctypes.c_long(offset), ctypes.c_long(length)) != 0:
        raise OSError(ctypes.get_errno(), "fallocate")


def has(program):
    return subprocess.run(["sh", "-c", f"command -v {program}"], capture_output=True).returncode == 0


def has_libfuse():
    return has("pkg-config") and subprocess.run(["pkg-config", "fuse3"], capture_output=True).returncode == 0


def has_sqlite_module():
    try:
        import sqlite3  # noqa: F401
    except ImportError:
        return False
    return True


def can_open_fuse():
    try:
        os.close(os.open("/dev/fuse", os.O_RDWR))
    except OSError:
        return False
    return True


def missing():
    """What these trials need and the machine lacks."""
    needed = [
        (can_open_fuse(), "/dev/fuse that can be opened"),
        (has("fusermount3"), "fusermount3 (package fuse3)"),
        (has("cc"), "cc (package gcc)"),
        (has_libfuse(), "libfuse's headers (packages libfuse3-dev and pkg-config)"),
        (has_sqlite_module() or has("sqlite3"), "sqlite (python's module sqlite3, or the program of package sqlite3)"),
    ]
    return [what for is_there, what in needed if not is_there]


def tell(text):
    print(text, flush=True)
