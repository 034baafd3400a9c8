"""Runs the program where a call of the system fails: by strace where it is a call on a file, and by a library of a few lines of C, which
is loaded before the C library, where it is an allocation.
"""
import dataclasses
import os
import re
import subprocess

from jobs import Wrong, bytes_of, put_bytes

SECONDS = 120
KILLED = -9
CALL = re.compile(r"^(\w+)\(.*\) += (-?\d+)", re.MULTILINE)

# The library: of the program's allocations the one of this number is refused, and a file is made where that comes.
REFUSING = r"""
#include <errno.h>
#include <fcntl.h>
#include <stdlib.h>
#include <unistd.h>

void *__libc_malloc(size_t), *__libc_calloc(size_t, size_t), *__libc_realloc(void *, size_t), *__libc_memalign(size_t, size_t);

static long taken;

static int refuses(void) {
    const char *number = getenv("REFUSED_NUMBER"), *mark = getenv("REFUSED_MARK");
    if (!number || !mark || ++taken != atol(number))
        return 0;
    close(open(mark, O_CREAT | O_WRONLY, 0600));
    errno = ENOMEM;
    return 1;
}

void *malloc(size_t size) { return refuses() ? 0 : __libc_malloc(size); }
void *calloc(size_t count, size_t size) { return refuses() ? 0 : __libc_calloc(count, size); }
void *realloc(void *old, size_t size) { return refuses() ? 0 : __libc_realloc(old, size); }
void *memalign(size_t alignment, size_t size) { return refuses() ? 0 : __libc_memalign(alignment, size); }
void *aligned_alloc(size_t alignment, size_t size) { return memalign(alignment, size); }

int posix_memalign(void **memory, size_t alignment, size_t size) {
    void *taken_memory = memalign(alignment, size);
    if (!taken_memory)
        return ENOMEM;
    *memory = taken_memory;
    return 0;
}
"""


@dataclasses.dataclass(frozen=True)
class Ended:
    """How a run ended, and what it wrote."""
    status: int
    output: str
    error: str


@dataclasses.dataclass(frozen=True)
class Call:
    """A call of the system on a file: its name, which it is of those of its name, and what it answered."""
    name: str
    number: int
    answer: int


class Bench:
    """A folder in which the program is run, its image and its streams in files there, whose whole paths strace takes."""

    def __init__(self, program, folder):
        self.program = program
        self.folder = os.path.realpath(folder)
        self.image = self.path("volume")
        self.script = self.path("script")
        self.told = self.path("told")
        self.trace = self.path("trace")
        self.mark = self.path("mark")

    def path(self, name):
        return os.path.join(self.folder, name)

    def put(self, held):
        """The image gets these bytes, or is no file."""
        if held is None:
            if os.path.exists(self.image):
                os.remove(self.image)
        else:
            put_bytes(self.image, held)

    def found(self):
        """The bytes of the image, or nothing where it is no file."""
        return bytes_of(self.image) if os.path.exists(self.image) else None

    def run(self, words, options=(), script="", before=(), environment=()):
        """A run of the program, behind these words of another program."""
        put_bytes(self.script, script.encode())
        with open(self.script, "rb") as given, open(self.told, "wb") as told:
            job = subprocess.run([*before, self.program, *words, self.image, *options], stdin=given, stdout=told,
                                 stderr=subprocess.PIPE, env={**os.environ, **dict(environment)}, cwd=self.folder, timeout=SECONDS)
        return Ended(job.returncode, bytes_of(self.told).decode(), job.stderr.decode())

    def run_of(self, meant, before=(), environment=()):
        """A run of a job on the bytes with which it begins."""
        self.put(meant.held)
        return self.run(meant.words, meant.options, meant.script(), before, environment)

    # Calls on a file.

    def strace(self, path, *words):
        """The words that trace the calls on a path alone."""
        return ["strace", "-qq", "-e", "signal=none", "-o", self.trace, "-P", path, *words]

    def calls_in(self, meant, path):
        """The calls on a path in a whole run of a job."""
        ended = self.run_of(meant, self.strace(path))
        if ended != whole(meant):
            raise Wrong(f"a run that is traced: {told_of(ended)}")
        calls, numbers = [], {}
        for name, answer in CALL.findall(bytes_of(self.trace).decode()):
            numbers[name] = numbers.get(name, 0) + 1
            calls.append(Call(name, numbers[name], int(answer)))
        return calls

    def failed(self, meant, path, call, error):
        """A run of a job in which this call on a path fails."""
        ended = self.run_of(meant, self.strace(path, "-e", f"inject={call.name}:error={error}:when={call.number}"))
        if b"(INJECTED)" not in bytes_of(self.trace):
            raise Wrong("the call doesn't come")
        return ended

    def killed(self, meant, path, call):
        """A run of a job that is killed where this call on a path would be made."""
        ended = self.run_of(meant, self.strace(path, "-e", f"inject={call.name}:signal=KILL:when={call.number}"))
        if ended.status != KILLED or ended.error:
            raise Wrong(f"it isn't killed: {told_of(ended)}")
        return ended

    # Allocations.

    def library(self):
        """The library that refuses an allocation, or nothing where it can't be had."""
        source, made = self.path("refusing.c"), self.path("refusing.so")
        put_bytes(source, REFUSING.encode())
        try:
            job = subprocess.run(["cc", "-O1", "-shared", "-fPIC", "-fno-builtin", "-o", made, source], capture_output=True)
        except FileNotFoundError:
            return None
        return made if job.returncode == 0 else None

    def refused(self, meant, library, number):
        """A run of a job in which the allocation of this number is refused, and whether there was one."""
        if os.path.exists(self.mark):
            os.remove(self.mark)
        environment = {"LD_PRELOAD": library, "REFUSED_NUMBER": str(number), "REFUSED_MARK": self.mark}
        return self.run_of(meant, environment=environment), os.path.exists(self.mark)


def whole(meant):
    """How a job ends where nothing fails."""
    return Ended(0, meant.output, "")


def fault(status, output, name):
    """How a job ends where something fails."""
    return Ended(status, output, f"squirrel: {name}\n")


def told_of(ended):
    """In few words how a run ended."""
    return f"status {ended.status}, {ended.output[-200:]!r}, {ended.error[-200:]!r}"


def has_ended(ended, meant):
    if ended != meant:
        raise Wrong(f"{told_of(ended)}, and not {told_of(meant)}")
