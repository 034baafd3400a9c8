"""Jobs of the program on an image file, each with what it wrote, its status, and the time and memory that it took."""
import dataclasses
import os
import resource
import subprocess
import tempfile
import time

SHARED_MEMORY = "/dev/shm"
KIBIBYTE = 1024
MOST_PROCESSOR_SECONDS = 300


class Wrong(Exception):
    """The program isn't as it has to be, and this is how."""


@dataclasses.dataclass(frozen=True)
class Done:
    """What a job wrote and its status, how many bytes of its script it read, seconds of the clock and of the processor, and its most
    memory in bytes. That is never less than what the process had that started it."""
    out: bytes
    err: bytes
    status: int
    script_read: int
    seconds: float
    processor_seconds: float
    most_memory: int


def do(program, words, script=None):
    """One job, which is killed where it takes five minutes of the processor. Its script is a file, whose place afterwards says what was
    read of it."""
    with tempfile.TemporaryFile() as out, tempfile.TemporaryFile() as err, opened(script) as given:
        begun = time.monotonic()
        job = subprocess.Popen([program, *words], stdin=given, stdout=out, stderr=err)
        resource.prlimit(job.pid, resource.RLIMIT_CPU, (MOST_PROCESSOR_SECONDS, MOST_PROCESSOR_SECONDS))
        _, status, usage = os.wait4(job.pid, 0)
        job.returncode = os.waitstatus_to_exitcode(status)
        seconds = time.monotonic() - begun
        out.seek(0)
        err.seek(0)
        return Done(out.read(), err.read(), job.returncode, os.lseek(given.fileno(), 0, os.SEEK_CUR), seconds,
                    usage.ru_utime + usage.ru_stime, usage.ru_maxrss * KIBIBYTE)


def opened(script):
    """A script's bytes as a file, or the file of this path."""
    if isinstance(script, str):
        return open(script, "rb")
    given = tempfile.TemporaryFile()
    given.write(script or b"")
    given.seek(0)
    return given


def folder_for_images():
    """A folder in memory where the machine has one, so that syncs take no time."""
    return tempfile.TemporaryDirectory(dir=SHARED_MEMORY if os.path.isdir(SHARED_MEMORY) else None)


def bytes_of(path):
    with open(path, "rb") as file:
        return file.read()


def put_bytes(path, content):
    with open(path, "wb") as file:
        file.write(content)
