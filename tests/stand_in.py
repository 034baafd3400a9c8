#!/usr/bin/env python3
"""Stands in the program's place in trials of the adapter. By STAND_IN it is

- `told`: no program at all. A tree with nothing in it but `/big`, a directory whose listing has megabytes, and what is asked of
  a name that is a word of a refusal, as `create /NotFound`, is answered by that refusal; of `/odd` by what is no reply.
- `killed`: the program itself, line by line, which is killed with its stand-in behind so many changing lines, once the file
  STAND_IN_ARMED is there, which has their number in it.
"""
import os
import signal
import subprocess
import sys

CHANGING = ("create", "mkdir", "link", "unlink", "rmdir", "rename", "write", "truncate")
BIG = [f"{'name' * 25}{number:07}" for number in range(40000)]


def told_reply(line):
    """The reply of a program that only stands there to be asked."""
    command, *words = line.split()
    name = words[-1 if command in ("rename", "link") else 0].rpartition("/")[2] if words else ""
    if command == "df":
        return "ok inodes 90 99 pages 700 999"
    if command == "list":
        return " ".join(["ok", str(len(BIG)), *BIG]) if name == "big" else "ok 1 big"
    if command == "stat":
        known = {"": "ok dir inode 1 links 3 names 1", "big": f"ok dir inode 2 links 2 names {len(BIG)}",
                 "file": "ok file inode 3 links 1 size 5"}
        return known.get(name, "error NotFound")
    return f"okay {name}" if name == "odd" else f"error {name}"


def stand_there():
    """Each reply comes in two pieces."""
    for line in sys.stdin:
        reply = told_reply(line.rstrip("\n")) + "\n"
        for piece in (reply[:3], reply[3:]):
            sys.stdout.write(piece)
            sys.stdout.flush()


def lines_to_go():
    """How many changing lines are left, or nothing where it isn't armed."""
    try:
        with open(os.environ["STAND_IN_ARMED"]) as file:
            return int(file.read())
    except OSError:
        return None


def pass_lines():
    job = subprocess.Popen([os.environ["STAND_IN_PROGRAM"], *sys.argv[1:]], stdin=subprocess.PIPE, stdout=subprocess.PIPE)
    left = None
    for line in sys.stdin.buffer:
        left = lines_to_go() if left is None else left
        is_changing = line.split()[0].decode() in CHANGING
        if is_changing and left == 0:
            break
        job.stdin.write(line)
        job.stdin.flush()
        reply = job.stdout.readline()
        if is_changing and left is not None:
            left -= 1
            if left == 0:
                break
        sys.stdout.buffer.write(reply)
        sys.stdout.buffer.flush()
    else:
        job.stdin.close()
        sys.exit(job.wait())
    job.kill()
    job.wait()
    os.kill(os.getpid(), signal.SIGKILL)


if os.environ["STAND_IN"] == "told":
    stand_there()
else:
    pass_lines()
