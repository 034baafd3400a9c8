"""Commands that keep modes: without `-o quiet` each ends with an error, and with it each copies all bytes."""
import os
import stat
import subprocess

from mounts import do, expect, expect_equal, has, opened, read


def make_source(trial):
    """A folder with a file that is secret and one that is to be run, and an archive of it."""
    source = trial.work / "modes"
    source.mkdir()
    for name, mode in (("secret", 0o600), ("script", 0o755)):
        (source / name).write_text(f"{name}\n")
        (source / name).chmod(mode)
    do("tar", "-cf", trial.work / "modes.tar", "-C", source, ".")
    return source


def commands(trial, source):
    """Of each command its words, and the file that it makes of the secret one."""
    for name in ("untarred with modes", "copied"):
        os.makedirs(trial.at(name), exist_ok=True)
    found = [
        (("cp", "-p", source / "secret", trial.at("copied", "secret")), ("copied", "secret")),
        (("install", "-m", "600", source / "secret", trial.at("installed")), ("installed",)),
        (("tar", "-xf", trial.work / "modes.tar", "-C", trial.at("untarred with modes")), ("untarred with modes", "secret")),
        (("rsync", "-a", f"{source}/", trial.at("synced with modes")), ("synced with modes", "secret")),
    ]
    return [(words, made) for words, made in found if has(words[0])]


def modes_refused(trial, source):
    for words, _ in commands(trial, source):
        job = subprocess.run(words, capture_output=True, text=True)
        expect(job.returncode != 0 and "ermitted" in job.stderr, f"{words[0]} ended with {job.returncode}: {job.stderr}")


def modes_left(trial, source):
    for words, made in commands(trial, source):
        do(*words)
        expect_equal(f"what {words[0]} copied", read(trial.at(*made)), b"secret\n")
        expect_equal(f"the mode that {words[0]} set", oct(os.stat(trial.at(*made)).st_mode), oct(stat.S_IFREG | 0o644))


def modes_asked_for(trial):
    """A mode that a file or a directory is made with isn't kept, and that is no error."""
    with opened(trial.at("asked for"), os.O_CREAT | os.O_RDWR, 0o600) as file:
        expect_equal("the mode of a new file", oct(os.fstat(file).st_mode), oct(stat.S_IFREG | 0o644))
    os.mkdir(trial.at("asked for too"), 0o700)
    expect_equal("the mode of a new directory", oct(os.stat(trial.at("asked for too")).st_mode), oct(stat.S_IFDIR | 0o755))
