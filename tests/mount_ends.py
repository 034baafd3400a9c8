"""Ends and refusals of a mount: a program that is killed, images that aren't mounted, a second mount, the background, signals."""
import fcntl
import os
import re
import signal
import subprocess
import time

from listing import mark_of
from mounts import (
    EACH_CALL_FAILS, KILLED, PAGE, ROOT, UNMOUNTED, Mount, await_so, environment, error_of, expect, expect_closed, expect_equal,
    expect_error, listed, opened, read, replies, start_in_background, start_words, tell, unmount, write,
)


def device_fault(image, cause):
    return 5, "", f"squirrel: device fault\nsquirrel-mount: {image}: {cause}\n"


def killed(trial):
    """Each call is EIO from then on, and the volume, which isn't closed, is as it was told once it is mounted anew."""
    trial.make(256)
    with trial.mount() as mount:
        os.mkdir(trial.at("d"))
        write(trial.at("d", "there"), b"there")
        file = os.open(trial.at("a"), os.O_CREAT | os.O_RDWR, 0o644)
        os.write(file, b"told")
        os.fsync(file)
        mount.kill_program()
        for call, words in [(os.fsync, ()), (os.fdatasync, ()), (os.write, (b"more",)), (os.ftruncate, (1,))]:
            expect_error("EIO", call, file, *words)
        for call, words in [(os.mkdir, ()), (os.open, (os.O_CREAT | os.O_RDWR,)), (os.stat, ())]:
            expect_error("EIO", call, trial.at("new"), *words)
        expect_error("EIO", os.unlink, trial.at("d", "there"))
        expect_error("EIO", os.open, trial.at("d", "there"), os.O_RDONLY)
        for call in (os.rename, os.link):
            expect_error("EIO", call, trial.at("a"), trial.at("b"))
        for call in (os.listdir, os.statvfs, os.utime, os.rmdir):
            expect_error("EIO", call, trial.at("d"))
        # so long the system may believe what it was told of names and nodes
        time.sleep(1.1)
        expect_error("EIO", os.fstat, file)
        expect_error("EIO", os.stat, trial.at("d"))
        os.close(file)
        mount.end(KILLED)
    expect_equal("the mark after a kill", mark_of(trial.image), 0)


def killed_anew(trial):
    with trial.mount() as mount:
        expect_equal("what was told as written", (read(trial.at("a")), read(trial.at("d", "there"))), (b"told", b"there"))
        mount.end()


def damage(image):
    """The root becomes a file."""
    with open(image, "r+b") as file:
        file.seek(512 * 8)
        file.write(b"\1")


def refused(trial, wanted, image=None, folder=None):
    """Nothing is mounted, in the foreground and in the background, and what is said and the status are these."""
    image, folder = image or trial.image, folder or trial.folder
    was_mounted = os.path.ismount(folder)
    told = start_in_background(trial.program, image, folder)
    expect_equal("a refusal in the background", told, wanted)
    job = subprocess.run(start_words(image, folder), env=environment(trial.program), capture_output=True, text=True, timeout=100)
    expect_equal("a refusal in the foreground", (job.returncode, job.stdout, job.stderr), wanted)
    expect_equal("something is mounted", os.path.ismount(folder), was_mounted)


def refusals(trial):
    trial.make(16)
    damage(trial.image)
    refused(trial, (4, "damaged 2 1\n", ""))
    for length in (0, 15 * PAGE, 16 * PAGE + 1):
        trial.image.write_bytes(bytes(length))
        cause = f"squirrel-mount: {trial.image}: it has another length than a volume's: {length} bytes\n"
        refused(trial, (4, "not a volume\n", cause))
    trial.image.write_bytes(bytes(16 * PAGE))
    refused(trial, (4, "not a volume\n", ""))
    trial.image.unlink()
    refused(trial, device_fault(trial.image, "there is no such file"))
    no_file = os.path.join(os.getcwd(), "no folder/v")
    refused(trial, device_fault(no_file, "there is no such file"), image="no folder/v")
    refused(trial, device_fault(trial.host, "it is no file that may be written: Is a directory"), image=trial.host)
    trial.make(16)
    with open(trial.image, "rb") as file:
        fcntl.flock(file, fcntl.LOCK_EX)
        refused(trial, device_fault(trial.image, "it is in use by another job"))
    refused(trial, (1, "", f"squirrel-mount: {trial.folder}/v: the image is below the folder\n"), image=trial.folder / "v")
    missing_folder = trial.work / "missing"
    refused(trial, (1, "", f"squirrel-mount: {missing_folder}: No such file or directory\n"), folder=missing_folder)
    usage = "squirrel-mount: usage: squirrel-mount IMAGE FOLDER [-f] [-o OPTIONS]\n"
    for words in ([], ["v"], ["v", "f", "g"], ["v", "f", "-x"], ["v", "f", "-o", "script=100"]):
        expect_equal(f"words {words}", told_by(trial, *words), (2, "", usage))


def told_by(trial, *words):
    """The status with which the adapter ends with these words, and what it writes."""
    job = subprocess.run([start_words("", "")[0], *words], env=environment(trial.program), capture_output=True, text=True)
    return job.returncode, job.stdout, job.stderr


def options_of_page():
    """Every option that docs/mount.md tells."""
    page = (ROOT / "docs" / "mount.md").read_text().split("## Words")[1].split("\n## ")[0]
    return re.findall(r"`(-o [a-z_]+|--?[a-zA-Z]+)[`=]", page)


def helps(trial):
    """Help has each option, and is told with whatever else stands there, and without a program."""
    options = options_of_page()
    expect({"-f", "-h", "--help", "-V", "-o quiet", "-o ro", "-o auto_unmount", "-o script"} <= set(options), f"options {options}")
    for words in (["--help"], ["-h"], ["v", "-h"], ["v", "f", "--help", "-f"]):
        status, out, err = told_by(trial, *words)
        expect_equal(f"words {words}", (status, err), (0, ""))
        for option in options:
            expect(option in out, f"{words}: {option} isn't told")
    for word in ("-V", "--version"):
        status, out, err = told_by(trial, word)
        expect_equal(word, (status, err), (0, ""))
        expect("squirrel-mount" in out and "libfuse 3." in out, f"{word}: {out}")


def two_mounts(trial):
    other = trial.work / "other"
    other.mkdir()
    with trial.mount() as mount:
        refused(trial, device_fault(trial.image, f"it is in use: it is mounted as {trial.folder}"), folder=other)
        write(trial.at("a"), b"a")
        mount.end()


def changed_length(trial):
    """Another program lengthens the image of a mount: the next change is EIO, and the cause is told."""
    trial.make(16)
    with trial.mount() as mount:
        os.truncate(trial.image, 17 * PAGE)
        for _ in range(2):
            expect_error("EIO", os.mkdir, trial.at("d"))
        cause = f"{trial.image} has another length than its volume's: {17 * PAGE} bytes"
        mount.end((5, "", f"squirrel-mount: {cause}: {EACH_CALL_FAILS}\nsquirrel: device fault\n"))


def full_disk(trial):
    """The host's disk has no room for the pages of an image that has holes."""
    disk = trial.work / "disk"
    disk.mkdir()
    if subprocess.run(["mount", "-t", "tmpfs", "-o", "size=1m", "none", disk], capture_output=True).returncode != 0:
        tell("        without a full disk: no file system can be mounted here")
        return
    try:
        image = disk / "volume"
        image.touch()
        # `mkfs` leaves the holes of a file that is as long already
        os.truncate(image, 1024 * PAGE)
        subprocess.run([trial.program, "mkfs", image, "1024"], check=True, capture_output=True)
        with Mount(trial.program, image, trial.folder) as mount:
            with opened(trial.at("a"), os.O_CREAT | os.O_WRONLY) as file:
                errors = {error_of(os.write, file, b"a" * 10**5) for _ in range(20)}
            expect_equal("what writes came to", errors, {None, "EIO"})
            expect_error("EIO", os.mkdir, trial.at("d"))
            mount.end((5, "", f"squirrel-mount: the disk of {image} is full: {EACH_CALL_FAILS}\nsquirrel: device fault\n"))
    finally:
        subprocess.run(["umount", disk], check=True)


def adapter_killed(trial):
    """The folder is left without an adapter, until it is unmounted; `auto_unmount` does that."""
    trial.make(16)
    for options in ((), ("auto_unmount",)):
        with trial.mount(*options) as mount:
            os.mkdir(trial.at("-".join(("d", *options))))
            mount.job.kill()
            mount.job.communicate()
            if options:
                await_so(lambda: error_of(os.listdir, trial.folder) is None, "the unmount by itself")
            else:
                expect_error("ENOTCONN", os.listdir, trial.folder)
                expect(unmount(trial.folder), "it can't be unmounted")
            expect_equal("the names of the empty folder", os.listdir(trial.folder), [])
        await_so(lambda: is_free(trial.image), "the end of the program")
        expect_closed(trial.image, "the end of the adapter")
    expect_equal("the names", listed(trial.program, trial.image), ["d", "d-auto_unmount"])


def read_only(trial):
    with trial.mount("ro") as mount:
        expect_equal("the names", sorted(os.listdir(trial.folder)), ["d", "d-auto_unmount"])
        expect_error("EROFS", os.mkdir, trial.at("e"))
        expect_error("EROFS", os.rmdir, trial.at("d"))
        mount.end()


def is_free(image):
    """Whether no job has the image."""
    with open(image, "rb") as file:
        try:
            fcntl.flock(file, fcntl.LOCK_EX | fcntl.LOCK_NB)
        except OSError:
            return False
    return True


def in_background(trial):
    """The caller's process ends once it is mounted, from wherever it was called."""
    folder = os.getcwd()
    os.chdir(trial.work)
    try:
        expect_equal("a start in the background", start_in_background(trial.program, "volume", "folder"), (0, "", ""))
    finally:
        os.chdir(folder)
    try:
        expect_equal("what is read", read(trial.at("a")), b"a")
        write(trial.at("b"), b"b")
    finally:
        await_so(lambda: unmount(trial.folder), "the unmount")
    await_so(lambda: is_free(trial.image), "the end of the program")
    expect_closed(trial.image, "an unmount in the background")
    expect_equal("the names", listed(trial.program, trial.image), ["a", "b"])


def interrupts(trial):
    for number in (signal.SIGINT, signal.SIGTERM):
        with trial.mount() as mount:
            expect(os.getsid(mount.program()) != os.getsid(mount.job.pid), "the program has the adapter's session")
            file = os.open(trial.at("a"), os.O_RDWR)
            os.unlink(trial.at("a"))
            expect_equal("what is read", os.read(file, 9), b"a")
            mount.job.send_signal(number)
            expect_equal("the end by a signal", mount.ended(), UNMOUNTED)
            expect_closed(trial.image, "the end by a signal")
            expect_error("ENOTCONN", os.fsync, file)
            error_of(os.close, file)
            expect(not os.path.ismount(trial.folder), "it is still mounted")
        expect_equal("the names", listed(trial.program, trial.image), ["b"])
        replies(trial.program, trial.image, "create /a", "write /a 0 61")


def ends(trial):
    parts = (killed, killed_anew, refusals, helps, two_mounts, in_background, interrupts, changed_length, full_disk, adapter_killed,
             read_only)
    for part in parts:
        part(trial)
