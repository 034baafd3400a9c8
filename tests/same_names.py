"""Several processes at the same names at once: what each call gives is what the host's file system may give."""
import errno
import multiprocessing
import os
import time

from mounts import Wrong, read, write

SECONDS = 3.0
LINES = 300


def content_of(number):
    return b"%d\n" % number * LINES


def is_whole(content):
    """Whether a file has one writer's bytes, and all of them."""
    lines = content.split(b"\n")
    return len(lines) == LINES + 1 and len(set(lines[:-1])) == 1


# What one process does again and again. Each gives what came of it.

def save(name, folder, number, is_synced=True):
    """As editors do: another file is written and takes the name."""
    other = os.path.join(folder, f"{number}.tmp")
    with open(other, "wb") as file:
        file.write(content_of(number))
        if is_synced:
            file.flush()
            os.fsync(file)
    os.rename(other, os.path.join(folder, name))


def save_document(folder, number):
    save("document", folder, number)


def save_unsynced(folder, number):
    save("cut", folder, number, False)


def save_below(folder, number):
    save("document", os.path.join(folder, "above"), number)


def read_document(folder, number):
    return None if is_whole(read(os.path.join(folder, "document"))) else "other bytes"


def read_below(folder, number):
    return None if is_whole(read(os.path.join(folder, "above", "document"))) else "other bytes"


def stat_document(folder, number):
    return None if os.stat(os.path.join(folder, "document")).st_size == len(content_of(1)) else "another size"


def cut(folder, number):
    os.close(os.open(os.path.join(folder, "cut"), os.O_WRONLY | os.O_TRUNC))


def keep_own(folder, number):
    """A file that no other process uses has the bytes that were written, whoever else is cutting."""
    path = os.path.join(folder, f"{number}.own")
    with open(path, "xb") as file:
        file.write(content_of(number))
    found = read(path)
    os.unlink(path)
    return None if found == content_of(number) else "other bytes"


def make(folder, number):
    with open(os.path.join(folder, "made"), "xb"):
        pass


def unlink(folder, number):
    os.unlink(os.path.join(folder, "made"))


def use(folder, number):
    with open(os.path.join(folder, "made"), "r+b") as file:
        file.write(b"used")


def list_names(folder, number):
    names = os.listdir(folder)
    if len(names) != len(set(names)):
        return "a name came twice"
    return None if "document" in names else "a name that is there all the time didn't come"


def rename_above(folder, number):
    os.rename(os.path.join(folder, "above"), os.path.join(folder, "moved"))
    os.rename(os.path.join(folder, "moved"), os.path.join(folder, "above"))


def replace_above(folder, number):
    """An empty directory takes the name of another one."""
    other = os.path.join(folder, f"{number}.empty")
    os.mkdir(other)
    os.rename(other, os.path.join(folder, "empty"))


def stat_above(folder, number):
    os.stat(os.path.join(folder, "empty"))
    return None if os.listdir(os.path.join(folder, "empty")) == [] else "an empty directory has names"


# What each of them may give besides success.

TRIALS = [
    ("saved by all and read by all", [(save_document, ()), (read_document, ()), (stat_document, ())] * 3),
    ("cut while it is saved", [(save_unsynced, ())] * 2 + [(cut, ())] * 3 + [(keep_own, ())] * 3),
    ("made and unlinked", [(make, ("EEXIST",)), (unlink, ("ENOENT",)), (use, ("ENOENT",))] * 2 + [(keep_own, ())] * 2),
    ("below a directory that moves", [(save_below, ("ENOENT",)), (read_below, ("ENOENT",))] * 3 + [(rename_above, ())]),
    ("listed while it is saved", [(save_document, ()), (save_document, ()), (list_names, ()), (list_names, ())]),
    ("a directory that is replaced", [(replace_above, ()), (replace_above, ()), (stat_above, ()), (stat_above, ())]),
]


def again_and_again(act, folder, number, end, found):
    """Tells how often each outcome came."""
    counts = {}
    while time.monotonic() < end:
        try:
            outcome = act(folder, number)
        except OSError as fault:
            outcome = errno.errorcode[fault.errno]
        counts[outcome] = counts.get(outcome, 0) + 1
    found.put((number, counts))


def outcomes(acts, folder):
    """Each process's outcomes, which all ran at once."""
    kind = multiprocessing.get_context("fork")
    found, end = kind.Queue(), time.monotonic() + SECONDS
    processes = [kind.Process(target=again_and_again, args=(act, folder, number, end, found)) for number, act in enumerate(acts)]
    for process in processes:
        process.start()
    told = dict(found.get() for _ in processes)
    for process in processes:
        process.join()
    return [told[number] for number in range(len(acts))]


def at_once(what, acts, folder):
    told = outcomes([act for act, _ in acts], folder)
    problems = []
    for (act, allowed), counts in zip(acts, told, strict=True):
        problems += [f"{act.__name__}: {outcome} in {count} of {sum(counts.values())}" for outcome, count in counts.items()
                     if outcome is not None and outcome not in allowed]
    if problems:
        raise Wrong(f"{what}: {'; '.join(problems)}")


def same_names(trial):
    trial.make(2048)
    with trial.mount() as mount:
        os.mkdir(trial.at("above"))
        os.mkdir(trial.at("empty"))
        for name in ("document", "cut", os.path.join("above", "document")):
            write(trial.at(name), content_of(0))
        for what, acts in TRIALS:
            at_once(what, acts, str(trial.folder))
        mount.end()
