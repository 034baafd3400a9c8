"""Random file calls, each made in two folders: what comes of it has to be the same in both."""
import errno
import os
import stat

from mounts import expect

PAGE = 4096
LONGEST_NAME = 110
MOST_OPEN = 8
NAMES = [
    b"a", b"b", b"c", b"d", b"e", b"f", b" ", b"two words", b"100%", b"%41", b"new\nline", "\u00e9\u20ac".encode(), b"\xff\xfe",
    b"-o", b"...", b"~tilde_", b"'quoted\"", b".squirrel-12x", b"n" * LONGEST_NAME, b"%" * LONGEST_NAME,
    b"n" * (LONGEST_NAME + 1),
]
PLACES = [0, 1, 100, PAGE - 1, PAGE, PAGE + 1, 2 * PAGE, 16384, 24576, 30000, 3 * PAGE - 7]
COUNTS = [0, 1, 7, 100, PAGE - 1, PAGE, PAGE + 1, 16384, 24576, 24577, 50000]


class Both:
    """The two folders, the host's last, and the descriptors that are open in both."""

    def __init__(self, folder, host, rng):
        self.roots = (os.fsencode(folder), os.fsencode(host))
        self.rng = rng
        self.open = []

    def close(self):
        for files in self.open:
            for file in files:
                os.close(file)
        self.open = []


def is_long(path):
    return any(len(name) > LONGEST_NAME for name in path.split(b"/"))


def reaches_long(root, path):
    """Whether a walk of the path comes to a directory that is asked for a name that is too long."""
    names = path.split(b"/")
    return any(len(name) > LONGEST_NAME and os.path.isdir(os.path.join(root, *names[:place])) for place, name in enumerate(names))


def outcome(call, root, *words):
    """What a call gives, or its error."""
    try:
        return call(root, *words)
    except OSError as fault:
        return errno.errorcode[fault.errno]


def outcome_of_host(call, root, paths, *words):
    """The same on the host, where a name may be longer."""
    return "ENAMETOOLONG" if reaches_long(root, paths[0]) else outcome(call, root, *paths, *words)


def random_path(both):
    """A path of one to three names, mostly one that is there."""
    rng, path = both.rng, b""
    for _ in range(rng.choice([1, 1, 2, 2, 3])):
        there = os.listdir(os.path.join(both.roots[1], path)) if os.path.isdir(os.path.join(both.roots[1], path)) else []
        name = rng.choice(sorted(there)) if there and rng.random() < 0.7 else rng.choice(NAMES)
        path = os.path.join(path, name)
    return path


# Calls by path: each is told a root and paths below it.

def make_file(root, path):
    os.close(os.open(os.path.join(root, path), os.O_CREAT | os.O_EXCL | os.O_WRONLY, 0o644))


def make_node(root, path):
    os.mknod(os.path.join(root, path), stat.S_IFREG | 0o644)


def make_directory(root, path):
    os.mkdir(os.path.join(root, path), 0o755)


def unlink(root, path):
    os.unlink(os.path.join(root, path))


def remove_directory(root, path):
    os.rmdir(os.path.join(root, path))


def link(root, path, new_path):
    os.link(os.path.join(root, path), os.path.join(root, new_path))


def rename(root, path, new_path):
    os.rename(os.path.join(root, path), os.path.join(root, new_path))


def truncate(root, path, size):
    os.truncate(os.path.join(root, path), size)


def list_names(root, path):
    return sorted(os.listdir(os.path.join(root, path)))


def told(status):
    """What is compared of a status. Sizes of directories differ between file systems."""
    is_directory = stat.S_ISDIR(status.st_mode)
    return stat.S_IFMT(status.st_mode), status.st_nlink, None if is_directory else status.st_size


def status(root, path):
    return told(os.lstat(os.path.join(root, path)))


def read_whole(root, path):
    with open(os.path.join(root, path), "rb") as file:
        return file.read()


def write_at(root, path, offset, content):
    file = os.open(os.path.join(root, path), os.O_WRONLY)
    try:
        return os.pwrite(file, content, offset)
    finally:
        os.close(file)


def append(root, path, content):
    file = os.open(os.path.join(root, path), os.O_WRONLY | os.O_APPEND | os.O_CREAT, 0o644)
    try:
        return os.write(file, content)
    finally:
        os.close(file)


ONE_PATH = {make_file: 6, make_node: 2, make_directory: 5, unlink: 5, remove_directory: 3, list_names: 3, status: 5, read_whole: 4}
TWO_PATHS = {link: 6, rename: 10}


def random_content(rng):
    return rng.randbytes(rng.choice(COUNTS)) if rng.random() < 0.5 else rng.randbytes(rng.randrange(300))


def draw_one(both):
    call, = both.rng.choices(list(ONE_PATH), list(ONE_PATH.values()))
    return call, (random_path(both),), ()


def draw_two(both):
    """Of names that are too long only one that is made, since which fault comes first is the system's."""
    call, = both.rng.choices(list(TWO_PATHS), list(TWO_PATHS.values()))
    paths = random_path(both), random_path(both)
    while any(is_long(path) for path in paths):
        paths = random_path(both), random_path(both)
    return call, paths, ()


def draw_content(both):
    rng, path = both.rng, random_path(both)
    drawn = rng.randrange(3)
    if drawn == 0:
        return truncate, (path,), (rng.choice(PLACES) + rng.randrange(3),)
    if drawn == 1:
        return append, (path,), (random_content(rng),)
    return write_at, (path,), (rng.choice(PLACES), random_content(rng))


# Calls on what is open in both folders.

def open_pair(both):
    """Opens a path in both folders, and keeps both descriptors where both are open."""
    flags = both.rng.choice([os.O_RDONLY, os.O_RDWR, os.O_RDWR, os.O_RDWR | os.O_APPEND])
    for more in (os.O_CREAT, os.O_EXCL, os.O_TRUNC):
        flags |= more if both.rng.random() < 0.3 else 0
    path = random_path(both)
    if os.path.isdir(os.path.join(both.roots[1], path)) or is_long(path):
        return "none", None, None

    def opened(root, opened_path):
        return os.open(os.path.join(root, opened_path), flags, 0o644)

    files = [outcome(opened, root, path) for root in both.roots]
    is_open = [isinstance(file, int) for file in files]
    if all(is_open):
        both.open.append(tuple(files))
        return f"open {path} {flags:o}", None, None
    return f"open {path} {flags:o}", *("open" if isinstance(file, int) else file for file in files)


def close_pair(both):
    if not both.open:
        return "none", None, None
    files = both.open.pop(both.rng.randrange(len(both.open)))
    return "close", *(outcome(lambda file: os.close(file), file) for file in files)


def use_pair(both):
    """One call on a descriptor in each folder."""
    if not both.open:
        return "none", None, None
    rng, files = both.rng, both.rng.choice(both.open)
    place, count, content = rng.choice(PLACES), rng.choice(COUNTS), random_content(rng)
    name, call = rng.choice([
        (f"pread {count} {place}", lambda file: os.pread(file, count, place)),
        (f"pwrite {len(content)} {place}", lambda file: os.pwrite(file, content, place)),
        (f"write {len(content)}", lambda file: os.write(file, content)),
        (f"ftruncate {place}", lambda file: os.ftruncate(file, place)),
        ("fstat", lambda file: told(os.fstat(file))),
        (f"lseek {place}", lambda file: os.lseek(file, place, os.SEEK_SET)),
        (f"read {count}", lambda file: os.read(file, count)),
        ("fsync", lambda file: os.fsync(file)),
    ])
    return name, *(outcome(call, file) for file in files)


def path_call(both):
    draw, = both.rng.choices([draw_one, draw_two, draw_content], [6, 4, 4])
    call, paths, words = draw(both)
    mounted = outcome(call, both.roots[0], *paths, *words)
    host = outcome_of_host(call, both.roots[1], paths, *words)
    return f"{call.__name__} {paths} {[word if isinstance(word, int) else len(word) for word in words]}", mounted, host


def random_call(both):
    """Makes one call in both folders. Its words, and what came of it in each."""
    kinds = [path_call, use_pair, open_pair if len(both.open) < MOST_OPEN else close_pair, close_pair]
    kind, = both.rng.choices(kinds, [14, 8, 2, 1])
    return kind(both)


# Whole trees.

def tree_of(root):
    """Of each path what is compared, with the bytes of files; and which names are one file."""
    found, alike = {}, {}
    for folder, directories, files in os.walk(root):
        for name in directories + files:
            path = os.path.join(folder, name)
            shown, told_status = os.path.relpath(path, root), os.lstat(path)
            content = read_whole(folder, name) if stat.S_ISREG(told_status.st_mode) else None
            found[shown] = told(told_status), content
            alike.setdefault(told_status.st_ino, set()).add(shown)
    return found, sorted(sorted(names) for names in alike.values())


def shortened(result):
    return f"{result[:40]!r} and so on, {len(result)} in all" if isinstance(result, bytes) and len(result) > 40 else repr(result)


def make_calls(both, count, every):
    """So many random calls that do something; the trees are compared after so many of them."""
    made = 0
    while made < count:
        words, mounted, host = random_call(both)
        if words == "none":
            continue
        made += 1
        expect(mounted == host, f"call {made}, {words}: {shortened(mounted)}, and on the host {shortened(host)}")
        if made % every == 0:
            trees = [tree_of(root) for root in both.roots]
            expect(trees[0] == trees[1], f"after call {made} the trees differ: {difference(*trees)}")


def difference(mounted, host):
    for path in sorted(set(mounted[0]) | set(host[0])):
        here, there = mounted[0].get(path), host[0].get(path)
        if here != there:
            return f"{path!r}: {here and here[0]}, and on the host {there and there[0]}"
    return "which names are one file"
