"""The tree of a volume as docs/scripts.md has it: what lines make of it, what a crash may leave, and random lines.

A line is a command's text. All random lines are accepted, and no file gets more bytes than one `read` shows. One more kind
of line is a step in `STEPS`, and a function that draws one in `KINDS`.
"""
import dataclasses

PAGE = 4096
LONGEST = 16384


@dataclasses.dataclass(frozen=True)
class Tree:
    """The paths of the directories, and of each file the set of its names' paths with its bytes."""
    directories: frozenset = frozenset({"/"})
    files: dict = dataclasses.field(default_factory=dict)

    def names_of(self, path):
        """All names of the file that has this one."""
        return next(names for names in self.files if path in names)

    def paths(self):
        """Every path of the tree."""
        return self.directories.union(*self.files)

    def nodes(self):
        """How many inodes are in use."""
        return len(self.directories) + len(self.files)

    def with_file(self, names, new_names, content):
        """The tree with other names and other bytes of one file, which is gone where it has no name."""
        files = {others: bytes_of_others for others, bytes_of_others in self.files.items() if others != names}
        if new_names:
            files[new_names] = content
        return Tree(self.directories, files)


@dataclasses.dataclass(frozen=True)
class Limits:
    """How many inodes and data pages random lines may use, and how many names of each directory."""
    inodes: int
    pages: int
    names: int

    def hold(self, tree):
        """Whether a volume has room for a tree, however its names are spread over the pages of their directories."""
        names = len(tree.paths()) - 1
        pages = sum(-(-len(content) // PAGE) for content in tree.files.values())
        return tree.nodes() <= self.inodes and names + pages <= self.pages


def path_of(directory, name):
    return directory + name if directory == "/" else f"{directory}/{name}"


def parent_of(path):
    return path.rpartition("/")[0] or "/"


# What each line does.

def create(tree, path):
    return tree.with_file(None, frozenset({path}), b"")


def mkdir(tree, path):
    return Tree(tree.directories | {path}, tree.files)


def link(tree, path, new_path):
    names = tree.names_of(path)
    return tree.with_file(names, names | {new_path}, tree.files[names])


def unlink(tree, path):
    names = tree.names_of(path)
    return tree.with_file(names, names - {path}, tree.files[names])


def rmdir(tree, path):
    return Tree(tree.directories - {path}, tree.files)


def write(tree, path, offset, digits):
    names = tree.names_of(path)
    new, begin = written_bytes(digits), int(offset)
    if not new:
        return tree
    old = tree.files[names].ljust(begin, b"\0")
    return tree.with_file(names, names, old[:begin] + new + old[begin + len(new):])


def truncate(tree, path, size):
    names = tree.names_of(path)
    return tree.with_file(names, names, tree.files[names][:int(size)].ljust(int(size), b"\0"))


def rename(tree, path, new_path):
    """A file or a directory with all below it; what the new path named has that name no longer."""
    if path == new_path or any({path, new_path} <= names for names in tree.files):
        return tree

    def moved(old):
        return new_path + old[len(path):] if old == path or old.startswith(path + "/") else old

    left = {names - {new_path}: content for names, content in tree.files.items()}
    return Tree(frozenset(moved(old) for old in tree.directories - {new_path}),
                {frozenset(moved(old) for old in names): content for names, content in left.items() if names})


STEPS = {step.__name__: step for step in (create, mkdir, link, unlink, rmdir, rename, write, truncate)}


def written_bytes(digits):
    """The bytes that a word of a line stands for."""
    return b"" if digits == "-" else bytes.fromhex(digits)


def after(tree, line):
    """The tree after an accepted line. One that only reads leaves it."""
    command, *words = line.split()
    return STEPS[command](tree, *words) if command in STEPS else tree


def trees_after(tree, lines):
    """The tree after each number of lines, none first."""
    trees = [tree]
    for line in lines:
        trees.append(after(trees[-1], line))
    return trees


def is_reply(line, reply):
    """Whether an accepted line is answered so."""
    command, *words = line.split()
    if command == "write":
        return reply == f"ok {len(written_bytes(words[2]))}"
    return reply == "ok" if command in STEPS else reply.startswith("ok ")


# What a crash may leave.

def is_torn(tree, line, found):
    """Whether this is the tree in a running write: each byte of its range below the old size is by itself old or new."""
    command, *words = line.split()
    if command != "write":
        return False
    names = tree.names_of(words[0])
    old, content = tree.files[names], found.files.get(names)
    if content is None or len(content) != len(old) or found != tree.with_file(names, names, content):
        return False
    begin, new = int(words[1]), written_bytes(words[2])
    whole = old[:begin] + new[:max(0, len(old) - begin)] + old[begin + len(new):]
    return all(byte in choices for byte, choices in zip(content, zip(old, whole, strict=True), strict=True))


def may_leave(tree, line, found):
    """Whether a crash while a line runs on a tree may leave that one: the line absent, whole, or torn."""
    return found == tree or found == after(tree, line) or is_torn(tree, line, found)


# Random lines. Each kind draws a line, or nothing where the tree has nothing for it.

def new_path(tree, limits, rng):
    """A path that isn't there, half of the time in the root; or nothing where the name that was drawn is taken."""
    directory = rng.choice(["/", rng.choice(sorted(tree.directories))])
    path = path_of(directory, f"n{rng.randrange(limits.names)}")
    return None if path in tree.paths() else path


def some_file(tree, rng):
    """A name of a file, or nothing where there is none."""
    names = sorted(tree.paths() - tree.directories)
    return rng.choice(names) if names else None


def draw_create(tree, limits, rng):
    path = new_path(tree, limits, rng)
    return path and f"create {path}"


def draw_mkdir(tree, limits, rng):
    path = new_path(tree, limits, rng)
    return path and f"mkdir {path}"


def draw_link(tree, limits, rng):
    path, name = some_file(tree, rng), new_path(tree, limits, rng)
    return path and name and f"link {path} {name}"


def draw_unlink(tree, _limits, rng):
    path = some_file(tree, rng)
    return path and f"unlink {path}"


def draw_rmdir(tree, _limits, rng):
    parents = {parent_of(path) for path in tree.paths()}
    empty = sorted(tree.directories - parents)
    return f"rmdir {rng.choice(empty)}" if empty else None


def draw_write(tree, _limits, rng):
    """Few bytes or many, inside the file, over its end, or behind it."""
    path = some_file(tree, rng)
    if not path:
        return None
    size = len(tree.files[tree.names_of(path)])
    begin = rng.choice([rng.randint(0, size), rng.randint(0, size), rng.randint(0, LONGEST)])
    count = rng.randint(0, min(rng.choice([8, 40, 300, LONGEST]), LONGEST - begin))
    return f"write {path} {begin} {rng.randbytes(count).hex() or '-'}"


def draw_truncate(tree, _limits, rng):
    path = some_file(tree, rng)
    if not path:
        return None
    size = len(tree.files[tree.names_of(path)])
    return f"truncate {path} {rng.choice([0, rng.randint(0, size), rng.randint(0, LONGEST)])}"


def draw_rename(tree, limits, rng):
    """A file to a new path or to a file's, a directory to a new path or to an empty directory's, which isn't below it."""
    paths = sorted(tree.paths() - {"/"})
    if not paths:
        return None
    path = rng.choice(paths)
    parents = {parent_of(other) for other in tree.paths()}
    alike = sorted(tree.directories - parents) if path in tree.directories else sorted(tree.paths() - tree.directories)
    target = rng.choice([new_path(tree, limits, rng), rng.choice(alike) if alike else None])
    into_itself = target and path in tree.directories and target.startswith(path + "/")
    return target and not into_itself and target != "/" and f"rename {path} {target}"


KINDS = {
    draw_create: 5, draw_mkdir: 2, draw_link: 3, draw_unlink: 4, draw_rmdir: 1, draw_rename: 5, draw_write: 7,
    draw_truncate: 3,
}


def random_line(tree, limits, rng):
    """A line that is accepted on this tree."""
    while True:
        kind, = rng.choices(list(KINDS), list(KINDS.values()))
        line = kind(tree, limits, rng)
        if line and limits.hold(after(tree, line)):
            return line


def random_lines(tree, limits, count, rng):
    """So many lines that are accepted one after another."""
    lines = []
    for _ in range(count):
        lines.append(random_line(tree, limits, rng))
        tree = after(tree, lines[-1])
    return lines
