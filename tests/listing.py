"""The tree of a volume: as a run of the program lists it, asked name by name, and as the program writes it at once."""
import re
import subprocess

from trees import LONGEST, Tree, parent_of, path_of, written_bytes


CLOSED = 1


class NotListed(Exception):
    """What the program answered, where that is no tree."""


def mark_of(image):
    """Word 5 of an image file, the mark: 1 where the volume was closed."""
    with open(image, "rb") as file:
        file.seek(5 * 8)
        return int.from_bytes(file.read(8), "little")


class Session:
    """A run of the program, which is asked line by line."""

    def __init__(self, program, image):
        self.job = subprocess.Popen([program, "run", image], stdin=subprocess.PIPE, stdout=subprocess.PIPE,
                                    stderr=subprocess.PIPE, text=True, bufsize=1)

    def ask(self, line):
        """The words of the reply behind its `ok`."""
        try:
            self.job.stdin.write(line + "\n")
        except BrokenPipeError:
            pass
        first, *words = self.job.stdout.readline().split() or ["nothing"]
        if first != "ok":
            raise NotListed(f"{line}: {' '.join([first, *words])}")
        return words

    def end(self):
        """The status with which it ends, and all that it wrote besides the replies."""
        try:
            self.job.stdin.close()
        except BrokenPipeError:
            pass
        with self.job:
            wrote = self.job.stdout.read() + self.job.stderr.read()
        return self.job.returncode, wrote


def names_in(ask, directory):
    """The names of a directory: as many as are told, in order, and none twice."""
    count, *names = ask(f"list {directory}")
    if int(count) != len(names) or names != sorted(set(names)):
        raise NotListed(f"list {directory}: {count} {' '.join(names)}")
    return names


def content_of(ask, paths):
    """The bytes of a file, which are those of each of its names."""
    contents = {tuple(ask(f"read {path} 0 {LONGEST}")) for path in paths}
    if len(contents) != 1:
        raise NotListed(f"{paths} have one inode number and other bytes")
    (count, digits), = contents
    content = written_bytes(digits)
    if int(count) != len(content):
        raise NotListed(f"read {paths[0]}: {count} bytes, and {len(content)} are told")
    return content


def told_tree(ask):
    """The tree that the replies tell, asked name by name; and of each path the words of its status."""
    directories, status, names = ["/"], {"/": ask("stat /")}, {}
    for directory in directories:
        for name in names_in(ask, directory):
            path = path_of(directory, name)
            status[path] = ask(f"stat {path}")
            if status[path][0] == "dir":
                directories.append(path)
            else:
                names.setdefault(status[path][2], []).append(path)
    files = {frozenset(paths): content_of(ask, paths) for paths in names.values()}
    return Tree(frozenset(directories), files), status


def check_status(tree, status):
    """Each status tells the links, size and names that the tree has, and each node has an inode number of its own."""
    parents = [parent_of(path) for path in tree.paths() - {"/"}]
    above = [parent_of(path) for path in tree.directories - {"/"}]
    for path, (kind, _, _, _, links, _, count) in status.items():
        if kind == "dir":
            meant = (2 + above.count(path), parents.count(path))
        else:
            names = tree.names_of(path)
            meant = (len(names), len(tree.files[names]))
        if (int(links), int(count)) != meant:
            raise NotListed(f"stat {path}: {' '.join(status[path])}, where {meant} are listed")
    if len({words[2] for words in status.values()}) != tree.nodes():
        raise NotListed("two directories, or a directory and a file, have one inode number")


def listed(program, image):
    """The tree that a run of the program lists, which ends as done."""
    session = Session(program, image)
    try:
        tree, status = told_tree(session.ask)
        check_status(tree, status)
    finally:
        ended, wrote = session.end()
    if ended != 0 or wrote:
        raise NotListed(f"status {ended}, {wrote!r}")
    return tree


def lines_of(program, job, image):
    """What a job writes that ends as done."""
    done = subprocess.run([program, job, image], stdin=subprocess.DEVNULL, capture_output=True, text=True)
    if done.returncode != 0 or done.stderr:
        raise NotListed(f"{job}: status {done.returncode}: {done.stdout!r} {done.stderr!r}")
    return done.stdout.splitlines()


CHECKED = re.compile(r"sound\ntree directories (\d+) files (\d+) names (\d+)\n"
                     r"repairs pointers (\d+) slots (\d+) pages (\d+) inodes (\d+) counts (\d+)")


def checked(program, image):
    """How many directories, files and names the program counts in a volume, which is sound, and how many repairs."""
    lines = lines_of(program, "check", image)
    match = CHECKED.fullmatch("\n".join(lines))
    if match is None:
        raise NotListed(f"check: {lines}")
    numbers = [int(number) for number in match.groups()]
    return tuple(numbers[:3]), sum(numbers[3:])


def names_on(path):
    """The names on a path, by which listed paths are in order."""
    return [] if path == "/" else path[1:].split("/")


def written_tree(lines):
    """The tree of these lines, one for each path; and of each path the words of its status."""
    directories, status, names, contents = set(), {}, {}, {}
    for line in lines:
        kind, inode, links, count, path, *digits = line.split(" ")
        status[path] = ["dir" if kind == "d" else "file", "inode", inode, "links", links, "amount", count]
        if kind == "d":
            directories.add(path)
        else:
            names.setdefault(inode, []).append(path)
            contents.setdefault(inode, set()).update(digits)
    if list(map(names_on, status)) != sorted(map(names_on, status)) or len(status) != len(lines):
        raise NotListed("the paths are not in order, or one comes twice")
    if any(len(digits) != 1 for digits in contents.values()):
        raise NotListed("a file has other bytes at another name")
    files = {frozenset(names[inode]): written_bytes(*digits) for inode, digits in contents.items()}
    return Tree(frozenset(directories), files), status


def written(program, image):
    """The tree that the program writes of a volume."""
    tree, status = written_tree(lines_of(program, "tree", image))
    check_status(tree, status)
    return tree
