"""What jobs of the program do on a volume of 16 pages by docs/scripts.md, docs/stores.md and docs/commands.md: their lines with the
replies, fences and trees, by the model of tests/weaving.py, and in which line each fence of a whole job is.
"""
import dataclasses
import itertools

from odd_words import with_words
from trees import Tree, may_leave, path_of
from weaving import MAKES_NAME, Refused, Volume, Weave, lines_of_run, pages_for

PAGES = 16
WORD = 8
PAGE_BYTES = 4096

# One line of each changing command at least, and what most of them do in more than one way. One write goes over old bytes and past
# the size, so that a stop in it leaves torn ones.
CHANGES = [
    "create /a", "write /a 0 6162", "write /a 1 63", "truncate /a 5000", "truncate /a 1", "write /a 0 78797a", "mkdir /d",
    "link /a /d/b", "rename /a /c", "unlink /d/b", "rmdir /d", "rename /c /e", "unlink /e",
]
# The words of a volume with a file `/a` whose rename to `/b` was cut after its commit, and with litter besides: as `littered` of
# tests/program has it, and how many fences its mount makes.
LITTER = {
    5: 0, 529: 7, 544: 1, 547: 3, 1032: 2, 1033: 1, 1040: 5, 1041: 3, 1042: 9, 1552: 2, 1553: 1, 1554: 0x620001, 1570: 0x630001,
}
FENCES_OF_LITTER = 4

# Where a fence of a job is that is in none of its lines.
OPENING, MOUNT, CLOSE = "opening", "mount", "close"


@dataclasses.dataclass(frozen=True)
class Line:
    """A line of a script, its reply, how many fences it makes, and the tree before it and after it."""
    text: str
    reply: str
    fences: int
    before: Tree
    after: Tree

    def may_want_memory(self):
        """Whether `NoMemory` may stand in place of its acceptance: it adds a name or a page, or is a rename."""
        is_naming = self.text.split()[0] in MAKES_NAME
        return self.fences > 0 and (is_naming or pages_of_files(self.after) > pages_of_files(self.before))


def pages_of_files(tree):
    return sum(map(pages_for, map(len, tree.files.values())))


@dataclasses.dataclass(frozen=True)
class Meant:
    """A job on a volume, and what it does where nothing fails: its words before and behind IMAGE, the volume's bytes, its lines, all
    that it writes, the fences of its mount, and of how many bytes each line of its script is at least, by spaces at its end. A volume
    whose mount has no fence is closed."""
    title: str
    words: tuple
    options: tuple
    held: bytes
    lines: list
    output: str
    mount_fences: int = 0
    width: int = 0

    def script(self):
        """Its standard input."""
        return lines_of(line.text.ljust(self.width) for line in self.lines) if self.answers() else ""

    def answers(self):
        """Whether each line is answered before the next one is read."""
        return self.words == ("run",)

    def is_closed(self):
        """Whether the volume is closed at its begin."""
        return self.mount_fences == 0

    def begun(self):
        """The tree at its begin."""
        return self.lines[0].before

    def left(self):
        """The tree at its end."""
        return self.lines[-1].after

    def stages(self):
        """Of each fence where it is: in the mount, in the line of this number, or in the close. The first line that changes a
        closed volume has one fence more."""
        stages = [MOUNT] * self.mount_fences
        closed = self.is_closed()
        for number, line in enumerate(self.lines):
            if line.fences:
                stages += [number] * (line.fences + closed)
                closed = False
        return stages + [CLOSE]

    def allows(self, stage, found):
        """Whether a stop there may leave this tree."""
        if stage in (OPENING, MOUNT):
            return found == self.begun()
        if stage == CLOSE:
            return found == self.left()
        line = self.lines[stage]
        return may_leave(line.before, line.text, found)

    def tree_after(self, count):
        """The tree after so many lines."""
        return self.lines[count].before if count < len(self.lines) else self.left()

    def may_leave_after(self, count, found):
        """Whether a stop behind so many replies may leave this tree."""
        return self.allows(count if count < len(self.lines) else CLOSE, found)

    def output_at(self, stage):
        """What it writes where a call fails there."""
        if stage == CLOSE:
            return self.output
        if stage in (OPENING, MOUNT) or not self.answers():
            return ""
        replies = [line.reply for line in self.lines[:stage]] + ["error Fault"]
        return lines_of(replies + ["error Stopped"] * (len(self.lines) - len(replies)))


def lines_of(texts):
    return "".join(text + "\n" for text in texts)


def line_on(volume, text):
    """A line is executed on a volume of the model."""
    before, weave = volume.tree, Weave(volume, lines_of_run(text))
    fences, reply = 0, None
    try:
        reply = weave.begin(0)
    except Refused as refusal:
        reply = f"error {refusal}"
    if reply is None:
        fences = weave.running[0].plan.fences
        (_, reply), = weave.play(b"\0").replies
    return Line(text, reply, fences, before, volume.tree)


def lines_on(volume, texts, refused=None):
    """Lines are executed one after another. The one of this number wants memory, and changes nothing."""
    return [Line(text, "error NoMemory", 0, volume.tree, volume.tree) if number == refused else line_on(volume, text)
            for number, text in enumerate(texts)]


# The generated script of `work`.

MULTIPLIER = 6364136223846793005
INCREMENT = 3


def drawn(seed):
    """The numbers of PCG XSH RR 64/32 from `pcg32_srandom(seed, 1)` on."""
    state = ((seed + INCREMENT) * MULTIPLIER + INCREMENT) % 2**64
    while True:
        word = ((state >> 18 ^ state) >> 27) % 2**32
        turn = state >> 59
        yield (word >> turn | word << (32 - turn)) % 2**32
        state = (state * MULTIPLIER + INCREMENT) % 2**64


def directory(number):
    return f"/d{number % 4}"


def file(number):
    return path_of(directory(number), f"f{number // 4 % 16}")


def generated_line(a, b, c):
    """The line that three numbers make."""
    kind, digits = a % 12, f"{c // 8192 % 256:02x}" * (1 + a // 12 % 64)
    if kind <= 1:
        return f"create {file(b)}"
    if kind in (8, 9):
        return f"write {file(b)} {c % 8192} {digits}"
    return {
        2: f"mkdir {directory(b)}", 3: f"link {file(b)} {file(c)}", 4: f"unlink {file(b)}", 5: f"rmdir {directory(b)}",
        6: f"rename {file(b)} {file(c)}", 7: f"rename {directory(b)} {directory(c)}", 10: f"truncate {file(b)} {c % 10000}",
        11: f"read {file(b)} 0 64",
    }[kind]


def generated(seed, count):
    """The lines that `work` makes of a seed."""
    numbers = drawn(seed)
    first = [f"mkdir {directory(number)}" for number in range(4)]
    return first + [generated_line(*itertools.islice(numbers, 3)) for _ in range(count)]


def sums_of(volume, lines):
    """What `work` writes at the end of these lines, which leave this volume. A line that wanted memory is one that was refused."""
    accepted = sum(line.reply.startswith("ok") for line in lines)
    size = sum(map(len, volume.tree.files.values()))
    return lines_of([f"work lines {len(lines)} ok {accepted} refused {len(lines) - accepted}", volume.answer_df(),
                     f"names {len(volume.tree.paths()) - 1} bytes {size}"])


# The jobs.

def run_of(title, held, volume, texts, mount_fences=0, refused=None):
    lines = lines_on(volume, texts, refused)
    return Meant(title, ("run",), (), held, lines, lines_of(line.reply for line in lines), mount_fences)


def changing_run(fresh, refused=None, times=1):
    """A run of all changing commands, each line so many times, on a fresh volume, of which these are the bytes."""
    return run_of("run", fresh, Volume(PAGES), [line for line in CHANGES for _ in range(times)], refused=refused)


def mounting_run(with_file, refused=None):
    """A run on a volume that has litter, made of the bytes of one that has the file `/a`."""
    volume = Volume(PAGES)
    lines_on(volume, ["create /a", "rename /a /b"])
    return run_of("run on litter", with_words(with_file, LITTER), volume, ["create /c"], FENCES_OF_LITTER, refused)


def generated_run(fresh, refused=None, seed=1, count=10):
    """A `work` on a fresh volume."""
    volume = Volume(PAGES)
    lines = lines_on(volume, generated(seed, count), refused)
    return Meant("work", ("work",), (str(seed), str(count)), fresh, lines, sums_of(volume, lines))


# What a `mkfs` that doesn't come to its end leaves, in this order.

AS_BEFORE, NO_VOLUME, FRESH = "as before", "no volume", "fresh"
LEFT_IN_TURN = [AS_BEFORE, NO_VOLUME, FRESH]


@dataclasses.dataclass(frozen=True)
class Making:
    """A `mkfs` of a file with these bytes and this tree, or of none, and the bytes that it makes of them."""
    title: str
    pages: int
    held: bytes | None
    tree: Tree | None
    made: bytes
    words: tuple = ("mkfs",)

    @property
    def options(self):
        return (str(self.pages),)

    @property
    def output(self):
        volume = Volume(self.pages)
        return lines_of([f"formatted pages {self.pages} inodes {volume.inodes} data {volume.data_pages}"])

    def script(self):
        return ""

    def left(self, found):
        """What a file with these bytes is, or no file: the old volume until its length or its first word is another."""
        if found == self.made:
            return FRESH
        if found == self.held or (self.held and len(found) == len(self.held) and found[:WORD] == self.held[:WORD]):
            return AS_BEFORE
        return NO_VOLUME
