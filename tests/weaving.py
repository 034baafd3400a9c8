"""What scripts do to a volume by docs/scripts.md, docs/stores.md and docs/commands.md: replies, trees, and the numbers of inodes and
pages, of one session as `run` has it, or of many that are woven.

It knows no words of an image. A volume is a tree of paths with the numbers of inodes, slots and pages; a call has a plan: how many
fences it makes, behind which of them the tree changes, what it takes, and what it gives up.
"""
import collections
import dataclasses
import re
from urllib.parse import quote, unquote_to_bytes

from listing import names_on
from trees import LONGEST, PAGE, STEPS, Tree, parent_of, path_of, written_bytes

SLOTS = 32
LARGEST = 2**40
LONGEST_NAME = 110
LONGEST_LINE = 65536

# What words each command has: paths, numbers, bytes.
FORMS = {
    "create": "P", "mkdir": "P", "link": "PP", "unlink": "P", "rmdir": "P", "rename": "PP", "write": "PNB", "truncate": "PN",
    "read": "PNN", "stat": "P", "list": "P", "df": "",
}
PATTERNS = {"P": r".*", "N": r"[0-9]{1,20}", "B": r"-|([0-9a-fA-F]{2})+"}
# The commands whose last path gets a name, and those whose first path loses it.
MAKES_NAME = ("create", "mkdir", "link", "rename")
TAKES_NAME = ("unlink", "rmdir", "rename")


class Refused(Exception):
    """Why a line isn't executed, as the reply tells it."""


# Lines.

def lines_in(text):
    """The lines of a script, of which the last may have no newline."""
    *lines, last = text.split("\n")
    return lines + [last] if last else lines


def words_in(line):
    """The words of a line, none where it is too long."""
    return [word for word in line.split(" ") if word] if len(line) <= LONGEST_LINE else []


def lines_of_run(script):
    """The words of the lines of one session."""
    return [collections.deque(map(words_in, lines_in(script)))]


def lines_of_weave(script, sessions):
    """The same of each session, whose number stands before the line. One without a number is of the first session, and faulty."""
    lines = [collections.deque() for _ in range(sessions)]
    for number, *words in (words_in(line) or [""] for line in lines_in(script)):
        has_number = re.fullmatch(PATTERNS["N"], number) is not None and int(number) < sessions
        lines[int(number) if has_number else 0].append(words if has_number else [])
    return lines


def can_be_read(letter, word):
    return re.fullmatch(PATTERNS[letter], word) is not None and (letter != "N" or int(word) < 2**64)


def decoded(component):
    """The name that a component of a path stands for."""
    if re.search(r"%(?![0-9a-fA-F]{2})", component):
        raise Refused("BadPath")
    name = unquote_to_bytes(component.encode("latin-1"))
    if name in (b"", b".", b"..") or re.search(rb"[\0/]", name):
        raise Refused("BadPath")
    return name


def names_of_path(path):
    if not path.startswith("/"):
        raise Refused("BadPath")
    return [] if path == "/" else [decoded(component) for component in path[1:].split("/")]


@dataclasses.dataclass(frozen=True)
class Call:
    """A command and its words. Its paths are spelled as names are written, so that a path has one spelling."""
    command: str
    words: list
    paths: list

    def made(self):
        """The path that gets a name."""
        return self.paths[-1:] if self.command in MAKES_NAME else []

    def taken(self):
        """The path that loses its name."""
        return self.paths[:1] if self.command in TAKES_NAME else []

    def walked(self):
        """The paths that have to be there."""
        return self.paths[:-1] if self.command in MAKES_NAME else self.paths


def call_of(words):
    """The call that a line's words ask for, or their fault: that of the line, of any path, and then of any name."""
    command, *rest = words or [""]
    form = FORMS.get(command)
    if form is None or len(form) != len(rest) or not all(map(can_be_read, form, rest)):
        raise Refused("BadLine")
    count = form.count("P")
    names = [names_of_path(path) for path in rest[:count]]
    if any(len(name) > LONGEST_NAME for path in names for name in path):
        raise Refused("NameTooLong")
    paths = ["/" + "/".join(quote(name, safe="") for name in path) for path in names]
    return Call(command, paths + rest[count:], paths)


# The volume.

@dataclasses.dataclass(frozen=True)
class Plan:
    """What an accepted command is to do: its fences, and at which of them its entry comes; the new node's number and the place
    of the new name; the pages that are taken, and whose they become; and what is given up. One without a fence changes nothing."""
    fences: int
    entry: int
    reply: str = "ok"
    inode: int | None = None
    slot: int | None = None
    pages: list = dataclasses.field(default_factory=list)
    owner: int | None = None
    given_inodes: list = dataclasses.field(default_factory=list)
    given_pages: list = dataclasses.field(default_factory=list)


def pages_for(size):
    return -(-size // PAGE)


def moved(numbers, path, new_path):
    """What each path has, where one and all below it have a new one."""
    return {new_path + old[len(path):] if old == path or old.startswith(path + "/") else old: number
            for old, number in numbers.items()}


class Volume:
    """A tree, and of each path its inode and the slot of its name, of each inode its pages, those of a file in their order. What
    is free is what a call that begins may take: numbers that no node has and no running call holds."""

    def __init__(self, pages):
        self.inodes = pages // 4
        self.data_pages = pages - 1 - -(-self.inodes // 32) - -(-pages // 64)
        self.tree = Tree()
        self.ids = {"/": 1}
        self.slots = {}
        self.pages = {1: []}
        self.free_inodes = set(range(2, self.inodes + 1))
        self.free_pages = set(range(self.data_pages))

    def names_in(self, directory):
        """The paths of its names."""
        return [path for path in self.slots if parent_of(path) == directory]

    def content(self, path):
        """The bytes of a file."""
        if path in self.tree.directories:
            raise Refused("IsDir")
        return self.tree.files[self.tree.names_of(path)]

    # Walks, and what a call names.

    def walk(self, path):
        here = "/"
        for name in names_on(path):
            here = path_of(self.walked_into(here), name)
            if here not in self.ids:
                raise Refused("NotFound")
        return here

    def walked_into(self, path):
        if path not in self.tree.directories:
            raise Refused("NotDir")
        return path

    def walk_all(self, call):
        """The refusals of a call's walks and Root, which come before Busy."""
        for path in call.walked():
            self.walk(path)
        for path in call.made():
            self.walked_into(self.walk(parent_of(path)))
        if "/" in call.made() + call.taken():
            raise Refused("Root")

    def named(self, call):
        """The inodes that it names: of its paths, and of the directories whose names it changes. A rename names all in use, and
        what a running call has given up: other numbers are named by none."""
        if call.command == "rename":
            return set(range(1, self.inodes + 1))
        directories = [parent_of(path) for path in call.made() + call.taken()]
        return {self.ids[path] for path in call.paths + directories if path in self.ids}

    # What reading commands answer.

    def status(self, path):
        """Inode, links, and the names of a directory or the bytes of a file."""
        if path in self.tree.directories:
            below = [parent_of(other) for other in self.tree.directories - {"/"}].count(path)
            return self.ids[path], 2 + below, len(self.names_in(path))
        return self.ids[path], len(self.tree.names_of(path)), len(self.content(path))

    def answer_stat(self, path):
        kind, amount = ("dir", "names") if path in self.tree.directories else ("file", "size")
        inode, links, count = self.status(path)
        return f"ok {kind} inode {inode} links {links} {amount} {count}"

    def answer_list(self, path):
        names = sorted((names_on(name)[-1] for name in self.names_in(self.walked_into(path))), key=unquote_to_bytes)
        return " ".join(["ok", str(len(names)), *names])

    def answer_read(self, path, offset, count):
        content = self.content(path)
        if int(count) > LONGEST:
            raise Refused("TooBig")
        found = content[int(offset):int(offset) + int(count)]
        return f"ok {len(found)} {found.hex() or '-'}"

    def answer_df(self):
        return f"ok inodes {len(self.free_inodes)} {self.inodes} pages {len(self.free_pages)} {self.data_pages}"

    def listing(self):
        """What `tree` writes."""
        lines = []
        for path in sorted(self.ids, key=lambda path: [unquote_to_bytes(name) for name in names_on(path)]):
            is_directory = path in self.tree.directories
            words = ["d" if is_directory else "f", *map(str, self.status(path)), path]
            lines.append(" ".join(words if is_directory else words + [self.content(path).hex() or "-"]))
        return lines

    def check(self):
        """What `check` writes where no call runs: there is nothing to repair."""
        return ["sound", f"tree directories {len(self.tree.directories)} files {len(self.tree.files)} names {len(self.ids) - 1}",
                "repairs pointers 0 slots 0 pages 0 inodes 0 counts 0"]

    # The later refusals of changing commands, and their plans.

    def least_pages(self, count):
        if count > len(self.free_pages):
            raise Refused("NoPages")
        return sorted(self.free_pages)[:count]

    def place_in(self, directory):
        """The slot of a new name, and the new page where names fill all that the directory has."""
        taken = {self.slots[path] for path in self.names_in(directory)}
        slots = {page * SLOTS + place for page in self.pages[self.ids[directory]] for place in range(SLOTS)}
        if slots - taken:
            return min(slots - taken), []
        page, = self.least_pages(1)
        return page * SLOTS, [page]

    def emptied(self, path, new_slot=-1):
        """The page of a name that goes, where no other name stands in it; nor the one that comes."""
        others = {self.slots[other] for other in self.names_in(parent_of(path)) if other != path} | {new_slot}
        page = self.slots[path] // SLOTS
        return [] if page in {slot // SLOTS for slot in others} else [page]

    def gone_with(self, path):
        """The inode that goes where a path goes, and its pages; of a file that has another name nothing."""
        inode = self.ids[path]
        return ([inode], self.pages[inode]) if list(self.ids.values()).count(inode) == 1 else ([], [])

    def plan_create(self, path):
        if path in self.ids:
            raise Refused("Exists")
        if not self.free_inodes:
            raise Refused("NoInodes")
        slot, pages = self.place_in(parent_of(path))
        fences = 2 + len(pages)
        return Plan(fences, fences, inode=min(self.free_inodes), slot=slot, pages=pages, owner=self.ids[parent_of(path)])

    plan_mkdir = plan_create

    def plan_link(self, path, new_path):
        if new_path in self.ids:
            raise Refused("Exists")
        self.content(path)
        slot, pages = self.place_in(parent_of(new_path))
        fences = 2 + len(pages)
        return Plan(fences, fences, slot=slot, pages=pages, owner=self.ids[parent_of(new_path)])

    def plan_unlink(self, path):
        self.content(path)
        inodes, pages = self.gone_with(path)
        pages = pages + self.emptied(path)
        return Plan(2 + bool(pages) + bool(pages or inodes), 1, given_inodes=inodes, given_pages=pages)

    def plan_rmdir(self, path):
        if self.names_in(self.walked_into(path)):
            raise Refused("NotEmpty")
        pages = self.emptied(path)
        return Plan(3 + len(pages), 1, given_inodes=[self.ids[path]], given_pages=pages)

    def plan_rename(self, path, new_path):
        if self.ids.get(new_path) == self.ids[path]:
            return Plan(0, 0)
        is_directory, is_there = path in self.tree.directories, new_path in self.ids
        if is_there and is_directory != (new_path in self.tree.directories):
            raise Refused("NotDir" if is_directory else "IsDir")
        if self.names_in(new_path):
            raise Refused("NotEmpty")
        if is_directory and new_path.startswith(path + "/"):
            raise Refused("IntoItself")
        slot, pages = (self.slots[new_path], []) if is_there else self.place_in(parent_of(new_path))
        inodes, given = self.gone_with(new_path) if is_there else ([], [])
        given = given + self.emptied(path, slot)
        entry = 2 + 2 * len(pages)
        return Plan(entry + 2 + (2 if given else len(inodes)), entry, slot=slot, pages=pages, owner=self.ids[parent_of(new_path)],
                    given_inodes=inodes, given_pages=given)

    def growth(self, path, size, reply):
        inode = self.ids[path]
        pages = self.least_pages(pages_for(size) - len(self.pages[inode]))
        fences = 2 + bool(pages)
        return Plan(fences, fences, reply, pages=pages, owner=inode)

    def plan_write(self, path, offset, digits):
        size, count = len(self.content(path)), len(written_bytes(digits))
        end, reply = int(offset) + count, f"ok {count}"
        if end > LARGEST:
            raise Refused("TooBig")
        if count == 0:
            return Plan(0, 0, reply)
        return Plan(1, 1, reply) if end <= size else self.growth(path, end, reply)

    def plan_truncate(self, path, size):
        old, new = len(self.content(path)), int(size)
        if new > LARGEST:
            raise Refused("TooBig")
        if new >= old:
            return self.growth(path, new, "ok") if new > old else Plan(0, 0)
        given = self.pages[self.ids[path]][pages_for(new):]
        return Plan(3 if given else 1, 1, given_pages=given)

    # A running call.

    def take(self, plan):
        """What a call holds from its begin on: the number of the new node, and the pages of its need."""
        self.free_inodes -= {plan.inode}
        self.free_pages -= set(plan.pages)

    def enter(self, call, plan):
        """The tree changes for others. What was taken is in use, and what is given up isn't, but is held to the end."""
        path, last = call.paths[0], call.paths[-1]
        inode = self.ids.get(path, plan.inode)
        if call.command == "rename":
            self.ids, self.slots = moved(self.ids, path, last), moved(self.slots, path, last)
        elif call.taken():
            del self.ids[path], self.slots[path]
        if call.made():
            self.ids[last], self.slots[last] = inode, plan.slot
        if plan.inode:
            self.pages[inode] = []
        self.tree = STEPS[call.command](self.tree, *call.words)
        self.pages = {inode: [page for page in pages if page not in plan.given_pages] + plan.pages * (inode == plan.owner)
                      for inode, pages in self.pages.items() if inode not in plan.given_inodes}

    def give(self, plan):
        """The call has ended: what it gave up is free."""
        self.free_inodes |= set(plan.given_inodes)
        self.free_pages |= set(plan.given_pages)


# Sessions.

@dataclasses.dataclass
class Running:
    """A call between its fences: which it is of all that have begun, what it names, and how many steps it has made."""
    call: Call
    plan: Plan
    number: int
    named: set
    steps: int = 0


class Weave:
    """Sessions on a volume, each with its lines, and what they were answered."""

    def __init__(self, volume, lines):
        self.volume = volume
        self.lines = lines
        self.running = {}
        self.begun = 0
        self.replies = []

    def play(self, schedule):
        """Each byte gives one step to a session that has work, until none has."""
        turn, sessions = 0, len(self.lines)
        while self.running or any(self.lines):
            session = schedule[turn % len(schedule)] % sessions
            while session not in self.running and not self.lines[session]:
                session = (session + 1) % sessions
            self.step(session)
            turn += 1
        return self

    def step(self, session):
        """The next step of its call, which is the first one where none runs. A call without a fence ends at once."""
        try:
            reply = None if session in self.running else self.begin(session)
        except Refused as refusal:
            reply = f"error {refusal}"
        if reply is None:
            reply = self.go_on(session, self.running[session])
        if reply is not None:
            self.replies.append((session, reply))

    def begin(self, session):
        """The reply of a call that ends without a step, or nothing where it runs."""
        self.begun += 1
        call = call_of(self.lines[session].popleft())
        self.volume.walk_all(call)
        named = self.volume.named(call)
        self.refuse_busy(named)
        if call.command not in STEPS:
            return getattr(self.volume, f"answer_{call.command}")(*call.words)
        plan = getattr(self.volume, f"plan_{call.command}")(*call.words)
        if plan.fences == 0:
            return plan.reply
        self.volume.take(plan)
        self.running[session] = Running(call, plan, self.begun, named)
        return None

    def refuse_busy(self, named):
        """The least inode that a running call names too, and that call. No two of them name one inode."""
        met = [(min(named & running.named), running.number) for running in self.running.values() if named & running.named]
        if met:
            raise Refused("Busy {} {}".format(*min(met)))

    def go_on(self, session, running):
        """The next step of a running call; its reply where that is the last."""
        running.steps += 1
        if running.steps == running.plan.entry:
            self.volume.enter(running.call, running.plan)
        if running.steps < running.plan.fences:
            return None
        del self.running[session]
        self.volume.give(running.plan)
        return running.plan.reply
