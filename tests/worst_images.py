"""The images that cost most for their length, each written into a file of the largest volume, with what a `check` and a `run` of `df` tell.

What is told follows from docs/rules.md and docs/format.md. None of these volumes is closed. The writer keeps little in memory, since the
most memory of a job is at least that of the process that starts it.
"""
import array
import collections
import dataclasses
import random
import struct

from slow_rules import (DESCRIPTOR_WORDS, DESCRIPTORS_A_PAGE, DIRECTORY, FILE, INODE_WORDS, INODES_A_PAGE, LONGEST_NAME, MAGIC, MOST_PAGES,
                        PAGE, PAGE_WORDS, ROOT, SLOTS_A_PAGE, VERSION, rounded_up)

WORD = 8
ONE_FILE = ROOT + 1
SEED = "worst images"
CHUNK = 2**20

INODES = MOST_PAGES // 4
INODE_TABLE, DESCRIPTOR_TABLE = rounded_up(INODES, INODES_A_PAGE), rounded_up(MOST_PAGES, DESCRIPTORS_A_PAGE)
DATA_PAGES = MOST_PAGES - 1 - INODE_TABLE - DESCRIPTOR_TABLE
SLOTS = SLOTS_A_PAGE * DATA_PAGES
HEAD = [MAGIC, VERSION, MOST_PAGES, INODES, DATA_PAGES]


@dataclasses.dataclass(frozen=True)
class Told:
    """What a `check` and a `run` of `df` write, and their status."""
    check: str
    df: str
    status: int = 0


def sound(directories, files, names, repairs, free_inodes, free_pages):
    pointers, slots, pages, inodes, counts = repairs
    return Told(f"sound\ntree directories {directories} files {files} names {names}\n"
                f"repairs pointers {pointers} slots {slots} pages {pages} inodes {inodes} counts {counts}\n",
                f"ok inodes {free_inodes} {INODES} pages {free_pages} {DATA_PAGES}\n")


def damaged(rule, place):
    text = f"damaged {rule} {place}\n"
    return Told(text, text, 4)


class Tables:
    """The words before the data pages: those of a fresh volume that isn't closed."""

    def __init__(self):
        self.inodes = array.array("Q", bytes(WORD * PAGE_WORDS * INODE_TABLE))
        self.descriptors = array.array("Q", bytes(WORD * PAGE_WORDS * DESCRIPTOR_TABLE))
        self.put_inode(ROOT, DIRECTORY, 2, 0)

    def put_inode(self, inode, kind, links, size):
        first = INODE_WORDS * (inode - 1)
        self.inodes[first:first + 4] = array.array("Q", [kind, links, size, inode])

    def put_page(self, page, owner, kind, offset=0):
        first = DESCRIPTOR_WORDS * page
        self.descriptors[first:first + 3] = array.array("Q", [owner, kind, offset])

    def put_files(self, names):
        """All inodes but the root are files, which so many names are dealt to."""
        links = collections.Counter(file_of(number) for number in range(names))
        for inode, count in links.items():
            self.put_inode(inode, FILE, count, 0)

    def write(self, file):
        file.write(array.array("Q", HEAD).tobytes().ljust(PAGE, b"\0") + self.inodes.tobytes() + self.descriptors.tobytes())


def file_of(number):
    """The file that a name of this number is dealt to."""
    return ONE_FILE + number % (INODES - 1)


def slot(number, name):
    """A slot that names an inode, or one that names nothing and keeps its name."""
    return struct.pack("<QQH110s", number, 0, len(name), name)


def write_names(file, tables, name, rest=b""):
    """One name in each page of the root, and behind it what is the rest of each page."""
    for page in range(DATA_PAGES):
        tables.put_page(page, ROOT, DIRECTORY)
    tables.put_files(DATA_PAGES)
    tables.write(file)
    for page in range(DATA_PAGES):
        file.write((slot(file_of(page), name(page)) + rest).ljust(PAGE, b"\0"))


# The images.

def names_in_reverse(file):
    """One name a page, and the last page's comes first in their order."""
    write_names(file, Tables(), lambda page: b"%08d" % (DATA_PAGES - page))
    return sound(1, INODES - 1, DATA_PAGES, [0] * 5, 0, 0)


def names_beside_dead_ones(file):
    """One name a page, and 31 slots that name nothing and aren't zero."""
    dead = slot(0, b"dead") * (SLOTS_A_PAGE - 1)
    write_names(file, Tables(), lambda page: b"%08d" % page, dead)
    return sound(1, INODES - 1, DATA_PAGES, [0, SLOTS - DATA_PAGES, 0, 0, 0], 0, 0)


def long_names(file):
    """A name in each slot, as long as names may be, which differ in their last bytes and come in no order."""
    tables, numbers = Tables(), list(range(SLOTS))
    random.Random(SEED).shuffle(numbers)
    for page in range(DATA_PAGES):
        tables.put_page(page, ROOT, DIRECTORY)
    tables.put_files(SLOTS)
    tables.write(file)
    for number, place in enumerate(numbers):
        file.write(slot(file_of(number), b"%0*d" % (LONGEST_NAME, place)))
    return sound(1, INODES - 1, SLOTS, [0] * 5, 0, 0)


def twins(file):
    """The same name in each slot, as long as names may be."""
    tables, name = Tables(), b"n" * LONGEST_NAME
    for page in range(DATA_PAGES):
        tables.put_page(page, ROOT, DIRECTORY)
    tables.put_files(SLOTS)
    tables.write(file)
    for number in range(SLOTS):
        file.write(slot(file_of(number), name))
    return damaged(8, 1)


def directories_below_each_other(file):
    """Each inode is a directory in the one before, the root's in the last page: what is deeper stands before it."""
    tables = Tables()
    for inode in range(ROOT, INODES + 1):
        tables.put_inode(inode, DIRECTORY, 3 if inode < INODES else 2, 0)
    for page, inode in enumerate(reversed(range(ROOT, INODES))):
        tables.put_page(page, inode, DIRECTORY)
    tables.write(file)
    for inode in reversed(range(ROOT, INODES)):
        file.write(slot(inode + 1, b"d").ljust(PAGE, b"\0"))
    file.truncate(PAGE * MOST_PAGES)
    return sound(INODES, 0, INODES - 1, [0] * 5, 0, DATA_PAGES - (INODES - 1))


def write_one_file(file, pages, offsets):
    """A file of so many pages in the root, whose pages stand in the image with these offsets. What they hold is zeros."""
    tables = Tables()
    tables.put_page(0, ROOT, DIRECTORY)
    tables.put_inode(ONE_FILE, FILE, 1, PAGE * pages)
    for page, offset in enumerate(offsets, 1):
        tables.put_page(page, ONE_FILE, FILE, offset)
    tables.write(file)
    file.write(slot(ONE_FILE, b"file").ljust(PAGE, b"\0"))
    file.truncate(PAGE * MOST_PAGES)


def falling_offsets(file):
    """One file has all pages but the root's, its last page first."""
    pages = DATA_PAGES - 1
    write_one_file(file, pages, reversed(range(pages)))
    return sound(1, 1, 1, [0] * 5, INODES - 2, 0)


def offset_twice(file):
    """The same, but for a page less: the last two pages have the first offset."""
    pages = DATA_PAGES - 2
    write_one_file(file, pages, [*reversed(range(pages)), 0])
    return damaged(13, DATA_PAGES - 1)


def owners_that_are_not_there(file):
    """Each page is a directory's whose number no inode has, and is full of names."""
    tables = Tables()
    for page in range(DATA_PAGES):
        tables.put_page(page, INODES + 1 + page, DIRECTORY)
    tables.write(file)
    names = b"".join(slot(ONE_FILE + place, b"%d" % place) for place in range(SLOTS_A_PAGE))
    for _ in range(DATA_PAGES):
        file.write(names)
    return sound(1, 0, 0, [0, 0, DATA_PAGES, 0, 0], INODES - 1, DATA_PAGES)


def write_random(file, head):
    """Random bytes behind these words."""
    rng = random.Random(SEED)
    file.write(struct.pack(f"<{len(head)}Q", *head))
    while (left := PAGE * MOST_PAGES - file.tell()) > 0:
        file.write(rng.randbytes(min(left, CHUNK)))


def random_behind_a_head(file):
    """The root's words are random too."""
    write_random(file, HEAD)
    return damaged(2, ROOT)


def random_behind_a_root(file):
    """Behind the root's words no page's kind and owner are those of anything: all other inodes and all pages are litter."""
    write_random(file, [*HEAD, *[0] * (PAGE_WORDS - len(HEAD)), DIRECTORY, 2, 0, ROOT])
    return sound(1, 0, 0, [0, 0, DATA_PAGES, INODES - 1, 0], INODES - 1, DATA_PAGES)


IMAGES = {
    "one name a page, in an order that is the reverse of that of the pages": names_in_reverse,
    "one name a page and 31 dead ones": names_beside_dead_ones,
    "a name of 110 bytes in each slot, in no order": long_names,
    "the same name of 110 bytes in each slot": twins,
    "all inodes directories below each other, the deepest in the first page": directories_below_each_other,
    "one file, its last page first": falling_offsets,
    "the same, with one offset twice": offset_twice,
    "pages full of names, of owners that aren't there": owners_that_are_not_there,
    "random bytes behind the head": random_behind_a_head,
    "random bytes behind the head and the root": random_behind_a_root,
}
