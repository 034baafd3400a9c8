"""Images with odd words: a volume that random lines have made, in which a few words are set to what they shouldn't be.

Most are single words of any kind. Some are chosen together, since chance alone hardly reaches the rules that need them: two
rename pointers, a copy of an inode, of a page's descriptor or of a slot, a file that ends before its pages.
"""
import dataclasses
import random
import struct

from slow_rules import (DIRECTORY, FILE, INODE_WORDS, KIND, LINKS, MARK, MOST_BYTES, NAME, NUMBER, OFFSET, OWN, OWNER, PAGE, PAGE_KIND,
                        POINTER, SIZE, SLOT_WORDS, SLOTS_A_PAGE, Image)
from trees import Limits, Tree, random_lines, trees_after

MOST_WORDS = 4
WORD_END = 2**64
FIXED_VALUES = [0, 1, 2, MOST_BYTES, 2**63, WORD_END - 1]
ODD_NAMES = [0, 1, 0x2E0001, 0x2E2E0002, 0x2F0001, 0x610000, 0x610002, 0x61006F, 0x610001]
FULL_PAGE = SLOTS_A_PAGE + 5
SHARE_USED = 0.3
FEW_INODES = 8
FEW_NAMES, MANY_NAMES = 5, 10**4


@dataclasses.dataclass(frozen=True)
class Base:
    """A volume before its words are set: its number of pages, the bytes of its file before `mkfs`, which keeps those of the data pages,
    the lines that make it, and the limits that they keep."""
    pages: int
    bytes_before: bytes
    lines: list
    limits: Limits

    def tree(self):
        return trees_after(Tree(), self.lines)[-1]


def limits_of(pages):
    """What random lines may use on a fresh volume of so many pages. On a small one there are few names, so that they meet often."""
    image = Image(bytes(pages * PAGE))
    return Limits(inodes=image.inodes, pages=image.data_pages, names=FEW_NAMES if image.inodes < FEW_INODES else MANY_NAMES)


def draw_base(pages, rng):
    """Random lines, on a larger volume half of the time behind more names of the root than one page has."""
    limits, first = limits_of(pages), []
    if limits.pages > FULL_PAGE + SLOTS_A_PAGE // 2 and rng.random() < 0.5:
        first = ["create /a"] + [f"link /a /a{number}" for number in range(rng.randrange(SLOTS_A_PAGE, FULL_PAGE))]
    most = 3 * limits.inodes
    lines = first + random_lines(trees_after(Tree(), first)[-1], limits, rng.randint(most // 4, most), rng)
    return Base(pages, rng.randbytes(pages * PAGE) if rng.random() < SHARE_USED else b"", lines, limits)


class Places:
    """What is in use in a volume before its words are set. A slot stands in a page that is held as a directory's."""

    def __init__(self, image):
        self.image = image
        self.inodes = [inode for inode in image.all_inodes() if image.inode(inode, KIND)]
        self.pages = [page for page in image.all_pages() if image.page(page, OWNER)]
        self.free_pages = [page for page in image.all_pages() if not image.page(page, OWNER)]
        self.held = [slot for page in self.pages if image.page(page, PAGE_KIND) == DIRECTORY
                     for slot in range(SLOTS_A_PAGE * page, SLOTS_A_PAGE * (page + 1))]
        self.names = [slot for slot in self.held if image.slot(slot, NUMBER)]

    def files(self):
        return [inode for inode in self.inodes if self.image.inode(inode, KIND) == FILE]

    def directories(self):
        return [inode for inode in self.inodes if self.image.inode(inode, KIND) == DIRECTORY]

    def pages_of(self, inode):
        return [page for page in self.pages if self.image.page(page, OWNER) == inode]


# Values.

def numbers_of(places):
    """Other numbers of the image: of its head, its inodes, pages and slots, and what stands in them."""
    image = places.image
    heads = [image.pages, image.inodes, image.data_pages, image.data_pages * SLOTS_A_PAGE]
    slots = [slot + 1 for slot in places.held]
    sizes = [image.inode(inode, SIZE) for inode in places.inodes]
    return heads + places.inodes + places.pages + places.free_pages + slots + sizes


def draw_value(places, old, rng):
    """A fixed value, a number of the image, or the neighbour of one or of what stands there."""
    other = rng.choice(numbers_of(places))
    drawn = rng.choice([rng.choice(FIXED_VALUES), rng.choice(FIXED_VALUES), other, other, old, rng.choice(FIXED_VALUES)])
    near = rng.choice([drawn, drawn, drawn + 1, drawn - 1])
    return near % WORD_END


# Single words. Each kind draws a place and a value, or nothing where the volume has no such place.

def head_word(places, rng):
    place = rng.randrange(MARK)
    return {place: draw_value(places, places.image.words[place], rng)}


def mark_word(places, rng):
    return {MARK: draw_value(places, rng.choice([0, 1]), rng)}


def any_word(places, rng):
    place = rng.randrange(len(places.image.words))
    return {place: draw_value(places, places.image.words[place], rng)}


def inode_word(places, rng):
    """One that is read, mostly of an inode in use, or one that isn't."""
    inode = rng.choice(rng.choice([places.inodes, places.inodes, list(places.image.all_inodes())]))
    place = places.image.inode_address(inode, rng.choice([KIND, LINKS, LINKS, SIZE, SIZE, OWN, rng.randrange(INODE_WORDS)]))
    return {place: draw_value(places, places.image.words[place], rng)}


def page_word(places, rng):
    page = rng.choice(rng.choice([places.pages or places.free_pages, list(places.image.all_pages())]))
    place = places.image.page_address(page, rng.choice([OWNER, PAGE_KIND, OFFSET]))
    return {place: draw_value(places, places.image.words[place], rng)}


def slot_word(places, rng):
    """A number, a rename pointer, or a word of the name: another slot's, or one that no name has."""
    if not places.held:
        return None
    slot = rng.choice(rng.choice([places.names or places.held, places.names or places.held, places.held]))
    field = rng.choice([NUMBER, NUMBER, POINTER, NAME, rng.randrange(SLOT_WORDS)])
    place = places.image.slot_address(slot, field)
    if field < NAME or rng.random() < 0.2:
        return {place: draw_value(places, places.image.words[place], rng)}
    names = [places.image.slot(other, field) for other in places.names]
    return {place: rng.choice([rng.choice(names or ODD_NAMES), rng.choice(ODD_NAMES)])}


# Words that are chosen together.

def copied(from_place, to_place, count, words):
    return {to_place + field: words[from_place + field] for field in range(count)}


def copied_inode(places, rng):
    """All words that are read, the own number too half of the time as it would have to be."""
    image = places.image
    inode, other = rng.choice(places.inodes), rng.choice(list(image.all_inodes()))
    words = copied(image.inode_address(inode, KIND), image.inode_address(other, KIND), OWN + 1, image.words)
    return words | ({image.inode_address(other, OWN): other} if rng.random() < 0.5 else {})


def copied_page(places, rng):
    """A second page of one offset, or of one directory."""
    image = places.image
    if not places.pages:
        return None
    page, other = rng.choice(places.pages), rng.choice(list(image.all_pages()))
    return copied(image.page_address(page, OWNER), image.page_address(other, OWNER), OFFSET + 1, image.words)


def copied_slot(places, rng):
    """Another name's number, pointer and first word of the name. One word of the name differs half of the time."""
    image = places.image
    if not places.names:
        return None
    slot, other = rng.choice(places.names), rng.choice(places.held)
    words = copied(image.slot_address(slot, NUMBER), image.slot_address(other, NUMBER), NAME + 1, image.words)
    return words | ({image.slot_address(other, NAME): rng.choice(ODD_NAMES)} if rng.random() < 0.5 else {})


def second_name(places, rng):
    """A name with the number of a directory."""
    if not places.names:
        return None
    return {places.image.slot_address(rng.choice(places.names), NUMBER): rng.choice(places.directories())}


def twin_name(places, rng):
    """A name whose first word is another one's."""
    if len(places.names) < 2:
        return None
    slot, other = rng.sample(places.names, 2)
    return {places.image.slot_address(slot, NAME): places.image.slot(other, NAME)}


def two_pointers(places, rng):
    """Rename pointers of two held slots, each at a held slot, as a rename leaves it half of the time."""
    if not places.held:
        return None
    image, words = places.image, {}
    for slot in rng.sample(places.held, rng.choice([1, 2])):
        other = rng.choice(rng.choice([places.held, places.names or places.held]))
        words[image.slot_address(slot, POINTER)] = other + 1
        if rng.random() < 0.5:
            words[image.slot_address(slot, NUMBER)] = image.slot(other, NUMBER)
    return words


def two_pages_of_an_offset(places, rng):
    """A file that ends before its last page, which has the offset of one before."""
    image = places.image
    files = [inode for inode in places.files() if len(places.pages_of(inode)) > 1]
    if not files:
        return None
    inode = rng.choice(files)
    *others, last = sorted(places.pages_of(inode), key=lambda page: image.page(page, OFFSET))
    page, other = rng.choice([(last, rng.choice(others)), (rng.choice(others), last)])
    offset = rng.choice([image.page(other, OFFSET), 0])
    return {image.inode_address(inode, SIZE): PAGE * image.page(last, OFFSET), image.page_address(page, OFFSET): offset}


def hidden_directory(places, rng):
    """A directory's page that a free inode owns or one that isn't there, with a slot that names something."""
    image = places.image
    if not places.free_pages:
        return None
    page = rng.choice(places.free_pages)
    return {image.page_address(page, OWNER): rng.choice([image.inodes, image.inodes + 1, WORD_END - 1, 1]),
            image.page_address(page, PAGE_KIND): DIRECTORY,
            image.slot_address(SLOTS_A_PAGE * page, NUMBER): rng.choice(places.inodes),
            image.slot_address(SLOTS_A_PAGE * page, rng.choice([NAME, POINTER])): rng.choice(ODD_NAMES + [1, 2])}


KINDS = {
    inode_word: 14, page_word: 12, slot_word: 14, mark_word: 3, any_word: 2, head_word: 1,
    copied_inode: 2, copied_page: 4, copied_slot: 5, second_name: 3, twin_name: 4, two_pointers: 5, two_pages_of_an_offset: 5,
    hidden_directory: 3,
}
SHARE_NOT_CLOSED = 0.7


def draw_words(image, rng):
    """One to four words and what they become. Before them the mark is taken away from most volumes."""
    places, words, count = Places(image), {}, rng.randint(1, MOST_WORDS)
    while len(words) < count:
        kind, = rng.choices(list(KINDS), list(KINDS.values()))
        drawn = kind(places, rng)
        if drawn and len(words | drawn) <= MOST_WORDS:
            words |= drawn
            if rng.random() < 0.4:
                break
    return ({MARK: 0} if rng.random() < SHARE_NOT_CLOSED else {}) | words


def with_words(content, words):
    """An image in which these words are set."""
    changed = bytearray(content)
    for place, word in words.items():
        struct.pack_into("<Q", changed, 8 * place, word)
    return bytes(changed)


def generator(seed, pages, number):
    """The source of what is drawn for one image, so that each can be had by itself."""
    return random.Random(f"{seed} {pages} {number}")
