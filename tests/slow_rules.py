"""The rules, the five numbers of repairs and the listing of an image, slowly.

Written from docs/rules.md, docs/format.md and docs/commands.md, and from no code, so that it doesn't share the program's mistakes. What is
held, live and reached are three sets, found by looks at all slots until nothing new is reached. A rule is then a look at every place, and
at every other one where two have to differ. Nothing is sorted, indexed or kept between two rules.
"""
import struct

MAGIC = int.from_bytes(b"SQRLPM01", "little")
VERSION = 1
PAGE = 4096
PAGE_WORDS = 512
INODE_WORDS, DESCRIPTOR_WORDS, SLOT_WORDS = 16, 8, 16
INODES_A_PAGE, DESCRIPTORS_A_PAGE, SLOTS_A_PAGE = 32, 64, 32
LEAST_PAGES, MOST_PAGES = 16, 65536
MARK, CLOSED = 5, 1
ROOT = 1
FILE, DIRECTORY = 1, 2
KIND, LINKS, SIZE, OWN = range(4)
OWNER, PAGE_KIND, OFFSET = range(3)
NUMBER, POINTER, NAME = range(3)
LONGEST_NAME = 110
MOST_BYTES = 2**40
SOUND, REFUSED = 0, 4


def rounded_up(count, size):
    return -(-count // size)


class Image:
    """The words of an image. Where the tables are says its length."""

    def __init__(self, content):
        self.length = len(content)
        self.words = struct.unpack(f"<{self.length // 8}Q", content[:self.length // 8 * 8])
        self.pages = self.length // PAGE
        self.inodes = self.pages // 4
        inode_table = rounded_up(self.inodes, INODES_A_PAGE)
        descriptor_table = rounded_up(self.pages, DESCRIPTORS_A_PAGE)
        self.data_pages = self.pages - 1 - inode_table - descriptor_table
        self.first_descriptor = PAGE_WORDS * (1 + inode_table)
        self.first_data = self.first_descriptor + PAGE_WORDS * descriptor_table

    def inode_address(self, inode, field):
        return PAGE_WORDS + INODE_WORDS * (inode - 1) + field

    def page_address(self, page, field):
        return self.first_descriptor + DESCRIPTOR_WORDS * page + field

    def slot_address(self, slot, field):
        return self.first_data + SLOT_WORDS * slot + field

    def inode(self, inode, field):
        return self.words[self.inode_address(inode, field)]

    def page(self, page, field):
        return self.words[self.page_address(page, field)]

    def slot(self, slot, field):
        return self.words[self.slot_address(slot, field)]

    def name_words(self, slot):
        return [self.slot(slot, field) for field in range(NAME, SLOT_WORDS)]

    def owner_of_slot(self, slot):
        return self.page(slot // SLOTS_A_PAGE, OWNER)

    def all_inodes(self):
        return range(1, self.inodes + 1)

    def all_pages(self):
        return range(self.data_pages)

    def all_slots(self):
        return range(SLOTS_A_PAGE * self.data_pages)


# How it reads.

def is_held(image, slot):
    page = slot // SLOTS_A_PAGE
    return image.page(page, PAGE_KIND) == DIRECTORY and image.page(page, OWNER) != 0


def is_left(image, slot, held):
    """Whether a committed rename left this slot: a held one points at it, and has its inode number."""
    return any(image.slot(other, POINTER) == slot + 1 and image.slot(other, NUMBER) == image.slot(slot, NUMBER) for other in held)


def reached_inodes(image, live):
    """The least set that has the root, and what the live slots of its directories name."""
    reached = {ROOT}
    while True:
        named = {image.slot(slot, NUMBER) for slot in live
                 if image.owner_of_slot(slot) in reached and image.inode(image.owner_of_slot(slot), KIND) == DIRECTORY}
        more = {inode for inode in named if inode <= image.inodes}
        if more <= reached:
            return reached
        reached |= more


class Reading:
    """What is held, live and reached in an image whose length is a volume's."""

    def __init__(self, image):
        self.image = image
        self.held = [slot for slot in image.all_slots() if is_held(image, slot)]
        self.live = [slot for slot in self.held if image.slot(slot, NUMBER) != 0 and not is_left(image, slot, self.held)]
        self.reached = reached_inodes(image, self.live)
        self.slots = [slot for slot in self.live if self.is_directory(image.owner_of_slot(slot))]

    def is_file(self, inode):
        return inode in self.reached and self.image.inode(inode, KIND) == FILE

    def is_directory(self, inode):
        return inode in self.reached and self.image.inode(inode, KIND) == DIRECTORY

    def size_in_pages(self, inode):
        return rounded_up(self.image.inode(inode, SIZE), PAGE)

    def is_page_of(self, page, inode, offset):
        image = self.image
        return image.page(page, OWNER) == inode and image.page(page, PAGE_KIND) == FILE and image.page(page, OFFSET) == offset

    def links(self, inode):
        """The counted links: a file's names, of a directory two and its subdirectories."""
        image = self.image
        if self.is_file(inode):
            return sum(image.slot(slot, NUMBER) == inode for slot in self.slots)
        return 2 + sum(image.owner_of_slot(slot) == inode and self.is_directory(image.slot(slot, NUMBER)) for slot in self.slots)

    def has_live_slot(self, page):
        return any(slot // SLOTS_A_PAGE == page for slot in self.live)

    def is_kept_directory_page(self, page):
        return self.is_directory(self.image.page(page, OWNER)) and self.has_live_slot(page)

    def is_kept(self, page):
        owner = self.image.page(page, OWNER)
        is_below = self.is_file(owner) and self.image.page(page, OFFSET) < self.size_in_pages(owner)
        return is_below or self.is_kept_directory_page(page)


# The rules. Each gives the places that break it, and is asked only where those before it hold.

def broken_heads(image):
    """1. It speaks of the words alone."""
    if image.length % PAGE != 0 or not LEAST_PAGES <= image.pages <= MOST_PAGES:
        return [0]
    head = [MAGIC, VERSION, image.pages, image.inodes, image.data_pages]
    return [place for place, word in enumerate(head) if image.words[place] != word]


def broken_roots(reading):
    """2."""
    image = reading.image
    return [] if image.inode(ROOT, KIND) == DIRECTORY and image.inode(ROOT, OWN) == ROOT else [ROOT]


def broken_pointers(reading):
    """3."""
    image, places = reading.image, []
    for slot in reading.held:
        pointer = image.slot(slot, POINTER)
        if pointer != 0 and (pointer == slot + 1 or pointer - 1 not in image.all_slots() or not is_held(image, pointer - 1)):
            places.append(slot)
    return places


def second_pointers(reading):
    """4. All but the first of those that have one."""
    return [slot for slot in reading.held if reading.image.slot(slot, POINTER) != 0][1:]


def broken_numbers(reading):
    """5."""
    return [slot for slot in reading.slots if not 2 <= reading.image.slot(slot, NUMBER) <= reading.image.inodes]


def name_of(words):
    """The bytes of a name, or nothing where these words are no name's."""
    content = struct.pack("<14Q", *words)
    length = int.from_bytes(content[:2], "little")
    if not 1 <= length <= LONGEST_NAME:
        return None
    name, rest = content[2:2 + length], content[2 + length:]
    return None if any(rest) or 0 in name or b"/" in name or name in (b".", b"..") else name


def broken_names(reading):
    """6."""
    return [slot for slot in reading.slots if name_of(reading.image.name_words(slot)) is None]


def broken_inodes(reading):
    """7."""
    image = reading.image
    return [inode for inode in image.all_inodes() if inode in reading.reached
            and (image.inode(inode, KIND) not in (FILE, DIRECTORY) or image.inode(inode, OWN) != inode)]


def twins(reading):
    """8."""
    image = reading.image
    return [slot for slot in reading.slots
            if any(earlier < slot and image.owner_of_slot(earlier) == image.owner_of_slot(slot)
                   and image.name_words(earlier) == image.name_words(slot) for earlier in reading.slots)]


def second_names_of_directories(reading):
    """9."""
    image = reading.image
    return [slot for slot in reading.slots if reading.is_directory(image.slot(slot, NUMBER))
            and any(earlier < slot and image.slot(earlier, NUMBER) == image.slot(slot, NUMBER) for earlier in reading.slots)]


def broken_page_kinds(reading):
    """10."""
    image = reading.image
    return [page for page in image.all_pages() if image.page(page, OWNER) in reading.reached
            and image.page(page, PAGE_KIND) != image.inode(image.page(page, OWNER), KIND)]


def files_of(reading):
    return [inode for inode in reading.image.all_inodes() if reading.is_file(inode)]


def broken_sizes(reading):
    """11."""
    return [inode for inode in files_of(reading) if reading.image.inode(inode, SIZE) > MOST_BYTES]


def files_without_a_page(reading):
    """12."""
    return [inode for inode in files_of(reading)
            if not all(any(reading.is_page_of(page, inode, offset) for page in reading.image.all_pages())
                       for offset in range(reading.size_in_pages(inode)))]


def second_pages_of_offsets(reading):
    """13."""
    image, places = reading.image, []
    for page in image.all_pages():
        owner, offset = image.page(page, OWNER), image.page(page, OFFSET)
        if reading.is_file(owner) and offset < reading.size_in_pages(owner) \
                and any(reading.is_page_of(earlier, owner, offset) for earlier in range(page)):
            places.append(page)
    return places


def too_few_links(reading):
    """14."""
    return [inode for inode in reading.image.all_inodes()
            if inode in reading.reached and reading.image.inode(inode, LINKS) < reading.links(inode)]


def broken_marks(reading):
    """15."""
    return [MARK] if reading.image.words[MARK] == CLOSED and any(repairs(reading)) else []


RULES = [
    broken_roots, broken_pointers, second_pointers, broken_numbers, broken_names, broken_inodes, twins, second_names_of_directories,
    broken_page_kinds, broken_sizes, files_without_a_page, second_pages_of_offsets, too_few_links, broken_marks,
]
FIRST_READ = 2
ALL_RULES = range(1, FIRST_READ + len(RULES))


# The five numbers.

def repairs(reading):
    """Pointers, slots, pages, inodes and counts that a mount would repair."""
    image = reading.image
    return [
        sum(image.slot(slot, POINTER) != 0 for slot in reading.held),
        sum(slot not in reading.live and any(image.slot(slot, field) for field in range(SLOT_WORDS))
            for page in image.all_pages() if reading.is_kept_directory_page(page)
            for slot in range(SLOTS_A_PAGE * page, SLOTS_A_PAGE * (page + 1))),
        sum(not reading.is_kept(page) and any(image.page(page, field) for field in (OWNER, PAGE_KIND, OFFSET))
            for page in image.all_pages()),
        sum(inode not in reading.reached and any(image.inode(inode, field) for field in (KIND, LINKS, SIZE, OWN))
            for inode in image.all_inodes()),
        sum(image.inode(inode, LINKS) != reading.links(inode) for inode in reading.reached),
    ]


# What is told of it.

def first_violation(content):
    """The rule and the place of the first violation, or nothing; and how it reads, where its head is a volume's."""
    image = Image(content)
    heads = broken_heads(image)
    if heads:
        return (1, min(heads)), None
    reading = Reading(image)
    for number, rule in enumerate(RULES, FIRST_READ):
        places = rule(reading)
        if places:
            return (number, min(places)), reading
    return None, reading


def tree_text(reading):
    """The numbers of the tree: rule 9 gives each reached slot one path."""
    directories = sum(reading.is_directory(inode) for inode in reading.reached)
    return f"tree directories {directories} files {len(files_of(reading))} names {len(reading.slots)}\n"


def repairs_text(numbers):
    pointers, slots, pages, inodes, counts = numbers
    return f"repairs pointers {pointers} slots {slots} pages {pages} inodes {inodes} counts {counts}\n"


def told(content):
    """The rule that is broken first or 0, and the status and the text of a `check`."""
    violation, reading = first_violation(content)
    if violation is None:
        return 0, SOUND, "sound\n" + tree_text(reading) + repairs_text(repairs(reading))
    rule, place = violation
    return rule, REFUSED, "not a volume\n" if rule == 1 else f"damaged {rule} {place}\n"


# The listing of a sound image.

PLAIN = frozenset(b"ABCDEFGHIJKLMNOPQRSTUVWXYZabcdefghijklmnopqrstuvwxyz0123456789-._~")


def shown(name):
    return "".join(chr(byte) if byte in PLAIN else f"%{byte:02X}" for byte in name)


def content_of(reading, inode):
    """A file's bytes, each page found by owner and offset."""
    image, content = reading.image, b""
    for offset in range(reading.size_in_pages(inode)):
        page = next(page for page in image.all_pages() if reading.is_page_of(page, inode, offset))
        first = image.first_data + PAGE_WORDS * page
        content += struct.pack(f"<{PAGE_WORDS}Q", *image.words[first:first + PAGE_WORDS])
    return content[:image.inode(inode, SIZE)]


def lines_below(reading, inode, path):
    """The lines of a directory and of all below it. Its links are those that a mount leaves, which are the counted ones."""
    image = reading.image
    names = {name_of(image.name_words(slot)): image.slot(slot, NUMBER) for slot in reading.slots if image.owner_of_slot(slot) == inode}
    yield f"d {inode} {reading.links(inode)} {len(names)} {path or '/'}\n"
    for name in sorted(names):
        child, below = names[name], f"{path}/{shown(name)}"
        if reading.is_directory(child):
            yield from lines_below(reading, child, below)
        else:
            content = content_of(reading, child)
            yield f"f {child} {reading.links(child)} {len(content)} {below} {content.hex() or '-'}\n"


def listing(content):
    """What `tree` writes of a sound image."""
    return "".join(lines_below(Reading(Image(content)), ROOT, ""))
