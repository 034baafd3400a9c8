"""What a run of the program did to its image, from strace: its writes, syncs and replies; and what a power cut may leave."""
import dataclasses
import itertools
import math
import os
import re
import subprocess

WORD = 8
CALLS = "openat,close,lseek,read,write,pwrite64,fdatasync,fsync"
ALL_MIXES = 4096
SOME_MIXES = 200
CALL = re.compile(r"(?:\d+ +)?(\w+)\((.*)\) += (\d+)$")


class NotTraced(Exception):
    """Why a run can't be told from its trace."""


@dataclasses.dataclass(frozen=True)
class Write:
    """Bytes reach a place of the image."""
    place: int
    content: bytes


@dataclasses.dataclass(frozen=True)
class Sync:
    """All that was written is safe behind it."""


@dataclasses.dataclass(frozen=True)
class Reply:
    """So many replies are told."""
    count: int


@dataclasses.dataclass(frozen=True)
class Cut:
    """The power goes in a run's sync, counted from 1, or behind its last one."""
    sync: int
    is_behind: bool
    held: bytes
    """The image as it reads."""
    loose: dict
    """Of each word that no sync has taken its values: the safe one, then each that was written, to what it reads as."""
    replies: int
    """How many replies were told before."""
    has_written: bool
    """Whether the run wrote into the image before."""


def can_trace(folder):
    """Whether strace is there, and may trace."""
    try:
        return subprocess.run(["strace", "-f", "-o", os.path.join(folder, "trace"), "true"], capture_output=True).returncode == 0
    except FileNotFoundError:
        return False


def text_bytes(text):
    """The bytes of a string as `strace -xx` writes it."""
    return bytes.fromhex(text.strip('"').replace("\\x", ""))


def call_events(name, words, answer, places, image):
    """The events of one call of the system. `places` has the position of each descriptor of the image."""
    if name == "openat":
        if text_bytes(words[1]) == image.encode():
            places[str(answer)] = 0
        return
    descriptor = words[0]
    if name == "write" and descriptor == "1":
        yield Reply(text_bytes(words[1])[:answer].count(b"\n"))
    elif descriptor not in places:
        return
    elif name == "close":
        del places[descriptor]
    elif name == "lseek":
        places[descriptor] = answer
    elif name == "read":
        places[descriptor] += answer
    elif name == "write":
        yield Write(places[descriptor], text_bytes(words[1])[:answer])
        places[descriptor] += answer
    elif name == "pwrite64":
        yield Write(int(words[3]), text_bytes(words[1])[:answer])
    else:
        yield Sync()


def traced(program, image, lines, job=("run",)):
    """What a job writes, a line each, of a run the replies to its script; and its events in their order."""
    trace = image + ".trace"
    with open(image, "rb") as file:
        held = bytearray(file.read())
    script = "".join(line + "\n" for line in lines)
    done = subprocess.run(["strace", "-f", "-qq", "-xx", "-s", "1000000", "-e", "signal=none", "-e", f"trace={CALLS}",
                           "-o", trace, program, job[0], image, *job[1:]], input=script, capture_output=True, text=True)
    if done.returncode != 0:
        raise NotTraced(f"a run that is traced ends with status {done.returncode}: {done.stdout!r} {done.stderr!r}")
    events, places = [], {}
    with open(trace, encoding="ascii") as calls:
        for call in filter(None, map(CALL.match, calls)):
            events += call_events(call[1], call[2].split(", "), int(call[3]), places, image)
    for event in events:
        if isinstance(event, Write):
            held[event.place:event.place + len(event.content)] = event.content
    with open(image, "rb") as file:
        if file.read() != held:
            raise NotTraced("the writes that strace told don't make the file")
    return done.stdout.splitlines(), events


def writes_of_fences(events):
    """How many writes each sync of a run makes safe."""
    counts, writes = [], 0
    for event in events:
        writes += isinstance(event, Write)
        if isinstance(event, Sync):
            counts.append(writes)
            writes = 0
    return counts


def put(held, loose, event):
    """Bytes are written into the image, and the words that they change are loose."""
    end = event.place + len(event.content)
    words = range(event.place // WORD, -(-end // WORD))
    before = {word: bytes(held[WORD * word:WORD * word + WORD]) for word in words}
    held[event.place:end] = event.content
    for word, old in before.items():
        new = bytes(held[WORD * word:WORD * word + WORD])
        if new != old:
            loose[word] = (*loose.get(word, (old,)), new)


def cuts_in(held, loose, events):
    """Each moment of a run at which the power may go, where it began on an image of which these words are loose."""
    held, loose = bytearray(held), dict(loose)
    cuts, replies, has_written = [], 0, False
    for event in [*events, None]:
        if isinstance(event, Reply):
            replies += event.count
        elif isinstance(event, Write):
            put(held, loose, event)
            has_written = True
        else:
            cuts.append(Cut(len(cuts) + 1, event is None, bytes(held), dict(loose), replies, has_written))
            loose.clear()
    return cuts


def mixes(loose, rng):
    """Contents of the loose words: each way to mix them, or the oldest, the newest and some random ones."""
    values = [tuple(dict.fromkeys(values)) for values in loose.values()]
    if math.prod(map(len, values)) <= ALL_MIXES:
        yield from itertools.product(*values)
        return
    yield tuple(old for old, *_ in loose.values())
    yield tuple(new for *_, new in loose.values())
    for _ in range(SOME_MIXES):
        share = rng.random()
        yield tuple(choice[-1] if rng.random() < share else rng.choice(choice) for choice in loose.values())


def mixed(cut, contents):
    """The file that a power cut leaves."""
    image = bytearray(cut.held)
    for word, content in zip(cut.loose, contents, strict=True):
        image[WORD * word:WORD * word + WORD] = content
    return bytes(image)


def mix_text(cut, contents):
    """Which of the loose words are new."""
    words = [f"{word} {'new' if content == cut.loose[word][-1] else 'old'}" for word, content in zip(cut.loose, contents)]
    return ", ".join(words if len(words) <= 24 else [*words[:24], f".. of {len(words)}"]) or "no loose word"
