"""The adapter's loops that write bytes as digits and read them, compiled as the adapter is, beside what python makes of them."""
import ctypes
import re

from mounts import ROOT, do, expect, expect_equal

LENGTHS = range(71)
GUARD = b"#"
DIGITS = b"0123456789abcdefABCDEF"


def compiled(trial):
    """The loops as a library."""
    flags = re.search(r"^flags=\((.*)\)$", (ROOT / "bin" / "squirrel-mount").read_text(), re.MULTILINE).group(1).split()
    library = trial.work / "digits.so"
    do("cc", *flags, "-shared", "-fPIC", "-o", library, ROOT / "mount" / "digits.c")
    loops = ctypes.CDLL(str(library))
    loops.digits_read.restype = ctypes.c_bool
    return loops


def written(loops, content):
    """The digits of bytes. Nothing is written behind them."""
    room = ctypes.create_string_buffer(GUARD * (2 * len(content) + 8), 2 * len(content) + 8)
    loops.digits_write(room, content, ctypes.c_size_t(len(content)))
    expect_equal(f"what stands behind {len(content)} bytes", room.raw[2 * len(content):], 8 * GUARD)
    return room.raw[:2 * len(content)]


def read(loops, digits):
    """The bytes of digits, or nothing where one is none. Nothing is written behind them."""
    count = len(digits) // 2
    room = ctypes.create_string_buffer(GUARD * (count + 8), count + 8)
    is_read = loops.digits_read(room, digits, ctypes.c_size_t(count))
    expect_equal(f"what stands behind {count} bytes", room.raw[count:], 8 * GUARD)
    return room.raw[:count] if is_read else None


def all_pairs(loops):
    pairs = [bytes((first, second)) for first in range(256) for second in range(256)]
    content = b"".join(pairs)
    expect(written(loops, content) == content.hex().encode(), "of all pairs of bytes some have other digits")
    for pair in pairs:
        wanted = bytes.fromhex(pair.decode()) if pair[0] in DIGITS and pair[1] in DIGITS else None
        expect_equal(f"what {pair} is read as", read(loops, pair), wanted)


def all_lengths(loops, rng):
    for length in LENGTHS:
        content = rng.randbytes(length)
        digits = content.hex().encode()
        expect_equal(f"the digits of {length} bytes", written(loops, content), digits)
        for case in (digits, digits.upper()):
            expect_equal(f"the bytes of {length}", read(loops, case), content)
        for place in range(2 * length):
            wrong = digits[:place] + rng.choice([b"\0", b"g", b"G", b"/", b":", b"@", b"`", b"\xe1"]) + digits[place + 1:]
            expect_equal(f"digits of {length} bytes that have none at {place}", read(loops, wrong), None)


def digits(trial):
    loops = compiled(trial)
    all_pairs(loops)
    all_lengths(loops, trial.rng)
