"""Cases for tests/pictures.py: rasters to be written and texts to be read as plain PBM, each with the place that is lent.

A case says what was done to make it; and where that follows from how it was made, the number of its answer, and the mask that is read: the second
program is held to these, too. The texts are those of tests/pbm_texts.py, and the examples that the second program is tried on by itself. Nothing here
asks that program.
"""
import collections
import itertools
import random
import struct

import second_pbm
from pbm_texts import DEPTHS, LONGEST, Text, any_text, good, texts_by_turns

MOST32 = 2 ** 32 - 1
# the numbers by which the program knows its calls
CALLS = {"write": 0, "read": 1, "depict": 2}

# k is the depth of a raster; given is a raster or a text; number and mask are None where they are not known
Case = collections.namedtuple("Case", "call kind k given place number mask", defaults=(None, None))


# ---- places

KINDS = ("no entry", "several entries missing", "one entry missing", "just enough", "one entry more", "longer")
CONTENTS = ("all 0", "all 255", "random", "like a mask", "like a picture")

# a byte that every entry holds, and from some entry on a run of others
Place = collections.namedtuple("Place", "kind content entries byte start run")


def kind_of(entries, need):
    """What a place with so many entries is where so many are needed."""
    return ("no entry" if entries == 0 else "several entries missing" if entries < need - 1 else "one entry missing" if entries < need
            else "just enough" if entries == need else "one entry more" if entries == need + 1 else "longer")


def entries_of(rng, kind, need):
    """So many entries, where this is possible: a place of which one entry is needed has just one kind of too few."""
    return {"no entry": 0, "several entries missing": rng.randint(min(1, max(0, need - 2)), max(0, need - 2)), "one entry missing": max(0, need - 1),
            "just enough": need, "one entry more": need + 1, "longer": need + rng.choice((2, rng.randint(2, 40), rng.randint(2, 500)))}[kind]


def contents(rng, content, entries):
    """The byte that fills a place, and a run of other bytes."""
    return {
        "all 0": lambda: (0, b""),
        "all 255": lambda: (255, b""),
        "random": lambda: (rng.randrange(256), rng.randbytes(entries)),
        "like a mask": lambda: (rng.randrange(2), bytes(byte & 1 for byte in rng.randbytes(min(entries, 500)))),
        "like a picture": lambda: (48, (b"P1\n8 8\n%064d\n" % rng.getrandbits(60) + b"01\n" * (entries // 3))[:entries]),
    }[content]()


def lent(rng, need, kind=None, content=None):
    """A place by the entries that are needed. Where no kind is asked for, most places have the room."""
    kind, content = kind or rng.choice(KINDS + KINDS[3:] * 3), content or rng.choice(CONTENTS)
    entries = min(LONGEST, entries_of(rng, kind, need))
    byte, run = contents(rng, content, entries)
    if rng.random() < 0.2:
        run = run[:rng.randint(0, len(run))]
    return Place(kind_of(entries, need), content, entries, byte, rng.randint(0, entries - len(run)), run)


def held(place):
    """All entries before the call."""
    return bytes([place.byte]) * place.start + place.run + bytes([place.byte]) * (place.entries - place.start - len(place.run))


def handed(case):
    """An item of the program."""
    place = case.place
    numbers = CALLS[case.call], case.k, len(case.given), place.entries, place.byte, place.start, place.start + len(place.run)
    return struct.pack("<7I", *numbers) + case.given + place.run


# an item that asks for the place that the crate makes for `depict`
MADE = struct.pack("<7I", 3, *[0] * 6)


# ---- writing

# rasters by their length
RASTERS = ("empty", "several bytes missing", "one byte missing", "just enough", "longer")
# bytes of which some rasters are made
PALETTES = (b"\0\1", b"\1\2\3", b"\1", b"\0\2\3", b"\1\0\2\3\4\5\x101\x80\x81\xff", bytes(range(256)))
BEYOND = (8, 9, 10, 15, 16, 17, 31, 32, 33, 63, 64, 65, 127, 128, 255, 256, 257, 263, 65_535, 65_536, 65_543, 2 ** 31, 2 ** 31 + 1, MOST32)


def length_of(k):
    """How long a picture is: two lines, and in each row the digits, with an LF for each 70 of them or less."""
    side = 2 ** k
    return len(f"P1\n{side} {side}\n") + side * (side + (side + 69) // 70)


def raster(rng, size):
    """So many bytes of a palette, or any bytes, of which about half the kinds are exchanged for 1."""
    ones = rng.getrandbits(256)
    kinds = bytes(1 if ones >> byte & 1 else byte for byte in range(256)) if rng.random() < 0.5 else (rng.choice(PALETTES) * 256)[:256]
    return rng.randbytes(size).translate(kinds)


def size_by(rng, kind, need):
    return {"empty": 0, "several bytes missing": rng.randint(0, max(0, need - 2)), "one byte missing": need - 1, "just enough": need,
            "longer": need + rng.choice((1, 2, rng.randint(3, 300)))}[kind]


def writing(k, kind, given, place):
    """A case of writing, whose number is known."""
    return Case("write", kind, k, given, place, 3 if k > 7 else 7 if len(given) < 4 ** k or place.entries < length_of(k) else 0)


def every_write(rng):
    """Each depth with each kind of raster, of place, and each content; every byte; a single 1 in each cell; and depths that are refused."""
    for k in range(8):
        for kind, place in itertools.product(RASTERS, KINDS):
            yield writing(k, f"a raster, {kind}", raster(rng, size_by(rng, kind, 4 ** k)), lent(rng, length_of(k), place))
        for content in CONTENTS:
            yield writing(k, "a raster, just enough", raster(rng, 4 ** k), lent(rng, length_of(k), "longer", content))
        for turns in (b"\0\1\2\3\xff", b"\xff\3\2\1\0"):
            yield writing(k, "bytes in turn", (turns * 4 ** k)[:4 ** k], lent(rng, length_of(k), "longer"))
    for byte in range(256):
        yield writing(0, "one byte", bytes([byte]), lent(rng, length_of(0), "one entry more"))
    for k, cells in ((1, range(4)), (2, range(16)), (3, range(64)), (7, (0, 1, 69, 70, 71, 127, 128, 16_256, 16_325, 16_326, 16_383))):
        for cell in cells:
            yield writing(k, "a single 1", bytes(cell) + b"\1" + bytes(4 ** k - cell - 1), lent(rng, length_of(k), "just enough"))
    for k in BEYOND:
        for size, entries in itertools.product((0, 1, 4 ** 7), (0, length_of(0), length_of(7))):
            yield writing(k, "a depth beyond 7", raster(rng, size), lent(rng, entries, "just enough"))
    yield writing(8, "a depth beyond 7", raster(rng, LONGEST), lent(rng, LONGEST, "just enough"))


def any_write(rng):
    k = rng.choice(DEPTHS) if rng.random() < 0.95 else rng.choice((rng.choice(BEYOND), rng.randint(8, MOST32)))
    kind = rng.choice(RASTERS + RASTERS[3:] * 4)
    return writing(k, f"a raster, {kind}", raster(rng, size_by(rng, kind, 4 ** min(k, 7))), lent(rng, length_of(min(k, 7))))


# ---- reading

def reading(rng, made, kind=None, content=None):
    """A case of reading. Where the number is known for a place with the room, the place says whether 7 refuses the text."""
    place = lent(rng, len(made.mask) if made.mask else made.need or rng.choice((1, 4, 16)), kind or made.place, content)
    if made.number == 0 and place.entries < len(made.mask):
        return Case("read", made.kind, 0, made.text, place, 7)
    return Case("read", made.kind, 0, made.text, place, made.number, made.mask)


def every_place(rng):
    """Each depth with each kind of place, and each content."""
    for k in range(8):
        yield from (reading(rng, good(rng, k), kind) for kind in KINDS)
        yield from (reading(rng, good(rng, k), "longer", content) for content in CONTENTS)


def examples():
    """The examples of tests/second_pbm.py that the program can take, each with a place that has the room, and one that has none."""
    for place in ("longer", "no entry"):
        yield from (Text("an example", text, 0, mask, place=place) for text, _, mask in second_pbm.READ)
        yield from (Text("an example", text, 12, need=16, place=place) for text in second_pbm.NOT_READ)
        yield from (Text("an example", text, 13, need=16_641, place=place) for text in second_pbm.OTHER_SIZES if len(text) <= LONGEST)


def all_cases(seed, count):
    """The cases by turns, and so many random ones, of which one in four is written."""
    rng = random.Random(seed)
    cases = [*every_write(rng), *every_place(rng), *(reading(rng, text) for text in (*examples(), *texts_by_turns(rng)))]
    return cases + [any_write(rng) if turn % 4 == 0 else reading(rng, any_text(rng)) for turn in range(count)]
