"""The places that are lent to the call `answer`: how long they are, what they hold before it, and what is shown of them after it.

A place is a byte that every entry holds, and from some entry on a run of other bytes, each of which is given; crates/compare_texts/src says how it is
handed over. Shown are its first and its last entries, so many as are asked for. A place has every length about the room that `answer` asks for, none
and nearly none.
"""
import collections
import struct

from second_text import ROOM

# the longest place that the program holds
LONGEST = ROOM + 36
# the lengths of places: those without the room are left as they were
LENGTHS = {
    "no entry": (0, 0),
    "one entry": (1, 1),
    "many entries missing": (2, ROOM - 2),
    "one entry missing": (ROOM - 1, ROOM - 1),
    "just the room": (ROOM, ROOM),
    "one entry more": (ROOM + 1, ROOM + 1),
    "more entries": (ROOM + 2, LONGEST - 1),
    "the longest": (LONGEST, LONGEST),
}
ROOMY = [kind for kind, (least, _) in LENGTHS.items() if least >= ROOM]
SHORT = [kind for kind in LENGTHS if kind not in ROOMY]
CONTENTS = ("all 0", "all 255", "random", "like a listing")
# an item that has no text, and asks for the place that `reply::place` makes
MADE = struct.pack("<7I", 2 ** 32 - 1, *[0] * 6)

Place = collections.namedtuple("Place", "kind content entries byte start run first last")


# ---- what it holds

def like_a_listing(rng, length):
    """Lines of records at random and a total, again and again."""
    lines = [b"%d\t%d\t%d\t%c" % (rng.randrange(8), rng.randrange(128), rng.randrange(128), rng.choice(b"0+-")) for _ in range(min(length, 40))]
    listing = b"\n".join([*lines, b"total\t%d\t%d\n" % (rng.randrange(21845), rng.randrange(16384))])
    return (listing * (length // len(listing) + 1))[:length]


def contents(rng, content, length):
    """The byte that fills a place, and a run of so many bytes where the content has one."""
    return {
        "all 0": lambda: (0, b""),
        "all 255": lambda: (255, b""),
        "random": lambda: (rng.randrange(256), rng.randbytes(length)),
        "like a listing": lambda: (rng.choice(b"\n\t0"), like_a_listing(rng, length)),
    }[content]()


def held(place):
    """All entries before the call."""
    before = bytearray([place.byte]) * place.entries
    before[place.start:place.start + len(place.run)] = place.run
    return before


# ---- places to lend

def whole(rng, kind, content):
    """A place of which all entries are chosen, and all are shown."""
    entries = rng.randint(*LENGTHS[kind])
    byte, run = contents(rng, content, entries)
    return Place(kind, content, entries, byte, 0, run, entries, 0)


def partly(rng, kind, content, written):
    """A place of which the bytes written are shown, with up to 600 entries after them, and the last entries. The run is at either end."""
    entries = rng.randint(*LENGTHS[kind])
    first, last = min(entries, written + rng.randint(1, 600)), min(entries, rng.randint(1, 600))
    at_the_end = rng.random() < 0.25
    byte, run = contents(rng, content, last if at_the_end else first)
    return Place(kind, content, entries, byte, entries - last if at_the_end else 0, run, first, last)


def roomy(rng, written):
    """Any place with the room, for a text of which so many bytes are written."""
    return partly(rng, rng.choice(ROOMY), rng.choice(CONTENTS), written)


def any_place(rng, written):
    """The same, but one place in twenty has not the room."""
    return partly(rng, rng.choice(ROOMY if rng.random() < 0.95 else SHORT), rng.choice(CONTENTS), written)


def plain(written):
    """A place of zeros that has just the room, of which the bytes written are shown."""
    return Place("just the room", "all 0", ROOM, 0, 0, b"", written, 0)


# ---- handed over and shown

def handed(text, place):
    """An item of the program."""
    numbers = len(text), place.entries, place.byte, place.start, place.start + len(place.run), place.first, place.last
    return struct.pack("<7I", *numbers) + text + place.run


def shown(place, entries):
    """What is shown of the entries."""
    return bytes(entries[:place.first] + entries[place.entries - place.last:])
