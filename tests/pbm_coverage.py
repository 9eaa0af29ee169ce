"""What the cases of tests/pictures.py must show, and how often they do: a run in which one of these things never came up fails.

A thing is a row of words and numbers, the name of a call first. `met` has those that a case shows, with what the second program answers; `wanted` has
those that every run must show. For every byte at every place of a text see the slips of tests/pbm_rules.py.
"""
import collections

import second_pbm
from pbm_cases import BEYOND, CALLS, CONTENTS, KINDS, RASTERS
from pbm_texts import CUT, DAMAGES

REFUSALS = {"write": (3, 7), "read": (12, 13, 7)}
SHORT, ROOMY = KINDS[:3], KINDS[3:]
# bytes of a raster that every depth must show; depth 0 shows all
BYTES = {0, 1, 2, 3, 255}
# the refusals of a sheet text
SHEET_REFUSALS = (1, 3, 4, 5, 6, 11, *range(14, 21))
# what a text may be made to be, with the numbers that it must have come to
MADE = {
    **{kind: (12,) for kind in (*DAMAGES, *(f"cut short in the {part}" for part in CUT), "another size, too few digits", "many zeros for a size",
                                "a size of many digits", "sizes that are small where digits are lost", "the longest text, of one byte",
                                "the longest text, of nines", "256 by 256, one digit short", "bytes at random")},
    "a picture": (0, 7), "another size": (13,), "many zeros before a size": (0,), "the longest text": (0,), "the longest text, less a byte": (0, 12),
    "every byte": (0, 12, 13, 7), "every short text": (0, 12, 7), "mixed": (0, 12), "bytes edited": (0, 12), "an example": (0, 12, 13, 7),
}
# sizes of which each must come up with all its digits, and be refused by 13
SIZES = [(1, 2), (2, 1), (2, 4), (4, 2), (1, 4), (2, 8), (1, 128), (128, 1), (64, 128), (128, 64), (3, 3), (5, 5), (6, 6), (7, 7), (9, 9), (127, 127),
         (129, 129), (255, 255), (256, 256)]


def met(case, right):
    """The things that a case shows, of those that every run must show."""
    number, answer, _ = right
    call, place = case.call, case.place
    yield (call, "refused by", number) if number else (call, "accepted")
    yield call, case.kind, number
    yield call, number, "a place", place.kind
    yield call, number, "a place that holds", place.content
    yield from {"write": met_of_write, "read": met_of_read, "depict": met_of_depict}[call](case, number, answer)


def met_of_write(case, number, answer):
    k, need = case.k, 4 ** min(case.k, 7)
    if number == 3:
        yield "write", "depth", k, 3
        yield "write", 3, "with a raster for depth 7" if len(case.given) >= need else "with a raster too short for depth 7", case.place.entries
    elif number == 7:
        scant, short = len(case.given) < need, case.place.entries < second_pbm.LENGTHS[k]
        yield "write", "depth", k, 7, "raster too short" if scant else "", "place too short" if short else ""
        if not scant:
            yield "write", "depth", k, 7, "a place", case.place.kind
    else:
        yield "write", "depth", k, "a place", case.place.kind
        yield "write", "depth", k, "a place that holds", case.place.content
        yield from (("write", "depth", k, "a byte", byte) for byte in BYTES & set(case.given[:need]))


def met_of_read(case, number, answer):
    if number == 0:
        yield "read", "depth", answer, "a place", case.place.kind
        yield "read", "depth", answer, "a place that holds", case.place.content
        return
    head = second_pbm.HEAD.match(case.given)
    sizes = tuple(map(second_pbm.size_of, head.groups())) if head else (0, 0)
    if number == 13:
        yield "read", "sizes", *sizes
        yield "read", 13, "though the place is too short" if case.place.entries < sizes[0] * sizes[1] else ""
    elif number == 7:
        yield "read", "depth", second_pbm.SIDES.index(sizes[0]), 7, "a place", case.place.kind
    elif 0 not in sizes:
        good = sizes[0] == sizes[1] and sizes[0] in second_pbm.SIDES
        yield "read", 12, "though the sizes are good" if good else "though the sizes are for 13"
        if case.place.entries < sizes[0] * sizes[1]:
            yield "read", 12, "though the place is too short"


def met_of_depict(case, number, answer):
    told = second_pbm.picture_text(case.given)
    what = f"refused by {int(told.split()[1])}" if told.startswith(b"refused") else f"depth {second_pbm.LENGTHS.index(len(told))}"
    yield "depict", what, "a place", case.place.kind
    yield "depict", what, "told" if answer == len(told) else "not told"
    yield "depict", "a place", case.place.kind, "that holds", case.place.content


def wanted_of_writes():
    for k in range(8):
        yield from (("write", "depth", k, "a place", kind) for kind in ROOMY)
        yield from (("write", "depth", k, 7, "a place", kind) for kind in SHORT if kind != "several entries missing" or k > 0)
        yield from (("write", "depth", k, "a place that holds", content) for content in CONTENTS)
        yield from (("write", "depth", k, 7, scant, short) for scant in ("", "raster too short") for short in ("", "place too short") if scant or short)
        yield from (("write", "depth", k, "a byte", byte) for byte in BYTES)
    yield from (("write", "depth", k, 3) for k in BEYOND)
    yield from (("write", 3, f"with a raster {kind} depth 7", entries) for kind in ("for", "too short for") for entries in (0, 9, 16_651))
    yield from (("write", f"a raster, {kind}", number) for kind in RASTERS for number in (7, *([0] if kind in RASTERS[3:] else ())))
    yield from (("write", kind, 0) for kind in ("one byte", "a single 1"))


def wanted_of_reads():
    yield from (("read", kind, number) for kind, numbers in MADE.items() for number in numbers)
    yield from (("read", "sizes", *sizes) for sizes in SIZES)
    yield from (("read", number, "a place", kind) for number in (12, 13) for kind in KINDS)
    yield from (("read", 12, f"though the {why}") for why in ("sizes are good", "sizes are for 13", "place is too short"))
    yield "read", 13, "though the place is too short"
    for k in range(8):
        yield from (("read", "depth", k, "a place", kind) for kind in ROOMY)
        yield from (("read", "depth", k, 7, "a place", kind) for kind in SHORT if k > 0 or kind == "no entry")
        yield from (("read", "depth", k, "a place that holds", content) for content in CONTENTS)


def wanted_of_depictions():
    for what in (*(f"depth {k}" for k in range(8)), *(f"refused by {number}" for number in SHEET_REFUSALS)):
        yield from (("depict", what, "a place", kind) for kind in KINDS)
        yield from (("depict", what, told) for told in ("told", "not told"))
    yield from (("depict", "a place", kind, "that holds", content) for kind in KINDS[1:] for content in CONTENTS)


def wanted():
    yield from (*wanted_of_writes(), *wanted_of_reads(), *wanted_of_depictions())
    yield from ((call, "accepted") for call in CALLS)
    for call, refusals in REFUSALS.items():
        yield from ((call, "refused by", number) for number in refusals)
        yield from ((call, number, "a place that holds", content) for number in refusals for content in CONTENTS)


def tally(cases, rights):
    """Prints how often each number came up, and answers what never did."""
    found = collections.Counter(thing for case, right in zip(cases, rights) for thing in met(case, right))
    for call in CALLS:
        refusals = "".join(f", refused by {number}: {found[call, 'refused by', number]}" for number in REFUSALS.get(call, ()))
        print(f"{call}: {found[call, 'accepted']} accepted{refusals}")
    return [" ".join(filter(None, map(str, thing))) for thing in wanted() if not found[thing]]
