"""The proved reading of texts, and the listing program, agree with the second program.

    python3 tests/texts.py [--seed S] [--cases N]     N random texts, beside those of known make
    python3 tests/texts.py --only NUMBER              one text of that run again, by its number

The program `compare_texts` is run once, on all texts of tests/text_cases.py and tests/fault_cases.py, each with a place for the call
`answer`, of tests/text_places.py: first each text with a place that has the room, of which what is written is shown, up to 600 entries after it, and the
last ones; then texts of every answer, and the one with the longest listing, with places of every length and content, of which all is shown. It answers
for each 54 words of 8 bytes, all little-endian: the number, the line, the field, d, X, Y, s, k, the mode and the 45 coefficients; then in one more word
what `answer` answers, and the entries that are shown. Every answer is compared with that of tests/second_text.py; and where the number, the line and
the field are known from how a text was made, the second program is held to them.

A run fails, too, in which one of these never came up: some refusal, some bad, missing or unended line, some number at some field of some kind of
line, some one, two or three faults in one line, and just these (tests/fault_cases.py), some length at the limit, some degree and depth, some mark at
some level, some kind of sheet by its weight, some content of some kind of place. What faults a line has is found by looking at it: a fault that was
put in and is not seen makes a run fail, as do two that are seen in one line and are said not to stand together. So do texts that do not tell some
wrong rule from the right one: for the weight by their numbers (tests/weights.py), for the faults of lines by number, line and field
(tests/fault_rules.py).

Then the program `listing` itself is run: on the page's whole case, on input that comes in pieces, that is empty, far too long, or cannot be read, at all
or after some of it, with an output that cannot be written (tests/streams.py), on a text of each kind, and on those of sheets/, whose stored listings it
must write. That these are as sheets/README.md says is for tests/sheets.py. A run that cannot be tried, since the machine lacks a device, is a fault,
unless --without-devices is said (tests/devices.py).
"""
import argparse
import collections
import pathlib
import random
import struct
import sys

sys.dont_write_bytecode = True  # nothing is left in the tree
import devices
import fault_cases
import fault_rules
import second
import second_text
import sheets
import streams
import text_places
import weights
from case_sheets import EDGE, LEAST31, MOST31
from program import absent, ended, made, number, written_by
from streams import fault_of
from text_cases import CEILING
from second_text import LONGEST, PLACES, ROOM, WHOLE, WHOLE_LISTING

REFUSALS = (1, 3, 4, 5, 6, 11, *range(14, 21))
WORDS = 9 + PLACES + 1
SHOWN = 5
# the lines of the longest listing: that of a sheet of depth 7 each cell of which is coloured
LINES = 4 ** 7 + 1

# a text; what the second program reads in it, and what the listing program writes for it; and the place that is lent
Item = collections.namedtuple("Item", "case told place")


# ---- the program that answers many texts

def given(items):
    """What the program is given: for each item a text and a place."""
    return b"".join(text_places.handed(text, place) for text, place in items)


def answers_in(output, places):
    """The answers that were written: each as the second program gives it, with what `answer` answers and what is shown of the place."""
    at = 0
    for turn, place in enumerate(places):
        end = at + 8 * WORDS + place.first + place.last
        if end > len(output):
            sys.exit(f"texts: {len(output)} bytes came, and they end within the answer to text {turn} of {len(places)}")
        refusal, line, field, d, X, Y, s, k, mode, *coefficients, length = struct.unpack_from(f"<{WORDS}Q", output, at)
        sheet = d, number(X, 64), number(Y, 64), s, k, mode, tuple(number(A, 64) for A in coefficients)
        yield (refusal, line, field, *sheet), length, output[at + 8 * WORDS:end]
        at = end
    if at != len(output):
        sys.exit(f"texts: the answers to {len(places)} texts have {at} bytes, and {len(output)} bytes came")


def run(program, items):
    """The program's answers."""
    output = written_by(program, given((item.case.text, item.place) for item in items))
    return list(answers_in(output, [item.place for item in items]))


def second_told(text):
    return second_text.read(text), second_text.listing_text(text)


def second_answer(item):
    """What the second program answers, in the same form."""
    answer, written = item.told
    length, entries = second_text.left(written, text_places.held(item.place))
    return answer, length, text_places.shown(item.place, entries)


def lent(rng, cases, told):
    """Each text with a place that has the room. Then, for each answer and for the longest listing, texts with every kind of place, all of it shown."""
    for case, both in zip(cases, told):
        yield Item(case, both, text_places.roomy(rng, len(both[1])))
    every = range(len(cases))
    groups = [[at for at in every if told[at][0][0] == refusal] for refusal in (0, *REFUSALS)]
    for group in [*groups, [max(every, key=lambda at: len(told[at][1]))]]:
        for kind in text_places.LENGTHS:
            for content in text_places.CONTENTS:
                at = rng.choice(group)
                yield Item(cases[at], told[at], text_places.whole(rng, kind, content))


# ---- the comparison

def shown(text):
    return repr(text) if len(text) <= 300 else f"{text[:200]!r} and so on, {len(text)} bytes"


def brief(mine, other):
    """An answer in few words: of the entries shown, those about the first in which two differ."""
    (*numbers, coefficients), length, entries = mine
    named = ", ".join(f"coefficient {at} is {A}" for at, A in enumerate(coefficients) if A != other[0][-1][at])
    at = next((at for at, (one, two) in enumerate(zip(entries, other[-1])) if one != two), None)
    about = "the same entries" if at is None else f"entry {at} of those shown is {entries[at]}, in {entries[max(0, at - 20):at + 20]!r}"
    return f"{(*numbers,)}, {named or 'the same coefficients'}, {length} bytes told, {about}"


def disagreements(items, answers):
    """What is to be said of each text, by its number, that the two programs answer otherwise."""
    for at, (item, got) in enumerate(zip(items, answers)):
        wanted = second_answer(item)
        if got != wanted:
            yield (f"disagreement on text {at}, {item.case.kind}, with a place of {item.place.entries} entries, {item.place.content}: "
                   f"{shown(item.case.text)}\n    the proved program: {brief(got, wanted)}\n    the second program: {brief(wanted, got)}")


def misjudged(cases, told):
    """The same for each text of which the second program does not answer what follows from how it was made."""
    known = [(case.number, case.line, case.field) for case in cases]
    return [f"{case.kind}, which gives {known}, number, line and field: the second program answers {answer[:3]} on {shown(case.text)}"
            for case, known, (answer, _) in zip(cases, known, told) if any(one not in (None, other) for one, other in zip(known, answer))]


def described(text, refusal):
    """The sheet that a text describes, where it is accepted or refused by 6."""
    if refusal not in weights.STATES:
        return None
    _, (d, X, Y, s, k, _), named = second_text.parsed(text)
    return d, second.terms(d, named), X, Y, s, k


def met(text, answer, written):
    """The things that a text shows, of those that every run must show."""
    refusal, line, field, d, X, Y, s, k, mode, coefficients = answer
    yield ("refused by", refusal) if refusal else ("accepted",)
    yield from (("a sheet", kind) for kind in weights.kinds_of(described(text, refusal), refusal))
    yield "length", len(text), "refused by 11" if refusal == 11 else "with a bad line" if line else "with good lines"
    if line:
        yield "bad line", line
        if (refusal, field) in ((14, 0), (20, 0)):
            yield "missing line" if refusal == 14 else "unended line", line
    if refusal == 0:
        yield "degree and depth", d, k
        yield "mode", mode
        yield "terms named", text.count(b"\nT"), "of degree", d
        yield from (("corner", corner) for corner in (X, Y))
        yield from (("coefficient", A) for A in set(coefficients))
        yield from (("level", int(fields[0]), "mark", fields[-1].decode()) for fields in (row.split(b"\t") for row in written.split(b"\n")[:-2]))


def met_of_place(item):
    """What a place shows: how long it is, what it holds, and beside which answer all of it is seen, or the bytes written and those after them."""
    (refusal, *_), written = item.told
    kind, content, entries, *_, first, _ = item.place
    yield "all of a place", kind, "that holds", content, "beside", refusal, "seen" if first == entries else "not seen"
    yield "a place", kind, "that holds", content, "seen past what is written" if first > len(written) else "not seen"
    if first == entries and written.count(b"\n") == LINES:
        yield "all of a place", kind, "that holds", content, "beside the longest listing, seen"


def wanted_of_places():
    for content in text_places.CONTENTS:
        for kind in text_places.LENGTHS:
            yield from (("all of a place", kind, "that holds", content, "beside", refusal, "seen") for refusal in (0, *REFUSALS))
            yield "all of a place", kind, "that holds", content, "beside the longest listing, seen"
        yield from (("a place", kind, "that holds", content, "seen past what is written") for kind in text_places.ROOMY)


def wanted():
    yield from wanted_of_places()
    yield ("accepted",)
    yield from (("refused by", refusal) for refusal in REFUSALS)
    # every line of a text with the 81 terms that a degree above 8 may have, and the one after them
    yield from (("bad line", line) for line in range(1, 87))
    yield from (("missing line", line) for line in range(1, 5))
    yield from (("unended line", line) for line in range(1, 8))
    yield from (("length", length, "with a bad line") for length in (0, 1, LONGEST - 1, LONGEST))
    yield from (("length", length, "refused by 11") for length in (LONGEST + 1, 65_536, CEILING))
    yield from (("degree and depth", d, k) for d in range(9) for k in range(8))
    yield from (("terms named", count, "of degree", d) for d in range(9) for count in (0, (d + 1) * (d + 2) // 2))
    yield from (("mode", mode) for mode in (0, 1))
    yield from (("corner", corner) for corner in (-EDGE, EDGE))
    yield from (("coefficient", A) for A in (LEAST31, MOST31))
    yield from (("a sheet", kind) for kind in weights.every_kind())
    yield from (("level", j, "mark", mark) for j in range(8) for mark in "0+-")


def tally(cases, told, items):
    """Prints how often each refusal, each fault of a line and each kind of sheet came up, and answers what never did."""
    found = collections.Counter(thing for case, both in zip(cases, told) for thing in met(case.text, *both))
    found.update(thing for item in items for thing in met_of_place(item))
    print(f"read: {found['accepted',]} accepted, refused by " + ", ".join(f"{refusal}: {found['refused by', refusal]}" for refusal in REFUSALS))
    for kind in weights.every_kind():
        print(f"a sheet {kind}: {found['a sheet', kind]} texts")
    missing = [" ".join(map(str, thing)) for thing in wanted() if not found[thing]]
    return missing + list(fault_cases.tally(cases, [answer[:3] for answer, _ in told]))


def untold_by(cases, told):
    """The wrong rules that the texts do not tell from the right ones; faults at fields where they cannot stand, and faults put in wrongly."""
    yield from weights.untold("read", [(described(case.text, answer[0]), answer[0]) for case, (answer, _) in zip(cases, told)])
    yield from fault_rules.untold([(case.text, fault_rules.of_lines(*answer[:3])) for case, (answer, _) in zip(cases, told)])
    yield from fault_cases.impossible(answer[:3] for answer, _ in told if answer[0] >= 14)
    yield from fault_cases.misput(cases, [answer[:3] for answer, _ in told])


# ---- the listing program

def some(cases, told):
    """Of each kind of text one, and one of each refusal that the kind meets."""
    taken = set()
    for case, (answer, written) in zip(cases, told):
        if (case.kind, answer[0]) not in taken:
            taken.add((case.kind, answer[0]))
            yield case.kind, case.text, written


def listing_runs(program, cases, told):
    """Runs of the listing program: what each is, and what is wrong with it, or nothing."""
    yield "the page's own bytes", fault_of(ended(program, WHOLE), WHOLE_LISTING)
    yield from streams.runs(program, "listing", second_text.listing_text)
    for kind, text, written in some(cases, told):
        yield f"{kind}, {shown(text)}", fault_of(ended(program, text), written)
    for name in sheets.names():
        yield f"sheets/{name}.sheet", fault_of(ended(program, sheets.text(name)), (sheets.SHEETS / f"{name}.listing").read_bytes())


def main():
    options = argparse.ArgumentParser(description="Compares the proved reading of texts with the second program.")
    options.add_argument("--seed", type=int, default=20250202)
    options.add_argument("--cases", type=int, default=4000)
    options.add_argument("--only", type=int)
    options.add_argument("--program", type=pathlib.Path, default=made("compare_texts"))
    options.add_argument("--listing", type=pathlib.Path, default=made("listing"))
    devices.add_option(options)
    chosen = options.parse_args()
    cases = fault_cases.every_text(chosen.seed, chosen.cases)
    told = [second_told(case.text) for case in cases]
    items = list(lent(random.Random(f"{chosen.seed} places"), cases, told))
    if chosen.only is not None:
        items = items[chosen.only:chosen.only + 1]
    wrong, other = list(disagreements(items, run(chosen.program, items))), misjudged(cases, told)
    for line in wrong[:SHOWN] + other[:SHOWN]:
        print(line)
    missing, untold, runs, faults = [], [], [], []
    if chosen.only is None:
        missing, faults = tally(cases, told, items), list(sheets.faults())
        untold = list(untold_by(cases, told))
        if written_by(chosen.program, text_places.MADE) != bytes(ROOM):
            faults.append(f"reply::place makes other than {ROOM} zeros")
        if not chosen.listing.is_file():
            sys.exit(f"texts: {absent(chosen.listing)}")
        runs = list(listing_runs(chosen.listing, cases, told))
    untried = devices.left_out(runs, chosen)
    failed = [(name, fault) for name, fault in runs if fault and (name, fault) not in untried]
    for line in [f"never came up: {thing}" for thing in missing] + untold + faults + [f"listing, {name}: {fault}" for name, fault in failed]:
        print(line)
    print(f"texts: seed {chosen.seed}, {len(items) - len(wrong)} of {len(items)} answers agree, "
          f"{len(runs) - len(failed) - len(untried)} of {len(runs)} runs of listing are right, {len(sheets.names())} sheets with {len(faults)} faults")
    devices.tell(runs, chosen)
    return 1 if wrong or other or missing or untold or failed or faults else 0


if __name__ == "__main__":
    sys.exit(main())
