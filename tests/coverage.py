"""What the cases of tests/compare.py must show, and how often they do: a run in which one of these things never came up fails.

A thing is a row of words and numbers, the name of a call first. `met` has those that a case shows, with what the second program answers; `wanted` has
those that every run must show.
"""
import collections

import second
import second_walk
import weights
from cases import CALLS, CONTENTS, EDGE, REFUSALS, WALKS, walk_of
from demands import LARGEST_BENDS, kinds_of

VERDICTS = ("above", "below", "open")
# the kinds of place: the short ones are refused by 7, and a place of no entry is the only short one at depth 0
KINDS = {
    "no entry": 7,
    "one entry missing": 7,
    "several entries missing": 7,
    "just long enough": 0,
    "longer": 0,
}


def met(call, args, answered, walks):
    """The things that a case shows, of those that every run must show."""
    refusal, *values = answered
    d, coefficients, X, Y, s, k, *rest = args
    if refusal in (0, 6):
        weight = second.weight_of(d, coefficients, X, Y, s, k)
        short = second.LIMIT - weight
        if short == 0 or refusal == 0 and weight > 0 and short <= 2 ** ((k + 1) * d):
            yield call, "weight at the limit" if short == 0 else "weight just below the limit"
        yield from ((call, "a sheet", kind) for kind in weights.kinds_of((d, coefficients, X, Y, s, k), refusal))
    yield (call, "refused by", refusal) if refusal else (call, "accepted")
    if call in WALKS:
        yield from met_of_place(call, k, rest[0], *args[-1][:2], refusal)
    if refusal:
        return
    yield call, "degree and depth", d, k
    yield from ((call, "coefficient", A) for A in {-2 ** 31} & set(coefficients))
    yield from ((call, "corner", corner) for corner in {-EDGE, EDGE} & {X, Y})
    if call == "bounds":
        verdict, lower, upper, bend = values
        yield call, "mode", rest[0], verdict
        yield call, "level", rest[1]
        if bend == 0:
            yield call, "no bend", verdict
    if call in WALKS:
        yield call, "depth", k, "mode", rest[0], "accepted"
        yield from ((call, "mode", rest[0], "a largest bend", kind) for kind in kinds_of(walks[walk_of(args)]))
    if call == "raster":
        yield from ((call, "depth", k, "mode", rest[0], "colour", colour) for colour in set(values[-1][:4 ** k]))
    if call == "listing":
        records = values[-1][:values[0]]
        seen = {(second_walk.cell_of(record)[0], second_walk.colour_of(record)) for record in records}
        yield from ((call, "mode", rest[0], "level", j, "colour", colour) for j, colour in seen)
        if k <= 4:
            yield from ((call, "an open part within a cell cleared at level", j) for j in hiding(args, records))


def hiding(args, records):
    """The levels of the cleared cells, two or more above the finest, a part of which is open by its own bounds."""
    *sheet, k, mode, _ = args
    cleared = [second_walk.cell_of(record) for record in records if second_walk.colour_of(record) != 1]
    return {at[0] for at in cleared if at[0] + 2 <= k
            and any(second.bounds(*sheet, k, mode, *part)[1] == "open" for part in second_walk.parts(*at))}


def met_of_place(call, k, mode, entries, content, refusal):
    """What a place shows: how long it is for its depth, what it holds, and that the refusals before 7 are given though it is too short."""
    need = 4 ** min(k, 8)
    if refusal and entries:
        yield call, "refused by", refusal, "a place that holds", content
    if refusal in (0, 7):
        kind = ("no entry" if entries == 0 else "one entry missing" if entries == need - 1 else "several entries missing" if entries < need
                else "just long enough" if entries == need else "longer")
        yield call, "depth", k, "mode", mode, "a place", kind, refusal
        yield call, "a place", kind, "that holds", content
        if refusal == 0:
            yield call, "depth", k, "a place that holds", content
    elif entries < need:
        yield call, "a place too short, refused by", refusal


def wanted_of_contents():
    """Every content of every kind of place that has an entry, at every depth, and beside every refusal."""
    for call in WALKS:
        for content in CONTENTS:
            yield from ((call, "a place", kind, "that holds", content) for kind in KINDS if kind != "no entry")
            yield from ((call, "depth", k, "a place that holds", content) for k in range(8))
            yield from ((call, "refused by", refusal, "a place that holds", content) for refusal in REFUSALS[call])


def wanted_of_walks():
    for call in WALKS:
        yield from ((call, "a place too short, refused by", refusal) for refusal in range(1, 7))
        for k in range(8):
            for mode in (0, 1):
                yield call, "depth", k, "mode", mode, "accepted"
                yield from ((call, "depth", k, "mode", mode, "a place", kind, refusal) for kind, refusal in KINDS.items()
                            if k > 0 or "missing" not in kind)
        yield from ((call, "mode", mode, "a largest bend", kind) for mode in (0, 1) for kind in LARGEST_BENDS)
    for mode in (0, 1):
        for j in range(8):
            yield from (("raster", "depth", j, "mode", mode, "colour", colour) for colour in (1, 2, 3))
            yield from (("listing", "mode", mode, "level", j, "colour", colour) for colour in (1, 2, 3))
    yield from (("listing", "an open part within a cell cleared at level", j) for j in range(3))


def wanted():
    yield from wanted_of_contents()
    yield from wanted_of_walks()
    for call in CALLS:
        yield call, "accepted"
        yield from ((call, "refused by", refusal) for refusal in REFUSALS[call])
        yield from ((call, "degree and depth", d, k) for d in range(9) for k in range(8))
        yield from ((call, f"weight {where} the limit") for where in ("at", "just below"))
        yield from ((call, "a sheet", kind) for kind in weights.every_kind())
        yield from ((call, *rest) for rest in (("coefficient", -2 ** 31), ("corner", -EDGE), ("corner", EDGE)))
    yield from (("bounds", "mode", mode, verdict) for mode in (0, 1) for verdict in VERDICTS)
    yield from (("bounds", "level", j) for j in range(8))
    yield from (("bounds", "no bend", verdict) for verdict in VERDICTS)


def tally(cases, expected, walks):
    """Prints how often each refusal, verdict, kind of largest bend and kind of sheet came up, and answers what never did."""
    found = collections.Counter(thing for case, answered in zip(cases, expected) for thing in met(*case, answered, walks))
    for call in CALLS:
        refusals = ", ".join(f"{refusal}: {found[call, 'refused by', refusal]}" for refusal in REFUSALS[call])
        print(f"{call}: {found[call, 'accepted']} accepted, refused by {refusals}")
    for kind in (("mode", 0), ("mode", 1), ("no bend",)):
        verdicts = ", ".join(f"{found[('bounds', *kind, verdict)]} {verdict}" for verdict in VERDICTS)
        print(f"{' '.join(map(str, kind))}: {verdicts}")
    for kind in LARGEST_BENDS:
        print(f"a largest bend {kind}: " + ", ".join(f"{found[call, 'mode', mode, 'a largest bend', kind]} {call}s in mode {mode}"
                                                     for call in WALKS for mode in (0, 1)))
    for kind in weights.every_kind():
        print(f"a sheet {kind}: " + ", ".join(f"{found[call, 'a sheet', kind]} {call}" for call in CALLS))
    return [" ".join(map(str, thing)) for thing in wanted() if not found[thing]]
