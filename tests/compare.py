"""The proved program and the second program give the same answers.

    python3 tests/compare.py [--seed S] [--cases N]     N random cases and N/3 walks, beside the figures and the page's limits
    python3 tests/compare.py --case CASE                one case again, as a disagreement prints it

The program `compare` is run once, on all cases of tests/cases.py; crates/compare/src says how a case and an answer are written
in bytes. A case says what a lent place holds beforehand. Every answer is compared with that of tests/second.py, with every entry of a lent
place as it is afterwards; and the TALLIES there are counted by walking through the program's verdicts and bends. A run in which some refusal,
verdict, degree or depth, some kind of place at some depth in some mode, some content of some kind of place, some kind of largest bend in some mode,
or some kind of sheet by its weight, never came up fails, too (tests/coverage.py), and so does one whose walks do not tell some wrong rule for the
largest bend from the right one (tests/demands.py), or whose sheets some wrong rule for the weight (tests/weights.py).

Then the second program is held to the page. Demand 3 is tried on the accepted cells: at points with fractional coordinates in the closed
cell, at its corners, and, where nothing bends, at the point where the value must be 0. Of every walk, the visited cells are those to which
cutting open cells comes, in that order; visited is 1 plus 4 times the cells cut, and the listing unfolds to the raster.

The proved program is held to the page alone, too, where it gave the raster and the listing of one sheet in one mode: its listing unfolds to
its raster, and both tallies are counted from the records.

The largest bend is held to request #101, by the second program's bends and bounds: of each proved walk, to its coloured cells, all or some of them
and one that bends most. The raster and the listing of one walk have the same.
"""
import argparse
import ast
import pathlib
import random
import struct
import sys

sys.dont_write_bytecode = True  # nothing is left in the tree
import second
import second_walk
import weights
from cases import CALLS, COUNT, ENTRIES, WALKS, all_cases, filled, walk_of
from coverage import VERDICTS, tally
from demands import bends_of, demand_3, largest_bend_fault, untold
from program import code, made, number, written_by

PROGRAM = made("compare")
NAMES = dict(enumerate(VERDICTS, 1))
# how many numbers each call answers, beside a place
LENGTHS = {"check": 3, "value": 2, "bounds": 5, "raster": 4, "listing": 5}
# the bytes of an entry of a lent place: how many, and how they are packed
WIDTHS = {"raster": 1, "listing": 4}
PACKED = {"raster": "B", "listing": "I"}
SHOWN = 5


# ---- the proved program

def record(call, args):
    """A case in bytes, without what its place holds."""
    d, coefficients, X, Y, s, k, *rest = args
    mode, j, p, q = rest if call == "bounds" else (rest[0] if call in WALKS else 0, 0, 0, 0)
    U, V = rest if call == "value" else (0, 0)
    entries = entries_of(call, args)
    words = (CALLS.index(call), d, len(coefficients), code(X, 32), code(Y, 32), s, k, mode, j, p, q, code(U, 64), code(V, 64), entries)
    padded = [code(A, 32) for A in coefficients] + [0] * (COUNT - len(coefficients))
    return struct.pack(f"<11I2QI{COUNT}I", *words, *padded)


def given(cases):
    """What the program is given: the cases, each walk with what its place holds."""
    for call, args in cases:
        yield record(call, args)
        if call in WALKS:
            yield struct.pack(f"<{entries_of(call, args)}{PACKED[call]}", *filled(call, *args[-1]))


def answer(call, words):
    """An answer, in the second program's form. Words that the answer does not use are 0."""
    kind, *values = words
    if kind == 1 and values[0] != 0 and not any(values[1:]):
        return (values[0],) + (0,) * (LENGTHS[call] - 1)
    used = LENGTHS[call] - 1
    if kind != 0 or any(values[used:]):
        return "no answer", *words
    if call == "value":
        return 0, number(values[0], 64)
    if call != "bounds":
        return 0, *values[:used]
    verdict, lower, upper, bend = values
    return 0, NAMES.get(verdict), number(lower, 64), number(upper, 64), bend


def entries_of(call, args):
    """How many entries follow a case and its answer: those of the place."""
    return args[-1][0] if call in WALKS else 0


def answers_in(output, cases):
    """The answers that were written, each with its place."""
    at = 0
    for call, args in cases:
        words = answer(call, struct.unpack_from("<5Q", output, at))
        at += 40
        if call in WALKS:
            entries = entries_of(call, args)
            words += ([*struct.unpack_from(f"<{entries}{PACKED[call]}", output, at)],)
            at += WIDTHS[call] * entries
        yield words


def run(program, cases):
    """The program's answers."""
    output = written_by(program, b"".join(given(cases)))
    length = sum(40 + WIDTHS.get(call, 0) * entries_of(call, args) for call, args in cases)
    if len(output) != length:
        sys.exit(f"compare: the answers to {len(cases)} cases have {length} bytes with their places, and {len(output)} bytes came")
    return list(answers_in(output, cases))


# ---- the second program

def second_answer(call, args):
    """What the second program answers, where its lent place holds the same."""
    return getattr(second, call)(*args[:-1], filled(call, *args[-1])) if call in WALKS else getattr(second, call)(*args)


def second_answers(cases):
    """The answers, what is wrong with the walks, and the walks, each with what is asked of its bends. A walk is looked at when it is answered: it
    is kept only for a while."""
    expected, faults, walks = [], [], {}
    for call, args in cases:
        expected.append(second_answer(call, args))
        if call in WALKS and expected[-1][0] == 0 and walk_of(args) not in walks:
            walk = walk_of(args)
            walks[walk] = bends_of(second.walked(*walk), args[5])
            fault = second.walk_fault(*walk)
            if fault:
                faults.append(((call, args), fault))
    return expected, faults, walks


# ---- the comparison

def shown(call, args):
    return f"{call}({', '.join(map(str, args))})"


def brief(answered, other):
    """An answer, in few words: of a place, the first entry in which it and another differ."""
    *numbers, place = answered
    if not isinstance(place, list):
        return str(answered)
    at = next((i for i, pair in enumerate(zip(place, other[-1])) if pair[0] != pair[1]), None)
    return f"{(*numbers,)}, " + ("the same place" if at is None else f"entry {at} of {len(place)} is {place[at]}")


def disagreements(cases, answers, expected):
    """What is to be said of each case that the two programs answer otherwise."""
    return [f"disagreement on --case \"{shown(*case)}\"\n"
            f"    the proved program: {brief(got, wanted)}\n    the second program: {brief(wanted, got)}"
            for case, got, wanted in zip(cases, answers, expected) if got != wanted]


def faults_of_walks(faults):
    """The same for the walks of the second program that are not as the page says."""
    return [f"the second program's walk is wrong on --case \"{shown(*case)}\": {fault}" for case, fault in faults]


def untold_weights(cases, expected):
    """The wrong rules for the weight that the sheets of each call do not tell from the right one."""
    for call in CALLS:
        yield from weights.untold(call, [(args[:6], answered[0]) for (name, args), answered in zip(cases, expected) if name == call])


def tallies(cases, answers):
    """The tallies of TALLIES that a walk by the proved program's verdicts and bends does not have."""
    told = {shown(*case): second.seen(*answered[1:]) for case, answered in zip(cases, answers) if case[0] == "bounds" and answered[0] == 0}
    for name, sheet, mode, counted in second.TALLIES:
        found = second_walk.tally(lambda *at: told.get(shown("bounds", sheet + (mode, *at)), (None, None)), sheet[-1])
        if found != counted:
            yield f"{name}: a walk in mode {mode} counts {found}, and it should be {counted}"


# ---- the proved program's walks

def pair_fault(k, raster, listing):
    """What is wrong between a raster and a listing of one walk, or nothing."""
    _, *tally, bend, place = raster
    _, length, *listed, listed_bend, entries = listing
    records = entries[:length]
    if second_walk.unfolded(records, k) != place[:4 ** k]:
        return "the listing does not unfold to the raster"
    cut = {larger for record in records for larger in second_walk.enclosing(*second_walk.cell_of(record))}
    counted = [1 + 4 * len(cut), sum(second_walk.colour_of(record) == 1 for record in records)]
    if tally != counted or listed != counted:
        return f"the tallies are {tally} and {listed}, and the records count {counted}"
    if 3 * counted[0] != 4 * length - 1:
        return f"{length} records are written, and {counted[0]} cells are visited"
    return f"the largest bends are {bend} and {listed_bend}" if bend != listed_bend else None


def firsts(cases, answers):
    """Of each walk that was answered the first raster and the first listing, under the call and the walk."""
    first = {call: {} for call in WALKS}
    for (call, args), answered in zip(cases, answers):
        if call in WALKS and answered[0] == 0:
            first[call].setdefault(walk_of(args), answered)
    return first


def pairs(first):
    """The walks of which both raster and listing were answered, and what is wrong between the two, or nothing."""
    rasters, listings = first["raster"], first["listing"]
    return {walk: pair_fault(walk[5], rasters[walk], listings[walk]) for walk in rasters if walk in listings}


def coloured_by(call, k, answered):
    """The coloured cells that a raster or a listing tells of."""
    *_, place = answered
    if call == "raster":
        return [(k, at % 2 ** k, at // 2 ** k) for at, colour in enumerate(place[:4 ** k]) if colour == 1]
    return [second_walk.cell_of(record) for record in place[:answered[1]] if second_walk.colour_of(record) == 1]


def bend_faults(rng, first, walks):
    """Of each walk what is wrong with its largest bend, or nothing: by its raster, or by its listing where there is no raster."""
    told = {walk: (call, answered) for call in ("listing", "raster") for walk, answered in first[call].items() if walk in walks}
    return {walk: largest_bend_fault(rng, walk, walks[walk], coloured_by(call, walk[5], answered), answered[-2])
            for walk, (call, answered) in told.items()}


# ---- all of it

def main():
    options = argparse.ArgumentParser(description="Compares the proved program with the second program.")
    options.add_argument("--seed", type=int, default=20250101)
    options.add_argument("--cases", type=int, default=15000)
    options.add_argument("--case")
    options.add_argument("--program", type=pathlib.Path, default=PROGRAM)
    chosen = options.parse_args()
    if chosen.case:
        call, _, args = chosen.case.partition("(")
        cases = [(call, ast.literal_eval("(" + args))]
    else:
        cases = all_cases(chosen.seed, chosen.cases)
    if any(entries_of(*case) > ENTRIES for case in cases):
        sys.exit(f"compare: a place has at most {ENTRIES} entries")
    expected, faults, walks = second_answers(cases)
    answers = run(chosen.program, cases)
    wrong = disagreements(cases, answers, expected)
    for line in faults_of_walks(faults)[:SHOWN] + wrong[:SHOWN]:
        print(line)
    cells = [(args, answered) for (call, args), answered in zip(cases, expected) if call == "bounds" and answered[0] == 0]
    rng = random.Random(chosen.seed)
    broken = [(args, fault) for args, answered in cells if (fault := demand_3(rng, args, answered))]
    for args, fault in broken[:SHOWN]:
        print(f"demand 3 does not hold on --case \"{shown('bounds', args)}\": {fault}")
    first = firsts(cases, answers)
    paired, bent = pairs(first), bend_faults(rng, first, walks)
    unlike = [(walk, fault) for walk, fault in paired.items() if fault]
    for walk, fault in unlike[:SHOWN]:
        print(f"the proved program's raster and listing of {walk} are not of one walk: {fault}")
    misbent = [(walk, fault) for walk, fault in bent.items() if fault]
    for walk, fault in misbent[:SHOWN]:
        print(f"the proved program's walk of {walk} has another largest bend: {fault}")
    if chosen.case:
        print(f"the second program: {brief(expected[0], answers[0])}")
        lacking = []
    else:
        compared = {walk[-2:] for walk in paired}
        missing = tally(cases, expected, walks)
        missing += [f"raster and listing of one walk, depth {k} mode {mode}" for k in range(8) for mode in (0, 1) if (k, mode) not in compared]
        lacking = [f"never came up: {thing}" for thing in missing] + [*untold(walks), *untold_weights(cases, expected), *tallies(cases, answers)]
        for fault in lacking:
            print(fault)
    print(f"compare: seed {chosen.seed}, {len(cases) - len(wrong)} of {len(cases)} answers agree, "
          f"demand 3 holds on {len(cells) - len(broken)} of {len(cells)} cells, "
          f"{len(walks) - len(faults)} of {len(walks)} walks are as the page says, "
          f"the proved listing unfolds to the proved raster on {len(paired) - len(unlike)} of {len(paired)}, "
          f"the largest bend is that of the coloured cells on {len(bent) - len(misbent)} of {len(bent)}")
    return 1 if wrong or broken or faults or unlike or misbent or lacking else 0


if __name__ == "__main__":
    sys.exit(main())
