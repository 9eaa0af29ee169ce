"""Every call on many random cases: the proved programs and the second program give the same answers, counted by the number of the answer.

    python3 tests/many.py [--seed S] [--cases N] [--jobs J]     N random cases of each of the seven calls, in J processes at a time
    python3 tests/many.py [--seed S] [--cases N] --part PART    one part of that run again, as a disagreement names it

The calls are check, value, bounds, raster, listing, read, and answer, which is the listing program's text; a text is a case of read and of answer.
The cases are those of tests/many_cases.py, made in parts: which cases a part has follows from the seed and its name alone, and so does what their
places hold. For each part the program `compare` or `compare_texts` is run once, and all that it answers is compared as in tests/compare.py and
tests/texts.py: every number, every entry of every place that is lent to raster and listing, every byte of a listing, and up to 600 entries of its
place after it and at the end. Every walk of the second program is held to what the page says of walks.

At the end stand, for each call, the accepted cases by degree and by depth, and the cases that agreed by their number, 0 for an accepted one, with
how many of a call's cases are distinct, whatever their places hold; the number of a case of answer is that of its text; and for read the bad lines by
number and field. Anything that disagrees makes the run fail, as does a number that the call can't be refused by; and where there are as many cases as
by default, or more, a number, degree or depth, a number at a field of a kind of line, or a kind of place, content, largest bend or sheet by its weight,
that never came up. So many take half an hour of one processor, half of that on two: the gate has 300 of each call.
"""
import argparse
import collections
import concurrent.futures
import hashlib
import itertools
import os
import random
import sys
import time

sys.dont_write_bytecode = True  # nothing is left in the tree
import cases
import compare
import fault_cases
import text_places
import texts
import weights
from demands import LARGEST_BENDS, kinds_of
from many_cases import random_text, single_cases, walk_cases
import program

CASES = 100_000
REFUSALS = {**cases.REFUSALS, "read": texts.REFUSALS, "answer": texts.REFUSALS}
# all that are there, and those that some call can answer
ALL_NUMBERS = range(21)
NUMBERS = [number for number in ALL_NUMBERS if number == 0 or any(number in some for some in REFUSALS.values())]
# the kinds of parts: the calls of each, and how many cases of each of them a part has, so that it takes some seconds
KINDS = {"walks": (cases.WALKS, 500), "texts": (("read", "answer"), 1000), "sheets": (cases.SINGLE, 5000)}
SHOWN = 5

Part = collections.namedtuple("Part", "kind number count")
# how often a call's answers agreed, by number, by kind of sheet and by what its place was, and of accepted cases by degree, depth and kind of largest
# bend; a call's distinct cases; and what is wrong
Found = collections.namedtuple("Found", "agreed distinct faults")


def name_of(part):
    return f"{part.kind}-{part.number}"


def parts_of(count):
    """The parts that have so many cases of each call, those that take long first."""
    return [Part(kind, at // size, min(size, count - at)) for kind, (_, size) in KINDS.items() for at in range(0, count, size)]


# ---- one part

def nothing_yet():
    return Found(collections.Counter(), collections.defaultdict(set), [])


def noted(found, call, given, number, sheet, place, agrees, largest_bend=()):
    """Counts one case, and keeps a few bytes of it that others share only by a rare chance. Its sheet counts where it is accepted or refused by 6."""
    found.distinct[call].add(hashlib.blake2b(given, digest_size=10).digest())
    if not agrees:
        return
    found.agreed[call, "number", number] += 1
    found.agreed.update((call, "place", thing) for thing in place)
    found.agreed.update((call, "largest bend", kind) for kind in largest_bend)
    found.agreed.update((call, "sheet", kind) for kind in weights.kinds_of(sheet, number))
    if number == 0:
        d, *_, k = sheet
        found.agreed[call, "degree", d] += 1
        found.agreed[call, "depth", k] += 1


def compared(found, made):
    """The calls that are given a sheet."""
    expected, faults, walks = compare.second_answers(made)
    answers = compare.run(compare.PROGRAM, made)
    for (call, args), got, wanted in zip(made, answers, expected):
        walk = call in cases.WALKS
        noted(found, call, compare.record(call, args), wanted[0], args[:6], args[-1][1:2] if walk else (), got == wanted,
              kinds_of(walks[compare.walk_of(args)]) if walk and wanted[0] == 0 else ())
    found.faults.extend(compare.faults_of_walks(faults) + compare.disagreements(made, answers, expected))


def compared_texts(found, made, rng):
    """The calls that are given a text."""
    told = [texts.second_told(case.text) for case in made]
    items = [texts.Item(case, both, text_places.any_place(rng, len(both[1]))) for case, both in zip(made, told)]
    answers = texts.run(program.made("compare_texts"), items)
    for item, (got, *left) in zip(items, answers):
        wanted, *expected = texts.second_answer(item)
        number, sheet = wanted[0], texts.described(item.case.text, wanted[0])
        noted(found, "read", item.case.text, number, sheet, (), got == wanted)
        if number >= 14 and got == wanted:
            found.agreed["read", "fault", fault_cases.cell_of(*wanted[:3])] += 1
        noted(found, "answer", item.case.text, number, sheet, (item.place.kind, item.place.content), left == expected)
    found.faults.extend(texts.misjudged(made, told) + [*texts.disagreements(items, answers)])


def run_part(seed, part):
    """What is found of one part: its cases are made, answered by both programs and compared."""
    rng, found = random.Random(f"{seed} {name_of(part)}"), nothing_yet()
    places = random.Random(f"{seed} {name_of(part)} places")
    try:
        if part.kind == "texts":
            compared_texts(found, [random_text(rng) for _ in range(part.count)], places)
        else:
            maker = walk_cases if part.kind == "walks" else single_cases
            compared(found, [*cases.with_places(places, (case for _ in range(part.count) for case in maker(rng)))])
    except SystemExit as end:  # a program that does not end well, or does not answer all
        found.faults.append(str(end))
    return found


# ---- all parts

def gathered(seed, parts, jobs):
    """What is found of all parts. What is wrong is printed part by part."""
    found, start = nothing_yet(), time.monotonic()
    with concurrent.futures.ProcessPoolExecutor(jobs) as pool:
        for done, (part, one) in enumerate(zip(parts, pool.map(run_part, itertools.repeat(seed), parts)), 1):
            found.agreed.update(one.agreed)
            for call, some in one.distinct.items():
                found.distinct[call].update(some)
            found.faults.extend(one.faults)
            for fault in one.faults[:SHOWN]:
                print(f"--part {name_of(part)}: {fault}", flush=True)
            if 10 * done // len(parts) > 10 * (done - 1) // len(parts):
                print(f"many: {done} of {len(parts)} parts after {time.monotonic() - start:.0f} seconds", flush=True)
    return found


def wanted(call):
    """What every call must show: each number that it can answer, each degree and each depth, of its places each kind and each content, of the largest
    bends and of the sheets each kind, and of the faults of lines each."""
    yield from (("number", number) for number in (0, *REFUSALS[call]))
    yield from (("degree", d) for d in range(9))
    yield from (("depth", k) for k in range(8))
    contents = {"raster": cases.CONTENTS, "listing": cases.CONTENTS, "answer": (*text_places.LENGTHS, *text_places.CONTENTS)}
    yield from (("place", thing) for thing in contents.get(call, ()))
    yield from (("largest bend", kind) for kind in LARGEST_BENDS if call in cases.WALKS)
    yield from (("fault", cell) for cell in fault_cases.every_cell() if call == "read")
    yield from (("sheet", kind) for kind in weights.every_kind())


def unwanted(agreed, count):
    """Numbers that came up and can't, and where there are many cases the things that never came up."""
    for call in REFUSALS:
        can = set(wanted(call))
        yield from (f"{call} is refused by {number}" for number in ALL_NUMBERS if agreed[call, "number", number] and ("number", number) not in can)
        if count >= CASES:
            yield from (f"never came up: {call}, {thing} {at}" for thing, at in wanted(call) if not agreed[call, thing, at])


# ---- the tables

def shown(title, heads, rows):
    """Prints rows of numbers under their heads, each after its name."""
    print(title)
    for name, *numbers in [("", *heads), *rows]:
        print(f"{name:8}" + "".join(f"{number:>9}" for number in numbers))


def all_of(agreed, call):
    """How many cases of a call agreed."""
    return sum(agreed[call, "number", number] for number in ALL_NUMBERS)


def tables(found, calls):
    agreed = found.agreed
    for kind in weights.every_kind():
        print(f"sheets {kind}: " + ", ".join(f"{agreed[call, 'sheet', kind]} {call}" for call in calls))
    for thing, size in (("degree", 9), ("depth", 8)):
        shown(f"accepted, by {thing}", range(size), [(call, *(agreed[call, thing, at] for at in range(size))) for call in calls])
    rows = [(call, *(agreed[call, "number", number] or (0 if number in (0, *REFUSALS[call]) else "-") for number in NUMBERS),
             all_of(agreed, call), len(found.distinct[call])) for call in calls]
    columns = [[number for number in column if number != "-"] for column in list(zip(*rows))[1:]]
    rows.append(("total", *(sum(column) if column else "-" for column in columns)))
    shown("agreed, by number: 0 is accepted, and by - a call can't be refused", [*NUMBERS, "total", "distinct"], rows)
    short = sum(agreed["answer", "place", kind] for kind in text_places.SHORT)
    if "answer" in calls:
        print(f"answer: {short} of the places have not the room, and stay as they were")
        fault_cases.show_cells({cell: agreed["read", "fault", cell] for cell in fault_cases.every_cell()})


def main():
    options = argparse.ArgumentParser(description="Compares the proved programs with the second program on many random cases of every call.")
    options.add_argument("--seed", type=int, default=20250303)
    options.add_argument("--cases", type=int, default=CASES)
    options.add_argument("--jobs", type=int, default=os.cpu_count())
    options.add_argument("--part")
    chosen = options.parse_args()
    parts = [part for part in parts_of(chosen.cases) if chosen.part in (None, name_of(part))]
    if not parts:
        sys.exit("many: there is no such part, or there are no cases")
    found = gathered(chosen.seed, parts, chosen.jobs)
    missing = [] if chosen.part else list(unwanted(found.agreed, chosen.cases))
    for fault in missing:
        print(fault)
    tables(found, [call for call in REFUSALS if any(call in KINDS[part.kind][0] for part in parts)])
    given = sum(part.count * len(KINDS[part.kind][0]) for part in parts)
    agreed = sum(all_of(found.agreed, call) for call in REFUSALS)
    print(f"many: seed {chosen.seed}, {agreed} of {given} answers agree, {len(found.faults) + len(missing)} faults")
    return 1 if agreed != given or found.faults or missing else 0


if __name__ == "__main__":
    sys.exit(main())
