"""The proved writing and reading of plain PBM, and the program `picture`, agree with the second program.

    python3 tests/pictures.py [--seed S] [--cases N]     N random rasters and texts, beside those by turns; 40000 take half a minute
    python3 tests/pictures.py --only NUMBER              one case of that run again, by its number

The program `compare_pictures` is run once, on all cases of tests/pbm_cases.py, and on sheet texts for the call `depict`. A case begins with
seven numbers of four bytes: the call (0 write, 1 read, 2 depict; 3 has nothing but its numbers, and shows the place that is made for `depict`), the
depth, how long the raster or the text is, how long the place is, a byte that fills it, and from which entry on, and before which, it holds other
bytes; the input and these bytes follow. The answer is two words of eight bytes, the number and the answer, and all entries of the place; all is
little-endian. Every answer and every entry is compared with those of tests/second_pbm.py; and where the number and the mask are known from how a case
was made, the second program is held to them.

Then what the program wrote is given back to it: it must read every raster's mask, and no line may be longer than 70. A run fails, too, in which
something that each must show never came up (tests/pbm_coverage.py), or whose cases do not tell some wrong rule from the right one (tests/pbm_rules.py).

Then the program `picture` itself is run: on the page's whole case, on input that comes in pieces, is empty, far too long, or cannot be read, with an
output that cannot be written (tests/streams.py), on a text of each answer, and on those of sheets/. A run that cannot be tried, since the machine lacks
a device, is a fault, unless --without-devices is said (tests/devices.py).
"""
import argparse
import pathlib
import random
import struct
import sys

sys.dont_write_bytecode = True  # nothing is left in the tree
import devices
import fault_cases
import pbm_coverage
import pbm_rules
import second_pbm
import sheets
import streams
import text_cases
from pbm_cases import CONTENTS, KINDS, MADE, Case, all_cases, handed, held, lent
from program import absent, ended, made, written_by
from second_text import LONGEST, WHOLE

SHOWN = 5


# ---- cases of `depict`

def sheet_texts(rng):
    """Sheet texts: the whole case, all of sheets/, some of every depth, some refused by each number, each fault of each kind of line, and others at
    random, each walked quickly."""
    yield WHOLE
    yield from map(sheets.text, sheets.names())
    yield from (text_cases.text_of(text_cases.rows_of(rng, text_cases.light(rng, d, k), rng.randint(0, 1))) for k in range(8) for d in (1, 2, 3))
    yield from (text_cases.out_of_range(rng, name, values[0]).text for name, (*_, values) in text_cases.RANGES.items())
    yield from (text_cases.at_the_limit(rng).text, WHOLE[:-1], b"", b"\n" * LONGEST, WHOLE + b"\n" * LONGEST, b"x" * 65_536)
    yield from (fault_cases.with_faults(rng, letter, names).text for letter, names in fault_cases.SETS if len(names) == 1)
    for _ in range(20):
        yield from (make(rng).text for make in (text_cases.several, text_cases.damaged, text_cases.mixed))
        yield text_cases.text_of(text_cases.good(rng))


def told_of(text):
    """What is told for a text, in few words: the number of its refusal, or the length of its picture."""
    told = second_pbm.picture_text(text)
    return told.split()[1] if told.startswith(b"refused") else len(told)


def depicting(rng):
    """Each text with some place; and texts of each refusal and of each depth with each kind of place and each content in turn."""
    texts = [*sheet_texts(rng)]
    lending = [(text, None, None) for text in texts]
    by_told = {told_of(text): text for text in texts}
    lending += [(text, kind, CONTENTS[turn % len(CONTENTS)]) for kind in KINDS for turn, text in enumerate(by_told.values())]
    return [Case("depict", "a sheet text", 0, text, lent(rng, second_pbm.ROOM, *place), 0) for text, *place in lending]


# ---- the two programs

def second_answer(case):
    place = held(case.place)
    return {"write": lambda: second_pbm.written(case.k, case.given, place), "read": lambda: second_pbm.read(case.given, place),
            "depict": lambda: second_pbm.depicted(case.given, place)}[case.call]()


def answers_in(output, cases):
    """The answers that were written: each a number, an answer, and the place afterwards."""
    at = 0
    for turn, case in enumerate(cases):
        end = at + 16 + case.place.entries
        if end > len(output):
            sys.exit(f"pictures: {len(output)} bytes came, and they end within the answer to case {turn} of {len(cases)}")
        yield *struct.unpack_from("<2Q", output, at), output[at + 16:end]
        at = end
    if at != len(output):
        sys.exit(f"pictures: the answers to {len(cases)} cases have {at} bytes, and {len(output)} bytes came")


def run(program, cases):
    """The program's answers."""
    return list(answers_in(written_by(program, b"".join(map(handed, cases))), cases))


# ---- the comparison

def shown(given):
    return repr(given) if len(given) <= 300 else f"{given[:200]!r} and so on, {len(given)} bytes"


def brief(mine, other):
    """An answer in few words: of the entries those about the first in which two differ."""
    number, answer, entries = mine
    at = next((at for at, (one, two) in enumerate(zip(entries, other[-1])) if one != two), None)
    about = "the same entries" if at is None else f"entry {at} is {entries[at]}, in {entries[max(0, at - 20):at + 20]!r}"
    return f"number {number}, answer {answer}, {about}"


def disagreements(cases, answers, rights, first=0):
    """What is to be said of each case, by its number, that the two programs answer otherwise."""
    for at, (case, got, right) in enumerate(zip(cases, answers, rights), first):
        if got != right:
            depth = f" of depth {case.k}" if case.call == "write" else ""
            yield (f"disagreement on case {at}, {case.call}{depth}, {case.kind}, with a place of {case.place.entries} entries, {case.place.content}: "
                   f"{shown(case.given)}\n    the proved program: {brief(got, right)}\n    the second program: {brief(right, got)}")


def misjudged(cases, rights):
    """The same for each case of which the second program does not answer what follows from how it was made."""
    return [f"{case.call}, {case.kind}, which gives {case.number}: the second program answers {number}, {answer} on {shown(case.given)}"
            for case, (number, answer, after) in zip(cases, rights)
            if case.number not in (None, number) or case.mask is not None and not after.startswith(case.mask)]


def given_back(program, rng, cases, answers):
    """What the program wrote, read by it again: what is wrong with an answer."""
    back = [(case, after[:answer]) for case, (number, answer, after) in zip(cases, answers) if case.call == "write" and number == 0]
    again = [Case("read", "what was written", 0, text, lent(rng, 4 ** case.k, rng.choice(KINDS[3:]))) for case, text in back]
    for (case, text), second_case, got in zip(back, again, run(program, again) if again else ()):
        mask = bytes(byte == 1 for byte in case.given[:4 ** case.k])
        if got != (0, case.k, mask + held(second_case.place)[len(mask):]):
            yield f"given back: the picture of depth {case.k} of {shown(case.given)} is read otherwise: {got[:2]}, {shown(got[2])}"
        elif max(map(len, text.split(b"\n"))) > 70:
            yield f"given back: the picture of depth {case.k} of {shown(case.given)} has a longer line than 70"


def untold(cases, rights):
    """The wrong rules that the cases do not tell from the right ones."""
    answered = [(case, held(case.place), right) for case, right in zip(cases, rights)]
    writes, reads = ([one for one in answered if one[0].call == call] for call in ("write", "read"))
    yield from (f"write: {line}" for line in pbm_rules.untold(pbm_rules.WRITERS, pbm_rules.write_by, writes))
    yield from (f"read: {line}" for line in pbm_rules.untold(pbm_rules.READERS, pbm_rules.read_by, reads))
    yield from (f"read: {line}" for line in pbm_rules.slips(reads))
    yield from (f"the rules of tests/pbm_rules.py write otherwise than the second program: depth {case.k}, {shown(case.given)}"
                for case, place, right in writes if pbm_rules.write_by(pbm_rules.WRITER, case, place) != right)


# ---- the program `picture`

def picture_runs(program, cases):
    """Runs of the program: what each is, and what is wrong with it, or nothing."""
    yield from streams.runs(program, "picture", second_pbm.picture_text)
    some = {told_of(case.given): case.given for case in cases if case.call == "depict"}
    for text in some.values():
        yield f"the sheet text {shown(text)}", streams.fault_of(ended(program, text), second_pbm.picture_text(text))
    for name in sheets.names():
        yield f"sheets/{name}.sheet", streams.fault_of(ended(program, sheets.text(name)), second_pbm.picture_text(sheets.text(name)))


def arguments():
    options = argparse.ArgumentParser(description="Compares the proved writing and reading of pictures with the second program.")
    options.add_argument("--seed", type=int, default=20250404)
    options.add_argument("--cases", type=int, default=4000)
    options.add_argument("--only", type=int)
    options.add_argument("--program", type=pathlib.Path, default=made("compare_pictures"))
    options.add_argument("--picture", type=pathlib.Path, default=made("picture"))
    devices.add_option(options)
    return options.parse_args()


def main():
    chosen = arguments()
    cases = [*all_cases(chosen.seed, chosen.cases), *depicting(random.Random(f"{chosen.seed} sheets"))]
    if chosen.only is not None:
        cases = cases[chosen.only:chosen.only + 1] or sys.exit(f"pictures: there are {len(cases)} cases, counted from 0")
    rights = [second_answer(case) for case in cases]
    answers = run(chosen.program, cases)
    wrong, faults = list(disagreements(cases, answers, rights, chosen.only or 0)), misjudged(cases, rights)
    back, runs = list(given_back(chosen.program, random.Random(f"{chosen.seed} given back"), cases, answers)), []
    if chosen.only is None:
        faults += [f"never came up: {thing}" for thing in pbm_coverage.tally(cases, rights)] + list(untold(cases, rights))
        if written_by(chosen.program, MADE) != bytes(second_pbm.ROOM):
            faults.append(f"the place that is made for `depict` is other than {second_pbm.ROOM} zeros")
        if not chosen.picture.is_file():
            sys.exit(f"pictures: {absent(chosen.picture)}")
        runs = list(picture_runs(chosen.picture, cases))
    untried = devices.left_out(runs, chosen)
    failed = [(name, fault) for name, fault in runs if fault and (name, fault) not in untried]
    for lines in (wrong, back, faults, [f"picture, {name}: {fault}" for name, fault in failed]):
        print("".join(f"{line}\n" for line in lines[:SHOWN]), end="")
        if len(lines) > SHOWN:
            print(f"and {len(lines) - SHOWN} more like these")
    written = sum(case.call == "write" and right[0] == 0 for case, right in zip(cases, rights))
    print(f"pictures: seed {chosen.seed}, {len(cases) - len(wrong)} of {len(cases)} answers agree, {written - len(back)} of {written} pictures are read "
          f"back, {len(runs) - len(failed) - len(untried)} of {len(runs)} runs of picture are right, {len(faults)} faults besides")
    devices.tell(runs, chosen)
    return 1 if wrong or back or faults or failed else 0


if __name__ == "__main__":
    sys.exit(main())
