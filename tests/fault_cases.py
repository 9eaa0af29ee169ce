"""Texts with one, two and three faults at once in one line, and what the texts of a run must show of faults, for tests/texts.py and tests/many.py.

For each kind of line every set of one, two or three faults that can stand together is put into a good line, a few times, with other fields and bytes
each time; before it stand good lines, after it any. A fault is told by a name. What decides follows from the names alone, by a rule of its own: the
faults of each line stand here in a row, and the first of them that was put in decides. A field can be badly written and have a number besides that is
outside 32 bits, negative or an exponent beyond, in the eyes of one who reads it loosely: these are faults at once, too. So are an exponent that is
negative or outside 32 bits and a term fault, in the eyes of one who loses its sign, or all bits but 32: -2 or 2^32 + 2 where a term with 2 was named.

What was put into a line is not taken from its maker's word: tests/fault_rules.py looks at the lines, by a rule of its own.
"""
import collections
import itertools
import random

from case_sheets import MOST31
from fault_rules import faults_seen
from second_text import written
from text_cases import NEGATIVE, NOT_WRITTEN, OTHER_LETTERS, Case, all_cases, row, small, text_of

# how many texts are made of each set of so many faults
TIMES = {1: 60, 2: 30, 3: 14}
COUNTS = {b"D": 1, b"B": 3, b"K": 1, b"M": 1, b"T": 3}
LETTERS = [*COUNTS]
# the fields that may hold a negative number
SIGNED = [(b"B", 2), (b"B", 3), (b"T", 4)]
TERM = {"the sum beyond": (18, 2), "i above 8": (18, 2), "j above 8": (18, 2), "twice": (19, 2)}
# numbers outside 32 bits, some of which are small where high digits are lost; exponents above 8; numbers that are negative
OUTSIDE = (2 ** 31, 2 ** 31 + 1, 2 ** 32 - 1, 2 ** 32, 2 ** 32 + 1, 2 ** 32 + 9, 2 ** 63, 2 ** 64, 2 ** 64 + 1, 10 ** 10 - 1, 10 ** 10, 2 ** 128)
ABOVE = (9, 9, 9, 10, 16, 17, 255, 256, 257, 65_536, MOST31 - 8, MOST31)
BELOW = tuple(map(int, NEGATIVE))
# what a number loses of which 32 bits are kept
LOST = (2 ** 32, 2 ** 32, 2 ** 33, 2 ** 63, 2 ** 64)
# a number badly written, so that one who reads it loosely finds it still
LOOSELY = [lambda sign, digits: sign + b"0" + digits, lambda sign, digits: sign + b"000" + digits, lambda sign, digits: b"+" + sign + digits,
           *(lambda sign, digits, more=more: sign + digits + more for more in (b" ", b"x", b"\r", b"-", b".0", b"\x00", b"\xb2")),
           *(lambda sign, digits, more=more: more + sign + digits for more in (b" ", b"\x0b", b"'"))]
SCRAWLS = [bad for bad in NOT_WRITTEN if len(bad) < 100]
# lines that stand after the one with the faults
STRAYS = [line.split(b"\t") for line in written("", "Q", "D 1", "M 0", "T", "T 0 0", "T 9 0 1", "T 0 0 x", "T x 0 1", "B 0 0 -1", "K 99999999999",
                                                 "  ").split(b"\n")]


# ---- what can stand together, and what decides

def in_a_row(letter):
    """The faults of a line with a letter, in the order in which they are tried: the number and the field of each, by its name."""
    faults = {"letter": (14, 1), "a field less": (15, 0), "a field more": (15, 0)}
    for field in range(2, 2 + COUNTS[letter]):
        if (letter, field) == (b"T", 4):
            faults |= TERM
        faults |= {f"{field} badly written": (16, field), f"{field} outside": (17, field)}
        if (letter, field) not in SIGNED:
            faults[f"{field} negative"] = 17, field
    return {**faults, "unended": (20, 0)}


FAULTS = {letter: in_a_row(letter) for letter in LETTERS}


def decides(letter, names):
    """The number and the field that are right for a line with such faults."""
    return next(answer for name, answer in FAULTS[letter].items() if name in names)


def together(letter, names):
    """Whether faults can stand together in a line with a letter: the field that is left out is the last one."""
    if {"a field less", "a field more"} <= names:
        return False
    if "a field less" in names and any(name.startswith(str(COUNTS[letter] + 1)) for name in names):
        return False
    return "twice" not in names or len(names & {*TERM}) == 1


def sets_of(letter, size):
    return [names for names in itertools.combinations(FAULTS[letter], size) if together(letter, {*names})]


SETS = [(letter, names) for letter in LETTERS for size in TIMES for names in sets_of(letter, size)]


# ---- a line with faults

def number_with(rng, names, letter, field, good):
    """The number of a field, by its faults: the good one where it has none."""
    if f"{field} outside" in names:
        number, minus = rng.choice(OUTSIDE), f"{field} negative" in names or (letter, field) in SIGNED and rng.random() < 0.5
        return -number - 1 if minus else number
    return rng.choice(BELOW) if f"{field} negative" in names else good


def disguised(rng, names, field, e):
    """A number by the faults of a field, which one takes for an exponent who loses its sign, all bits but 32, or both."""
    outside, negative = f"{field} outside" in names, f"{field} negative" in names
    if outside:
        return rng.choice((e, -e)) - rng.choice(LOST) if negative else rng.choice((e, e, -e)) + rng.choice(LOST)
    return -e if negative else e


def signable(names, pair):
    """Whether exponents can be negative where they are to be: -0 is badly written, and no negative number."""
    return all(e or f"{field} negative" not in names or f"{field} outside" in names for field, e in enumerate(pair, 2))


def field_with(rng, names, field, number):
    """The bytes of a field. What is badly written has a number that can be guessed, or has none."""
    plain = b"%d" % number
    if f"{field} badly written" not in names:
        return plain
    if rng.random() < 0.3 and not names & {f"{field} outside", f"{field} negative", *TERM}:
        return rng.choice(SCRAWLS)
    return rng.choice(LOOSELY)(b"-" * (number < 0), plain.removeprefix(b"-"))


def exponents_with(rng, names, d, named):
    """The exponents of a term by its term faults, and a declared degree with which just these hold, where d is enough for the terms named before.

    Where the pair that was picked would not do another is picked.
    """
    while True:
        i, j = rng.choice(named) if "twice" in names else (rng.choice(ABOVE) if f"{name} above 8" in names else rng.randint(0, 8) for name in "ij")
        total = i + j
        if not signable(names, (i, j)):
            continue
        if "twice" in names:
            return i, j, d
        if "the sum beyond" in names and total > d:
            return i, j, rng.choice((d, rng.randint(d, min(total - 1, MOST31)), min(total - 1, MOST31)))
        if "the sum beyond" not in names and total <= MOST31 and (i, j) not in named:
            return i, j, rng.choice((max(d, total), max(d, total), min(max(d, total) + 1, MOST31)))


def exponent_with(rng, names, field, e, free):
    """The number of an exponent's field: one that can be taken for the exponent, but where it is free and no term fault hangs on it."""
    hangs = names & {"twice", "the sum beyond", "%s above 8" % "ij"[field - 2]}
    return number_with(rng, names, b"T", field, e) if free and not hangs else disguised(rng, names, field, e)


def line_with(rng, names, letter, numbers):
    """The fields of a line with such faults and such numbers."""
    fields = [letter, *(field_with(rng, names, field, number) for field, number in enumerate(numbers, 2))]
    if "letter" in names:
        fields[0] = rng.choice([other for other in OTHER_LETTERS if other != letter])
    if "a field less" in names:
        kept = max([1, *(int(name[0]) for name in names if name[0].isdigit()), *(3 for name in names if name in TERM)])
        fields = fields[:rng.randint(kept, COUNTS[letter])]
    if "a field more" in names:
        fields += rng.choices((b"", b"0", b"1", b"-1", b"x", b"\r", letter), k=rng.choice((1, 1, 1, 2, 3)))
    # no line is empty and unended: there would be none
    return [b"Z"] if fields == [b""] and "unended" in names else fields


def head_with(rng, rows, at, names):
    """A line of the first four with faults, and those before it."""
    letter, *numbers = rows[at]
    return rows[:at], line_with(rng, names, letter, [number_with(rng, names, letter, field, int(good)) for field, good in enumerate(numbers, 2)])


def named_in(rows):
    return [(int(i), int(j)) for _, i, j, _ in rows[4:]]


def term_with(rng, rows, at, names):
    """A term with faults, and the lines before it."""
    i, j, d = exponents_with(rng, names, int(rows[0][1]), named_in(rows[:at]))
    free = rng.random() < 0.4
    numbers = [exponent_with(rng, names, field, e, free) for field, e in ((2, i), (3, j))]
    numbers.append(number_with(rng, names, b"T", 4, rng.choice((0, 1, -7))))
    return [row("D", d), *rows[1:at]], line_with(rng, names, b"T", numbers)


def after(rng, rows):
    """What stands after the line with the faults: good lines, bad ones among them, all of it or a part."""
    lines = [*rows, *rng.choices(STRAYS, k=rng.choice((0, 0, 1, 2, 3)))]
    rng.shuffle(lines)
    text = text_of(lines)
    return text[:rng.randint(0, len(text))] if rng.random() < 0.2 else text


# ---- texts

def with_faults(rng, letter, names):
    """A text whose first bad line has such faults."""
    rows, names = small(rng), {*names}
    at = LETTERS.index(letter) if letter != b"T" else rng.randint(5 if "twice" in names else 4, len(rows))
    if "twice" in names and not any(signable(names, pair) for pair in named_in(rows[:at])):
        return with_faults(rng, letter, names)  # no term before the line can be given twice in such a way
    before, line = (term_with if letter == b"T" else head_with)(rng, rows, at, names)
    text = text_of([*before, line])
    text = text[:-1] if "unended" in names else text + after(rng, rows[at + 1:])
    number, field = decides(letter, names)
    return Case(f"{len(names)} at once in one line", text, number, at + 1, field, (letter, frozenset(names)))


def every_fault(rng):
    """Each set of faults in each line, some times."""
    return (with_faults(rng, letter, names) for letter, names in SETS for _ in range(TIMES[len(names)]))


def any_faults(rng):
    return with_faults(rng, *rng.choice(SETS))


def every_text(seed, count):
    """All texts of a run: those with faults at once, and last those of tests/text_cases.py, so many of them at random."""
    return [*every_fault(random.Random(f"{seed} faults")), *all_cases(seed, count)]


# ---- what every run must show

# the numbers with the fields at which they can stand, and the letters of such lines: a missing line counts for the letter that it would have
CELLS = {(14, 0): "DBKM", (14, 1): "DBKMT", (15, 0): "DBKMT", (16, 2): "DBKMT", (16, 3): "BT", (16, 4): "BT",
         (17, 2): "DBKMT", (17, 3): "BT", (17, 4): "BT", (18, 2): "T", (19, 2): "T", (20, 0): "DBKMT"}
NAMES = {(number, field): f"{number} at {field}" for number, field in CELLS}


def cell_of(number, line, field):
    """The cell of a fault: its number, its field and the letter of its line."""
    return number, field, "DBKMT"[min(line, 5) - 1]


def every_cell():
    return [(*fault, letter) for fault, letters in CELLS.items() for letter in letters]


def impossible(answers):
    """The cells of answers that are none of these."""
    return ["%d at field %d in a line of %s came up, and cannot" % cell for cell in {cell_of(*answer) for answer in answers} - {*every_cell()}]


def pairs_of(letter, names):
    """The faults of a line two by two, each as its number and its field: each two once."""
    return {tuple(sorted(map(FAULTS[letter].get, two))) for two in itertools.combinations(names, 2)}


PAIRS = {pair for letter, names in SETS for pair in pairs_of(letter, names)}


def shown(title, heads, rows):
    """Prints counts under their heads, each row after its name: - stands where nothing can come up."""
    print(title)
    for name, *counts in [("", *heads), *rows]:
        print(f"{name:8}" + "".join(f"{count:>8}" for count in counts))


def show_cells(decided):
    """Prints how often each fault decided."""
    rows = [(NAMES[fault], *(decided[*fault, letter] if letter in letters else "-" for letter in "DBKMT")) for fault, letters in CELLS.items()]
    shown("lines refused, by number and field, and by letter", "DBKMT", rows)


def show_pairs(pairs):
    """Prints how often two faults were put into one line, alone or with a third."""
    heads = [fault for fault in CELLS if fault != (14, 0)]
    rows = [(NAMES[one], *(pairs[one, two] if (one, two) in PAIRS else "-" if one <= two else "" for two in heads)) for one in heads]
    shown("two faults put into one line, by number and field", map(NAMES.get, heads), rows)


def seen_in(text, answer):
    """The letter of the bad line of a text and all faults seen in it, by the answer: a number, a line, a field; nothing where the line is missing."""
    number, line, field = answer
    return (LETTERS[min(line, 5) - 1], frozenset(faults_seen(text, line))) if number >= 14 and (number, field) != (14, 0) else None


def misput(cases, answers):
    """The texts in which not all faults are seen that were put in; and what is seen in one line, of any text, and is said not to stand together."""
    seen = [seen_in(case.text, answer) for case, answer in zip(cases, answers)]
    for case, found in zip(cases, seen):
        if case.faults and not (found and found[0] == case.faults[0] and case.faults[1] <= found[1]):
            yield f"{', '.join(sorted(case.faults[1]))} were put into a line, and {found} is seen in {case.text!r}"
    twos = {(letter, two) for letter, names in {*seen} - {None} for two in itertools.combinations(sorted(names), 2)}
    yield from (f"{' and '.join(two)} are seen in one line of {letter.decode()}, and are said not to stand together" for letter, two in sorted(twos)
                if not together(letter, {*two}))


def tally(cases, answers):
    """Prints how often each fault decided and how often two stood in one line, and tells what never came up. An answer: a number, a line, a field.

    A set of faults came up where a line was seen that has just these, whatever was put into it.
    """
    seen = {seen_in(case.text, answer) for case, answer in zip(cases, answers)}
    decided = collections.Counter(cell_of(*answer) for answer in answers if answer[0] >= 14)
    sets = collections.Counter(case.faults for case in cases if case.faults)
    show_cells(decided)
    show_pairs(collections.Counter(pair for case in cases if case.faults for pair in pairs_of(*case.faults)))
    counts = collections.Counter(len(names) for _, names in sets)
    print("put into one line: " + ", ".join(f"{counts[size]} sets of {size}" for size in TIMES) + f" faults, in {sum(sets.values())} texts")
    yield from ("%d at field %d in a line of %s" % cell for cell in every_cell() if not decided[cell])
    yield from (f"in one line of {letter.decode()} just: {', '.join(names)}" for letter, names in SETS if (letter, frozenset(names)) not in seen)
