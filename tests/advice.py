"""What `./sheet` says of a sheet that weighs too much, held to the second program: for tests/script.py.

The claims are taken out of the lines, and made good in the text itself: other numbers in its D, K and B lines, other coefficients. The second program
answers the text that comes of it. Of each kind of change many are tried, the ends of what is said and one step beyond them among these: what is said
to be enough is accepted, and what is not said is refused. How the script finds what it says is not asked.
"""
import math
import random
import re

import second
import second_text
from case_sheets import EDGE, Sheet, accepted, any_far_out, heavier, heavy
from second_text import written
from text_cases import rows_of, text_of
from weights import letters_of

SAID = "refused by 6: the weight is 2^62 or more, and 64 bits might not hold every number"
WEIGHT = "The weight says how large numbers can get here: it has {} binary digits, and 62 are the most."
SEED, RANDOM = 20250404, 300

# the lines of a text, how many binary digits its weight has, and what else is said of it
SHEETS = [
    # a smaller degree is enough, with a term of 0 that stays, and with terms of 0 that go; or it is not
    ("D 8|B 0 0 0|K 7|M 0|T 0 0 1", 65, "D<tab>0 is enough for the terms, and with it the sheet is accepted."),
    ("D 8|B 0 1024 0|K 7|M 0|T 4 0 1|T 0 4 0", 65, "D<tab>4 is enough for the terms, and with it the sheet is accepted."),
    ("D 8|B 0 0 0|K 7|M 0|T 5 3 0|T 1 3 0|T 3 0 2", 66,
     "D<tab>3 is enough for the terms, once those that are 0 are left out, and with it the sheet is accepted."),
    ("D 8|B 1024 1024 0|K 7|M 0|T 4 0 1", 105,
     "D<tab>4 is enough for the terms.", "With D<tab>4 any of these changes is enough:", "    K<tab>4 or less", "    X from -181 to 180"),
    ("D 8|B -512 -512 10|K 7|M 0|T 6 0 0|T 0 5 1|T 5 0 1", 111,
     "D<tab>5 is enough for the terms, once those that are 0 are left out.", "With D<tab>5 this change is enough:", "    K<tab>2 or less"),
    # a smaller depth, on squares that are as near as can be, and on some that are not
    ("D 8|B 0 0 0|K 7|M 0|T 8 0 1", 65, "This change is enough:", "    K<tab>6 or less"),
    ("D 8|B -1 -1 1|K 7|M 1|T 4 4 -1", 65, "This change is enough:", "    K<tab>6 or less"),
    ("D 8|B 0 1048575 0|K 7|M 0|T 8 0 1|T 0 7 0", 65, "This change is enough:", "    K<tab>6 or less"),
    ("D 8|B 0 0 0|K 7|M 0|T 1 0 1|T 0 8 1|T 8 0 -2", 67, "This change is enough:", "    K<tab>6 or less"),
    ("D 8|B 3 0 0|K 7|M 0|T 1 0 1|T 0 8 1", 67, "This change is enough:", "    K<tab>6 or less"),
    ("D 8|B 20 -20 0|K 7|M 0|T 8 0 1|T 0 8 1", 100, "This change is enough:", "    K<tab>2 or less"),
    # one coordinate, or the coefficients: far along y with powers of x alone, of y alone, and of both; at the edge, and at one place only
    ("D 4|B 0 1024 0|K 7|M 0|T 4 0 1073741824", 63, "Any of these changes is enough:", "    K<tab>6 or less",
     "    every coefficient divided by 1,073,741,824, which leaves the curve as it is"),
    ("D 4|B 0 1024 0|K 7|M 0|T 0 4 6|T 0 0 12", 75, "Any of these changes is enough:", "    K<tab>3 or less", "    Y from -115 to 114"),
    ("D 5|B -1024 1024 3|K 3|M 0|T 4 0 1|T 1 4 7", 73, "Any of these changes is enough:", "    K<tab>0", "    Y from -146 to 138"),
    ("D 8|B 1000 1000 0|K 0|M 0|T 4 4 1", 88, "Any of these changes is enough:", "    X from -11 to 10", "    Y from -11 to 10"),
    ("D 8|B 1048576 7 0|K 0|M 0|T 8 0 -1", 169, "This change is enough:", "    X from -107 to 106"),
    ("D 2|B 1048576 0 10|K 7|M 0|T 2 0 63|T 1 0 994739", 63, "Any of these changes is enough:", "    K<tab>6 or less",
     "    B<tab>1048576<tab>0<tab>8, a smaller square", "    X from -1,048,576 to 1,047,975"),
    ("D 2|B 0 0 10|K 7|M 0|T 2 0 134217728|T 0 0 1", 64, "Any of these changes is enough:", "    K<tab>6 or less",
     "    B<tab>0<tab>0<tab>9, a smaller square", "    X from -724 to -300"),
    ("D 2|B 0 0 10|K 7|M 0|T 0 2 -268435455|T 0 0 1", 64, "Any of these changes is enough:", "    K<tab>6 or less",
     "    B<tab>0<tab>0<tab>9, a smaller square", "    Y at -512"),
    # both coordinates, or a square with its middle at the origin along both axes, or along one
    ("D 8|B 1000 1000 0|K 0|M 0|T 8 0 1|T 0 8 1", 89, "This change is enough:", "    X and Y both from -98 to 97"),
    ("D 8|B -512 -512 10|K 0|M 0|T 4 4 1", 81, "This change is enough:", "    B<tab>-64<tab>-64<tab>7, a smaller square"),
    ("D 8|B -512 1000 10|K 3|M 0|T 8 0 1", 105, "This change is enough:", "    B<tab>-8<tab>1000<tab>4, a smaller square"),
    # nothing at this depth
    ("D 8|B 0 0 10|K 7|M 0|T 8 0 1", 145,
     "No depth is enough by itself.", "With K<tab>6 this change is enough:", "    B<tab>0<tab>0<tab>0, a smaller square"),
    ("D 8|B 0 0 10|K 7|M 0|T 7 0 100", 141, "D<tab>7 is enough for the terms.",
     "No depth is enough by itself.", "With D<tab>7 and K<tab>6 this change is enough:", "    B<tab>0<tab>0<tab>0, a smaller square"),
    ("D 8|B -512 0 10|K 7|M 0|T 4 4 5", 143,
     "No depth is enough by itself.", "With K<tab>6 this change is enough:", "    B<tab>-1<tab>-1<tab>1, a smaller square"),
]
TOLD = [(written(*lines.split("|")), [WEIGHT.format(digits), *said]) for lines, digits, *said in SHEETS]
# texts that 6 is never given to: nothing is said of them
UNREAD = [b"", written("D 8", "B 0 0 0", "K 7", "M 0", "T 8 0 x")]


# ---- what is said

LINES = re.compile(r"""The\ weight\ says\ how\ large\ numbers\ can\ get\ here:\ it\ has\ (?P<digits>\d+)\ binary\ digits,\ and\ 62\ are\ the\ most\.\n
    (?:D<tab>(?P<d>\d)\ is\ enough\ for\ the\ terms(?P<zeros>,\ once\ those\ that\ are\ 0\ are\ left\ out)?
        (?P<alone>,\ and\ with\ it\ the\ sheet\ is\ accepted)?\.\n)?
    (?:(?P<no_depth>No\ depth\ is\ enough\ by\ itself\.\n)?
        (?:With\ (?:D<tab>(?P<with_d>\d))?(?:\ and\ )?(?:K<tab>(?P<depth>\d))?\ )?(?P<these>[Tt]his\ change|[Aa]ny\ of\ these\ changes)\ is\ enough:\n
        (?P<changes>(?:\ {4}.+\n)+))?""", re.X)
RANGE = r"(?:from (-?[\d,]+) to (-?[\d,]+)|at (-?[\d,]+))"
# the kinds of changes, and the numbers of each: a depth; a corner and a side; the ends of a range, or one place; a divisor
CHANGES = {
    "K": r"K<tab>(?:([1-7]) or less|(0))",
    "B": r"B<tab>(-?\d+)<tab>(-?\d+)<tab>(\d+), a smaller square",
    "X": f"X {RANGE}",
    "Y": f"Y {RANGE}",
    "by": r"every coefficient divided by ([\d,]+), which leaves the curve as it is",
    "both": f"X and Y both {RANGE}",
}


def changes_in(lines, corner):
    """The numbers of each change that is said to be enough; None where a line says something else. A square with another corner is another kind."""
    found = {}
    for line in lines:
        kind, fields = next(((kind, match.groups()) for kind, form in CHANGES.items() if (match := re.fullmatch(form, line.strip()))), (None, ()))
        if kind is None or kind in found:
            return None
        found[kind] = [int(field.replace(",", "")) for field in fields if field]
    if found.get("B", corner)[:2] != corner:
        found["square"] = found.pop("B")
    return found


# ---- a text with other numbers

FIELDS = {"d": (0, 1), "X": (1, 1), "Y": (1, 2), "s": (1, 3), "k": (2, 1)}


def changed(text, zeros=True, by=1, **others):
    """A text with other numbers, with or without its terms of 0, and with its coefficients divided."""
    rows = [line.split(b"\t") for line in text.split(b"\n")[:-1]]
    for name, other in others.items():
        row, field = FIELDS[name]
        rows[row][field] = b"%d" % other
    terms = [[*term, b"%d" % (int(A) // by)] for *term, A in rows[4:] if zeros or int(A)]
    return text_of(rows[:4] + terms)


def number(text, **other):
    """What the second program answers to a text that is changed so."""
    return second_text.read(changed(text, **other))[0]


# ---- what is tried

def places(rng, s, ends):
    """Some of the numbers that X or Y may be: about the ends of what is said, about the nearest to the origin and about the edges, and others."""
    nearest = -(2 ** s // 2)
    some = [rng.choice((-1, 1)) * rng.randint(0, 2 ** rng.randint(0, 20)) for _ in range(6)]
    return {*some, *(Z + step for Z in (*ends, nearest, -EDGE, EDGE) for step in (-1, 0, 1))}


def within(ends, Z):
    return bool(ends) and ends[0] <= Z <= ends[-1]


def one_change(rng, told, s, common):
    """Changes of one thing, and whether each is said to be enough."""
    depth, side, by = told.get("K", [-1])[0], told.get("B", [-1])[-1], told.get("by")
    yield from (({"k": k}, k <= depth) for k in range(8))
    yield from (({"s": less}, less <= side) for less in range(11))
    for name in "XY":
        yield from (({name: Z}, within(told.get(name), Z)) for Z in places(rng, s, told.get(name, ())))
    yield {"by": common}, by == [common]


def both_moved(rng, told, s):
    """The same for X and Y moved as far on the same side, and on two sides."""
    ends = told.get("both", ())
    for Z in places(rng, s, ends):
        yield from (({"X": Z, "Y": other}, within(ends, Z) and within(ends, other)) for other in (Z, -Z - 2 ** s))


def other_square(told, X, Y, names):
    """The same for squares of any side that have their middle at the origin along the axes that are named, and along the other the same corner."""
    squares = [{"X": X, "Y": Y, "s": s, **dict.fromkeys(names, -(2 ** s // 2))} for s in range(11)]
    side = next((square["s"] for square in squares if [*square.values()] == told.get("square")), -1)
    return [(square, square["s"] <= side) for square in squares]


def tried(text, base, trials):
    """What is wrong with what is said of some changes beside others, or nothing; and whether any of them is enough."""
    met = False
    for change, said in trials:
        answer = number(text, **{**base, **change})
        outside = any(abs(change.get(name, 0)) > EDGE for name in "XY")
        if (answer == 0) != said or answer not in (0, 4 if outside else 6):
            return f"is answered by {answer} with {base} and {change}, which is {'' if said else 'not '}said to be enough", met
        met = met or answer == 0
    return None, met


def changes_fault(rng, text, base, told):
    """What is wrong with the changes that are said to be enough, or nothing. Two things are changed only where no one is enough; and the square gets
    another corner and side only where it is enough at no place."""
    _, (d, X, Y, s, _, _), named = second_text.parsed(text)
    names, common = letters_of(d, second.terms(d, named)).upper(), math.gcd(*named.values())
    if told.get("by", [common]) != [common]:
        return f"has the common factor {common}"
    kinds = [
        (("K", "B", "X", "Y", "by"), one_change(rng, told, s, common)),
        (("both",), both_moved(rng, told, s)),
        (("square",), other_square(told, X, Y, names)),
    ]
    for some, trials in kinds:
        fault, met = tried(text, base, trials)
        if fault or met:
            return fault or (None if {*told} <= {*some} else f"is told of {told}, and of {some} there are some that are enough")
    return f"is told of {told}, and nothing is enough" if told else None


# ---- all that is said

def degree_fault(text, d, said):
    """What is wrong with what is said of the degree, or nothing."""
    need = int(said["d"] or d)
    if need > d or said["d"] and need == d:
        return "is told of a degree that is no smaller"
    if need and number(text, d=need - 1, zeros=False) != 18:
        return f"needs no degree of {need}"
    if said["zeros"] and number(text, d=need) != 18:
        return "is told of terms of 0 that are not in the way"
    answer = number(text, d=need, zeros=not said["zeros"])
    return None if answer == (0 if said["alone"] else 6) else f"is answered by {answer} with a degree of {need}"


def start_fault(k, said, told):
    """What is wrong with the words before the changes, or nothing."""
    if not told:
        return "is told of no change, or of one in other words"
    if said["with_d"] != said["d"] or bool(said["depth"]) != bool(said["no_depth"]) or said["depth"] and int(said["depth"]) >= k:
        return "is told of another degree, or of a depth that is no smaller"
    these = "this change" if len(told) == 1 else "any of these changes"
    if said["these"] != (these if said["d"] or said["depth"] else these.capitalize()):
        return f"is told of {len(told)} changes in other words"
    return None


def fault_of(rng, text, hints):
    """What is wrong with what is said of a text, or nothing. Where a depth is to be set first, nothing is enough at any larger one."""
    said = LINES.fullmatch("".join(f"{hint}\n" for hint in hints))
    _, (d, X, Y, s, k, _), named = second_text.parsed(text)
    if number(text) != 6 or not said:
        return "is not refused by 6, or is told of in other words"
    if int(said["digits"]) != second.weight_of(d, second.terms(d, named), X, Y, s, k).bit_length():
        return "has another weight"
    fault = degree_fault(text, d, said)
    if fault or said["alone"]:
        return fault or ("is told of more than the degree, which is enough" if said["these"] else None)
    told = changes_in((said["changes"] or "").splitlines(), [X, Y])
    fault = start_fault(k, said, told)
    if fault:
        return fault
    depth, base = int(said["depth"] or k), {"d": int(said["d"] or d), "zeros": not said["zeros"]}
    faults = (changes_fault(rng, text, {**base, "k": other}, told if other == depth else {}) for other in range(depth, k + 1))
    return next(filter(None, faults), None)


# ---- texts

def any_sheet(rng):
    """A sheet of any kind, with a few terms that may have a common factor."""
    d, common = rng.randint(0, 8), rng.choice((1, 1, rng.randint(2, 9), 2 ** rng.randint(1, 20)))
    few = rng.sample(second.exponents(d), rng.randint(1, min(4, len(second.exponents(d)))))
    named = {e: rng.choice((-1, 1)) * common * rng.randint(1, 2 ** rng.randint(0, 30) // common + 1) for e in few}
    X, Y = (rng.choice((-1, 1)) * rng.randint(0, 2 ** rng.randint(0, 20)) for _ in "XY")
    s = rng.randint(0, 10)
    return Sheet(d, second.terms(d, named), *rng.choice(((X, Y), (X, Y), (-(2 ** s // 2),) * 2)), s, rng.randint(0, 7))


def random_texts(rng):
    """Random texts that are refused by 6, of sheets at the limit and beyond it, near and far; in some the degree is larger than need be."""
    found = 0
    while found < RANDOM:
        sheet = rng.choice((lambda: heavy(rng, 2 ** 62), lambda: any_far_out(rng, range(8), 2 ** 62), lambda: any_sheet(rng), lambda: any_sheet(rng),
                            lambda: heavier(rng, accepted(rng, rng.randint(1, 8), rng.randint(0, 7)))))()
        if rng.random() < 0.3:
            d = rng.randint(sheet.d, 8)
            sheet = sheet._replace(d=d, coefficients=second.terms(d, second.table(sheet.d, sheet.coefficients)))
        text = text_of(rows_of(rng, sheet, rng.randint(0, 1)))
        if number(text) == 6:
            found += 1
            yield text


def kinds_in(text, hints):
    """The kinds of what is said of a text."""
    said = LINES.fullmatch("".join(f"{hint}\n" for hint in hints))
    _, (_, X, Y, *_), _ = second_text.parsed(text)
    return {*changes_in((said["changes"] or "").splitlines(), [X, Y]), *(kind for kind in ("d", "zeros", "alone", "depth") if said[kind])}


# ---- all of it

def checks(script):
    """What is tried, and whether it is as it should be."""
    def hints(text):
        first, *more = script.refusal(text, b"refused\t6\t0\t0\n")
        return [line.removeprefix("    ") for line in more] if first == SAID and all(line.startswith("    ") for line in more) else ["no hints"]

    rng = random.Random(SEED)
    for text, told in TOLD:
        yield f"{text!r} is told of in words", hints(text) == told
        yield f"what is told of {text!r}", fault_of(rng, text, told) is None
    for text in UNREAD:
        yield f"nothing is told of {text[:80]!r}", hints(text) == []
    texts = [*random_texts(rng)]
    faults = [(text, fault) for text in texts if (fault := fault_of(rng, text, hints(text)))]
    yield f"what is told of {RANDOM} random texts, but of {faults[:1]}", not faults
    met = set() if faults else {kind for text in texts for kind in kinds_in(text, hints(text))}
    yield f"of {RANDOM} random texts is told {sorted(met)}", met == {*CHANGES, "square", "d", "zeros", "alone", "depth"}
