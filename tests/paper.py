"""Table 1 of a paper, made of sheets: docs/TABLE-1.md.

Shou, Martin, Wang, Bowyer and Voiculescu plot ten curves on the square from (0, 0) to (1, 1) with 256 by 256 pixels, and count for the bounds that are
mode 0 here (their MAA) the pixels plotted and the subdivisions. A sheet has at most 128 by 128 cells, so the square is taken in parts: a coarse sheet
cuts the whole square into 2 by 2 parts, and each part that it colours is a sheet of depth 7. A curve too heavy for that is cut into 4 by 4 parts, of
depth 6. The pixels are the coloured cells of the parts; the subdivisions are the cells cut, in the coarse sheet and in the parts.

Every sheet is answered by the program `listing`. The second program walks the whole square in one piece, at depth 8 and, where need be, with degree 9,
which no sheet has; all cells cleared and coloured must be the same. Every figure of the document must be what comes of it.

    python3 tests/paper.py                          compares
    python3 tests/paper.py --table                  prints the table for the document
    python3 tests/paper.py --sheet N [--depth K]    prints the text of one sheet of the whole square of example N, for ./sheet
"""
import argparse
import collections
import functools
import sys
from fractions import Fraction
from math import comb, gcd, lcm

sys.dont_write_bytecode = True  # nothing is left in the tree
import second
import second_text
import second_walk
from program import ROOT, made, written_by
from script import module

PAGE = ROOT / "docs" / "TABLE-1.md"
DEPTH = 8  # 256 by 256 pixels
FINEST = 3  # the square is cut into at most 8 by 8 parts
SHOWN = 10, 5  # the example and the depth of the document's picture
# where a lighter placement of a quarter is looked for: sides of 1, 2, 4 and 8, and along each axis no farther from the origin than so many sides
SCALES, AWAY = range(4), 4
MARKS = {"open": "0", "above": "+", "below": "-"}

# the equations as they are printed, f = 0 being plotted, with the pixels plotted and the subdivisions of the rows named MAA
Printed = collections.namedtuple("Printed", "equation pixels subdivisions")
EXAMPLES = {
    1: Printed("15/4 + 8*x - 16*x^2 + 8*y - 112*x*y + 128*x^2*y - 16*y^2 + 128*x*y^2 - 128*x^2*y^2", 526, 563),
    2: Printed("20160*x^5 - 30176*x^4 + 14156*x^3 - 2344*x^2 + 151*x + 237 - 480*y", 433, 459),
    3: Printed("0.945*x*y - 9.43214*x^2*y^3 + 7.4554*x^3*y^2 + y^4 - x^3", 608, 634),
    4: Printed("x^9 - x^7*y + 3*x^2*y^6 - y^3 + y^5 + y^4*x - 4*y^4*x^3", 816, 857),
    5: Printed("-1801/50 + 280*x - 816*x^2 + 1056*x^3 - 512*x^4 + 1601/25*y - 512*x*y + 1536*x^2*y - 2048*x^3*y + 1024*x^4*y", 464, 611),
    6: Printed("601/9 - 872/3*x + 544*x^2 - 512*x^3 + 256*x^4 - 2728/9*y + 2384/3*x*y - 768*x^2*y + 5104/9*y^2 - 2432/3*x*y^2 + 768*x^2*y^2"
               " - 512*y^3 + 256*y^4", 460, 560),
    7: Printed("-13 + 32*x - 288*x^2 + 512*x^3 - 256*x^4 + 64*y - 112*y^2 + 256*x*y^2 - 256*x^2*y^2", 512, 627),
    8: Printed("-169/64 + 51/8*x - 11*x^2 + 8*x^3 + 9*y - 8*x*y - 9*y^2 + 8*x*y^2", 818, 827),
    9: Printed("47.6 - 220.8*x + 476.8*x^2 - 512*x^3 + 256*x^4 - 220.8*y + 512*x*y - 512*x^2*y + 476.8*y^2 - 512*x*y^2 + 512*x^2*y^2"
               " - 512*y^3 + 256*y^4", 1144, 1269),
    10: Printed("55/256 - x + 2*x^2 - 2*x^3 + x^4 - 55/64*y + 2*x*y - 2*x^2*y + 119/64*y^2 - 2*x*y^2 + 2*x^2*y^2 - 2*y^3 + y^4", 784, 845),
}

# a sheet of mode 0: its coefficients stand under their exponents
Sheet = collections.namedtuple("Sheet", "d named X Y s k")
# what the program gives for a curve: how often the square is cut into parts, the parts' sheets, the two counts, and each cell's mark
Plot = collections.namedtuple("Plot", "cuts sheets pixels subdivisions cells")


# ---- polynomials in exact fractions

def term(text):
    """A term's exponents and its coefficient."""
    powers, coefficient = {"x": 0, "y": 0}, Fraction(-1 if text.startswith("-") else 1)
    for factor in text.removeprefix("-").split("*"):
        letter, _, power = factor.partition("^")
        if letter in powers:
            powers[letter] += int(power or 1)
        else:
            coefficient *= Fraction(factor)
    return (powers["x"], powers["y"]), coefficient


def polynomial(example):
    """The coefficients of an example, under their exponents."""
    terms = [term(text) for text in EXAMPLES[example].equation.replace(" - ", " + -").split(" + ")]
    if len(dict(terms)) != len(terms):
        sys.exit(f"paper: example {example} names a term twice")
    return dict(terms)


def degree(f):
    return max(i + j for i, j in f)


def moved(f, x, y):
    """f(x + X, y + Y), as a polynomial in X and Y."""
    g = collections.defaultdict(int)
    for (i, j), A in f.items():
        for a in range(i + 1):
            for b in range(j + 1):
                g[a, b] += A * comb(i, a) * comb(j, b) * x ** (i - a) * y ** (j - b)
    return g


def whole(f):
    """The same curve with whole coefficients: times the least common denominator, without a common factor."""
    times = lcm(*(A.denominator for A in f.values()))
    common = gcd(*(int(A * times) for A in f.values()))
    return {e: int(A * times) // common for e, A in sorted(f.items()) if A}


# ---- sheets

def text_of(sheet):
    return second_text.written(f"D {sheet.d}", f"B {sheet.X} {sheet.Y} {sheet.s}", f"K {sheet.k}", "M 0",
                               *(f"T {i} {j} {A}" for (i, j), A in sheet.named.items()))


def weight(sheet):
    return second.weight_of(sheet.d, second.terms(sheet.d, sheet.named), sheet.X, sheet.Y, sheet.s, sheet.k)


def placed(f, cuts, p, q, X, Y, s):
    """The part in column p and row q of the square cut so often, as a sheet of side 2^s with the lower left corner X, Y."""
    d, times = degree(f), 2 ** (cuts + s)  # x is (U + p 2^s - X) / times
    scaled = {(i, j): A * times ** (d - i - j) for (i, j), A in whole(f).items()}
    return Sheet(d, whole(moved(scaled, p * 2 ** s - X, q * 2 ** s - Y)), X, Y, s, DEPTH - cuts)


def square(f, k):
    """The whole square of the paper, its middle at the origin: the sheet from (-1, -1) to (1, 1)."""
    return placed(f, 0, 0, 0, -1, -1, 1)._replace(k=k)


def corners(f, cuts, p, q):
    """A part as a sheet of side 1, for each of its corners that may be the origin."""
    return [placed(f, cuts, p, q, X, Y, 0) for X in (-1, 0) for Y in (-1, 0)]


def part(f, cuts, p, q):
    """Of these sheets of a part the one with the least weight."""
    return min(corners(f, cuts, p, q), key=weight)


def nearest(f, cuts, p, q):
    """All sheets of a part that have Rx = Ry = 1: these four, and the one of side 2 with its middle at the origin."""
    return [*corners(f, cuts, p, q), placed(f, cuts, p, q, -1, -1, 1)]


def farther():
    """Where else a lighter sheet of a part is looked for: X, Y and s."""
    for s in SCALES:
        places = range(-AWAY * 2 ** s, (AWAY - 1) * 2 ** s + 1)
        yield from ((X, Y, s) for X in places for Y in places if second.limits(X, Y, s) != (1, 1))


# ---- what the program gives

def listed(sheet):
    """The mark of each cell that the program lists, under level, column and row; the cells cut; the coloured ones. Nothing where it refuses the sheet."""
    *records, last = (line.split("\t") for line in written_by(made("listing"), text_of(sheet)).decode("ascii").splitlines())
    if last[0] == "refused":
        return None
    _, visited, coloured = last
    return {(int(j), int(p), int(q)): mark for j, p, q, mark in records}, (int(visited) - 1) // 4, int(coloured)


def plotted(f, cuts):
    """A curve from parts of the square cut so often; nothing where the program refuses a sheet."""
    coarse = listed(square(f, cuts))
    if coarse is None:
        return None
    parts = {(p, q): part(f, cuts, p, q) for (_, p, q), mark in coarse[0].items() if mark == MARKS["open"]}
    answers = {at: listed(sheet) for at, sheet in parts.items()}
    if None in answers.values():
        return None
    cells = {at: mark for at, mark in coarse[0].items() if mark != MARKS["open"]}
    for (p, q), (marks, _, _) in answers.items():
        cells.update({(cuts + j, p * 2 ** j + column, q * 2 ** j + row): mark for (j, column, row), mark in marks.items()})
    pixels = sum(coloured for _, _, coloured in answers.values())
    return Plot(cuts, list(parts.values()), pixels, coarse[1] + sum(cut for _, cut, _ in answers.values()), cells)


def plot(f):
    """A curve from as few parts as the program takes; nothing where it takes none."""
    return next(filter(None, (plotted(f, cuts) for cuts in range(1, FINEST + 1))), None)


# ---- what the second program gives

@functools.cache
def walked(example, cleared_at_zero=False):
    """The same counts and cells, from the whole square in one piece: from (0, 0) to (1, 1), at a depth that no sheet has.

    The paper and the page leave a cell open where a bound is 0. What comes of clearing it is for the document to tell.
    """
    f = polynomial(example)
    d, coefficients = degree(f), second.terms(degree(f), whole(f))

    def verdict(j, p, q):
        lower, upper = second.two_bounds(second.local_form(d, coefficients, DEPTH, *second.cell(0, 0, 0, DEPTH, j, p, q)), 0)
        return "above" if cleared_at_zero and lower == 0 else "below" if cleared_at_zero and upper == 0 else second.verdict_of(lower, upper)

    found = second_walk.visited_cells(verdict, DEPTH)
    cells = {at: MARKS[seen] for at, seen in found.items() if seen != "open" or at[0] == DEPTH}
    return len(second_walk.coloured_cells(found, DEPTH)), len(second_walk.cut_cells(found, DEPTH)), cells


# ---- the document

def row(example, found):
    """A row of the document's table."""
    equation, pixels, subdivisions = EXAMPLES[example]
    if found is None:
        cells = ["none", "", "", pixels, "", subdivisions, ""]
    else:
        spare = second.spare_of(max(map(weight, found.sheets)))
        cells = [len(found.sheets), DEPTH - found.cuts, spare, pixels, found.pixels, subdivisions, found.subdivisions]
    return "| " + " | ".join(map(str, [example, degree(polynomial(example)), *cells, f"`{equation}`"])) + " |"


def table(plots):
    return ["| example | degree | sheets | depth | spare places | pixels, paper | pixels, program | subdivisions, paper | subdivisions, program | f |",
            "|---" * 10 + "|", *(row(example, found) for example, found in plots.items())]


def heavy_quarters(f):
    """Of the quarters that weigh too much wherever they are placed with Rx = Ry = 1: how many they are, the least weight of one, and how many of
    their other placements are lighter than the lightest of the same quarter there."""
    quarters = {(p, q): min(map(weight, nearest(f, 1, p, q))) for p in (0, 1) for q in (0, 1)}
    heavy = {at: weighs for at, weighs in quarters.items() if weighs >= second.LIMIT}
    lighter = sum(weight(placed(f, 1, *at, *where)) < weighs for at, weighs in heavy.items() for where in farther())
    return len(heavy), min(heavy.values()), lighter


def sentences(plots):
    """What the document says in figures beside its table."""
    heavy, least, lighter = heavy_quarters(polynomial(3))
    yield f"{heavy} of its 4 quarters weigh at least 2^40 · {least // 2 ** 40:,}"  # which it is, since Rx = Ry = 1
    yield f"of each of these {heavy} quarters {lighter or 'none'} of {len([*farther()]):,} other placements is lighter"
    if plots[3]:
        yield f"{len(plots[3].sheets)} of the {4 ** plots[3].cuts} parts"
    yield "{} pixels and {} subdivisions for example 4, too".format(*walked(4)[:2])
    for example in (2, 10):
        yield "example {} would have {} pixels and {} subdivisions".format(example, *walked(example, cleared_at_zero=True)[:2])


def picture():
    """What `./sheet` draws of one example."""
    example, k = SHOWN
    text = text_of(square(polynomial(example), k))
    return module().shown("standard input", text, written_by(made("listing"), text))


# ---- the comparison

def figure_faults(plots):
    """Where the programs do not give the paper's figures, or not the same cells, or a quarter has not the middle of the square at the origin."""
    for example, found in plots.items():
        _, *printed = EXAMPLES[example]
        *counts, cells = walked(example)
        if counts != printed:
            yield f"example {example}: the second program gives {counts}, and the paper has {printed}"
        if found and [found.pixels, found.subdivisions] != printed:
            yield f"example {example}: the program gives {[found.pixels, found.subdivisions]}, and the paper has {printed}"
        if found and found.cells != cells:
            yield f"example {example}: the program lists other cells than the second program"
        if found and found.cuts == 1 and any(sheet.named != square(polynomial(example), 1).named for sheet in found.sheets):
            yield f"example {example}: not one polynomial serves for all quarters"


def page_faults(plots):
    """What the document does not say."""
    page = PAGE.read_text()
    flowing = " ".join(page.split())
    printed = [line for line in page.split("\n") if line.startswith("|")]
    if printed != table(plots):
        yield "docs/TABLE-1.md has another table than `--table` prints:"
        yield from (f"  {line}" for line in printed if line not in table(plots))
    yield from (f"docs/TABLE-1.md does not say: {sentence}" for sentence in sentences(plots) if sentence not in flowing)
    if "\n".join(picture()) not in page:
        yield f"docs/TABLE-1.md has not the picture of example {SHOWN[0]}"


def arguments():
    options = argparse.ArgumentParser(description="Table 1 of a paper, made of sheets.")
    options.add_argument("--table", action="store_true", help="print the table for the document")
    options.add_argument("--sheet", type=int, metavar="N", choices=[example for example in EXAMPLES if degree(polynomial(example)) <= 8],
                         help="print the text of one sheet of the whole square of example N")
    options.add_argument("--depth", type=int, metavar="K", default=SHOWN[1], help=f"its depth, {SHOWN[1]} where none is named")
    return options.parse_args()


def main():
    chosen = arguments()
    if chosen.sheet:
        sys.stdout.write(text_of(square(polynomial(chosen.sheet), chosen.depth)).decode())
        return 0
    plots = {example: plot(polynomial(example)) for example in EXAMPLES}
    if chosen.table:
        print("\n".join(table(plots)))
        return 0
    faults = [*figure_faults(plots), *page_faults(plots)]
    for fault in faults:
        print(fault)
    taken = [found for found in plots.values() if found]
    print(f"paper: {len(taken)} of {len(plots)} examples from {sum(len(found.sheets) for found in taken)} sheets, {len(faults)} faults")
    return 1 if faults else 0


if __name__ == "__main__":
    sys.exit(main())
