"""The sheets in sheets/ are what sheets/README.md says, by the second program.

Each text there is accepted and has its listing beside it, and its polynomial is the formula in the table. The coloured cells fall into as many
separate parts as the table says, cells that share a corner being of one part.

The lost oval is looked at closely, in whole numbers. At a point of one finest cell f has one sign, and at every corner of that cell and of those
around it the other; so a plotter that compares the signs at corners leaves all of them white. The cell is coloured all the same. And the oval lies
strictly inside the cell: f keeps the corners' sign along the whole edge, since cells eight times finer that touch the edge from outside are cleared.

The far wave lies far out along x alone, and before request #102 its weight would have been too much. It comes to the left side of its square three
times and to the right side four times, so it swings six times from one to the other.
"""
import collections
import re

import second
import second_text
import weights
from program import ROOT

SHEETS = ROOT / "sheets"
ROW = re.compile(r"^\| `([\w-]+)` \| `([^`]+)` \| (\d+) \| ", re.M)
# the sheet with the lost oval, a point inside the oval (x and y over one divisor), how many cells around it stay white, and the finer depth
LOST, OVAL, AROUND, FINER = "lost-oval", (23, 23, 8), 2, 7
# the sheet far out along x
WAVE = "far-wave"

Sheet = collections.namedtuple("Sheet", "d coefficients X Y s k mode")


def text(name):
    return (SHEETS / f"{name}.sheet").read_bytes()


def sheet(name):
    number, _, _, d, X, Y, s, k, mode, coefficients = second_text.read(text(name))
    if number:
        raise ValueError(f"sheets/{name}.sheet is refused by {number}")
    return Sheet(d, list(coefficients[:len(second.exponents(d))]), X, Y, s, k, mode)


def names():
    return sorted(path.stem for path in SHEETS.glob("*.sheet"))


def told():
    """What the table in sheets/README.md says of each sheet: the formula, and the number of parts."""
    return {name: (formula, int(parts)) for name, formula, parts in ROW.findall((SHEETS / "README.md").read_text())}


def sign(number):
    return (number > 0) - (number < 0)


def raster(name):
    return second.raster(*sheet(name), [0] * 4 ** sheet(name).k)[-1]


# ---- corner signs

def corner_signs(name):
    """The sign of f at each corner of the finest cells, under its column and row."""
    d, coefficients, X, Y, s, k, _ = sheet(name)
    unit, side = 2 ** (k + 1), 2 * 2 ** s
    return {(p, q): sign(second.polynomial(d, coefficients, k, unit * X + p * side, unit * Y + q * side, 1))
            for p in range(2 ** k + 1) for q in range(2 ** k + 1)}


def by_corners(name):
    """The raster that a plotter of corner signs gives: a cell is coloured where f is not of one strict sign at its four corners."""
    signs, k = corner_signs(name), sheet(name).k
    found = [{signs[p, q], signs[p + 1, q], signs[p, q + 1], signs[p + 1, q + 1]} for q in range(2 ** k) for p in range(2 ** k)]
    return [{(1,): 2, (-1,): 3}.get(tuple(at), 1) for at in found]


# ---- the checks

def parts(colours, k):
    """How many separate parts the coloured cells fall into."""
    left, count = {(at % 2 ** k, at // 2 ** k) for at, colour in enumerate(colours) if colour == 1}, 0
    while left:
        count, near = count + 1, [left.pop()]
        while near:
            p, q = near.pop()
            beside = left & {(p + x, q + y) for x in (-1, 0, 1) for y in (-1, 0, 1)}
            left -= beside
            near += beside
    return count


def stored(name, formula, count):
    """What is wrong with a sheet and what stands beside it, or nothing."""
    if second_text.read(text(name))[0]:
        return "is refused"
    if (SHEETS / f"{name}.listing").read_bytes() != second_text.listing_text(text(name)):
        return "has another listing beside it"
    d, coefficients, *_, k, _ = sheet(name)
    f = compile(formula.replace("^", "**"), name, "eval")
    # two polynomials of degrees below 12 in each variable that agree at so many points are one
    for x in range(12):
        for y in range(12):
            if second.polynomial(d, coefficients, 0, 2 * x, 2 * y, 1) != 2 ** d * eval(f, {"__builtins__": {}}, {"x": x, "y": y}):
                return f"is not {formula} at {x}, {y}"
    if parts(raster(name), k) != count:
        return f"has {parts(raster(name), k)} parts, and the table says {count}"
    return None


def lost_oval():
    """What is not so of the lost oval."""
    d, coefficients, X, Y, s, k, mode = sheet(LOST)
    x, y, Q = OVAL
    unit, side = 2 ** (k + 1), 2 * 2 ** s
    (p, over), (q, above) = (divmod(unit * (at - Q * corner), Q * side) for at, corner in ((x, X), (y, Y)))
    if over == 0 or above == 0:
        yield "the point is on an edge"
    inside = sign(second.polynomial(d, coefficients, k, unit * x, unit * y, Q))
    around = {at: value for at, value in corner_signs(LOST).items() if -AROUND <= at[0] - p <= AROUND + 1 and -AROUND <= at[1] - q <= AROUND + 1}
    if inside == 0 or len(around) != (2 * AROUND + 2) ** 2 or set(around.values()) != {-inside}:
        yield "the signs at the corners around are not all the other sign"
    drawn, seen = by_corners(LOST), raster(LOST)
    block = [row * 2 ** k + column for row in range(q - AROUND, q + AROUND + 1) for column in range(p - AROUND, p + AROUND + 1)]
    if any(drawn[at] == 1 for at in block) or all(drawn[at] != 1 for at in range(4 ** k)):
        yield "a plotter of corner signs colours a cell there, or none at all"
    if seen[q * 2 ** k + p] != 1:
        yield "the cell is not coloured"
    times, cleared = 2 ** (FINER - k), {1: "below", -1: "above"}.get(inside)
    ring = [(column, row) for column in range(p * times - 1, (p + 1) * times + 1) for row in range(q * times - 1, (q + 1) * times + 1)
            if column // times != p or row // times != q]
    if any(second.bounds(d, coefficients, X, Y, s, FINER, mode, FINER, *at)[:2] != (0, cleared) for at in ring):
        yield "the oval is not seen to lie strictly inside the cell"


def far_wave():
    """What is not so of the far wave."""
    *wave, _ = sheet(WAVE)
    kinds = weights.kinds_of(wave, second.refusal(*wave))
    yield from (f"it is not {kind}" for kind in ("far along x only, accepted", "of 2^62 or more before #102, accepted") if kind not in kinds)
    seen, side = raster(WAVE), 2 ** sheet(WAVE).k
    for name, column, times in (("left", 0, 3), ("right", side - 1, 4)):
        cells = [seen[row * side + column] == 1 for row in range(side)]
        came = sum(here and not before for before, here in zip([False, *cells], cells))
        if came != times:
            yield f"it comes to the {name} side {came} times, and not {times}"


def faults():
    table = told()
    if sorted(table) != names() or not table:
        yield f"sheets/README.md tells of {sorted(table)}, and there are {names()}"
        return
    for name, (formula, count) in table.items():
        fault = stored(name, formula, count)
        if fault:
            yield f"sheets/{name}.sheet {fault}"
    for path in sorted(SHEETS.glob("*.listing")):
        if path.stem not in table:
            yield f"sheets/{path.name} stands beside no sheet"
    yield from (f"lost oval: {fault}" for fault in lost_oval())
    yield from (f"far wave: {fault}" for fault in far_wave())
