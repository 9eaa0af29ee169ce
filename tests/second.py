"""The second program: the calls check, value, bounds, raster and listing, worked out from the definition page and requests #101 and #102.

Plain exact whole numbers, in the page's order and by the page's formulas, with no thought for the size of a number and little for
speed. It shares nothing with the proved crates, so that where the two agree neither leans on the other. (Who wrote its walks had seen the
code of the crate `local`; the local form here is the page's sum all the same.)

The bounds of a cell give the verdict on it, and tests/second_walk.py has what the page says of a walk by verdicts. The tallies have the largest
bend among coloured cells too, which request #101 adds to the page's. The weight has a limit for each axis, as request #102 has it; the page's own, by
one limit, is kept for the tests that tell the two apart.

An answer begins with a number: 0 where the sheet is accepted, else the number of the refusal with zeros beside it. Where a place is lent,
the answer ends with all of the place's entries as they are afterwards.

    python3 tests/second.py     holds the program to the figures that the page prints, and to some that are worked out by hand
"""
import functools
import sys
from math import comb

sys.dont_write_bytecode = True  # nothing is left in the tree
from second_walk import fault_of, listing_of, raster_of, tally, tally_of, walk_by

COORDINATE = 1_048_576
LIMIT = 2 ** 62


# ---- what a sheet holds

@functools.cache
def exponents(d):
    """The pairs (i, j) with i + j at most d, in the order of the coefficients."""
    return tuple((i, j) for i in range(d + 1) for j in range(d - i + 1))


def table(d, coefficients):
    """A(i,j), under its exponents."""
    return dict(zip(exponents(d), coefficients))


# ---- scaled numbers

def polynomial(d, coefficients, k, M, N, Q):
    """Q^d times F(M/Q, N/Q), from the coefficients."""
    return sum(A * 2 ** ((k + 1) * (d - i - j)) * M ** i * N ** j * Q ** (d - i - j)
               for (i, j), A in table(d, coefficients).items())


def cell(X, Y, s, k, j, p, q):
    """The centre and the half-side of a cell: U0, V0, H."""
    H = 2 ** (s + k - j)
    return 2 ** (k + 1) * X + (2 * p + 1) * H, 2 ** (k + 1) * Y + (2 * q + 1) * H, H


def local_form(d, coefficients, k, U0, V0, H):
    """G(a,b), under its exponents: F(U0 + H e, V0 + H g) is the sum of G(a,b) e^a g^b.

    Each A(i,j) that is not 0 is shared out to the places (a, b) with a at most i and b at most j.
    """
    U, V, side = ([z ** n for n in range(d + 1)] for z in (U0, V0, H))
    G = dict.fromkeys(exponents(d), 0)
    for (i, j), A in table(d, coefficients).items():
        if A != 0:
            scaled = A * 2 ** ((k + 1) * (d - i - j))
            for a in range(i + 1):
                column = scaled * comb(i, a) * U[i - a]
                for b in range(j + 1):
                    G[a, b] += column * comb(j, b) * V[j - b] * side[a + b]
    return G


# ---- the two bounds of a cell

def two_bounds(G, mode):
    """The lower and the upper bound of a local form."""
    lower = upper = G[0, 0]
    for (a, b), g in G.items():
        if g == 0 or (a, b) == (0, 0):  # a place of 0 moves neither bound
            continue
        if mode == 0 and a % 2 == 0 and b % 2 == 0:
            lower += min(0, g)
            upper += max(0, g)
        else:
            lower -= abs(g)
            upper += abs(g)
    return lower, upper


def bend_of(G):
    return sum(abs(g) for (a, b), g in G.items() if a + b >= 2)


def verdict_of(lower, upper):
    return "above" if lower > 0 else "below" if upper < 0 else "open"


def range_of(d, coefficients, X, Y, s, k, mode, j, p, q):
    """The verdict on a cell, its two bounds and its bend."""
    G = local_form(d, coefficients, k, *cell(X, Y, s, k, j, p, q))
    lower, upper = two_bounds(G, mode)
    return verdict_of(lower, upper), lower, upper, bend_of(G)


# ---- walking the sheet

def seen(verdict, lower, upper, bend):
    """What a walk asks of a cell: the verdict on it and its bend."""
    return verdict, bend


@functools.lru_cache(maxsize=8)
def walked(d, coefficients, X, Y, s, k, mode):
    """The walk of an accepted sheet: each cell's bounds and bend are worked out once, for raster and listing both."""
    return walk_by(lambda *at: seen(*range_of(d, coefficients, X, Y, s, k, mode, *at)), k)


def walk_fault(d, coefficients, X, Y, s, k, mode):
    """What the page says of every walk and this one does not keep, or nothing."""
    return fault_of(walked(d, tuple(coefficients), X, Y, s, k, mode).found, k)


# ---- weight

def limits(X, Y, s):
    """Request #102's Rx and Ry: the larger of |X| and |X + 2^s|, and likewise of Y."""
    return max(abs(X), abs(X + 2 ** s)), max(abs(Y), abs(Y + 2 ** s))


def weight_by(Rx, Ry, d, coefficients, k):
    """The weight by a limit for each axis."""
    return 2 ** ((k + 1) * d) * sum(abs(A) * Rx ** i * Ry ** j for (i, j), A in table(d, coefficients).items())


def weight_of(d, coefficients, X, Y, s, k):
    return weight_by(*limits(X, Y, s), d, coefficients, k)


def old_weight_of(d, coefficients, X, Y, s, k):
    """The weight before #102, the page's, by one R for both axes: no answer goes by it."""
    R = max(limits(X, Y, s))
    return weight_by(R, R, d, coefficients, k)


def spare_of(weight):
    """62 minus the count of binary digits; 0 has none."""
    return 62 - weight.bit_length()


# ---- calls and refusals

def outside(low, value, high):
    return value < low or value > high


def refusal(d, coefficients, X, Y, s, k, mode=None, entries=None, at=None, point=None):
    """The number of the first condition that holds, or 0. A call leaves out what it has no input for.

    Each condition is looked at only where none before it holds: a degree or a depth may be any 32-bit number, and
    the powers that later conditions speak of are then out of reach. Condition 9 is tried by the calls that are lent
    a place, since only they walk; where it is tried it does not hold: at depth 7, 21,845 cells are all.
    """
    def cell_outside():
        j, p, q = at
        return j > k or p >= 2 ** j or q >= 2 ** j

    def point_outside():
        unit, (U, V) = 2 ** (k + 1), point
        return outside(unit * X, U, unit * (X + 2 ** s)) or outside(unit * Y, V, unit * (Y + 2 ** s))

    conditions = [
        (1, lambda: d > 8),
        (2, lambda: len(coefficients) != (d + 1) * (d + 2) // 2),
        (3, lambda: k > 7),
        (4, lambda: outside(-COORDINATE, X, COORDINATE) or outside(-COORDINATE, Y, COORDINATE) or s > 10),
        (5, lambda: mode is not None and mode not in (0, 1)),
        (6, lambda: weight_of(d, coefficients, X, Y, s, k) >= LIMIT),
        (7, lambda: entries is not None and entries < 4 ** k),
        (8, lambda: at is not None and cell_outside() or point is not None and point_outside()),
        (9, lambda: entries is not None and len(walked(d, tuple(coefficients), X, Y, s, k, mode).found) > 65_535),
    ]
    return next((number for number, holds in conditions if holds()), 0)


def check(d, coefficients, X, Y, s, k):
    """(number, weight, spare)"""
    number = refusal(d, coefficients, X, Y, s, k)
    if number:
        return number, 0, 0
    weight = weight_of(d, coefficients, X, Y, s, k)
    return 0, weight, spare_of(weight)


def value(d, coefficients, X, Y, s, k, U, V):
    """(number, F)"""
    number = refusal(d, coefficients, X, Y, s, k, point=(U, V))
    if number:
        return number, 0
    return 0, polynomial(d, coefficients, k, U, V, 1)


def bounds(d, coefficients, X, Y, s, k, mode, j, p, q):
    """(number, verdict, lower, upper, bend); a refusal has 0 in the verdict's place too."""
    number = refusal(d, coefficients, X, Y, s, k, mode=mode, at=(j, p, q))
    if number:
        return number, 0, 0, 0, 0
    return 0, *range_of(d, coefficients, X, Y, s, k, mode, j, p, q)


def raster(d, coefficients, X, Y, s, k, mode, place):
    """(number, visited, coloured, largest bend, the place afterwards)"""
    number = refusal(d, coefficients, X, Y, s, k, mode=mode, entries=len(place))
    if number:
        return number, 0, 0, 0, place
    walk = walked(d, tuple(coefficients), X, Y, s, k, mode)
    colours = raster_of(walk.found, k)
    return 0, *tally_of(walk, k), colours + place[len(colours):]


def listing(d, coefficients, X, Y, s, k, mode, place):
    """(number, length, visited, coloured, largest bend, the place afterwards)"""
    number = refusal(d, coefficients, X, Y, s, k, mode=mode, entries=len(place))
    if number:
        return number, 0, 0, 0, 0, place
    walk = walked(d, tuple(coefficients), X, Y, s, k, mode)
    records = listing_of(walk.found, k)
    return 0, len(records), *tally_of(walk, k), records + place[len(records):]


# ---- the page's own figures, and some of requests #101 and #102

def terms(d, named):
    """The coefficients of a polynomial of degree d, those not named being 0."""
    return [named.get(e, 0) for e in exponents(d)]


def sheet(d, named, X, s, k):
    """A sheet whose Y is its X."""
    return d, terms(d, named), X, X, s, k


P1 = sheet(2, {(2, 0): 8, (0, 0): 1}, -1, 1, 1)
P4 = sheet(1, {(1, 0): 1, (0, 1): -1}, 0, 0, 1)
P5 = sheet(1, {(1, 0): 1, (0, 1): -1}, 0, 0, 2)
P6 = sheet(0, {}, 0, 0, 0)
P7 = sheet(0, {(0, 0): -5}, 0, 0, 7)
P8 = sheet(2, {(1, 1): 1}, -1, 1, 0)
P9 = sheet(2, {(2, 0): 1}, 0, 0, 0)
P10 = sheet(8, {(0, 0): 63}, 0, 0, 6)
P10_REFUSED = sheet(8, {(0, 0): 64}, 0, 0, 6)
P11 = sheet(0, {(0, 0): 1}, 1_048_576, 0, 0)
P11_REFUSED = sheet(0, {(0, 0): 1}, 1_048_577, 0, 0)
P12 = sheet(8, {}, 0, 0, 7)
# x^3 from -1 to 0, no sheet of the page: on level 0 the form is -8 + 24e - 24e^2 + 8e^3, of bend 32; all four cells of level 1 are coloured, on the
# left -27 + 27e - 9e^2 + e^3, of bend 10, and on the right -1 + 3e - 3e^2 + e^3, of bend 4
CUBE = sheet(3, {(3, 0): 1}, -1, 0, 1)
# request #102's own sheet, x^4 far out along y, and y^4 far out along x; on level 0 the form is 2^28 (1 + e)^4, or with g for e
FAR_X4 = 4, terms(4, {(4, 0): 1}), 0, 1024, 0, 7
FAR_Y4 = 4, terms(4, {(0, 4): 1}), -1025, -1, 0, 7
# of one variable at 2^62, and just below it, by x and by y: the scale is 2^14, and the limits are 1,024 and 1, or 1 and 1,024
X2 = 2, terms(2, {(2, 0): 2 ** 28}), 1023, 0, 0, 6
NEARLY_X2 = 2, terms(2, {(2, 0): 1 - 2 ** 28, (0, 0): 2 ** 20 - 1}), -1024, -1, 0, 6
Y2 = 2, terms(2, {(0, 2): -2 ** 28}), -1, -1024, 0, 6
NEARLY_Y2 = 2, terms(2, {(0, 2): 2 ** 28 - 1, (0, 0): 1 - 2 ** 20}), 0, 1023, 0, 6
# of both, by x and by y: the scale is 2^21, and the limits are 1,024 and 16, or 16 and 1,024
X2Y = 3, terms(3, {(2, 1): 2 ** 17 - 1, (0, 1): 2 ** 20}), -1024, 8, 3, 6
NEARLY_X2Y = 3, terms(3, {(2, 1): 2 ** 17 - 1, (0, 1): 1 - 2 ** 20, (0, 0): 15}), 1016, -16, 3, 6
XY2 = 3, terms(3, {(1, 2): 1 - 2 ** 17, (1, 0): -2 ** 20}), -16, 1016, 3, 6
NEARLY_XY2 = 3, terms(3, {(1, 2): 2 ** 17 - 1, (1, 0): 2 ** 20 - 1, (0, 0): -15}), 8, -1024, 3, 6

# the records of four coloured cells at level 1, as the whole case prints them: (p, q) is (0, 0), (1, 0), (0, 1), (1, 1)
QUARTERS = [65536 + 1, 65536 + 4 + 1, 65536 + 512 + 1, 65536 + 512 + 4 + 1]
# P5's raster, the bottom row first: coloured along the diagonal, 2 where x - y is above 0, and 3 where it is below
DIAGONAL = [1, 1, 2, 2,
            1, 1, 1, 2,
            3, 1, 1, 1,
            3, 3, 1, 1]

# a call, what it is given, and the part of its answer that the page prints or that follows from it at once (None: neither). The bends are worked out
# by hand: P1's form is 16 + 128e^2 at level 0, and 48 - 64e + 32e^2 or 48 + 64e + 32e^2 at level 1; P8's is 4eg and P9's 1 + 2e + e^2
FIGURES = [
    ("P1", check, P1, (0, 144, 54)),
    ("P1", bounds, P1 + (0, 0, 0, 0), (0, "above", 16, 144, 128)),
    ("P2", bounds, P1 + (0, 1, 1, 0), (0, "open", -16, 144, 32)),
    ("P3", bounds, P1 + (1, 0, 0, 0), (0, "open", -112, 144, 128)),
    ("P3", bounds, P1 + (1, 1, 1, 0), (0, "open", -48, 144, 32)),
    *(("P4", bounds, P4 + (mode, 1, p, q), (0, "open", lower, upper, 0))
      for mode in (0, 1) for p, q, lower, upper in ((0, 0, -2, 2), (1, 0, 0, 4), (0, 1, -4, 0))),
    ("P6", check, P6, (0, 0, 62)),
    *(("P6", bounds, P6 + (mode, 0, 0, 0), (0, "open", 0, 0, 0)) for mode in (0, 1)),
    *(("P7", bounds, P7 + (mode, 0, 0, 0), (0, "below", -5, -5, 0)) for mode in (0, 1)),
    *(("P8", bounds, P8 + (mode, 0, 0, 0), (0, "open", -4, 4, 4)) for mode in (0, 1)),
    ("P9", bounds, P9 + (0, 0, 0, 0), (0, "open", -1, 4, 1)),
    ("P9", bounds, P9 + (1, 0, 0, 0), (0, "open", -2, 4, 1)),
    *(("P9", value, P9 + (U, V), (0, U * 2)) for U in (0, 2) for V in (0, 2)),
    ("P10", check, P10, (0, None, None)),
    ("P10", check, P10_REFUSED, (6, 0, 0)),
    ("P11", check, P11, (0, None, None)),
    ("P11", check, P11_REFUSED, (4, 0, 0)),
    ("P12", check, P12, (0, 0, 62)),
    ("P1", raster, P1 + (0, [9] * 4), (0, 1, 0, 0, [2] * 4)),
    ("P1", listing, P1 + (0, [9] * 4), (0, 1, 1, 0, 0, [2] + [9] * 3)),
    ("P3", raster, P1 + (1, [9] * 4), (0, 5, 4, 32, [1] * 4)),
    ("P3", listing, P1 + (1, [9] * 4), (0, 4, 5, 4, 32, QUARTERS)),
    *(("P4", raster, P4 + (mode, [9] * 4), (0, 5, 4, 0, [1] * 4)) for mode in (0, 1)),
    *(("P4", listing, P4 + (mode, [9] * 4), (0, 4, 5, 4, 0, QUARTERS)) for mode in (0, 1)),
    ("whole case", listing, P4 + (0, [9] * 6), (0, 4, 5, 4, 0, QUARTERS + [9] * 2)),
    *(("P5", raster, P5 + (mode, [9] * 16), (0, 21, 10, 0, DIAGONAL)) for mode in (0, 1)),
    *(("P5", listing, P5 + (mode, [9] * 16), (0, 16, 21, 10, 0, None)) for mode in (0, 1)),
    *(("P6", raster, P6 + (mode, [9]), (0, 1, 1, 0, [1])) for mode in (0, 1)),
    *(("P7", raster, P7 + (mode, [9] * 16384), (0, 1, 0, 0, [3] * 16384)) for mode in (0, 1)),
    *(("P7", listing, P7 + (mode, [9] * 16384), (0, 1, 1, 0, 0, [3] + [9] * 16383)) for mode in (0, 1)),
    *(("P8", raster, P8 + (mode, [9]), (0, 1, 1, 4, [1])) for mode in (0, 1)),
    *(("P8", listing, P8 + (mode, [9]), (0, 1, 1, 1, 4, [1])) for mode in (0, 1)),
    *(("P9", raster, P9 + (mode, [9]), (0, 1, 1, 1, [1])) for mode in (0, 1)),
    *(("P9", listing, P9 + (mode, [9]), (0, 1, 1, 1, 1, [1])) for mode in (0, 1)),
    *(("x^3", raster, CUBE + (mode, [9] * 4), (0, 5, 4, 10, [1] * 4)) for mode in (0, 1)),
    *(("x^3", listing, CUBE + (mode, [9] * 4), (0, 4, 5, 4, 10, QUARTERS)) for mode in (0, 1)),
    ("P13", raster, P4 + (0, [9] * 3), (7, 0, 0, 0, [9] * 3)),
    ("P13", listing, P4 + (0, [9] * 3), (7, 0, 0, 0, 0, [9] * 3)),
    ("P13", raster, P4 + (0, [9] * 5), (0, 5, 4, 0, [1] * 4 + [9])),
    ("P13", listing, P4 + (0, [9] * 5), (0, 4, 5, 4, 0, QUARTERS + [9])),
    *(("P12", check, sheet(8, {e: sign}, 0, 0, 7), (6, 0, 0)) for e in exponents(8) for sign in (1, -1)),
    *(("#102", check, far, (0, 2 ** 32, 29)) for far in (FAR_X4, FAR_Y4)),
    ("#102", bounds, FAR_X4 + (0, 0, 0, 0), (0, "open", -7 * 2 ** 28, 2 ** 32, 11 * 2 ** 28)),
    *(("at 2^62", check, at, (6, 0, 0)) for at in (X2, Y2, X2Y, XY2)),
    *(("just below 2^62", check, nearly, (0, 2 ** 62 - 2 ** 14, 0)) for nearly in (NEARLY_X2, NEARLY_Y2)),
    *(("just below 2^62", check, nearly, (0, 2 ** 62 - 2 ** 21, 0)) for nearly in (NEARLY_X2Y, NEARLY_XY2)),
]

# a sheet, its weight, and that before #102. Both are written out: the scale 2^((k+1)d) times the sum of |A| Rx^i Ry^j, or of |A| R^(i+j) before
WEIGHTS = [
    ("P1", P1, 2 ** 4 * (8 * 1 ** 2 + 1), 2 ** 4 * (8 * 1 ** 2 + 1)),
    ("x^4", FAR_X4, 2 ** 32 * 1 ** 4, 2 ** 32 * 1025 ** 4),
    ("y^4", FAR_Y4, 2 ** 32 * 1 ** 4, 2 ** 32 * 1025 ** 4),
    # the limits are 3 and 6, and then 6 and 3
    *(("3x + 5y^2", (2, terms(2, {(1, 0): 3, (0, 2): 5}), *corner, 1, 0), 2 ** 2 * (3 * 3 + 5 * 6 ** 2), 2 ** 2 * (3 * 6 + 5 * 6 ** 2))
      for corner in ((-3, 4), (1, -6))),
    *(("3x + 5y^2", (2, terms(2, {(1, 0): 3, (0, 2): 5}), *corner, 1, 0), 2 ** 2 * (3 * 6 + 5 * 3 ** 2), 2 ** 2 * (3 * 6 + 5 * 6 ** 2))
      for corner in ((4, -3), (-6, 1))),
    # far out along both axes: the limits are 2,000 and 5,000, and then 5,000 and 2,000
    *(("3x^2 y - 7x y^2 + 9", (3, terms(3, {(2, 1): 3, (1, 2): -7, (0, 0): 9}), *corner, 4, 1),
       2 ** 6 * (3 * 2000 ** 2 * 5000 + 7 * 2000 * 5000 ** 2 + 9), 2 ** 6 * (10 * 5000 ** 3 + 9)) for corner in ((-2000, 4984), (1984, -5000))),
    *(("3x^2 y - 7x y^2 + 9", (3, terms(3, {(2, 1): 3, (1, 2): -7, (0, 0): 9}), *corner, 4, 1),
       2 ** 6 * (3 * 5000 ** 2 * 2000 + 7 * 5000 * 2000 ** 2 + 9), 2 ** 6 * (10 * 5000 ** 3 + 9)) for corner in ((4984, 1984), (-5000, -2000))),
    # 2^14 * 2^28 * 2^20 is 2^62; and (2^28 - 1) * 2^20 + 2^20 - 1 is one less than 2^28 * 2^20
    *((name, at, 2 ** 14 * 2 ** 28 * 1024 ** 2, 2 ** 14 * 2 ** 28 * 1024 ** 2) for name, at in (("2^28 x^2", X2), ("-2^28 y^2", Y2))),
    *((name, nearly, 2 ** 14 * ((2 ** 28 - 1) * 1024 ** 2 + 2 ** 20 - 1), 2 ** 14 * ((2 ** 28 - 1) * 1024 ** 2 + 2 ** 20 - 1))
      for name, nearly in (("-(2^28 - 1) x^2 + 2^20 - 1", NEARLY_X2), ("(2^28 - 1) y^2 - (2^20 - 1)", NEARLY_Y2))),
    # (2^17 - 1) * 2^24 + 2^20 * 2^4 is 2^41; and (2^20 - 1) * 2^4 + 15 is one less than 2^20 * 2^4
    *((name, at, 2 ** 21 * ((2 ** 17 - 1) * 1024 ** 2 * 16 + 2 ** 20 * 16), 2 ** 21 * ((2 ** 17 - 1) * 1024 ** 3 + 2 ** 20 * 1024))
      for name, at in (("(2^17 - 1) x^2 y + 2^20 y", X2Y), ("-(2^17 - 1) x y^2 - 2^20 x", XY2))),
    *((name, nearly, 2 ** 21 * ((2 ** 17 - 1) * 1024 ** 2 * 16 + (2 ** 20 - 1) * 16 + 15),
       2 ** 21 * ((2 ** 17 - 1) * 1024 ** 3 + (2 ** 20 - 1) * 1024 + 15))
      for name, nearly in (("(2^17 - 1) x^2 y - (2^20 - 1) y + 15", NEARLY_X2Y), ("(2^17 - 1) x y^2 + (2^20 - 1) x - 15", NEARLY_XY2))),
]

# a sheet, a mode, and the tally of a walk by the verdicts and bends: visited, coloured, and the largest bend. The page prints no largest bend, and no
# tally of P8, P9 and x^3
TALLIES = [
    ("P1", P1, 0, (1, 0, 0)),
    ("P3", P1, 1, (5, 4, 32)),
    *(("P4", P4, mode, (5, 4, 0)) for mode in (0, 1)),
    *(("P5", P5, mode, (21, 10, 0)) for mode in (0, 1)),
    *(("P6", P6, mode, (1, 1, 0)) for mode in (0, 1)),
    *(("P7", P7, mode, (1, 0, 0)) for mode in (0, 1)),
    *(("P8", P8, mode, (1, 1, 4)) for mode in (0, 1)),
    *(("P9", P9, mode, (1, 1, 1)) for mode in (0, 1)),
    *(("x^3", CUBE, mode, (5, 4, 10)) for mode in (0, 1)),
]


def main():
    wrong = 0
    for name, given, mode, counted in TALLIES:
        answer = tally(lambda *at: seen(*bounds(*given, mode, *at)[1:]), given[-1])
        if answer != counted:
            print(f"{name}: a walk in mode {mode} counts {answer}, and it should be {counted}")
            wrong += 1
        fault = walk_fault(*given, mode)
        if fault:
            print(f"{name}: in mode {mode} {fault}")
            wrong += 1
    for name, call, given, printed in FIGURES:
        answer = call(*given)
        if len(answer) != len(printed) or any(p is not None and p != a for a, p in zip(answer, printed)):
            print(f"{name}: {call.__name__}{given} answers {answer}, and it should be {printed}")
            wrong += 1
    for name, given, *weights in WEIGHTS:
        if [weight_of(*given), old_weight_of(*given)] != weights:
            print(f"{name}: weighs {weight_of(*given)}, and {old_weight_of(*given)} before #102, and it should be {weights}")
            wrong += 1
    figures = len(FIGURES) + 2 * len(TALLIES) + len(WEIGHTS)
    print(f"second program: {figures - wrong} of {figures} hold: the figures of the page, of #101 and of #102, and what the page says of every walk")
    return 1 if wrong else 0


if __name__ == "__main__":
    sys.exit(main())
