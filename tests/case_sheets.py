"""Random sheets for tests/cases.py, tests/text_cases.py and tests/many_cases.py, by their weight: accepted ones, ones at 2^62 or just below, ones
with coefficients as large as they come, and ones far out along an axis or both, with powers of one variable or of both.
"""
import collections

import second
from weights import FAR, letters_of, weighed

MOST31, LEAST31 = 2 ** 31 - 1, -2 ** 31
EDGE = 1_048_576

Sheet = collections.namedtuple("Sheet", "d coefficients X Y s k")


# ---- terms and squares

def exponents(d, letters="xy"):
    """The exponents up to degree d of the powers of these variables."""
    return [e for e in second.exponents(d) if all(letter in letters for at, letter in enumerate("xy") if e[at])]


def places(rng, d):
    """Some of the exponents up to degree d: the coefficients elsewhere are to be 0."""
    true_degree = rng.choice((d, d, rng.randint(0, d)))
    low = exponents(true_degree)
    return rng.choice((
        low,
        low,
        rng.sample(low, rng.randint(1, len(low))),
        rng.sample(low, min(3, len(low))),
        [e for e in low if 0 in e],
        [(i, j) for i, j in low if i % 2 == 0 and j % 2 == 0],
        exponents(true_degree, rng.choice("xy")),
    ))


def digits(rng, wanted, room):
    """How many binary digits the coordinates may have along x and along y, so that each of the wanted terms has no more than this room: as many along
    both; or few along one axis, and along the other as many as then fit."""
    far, few = rng.randrange(2), rng.choice((None, 0, rng.randint(0, 5)))
    if few is None:
        return (max(0, min(20, room // max(1, max(map(sum, wanted))))),) * 2
    most = max(0, min([20] + [(room - few * e[1 - far]) // e[far] for e in wanted if e[far]]))
    return (few, most) if far else (most, few)


def corner(rng, bits, s):
    span = 2 ** rng.randint(0, bits)
    some = (-EDGE, EDGE) if bits == 20 else (-2 ** s, -(2 ** s // 2), 0)
    return rng.choice((rng.randint(-span, span), rng.randint(-span, span), rng.choice(some)))


def square(rng, bits):
    """A corner and a side: no coordinate has many more binary digits than asked along its axis."""
    s = min(10, rng.choice((0, rng.randint(0, min(bits)), min(bits))))
    return *(corner(rng, most, s) for most in bits), s


def about_0(rng):
    """A square with its middle at the origin."""
    s = rng.randint(1, 10)
    return -2 ** (s - 1), -2 ** (s - 1), s


def far_square(rng, axes):
    """A square far out along these axes, on either side, and near the origin along the other: tests/weights.py says how far that is."""
    s = rng.randint(0, 10 if axes == "xy" else 4)
    spans = [2 ** rng.randint(11, 20) if axis in axes else None for axis in "xy"]
    return *(rng.choice((-1, 1)) * rng.randint(max(FAR, span // 2), span) if span else corner(rng, 4, s) for span in spans), s


# ---- sheets that are accepted

def lighter(rng, d, k, at, wanted):
    """A sheet of weight below 2^62 on a square, with coefficients at the wanted places, where there is room for them."""
    (Rx, Ry), left, named, greedy = second.limits(*at), (2 ** 62 - 1) >> (k + 1) * d, {}, rng.random() < 0.25
    for taken, (i, j) in enumerate(rng.sample(wanted, len(wanted))):
        share, unit = left if greedy else left // (len(wanted) - taken), Rx ** i * Ry ** j
        most = min(2 ** 31, share // unit)
        size = min(most, rng.choice((9, 2 ** rng.randint(0, 31), most)))
        size = rng.choice((size, rng.randint(0, size)))
        named[i, j] = -size if size > MOST31 or rng.random() < 0.5 else size
        left -= size * unit
    return Sheet(d, second.terms(d, named), *at, k)


def accepted(rng, d, k):
    """A sheet of weight below 2^62."""
    wanted = places(rng, d)
    # coordinates of so many binary digits leave room for each of the terms
    fitting = digits(rng, wanted, ((2 ** 62 - 1) >> (k + 1) * d).bit_length() - 6)
    less = tuple(rng.randint(0, most) for most in fitting)
    return lighter(rng, d, k, square(rng, rng.choice(((20, 20), fitting, fitting, less, less))), wanted)


def ends(sheet, Z):
    """The least and the greatest coordinate of the closed square along an axis, with Z for X or Y; for a sheet that has none, of one like it."""
    unit, s = 2 ** (min(sheet.k, 7) + 1), min(sheet.s, 10)
    return unit * Z, unit * (Z + 2 ** s)


def near(rng, sheet):
    """The sheet with another constant term, by which the curve passes near a point of the square; as it is where that weighs too much."""
    d, coefficients, X, Y, s, k = sheet
    U, V = (rng.randint(*ends(sheet, Z)) for Z in (X, Y))
    there = second.polynomial(d, [0] + coefficients[1:], k, U, V, 1) >> (k + 1) * d
    other = sheet._replace(coefficients=[-there] + coefficients[1:])
    return other if LEAST31 <= -there <= MOST31 and second.weight_of(*other) < 2 ** 62 else sheet


# ---- sheets that weigh much

def heavy(rng, weight, depths=range(8), bent=False, axes=None, letters="xy"):
    """A sheet whose weight is 2^62, or the last below it that its scale allows, with powers of no variable but these letters. Where it is to be bent
    its square has the middle at the origin: there the weight is that of the local form, and the bend nearly all of it. Else it lies far out along the
    axes that are named, or anywhere."""
    while True:
        d, k = rng.randint(2, 8), rng.choice(depths)
        bits = rng.choice(((rng.randint(0, 20),) * 2, (rng.randint(0, 20), rng.randint(0, 20))))
        X, Y, s = about_0(rng) if bent else far_square(rng, axes) if axes else square(rng, bits)
        Rx, Ry = second.limits(X, Y, s)
        units = {(i, j): Rx ** i * Ry ** j for i, j in exponents(d, letters)}
        sizes, left = dict.fromkeys(units, 0), weight >> (k + 1) * d
        # a few terms of any size, but not where it is to be bent; then the heaviest first, and of those the ones of largest degree
        some = [] if bent else rng.sample([*units], min(len(units), rng.randint(0, 3)))
        rest = sorted(rng.sample([*units], len(units)), key=lambda e: (units[e], sum(e)), reverse=True)
        for at, e in enumerate(some + rest):
            most = min(MOST31 - sizes[e], left // units[e])
            size = rng.randint(0, most) if at < len(some) else most
            sizes[e], left = sizes[e] + size, left - size * units[e]
        if left == 0 and any(sizes.values()):
            return Sheet(d, second.terms(d, {e: rng.choice((-size, size)) for e, size in sizes.items()}), X, Y, s, k)


def heavier(rng, sheet):
    """Coefficients as large as they come, at some places; half of the time only where there was one."""
    coefficients, alone = list(sheet.coefficients), rng.random() < 0.5
    there = [at for at, A in enumerate(coefficients) if A or not alone]
    for at in rng.sample(there, rng.randint(0, len(there))):
        coefficients[at] = rng.choice((LEAST31, MOST31, rng.randint(LEAST31, MOST31)))
    return sheet._replace(coefficients=coefficients, k=rng.choice((sheet.k, 7)))


# ---- sheets far out

SOME = ("x", "y", "xy")


def far_out(rng, depths, axes, letters):
    """An accepted sheet far out along these axes, with terms in these variables."""
    while True:
        d, k = rng.randint(1, 8), rng.choice(depths)
        sheet = lighter(rng, d, k, far_square(rng, axes), exponents(d, letters))
        if letters_of(d, sheet.coefficients) == letters:
            return near(rng, sheet) if rng.random() < 0.7 else sheet


def at_limit(rng, weight, depths, axes, letters):
    """The same with a weight of 2^62, or just below. Where it lies far out along one axis whose variable it has, that axis carries the weight."""
    carrier = axes if len(axes) == 1 and axes in letters else None
    while True:
        sheet = heavy(rng, weight, depths, axes=axes, letters=letters)
        if letters_of(sheet.d, sheet.coefficients) == letters and carrier in (None, weighed(*sheet).carrier):
            return sheet


def any_far_out(rng, depths, weight=None):
    """A sheet far out along any axes, with terms in any variables: accepted, or of such a weight."""
    axes, letters = rng.choice(SOME), rng.choice(SOME)
    return at_limit(rng, weight, depths, axes, letters) if weight else far_out(rng, depths, axes, letters)


def every_far_out(rng, depths):
    """Sheets far out along x, along y and along both, with powers of x alone, of y alone, and of both, and the number of each: two accepted ones, one
    just below the limit, one at it, and one beyond it."""
    for axes in SOME:
        for letters in SOME:
            yield from ((far_out(rng, depths, axes, letters), 0) for _ in range(2))
            yield at_limit(rng, 2 ** 62 - 1, depths, axes, letters), 0
            at = at_limit(rng, 2 ** 62, depths, axes, letters)
            yield at, 6
            yield at._replace(coefficients=[2 * A if abs(A) < 2 ** 30 else A for A in at.coefficients], k=7), 6
