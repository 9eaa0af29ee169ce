"""Cases for the comparison: the figures of tests/second.py, the limits of the page, and seeded random cases.

A case is the name of a call and what the call is given, in the order of tests/second.py's functions; for the place that is lent to raster and
listing stand its number of entries, a kind of content and a seed, from which `filled` makes what the entries hold before the call. The random
cases are biased so that sheets of every degree and depth are accepted, and every refusal is given, alone and where others would hold after it.
tests/case_sheets.py makes their sheets.
"""
import collections
import random
import struct

import second
import second_walk
from case_sheets import EDGE, LEAST31, MOST31, Sheet, accepted, any_far_out, ends, every_far_out, heavier, heavy, near

# the calls that speak of one sheet, point or cell, and those that walk and are lent a place
SINGLE = ("check", "value", "bounds")
WALKS = ("raster", "listing")
CALLS = SINGLE + WALKS
# the refusals that each call can give
REFUSALS = {
    "check": (1, 2, 3, 4, 6),
    "value": (1, 2, 3, 4, 6, 8),
    "bounds": (1, 2, 3, 4, 5, 6, 8),
    "raster": (1, 2, 3, 4, 5, 6, 7),
    "listing": (1, 2, 3, 4, 5, 6, 7),
}
# those that a raster and a listing of one sheet in one mode share: all but that of the place
SHARED = (1, 2, 3, 4, 5, 6)
MOST32, MOST63, LEAST63 = 2 ** 32 - 1, 2 ** 63 - 1, -2 ** 63
# the most coefficients that a case can hand over, and the most entries of a place
COUNT = 64
ENTRIES = 4 ** 7 + 32
# what a place holds before the call: all bytes 0, or 255; what a call may write, colours or records; any bytes; and what no call writes, each
# entry another than its neighbours
CONTENTS = ("all 0", "all 255", "written", "random", "unwritten")
# how often each depth is walked: the deep ones are slow
DEPTHS = (0,) * 3 + (1,) * 6 + (2,) * 10 + (3,) * 12 + (4,) * 10 + (5,) * 5 + (6,) * 3 + (7,) * 2

# a sheet, and all that some call takes beside it
Given = collections.namedtuple("Given", "sheet U V mode j p q entries")


def arguments(call, g):
    walk = (g.mode, g.entries)
    return tuple(g.sheet) + {"check": (), "value": (g.U, g.V), "bounds": (g.mode, g.j, g.p, g.q), "raster": walk, "listing": walk}[call]


def walk_of(args):
    """What a raster and a listing of one walk are both given: the sheet and the mode."""
    d, coefficients, *rest, _ = args
    return d, tuple(coefficients), *rest


# ---- what a place holds

# how often a list of this length is taken, so that it is as long as the longest place
AGAIN = 100


def colours(rng, entries):
    return [1 + byte % 3 for byte in rng.randbytes(min(entries, 997))] * AGAIN


def records(rng, entries):
    """Records of cells at any level."""
    cells = [(j, rng.randrange(2 ** j), rng.randrange(2 ** j)) for j in rng.choices(range(8), k=min(entries, 199))]
    return [second_walk.record_of(rng.randint(1, 3), *cell) for cell in cells] * AGAIN


def any_bytes(rng, call, entries):
    return rng.randbytes(entries) if call == "raster" else struct.unpack(f"<{entries}I", rng.randbytes(4 * entries))


def filled(call, entries, content, seed):
    """The entries of a place before the call."""
    rng, most = random.Random(seed), 2 ** 8 - 1 if call == "raster" else 2 ** 32 - 1
    held = {
        "all 0": lambda: [0] * entries,
        "all 255": lambda: [most] * entries,
        "written": lambda: (colours if call == "raster" else records)(rng, entries),
        "random": lambda: any_bytes(rng, call, entries),
        "unwritten": lambda: [*range(5, 256)] * AGAIN if call == "raster" else range(most, most - entries, -1),
    }[content]()
    return [*held[:entries]]


def with_places(rng, cases):
    """The same cases: what its place holds stands beside the number of its entries."""
    for call, args in cases:
        yield call, (*args[:-1], (args[-1], rng.choice(CONTENTS), rng.getrandbits(32))) if call in WALKS else args


# ---- a point, a cell and a place of a sheet

def along(rng, low, high):
    return rng.choice((low, high, rng.randint(low, high), rng.randint(low, high)))


def enough(rng, k):
    """The entries of a place that is just long enough for a depth, or longer."""
    return 4 ** min(k, 7) + rng.choice((0, 0, 1, rng.randint(1, 20)))


def given(rng, sheet):
    """A sheet with a mode, and with a cell, a point and a place that are its own, often at an edge."""
    j = rng.randint(0, min(sheet.k, 7))
    p, q = (rng.choice((0, 2 ** j - 1, rng.randrange(2 ** j))) for _ in "pq")
    U, V = (along(rng, *ends(sheet, corner)) for corner in (sheet.X, sheet.Y))
    return Given(sheet, U, V, rng.randint(0, 1), j, p, q, enough(rng, sheet.k))


# ---- what a refusal is given for

def beyond(rng, edge):
    """An unsigned number above an edge."""
    return rng.choice((edge + 1, edge + 1, MOST32, rng.randint(edge + 1, MOST32)))


def far(rng):
    """A corner outside its range."""
    return rng.choice((EDGE + 1, -EDGE - 1, MOST31, LEAST31, rng.randint(EDGE + 1, MOST31), rng.randint(LEAST31, -EDGE - 1)))


def other_count(rng, n):
    count = rng.choice([c for c in (0, n - 1, n + 1, 45, 50, COUNT, rng.randint(0, COUNT)) if c != n])
    return [rng.choice((0, 1, LEAST31, rng.randint(-9, 9))) for _ in range(count)]


def spoiled(rng, call, g, number):
    """The same case with one thing changed, mostly so that the refusal is given where nothing before it holds."""
    sheet = g.sheet
    if number == 1:
        return g._replace(sheet=sheet._replace(d=beyond(rng, 8)))
    if number == 2:
        return g._replace(sheet=sheet._replace(coefficients=other_count(rng, len(sheet.coefficients))))
    if number == 3:
        return g._replace(sheet=sheet._replace(k=beyond(rng, 7)))
    if number == 4:
        name = rng.choice("XYs")
        return g._replace(sheet=sheet._replace(**{name: beyond(rng, 10) if name == "s" else far(rng)}))
    if number == 5:
        return g._replace(mode=beyond(rng, 1))
    if number == 7:
        need = 4 ** min(sheet.k, 7)
        return g._replace(entries=rng.choice((0, need - 1, need - 1, rng.randrange(need))))
    if number == 6:
        kind = rng.random()
        if kind < 0.3:
            return given(rng, heavy(rng, 2 ** 62) if kind < 0.2 else any_far_out(rng, range(8), 2 ** 62))
        return g._replace(sheet=heavier(rng, sheet))
    name = rng.choice("UV" if call == "value" else "jpq")
    if name in "UV":
        low, high = ends(sheet, sheet.X if name == "U" else sheet.Y)
        outside = (low - 1, high + 1, LEAST63, MOST63, rng.randint(LEAST63, low - 1), rng.randint(high + 1, MOST63))
        return g._replace(**{name: rng.choice(outside)})
    return g._replace(**{name: beyond(rng, min(sheet.k, MOST32 - 1) if name == "j" else 2 ** g.j - 1)})


def random_sheet(rng, d, k, depths, to_bend=False):
    """An accepted sheet: mostly of this degree and depth, and now and then one of any degree that is just below the limit, or far out, or both."""
    kind = rng.random()
    if kind < 0.04:
        return heavy(rng, 2 ** 62 - 1, depths, to_bend)
    return any_far_out(rng, depths, 2 ** 62 - 1 if kind < 0.05 else None) if kind < 0.08 else accepted(rng, d, k)


def random_case(rng, call, d, k):
    """Most cases are of accepted sheets, the others are spoiled in one way or in several."""
    g, fate = given(rng, random_sheet(rng, d, k, range(8))), rng.random()
    for number in rng.sample(REFUSALS[call], 1 if fate < 0.25 else rng.randint(2, 3) if fate < 0.35 else 0):
        g = spoiled(rng, call, g, number)
    return call, arguments(call, g)


def random_walks(rng, d, k):
    """A raster and a listing of one sheet in one mode, spoiled or not, each with a place of its own."""
    sheet = random_sheet(rng, d, k, (k,), rng.random() < 0.5)
    g, fate = given(rng, near(rng, sheet) if rng.random() < 0.85 else sheet), rng.random()
    for number in rng.sample(SHARED, 1 if fate < 0.2 else rng.randint(2, 3) if fate < 0.3 else 0):
        g = spoiled(rng, "raster", g, number)
    for call in WALKS:
        h = g._replace(entries=enough(rng, k))
        yield call, arguments(call, spoiled(rng, call, h, 7) if rng.random() < 0.15 else h)


def random_cases(rng, count):
    """So many random cases: the calls, degrees and depths take turns."""
    for turn in range(count):
        turn, at = divmod(turn, len(SINGLE))
        yield random_case(rng, SINGLE[at], turn % 9, turn // 9 % 8)


def random_pairs(rng, count):
    """So many sheets, each walked by both calls: degrees and depths take turns."""
    for turn in range(count):
        yield from random_walks(rng, turn % 9, DEPTHS[turn // 9 % len(DEPTHS)])


# ---- all of them

def limits():
    """Sheets at and beyond the page's limits, in every combination, with one coefficient that is not 0 or with none."""
    for d in (0, 1, 8, 9, MOST32):
        n = (d + 1) * (d + 2) // 2 if d <= 9 else 45
        rows = [[0] * n] + [[A] + [0] * (n - 1) for A in (1, LEAST31)] + [[0] * (n - 1) + [A] for A in (-1, LEAST31)]
        for coefficients in rows if d <= 8 else rows[:1]:
            for X, Y in ((EDGE, -EDGE), (-EDGE, EDGE), (EDGE + 1, 0), (0, -EDGE - 1), (MOST31, 0), (0, LEAST31)):
                for s in (0, 10, 11, MOST32):
                    for k in (0, 7, 8, MOST32):
                        yield Sheet(d, coefficients, X, Y, s, k)


def tallied_cells():
    """Every cell, up to level 2, of the sheets of TALLIES."""
    for _, sheet, mode, _ in second.TALLIES:
        for j in range(min(sheet[-1], 2) + 1):
            yield from (("bounds", sheet + (mode, j, p, q)) for p in range(2 ** j) for q in range(2 ** j))


def figures():
    """The figures of FIGURES, with the number of a place's entries for the place."""
    for _, call, wanted, _ in second.FIGURES:
        yield call.__name__, wanted if call.__name__ in SINGLE else wanted[:-1] + (len(wanted[-1]),)


def lent(rng):
    """Raster and listing at every depth in both modes, on a line, which is cheap to walk: the place is empty, short, short by one entry,
    just long enough, and longer."""
    for k in range(8):
        for mode in (0, 1):
            need, line = 4 ** k, near(rng, accepted(rng, 1, k))
            short = {0, need - 1} | ({rng.randint(1, need - 2)} if k else set())
            for entries in sorted(short) + [need, need + rng.randint(1, 20)]:
                yield from ((call, tuple(line) + (mode, entries)) for call in WALKS)


def hidden(rng):
    """Raster and listing of A x^2 + 1, of A y^2 + 1 and of their opposites, where the cell at a level, column 0, row 0, is from -1 to 1.

    As in the page's P1 and P2, mode 0 clears that cell and finds its parts open, though not visited. At least two levels follow it,
    so that cells are left out whose own larger cell is open, and only a still larger one is not.
    """
    for k in range(2, 8):
        for level in range(k - 1):
            A, e, sign = rng.randint(5, 200), rng.choice(((2, 0), (0, 2))), rng.choice((-1, 1))
            sheet = Sheet(2, second.terms(2, {e: sign * A, (0, 0): sign}), -1, -1, level + 1, k)
            yield from ((call, tuple(sheet) + (mode, enough(rng, k))) for mode in (0, 1) for call in WALKS)


def bent(rng):
    """Raster and listing of a sheet whose largest bend is nearly 2^62, and of deeper ones, on most of which the bends of the coloured cells sum to
    more than 2^63: a comparison fails where in some mode none do."""
    for k in (0, 1, 1, 1, 2):
        sheet = heavy(rng, 2 ** 62 - 1, (k,), True)
        yield from ((call, tuple(sheet) + (mode, enough(rng, k))) for mode in (0, 1) for call in WALKS)


def far_away(rng):
    """Every call on sheets of every kind far out."""
    for g in (given(rng, sheet) for sheet, _ in every_far_out(rng, range(4))):
        yield from ((call, arguments(call, g)) for call in CALLS)


def at_limits(rng):
    """Every call on the sheets at the limits. A sheet that is refused whatever the place is lent a short one, mostly."""
    for sheet in limits():
        yield from ((call, arguments(call, given(rng, sheet))) for call in SINGLE)
        g = given(rng, sheet)
        if second.refusal(*sheet):
            g = g._replace(entries=rng.randint(0, 20))
        yield from ((call, arguments(call, g)) for call in WALKS)


def all_cases(seed, count):
    """The figures and the cells of the sheets of TALLIES, the limits, places of every kind, walks that hide an open cell, so many
    random cases, a third as many walks, sheets that bend as much as a sheet can, and sheets far out."""
    rng = random.Random(seed)
    cases = [*figures(), *tallied_cells(), *at_limits(rng), *lent(rng), *hidden(rng)]
    cases += [*random_cases(rng, count), *random_pairs(rng, count // 6), *bent(rng), *far_away(rng)]
    return [*with_places(random.Random(f"{seed} places"), cases)]
