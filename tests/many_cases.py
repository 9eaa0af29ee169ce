"""Random cases and texts for tests/many.py: every input of every call at random, nothing by turns.

They are made as in tests/cases.py, tests/text_cases.py and tests/fault_cases.py. Beside those stand cases in which any input may be any number of its
type, and texts with a random one, or some at once, of all the faults there. Every depth is walked often; the deepest ones, whose walks are slow, are
rarer. What lent places hold is drawn by itself, in tests/many.py.
"""
from case_sheets import EDGE, LEAST31, MOST31, accepted, any_far_out, ends, heavier
from cases import ENTRIES, LEAST63, MOST32, MOST63, SINGLE, WALKS, arguments, given, other_count, random_case, random_walks
from fault_cases import any_faults
from second_text import LONGEST
from text_cases import (
    BYTES, CEILING, NEGATIVE, NOT_WRITTEN, RANGES, TOO_LARGE, Case,
    anywhere, at_the_limit, bad_number, below_the_limit, cut, damaged, good, long_texts, mixed, moves, out_of_range, quick, reshaped, rows_of,
    several, small, terms_of, text_of,
)

# of a hundred walks, and of a hundred good texts, how many are of each depth
DEPTHS = (0,) * 7 + (1,) * 10 + (2,) * 16 + (3,) * 20 + (4,) * 20 + (5,) * 13 + (6,) * 9 + (7,) * 5
TEXT_DEPTHS = (0,) * 6 + (1,) * 10 + (2,) * 18 + (3,) * 22 + (4,) * 21 + (5,) * 12 + (6,) * 7 + (7,) * 4
# how many cases in which any input may be anything, and how many inputs of such a case are
LOOSE, LOOSENED = 0.12, 0.08


# ---- sheets

def whatever(rng, low, high, least, most):
    """A number within its range, at the ends or just beyond them, at the ends of its type, or anywhere in it."""
    picked = rng.choice((low, high, low - 1, high + 1, least, most, rng.randint(low, high), rng.randint(least, most)))
    return min(most, max(least, picked))


def loose(rng, g):
    """The same case with any of its inputs, by chance, being whatever its type holds."""
    def other(now, *limits):
        return whatever(rng, *limits) if rng.random() < LOOSENED else now

    d, coefficients, X, Y, s, k = g.sheet
    coefficients = other_count(rng, len(coefficients)) if rng.random() < LOOSENED else list(coefficients)
    if coefficients:
        at = rng.randrange(len(coefficients))
        coefficients[at] = other(coefficients[at], -9, 9, LEAST31, MOST31)
    X, Y = (other(corner, -EDGE, EDGE, LEAST31, MOST31) for corner in (X, Y))
    sheet = g.sheet._replace(d=other(d, 0, 8, 0, MOST32), coefficients=coefficients, X=X, Y=Y, s=other(s, 0, 10, 0, MOST32),
                             k=other(k, 0, 7, 0, MOST32))
    U, V = (other(now, *ends(sheet, corner), LEAST63, MOST63) for now, corner in ((g.U, X), (g.V, Y)))
    j = other(g.j, 0, min(sheet.k, 7), 0, MOST32)
    p, q = (other(now, 0, 2 ** min(j, 7) - 1, 0, MOST32) for now in (g.p, g.q))
    need = 4 ** min(sheet.k, 7)
    return g._replace(sheet=sheet, U=U, V=V, mode=other(g.mode, 0, 1, 0, MOST32), j=j, p=p, q=q, entries=other(g.entries, need, need + 1, 0, ENTRIES))


def single_cases(rng):
    """A case of each call that speaks of one sheet, point or cell."""
    for call in SINGLE:
        d, k = rng.randrange(9), rng.randrange(8)
        yield (call, arguments(call, loose(rng, given(rng, accepted(rng, d, k))))) if rng.random() < LOOSE else random_case(rng, call, d, k)


def walk_cases(rng):
    """A raster and a listing: of one sheet in one mode, but where any input may be anything."""
    d, k = rng.randrange(9), rng.choice(DEPTHS)
    if rng.random() >= LOOSE:
        return random_walks(rng, d, k)
    g = given(rng, accepted(rng, d, k))
    return ((call, arguments(call, loose(rng, g))) for call in WALKS)


# ---- texts

def base(rng):
    """The lines of a good text, mostly of one with few bytes."""
    return small(rng) if rng.random() < 0.7 else good(rng)


def good_text(rng):
    return Case("good", text_of(good(rng, depths=TEXT_DEPTHS)), 0, 0, 0)


def heavy_text(rng):
    """A text whose weight is at the limit, just below it, or as it comes out with the largest coefficients."""
    kind = rng.randrange(3)
    if kind < 2:
        return below_the_limit(rng, TEXT_DEPTHS) if kind else at_the_limit(rng)
    sheet = heavier(rng, accepted(rng, rng.randint(0, 8), rng.choice(TEXT_DEPTHS)))
    return Case("the largest coefficients", text_of(rows_of(rng, sheet, rng.randint(0, 1))))


def far_text(rng):
    """A text of a sheet far out along some axis: accepted, just below the limit, or at it."""
    weight = rng.choice((None, None, 2 ** 62 - 1, 2 ** 62))
    rows = rows_of(rng, any_far_out(rng, TEXT_DEPTHS, weight), rng.randint(0, 1))
    return Case("far out", text_of(rows), 6 if weight == 2 ** 62 else 0, 0, 0)


def ranged_text(rng):
    """One number beyond its range, of any size."""
    name = rng.choice(sorted(RANGES))
    *_, values = RANGES[name]
    least = min(value for value in values if value > 0)
    value = rng.choice((rng.choice(values), rng.randint(least, MOST31), rng.randint(least, 2 * least)))
    return out_of_range(rng, name, -value if name in "XY" and rng.random() < 0.5 and value > 0 else value)


def number_text(rng):
    """A field with a number badly written, too large or negative where it may not be; or with any number, or any bytes."""
    rows = base(rng)
    at, field = anywhere(rng, rows)
    if rng.random() < 0.5:
        return next(bad_number(rows, at, field, rng.choice(NOT_WRITTEN + TOO_LARGE + NEGATIVE)), None) or number_text(rng)
    size = 10 ** rng.randint(0, 12)
    rows[at][field] = rng.choice((b"%d" % rng.randint(-size, size), b"%d" % rng.randint(-size, size), scribble(rng, rng.randint(0, 12))))
    text = text_of(rows)
    return Case("any number", text) if quick(text) else number_text(rng)


def shaped_text(rng):
    rows = base(rng)
    return rng.choice([*reshaped(rows, rng.randrange(len(rows)))])


def cut_text(rng):
    text = text_of(base(rng))
    return cut(text, rng.randrange(len(text)))


def moved_text(rng):
    return rng.choice([*moves(base(rng))])


def terms_text(rng):
    """Terms twice or beyond, for any declared degree."""
    return rng.choice([*terms_of(rng, rng.choice((rng.randint(0, 8), rng.randint(4, 8), rng.randint(9, 20), rng.randint(21, MOST31))))])


def long_text(rng):
    """A text about the limit of lengths, or much longer."""
    length = LONGEST + rng.choice((rng.randint(-3, 3), rng.randint(-900, 900), rng.randint(-900, 9000)))
    return rng.choice([*long_texts(rng, length if rng.random() < 0.97 else rng.randint(LONGEST, CEILING))])


def scribble(rng, length):
    """Any bytes, or any of those that stand in texts or beside them."""
    return rng.randbytes(length) if rng.random() < 0.3 else bytes(rng.choices(rng.choice((BYTES, b"0123456789-\t\nDBKMT")), k=length))


def scribbled_text(rng):
    text = scribble(rng, rng.randint(0, rng.choice((4, 40, 400))))
    head = text_of(base(rng)[:rng.randint(0, 6)]) if rng.random() < 0.5 else b""
    return Case("any bytes", head + text) if quick(head + text) else scribbled_text(rng)


# a maker of texts, and of a hundred texts how many it makes
MAKERS = {
    good_text: 35, far_text: 3, heavy_text: 6, ranged_text: 6, several: 6, damaged: 12, mixed: 6,
    number_text: 4, shaped_text: 3, cut_text: 2, moved_text: 2, terms_text: 2, long_text: 5, scribbled_text: 2, any_faults: 6,
}


def random_text(rng):
    maker, = rng.choices([*MAKERS], [*MAKERS.values()])
    return maker(rng)
