"""Demand 3 on a cell, and what request #101 says of the largest bend of a walk, tried for tests/compare.py.

Values are taken from the coefficients, by the page's sum, and not from a local form.
"""
import collections

import second
import second_walk

# of a walk so many coloured cells are tried: all, or some of more, beside one that bends most
TRIED = 6
# a bend that is nearly 2^62, which no accepted sheet's weight reaches
NEARLY = second.LIMIT - second.LIMIT // 64


# ---- a cell

def within(rng, centre, H, Q):
    """A numerator over Q of a coordinate in the closed cell: an edge, the middle, or any other."""
    low, high = Q * (centre - H), Q * (centre + H)
    return rng.choice((low, high, Q * centre, rng.randint(low, high), rng.randint(low, high), rng.randint(low, high)))


def corner_values(d, coefficients, X, Y, s, k, j, p, q):
    """The values at the corners of a cell, the least first, each with its corner."""
    U0, V0, H = second.cell(X, Y, s, k, j, p, q)
    return sorted((second.polynomial(d, coefficients, k, U, V, 1), (U, V)) for U in (U0 - H, U0 + H) for V in (V0 - H, V0 + H))


def overshoots(values, lower, upper, bend):
    """Whether a bound lies further beyond the extreme corner value on its side than twice a bend."""
    return values[0][0] - 2 * bend > lower or upper > values[-1][0] + 2 * bend


def straight_fault(d, coefficients, X, Y, s, k, j, p, q, values, lower, upper):
    """What is wrong at the point of an open cell at which the value must be 0 where nothing bends, or nothing.

    The value is lower at one corner and upper at the other, and changes evenly between them.
    """
    U0, V0, H = second.cell(X, Y, s, k, j, p, q)
    (_, low_corner), *_, (_, high_corner) = values
    Q = upper - lower or 1
    M, N = (upper * low - lower * high if upper > lower else low for low, high in zip(low_corner, high_corner))
    if max(abs(M - Q * U0), abs(N - Q * V0)) > Q * H or second.polynomial(d, coefficients, k, M, N, Q) != 0:
        return f"nothing bends, and the value is not 0 at {M}/{Q}, {N}/{Q}"
    return None


def demand_3(rng, args, answered):
    """What is wrong with a cell's bounds, or nothing."""
    *sheet, _, j, p, q = args
    d, coefficients, X, Y, s, k = sheet
    _, verdict, lower, upper, bend = answered
    U0, V0, H = second.cell(X, Y, s, k, j, p, q)
    for Q in (1, rng.choice((2, 3, 7, 10 ** 6)), rng.randint(1, 2 ** 32), rng.randint(1, 2 ** 80)):
        M, N = within(rng, U0, H, Q), within(rng, V0, H, Q)
        there = second.polynomial(d, coefficients, k, M, N, Q)
        if not Q ** d * lower <= there <= Q ** d * upper:
            return f"at {M}/{Q}, {N}/{Q} the value lies outside the bounds"
        if verdict == "above" and there <= 0 or verdict == "below" and there >= 0:
            return f"at {M}/{Q}, {N}/{Q} the cell is not {verdict}"
    values = corner_values(*sheet, j, p, q)
    if any(second.refusal(*sheet, point=corner) for _, corner in values):
        return "a corner is refused"
    if overshoots(values, lower, upper, bend):
        return "a bound overshoots the corners by more than twice the bend"
    return straight_fault(*sheet, j, p, q, values, lower, upper) if bend == 0 and verdict == "open" else None


# ---- a walk

# the largest bend of a walk, and a cell that has it, or None; how many cells are coloured; of their bends the first and the last in walking order,
# the least, and the sum of all; and the largest bend of the cells that are cleared, cleared at the finest level, and cut: 0 where there are none
Bends = collections.namedtuple("Bends", "largest most coloured first last least sum cleared finest cut")


def bends_of(walk, k):
    """What is asked of the bends of a walk of the second program."""
    found, bends = walk
    cells, cleared = second_walk.coloured_cells(found, k), second_walk.cleared_cells(found)
    coloured = [bends[at] for at in cells] or [0]
    others = cleared, [at for at in cleared if at[0] == k], second_walk.cut_cells(found, k)
    return Bends(max(coloured), max(cells, key=bends.get, default=None), len(cells), coloured[0], coloured[-1], min(coloured), sum(coloured),
                 *(max((bends[at] for at in some), default=0) for some in others))


def largest_bend_fault(rng, walk, of, coloured, largest):
    """What is wrong with the largest bend that is answered for a walk beside its coloured cells, or nothing.

    The bends and bounds are the second program's. Where the largest bend is 0, every coloured cell meets the curve; and no bound of a coloured cell
    overshoots the corners by more than twice as much. These two are tried first, so that a wrong largest bend can fail by each of them. No coloured
    cell bends more, and where a cell is coloured, one bends just so much. Where too many cells are coloured, some of them are tried, and one that
    bends most.
    """
    *sheet, mode = walk
    if of.coloured != len(coloured) or coloured and of.most not in coloured:
        return f"{len(coloured)} cells are coloured, and by the second program {of.coloured} are, {of.most} among them"
    tried = coloured if len(coloured) <= TRIED else [of.most, *rng.sample(coloured, TRIED)]
    ranges = {at: second.range_of(*sheet, mode, *at) for at in tried}
    for at, (verdict, lower, upper, _) in ranges.items():
        values = corner_values(*sheet, *at)
        if verdict != "open":
            return f"the cell {at} is coloured, and is {verdict}"
        fault = straight_fault(*sheet, *at, values, lower, upper) if largest == 0 else None
        if fault:
            return f"the largest bend is 0, and in the cell {at} {fault}"
        if overshoots(values, lower, upper, largest):
            return f"in the cell {at} a bound overshoots the corners by more than twice the largest bend, {largest}"
    bends = {at: bend for at, (*_, bend) in ranges.items()}
    return f"the largest bend is {largest}, and coloured cells have {bends}" if largest != max(bends.values(), default=0) else None


# ---- what a largest bend can be

# the kinds that every run must show
LARGEST_BENDS = {
    "0, and no cell is coloured": lambda of: of.coloured == 0 < of.cleared,
    "0, and several cells are coloured": lambda of: of.coloured > 1 and of.largest == 0,
    "that of each of several coloured cells": lambda of: of.coloured > 1 and 0 < of.least == of.largest,
    "not that of the last coloured cell": lambda of: of.last < of.largest,
    "not that of the first coloured cell": lambda of: of.first < of.largest,
    "below that of a cleared cell": lambda of: 0 < of.largest < of.cleared,
    "below that of a cleared finest cell": lambda of: 0 < of.largest < of.finest,
    "below that of a cut cell": lambda of: 0 < of.largest < of.cut,
    "nearly 2^62": lambda of: of.largest > NEARLY,
}


def kinds_of(of):
    """The kinds that the largest bend of a walk is of."""
    return [kind for kind, holds in LARGEST_BENDS.items() if holds(of)]


# wrong rules for the largest bend: what each answers, and kinds on which it never answers what the right one does
WRONG_RULES = {
    "the largest with the cleared cells": (
        lambda of: max(of.largest, of.cleared),
        ("0, and no cell is coloured", "below that of a cleared cell", "below that of a cleared finest cell")),
    "the largest with the cleared finest cells": (lambda of: max(of.largest, of.finest), ("below that of a cleared finest cell",)),
    "the largest with the cut cells": (lambda of: max(of.largest, of.cut), ("below that of a cut cell",)),
    "the largest of all visited cells": (
        lambda of: max(of.largest, of.cleared, of.cut),
        ("0, and no cell is coloured", "below that of a cleared cell", "below that of a cleared finest cell", "below that of a cut cell")),
    "the sum": (lambda of: of.sum, ("that of each of several coloured cells",)),
    "the last one": (lambda of: of.last, ("not that of the last coloured cell",)),
    "the first one": (lambda of: of.first, ("not that of the first coloured cell",)),
    "the least one": (lambda of: of.least, ("not that of the last coloured cell", "not that of the first coloured cell")),
    "one less": (lambda of: max(0, of.largest - 1), ("that of each of several coloured cells", "nearly 2^62")),
    "always 0": (lambda of: 0, ("that of each of several coloured cells", "nearly 2^62")),
    "never 0 where a cell is coloured": (lambda of: of.largest or min(1, of.coloured), ("0, and several cells are coloured",)),
    "at most 2^61": (lambda of: min(of.largest, 2 ** 61), ("nearly 2^62",)),
    "0 where the sum is above 2^63": (lambda of: of.largest if of.sum <= 2 ** 63 else 0, ()),
}


def untold(walks):
    """The wrong rules that a run does not tell from the right one: in some mode they answer the same on all walks, or on one of a kind on which they
    never should."""
    for rule, (answer, kinds) in WRONG_RULES.items():
        for mode in (0, 1):
            here = {walk: of for walk, of in walks.items() if walk[-1] == mode}
            same = {walk: of for walk, of in here.items() if answer(of) == of.largest}
            if len(same) == len(here):
                yield f"the wrong rule \"{rule}\" answers the right largest bend on every walk in mode {mode}"
            for kind in kinds:
                like = [walk for walk, of in same.items() if LARGEST_BENDS[kind](of)]
                if like:
                    yield f"the wrong rule \"{rule}\" answers the right largest bend, {kind}, on {len(like)} walks in mode {mode}, as {like[0]}"
