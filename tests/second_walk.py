"""The second program where it walks: the page's section on the walk, for any verdicts on the cells.

The verdict on a cell is a function of its level, column and row, and nothing here asks where it comes from: tests/second.py takes it from the
bounds of a polynomial. So it is with the bend of a cell, which only the largest bend of a tally asks for.

The visited cells come from the page's definition at every depth: the cells of all levels are listed in walking order, and those all of whose larger
enclosing cells are open are the visited ones. The quick way, to cut open cells and go on with their parts, is `stepped`. No answer comes from it:
`fault_of` compares the two.
"""
import collections
import functools

COLOURS = {"open": 1, "above": 2, "below": 3}

# the visited cells with their verdicts, in walking order, and the bend of each
Walk = collections.namedtuple("Walk", "found bends")


def parts(j, p, q):
    """The four cells that a cell is cut into: lower left, lower right, upper left, upper right."""
    return [(j + 1, x, y) for y in (2 * q, 2 * q + 1) for x in (2 * p, 2 * p + 1)]


@functools.cache
def enclosing(j, p, q):
    """The larger cells that enclose a cell, from level 0 on."""
    return tuple((level, p >> (j - level), q >> (j - level)) for level in range(j))


def walking_order(j, p, q):
    """The quarter that is taken at each level from 0 on: 0 lower left, 1 lower right, 2 upper left, 3 upper right.

    Of two cells the one with the smaller sequence comes first, and a cell comes before its parts.
    """
    return tuple(2 * (q >> left & 1) + (p >> left & 1) for left in reversed(range(j)))


@functools.cache
def every_cell(k):
    """The cells of all levels, in walking order."""
    cells = [(j, p, q) for j in range(k + 1) for q in range(2 ** j) for p in range(2 ** j)]
    return sorted(cells, key=lambda at: walking_order(*at))


def visited_cells(verdict, k):
    """The definition: of all cells those all of whose larger enclosing cells are open, with their verdicts, in walking order.

    The verdict on a cell is a function of its level, column and row. It is asked at most once of each cell.
    """
    verdict = functools.cache(verdict)
    return {at: verdict(*at) for at in every_cell(k) if all(verdict(*larger) == "open" for larger in enclosing(*at))}


def walk_by(seen, k):
    """The walk by what is seen of a cell: its verdict and its bend. It is asked at most once of each cell."""
    seen = functools.cache(seen)
    found = visited_cells(lambda *at: seen(*at)[0], k)
    return Walk(found, {at: seen(*at)[1] for at in found})


def stepped(found, k, at=(0, 0, 0)):
    """The quick way: the cells that one comes to by cutting open cells above the finest level, in that order, by the verdicts found."""
    yield at
    if found.get(at) == "open" and at[0] < k:
        for part in parts(*at):
            yield from stepped(found, k, part)


def cut_cells(found, k):
    """The visited cells that are cut: the open ones above the finest level."""
    return [at for at, verdict in found.items() if verdict == "open" and at[0] < k]


def coloured_cells(found, k):
    """The visited cells that are coloured: the open ones at the finest level."""
    return [at for at, verdict in found.items() if verdict == "open" and at[0] == k]


def cleared_cells(found):
    """The visited cells that are cleared: those above and those below."""
    return [at for at, verdict in found.items() if verdict != "open"]


def largest_bend(walk, k):
    """The definition: the largest among the bends of all coloured cells, and 0 where none is coloured."""
    return max((walk.bends[at] for at in coloured_cells(walk.found, k)), default=0)


def tally_of(walk, k):
    """Visited, coloured, and the largest bend."""
    return len(walk.found), len(coloured_cells(walk.found, k)), largest_bend(walk, k)


def raster_of(found, k):
    """The bytes of the finest cells, row after row from the bottom. The parts of a cell that is cleared are covered by it."""
    covering = {(0, 0): found[0, 0, 0]}
    for j in range(1, k + 1):
        larger, covering = covering, {}
        for q in range(2 ** j):
            for p in range(2 ** j):
                over = larger[p // 2, q // 2]
                covering[p, q] = found[j, p, q] if over == "open" else over
    return [COLOURS[covering[p, q]] for q in range(2 ** k) for p in range(2 ** k)]


def record_of(colour, j, p, q):
    return colour + 4 * p + 512 * q + 65536 * j


def listing_of(found, k):
    """The records of the visited cells, in walking order, without those that are cut."""
    return [record_of(COLOURS[verdict], *at) for at, verdict in found.items() if verdict != "open" or at[0] == k]


def colour_of(record):
    return record % 4


def cell_of(record):
    """The level, column and row in a record."""
    return record // 65536, record // 4 % 128, record // 512 % 128


def unfolded(records, k):
    """The raster that a listing tells: each record's colour at each finest cell of its cell, and None where no record tells of one.

    There is none where a record is of no cell of the sheet, or where two tell of one finest cell.
    """
    told = [None] * 4 ** k
    for record in records:
        j, p, q = cell_of(record)
        if j > k or p >= 2 ** j or q >= 2 ** j:
            return None
        side = 2 ** (k - j)
        for row in range(q * side, (q + 1) * side):
            run = slice(row * 2 ** k + p * side, row * 2 ** k + (p + 1) * side)
            if told[run] != [None] * side:
                return None
            told[run] = [colour_of(record)] * side
    return told


def tally(seen, k):
    return tally_of(walk_by(seen, k), k)


def fault_of(found, k):
    """What the page says of every walk and this one does not keep, or nothing."""
    if list(stepped(found, k)) != list(found):
        return "cutting open cells comes to other cells than the definition names, or in another order"
    visited, cut = len(found), len(cut_cells(found, k))
    if visited != 1 + 4 * cut or not 1 <= visited <= (4 ** (k + 1) - 1) // 3:
        return f"{visited} cells are visited, and {cut} are cut"
    records = listing_of(found, k)
    if len(records) != visited - cut:
        return f"{visited} cells are visited, {cut} are cut, and {len(records)} are listed"
    if unfolded(records, k) != raster_of(found, k):
        return "the listing does not unfold to the raster"
    return None
