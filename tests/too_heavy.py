"""What the script `sheet` says of a sheet that is refused by 6: how heavy it is, and which changes are enough for it to be accepted.

Only what is enough is said, with its numbers: of depths and sides the largest that is, of X and Y the whole range that is. Nothing is decided here:
the weight is worked out as request #102 has it, but what is accepted is for the proved program to say. tests/advice.py holds every claim to the
second program.
"""
import collections
import math

LIMIT = 2 ** 62
EDGE = 1_048_576  # X and Y go so far on both sides

# a sheet as its text has it: each term is i, j and its coefficient
Sheet = collections.namedtuple("Sheet", "d X Y s k terms")


def sheet_in(text):
    """The sheet of a text; a ValueError where the text has no such numbers."""
    lines = [line.split("\t") for line in text.decode("ascii").split("\n")[:-1]]
    (d,), (X, Y, s), (k,), _, *terms = ([int(field) for field in fields] for _, *fields in lines)
    return Sheet(d, X, Y, s, k, [(i, j, A) for i, j, A in terms])


# ---- the weight

def axis_limit(Z, s):
    """How far from the origin a square goes along an axis."""
    return max(abs(Z), abs(Z + 2 ** s))


def weight(sheet):
    Rx, Ry = axis_limit(sheet.X, sheet.s), axis_limit(sheet.Y, sheet.s)
    return 2 ** ((sheet.k + 1) * sheet.d) * sum(abs(A) * Rx ** i * Ry ** j for i, j, A in sheet.terms)


def accepted(sheet, **other):
    """Whether a sheet, with some numbers exchanged for others, is light enough."""
    return weight(sheet._replace(**other)) < LIMIT


# ---- changes that are enough

def largest(sheet, name):
    """The largest smaller number that is enough, of the depth or of the side; or None. Still smaller ones are enough, too."""
    return next((number for number in reversed(range(getattr(sheet, name))) if accepted(sheet, **{name: number})), None)


def farthest(enough, low, high):
    """The last number that is enough: low is, high is not, and between them it changes once."""
    while high - low > 1:
        middle = (low + high) // 2
        low, high = (middle, high) if enough(middle) else (low, middle)
    return low


def places(sheet, names):
    """Where X is enough, or Y, or both, in words; nothing where no place is.

    A sheet is lightest where the middle of its square is at the origin, or a corner if its side is 1, and gets heavier on both sides alike.
    """
    def enough(Z):
        return accepted(sheet, **dict.fromkeys(names, Z))

    side = 2 ** sheet.s
    nearest = -(side // 2)
    if not enough(nearest):
        return None
    high = farthest(enough, nearest, EDGE)
    low = max(-EDGE, -(high + side))  # the square is then the same one on the other side of the origin
    return f"from {low:,} to {high:,}" if low < high else f"at {low:,}"


def smaller_square(X, Y, s):
    return f"B<tab>{X}<tab>{Y}<tab>{s}, a smaller square"


def one_change(sheet):
    """The changes that are enough by themselves."""
    k, s = largest(sheet, "k"), largest(sheet, "s")
    if k is not None:
        yield f"K<tab>{k} or less" if k else "K<tab>0"
    if s is not None:
        yield smaller_square(sheet.X, sheet.Y, s)
    for name in "XY":
        found = places(sheet, name)
        if found:
            yield f"{name} {found}"
    common = math.gcd(*(A for _, _, A in sheet.terms))
    if accepted(sheet, terms=[(i, j, A // common) for i, j, A in sheet.terms]):
        yield f"every coefficient divided by {common:,}, which leaves the curve as it is"


def two_changes(sheet):
    """X and Y both. Where the square is too large for that at any place: the largest smaller one, its middle at the origin along each variable of the
    terms."""
    found = places(sheet, "XY")
    if found:
        return [f"X and Y both {found}"]
    names = [name for at, name in enumerate("XY") if any(term[at] for term in sheet.terms)]
    smaller = [sheet._replace(s=s, **dict.fromkeys(names, -2 ** (s - 1))) for s in range(1, sheet.s)]
    enough = [smaller_square(other.X, other.Y, other.s) for other in smaller if accepted(other)]
    return enough[-1:]


def changes(sheet):
    """The largest depth at which some change is enough, with the changes. At depth 0 there is one for every sheet: on the square from (-1, -1) to
    (1, 1) none weighs more than 2^8 times 45 times 2^31."""
    for k in reversed(range(sheet.k + 1)):
        there = sheet._replace(k=k)
        found = [*one_change(there)] or two_changes(there)
        if found:
            return k, found


# ---- all that is said

def by_need(sheet):
    """The sheet with no larger degree than its terms need, and this in words."""
    terms = [(i, j, A) for i, j, A in sheet.terms if A]
    need = max(i + j for i, j, _ in terms)
    zeros = ", once those that are 0 are left out" if any(i + j > need for i, j, _ in sheet.terms) else ""
    return sheet._replace(d=need, terms=terms), f"D<tab>{need} is enough for the terms{zeros}"


def hints_for(text):
    """What is said of a text. Nothing where its numbers cannot be read: 6 is given to no such text."""
    try:
        sheet = sheet_in(text)
    except ValueError:
        return []
    said = [f"The weight says how large numbers can get here: it has {weight(sheet).bit_length()} binary digits, and 62 are the most."]
    least, degree = by_need(sheet)
    if accepted(least):
        return [*said, f"{degree}, and with it the sheet is accepted."]
    depth, found = changes(least)
    first = []
    if least.d < sheet.d:
        said.append(f"{degree}.")
        first.append(f"D<tab>{least.d}")
    if depth < sheet.k:
        said.append("No depth is enough by itself.")
        first.append(f"K<tab>{depth}")
    these = "this change" if len(found) == 1 else "any of these changes"
    start = f"With {' and '.join(first)} {these}" if first else these.capitalize()
    return [*said, f"{start} is enough:", *(f"    {change}" for change in found)]
