"""Request #102's weight by axis, for tests/compare.py, tests/texts.py and tests/many.py: the kinds of sheets that must come up, and the wrong rules
for the weight that the cases must tell from the right one.

What is said here is said of sheets that are accepted, or refused by 6: of a sheet, d, coefficients, X, Y, s and k, and the number of its answer.
"""
import collections

import second

# limits along an axis that are far out, this or more, and near, this or less
FAR, NEAR = 1024, 32
STATES = {0: "accepted", 6: "refused by 6"}


# ---- the kinds of sheets

# the two limits; the weight, the least that it can grow by, and the weight before #102; the variables of the terms that are not 0; and the axis that
# carries the weight, or None: its limit is the larger one, and terms in which its variable has the larger power weigh more than half
Weighed = collections.namedtuple("Weighed", "Rx Ry weight unit before letters carrier")


def letters_of(d, coefficients):
    """The variables of the terms that are not 0."""
    there = [e for e, A in second.table(d, coefficients).items() if A]
    return "".join(letter for at, letter in enumerate("xy") if any(e[at] for e in there))


def weighed(d, coefficients, X, Y, s, k):
    Rx, Ry = second.limits(X, Y, s)
    weight = second.weight_of(d, coefficients, X, Y, s, k)
    letter, mine = ("x", lambda i, j: i > j) if Rx > Ry else ("y", lambda i, j: j > i)
    part = second.weight_by(Rx, Ry, d, [A if mine(*e) else 0 for e, A in second.table(d, coefficients).items()], k)
    carrier = letter if Rx != Ry and 2 * part > weight else None
    return Weighed(Rx, Ry, weight, 2 ** ((k + 1) * d), second.old_weight_of(d, coefficients, X, Y, s, k), letters_of(d, coefficients), carrier)


# where a square lies
AWAY = {
    "far along x only": lambda of: of.Rx >= FAR and of.Ry <= NEAR,
    "far along y only": lambda of: of.Ry >= FAR and of.Rx <= NEAR,
    "far along both axes": lambda of: min(of.Rx, of.Ry) >= FAR,
}
# the kinds of sheets that are accepted, and that are refused by 6
BOTH = {
    **AWAY,
    **{f"with powers of {letter} alone, {away}": lambda of, letter=letter, away=away: of.letters == letter and AWAY[away](of)
       for letter in "xy" for away in AWAY},
}
ACCEPTED = {
    **{f"just below 2^62 by {axis}": lambda of, axis=axis: of.carrier == axis and 0 < second.LIMIT - of.weight <= of.unit for axis in "xy"},
    "of 2^62 or more before #102": lambda of: of.before >= second.LIMIT,
}
REFUSED = {f"at 2^62 by {axis}": lambda of, axis=axis: of.carrier == axis and of.weight == second.LIMIT for axis in "xy"}
# what every run must show, each with the number of its answer
KINDS = {0: {**BOTH, **ACCEPTED}, 6: {**BOTH, **REFUSED}}


def kinds_of(sheet, number):
    """The kinds that a sheet is of, in words. A sheet that is refused by another number is of none."""
    of = weighed(*sheet) if number in KINDS else None
    return [named(kind, number) for kind, holds in KINDS.get(number, {}).items() if holds(of)]


def named(kind, number):
    return f"{kind}, {STATES[number]}"


def every_kind():
    return [named(kind, number) for number, kinds in KINDS.items() for kind in kinds]


# ---- wrong rules for the weight

def axis_limit(Z, s):
    return max(abs(Z), abs(Z + 2 ** s))


# wrong rules: the limits along x and along y that each goes by, and whether it makes a sheet heavier, lighter, or one or the other. They are made of
# an axis_limit of their own, and not of the second program's limits: were those wrong in one of these ways, then no sheet would tell that rule from
# them, and the run would fail; made of the wrong limits, the rules would be others
WRONG_RULES = {
    "the limits exchanged": (lambda X, Y, s: (axis_limit(Y, s), axis_limit(X, s)), "heavier lighter"),
    "the larger limit for x": (lambda X, Y, s: (max(axis_limit(X, s), axis_limit(Y, s)), axis_limit(Y, s)), "heavier"),
    "the larger limit for y": (lambda X, Y, s: (axis_limit(X, s), max(axis_limit(X, s), axis_limit(Y, s))), "heavier"),
    "the larger limit for both, as before": (lambda X, Y, s: (max(axis_limit(X, s), axis_limit(Y, s)),) * 2, "heavier"),
    "the smaller limit for both": (lambda X, Y, s: (min(axis_limit(X, s), axis_limit(Y, s)),) * 2, "lighter"),
    "the limit of x for both": (lambda X, Y, s: (axis_limit(X, s),) * 2, "heavier lighter"),
    "the limit of y for both": (lambda X, Y, s: (axis_limit(Y, s),) * 2, "heavier lighter"),
    "x left out": (lambda X, Y, s: (1, axis_limit(Y, s)), "lighter"),
    "y left out": (lambda X, Y, s: (axis_limit(X, s), 1), "lighter"),
    "|X| alone": (lambda X, Y, s: (abs(X), axis_limit(Y, s)), "lighter"),
    "|Y| alone": (lambda X, Y, s: (axis_limit(X, s), abs(Y)), "lighter"),
    "|X + 2^s| alone": (lambda X, Y, s: (abs(X + 2 ** s), axis_limit(Y, s)), "lighter"),
    "|Y + 2^s| alone": (lambda X, Y, s: (axis_limit(X, s), abs(Y + 2 ** s)), "lighter"),
    "the smaller of |X| and |X + 2^s|": (lambda X, Y, s: (min(abs(X), abs(X + 2 ** s)), axis_limit(Y, s)), "lighter"),
    "the smaller of |Y| and |Y + 2^s|": (lambda X, Y, s: (axis_limit(X, s), min(abs(Y), abs(Y + 2 ** s))), "lighter"),
    "|X| + 2^s": (lambda X, Y, s: (abs(X) + 2 ** s, axis_limit(Y, s)), "heavier"),
    "|Y| + 2^s": (lambda X, Y, s: (axis_limit(X, s), abs(Y) + 2 ** s), "heavier"),
}
# what tells a rule of each way from the right one by the number of an answer
BY_NUMBER = {"heavier": "refuses by 6 what is accepted", "lighter": "accepts what is refused by 6"}
BY_WEIGHT = "answers another weight"


def difference(rule, sheet, number):
    """How a wrong rule differs from the right one on a sheet, or nothing."""
    d, coefficients, X, Y, s, k = sheet
    weight = second.weight_by(*rule(X, Y, s), d, coefficients, k)
    if number == 6:
        return BY_NUMBER["lighter"] if weight < second.LIMIT else None
    if weight >= second.LIMIT:
        return BY_NUMBER["heavier"]
    return BY_WEIGHT if weight != second.weight_of(*sheet) else None


def untold(call, answered):
    """The wrong rules that the sheets of a call, each with its number, do not tell from the right one: by the number in each way in which the rule
    errs, and by the weight where the call answers one."""
    judged = [(sheet, number) for sheet, number in answered if number in STATES]
    for name, (rule, ways) in WRONG_RULES.items():
        left = [BY_NUMBER[way] for way in ways.split()] + ([BY_WEIGHT] if call == "check" else [])
        for sheet, number in judged:
            found = difference(rule, sheet, number) if left else None
            left = [way for way in left if way != found]
        yield from (f"{call}: on no sheet the wrong rule for the weight \"{name}\" {way}" for way in left)
