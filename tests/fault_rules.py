"""Wrong rules for the faults of lines, which the texts of tests/texts.py must tell from the right one.

The right rule stands here once more, made of pieces that a wrong rule exchanges: a row of trials, each of which finds one kind of fault in a line, and
the first that finds one decides. It shares nothing with tests/second_text.py, so tests/texts.py compares the two as well; were the second program
wrong in one of these ways, then no text would tell that rule from it, and the run would fail.

A wrong rule is told by a text to which it gives another answer. Each says in which ways it errs: pairs of a number with its field, the right ones and
its own, (0, 0) where there is no fault; each way must come up. That 19 is tried after 18 no text can tell: a term beyond was never given before.

By the same pieces stands here what can be seen in a line, whatever decides: the faults that tests/fault_cases.py says it put there are looked for.
"""
import collections
import functools
import math
import re

LONGEST, LEAST31, MOST31 = 8_192, -2 ** 31, 2 ** 31 - 1
# how many fields a line has, and which of them may be negative
FIELDS, SIGNED = {b"D": 2, b"B": 4, b"K": 2, b"M": 2, b"T": 4}, {(b"B", 2), (b"B", 3), (b"T", 4)}
LETTERS = [*FIELDS]
# a line: the letter that belongs there, the fields, whether an LF follows, the declared degree, and the exponents named before, the last ones last
Line = collections.namedtuple("Line", "letter fields ended d named")


# ---- numbers

@functools.cache
def worth(field):
    """What a field is worth, read loosely: its first digits, negative where a minus stands before them; 0 where it has none; at most 2^80."""
    before, digits = re.fullmatch(rb"([^0-9]*)([0-9]*).*", field, re.S).groups()
    digits = digits.lstrip(b"0")
    return (int(digits or b"0") if len(digits) < 25 else 2 ** 80) * (-1 if b"-" in before else 1)


@functools.cache
def badly(field):
    """Whether a field is no number: of bytes `isdigit` asks for the ten ASCII digits, and for one of them at least."""
    digits = field.removeprefix(b"-")
    return not digits.isdigit() or digits[:1] == b"0" and field != b"0"


def outside(field):
    return not LEAST31 <= worth(field) <= MOST31


def wrapped(number):
    """What is left of a number in 32 bits with a sign."""
    return (number - LEAST31) % 2 ** 32 + LEAST31


def below(line, at):
    """Whether a field is negative where it may not be."""
    return (line.letter, at) not in SIGNED and worth(line.fields[at - 1]) < 0


# ---- trials: what each finds in a line, a number and a field, or nothing

def letter(line):
    return (14, 1) if line.fields[0] != line.letter else None


def count(line):
    return (15, 0) if len(line.fields) != FIELDS[line.letter] else None


def fault_of_number(line, at):
    if badly(line.fields[at - 1]):
        return 16, at
    return (17, at) if outside(line.fields[at - 1]) or below(line, at) else None


def field(at, fault=fault_of_number):
    """The trial of a field that is to hold a number, where the line has one."""
    return lambda line: fault(line, at) if at <= min(len(line.fields), FIELDS[line.letter]) else None


def loosely(line):
    """i and j where the line is to be a term's, whether they read well or not."""
    return (worth(line.fields[1]), worth(line.fields[2])) if line.letter == b"T" and len(line.fields) > 2 else None


def guessed(line, lost=lambda e: abs(wrapped(e))):
    """The same, as one takes them who loses something of them: their signs, and all bits but 32."""
    pair = loosely(line)
    return pair and (lost(pair[0]), lost(pair[1]))


def exponents(line):
    """i and j where they read well."""
    return None if any(field(at)(line) for at in (2, 3)) else loosely(line)


def term(beyond=lambda i, j: (18, 2), twice=(19, 2), of=exponents, above=8, summed=True, among=lambda named: named):
    """The trial of the exponents."""
    def trial(line):
        pair = of(line)
        if pair is None:
            return None
        if summed and sum(pair) > line.d or max(pair) > above:
            return beyond(*pair)
        return twice if pair in among(line.named) else None
    return trial


def end(line):
    return None if line.ended else (20, 0)


# ---- a rule

def split(text):
    """The lines of a text, each with whether an LF follows."""
    return [(line.removesuffix(b"\n"), line.endswith(b"\n")) for line in re.findall(rb"[^\n]*\n|[^\n]+", text)]


# trials: in their order. chosen: what decides of all that they find. lines: the lines of a text. missing: the answer for a missing line. longest: how
# long a text may be. early: whether a degree above 8 is refused at once. told: what is answered for a fault
Rule = collections.namedtuple("Rule", "trials chosen lines missing longest early told")
FRONT, EXPONENTS, TERM, COEFFICIENT = (letter, count), (field(2), field(3)), term(), field(4)
RIGHT = Rule((*FRONT, *EXPONENTS, TERM, COEFFICIENT, end), lambda found: next(found, None), split, lambda line: (14, line, 0), LONGEST, False,
             lambda number, line, place: (number, line, place))


def answer_by(rule, text):
    """The number, the line and the field of what is wrong with the lines of a text, or zeros."""
    if len(text) > rule.longest:
        return 11, 0, 0
    lines, d, named = rule.lines(text), 0, []
    for at, (bytes_of, ended) in enumerate(lines, 1):
        line = Line(LETTERS[min(at, 5) - 1], bytes_of.split(b"\t"), ended, d, named)
        found = rule.chosen(filter(None, (trial(line) for trial in rule.trials)))
        if found:
            return rule.told(found[0], at, found[1])
        if at == 1:
            d = worth(line.fields[-1])
        if rule.early and d > 8:
            return 1, 0, 0
        if at > 4:
            named.append(loosely(line))
    return rule.told(*rule.missing(len(lines) + 1)) if len(lines) < 4 else (0, 0, 0)


# ---- what can be seen in a line

def names_of(line):
    """All faults of a line by the names of tests/fault_cases.py: the exponents are guessed."""
    fields, wanted = line.fields, FIELDS[line.letter]
    yield "letter", letter(line)
    yield "a field less", len(fields) < wanted
    yield "a field more", len(fields) > wanted
    for at, here in enumerate(fields[1:wanted], 2):
        yield from ((f"{at} badly written", badly(here)), (f"{at} outside", outside(here)), (f"{at} negative", below(line, at)))
    if guessed(line):
        i, j = guessed(line)
        yield from (("the sum beyond", i + j > line.d), ("i above 8", i > 8), ("j above 8", j > 8), ("twice", (i, j) in line.named))
    yield "unended", end(line)


def faults_seen(text, at):
    """The faults that are seen in a line of a text, counted from 1, all lines before it being good."""
    (*before, fields), ended = [line.split(b"\t") for line, _ in split(text)[:at]], split(text)[at - 1][1]
    named = [(worth(i), worth(j)) for _, i, j, _ in before[4:]]
    return {name for name, holds in names_of(Line(LETTERS[min(at, 5) - 1], fields, ended, worth(before[0][1]) if before else 0, named)) if holds}


# ---- wrong rules

def tried(*trials):
    return RIGHT._replace(trials=trials)


def chosen_by(some):
    """Another way to choose among all faults of a line."""
    return RIGHT._replace(chosen=lambda found: some(found, default=None))


def fields_by(fault):
    """Other faults of the fields that are to hold a number."""
    return tried(*FRONT, field(2, fault), field(3, fault), TERM, field(4, fault), end)


def numbers_by(number, when):
    """Another number for a field where something holds of the line, the place and the bytes there."""
    return fields_by(lambda line, at: (number, at) if when(line, at, line.fields[at - 1]) else fault_of_number(line, at))


def let_through(when):
    """No fault of a field where something holds of the bytes there."""
    return fields_by(lambda line, at: None if when(line.fields[at - 1]) else fault_of_number(line, at))


def terms_by(**other):
    return tried(*FRONT, *EXPONENTS, term(**other), COEFFICIENT, end)


def exponents_by(lost):
    """Exponents of which something is lost before it is asked whether they are good."""
    def fault(line, at):
        good = line.letter == b"T" and not badly(line.fields[at - 1]) and 0 <= lost(worth(line.fields[at - 1])) <= MOST31
        return None if good else fault_of_number(line, at)
    read = field(2, fault), field(3, fault)
    return tried(*FRONT, *read, term(of=lambda line: None if any(trial(line) for trial in read) else guessed(line, lost)), COEFFICIENT, end)


def letter_by(trial):
    return tried(trial, count, *EXPONENTS, TERM, COEFFICIENT, end)


def told_as(fault, other):
    """One number and field told instead of another."""
    return RIGHT._replace(told=lambda number, line, place: (other[0], line, other[1]) if (number, place) == fault else (number, line, place))


def early_exponent(line):
    """i tried before j is read."""
    return (18, 2) if line.letter == b"T" and len(line.fields) > 1 and worth(line.fields[1]) > min(8, line.d) else None


def to(other, *rights):
    """The ways in which all these become one other."""
    return [(right, other) for right in rights]


def to_number(number, *rights):
    """The ways in which each of these becomes another number in the same field."""
    return [((right, place), (number, place)) for right, place in rights]


BADLY, ASTRAY, TERMS = [(16, 2), (16, 3), (16, 4)], [(17, 2), (17, 3), (17, 4)], [(18, 2), (19, 2)]
NUMBERS = BADLY + ASTRAY
CELLS = [(14, 0), (14, 1), (15, 0), *NUMBERS, *TERMS, (20, 0)]
SAME_LINE = [(14, 1), (15, 0), *NUMBERS, *TERMS]
IN_EXPONENTS = [(16, 2), (16, 3), (17, 2), (17, 3)]
NONE = (0, 0)
# what becomes of an exponent that is let through
TAKEN = [((17, at), other) for at in (2, 3) for other in (*TERMS, (16, 4), (17, 4), (20, 0), NONE)] + to((16, 3), (17, 2))
# by its name a wrong rule, and the ways in which it errs
RULES = {
    # the order of a line's faults
    "the count before the letter": (tried(count, letter, *EXPONENTS, TERM, COEFFICIENT, end), to((15, 0), (14, 1))),
    "the letter after the numbers": (tried(count, *EXPONENTS, TERM, COEFFICIENT, letter, end), [((14, 1), other) for other in SAME_LINE[1:]]),
    "the count after the numbers": (tried(letter, *EXPONENTS, TERM, COEFFICIENT, count, end), [((15, 0), other) for other in SAME_LINE[2:]]),
    "an unended line first": (tried(end, *RIGHT.trials), to((20, 0), *SAME_LINE)),
    "an unended line before the count": (tried(letter, end, *RIGHT.trials[1:]), to((20, 0), *SAME_LINE[1:])),
    "an unended line before the numbers": (tried(*FRONT, end, *RIGHT.trials[2:]), to((20, 0), *NUMBERS, *TERMS)),
    "an unended line before the coefficient": (tried(*FRONT, *EXPONENTS, TERM, end, COEFFICIENT), to((20, 0), (16, 4), (17, 4))),
    "a term fault before i and j read well": (tried(*FRONT, term(of=guessed), *RIGHT.trials[2:]),
                                              to((18, 2), *IN_EXPONENTS) + to((19, 2), *IN_EXPONENTS)),
    "a term fault before i and j read well, nothing of them lost": (tried(*FRONT, term(of=loosely), *RIGHT.trials[2:]),
                                                                    to((18, 2), *IN_EXPONENTS) + to((19, 2), (16, 2), (16, 3))),
    "i tried before j is read": (tried(*FRONT, field(2), early_exponent, *RIGHT.trials[3:]), to((18, 2), (16, 3), (17, 3))),
    "a term fault before the count": (tried(letter, TERM, *RIGHT.trials[1:]), to((18, 2), (15, 0)) + to((19, 2), (15, 0))),
    "a term fault after the coefficient's": (tried(*FRONT, *EXPONENTS, COEFFICIENT, TERM, end), to((16, 4), *TERMS) + to((17, 4), *TERMS)),
    "the rightmost field": (tried(*FRONT, COEFFICIENT, *reversed(EXPONENTS), TERM, end),
                            [(one, other) for one in NUMBERS for other in NUMBERS if one[1] < other[1]] + to((16, 4), *TERMS) + to((17, 4), *TERMS)),
    "the lowest number of a line": (chosen_by(min), to((16, 3), (17, 2)) + to((16, 4), (17, 2), (17, 3), *TERMS) + to((17, 4), *TERMS)),
    "the highest number of a line": (chosen_by(max), to((20, 0), *SAME_LINE) + to((18, 2), (14, 1), (15, 0)) + to((17, 4), (16, 2))),
    "field 0 before all others": (chosen_by(lambda found, default: min(found, key=lambda fault: fault[1], default=default)),
                                  to((15, 0), (14, 1)) + to((20, 0), (14, 1), *NUMBERS, *TERMS)),
    # numbers
    "17 before 16 in a field": (numbers_by(17, lambda line, at, here: outside(here) or below(line, at)), to_number(17, *BADLY)),
    "a minus where none may be as 17": (numbers_by(17, lambda line, at, here: (line.letter, at) not in SIGNED and here[:1] == b"-"),
                                        to_number(17, *BADLY)),
    "negative as badly written": (numbers_by(16, lambda line, at, here: below(line, at)), to_number(16, *ASTRAY)),
    "outside as badly written": (numbers_by(16, lambda line, at, here: outside(here)), to_number(16, *ASTRAY)),
    "an empty field as a missing one": (fields_by(lambda line, at: fault_of_number(line, at) if line.fields[at - 1] else (15, 0)),
                                        to((15, 0), *BADLY)),
    "leading zeros let through": (let_through(lambda here: re.fullmatch(rb"0+[0-9]", here)), to(NONE, *BADLY)),
    "a plus let through": (let_through(lambda here: re.fullmatch(rb"\+[0-9]", here)), to(NONE, *BADLY)),
    "-0 let through": (let_through(lambda here: here == b"-0"), to(NONE, *BADLY)),
    "32 bits without a sign let through": (let_through(lambda here: not badly(here) and MOST31 < worth(here) < 2 ** 32), to(NONE, *ASTRAY)),
    "the sign of an exponent lost": (exponents_by(abs), TAKEN + to((17, 3), (17, 2))),
    "an exponent wrapped to 32 bits": (exponents_by(wrapped), TAKEN + to((17, 3), (17, 2))),
    "an exponent wrapped to 32 bits, and its sign lost": (exponents_by(lambda e: abs(wrapped(e))), TAKEN),
    # terms
    "18 for a term twice": (terms_by(twice=(18, 2)), to((18, 2), (19, 2))),
    "19 for a term beyond": (terms_by(beyond=lambda i, j: (19, 2)), to((19, 2), (18, 2))),
    **{f"a term fault at field {at}": (terms_by(beyond=lambda i, j, at=at: (18, at), twice=(19, at)), [((18, 2), (18, at)), ((19, 2), (19, at))])
       for at in (0, 1, 3, 4)},
    "a term fault at the larger exponent": (terms_by(beyond=lambda i, j: (18, 3 if j > i else 2)), to((18, 3), (18, 2))),
    "an exponent above 8 as 17": (terms_by(beyond=lambda i, j: (17, 2) if i > 8 else (17, 3) if j > 8 else (18, 2)),
                                  to((17, 2), (18, 2)) + to((17, 3), (18, 2))),
    "exponents above 8 let through": (terms_by(above=math.inf), to(NONE, (18, 2))),
    "an exponent of 9 let through": (terms_by(above=9), to(NONE, (18, 2))),
    "no exponent of 8": (terms_by(above=7), to((18, 2), NONE)),
    "any sum let through": (terms_by(summed=False), to(NONE, (18, 2))),
    "a term twice let through": (terms_by(among=lambda named: ()), to(NONE, (19, 2))),
    "a term twice told of the line before alone": (terms_by(among=lambda named: named[-1:]), to(NONE, (19, 2))),
    # letters and fields
    "the first byte as the letter": (letter_by(lambda line: (14, 1) if line.fields[0][:1] != line.letter else None), to(NONE, (14, 1))),
    "small letters let through": (letter_by(lambda line: (14, 1) if line.fields[0].upper() != line.letter else None), to(NONE, (14, 1))),
    "an empty line as a missing one": (letter_by(lambda line: (14, 0) if line.fields == [b""] else letter(line)), to((14, 0), (14, 1))),
    "an empty line as a wrong count": (letter_by(lambda line: None if line.fields == [b""] else letter(line)), to((15, 0), (14, 1))),
    "an empty line passed over": (RIGHT._replace(lines=lambda text: [one for one in split(text) if one != (b"", True)]), to(NONE, (14, 1))),
    "a letter at field 0": (told_as((14, 1), (14, 0)), to((14, 0), (14, 1))),
    **{f"a wrong count at field {at}": (told_as((15, 0), (15, at)), to((15, at), (15, 0))) for at in (1, 2)},
    "a wrong count where the fields end": (RIGHT._replace(trials=(letter, lambda line: count(line) and (15, len(line.fields)), *RIGHT.trials[2:])),
                                           [((15, 0), (15, at)) for at in (1, 2, 3, 5)]),
    "a tab at the end of a line let through": (RIGHT._replace(lines=lambda text: [(line.removesuffix(b"\t"), ended) for line, ended in split(text)]),
                                               to(NONE, (15, 0)) + to((15, 0), (16, 2), (16, 4))),
    "a CR at the end of a line let through": (RIGHT._replace(lines=lambda text: [(line.removesuffix(b"\r"), ended) for line, ended in split(text)]),
                                              to(NONE, (16, 2), (16, 4))),
    "fields counted from 0": (RIGHT._replace(told=lambda number, line, place: (number, line, max(place - 1, 0))),
                              [((number, place), (number, place - 1)) for number, place in CELLS if place]),
    # missing and unended lines, and lines
    "a missing line at field 1": (told_as((14, 0), (14, 1)), to((14, 1), (14, 0))),
    "a missing line as a wrong count": (told_as((14, 0), (15, 0)), to((15, 0), (14, 0))),
    "a missing line as an unended one": (told_as((14, 0), (20, 0)), to((20, 0), (14, 0))),
    "a missing line one before": (RIGHT._replace(missing=lambda line: (14, line - 1, 0)), to((14, 0), (14, 0))),
    "a missing line always the fourth": (RIGHT._replace(missing=lambda line: (14, 4, 0)), to((14, 0), (14, 0))),
    "an unended line as a missing one": (RIGHT._replace(lines=lambda text: [one for one in split(text) if one[1]]),
                                         to((14, 0), (20, 0), (14, 1), (15, 0), (16, 2)) + to(NONE, (20, 0), *SAME_LINE)),
    "an unended line let through": (tried(*RIGHT.trials[:-1]), to(NONE, (20, 0)) + to((14, 0), (20, 0))),
    "an unended line at field 1": (told_as((20, 0), (20, 1)), to((20, 1), (20, 0))),
    "an unended line at its last field": (tried(*RIGHT.trials[:-1], lambda line: end(line) and (20, len(line.fields))),
                                          to((20, 2), (20, 0)) + to((20, 4), (20, 0))),
    "lines counted from 0": (RIGHT._replace(told=lambda number, line, place: (number, line - 1, place)), [(cell, cell) for cell in CELLS]),
    # beside the other refusals
    "10 as before": (RIGHT._replace(told=lambda number, line, place: (10, line, 0)), to((10, 0), *CELLS)),
    "1 before the faults of lines": (RIGHT._replace(early=True), to((1, 0), *CELLS)),
    "11 after the faults of lines": (RIGHT._replace(longest=math.inf), [((11, 0), other) for other in ((14, 1), (16, 4), (17, 4), (19, 2))]),
    "11 from 8,192 bytes on": (RIGHT._replace(longest=LONGEST - 1), to((11, 0), (14, 1), (16, 4), (17, 4), (19, 2))),
}


# ---- what the texts do not tell

def of_lines(number, line, place):
    """What an answer says of lines: nothing where no line is meant and the text is not too long."""
    return (number, line, place) if number >= 11 else (0, 0, 0)


def untold(told):
    """Where the right rule reads texts, each with its number, line and field, otherwise; and the wrong rules that they do not tell, in some way."""
    cells = collections.defaultdict(list)
    for text, right in sorted(told, key=lambda one: len(one[0])):  # the short ones are quick
        cells[right[0], right[2]].append((text, right))
        if answer_by(RIGHT, text) != right:
            yield f"the rule for lines reads otherwise than the second program: {text[:200]!r}"
    for name, (rule, ways) in RULES.items():
        for cell in dict.fromkeys(right for right, _ in ways):
            left = {other for right, other in ways if right == cell}
            for text, right in cells[cell]:
                got = answer_by(rule, text) if left else right
                left -= {(got[0], got[2])} if got != right else set()
            yield from (f"no text tells the wrong rule \"{name}\" for lines: {cell} is right, and by the rule it is {other}" for other in left)
