"""The second program where it meets texts: the call read and the listing program, worked out from the definition page and from request #105.

A text is a row of bytes, and nothing is asked of it: no decoding, no reading of numbers but by the page's own rule. Of a bad line all faults are
found, wherever they stand, and then the one is chosen that decides. The sheet that a text describes is judged and walked by tests/second.py.

    python3 tests/second_text.py          holds the program to the page's whole case, and to what is said of lines, fields, numbers and faults
    python3 tests/second_text.py FILE     writes what the listing program writes for a text
"""
import math
import pathlib
import re
import sys

sys.dont_write_bytecode = True  # nothing is left in the tree
import second
from second_walk import cell_of, colour_of

LONGEST = 8_192
PLACES = 45
# the room that the call `answer` asks for, which is no number of the page: 16 bytes for each of 16,384 records, and 28 for the total
ROOM = 262_172
LEAST, MOST = -2 ** 31, 2 ** 31 - 1
# what a number may be written as: ASCII digits, no plus, no leading zero, no -0
NUMBER = re.compile(rb"0|-?[1-9][0-9]*")
# the lines that every text begins with, and the line that may follow any number of times: the letter, and the least that each number may be
HEAD = ((b"D", (0,)), (b"B", (LEAST, LEAST, 0)), (b"K", (0,)), (b"M", (0,)))
TERM = (b"T", (0, 0, LEAST))
MARKS = {1: b"0", 2: b"+", 3: b"-"}


# ---- reading

def lines_of(text):
    """The lines, each with whether an LF ends it. A text that ends in LF has no further line, and an empty text has none."""
    *ended, rest = text.split(b"\n")
    return [(line, True) for line in ended] + ([(rest, False)] if rest else [])


def number_fault(field, least):
    """16 where a field is badly written, 17 where its number is outside 32 bits or below the least that may stand there, 0 where it is good.

    No number has a leading zero, so one of more than ten digits is outside 32 bits, whatever they are.
    """
    if not NUMBER.fullmatch(field):
        return 16
    return 0 if len(field.removeprefix(b"-")) <= 10 and least <= int(field) <= MOST else 17


def term_faults(i, j, d, named):
    """The faults of the exponents of a term, by what was declared and named before it."""
    if i + j > d or max(i, j) > 8:
        yield 2, 18
    if (i, j) in named:
        yield 2, 19


def faults_of(line, ended, form, head, named):
    """All faults of a line that is to be of a form, in no order: the field of each, counted from 1, or 0, and its number."""
    letter, least = form
    first, *fields = line.split(b"\t")
    numbers = [number_fault(field, low) for field, low in zip(fields, least)]
    yield from ((at, number) for at, number in enumerate(numbers, 2) if number)
    if form is TERM and numbers[:2] == [0, 0]:
        yield from term_faults(int(fields[0]), int(fields[1]), head[0], named)
    if first != letter:
        yield 1, 14
    if len(fields) != len(least):
        yield 0, 15
    if not ended:
        yield 0, 20


def tried(fault):
    """When a fault is tried: fields from the left, a wrong count just after the letter, an unended line last; in one field the lower number."""
    field, number = fault
    return {15: 1.5, 20: math.inf}.get(number, field), number


def parsed(text):
    """The number, the line and the field of the fault, or zeros; the numbers of the first four lines; the coefficients named, under their exponents.

    Each line is judged with what stood before it: a term is bad at its second place.
    """
    lines, head, named = lines_of(text), [], {}
    for at, (line, ended) in enumerate(lines):
        faults = [*faults_of(line, ended, HEAD[at] if at < len(HEAD) else TERM, head, named)]
        if faults:
            field, number = min(faults, key=tried)
            return (number, at + 1, field), head, named
        numbers = [int(field) for field in line.split(b"\t")[1:]]
        if at < len(HEAD):
            head += numbers
        else:
            i, j, coefficient = numbers
            named[i, j] = coefficient
    return ((14, len(lines) + 1, 0) if len(lines) < len(HEAD) else (0, 0, 0)), head, named


def refused(number, line=0, field=0):
    """A refused reading: its number, its line, its field, and a sheet of zeros."""
    return number, line, field, 0, 0, 0, 0, 0, 0, (0,) * PLACES


def read(text):
    """(number, line, field, d, X, Y, s, k, mode, the 45 places for coefficients, those not used being 0)"""
    if len(text) > LONGEST:
        return refused(11)
    fault, head, named = parsed(text)
    if any(fault):
        return refused(*fault)
    d, X, Y, s, k, mode = head
    coefficients = second.terms(d, named) if d <= 8 else []
    number = second.refusal(d, coefficients, X, Y, s, k, mode=mode)
    if number:
        return refused(number)
    return 0, 0, 0, d, X, Y, s, k, mode, (*coefficients, *[0] * (PLACES - len(coefficients)))


# ---- the listing program

def line_of(*fields):
    return b"\t".join(field if isinstance(field, bytes) else b"%d" % field for field in fields) + b"\n"


def listing_text(text):
    """What the listing program writes for a text."""
    number, line, field, d, X, Y, s, k, mode, coefficients = read(text)
    if number:
        return line_of(b"refused", number, line, field)
    used = list(coefficients[:len(second.exponents(d))])
    _, length, visited, coloured, _, place = second.listing(d, used, X, Y, s, k, mode, [0] * 4 ** k)
    records = [line_of(*cell_of(record), MARKS[colour_of(record)]) for record in place[:length]]
    return b"".join(records) + line_of(b"total", visited, coloured)


def left(told, place):
    """What `answer` answers and leaves behind in a lent place, where the listing program writes so much: a place without the room stays as it was."""
    return (len(told), told + place[len(told):]) if len(place) >= ROOM else (0, place)


# ---- the page's own words

def written(*lines):
    """A text, a blank standing for each tab."""
    return b"".join(line.encode().replace(b" ", b"\t") + b"\n" for line in lines)


START = ("D 1", "B 0 0 0", "K 1", "M 0")
WHOLE = written(*START, "T 0 1 -1", "T 1 0 1")
WHOLE_LISTING = written("1 0 0 0", "1 1 0 0", "1 0 1 0", "1 1 1 0", "total 5 4")


def sheet(d, X, Y, s, k, mode, *coefficients):
    """The answer of a reading that is not refused."""
    return 0, 0, 0, d, X, Y, s, k, mode, coefficients + (0,) * (PLACES - len(coefficients))


def swapped(at, line, lines=START + ("T 0 1 -1", "T 1 0 1")):
    """The whole case with another line at a place, counted from 1."""
    return written(*lines[:at - 1], line, *lines[at:])


def added(*lines):
    return WHOLE + written(*lines)


def number_cases():
    """How a number is written, in a coefficient, and how large it may be: the text, and the answer."""
    for good in ("0", "7", "10", "-1", "-10", "2147483647", "-2147483648"):
        yield swapped(6, f"T 1 0 {good}"), sheet(1, 0, 0, 0, 1, 0, 0, -1, int(good))
    for bad in ("", "-", "+1", "+0", "00", "01", "-0", "-00", "-01", "--1", "1-", "1.0", "1e3", "0x1", "1_0", "a", "1a", "\r", "1\r", "\v1", "1\0",
                "\u00b2", "\u0661", "\uff11", "\u22121", "0" * 5000, "-" * 5000, "-" + "0" * 5000, "0" * 5000 + "1"):
        yield swapped(6, f"T 1 0 {bad}"), refused(16, 6, 4)
    for outside in ("2147483648", "-2147483649", "4294967296", "18446744073709551617", "9" * 5000, "1" + "0" * 5000, "-1" + "0" * 5000):
        yield swapped(6, f"T 1 0 {outside}"), refused(17, 6, 4)
    # both at once: 16 comes first
    for both in ("99999999999x", "099999999999", "+99999999999", "99999999999\r", "-099999999999"):
        yield swapped(6, f"T 1 0 {both}"), refused(16, 6, 4)
    for both in ("-0", "-00", "-01", "-", "--1", "-1x", "-99999999999x"):
        yield swapped(1, f"D {both}"), refused(16, 1, 2)
    yield WHOLE.replace(b"-1", b" -1"), refused(16, 5, 4)
    yield WHOLE.replace(b"-1", b"-1 "), refused(16, 5, 4)
    yield WHOLE.replace(b"-1", b"\xb2"), refused(16, 5, 4)
    # only X, Y and a coefficient may be negative
    for at, line, field in ((1, "D -1", 2), (2, "B 0 0 -1", 4), (3, "K -1", 2), (4, "M -1", 2), (5, "T -1 0 1", 2), (5, "T 0 -1 1", 3),
                            (1, "D -99999999999", 2), (2, "B -1 -1 -2147483648", 4), (5, "T 0 -2147483649 1", 3)):
        yield swapped(at, line), refused(17, at, field)
    yield swapped(2, "B -1 -2 1"), sheet(1, -1, -2, 1, 1, 0, 0, -1, 1)


def line_cases():
    """Which line is bad, and by what: unended, missing, empty, in another order, with other fields."""
    yield b"", refused(14, 1, 0)
    for at in range(1, 5):
        yield written(*START[:at])[:-1], refused(20, at, 0)
        yield written(*START[:at]), refused(14, at + 1, 0) if at < 4 else sheet(1, 0, 0, 0, 1, 0)
        yield written(*START[:at - 1], "", *START[at - 1:]), refused(14, at, 1)
        yield written(*START[:at], *START[at - 1:]), refused(14, at + 1, 1)
        yield swapped(at, START[at - 1].lower()), refused(14, at, 1)
        yield swapped(at, START[at - 1] + " "), refused(15, at, 0)
        yield swapped(at, " " + START[at - 1]), refused(14, at, 1)
        yield swapped(at, START[at - 1].replace(" ", "  ", 1)), refused(15, at, 0)
        yield swapped(at, START[at - 1][:-2]), refused(15, at, 0)
        yield swapped(at, START[at - 1] + " 0"), refused(15, at, 0)
        yield swapped(at, START[at - 1][0] + START[at - 1]), refused(14, at, 1)
    yield written("B 0 0 0", "D 1", "K 1", "M 0"), refused(14, 1, 1)
    yield WHOLE[:-1], refused(20, 6, 0)
    yield added(""), refused(14, 7, 1)
    yield b"\n" * 9, refused(14, 1, 1)
    yield WHOLE.replace(b"\t", b" "), refused(14, 1, 1)
    yield WHOLE.replace(b"\n", b"\r\n"), refused(16, 1, 2)
    yield WHOLE.replace(b"\n", b"\r"), refused(15, 1, 0)
    yield b"\xef\xbb\xbf" + WHOLE, refused(14, 1, 1)
    yield added("M 0"), refused(14, 7, 1)
    yield WHOLE + b"\0", refused(14, 7, 1)


def term_cases():
    """Terms: in any order, none twice, within the declared degree and 8."""
    other = written(*START, "T 1 0 1", "T 0 1 -1")
    yield other, sheet(1, 0, 0, 0, 1, 0, 0, -1, 1)
    for again in ("T 0 1 -1", "T 0 1 5", "T 0 1 0", "T 1 0 1"):
        yield added(again), refused(19, 7, 2)
    yield written(*START, "T 0 0 0", "T 0 0 0"), refused(19, 6, 2)
    yield added("T 1 1 1"), refused(18, 7, 2)
    yield added("T 0 2 0"), refused(18, 7, 2)
    yield added("T 2147483647 2147483647 0"), refused(18, 7, 2)
    yield added("T 0 0 3"), sheet(1, 0, 0, 0, 1, 0, 3, -1, 1)
    yield swapped(1, "D 2"), sheet(2, 0, 0, 0, 1, 0, 0, -1, 0, 1)
    yield swapped(1, "D 0"), refused(18, 5, 2)
    for d, (i, j), answer in ((9, (8, 1), 1), (9, (1, 8), 1), (9, (9, 0), 18), (9, (0, 9), 18), (9, (8, 2), 18), (15, (8, 8), 18), (16, (8, 8), 1),
                              (20, (8, 8), 1), (20, (9, 9), 18), (MOST, (8, 8), 1), (MOST, (9, 0), 18), (MOST, (MOST, 0), 18)):
        yield written(f"D {d}", *START[1:], f"T {i} {j} 1"), refused(18, 5, 2) if answer == 18 else refused(1)
    yield written(f"D {MOST + 1}", *START[1:]), refused(17, 1, 2)


HUGE = 99_999_999_999
# lines with several faults, each at a place of the whole case or after it: the line, and the number and the field that decide
SEVERAL = [
    # the letter before the count, the numbers, the term; an empty line is a letter fault
    (3, "Q", 14, 1), (3, "Q 1 1", 14, 1), (3, "M 0 x", 14, 1), (2, f"K x {HUGE} -1", 14, 1), (7, "B 9 9 x", 14, 1), (7, "T1 0 1 1", 14, 1),
    (3, "", 14, 1), (7, "", 14, 1), (7, "   ", 14, 1),
    # the count before the numbers and the term
    (2, "B x 0", 15, 0), (2, f"B {HUGE} x 0 -1 0", 15, 0), (1, "D -1 0", 15, 0), (7, "T 9 9", 15, 0), (7, "T 0 1", 15, 0), (7, "T 0 1 1 x", 15, 0),
    # the leftmost field, whatever its number
    (2, f"B 01 {HUGE} -1", 16, 2), (2, f"B {HUGE} 01 -1", 17, 2), (2, f"B 0 {HUGE} x", 17, 3), (2, "B 0 x -1", 16, 3), (2, "B -1 -1 -1", 17, 4),
    (7, "T x y z", 16, 2), (7, "T -1 x 1", 17, 2), (7, f"T 0 {HUGE} x", 17, 3), (7, f"T 0 x {HUGE}", 16, 3),
    # a term fault once i and j both read well: not before one of j
    (7, "T 9 x 1", 16, 3), (7, "T 9 -1 1", 17, 3), (7, f"T 9 {HUGE} 1", 17, 3), (7, "T x 9 1", 16, 2), (7, "T -1 9 1", 17, 2),
    (7, f"T {HUGE} 9 1", 17, 2), (7, "T 0 01 1", 16, 3), (7, "T 00 1 1", 16, 2), (7, "T 1 00 x", 16, 3), (7, "T 2 -1 1", 17, 3),
    # and then at field 2, whichever is too large, before one of the coefficient
    (7, "T 9 0 x", 18, 2), (7, "T 0 9 x", 18, 2), (7, f"T 1 1 {HUGE}", 18, 2), (7, "T 0 1 x", 19, 2), (7, f"T 1 0 {HUGE}", 19, 2),
    (7, "T 0 0 x", 16, 4),
]


def several_cases():
    """Lines with several faults, with a good line after them and with a bad one; and without an LF, which is tried last."""
    for at, line, number, field in SEVERAL:
        before = (*START, "T 0 1 -1", "T 1 0 1")[:at - 1]
        yield from ((written(*before, line, *after), refused(number, at, field)) for after in ((), ("T 0 0 1",), ("", "Q 1")))
        if line:
            yield written(*before, line)[:-1], refused(number, at, field)
    yield added("T 0 0 1")[:-1], refused(20, 7, 0)
    # a missing line comes after every line that is there
    yield written("D x"), refused(16, 1, 2)
    yield written("D x")[:-1], refused(16, 1, 2)
    yield written("D 1", "B 0 0 -1"), refused(17, 2, 4)
    yield b"D", refused(15, 1, 0)
    yield b"D\t", refused(16, 1, 2)
    yield b"D\t1\n\t", refused(14, 2, 1)


def order_cases():
    """The refusals in their order, with line 0 and field 0 but for those of a line."""
    faults = [(1, "D 9"), (3, "K 8"), (4, "B 1048577 0 0"), (5, "M 2")]
    place = {"D": 0, "B": 1, "K": 2, "M": 3}
    for last in range(len(faults)):
        lines = list(START)
        for number, line in reversed(faults[:last + 1]):
            lines[place[line[0]]] = line
            yield written(*lines, "T 0 0 1"), refused(number)
            yield written(*lines, "T 0 0"), refused(15, 5, 0)
            yield written(*lines, "T 0 0 x"), refused(16, 5, 4)
            yield written(*lines, "T 0 0 1")[:-1], refused(20, 5, 0)
    for line in ("B -1048577 0 0", "B 0 1048577 0", "B 0 -1048577 0", "B 0 0 11", f"B {MOST} {LEAST} {MOST}"):
        yield swapped(2, line), refused(4)
    yield swapped(2, "B 1048576 -1048576 10"), sheet(1, 1_048_576, -1_048_576, 10, 1, 0, 0, -1, 1)
    # P10 and P12 of the page
    yield written("D 8", "B 0 0 0", "K 6", "M 0", "T 0 0 63"), sheet(8, 0, 0, 0, 6, 0, 63)
    yield written("D 8", "B 0 0 0", "K 6", "M 0", "T 0 0 64"), refused(6)
    yield written("D 8", "B 0 0 0", "K 6", "M 2", "T 0 0 64"), refused(5)
    yield written("D 8", "B 0 0 0", "K 7", "M 1"), sheet(8, 0, 0, 0, 7, 1)
    yield written("D 8", "B 0 0 0", "K 7", "M 1", "T 8 0 -1"), refused(6)
    # request #102's own sheet; and a limit of 2^10 along one axis, 1 along the other, and 2^34 times a coefficient: at the limit and just below it
    yield written("D 4", "B 0 1024 0", "K 7", "M 0", "T 4 0 1"), sheet(4, 0, 1024, 0, 7, 0, *[0] * 14, 1)
    for corner, e, at in (("1023 0", "2 0", 5), ("-1024 -1", "2 0", 5), ("0 1023", "0 2", 2), ("-1 -1024", "0 2", 2)):
        X, Y = map(int, corner.split())
        yield written("D 2", f"B {corner} 0", "K 6", "M 0", f"T {e} {2 ** 28}"), refused(6)
        yield written("D 2", f"B {corner} 0", "K 6", "M 0", f"T {e} {1 - 2 ** 28}"), sheet(2, X, Y, 0, 6, 0, *[0] * at, 1 - 2 ** 28)
    # 11 comes first: the same line is bad in all three
    for longer, answer in ((-1, refused(14, 7, 1)), (0, refused(14, 7, 1)), (1, refused(11))):
        yield WHOLE + b"\n" * (LONGEST - len(WHOLE) + longer), answer
    yield b"x" * LONGEST, refused(14, 1, 1)
    yield b"x" * (LONGEST + 1), refused(11)


# a text, and what the listing program writes for it
LISTINGS = [
    (WHOLE, WHOLE_LISTING),
    (b"", b"refused\t14\t1\t0\n"),
    (WHOLE[:-1], b"refused\t20\t6\t0\n"),
    (swapped(2, "B 0 0 -1"), b"refused\t17\t2\t4\n"),
    (swapped(1, "D 9"), b"refused\t1\t0\t0\n"),
    (b"\n" * (LONGEST + 1), b"refused\t11\t0\t0\n"),
    # P6 and P7 of the page, P7's opposite, and a line that leaves a corner to each side
    (written("D 0", "B 0 0 0", "K 0", "M 0"), b"0\t0\t0\t0\ntotal\t1\t1\n"),
    (written("D 0", "B 0 0 0", "K 7", "M 0", "T 0 0 -5"), b"0\t0\t0\t-\ntotal\t1\t0\n"),
    (written("D 0", "B 0 0 0", "K 7", "M 1", "T 0 0 5"), b"0\t0\t0\t+\ntotal\t1\t0\n"),
    (written("D 1", "B -1 -1 1", "K 1", "M 1", "T 1 0 2", "T 0 1 2", "T 0 0 -1"), b"1\t0\t0\t-\n1\t1\t0\t0\n1\t0\t1\t0\n1\t1\t1\t0\ntotal\t5\t3\n"),
]


def main():
    if len(sys.argv) == 2:
        sys.stdout.buffer.write(listing_text(pathlib.Path(sys.argv[1]).read_bytes()))
        return 0
    checks = [(read, *case) for cases in (number_cases, line_cases, term_cases, several_cases, order_cases) for case in cases()]
    checks += [(read, WHOLE, sheet(1, 0, 0, 0, 1, 0, 0, -1, 1))] + [(listing_text, *case) for case in LISTINGS]
    wrong = [(call, text, answer) for call, text, answer in checks if call(text) != answer]
    for call, text, answer in wrong:
        print(f"{call.__name__}({text[:200]!r}) answers {call(text)}, and page and request say {answer}")
    print(f"second program, texts: {len(checks) - len(wrong)} of {len(checks)} answers are as page and request say")
    return 1 if wrong else 0


if __name__ == "__main__":
    sys.exit(main())
