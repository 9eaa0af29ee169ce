"""Texts for the comparison: good ones, ones with a fault that is known, and ones that are damaged at random.

A case is what was done to make the text, the text, and, where that follows from how it was made, the number, the line and the field of the answer: the
second program is held to these, too. (Of its limits for the axes that says nothing: sheets at the limit and far out are made by them.) Most good texts
are of small depth, since a deep walk is slow; each degree comes up at each depth. Lines with several faults at once are those of tests/fault_cases.py.
"""
import collections
import random

import second
import second_text
from case_sheets import EDGE, LEAST31, MOST31, Sheet, accepted, every_far_out, heavy, near
from cases import limits
from second_text import LONGEST, START, WHOLE, written

# the longest text that the program takes
CEILING = 262_144

# the faults that were put into one line, with its letter, are those of tests/fault_cases.py
Case = collections.namedtuple("Case", "kind text number line field faults", defaults=(None, None, None, None))

# how often each depth comes up in random texts
DEPTHS = (0,) * 3 + (1,) * 6 + (2,) * 8 + (3,) * 5 + (4,)
# the row, the field and the refusal of each number with a range, and values beyond it
RANGES = {
    "d": (0, 1, 1, (9, 10, 16, 17, 20, 44, 45, 64, 255, 256, 65536, MOST31)),
    "X": (1, 1, 4, (EDGE + 1, -EDGE - 1, 2 * EDGE, MOST31, LEAST31)),
    "Y": (1, 2, 4, (EDGE + 1, -EDGE - 1, -2 * EDGE, MOST31, LEAST31)),
    "s": (1, 3, 4, (11, 12, 31, 32, 63, 64, 256, MOST31)),
    "k": (2, 1, 3, (8, 9, 31, 32, 63, 64, 256, MOST31)),
    "mode": (3, 1, 5, (2, 3, 10, 255, 256, 65536, MOST31)),
}
# fields that hold no number of signed 32 bits: not so written, or too large, some of which are small when high digits are lost
NOT_WRITTEN = [b"", b"-", b"--1", b"-0", b"-00", b"-01", b"00", b"01", b"007", b"+", b"+0", b"+1", b"+-1", b"-+1", b"1-", b"1+", b" ", b" 1", b"1 ",
               b"- 1", b"1 1", b"1\r", b"\r1", b"\r", b"1\x0b", b"\x0c1", b"\x00", b"1\x00", b"\x001", b"1_0", b"1,0", b"1.0", b"1e1", b"0x1", b"1a",
               b"a", b"A", b"/", b":", b"1/", b"1:", b"'1'", b"\x801", b"1\xff", b"\xb2", b"\xb9", "\u00b2".encode(), "\u0661".encode(),
               "\uff11".encode(), "\u22121".encode(), b"0" * 5000, b"-" + b"0" * 5000, b"0" * 5000 + b"1", b"-" * 5000]
TOO_LARGE = [b"%d" % n for n in (2 ** 31, 2 ** 31 + 1, 2 ** 32 - 1, 2 ** 32, 2 ** 32 + 1, 2 ** 63, 2 ** 64 - 1, 2 ** 64, 2 ** 64 + 1, 9999999999,
                                 10 ** 10, 10 ** 19, 2 ** 128, -2 ** 31 - 1, -2 ** 32, -2 ** 32 - 1, -2 ** 63, -2 ** 64, 1 - 2 ** 64)]
TOO_LARGE += [b"9" * 5000, b"-" + b"9" * 5000, b"1" + b"0" * 5000, b"-1" + b"0" * 5000, b"1" + b"0" * 4999 + b"1"]
NEGATIVE = [b"-1", b"-8", b"-2147483648"]
LETTERS = [b"D", b"B", b"K", b"M", b"T"]
OTHER_LETTERS = LETTERS + [b"", b"d", b"b", b"k", b"m", b"t", b"Z", b"DD", b"TT", b" D", b"T ", b"D:", b"\x00", b"T\x00", b"\xc4", b"#", b"0",
                           b"\xef\xbb\xbfD"]
# bytes that stand beside those of a text, in the table of characters or in a typist's hand
BYTES = bytes(sorted({*range(9, 14), 0, 1, 0x1f, *b" +-./059:;AaBDdKMTt_", 0x7f, 0x80, 0xa0, 0xb2, 0xc0, 0xff}))


# ---- good texts

def row(letter, *numbers):
    return [letter.encode(), *(b"%d" % number for number in numbers)]


def text_of(rows):
    return b"".join(b"\t".join(fields) + b"\n" for fields in rows)


def rows_of(rng, sheet, mode):
    """The lines of a text in fields: the terms in any order, and some of those that are 0."""
    d, coefficients, X, Y, s, k = sheet
    zeros = rng.choice((0, 0.2, 1))
    named = [(i, j, A) for (i, j), A in second.table(d, coefficients).items() if A or rng.random() < zeros]
    rng.shuffle(named)
    return [row("D", d), row("B", X, Y, s), row("K", k), row("M", mode)] + [row("T", *term) for term in named]


def good(rng, d=None, depths=DEPTHS):
    sheet = accepted(rng, rng.randint(0, 8) if d is None else d, rng.choice(depths))
    return rows_of(rng, near(rng, sheet) if rng.random() < 0.8 else sheet, rng.randint(0, 1))


def small(rng):
    """A good text that has few bytes and is walked quickly."""
    d, k, s = rng.randint(1, 4), rng.randint(0, 2), rng.randint(0, 2)
    named = {e: rng.choice((-1, 1)) * rng.randint(1, 12) for e in rng.sample(second.exponents(d), rng.randint(1, 3))}
    return rows_of(rng, Sheet(d, second.terms(d, named), rng.randint(-4, 1), rng.randint(-4, 1), s, k), rng.randint(0, 1))


def light(rng, d, k):
    """A sheet of any degree and depth that is walked quickly: three terms at most, of degree 2 at most; that of degree 8 and depth 7 is 0."""
    most, low = min(9, ((2 ** 62 - 1) >> (k + 1) * d) // 3), second.exponents(min(d, 2))
    named = {e: rng.randint(-most, most) for e in rng.sample(low, min(3, len(low)))}
    return Sheet(d, second.terms(d, named), rng.choice((-1, 0)), rng.choice((-1, 0)), 0, k)


def every_degree_and_depth(rng):
    for d in range(9):
        for k in range(8):
            for mode in (0, 1):
                yield Case("each degree and depth", text_of(rows_of(rng, light(rng, d, k), mode)), 0, 0, 0)


def every_place(rng):
    """Each degree with all its terms, no two alike, in any order; and without any."""
    for d in range(9):
        for turn in range(4):
            coefficients = rng.sample(range(-999, 1000), len(second.exponents(d)))
            rows = rows_of(rng, Sheet(d, coefficients, -1, rng.choice((-1, 0)), 1, turn % 2), turn // 2)
            yield Case("all terms", text_of(rows), 0, 0, 0)
            yield Case("no terms", text_of(rows[:4]), 0, 0, 0)


def ends(rng):
    """Good texts at the ends of every range."""
    for X in (-EDGE, EDGE):
        for Y in (-EDGE, EDGE):
            for s in (0, 10):
                sheet = Sheet(1, [rng.choice((LEAST31, MOST31)), rng.choice((-1, 1)), rng.choice((-1, 1))], X, Y, s, rng.choice((0, 1, 7)))
                yield Case("ends of the ranges", text_of(rows_of(rng, sheet, rng.randint(0, 1))), 0, 0, 0)
    for A in (LEAST31, MOST31, LEAST31 + 1, MOST31 - 1):
        for e in ((0, 0), (0, 1), (1, 0)):
            yield Case("ends of the ranges", text_of(rows_of(rng, Sheet(1, second.terms(1, {e: A}), -1, 0, 0, 2), 0)), 0, 0, 0)


# ---- refused by 1, 3, 4, 5, 6

def out_of_range(rng, name, value):
    """One number beyond its range, in a text that is good otherwise."""
    at, field, number, _ = RANGES[name]
    rows = good(rng)
    rows[at][field] = b"%d" % value
    return Case(f"{name} beyond its range", text_of(rows), number, 0, 0)


def ranged(rng):
    return (out_of_range(rng, name, value) for name, (*_, values) in RANGES.items() for value in values for _ in range(3))


def several(rng):
    """Several numbers beyond their ranges: the first refusal is given; but where a line is bad or missing besides, its fault is."""
    rows = small(rng) if rng.random() < 0.5 else good(rng)
    names = rng.sample(sorted(RANGES), rng.randint(2, 5))
    for name in names:
        at, field, _, values = RANGES[name]
        rows[at][field] = b"%d" % rng.choice(values)
    fate = rng.random()
    if fate < 0.2:
        spoiled = rng.randrange(len(rows))
        field = rng.randrange(1, len(rows[spoiled]))
        rows[spoiled][field] = rng.choice(NOT_WRITTEN)
        return Case("several beyond their ranges, and a bad line", text_of(rows), 16, spoiled + 1, field + 1)
    if fate < 0.3:
        left = rng.randrange(4)
        return Case("several beyond their ranges, and lines missing", text_of(rows[:left]), 14, left + 1, 0)
    return Case("several beyond their ranges", text_of(rows), min(RANGES[name][2] for name in names), 0, 0)


def at_the_limit(rng):
    return Case("weight at the limit", text_of(rows_of(rng, heavy(rng, 2 ** 62), rng.randint(0, 1))), 6, 0, 0)


def below_the_limit(rng, depths=(0, 1, 2)):
    return Case("weight just below the limit", text_of(rows_of(rng, heavy(rng, 2 ** 62 - 1, depths), rng.randint(0, 1))), 0, 0, 0)


def weighed(rng, count):
    """Weights at the limit, just below it, and far beyond it; and squares far out in every way."""
    for _ in range(count):
        yield from (at_the_limit(rng), below_the_limit(rng))
    for sheet, number in (one for _ in range(2) for one in every_far_out(rng, (0, 1, 2))):
        yield Case("far out", text_of(rows_of(rng, sheet, rng.randint(0, 1))), number, 0, 0)
    for e in second.exponents(8):
        sheet = Sheet(8, second.terms(8, {e: rng.choice((-1, 1, LEAST31))}), 0, 0, 0, 7)
        yield Case("degree 8 and depth 7", text_of(rows_of(rng, sheet, rng.randint(0, 1))), 6, 0, 0)
    far = [sheet for sheet in limits() if sheet.d <= 8 and sheet.k > 0 and any(sheet.coefficients)]
    for sheet in rng.sample(far, count):
        yield Case("at and beyond the limits", text_of(rows_of(rng, sheet, rng.choice((0, 1, 2)))))


# ---- a line that is bad

def bases(rng):
    """Good texts for a known fault: the page's whole case, and a random one with a term at least."""
    yield [line.split(b"\t") for line in WHOLE.split(b"\n")[:-1]]
    yield small(rng)


def anywhere(rng, rows):
    """A line of a text, and the place of a number in it."""
    at = rng.randrange(len(rows))
    return at, rng.randrange(1, len(rows[at]))


def bad_number(rows, at, field, bad):
    """A text with a field that is no good number there; none where a negative number is good."""
    if bad not in NEGATIVE or (rows[at][0], field) not in ((b"B", 1), (b"B", 2), (b"T", 3)):
        kind, number = ("a number badly written", 16) if bad in NOT_WRITTEN else ("a number too large or negative", 17)
        line = [*rows[at][:field], bad, *rows[at][field + 1:]]
        yield Case(kind, text_of([*rows[:at], line, *rows[at + 1:]]), number, at + 1, field + 1)


def fields(rng):
    """Every number of the whole case, and one of another text, in every bad writing."""
    whole, other = bases(rng)
    everywhere = [(whole, at, field) for at, line in enumerate(whole) for field in range(1, len(line))]
    for bad in NOT_WRITTEN + TOO_LARGE + NEGATIVE:
        for place in everywhere + [(other, *anywhere(rng, other))]:
            yield from bad_number(*place, bad)


def shapes(line):
    """A line with another letter, or with other fields; and the number and the field of its fault."""
    yield from (("another letter", [letter, *line[1:]], 14, 1) for letter in OTHER_LETTERS if letter != line[0])
    yield from (("one field more", line + [more], 15, 0) for more in (b"", b"0", b"\r", b"#"))
    yield from (("fields missing", line[:left], 15, 0) for left in range(1, len(line)))
    yield "fields missing", [], 14, 1
    yield "no letter", line[1:], 14, 1
    yield "an empty field", [b"", *line], 14, 1
    yield "an empty field", [line[0], b"", *line[1:]], 15, 0
    yield from (("another mark between fields", [mark.join(line)], 14, 1) for mark in (b" ", b",", b"\x0b", b" \t", b""))
    yield "another mark between fields", [b"\t\t".join(line)], 15, 0
    yield "another mark between fields", [b"\t ".join(line)], 16, 2
    yield "another line end", [*line[:-1], line[-1] + b"\r"], 16, len(line)
    yield "an empty line before it", [b"\n" + line[0], *line[1:]], 14, 1
    yield "another line end", [b"\r" + line[0], *line[1:]], 14, 1
    yield "a line of another form", line[:1] + [b"0"] * (5 - len(line)), 15, 0


def reshaped(rows, at):
    """One line of another shape."""
    return (Case(kind, text_of([*rows[:at], other, *rows[at + 1:]]), number, at + 1, field) for kind, other, number, field in shapes(rows[at]))


def shaped(rng):
    return (case for rows in bases(rng) for at in range(len(rows)) for case in reshaped(rows, at))


def cut(text, length):
    """A good text cut off: it is good still where four whole lines are left, and ends in a line that is missing or unended otherwise.

    An unended line may lack fields besides, or digits of its last one; what is left of a number is a number, but for a sign alone.
    """
    left = text[:length]
    count, ended = left.count(b"\n"), left[-1:] in (b"", b"\n")
    if ended:
        return Case("lines missing", left, *((0, 0, 0) if count >= 4 else (14, count + 1, 0)))
    whole, rest = (some.split(b"\n")[count].split(b"\t") for some in (text, left))
    number, field = (15, 0) if len(rest) < len(whole) else (16, len(rest)) if rest[-1] in (b"", b"-") else (20, 0)
    return Case("unended", left, number, count + 1, field)


def cuts(text):
    """A text cut at any byte."""
    return (cut(text, length) for length in range(len(text)))


def moves(rows):
    """Lines left out, doubled, exchanged, and an empty line between others."""
    for at, line in enumerate(rows):
        again, another = (14, 1) if at < 4 else (19, 2), (14, at + 1, 1) if at < 4 else (0, 0, 0)
        yield Case("a line left out", text_of(rows[:at] + rows[at + 1:]), *(another if at + 1 < len(rows) or at > 3 else (14, 4, 0)))
        yield Case("a line twice", text_of(rows[:at + 1] + rows[at:]), again[0], at + 2, again[1])
        yield Case("a line twice", text_of(rows + [line]), again[0], len(rows) + 1, again[1])
        yield Case("an empty line", text_of(rows[:at] + [[b""]] + rows[at:]), 14, at + 1, 1)
        for after in range(at + 1, min(len(rows), 8)):
            order = list(rows)
            order[at], order[after] = order[after], order[at]
            yield Case("two lines exchanged", text_of(order), *another)
    yield Case("an empty line", text_of(rows) + b"\n", 14, len(rows) + 1, 1)
    yield Case("a byte after the end", text_of(rows) + b"\0", 14, len(rows) + 1, 1)


def moved(rng):
    return (case for rows in (*bases(rng), good(rng), good(rng)) for case in moves(rows))


def terms_of(rng, d):
    """Terms twice, and beyond the degree or beyond 8, for one declared degree."""
    head = [row("D", d), *(line.split(b"\t") for line in written(*START[1:]).split(b"\n")[:-1])]
    reach = [(i, j) for i in range(9) for j in range(9) if i + j <= d]
    rng.shuffle(reach)
    whole = head + [row("T", i, j, rng.choice((0, 0, 1, -7))) for i, j in reach]
    yield Case("every term of a degree", text_of(whole), 1 if d > 8 else 0, 0, 0)
    for at in range(len(whole)) if d in (8, 16) else ():
        yield Case("a bad line among many", text_of([*whole[:at], [*whole[at], b"0"], *whole[at + 1:]]), 15, at + 1, 0)
    for i, j in reach if d in (4, 8, 16) else rng.sample(reach, min(5, len(reach))):
        A = rng.choice((0, 0, 1, -7))
        yield Case("a term twice", text_of(whole + [row("T", i, j, A)]), 19, len(whole) + 1, 2)
        first = rng.randrange(5, len(whole) + 1)
        yield Case("a term twice", text_of([*whole[:first], row("T", *map(int, whole[first - 1][1:3]), A), *whole[first:]]), 19, first + 1, 2)
    outside = {(d + 1 - i, i) for i in range(10) if d < 20} | {(9, 0), (0, 9), (9, 9), (8, 9), (256, 0), (0, MOST31), (MOST31, MOST31), (MOST31, 1)}
    for i, j in sorted(outside - set(reach)):
        at = rng.randrange(4, len(whole) + 1)
        if min(i, j) >= 0:
            yield Case("a term beyond", text_of([*whole[:at], row("T", i, j, rng.choice((0, 1))), *whole[at:]]), 18, at + 1, 2)


def terms(rng):
    """Terms for declared degrees up to the largest."""
    return (case for d in (*range(10), 15, 16, 17, 20, MOST31) for case in terms_of(rng, d))


def stretched(rows, digit, length):
    """A text of so many bytes: its last number is one digit again and again."""
    *_, (*_, last) = rows
    text = text_of(rows)[:-len(last) - 1]
    return text + digit * (length - len(text) - 1) + b"\n"


def long_texts(rng, length):
    """Texts of one length, about the limit or longer: no good text is nearly so long, so each of them has a bad line."""
    rows = small(rng)
    text, last = text_of(rows), len(rows)
    left, again = length - len(text), last + 1 if any(line[1:3] == [b"0", b"0"] for line in rows[4:]) else last + 2
    for kind, long, *fault in (
        ("a long number", stretched(rows, b"9", length), 17, last, 4),
        ("many zeros", stretched(rows, b"0", length), 16, last, 4),
        ("many LFs", text + b"\n" * left, 14, last + 1, 1),
        ("many LFs", b"\n" * length, 14, 1, 1),
        ("a long line", text + b"T" * left, 14, last + 1, 1),
        ("many tabs", text + b"\t" * (left - 1) + b"\n", 14, last + 1, 1),
        ("one term again and again", text + (b"T\t0\t0\t0\n" * left)[:left], 19, again, 2),
        ("bytes at random", rng.randbytes(length)),
    ):
        yield Case(kind, long, *((11, 0, 0) if length > LONGEST else fault))


def lengths(rng):
    """Texts of every length about the limit, and longer ones."""
    all_lengths = (LONGEST - 1, LONGEST, LONGEST + 1, LONGEST + 2, 2 * LONGEST, 65_535, 65_536, 65_537, 100_000, CEILING)
    return (case for length in all_lengths for case in long_texts(rng, length))


# ---- texts damaged at random

def bytewise():
    """The whole case with one byte taken out, put in or replaced, at every place."""
    for at in range(len(WHOLE)):
        yield Case("a byte taken out", WHOLE[:at] + WHOLE[at + 1:])
        for byte in BYTES:
            yield Case("a byte put in", WHOLE[:at] + bytes([byte]) + WHOLE[at:])
            yield Case("a byte replaced", WHOLE[:at] + bytes([byte]) + WHOLE[at + 1:])


def every_byte():
    """All bytes in place of a letter, of a tab, of a digit, of a sign and of an LF."""
    for at in (0, 1, 2, 3, WHOLE.index(b"-"), WHOLE.rindex(b"T"), len(WHOLE) - 2, len(WHOLE) - 1):
        yield from (Case("a byte replaced", WHOLE[:at] + bytes([byte]) + WHOLE[at + 1:]) for byte in range(256))


def edited(rng, text):
    """One byte taken out, put in, replaced or doubled, or one bit turned."""
    at = rng.randrange(len(text) + 1)
    byte = bytes([rng.choice((rng.choice(BYTES), rng.choice(b"0123456789\t\n-"), rng.randrange(256)))])
    here, rest = text[at:at + 1], text[at + 1:]
    turned = bytes([here[0] ^ 1 << rng.randrange(8)]) if here else b""
    return text[:at] + rng.choice((rest, byte + here + rest, byte + rest, here + here + rest, turned + rest))


def shuffled(rng, text):
    """Lines taken from one text in some other order, some twice or not at all."""
    kept = [line + b"\n" for line in text.split(b"\n")[:-1] if rng.random() < 0.95]
    at, after = sorted(rng.choices(range(len(kept) + 1), k=2))
    return b"".join(rng.choice((kept[:at] + kept[after:], kept[:after] + kept[at:], kept[:at] + kept[at:after][::-1] + kept[after:])))


def quick(text):
    """Whether the second program answers soon: a walk that is deep has few terms."""
    number, *_, k, _, coefficients = second_text.read(text)
    return number or k <= 3 or k <= 5 and 0 < sum(A != 0 for A in coefficients) <= 4


def damaged(rng):
    text = text_of(small(rng) if rng.random() < 0.8 else good(rng))
    if rng.random() < 0.2:
        text = shuffled(rng, text)
    for _ in range(rng.choice((0, 1, 1, 1, 2, 3, 8))):
        text = edited(rng, text)
    return Case("damaged", text) if quick(text) else damaged(rng)


def mixed(rng):
    """A text put together of fields that are mostly good."""
    def field(*ones):
        return rng.choice(ones) if rng.random() < 0.97 else rng.choice(NOT_WRITTEN + TOO_LARGE + NEGATIVE)
    digits = [b"%d" % n for n in (0, 0, 1, 1, 2, 3)]
    rows = [[b"D", field(b"2", b"4", b"8", b"9")], [b"B", field(b"-1", b"0", b"7"), field(b"-2", b"1", b"-1048577"), field(*digits)],
            [b"K", field(*digits[:5], b"8")], [b"M", field(b"0", b"1", b"1", b"2")]]
    for _ in range(rng.randint(0, 4)):
        letter = rng.choice(LETTERS) if rng.random() < 0.02 else b"T"
        rows.append([letter, field(*digits), field(*digits), field(*digits, b"-5", b"2147483647", b"-2147483648")])
    text = text_of(rows)
    return Case("mixed", text) if quick(text) else mixed(rng)


# ---- all of them

def all_cases(seed, count):
    """The texts with known faults and the damaged whole case, and so many random texts."""
    rng = random.Random(seed)
    cases = [Case("the whole case", WHOLE, 0, 0, 0), *every_degree_and_depth(rng), *every_place(rng), *ends(rng)]
    cases += [*ranged(rng), *weighed(rng, 40), *fields(rng), *shaped(rng), *moved(rng), *terms(rng), *lengths(rng)]
    cases += [*cuts(WHOLE), *cuts(text_of(good(rng, 3, (1,)))), *bytewise(), *every_byte()]
    makers = [lambda: Case("good", text_of(good(rng)), 0, 0, 0), lambda: several(rng), lambda: damaged(rng), lambda: damaged(rng), lambda: mixed(rng)]
    return cases + [makers[turn % len(makers)]() for turn in range(count)]
