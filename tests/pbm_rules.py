"""Wrong rules for writing and reading plain PBM, which the cases of tests/pictures.py must tell from the right ones.

The right rules stand here once more, made of pieces that a wrong rule exchanges: a reader goes by a table of states, the step that each byte takes
from each of them. They share nothing with tests/second_pbm.py, so tests/pictures.py compares the two as well; were the second program wrong in one of
these ways, then no case would tell that rule from it, and the run would fail.

A wrong rule is told by a case to which it gives another answer. Each says in which ways it errs: pairs of numbers, the right one and its own; each
way must come up. Besides there are slips: the table with just one step of one state by one byte let through, though it is none, or left out, or one
state more or less in which a text may end. Each of them must be told, for every state and all 256 bytes.
"""
import collections

WHITE, ENDS, BITS, DIGITS, EVERY = b" \t\n\r", b"\n\r", b"01", b"0123456789", bytes(range(256))
DEEPEST, LINE = 7, 70
# no text has so many digits
MANY = 2 ** 80


# ---- the table of a reader

def by(state, some, after):
    """The steps from a state by some bytes."""
    return {(state, byte): after for byte in some}


def comment(state, after):
    return {**by(state, EVERY, state), **by(state, ENDS, after)}


def gap(before, between, after):
    """What parts a number from what stands before it: white space and comments, and then the first digit of the number, and the others."""
    first, later = f"comment right after {before}", f"comment in {between}"
    return {**by(before, WHITE, between), **by(before, b"#", first), **comment(first, between),
            **by(between, WHITE, between), **by(between, b"#", later), **comment(later, between),
            **by(between, DIGITS, after), **by(after, DIGITS, after)}


# the step that a byte takes from a state; where there is none the text is no plain PBM. A bit that is the last of the picture goes to "last digit"
TABLE = {
    **by("start", b"P", "P"), **by("P", b"1", "P1"), **gap("P1", "gap 1", "width"), **gap("width", "gap 2", "height"),
    **by("height", WHITE, "open"), **by("height", b"#", "comment right after height"), **comment("comment right after height", "open"),
    **by("open", WHITE, "open"), **by("open", BITS, "digits"), **by("digits", WHITE + BITS, "digits"),
    **by("last digit", WHITE, "after"), **by("after", EVERY, "after"),
}
STATES = sorted({state for state, _ in TABLE})
FINAL = frozenset({"last digit", "after"})


def rows_of(table):
    """The same, as a row of 256 steps for each state."""
    return {state: [table.get((state, byte)) for byte in EVERY] for state in {state for state, _ in table}}


# what a scan finds: the sizes, or None where the digits were not opened; the digits; the state at the end, and the step that was not taken, or None
Found = collections.namedtuple("Found", "sizes digits state fault")


def capped(digits):
    """The number of a size, but no more than MANY."""
    value = 0
    for digit in digits:
        value = min(MANY, 10 * value + digit - 48)
    return value


def wrapped(modulus):
    """The number of a size where higher digits are lost."""
    def size(digits):
        value = 0
        for digit in digits:
            value = (10 * value + digit - 48) % modulus
        return value
    return size


def scanned(rule, text, passed=None):
    """What is found in a text; the steps go into `passed`, where that is given."""
    rows, state, sizes, opened, digits, count = rule.rows, "start", {"width": bytearray(), "height": bytearray()}, None, bytearray(), None
    for byte in text:
        before, state = state, rows[state][byte]
        if passed is not None:
            passed.add((before, byte))
        if state == "digits":
            if byte in rule.bits:
                digits.append(byte)
                state = "last digit" if len(digits) == count else state
        elif state in sizes:
            if byte in DIGITS:
                sizes[state].append(byte)
        elif state == "open" and opened is None:
            opened = tuple(map(rule.size, sizes.values()))
            count = rule.count(*opened)
            state = state if count else "after"
        elif state is None:
            return Found(opened, digits, before, (before, byte))
    return Found(opened, digits, state, None)


# ---- a reader

def turned(width, height, digits):
    """The mask, the bottom row first."""
    return bytes(digits[row * width + column] != 48 for row in reversed(range(height)) for column in range(width))


# rows, bits, ends: the steps, the digits of a picture, the states in which a text may end. size, count: the number of a size, how many digits there
# are. least: the least size. sized: whether sizes are those of a sheet. order: the refusals in their order. short: whether so many entries are too
# few. mask, depth: what is answered. left: the place after a refusal; rest: what follows the mask
Reader = collections.namedtuple("Reader", "rows bits ends size count least sized order short mask depth left rest")
READER = Reader(rows_of(TABLE), BITS, FINAL, capped, lambda w, h: w * h, 1, lambda w, h: w == h and w in (1, 2, 4, 8, 16, 32, 64, 128), (12, 13, 7),
                lambda need, entries: entries < need, turned, lambda w: w.bit_length() - 1, lambda number, found, place: place, lambda rest: rest)


def holds(rule, number, found, entries):
    """Whether a refusal's condition holds, whatever holds before it."""
    if number == 12:
        return found.sizes is None or min(found.sizes) < rule.least or found.fault is not None or found.state not in rule.ends
    if found.sizes is None:
        return False
    return not rule.sized(*found.sizes) if number == 13 else rule.short(found.sizes[0] * found.sizes[1], entries)


def answer_of(rule, found, place):
    number = next((number for number in rule.order if holds(rule, number, found, len(place))), 0)
    if number:
        return number, 0, rule.left(number, found, place)
    width, height = found.sizes
    mask = rule.mask(width, height, found.digits.ljust(width * height, b"0"))[:len(place)]
    return 0, rule.depth(width), mask + rule.rest(place[len(mask):])


def read_by(rule, case, place):
    return answer_of(rule, scanned(rule, case.given), place)


# ---- a writer

def lines_of(row, line):
    return b"".join(row[at:at + line] + b"\n" for at in range(0, len(row), line))


# deepest, order: the depths, and the refusals in their order. depth: what is taken of k. head: the first lines. ones: the bytes that print 1. taken:
# the bytes of a raster that are taken. rows: the rows in their order. lines: the lines of the rows. scant: whether a raster is too short; short:
# whether a place is. told: what is answered. left: the place after a refusal; rest: what follows the text
Writer = collections.namedtuple("Writer", "deepest order depth head ones taken rows lines scant short told left rest")
WRITER = Writer(DEEPEST, (3, 7), lambda k: k, lambda side: b"P1\n%d %d\n" % (side, side), frozenset({1}), lambda raster, count: raster[:count],
                lambda rows: rows[::-1], lambda rows: b"".join(lines_of(row, LINE) for row in rows), lambda need, size: size < need,
                lambda need, entries: entries < need, len, lambda number, text, place: place, lambda rest: rest)


def text_by(rule, k, raster):
    side = 2 ** k
    digits = bytes(49 if byte in rule.ones else 48 for byte in rule.taken(raster, side * side).ljust(side * side, b"\0"))
    return rule.head(side) + rule.lines(rule.rows([digits[at:at + side] for at in range(0, side * side, side)]))


def write_by(rule, case, place):
    k, raster = rule.depth(case.k), case.given
    text = text_by(rule, k, raster) if k <= 8 else b""
    conditions = {3: k > rule.deepest, 7: k > 8 or rule.scant(4 ** k, len(raster)) or rule.short(len(text), len(place))}
    number = next((number for number in rule.order if conditions[number]), 0)
    if number:
        return number, 0, rule.left(number, text, place)
    return 0, rule.told(text), text[:len(place)] + rule.rest(place[len(text):])


# ---- wrong rules for reading

def changed(*changes):
    """The reader with other steps."""
    return READER._replace(rows=rows_of({**TABLE, **{step: after for change in changes for step, after in change.items()}}))


def without(state, some):
    return changed(by(state, some, None))


def laid(number, found, place, when):
    """A place in which the digits are left, though the text is refused by a number."""
    mask = bytes(digit - 48 for digit in found.digits)[:len(place)] if number == when else b""
    return mask + place[len(mask):]


def ended_by(some):
    """Comments go on at another line end."""
    return changed(*(by(state, bytes(set(ENDS) - set(some)), state) for state in STATES if state.startswith("comment")))


# a comment takes its line end with it: what stands before it has still to be ended by white space
NEEDED = "white space needed after"
SWALLOWED = {
    "P1": changed(by("comment right after P1", ENDS, "P1")),
    "width": changed(by("comment right after width", ENDS, NEEDED), by(NEEDED, WHITE, "gap 2"), by(NEEDED, b"#", "comment right after width")),
    "height": changed(by("comment right after height", ENDS, NEEDED), by(NEEDED, WHITE, "open"), by(NEEDED, b"#", "comment right after height")),
}
# the states from which white space goes on, and other bytes do not
PARTING = [state for state in STATES if (state, 32) in TABLE and (state, 0) not in TABLE]
OPENED = {**comment("comment among digits", "digits"), **comment("comment before digits", "open")}
BAD, LOST, OTHER = (12, 0), (0, 12), (0, 0)
# by its name a wrong reader, and the ways in which it errs
READERS = {
    **{f"{name} as white space": (changed(*(by(state, byte, TABLE[state, 32]) for state in PARTING)), (BAD,))
       for name, byte in (("vertical tab", b"\x0b"), ("form feed", b"\x0c"), ("NUL", b"\0"), ("a no-break blank", b"\xa0"))},
    **{f"{name} as no white space": (changed(*(by(state, byte, None) for state in PARTING)), (LOST,))
       for name, byte in (("blank", b" "), ("tab", b"\t"), ("LF", b"\n"), ("CR", b"\r"))},
    "a comment among the digits let through": (changed(OPENED, by("digits", b"#", "comment among digits")), (BAD,)),
    "a comment before the digits let through": (changed(OPENED, by("open", b"#", "comment before digits")), (BAD,)),
    "a comment right after the last digit let through": (changed(by("last digit", b"#", "after")), (BAD,)),
    "junk after the last digit let through": (changed(by("last digit", EVERY, "after")), (BAD, (12, 13), (12, 7))),
    "a digit after the last digit let through": (changed(by("last digit", BITS, "after")), (BAD,)),
    "white space needed after the last digit": (READER._replace(ends=frozenset({"after"})), (LOST, (13, 12), (7, 12))),
    "nothing but white space after the last digit": (without("after", bytes(set(EVERY) - set(WHITE))), (LOST, (13, 12), (7, 12))),
    "no digits after the last one": (without("after", BITS), (LOST,)),
    "a comment ended by LF alone": (ended_by(b"\n"), (LOST,)),
    "a comment ended by CR alone": (ended_by(b"\r"), (LOST,)),
    **{f"a comment with its line end after the {name}": (rule, (LOST,)) for name, rule in SWALLOWED.items()},
    "a second comment after the height": (SWALLOWED["height"], (BAD,)),
    **{f"white space needed before a comment after the {name}": (without(name, b"#"), (LOST,)) for name in ("P1", "width", "height")},
    **{f"no comment in {name} after white space": (without(name, b"#"), (LOST,)) for name in ("gap 1", "gap 2")},
    "no white space needed after P1": (changed(by("P1", DIGITS, "width")), (BAD,)),
    **{f"{sign} let through in {name}": (changed(by(name, sign.encode(), name)), (BAD,)) for sign in "+-" for name in ("gap 1", "gap 2")},
    **{f"no zero before the number after {name}": (without(name, b"0"), (LOST,)) for name in ("gap 1", "gap 2")},
    "P4": (changed(by("P", b"4", "P1")), (BAD,)),
    "p1": (changed(by("start", b"p", "P")), (BAD,)),
    "white space before P1": (changed(by("start", WHITE, "start")), (BAD,)),
    "other digits as 1": (changed(by("open", DIGITS, "digits"), by("digits", DIGITS, "digits"))._replace(bits=DIGITS), (BAD,)),
    "no white space among the digits": (without("digits", WHITE), (LOST,)),
    "no white space before the first digit": (without("open", WHITE), (LOST,)),
    "digits cut short are 0": (READER._replace(ends=FINAL | {"open", "digits"}), (BAD, (12, 13), (12, 7))),
    **{f"sizes wrapped at 2^{bits}": (READER._replace(size=wrapped(2 ** bits)), (BAD, (12, 13))) for bits in (8, 16, 31, 32, 63, 64)},
    **{f"the count of digits wrapped at 2^{bits}": (READER._replace(count=lambda w, h, bits=bits: w * h % 2 ** bits), ((12, 13),))
       for bits in (32, 64)},
    **{f"sizes of more than {most} digits too large": (READER._replace(size=lambda digits, most=most: MANY if len(digits) > most else capped(digits)),
                                                      (LOST,)) for most in (3, 9, 10, 19, 20, 1000, 4300)},
    "a size of 0 let through": (READER._replace(least=0), ((12, 13),)),
    "any height": (READER._replace(sized=lambda w, h: READER.sized(w, w)), ((13, 0),)),
    "any width": (READER._replace(sized=lambda w, h: READER.sized(h, h)), ((13, 0),)),
    "any square up to 129": (READER._replace(sized=lambda w, h: w == h <= 129), ((13, 0),)),
    "any square from 129 on": (READER._replace(sized=lambda w, h: READER.sized(w, h) or w == h > 128), ((13, 0),)),
    "a side of 256": (READER._replace(sized=lambda w, h: READER.sized(w, h) or w == h == 256), ((13, 0),)),
    "any 4^k digits": (READER._replace(sized=lambda w, h: w * h in (4 ** k for k in range(8))), ((13, 0),)),
    "no side of 128": (READER._replace(sized=lambda w, h: READER.sized(w, h) and w < 128), ((0, 13),)),
    "no side of 1": (READER._replace(sized=lambda w, h: READER.sized(w, h) and w > 1), ((0, 13),)),
    "13 before 12": (READER._replace(order=(13, 12, 7)), ((12, 13),)),
    "7 before 13": (READER._replace(order=(12, 7, 13)), ((13, 7),)),
    "7 before 12": (READER._replace(order=(7, 12, 13)), ((12, 7),)),
    "a place one short let through": (READER._replace(short=lambda need, entries: entries < need - 1), ((7, 0),)),
    "every place let through": (READER._replace(short=lambda need, entries: False), ((7, 0),)),
    "a place just long enough refused": (READER._replace(short=lambda need, entries: entries <= need), ((0, 7),)),
    "a longer place refused": (READER._replace(short=lambda need, entries: entries != need), ((0, 7),)),
    "the rows not turned": (READER._replace(mask=lambda w, h, digits: bytes(digit != 48 for digit in digits)), (OTHER,)),
    "the columns turned": (READER._replace(mask=lambda w, h, digits: bytes(digit != 48 for digit in reversed(digits))), (OTHER,)),
    "rows as columns": (READER._replace(mask=lambda w, h, digits: turned(w, h, b"".join(bytes(digits[at::w]) for at in range(w)))), (OTHER,)),
    "0 for 1": (READER._replace(mask=lambda w, h, digits: bytes(1 - byte for byte in turned(w, h, digits))), (OTHER,)),
    "digits left as they are": (READER._replace(mask=lambda w, h, digits: bytes(48 + byte for byte in turned(w, h, digits))), (OTHER,)),
    "the side answered": (READER._replace(depth=lambda w: w), (OTHER,)),
    "the place cleared after the mask": (READER._replace(rest=lambda rest: bytes(len(rest))), (OTHER,)),
    **{f"the digits left in a place though {when} refuses": (READER._replace(left=lambda *one, when=when: laid(*one, when)), ((when, when),))
       for when in (12, 13, 7)},
}


# ---- wrong rules for writing

def lines_by(line):
    return WRITER._replace(lines=lambda rows: b"".join(lines_of(row, line) for row in rows)), (OTHER,)


def headed(head):
    return WRITER._replace(head=lambda side: head.replace(b"_", b"%d" % side)), (OTHER,)


def begun(number, text, place, when):
    """A place in which the text is left, as far as it goes, though it is refused by a number."""
    text = text[:len(place)] if number == when else b""
    return text + place[len(text):]


WRITERS = {
    "bottom row first": (WRITER._replace(rows=lambda rows: rows), (OTHER,)),
    "the columns turned": (WRITER._replace(rows=lambda rows: [row[::-1] for row in rows[::-1]]), (OTHER,)),
    "rows as columns": (WRITER._replace(rows=lambda rows: [bytes(column) for column in zip(*rows)][::-1]), (OTHER,)),
    **{f"{line} digits to a line": lines_by(line) for line in (35, 64, 69, 71, 127, 128)},
    "no LF at the end of a row": (WRITER._replace(lines=lambda rows: lines_of(b"".join(rows), LINE)), (OTHER,)),
    "no LF at the end": (WRITER._replace(lines=lambda rows: WRITER.lines(rows)[:-1]), (OTHER,)),
    "an empty line at the end": (WRITER._replace(lines=lambda rows: WRITER.lines(rows) + b"\n"), (OTHER, (0, 7))),
    "digits parted by blanks": (WRITER._replace(lines=lambda rows: b"".join(lines_of(b" ".join(row[at:at + 1] for at in range(len(row))), LINE)
                                                                            for row in rows)), (OTHER,)),
    "CR and LF": (WRITER._replace(lines=lambda rows: WRITER.lines(rows).replace(b"\n", b"\r\n")), (OTHER,)),
    "P4 instead of P1": headed(b"P4\n_ _\n"), "one line before the digits": headed(b"P1 _ _\n"), "each size on a line": headed(b"P1\n_\n_\n"),
    "a blank after the sizes": headed(b"P1\n_ _ \n"), "a tab between the sizes": headed(b"P1\n_\t_\n"), "one size": headed(b"P1\n_\n"),
    **{f"byte {byte} as 1": (WRITER._replace(ones=frozenset({1, byte})), (OTHER,)) for byte in EVERY if byte != 1},
    "all bytes but 0 as 1": (WRITER._replace(ones=frozenset(range(1, 256))), (OTHER,)),
    "odd bytes as 1": (WRITER._replace(ones=frozenset(range(1, 256, 2))), (OTHER,)),
    "no byte as 1": (WRITER._replace(ones=frozenset()), (OTHER,)),
    "0 for 1": (WRITER._replace(ones=frozenset(EVERY) - {1}), (OTHER,)),
    "the last bytes of a raster": (WRITER._replace(taken=lambda raster, count: raster[-count:]), (OTHER,)),
    "depth 8 too": (WRITER._replace(deepest=8), ((3, 7),)),
    "no depth 7": (WRITER._replace(deepest=6), ((0, 3),)),
    "7 before 3": (WRITER._replace(order=(7, 3)), ((3, 7),)),
    **{f"k wrapped at {most}": (WRITER._replace(depth=lambda k, most=most: k % most), ((3, 0),)) for most in (8, 256, 65_536, 2 ** 31)},
    "a raster one short let through": (WRITER._replace(scant=lambda need, size: size < need - 1), ((7, 0),)),
    "every raster let through": (WRITER._replace(scant=lambda need, size: False), ((7, 0),)),
    "a raster just long enough refused": (WRITER._replace(scant=lambda need, size: size <= need), ((0, 7),)),
    "a longer raster refused": (WRITER._replace(scant=lambda need, size: size != need), ((0, 7),)),
    "a raster of any depth as long as the longest": (WRITER._replace(scant=lambda need, size: size < 4 ** DEEPEST), ((0, 7),)),
    "a place one short let through": (WRITER._replace(short=lambda need, entries: entries < need - 1), ((7, 0),)),
    "every place let through": (WRITER._replace(short=lambda need, entries: False), ((7, 0),)),
    "a place just long enough refused": (WRITER._replace(short=lambda need, entries: entries <= need), ((0, 7),)),
    "a longer place refused": (WRITER._replace(short=lambda need, entries: entries != need), ((0, 7),)),
    "a place of any depth as long as the longest": (WRITER._replace(short=lambda need, entries: entries < 16_651), ((0, 7),)),
    "one byte less answered": (WRITER._replace(told=lambda text: len(text) - 1), (OTHER,)),
    "the place cleared after the text": (WRITER._replace(rest=lambda rest: bytes(len(rest))), (OTHER,)),
    **{f"the text left in a place though {when} refuses": (WRITER._replace(left=lambda *one, when=when: begun(*one, when)), ((when, when),))
       for when in (3, 7)},
}


# ---- what the cases do not tell

def untold(rules, answered_by, cases):
    """The wrong rules that cases, each with its place and the right answer, do not tell from the right one, in some way in which the rule errs."""
    numbered = collections.defaultdict(list)
    for case, place, right in sorted(cases, key=lambda one: len(one[0].given) + len(one[1])):  # the short ones are quick
        numbered[right[0]].append((case, place, right))
    for name, (rule, ways) in rules.items():
        for number, other in ways:
            answers = ((answered_by(rule, case, place), right) for case, place, right in numbered[number])
            if not any(got != right and got[0] == other for got, right in answers):
                yield f"no case tells the wrong rule \"{name}\" from the right one: the number is {number}, and by the rule {other}"


def stepped(state, byte, after):
    """The reader with one step more."""
    row = READER.rows[state]
    return READER._replace(rows={**READER.rows, state: [*row[:byte], after, *row[byte + 1:]]})


def slips(cases):
    """The slips that cases, each with its place and the right answer, do not tell; and where the table itself answers otherwise."""
    passed, ended, faults = set(), set(), collections.defaultdict(list)
    for case, place, right in cases:
        found = scanned(READER, case.given, passed if right[0] != 12 else None)
        if answer_of(READER, found, place) != right:
            yield f"the table of states reads otherwise than the second program: {case.given[:200]!r}"
        if found.fault:
            faults[found.fault].append(case.given)
        else:
            ended.add((found.state, right[0] == 12))
    for state in STATES:
        if (state, state not in FINAL) not in ended:
            yield f"no text ends here: {state}"
        for byte in EVERY:
            if (state, byte) in TABLE:
                if (state, byte) not in passed:
                    yield f"no plain PBM takes this step: {state}, byte {byte}"
                continue
            for after in {state, TABLE.get((state, 32), state)}:
                rule = stepped(state, byte, after)
                if not any(not holds(rule, 12, scanned(rule, text), 0) for text in faults[state, byte]):
                    yield f"no text tells that this is no step: {state}, byte {byte}, to {after}"
