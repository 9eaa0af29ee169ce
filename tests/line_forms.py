"""The lines that a sheet text is made of, places in a text, and bytes written out: for tests/fault_words.py and
the files beside it."""
import bisect
import collections
import itertools
import re

EDGE, LEAST, MOST, HIGHEST = 1_048_576, -2 ** 31, 2 ** 31 - 1, 8

# a number of a line: its name in the line's form, what it is, and its range
Number = collections.namedtuple("Number", "name words least most")
# a line: its letter, its numbers, and what it holds
Form = collections.namedtuple("Form", "letter numbers holds")
FORMS = (
    Form("D", [Number("d", "the degree d", 0, HIGHEST)], "the degree, at most 8"),
    Form("B", [Number("X", "the corner's X", -EDGE, EDGE), Number("Y", "the corner's Y", -EDGE, EDGE), Number("s", "the side's exponent s", 0, 10)],
         "the square's lower left corner, and its side 2^s"),
    Form("K", [Number("k", "the depth k", 0, 7)], "the depth, at most 7"),
    Form("M", [Number("mode", "the mode", 0, 1)], "the mode, 0 as a rule"),
    Form("T", [Number("i", "the power i of x", 0, HIGHEST), Number("j", "the power j of y", 0, HIGHEST),
               Number("coefficient", "the coefficient", LEAST, MOST)], "a term, coefficient*x^i*y^j"),
)
LETTERS = [form.letter.encode() for form in FORMS]
TERMS = len(FORMS)  # from this line on there are terms
PAIRS = (18, 19)  # the faults of a term's i and j
WELL = re.compile(r"0|-?[1-9][0-9]*")  # how a number is written


def as_text(form):
    """A line's form, and what it holds."""
    return "<tab>".join([form.letter, *(number.name for number in form.numbers)]) + f": {form.holds}"


def right(number):
    """What a number should be."""
    span = f"{number.least} or {number.most}" if number.most - number.least == 1 else f"a whole number from {number.least:,} to {number.most:,}"
    return f"{number.words[0].upper()}{number.words[1:]} is {span}."


# ---- places

# where a fault is: the text, its lines, the line's number and the field's, the line, whether it is ended, its fields, the field, and the line's form;
# no line and no field where the text has no such one
Place = collections.namedtuple("Place", "text lines at number line ended fields field form")


def place_of(text, at, number):
    *ended, rest = text.split(b"\n")
    lines = ended + ([rest] if rest else [])
    line = lines[at - 1] if 0 < at <= len(lines) else None
    fields = [] if line is None else line.split(b"\t")
    field = fields[number - 1] if 0 < number <= len(fields) else None
    return Place(text, lines, at, number, line, at <= len(ended), fields, field, FORMS[min(at, TERMS) - 1])


def number_at(place):
    """What number belongs at a place, or None."""
    at = place.number - 2
    return place.form.numbers[at] if place.field is not None and 0 <= at < len(place.form.numbers) else None


def is_pair(place, fault):
    """Whether a fault is one of i and j together, which stand from field 2 to field 3."""
    return fault in PAIRS and place.at >= TERMS and place.number == 2 and len(place.fields) > 2


def field_words(place, fault):
    """Which field it is, and what belongs there."""
    number = number_at(place)
    name = "the term's i and j" if is_pair(place, fault) else number.words if number else "the letter" if place.number == 1 else None
    return (f", field {place.number}" if place.number else "") + (f" ({name})" if name else "")


def belongs(place):
    """What a line should be."""
    return f"{f'Line {place.at}' if place.at < TERMS else f'From line {TERMS} on each line'} should be {as_text(place.form)}."


# ---- bytes

SIGNS = ["<tab>" if byte == 9 else repr(bytes([byte]))[2:-1] for byte in range(256)]


def signs_of(some):
    """Bytes written out, each by itself."""
    return [SIGNS[byte] for byte in some]


def fitting(signs, room):
    """How many of the signs have room."""
    return bisect.bisect_right([*itertools.accumulate(map(len, signs))], room)


def quoted(field):
    """A field, and not too much of it."""
    signs = signs_of(field)
    some = fitting(signs, 30)
    return f"`{''.join(signs)}`" if some == len(signs) else f"`{''.join(signs[:some])}...` ({len(field):,} bytes)"


def word_of(field):
    """The letters that bytes stand for, or are likely to."""
    try:
        return field.decode()
    except UnicodeDecodeError:
        return field.decode("cp1252", "replace")


def numbers_in(line):
    """The numbers after a line's letter, None for those that are badly written or very large."""
    words = [word_of(field) for field in line.split(b"\t")[1:]]
    return [int(word) if WELL.fullmatch(word) and len(word) <= 11 else None for word in words]


def exponents(line):
    """i and j of a line, or None."""
    both = numbers_in(line)[:2]
    return both if len(both) == 2 and None not in both else None
