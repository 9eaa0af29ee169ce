r"""What is said of a badly written number of a sheet text: what a number has not, and the number that is meant where that is sure.

The commonest slips are told apart: a plus, a decimal point, a comma, blanks, zeros before the number, a long minus, `1e3`, `1/2`, O for 0. For
tests/fault_words.py.
"""
import fractions
import math
import re
import unicodedata

from line_forms import WELL, right, word_of

LONGEST = 40  # letters: of what is longer nothing is sure
BLANK = r"(?:(?!\r)[\s\u200b\u2060\ufeff])"
DIGITS = str.maketrans("OolI", "0011")


def digits_of(found):
    return re.sub(r"[^-0-9]", "", found[0])


def grouped(sign, least=1):
    """Digits in groups of three, with a sign between them so many times at least."""
    return rf"^-?[1-9]\d{{0,2}}(?:{sign}\d{{3}}){{{least},}}$"


# what is found in a number, what is taken for it, and what a number has instead
SLIPS = (
    (rf"^{BLANK}+|{BLANK}+$", "", "no blank beside it"),
    (r"^(['\"`])(.*)\1$", r"\2", "no quotes around it"),
    (r"[\u2010-\u2015\u2212\ufe58\ufe63\uff0d]", "-", "a plain - for a minus"),
    (r"(?![0-9])\d", lambda found: str(unicodedata.decimal(found[0])), "the digits 0 to 9"),
    (r"^[-+]?(?=.*\d)[\dOolI]+$", lambda found: found[0].translate(DIGITS), "digits, and no letters like them"),
    (r"^\+", "", "no plus"),
    (rf"(?<=^-){BLANK}+", "", "no blank after its minus"),
    (grouped(",", 2), digits_of, "no comma"),
    (grouped(BLANK), digits_of, "no blank in it"),
    (grouped("['\u2019_]"), digits_of, "no sign between its digits"),
    (grouped(r"\.", 2), digits_of, "no point"),
    (r"^(-?)0+(?=\d)", r"\1", "no zero before it"),
    (r"^-0$", "0", "no minus where it is 0"),
)
# a number that is written in parts, and what a number has instead, by the first of these signs that is in it
PARTED = re.compile(r"-?(?:\d+[.,]?\d*|[.,]\d+)(?:e[-+]?\d\d?)?|-?\d+/[1-9]\d*", re.A | re.I)
PARTS = {"/": "no fraction", "e": "no e", ",": "no comma", ".": "no decimal point"}


def taken(word):
    """A word with its slips put right, and what a number has instead of them."""
    has = []
    for found, put, words in SLIPS:
        before, word = word, re.sub(found, put, word)
        has += [words] * (word != before)
    return word, has


def instead(number, said, *values):
    """What a number has not, and what to write instead: those values that are in its range, or where there are none, its range."""
    good = [str(value) for value in values if number.least <= value <= number.most]
    return [f"{said}: write {' or '.join(good)}."] if good else [f"{said}.", right(number)]


def in_parts(number, has, value):
    """What is said of a number that is no whole one. Coefficients that are all multiplied draw the same curve."""
    said = f"A number is whole and has {has}"
    if number.name != "coefficient":
        return instead(number, said, math.floor(value), math.ceil(value))
    if not number.least <= value.numerator <= number.most:
        return [f"{said}.", right(number)]
    return [f"{said}. All coefficients times {value.denominator} draw the same curve: this one is {value.numerator} then."]


def thousands(number, word):
    """A point or a comma before three digits may part thousands."""
    if not re.fullmatch(grouped("[.,]"), word):
        return []
    value = int(re.sub("[.,]", "", word))
    return [f"If the {'point' if '.' in word else 'comma'} parts thousands, write {value}."] if number.least <= value <= number.most else []


def hints(field, number):
    """What is said of a field that is badly written as a number."""
    word = word_of(field)
    if not word:
        return [right(number)]
    if len(word) <= LONGEST:
        word, has = taken(word)
        if WELL.fullmatch(word):
            return instead(number, f"A number has {' and '.join(has)}", int(word))
        if PARTED.fullmatch(word):
            value = fractions.Fraction(word.replace(",", "."))
            has = " and ".join([*has, next(words for sign, words in PARTS.items() if sign in word.lower())])
            said = instead(number, f"A number has {has}", value.numerator) if value.denominator == 1 else in_parts(number, has, value)
            return said + thousands(number, word)
    sign = ", with a plain - before them if it is below 0" if number.least < 0 else ""
    return [f"A number is digits alone{sign}.", right(number)]
