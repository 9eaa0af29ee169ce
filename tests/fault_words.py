r"""The words for a bad line of a sheet text: what is wrong with it, and what would be right. For tests/in_words.py.

Nothing is decided here: the program has given the fault's number, 14 to 20, its line and its field. The words are made of these and of the text,
which may hold any bytes. Where they do not belong together there are no words but the fault's meaning.
"""
import re

import number_words
from line_forms import (FORMS, HIGHEST, LEAST, LETTERS, MOST, TERMS, WELL, belongs, exponents, number_at, numbers_in, quoted, right, signs_of,
                        word_of)
from slip_words import put_right

ORDER = "The order is D, B, K, M, and then a T for each term."
MEND = "leave the term out, or mend its i or j."
EMPTY = "A sheet has no empty lines, not even at its end: take it out."
# Greek and Russian letters that look like these
ALIKE = str.maketrans("\u0392\u039a\u039c\u03a4\u0412\u041a\u041c\u0422", "BKMTBKMT")
COMMENTS = (b"#", b"%", b"!", b"//", b"/*", b"--")


# ---- 14

def missing(place):
    if place.number or place.at != len(place.lines) + 1:
        return None
    return f" is missing: the text {'ends before it' if place.lines else 'is empty'}", [belongs(place)]


def other_letter(place, letter):
    """What is said where the letter of another line stands."""
    own, here = LETTERS.index(letter) + 1, place.form.letter
    if own < place.at:
        return [f"Line {own} is the {letter.decode()} line already: take this one out, or mend its letter.", belongs(place)]
    later = [at for at, line in enumerate(place.lines, 1) if at > place.at and line.split(b"\t")[0].upper() == here.encode()]
    return [f"{ORDER} Line {later[0]} is the {here} line: move it here."] if later else [f"{ORDER} The {here} line is left out.", belongs(place)]


def wrong_letter(place, letter):
    """What is said of a letter, with nothing before it and after it."""
    here = place.form.letter
    if letter == here.encode():
        return []
    if letter.upper() == here.encode():
        return [f"The letter is a capital: write {here}."]
    if word_of(letter).translate(ALIKE) == here:
        return [f"It looks like {here}, and is of another alphabet: type a plain {here}."]
    if letter.upper() in LETTERS:
        return other_letter(place, letter.upper())
    return ["A sheet has no comments: take the line out."] if letter.startswith(COMMENTS) else [belongs(place)]


def letter_words(place):
    """What is said of field 1."""
    if not place.line.strip(b" \t\r"):
        return [EMPTY]
    line, said, is_good = put_right(place)
    alone = line.split(b"\t")[0]
    if is_good:
        return said
    if not line.strip(b" \t\r"):
        return [*said, EMPTY if place.ended else belongs(place)]
    if alone[:1].upper() in LETTERS and re.match(rb"[-+]?[0-9]", alone[1:]):
        said.append(f"A tab belongs after the letter: {alone[:1].upper().decode()}<tab>{''.join(signs_of(alone[1:20]))}")
        return said + wrong_letter(place, alone[:1])
    return said + (wrong_letter(place, alone) or count_words(place, line))


def letter(place):
    if place.line is None:
        return missing(place)
    if place.number != 1:
        return None
    met = f"{quoted(place.field) if place.field else 'nothing'} stands where {place.form.letter} belongs" if place.line else "the line is empty"
    return f": {met}", letter_words(place)


# ---- 15

def count_words(place, line):
    """What is said of a line that has another count of fields."""
    following = FORMS[min(place.at, TERMS - 1)].letter  # of the line after it
    if any(re.fullmatch(rf"(?:{WELL.pattern})?{following}", word_of(field)) for field in line.split(b"\t")[1:]):
        return [f"A line end belongs before {following}."]
    is_unsure = b"," in line and line.count(b"\t") < len(place.form.numbers)
    return ["A comma parts no fields: where it stands for a tab, set a tab."] * is_unsure + [belongs(place)]


def count(place):
    met, needed, letter = len(place.fields), len(place.form.numbers) + 1, place.form.letter
    if place.line is None or met == needed:
        return None
    said = f" has {met:,} field{'s' if met > 1 else ''}, and a{'n' if letter == 'M' else ''} {letter} line has {needed}"
    line, hints, is_good = put_right(place)
    return said, hints if is_good else hints + count_words(place, line)


# ---- 16 and 17

def writing(place):
    number = number_at(place)
    if number is None:
        return None
    said = ": nothing stands where a number belongs" if not place.field else f": {quoted(place.field)} is not written as a number"
    if b"\r" not in place.field:
        return said, number_words.hints(place.field, number)
    line, hints, is_good = put_right(place)
    fields = line.split(b"\t")
    rest = fields[place.number - 1] if len(fields) == len(place.fields) else place.field
    is_well = is_good or WELL.fullmatch(word_of(rest))
    return said, hints if is_well else hints + number_words.hints(rest, number)


def size(place):
    number = number_at(place)
    if number is None:
        return None
    met = "too large" if not place.field.startswith(b"-") else "too far below 0" if number.least else "below 0"
    return f": {quoted(place.field)} is {met}", [right(number)]


# ---- 18 and 19

def is_term(place):
    return place.number == 2 and place.at >= TERMS and place.line is not None and exponents(place.line) is not None


def beyond(place):
    degree = numbers_in(place.lines[0])[:1] if is_term(place) else []
    if degree in ([], [None]):
        return None
    i, j = exponents(place.line)
    high = [f"{name} is {power}" for name, power in (("i", i), ("j", j)) if power > HIGHEST]
    if high:
        return f": {' and '.join(high)}, and {HIGHEST} is the most", [f"No term has a power above {HIGHEST}: {MEND}"]
    if i + j <= degree[0]:
        return None
    said = f": i + j is {i + j}, and line 1 says D<tab>{degree[0]}"
    if i + j > HIGHEST:
        return said, [f"No degree is above {HIGHEST}: {MEND}"]
    terms = [exponents(line) for line in place.lines[TERMS - 1:]]
    need = max(map(sum, terms)) if None not in terms else i + j
    if i + j < need <= HIGHEST:
        return said, [f"Write D<tab>{need} in line 1, which is enough for all terms; or {MEND}"]
    return said, [f"Write D<tab>{i + j} in line 1; or {MEND}"]


def twice(place):
    before = [at for at in range(TERMS, place.at) if exponents(place.lines[at - 1]) == exponents(place.line)] if is_term(place) else []
    if not before:
        return None
    (i, j), first, again = exponents(place.line), *(numbers_in(place.lines[at - 1])[2:] for at in (before[0], place.at))
    hints = ["Take one of the two lines out, or mend its i or j."]
    if first != again and len(first) == len(again) == 1 and None not in first + again and LEAST <= first[0] + again[0] <= MOST:
        hints.append(f"If both are meant, their sum stands in one line: T<tab>{i}<tab>{j}<tab>{first[0] + again[0]}")
    return f": line {before[0]} has the term of i = {i} and j = {j} already", hints


# ---- 20

def unended(place):
    if place.line is None or place.ended:
        return None
    return " has no line end", ["Press Enter at its end: every line has a line end, the last one too."]


# the seven: the meaning, and what gives the words for a place and the hints, or None
FAULTS = {
    14: ("a line begins with another letter than belongs there, or is missing", letter),
    15: ("a line has too many fields, or too few", count),
    16: ("a number is badly written", writing),
    17: ("a number is too large, or below 0 where it may not be", size),
    18: ("a term is beyond the degree, or its i or j is above 8", beyond),
    19: ("a term is given twice", twice),
    20: ("a line has no line end", unended),
}
