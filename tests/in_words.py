"""What the script `sheet` says of a text that is refused: the meaning of the number; and of a bad line the line itself with the field marked, what is
wrong and what would be right.

Nothing is decided here: the program has given its number, and the line and the field of the text that it means.
"""
import re

from fault_words import FAULTS
from line_forms import field_words, fitting, is_pair, place_of, signs_of
from too_heavy import hints_for

REASONS = {
    1: "the degree d is above 8",
    3: "the depth k is above 7",
    4: "the corner X or Y is outside -1,048,576 to 1,048,576, or s is above 10",
    5: "the mode is neither 0 nor 1",
    6: "the weight is 2^62 or more, and 64 bits might not hold every number",
    11: "the text is longer than 8,192 bytes",
}
UNKNOWN = "for no reason that this script knows"
WIDTH = 72  # columns of a line
MOST = 3  # hints
HEAVY, UNENDED = 6, 20


def marked_at(place, number):
    """The first byte that is marked and the one after the last: those of the field, or of i and j; or none, at the end of an unended line; or
    nothing."""
    if place.field is not None:
        start = sum(len(field) + 1 for field in place.fields[:place.number - 1])
        return start, start + len(b"\t".join(place.fields[1:3]) if is_pair(place, number) else place.field)
    return (len(place.line), len(place.line)) if number == UNENDED and place.line else None


def line_shown(place, number):
    """The line of a fault, its odd bytes written out, and marks below the field. What is before the first bad field is good, and so it is short: a
    long line is cut at its end."""
    if not place.line:
        return []
    signs, marked = signs_of(place.line), marked_at(place, number)
    last = fitting(signs, WIDTH)
    line = "".join(signs[:last]) + ("..." if last < len(signs) else "")
    if marked is None or marked[0] > last:
        return [line]
    before, field = "".join(signs[:marked[0]]), "".join(signs[marked[0]:min(marked[1], last)])
    return [line, " " * len(before) + "^" * max(1, len(field))]


def bad_line(number, text, at, field):
    """What is said of a bad line. Where the fault has no such place in the text, its meaning is."""
    meaning, words_at = FAULTS[number]
    place = place_of(text, at, field)
    said, hints = words_at(place) or (f": {meaning}", [])
    return [f"line {at}{field_words(place, number)}{said}", *line_shown(place, number), *hints[:MOST]]


def refusal(text, answer):
    """The meaning of a refusal, in words."""
    number, line, field = [*map(int, re.findall(rb"\d{1,9}", answer)), 0, 0, 0][:3]
    if number in FAULTS:
        first, *more = bad_line(number, text, line, field)
    else:
        first, *more = [REASONS.get(number, UNKNOWN), *(hints_for(text) if number == HEAVY else [])]
    return [f"refused by {number}: {first}", *(f"    {line}" for line in more)]
