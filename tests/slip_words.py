r"""The slips of a typist that a command puts right in a whole text: blanks for tabs, the line ends of Windows, and such. For tests/fault_words.py.

What a command does to the text is done here to the bad line, one slip after the other. Of all ways those few slips are chosen that make the line
good, or else bring it furthest. "This mends it:" is said only where the line is good then; where some of it stays to be done, "This helps:"; and
where nothing is better, nothing is said. A slip that might change a number unseen is not put right: -4,5 may be two numbers, or one with a part.
"""
import collections
import re

from line_forms import FORMS, LETTERS, TERMS, WELL, exponents, numbers_in, word_of

LONG = 400  # bytes: in a longer line only what is of the whole text is looked for


def as_utf8(some):
    """Bytes of a text that is saved as UTF-16. What is no letter becomes the sign for that."""
    return some.decode("utf-16", "replace").encode()


# what is said; the command; the sign that must be in the line; what is found, and what is put in its place; and what makes it unsure, in any line
Slip = collections.namedtuple("Slip", "words command sign found put unsure", defaults=(None,))
# those at the beginning of the text; of one that is saved as UTF-16 the lines are known only then
FIRST = (
    Slip("The text is saved as UTF-16, and is no plain text.", "iconv -f UTF-16 -t UTF-8", b"", rb"(?s)\A(?:\xff\xfe|\xfe\xff).*",
         lambda found: re.match(rb"[^\n]*\n?", as_utf8(found[0]))[0], "\ufffd".encode()),
    Slip("An editor set three bytes before the text.", "tail -c +4", b"", rb"\A\xef\xbb\xbf", b""),
)
RETURNS = (
    Slip(r"The \r is a carriage return, such as Windows sets before a line end.", r"tr -d '\r'", b"\r", rb"\r", b"", rb"\r[-+\d]"),
    Slip(r"The \r is a carriage return, which ends no line here.", r"tr '\r' '\n'", b"\r", rb"(?s)\r.*", b"\n", rb"\r[-+\d\n]"),
)
IN_LINE = (
    Slip("A blank or a tab stands before the letter.", "sed 's/^[[:blank:]]*//'", b"", rb"\A[ \t]+", b""),
    Slip("The five signs <tab> stand where tabs belong.", r"""awk '{ gsub(/<tab>/, "\t") } 1'""", b"<tab>", rb"<tab>", b"\t"),
    Slip(r"The two signs \t stand where tabs belong.", r"""awk '{ gsub(/\\t/, "\t") } 1'""", rb"\t", rb"\\t", b"\t"),
    Slip("No-break blanks stand where tabs belong.", r"LC_ALL=C tr -s '\302\240' '\t\t'", b"\xc2\xa0", rb"[\xc2\xa0\t]+", b"\t",
         rb"(?m)^(?=.*[ \t,;<\\]).*\d\xc2\xa0\d{3}(?!\d)"),
    Slip("Commas stand where tabs belong.", r"tr ',' '\t'", b",", rb",", b"\t", rb"(?m)^(?=.*[ \t;<\\\xa0]).*\d,\d"),
    Slip("Semicolons stand where tabs belong.", r"tr ';' '\t'", b";", rb";", b"\t"),
    Slip("Blanks stand where tabs belong.", r"tr -s ' ' '\t'", b" ", rb"[ \t]+", b"\t", rb"(?m)^(?=.*[\t,;<\\\xa0]).*\d \d{3}(?!\d)"),
    Slip("A blank or a tab stands at its end.", "sed 's/[[:blank:]]*$//'", b"", rb"[ \t]+(?=\n?\Z)", b""),
    Slip("Two tabs stand where one belongs.", r"tr -s '\t'", b"", rb"\t\t+", b"\t"),
    Slip("It has no line end.", "awk 1", b"", rb"(?<!\n)\Z", b"\n"),
)
# what no line has, whatever its fields are
ODD = re.compile(rb"\r|\A(?:\xef\xbb\xbf|\xff\xfe|\xfe\xff)")


def is_utf16(place):
    return place.at == 1 and bool(re.match(FIRST[0].found, place.text))


def slips_for(place):
    """The slips that are put right for sure in a text, wherever they are."""
    slips = (FIRST if place.at == 1 else ()) + RETURNS + IN_LINE
    text = as_utf8(place.text) if is_utf16(place) else place.text
    return [slip for slip in slips if not (slip.unsure and re.search(slip.unsure, text))]


def trials(line, slips):
    """A line as it is, and as it becomes where slips that are in it are put right, one after the other; and these slips."""
    yield line, ()
    for at, slip in enumerate(slips, 1):
        is_met = slip.sign in line and (len(line) <= LONG or slip not in IN_LINE)
        after = re.sub(slip.found, slip.put, line) if is_met else line
        if after != line:
            yield from ((end, (slip, *more)) for end, more in trials(after, slips[at:]))


def fields_of(line):
    return line.removesuffix(b"\n").split(b"\t")


def is_number(field, number):
    """Whether a field is well written, and in the range of a number."""
    return len(field) <= 11 and bool(WELL.fullmatch(word_of(field))) and number.least <= int(field) <= number.most


def is_new(place, line):
    """Whether a good line is no term, or one of the degree and given once."""
    if place.at < TERMS:
        return True
    (degree, *_), term = [*numbers_in(place.lines[0]), None], exponents(line)
    return degree is not None and sum(term) <= degree and term not in map(exponents, place.lines[TERMS - 1:place.at - 1])


def worth(place, line):
    """How good a line is at a place: whether it is good; else whether it has a letter, then something in as many fields as that asks for, how many of
    them are good numbers, and whether there are no odd bytes."""
    letter, *fields = fields_of(line)
    if letter.upper() not in LETTERS:
        return False, False, False, 0, not ODD.search(line)
    numbers = FORMS[LETTERS.index(letter.upper())].numbers
    is_counted = len(fields) == len(numbers) and all(field.strip(b"\r") for field in fields)
    good = sum(map(is_number, fields, numbers)) if is_counted else 0
    is_good = letter == place.form.letter.encode() and is_counted and good == len(numbers) and line.endswith(b"\n")
    return is_good and is_new(place, line.removesuffix(b"\n")), True, is_counted, good, not ODD.search(line)


def put_right(place):
    """What a line becomes where its slips are put right, without its line end; what is said of them, and the command; and whether the line is good
    then."""
    start = place.text if is_utf16(place) else place.line + b"\n" * place.ended
    line, slips = max(trials(start, slips_for(place)), key=lambda trial: (worth(place, trial[0]), -len(trial[1])))
    if not slips:
        return place.line, [], False
    is_good = worth(place, line)[0]
    first, *more = [slip.command for slip in slips]
    command = " | ".join([f"{first} < old.sheet", *more])
    said = [" ".join(slip.words for slip in slips), f"This {'mends it' if is_good else 'helps'}: {command} > new.sheet"]
    return line.removesuffix(b"\n"), said, is_good
