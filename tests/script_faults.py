"""What `./sheet` says of a bad line, refused by 14 to 20: for tests/script.py, and by itself, since no program is needed.

    python3 tests/script_faults.py

The second program says which number, line and field a text is refused by (tests/second_text.py), and the script's words are made of those
(tests/in_words.py). Of some texts every word is known. A number is written amiss in every field.

What is said to be done is done, wherever it is said: of these texts, of random texts, and of texts with several slips of a typist in one. A command
is run by a shell. If it "mends" the line, the second program finds no fault there any more, nor before it; if it "helps", none is before the line.
A number, or a degree, that is to be written is put in, and its fault is gone. The commands are followed so from text to text, and a number that may
be read in two ways is never changed unseen.

On random texts the marks stand below the field, column by column. And whatever bytes a text has, and whatever is answered, there are words.
"""
import fractions
import functools
import pathlib
import random
import re
import subprocess
import sys
import tempfile

sys.dont_write_bytecode = True  # nothing is left in the tree
import second_text
from fault_words import FAULTS
from in_words import REASONS, refusal
from program import ROOT
from script_words import (AMISS, AMISS_WIDE, COMMANDED, GOOD, LIGHT, MENDS, MENDS_BLANKS, MENDS_CR, NOT_WHOLE, RANGES, TOLD, UNSEEN, WIDE, put,
                          with_slips)

SEED, RANDOM, SLIPPED = 20250711, 4000, 500
COUNTS = {b"D": 1, b"B": 3, b"K": 1, b"M": 1, b"T": 3}
FIELDS = {(letter, field) for letter, count in COUNTS.items() for field in range(1, count + 2)}
NUMBERS = range(14, 21)


@functools.lru_cache(10)
def answered(text):
    """The number, the line and the field by which the second program refuses a text."""
    return second_text.read(text)[:3]


@functools.lru_cache(10)
def told(text):
    """What the script says of a text."""
    return refusal(text, second_text.line_of(b"refused", *answered(text)))


# ---- what is said to be done is done

COMMAND = re.compile(r"    This (mends it|helps): (.+)")
WRITE = re.compile(r"write (-?\d+)(?: or (-?\d+))?\.|this one is (-?\d+) then\.")
DEGREE = re.compile(r"Write D<tab>(\d+) in line 1")


@functools.lru_cache(10)
def mended(text, command):
    """What a command makes of a text, run as a person runs it."""
    with tempfile.TemporaryDirectory() as folder:
        (pathlib.Path(folder) / "old.sheet").write_bytes(text)
        subprocess.run(["sh", "-c", command], cwd=folder, capture_output=True)
        return (pathlib.Path(folder) / "new.sheet").read_bytes()


def commanded(text):
    """The command that is said for a text, and whether it mends the line; or none."""
    found = [*filter(None, map(COMMAND.fullmatch, told(text)))]
    return (found[0][2], found[0][1] == "mends it") if found else None


def with_field(text, at, field, word):
    """A text with a field exchanged."""
    fields = text.split(b"\n")[at - 1].split(b"\t")
    fields[field - 1] = word if isinstance(word, bytes) else word.encode()
    return put(at, b"\t".join(fields), text)


def is_done(text):
    """Whether all that is said of a text does what is said."""
    (number, at, field), said, command = answered(text), "\n".join(told(text)), commanded(text)
    if command:
        after = answered(mended(text, command[0]))[1]
        if 0 < after < at + command[1]:  # before the line, or at a line that is said to be mended
            return False
    if number == 16:
        values = [value for values in WRITE.findall(said) for value in values if value]
        return not any(answered(with_field(text, at, field, value)) in ((16, at, field), (17, at, field)) for value in values)
    return number != 18 or all(answered(put(1, b"D\t" + degree.encode(), text)) != answered(text) for degree in DEGREE.findall(said))


def done_checks(rng):
    """Texts with several slips: what is said is followed, from text to text, as long as there is a command."""
    wrong, mends, good, unseen = [], 0, 0, []
    for start in [*(with_slips(rng) for _ in range(SLIPPED)), *UNSEEN]:
        text, command = start, ("", False)
        while command:
            wrong += [text] * (not is_done(text))
            command = commanded(text)
            mends += bool(command and command[1])
            text = mended(text, command[0]) if command else text
        good += text == GOOD
        unseen += [start] * (start in UNSEEN and not answered(text)[0])
    yield f"what is said of texts with slips is done, but for {wrong[:1]}", not wrong
    yield f"{mends} lines are mended, and {good} texts are good at last", mends > SLIPPED // 4 and good > SLIPPED // 4
    yield f"no number is changed unseen, but in {unseen[:1]}", not unseen


# ---- every word of some texts

def word_checks():
    """Every word of some texts, and the commands that make them good."""
    yield "texts for each number", {number for _, number, *_ in TOLD} == {*NUMBERS}
    for text, number, first, *more in TOLD:
        said = [f"refused by {number}: {first}", *(f"    {line}" for line in more)]
        yield f"what is said of {text[:80]!r}: {told(text)}", told(text) == said and is_done(text)
    for text, words in COMMANDED:
        said = told(text)
        is_said = said[-2] == f"    {words}" and said[-1].startswith(f"    {MENDS}")
        yield f"the command for {text[:80]!r}: {said}", is_said and mended(text, said[-1].removeprefix(f"    {MENDS}")) == GOOD
    for text, command in ((GOOD.replace(b"\t", b" "), MENDS_BLANKS), (GOOD.replace(b"\n", b"\r\n"), MENDS_CR)):
        yield command, told(text)[-1] == f"    {MENDS}{command}"


# ---- a typist's slips in every field

TIMES = re.compile(r"\. All coefficients times (\d+) draw the same curve: this one is (-?\d+) then\.")


def spoiled(at, field, word):
    """A good text with a field exchanged."""
    return with_field(LIGHT, at, field, word)


def slip_checks():
    """A number written amiss, in every field: what is said; and the number to be written instead is accepted there."""
    for at, line in enumerate(LIGHT.split(b"\n")[:-1], 1):
        for field, good in enumerate(line.decode().split("\t")[1:], 2):
            slips = [(form.replace("{n}", good), words, int(good) if sure else None) for form, words, sure in AMISS]
            slips += [(form, f"A number has {words}", number) for form, words, number in AMISS_WIDE if (at, field) in WIDE]
            for word, words, number in slips:
                text = spoiled(at, field, word)
                hint = told(text)[3].strip()
                is_said = hint.startswith(words) if number is None else hint == f"{words}: write {number}."
                yield f"{word!r} in line {at}, field {field}: {hint}", answered(text) == (16, at, field) and is_said and is_done(text)


def range_checks():
    """Numbers written amiss at the ends of each range, and one step beyond them; and those that are not whole."""
    for (at, field), (least, most) in RANGES.items():
        span = "is 0 or 1." if most == 1 else f"is a whole number from {least:,} to {most:,}."
        for number in (least - 1, least, most, most + 1):
            first, *more = [line.strip() for line in told(spoiled(at, field, f"{'-' if number < 0 else ''}0{abs(number)}"))[3:]]
            said = "A number has no zero before it"
            is_said = first == f"{said}: write {number}." and not more if least <= number <= most else first == f"{said}." and more[0].endswith(span)
            yield f"{number} in line {at}, field {field}", is_said
    for word, times in NOT_WHOLE.items():
        found, value = TIMES.search(told(spoiled(5, 4, word))[3]), fractions.Fraction(word.replace(",", "."))
        yield f"the whole number for {word}", bool(found) and found.groups() == (str(times), str(value * times))
    for word in ("2147483649/2", "-2147483649/2", "1/3/5", "0" * 40 + "7"):
        yield f"no number for {word}", told(spoiled(5, 4, word))[-1].endswith("is a whole number from -2,147,483,648 to 2,147,483,647.")


# ---- the marks

MARKS = re.compile(r" *\^+")


def out(some):
    """Bytes as they are shown."""
    named = {9: "<tab>", 10: r"\n", 13: r"\r", 92: r"\\"}
    return "".join(named.get(byte) or (chr(byte) if 32 <= byte < 127 else rf"\x{byte:02x}") for byte in some)


def marks_fault(text, answer, said):
    """What is wrong with the line that is shown and with its marks, or nothing."""
    number, at, field = answer
    lines = text.split(b"\n")
    line = out(lines[at - 1]) if at <= len(lines) else ""
    shown, marks, *hints = [more.removeprefix("    ") for more in said[1:]] if line else ("", "", *said[1:])
    if any(MARKS.fullmatch(hint) for hint in hints) or bool(MARKS.fullmatch(marks)) != bool(line and (field or number == 20)):
        return "marks where none are meant, or none where they are"
    if shown != line and not (shown.endswith("...") and line.startswith(shown[:-3]) and 66 <= len(shown[:-3]) <= 72 < len(line)):
        return "another line, or one that is too long or too short"
    if line and field:
        *before, met = lines[at - 1].split(b"\t")[:field]
        if number in (18, 19):  # of i and j
            met = b"\t".join(lines[at - 1].split(b"\t")[1:3])
        start, end = len(out(b"".join(some + b"\t" for some in before))), len(out(b"\t".join([*before, met])))
        is_below = marks == " " * start + "^" * max(1, min(end, len(shown[:-3] if shown != line else line)) - start)
        return None if is_below else "marks that are not below the field"
    return None if number != 20 or marks == " " * len(line) + "^" else "marks that are not at the end"


def any_word(rng):
    """A field of any kind."""
    some = bytes(rng.choice(b"0123456789-+., \r\\'\"`<\xc2\xa0\x1b") for _ in range(rng.randint(1, 9)))
    other = bytes(byte for byte in rng.randbytes(rng.randint(1, 30)) if byte not in b"\t\n")
    long = b"x" * rng.choice((1, 5, 40, 100)), b"\xff\0" * rng.randint(1, 30)
    return rng.choice((b"", b"+1", b"-1", b"9", b"T", b"12345", b"99999999999", some, other, *long))


def any_text(rng):
    """A good text with a field or two exchanged, put in or taken out, a line moved or given twice, or without its end."""
    lines = [line.split(b"\t") for line in GOOD.split(b"\n")[:-1]]
    for _ in range(rng.randint(1, 2)):
        fields = rng.choice(lines)
        at, kind = rng.randrange(len(fields)), rng.random()
        if kind < 0.75:
            fields[at] = any_word(rng)
        elif kind < 0.85:
            fields.insert(at, any_word(rng))
        elif len(fields) > 1:
            del fields[at]
    if rng.random() < 0.2:
        lines.append(lines.pop(rng.randrange(len(lines))) if rng.random() < 0.5 else rng.choice(lines))
    text = b"".join(b"\t".join(fields) + b"\n" for fields in lines)
    return text[:-1] if rng.random() < 0.2 else text[:rng.randrange(len(text))] if rng.random() < 0.1 else text


def mark_checks(rng):
    """On random texts, which have every fault, in every field, and some that are empty, or too long to be shown."""
    faults, met = [], set()
    for text in (any_text(rng) for _ in range(RANDOM)):
        answer = number, at, field = answered(text)
        if number in NUMBERS:
            said = told(text)
            fault = marks_fault(text, answer, said) or (None if is_done(text) else "what is said to be done does not do it")
            faults += [(text, said, fault)] * bool(fault)
            kinds = {"long": said[1].endswith("..."), "empty": "nothing stands" in said[0], "odd": r"\x" in said[1]}
            met |= {number, (b"DBKM"[at - 1:at] or b"T", field), *((kind, number) for kind, is_met in kinds.items() if is_met)}
    needed = {*NUMBERS, *FIELDS, ("empty", 14), ("empty", 16), ("long", 14), ("long", 15), ("long", 16), ("odd", 14), ("odd", 15), ("odd", 16)}
    yield f"the marks of random texts, but of {faults[:1]}", not faults
    yield f"of random texts all is met, but {needed - met}", needed <= met


# ---- any bytes, and any answer

def is_sane(said, number):
    """Whether there are words: a first line, and not too many more, of plain signs."""
    return said[0].startswith(f"refused by {number}: ") and len(said) <= 6 and all(line.isascii() and line.isprintable() for line in said)


def any_checks(rng):
    faults = []
    for _ in range(RANDOM):
        like = bytes(rng.choice(b"DBKMT\t\n 019-+.,\r\xef") for _ in range(rng.randint(0, 60)))
        text = rng.choice((any_text(rng), rng.randbytes(rng.randint(0, 60)), like))
        answer = rng.choice((*NUMBERS, rng.randint(7, 30))), rng.choice((0, 1, 2, 5, 6, 7, 8, 99)), rng.choice((0, 1, 2, 3, 4, 5, 99))
        for some in (answer, answered(text)):
            if some[0] in (0, 6):
                continue
            try:
                faults += [(text, some)] * (not is_sane(refusal(text, second_text.line_of(b"refused", *some)), some[0]))
            except Exception as error:
                faults.append((text, some, error))
    yield f"there are words for any bytes and any answer, but for {faults[:1]}", not faults
    for filler in (b" ", b"9", b"0", b"1,000", b"\xff", b"\t", b"D ", b"\r", b"- ", b"1."):
        long = (filler * 8192)[:8192]
        for text in (long, (put(5, b"T\t2\t0\t" + long))[:8192]):
            yield f"a long text of {filler!r}", is_sane(told(text), answered(text)[0])
    for line, number in ((b"refused\t99\t0\t0\n", 99), (b"refused\t10\t1\n", 10), (b"refused\n", 0), (b"\xff", 0)):
        yield f"the answer {line!r}", refusal(GOOD, line) == [f"refused by {number}: for no reason that this script knows"]
    for line, where in ((b"16\t99\t4", "line 99, field 4"), (b"14\t99\t0", "line 99"), (b"16", "line 0")):
        number = int(line[:2])
        said = refusal(GOOD, b"refused\t" + line + b"\n")
        yield f"{line}, which the text has not: {said}", said == [f"refused by {number}: {where}: {FAULTS[number][0]}"]
    for number, field in ((14, 0), (15, 0), (18, 2), (19, 2), (20, 0)):
        said = refusal(GOOD, second_text.line_of(b"refused", number, 5, field))
        yield f"{number} of a good line: {said}", said[0].endswith(f": {FAULTS[number][0]}") and said[1] == "    T<tab>2<tab>0<tab>1"


# ---- README.md and sheets/README.md

def rows(page):
    """The tables of a page that have a number in the first column: the other columns, by the number."""
    cells = [[cell.strip() for cell in line.strip("|").split(" | ")] for line in page.splitlines() if re.match(r"\| \d+ \|", line)]
    return {int(number): more for number, *more in cells}


def page_checks():
    """What a volunteer reads: the numbers and their meanings, and a bad line as the script tells of it."""
    readme, sheets = ((ROOT / name).read_text() for name in ("README.md", "sheets/README.md"))
    meanings = {**REASONS, **{number: meaning for number, (meaning, _) in FAULTS.items()}}
    first, then = rows(readme), rows(sheets)
    yield "the numbers in README.md", {*first} == {*meanings} and all(row[0].startswith(meanings[number]) for number, row in first.items())
    yield "the numbers in sheets/README.md", {*then} == {*NUMBERS} and all(row[0] == meanings[number] and row[1:] for number, row in then.items())
    text = second_text.WHOLE[:-2] + b"+1\n"
    said = "".join(f"    {line}\n" for line in [f"my.sheet: {told(text)[0]}", *told(text)[1:]])
    yield "a bad line in README.md", f"\n\n{said}\n" in readme
    yield "its refusal in sheets/README.md", f"\n\n    {second_text.line_of(b'refused', *answered(text)).decode()}\n" in sheets
    for command in (MENDS_BLANKS, MENDS_CR):
        yield f"{command} in sheets/README.md", f"\n    {command}\n" in sheets


# ---- all of it

def checks():
    """What is tried, and whether it is as it should be."""
    rng = random.Random(SEED)
    yield from word_checks()
    yield from slip_checks()
    yield from range_checks()
    yield from done_checks(rng)
    yield from mark_checks(rng)
    yield from any_checks(rng)
    yield from page_checks()


def main():
    all_checks = [*checks()]
    wrong = [name for name, good in all_checks if good is not True]
    for name in wrong:
        print(f"not as it should be: {name}")
    print(f"script, bad lines: {len(all_checks) - len(wrong)} of {len(all_checks)} checks hold")
    return 1 if wrong else 0


if __name__ == "__main__":
    sys.exit(main())
