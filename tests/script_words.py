"""Texts with a bad line, and what `./sheet` says of each, word for word; texts that a command mends; numbers written amiss; and a typist's slips,
several in a text.

For tests/script.py and tests/script_faults.py, which hold the script to them.
"""
import re

from second_text import written

GOOD = written("D 2", "B -4 -4 3", "K 5", "M 0", "T 2 0 1", "T 0 2 1", "T 0 0 -9")


def put(at, line, text=GOOD):
    """A text with another line at a place, counted from 1."""
    lines = text.split(b"\n")
    lines[at - 1:at] = [line]
    return b"\n".join(lines)


def term(coefficient):
    return put(5, b"T\t2\t0\t" + coefficient)


# ---- every word of some texts

RIGHT = "The coefficient is a whole number from -2,147,483,648 to 2,147,483,647."
ALONE = "A number is digits alone, with a plain - before them if it is below 0."
EMPTY = "A sheet has no empty lines, not even at its end: take it out."
TERM = "From line 5 on each line should be T<tab>i<tab>j<tab>coefficient: a term, coefficient*x^i*y^j."
SQUARE = "Line 2 should be B<tab>X<tab>Y<tab>s: the square's lower left corner, and its side 2^s."
ORDER = "The order is D, B, K, M, and then a T for each term."
ENTER = "Press Enter at its end: every line has a line end, the last one too."
MEND = "leave the term out, or mend its i or j."
WINDOWS = r"The \r is a carriage return, such as Windows sets before a line end."
EDITOR = "An editor set three bytes before the text."
BEFORE, AFTER = "A blank or a tab stands before the letter.", "A blank or a tab stands at its end."
BLANKS, COMMAS = "Blanks stand where tabs belong.", "Commas stand where tabs belong."
UNSURE = "A comma parts no fields: where it stands for a tab, set a tab."
HELPS, MENDS = "This helps: ", "This mends it: "
MENDS_BLANKS, MENDS_CR = r"tr -s ' ' '\t' < old.sheet > new.sheet", r"tr -d '\r' < old.sheet > new.sheet"
LETTER, COEFFICIENT, BOTH = "field 1 (the letter): ", "line 5, field 4 (the coefficient): ", "field 2 (the term's i and j): "
MARKS = " " * 6 + "^" * 7  # from i to j, of one digit each

# a text, the number, and what is said after that
TOLD = [
    # 14: a missing line, a letter of another line, a small one, none
    (b"", 14, "line 1 is missing: the text is empty", "Line 1 should be D<tab>d: the degree, at most 8."),
    (written("D 2"), 14, "line 2 is missing: the text ends before it", SQUARE),
    (written("D 2", "B -4 -4 3"), 14, "line 3 is missing: the text ends before it", "Line 3 should be K<tab>k: the depth, at most 7."),
    (written("D 2", "B -4 -4 3", "K 5"), 14, "line 4 is missing: the text ends before it", "Line 4 should be M<tab>mode: the mode, 0 as a rule."),
    (put(2, b"K\t5"), 14, f"line 2, {LETTER}`K` stands where B belongs", "K<tab>5", "^", f"{ORDER} The B line is left out.", SQUARE),
    (written("D 2", "K 5", "B -4 -4 3", "M 0"), 14, f"line 2, {LETTER}`K` stands where B belongs", "K<tab>5", "^",
     f"{ORDER} Line 3 is the B line: move it here."),
    (written("D 2", "k 5", "b -4 -4 3", "m 0"), 14, f"line 2, {LETTER}`k` stands where B belongs", "k<tab>5", "^",
     f"{ORDER} Line 3 is the B line: move it here."),
    (put(3, b"B\t0\t0\t3"), 14, f"line 3, {LETTER}`B` stands where K belongs", "B<tab>0<tab>0<tab>3", "^",
     "Line 2 is the B line already: take this one out, or mend its letter.", "Line 3 should be K<tab>k: the depth, at most 7."),
    (GOOD + b"D\t2\n", 14, f"line 8, {LETTER}`D` stands where T belongs", "D<tab>2", "^",
     "Line 1 is the D line already: take this one out, or mend its letter.", TERM),
    (GOOD.lower(), 14, f"line 1, {LETTER}`d` stands where D belongs", "d<tab>2", "^", "The letter is a capital: write D."),
    (put(3, "\u041a\t5".encode()), 14, rf"line 3, {LETTER}`\xd0\x9a` stands where K belongs", r"\xd0\x9a<tab>5", "^^^^^^^^",
     "It looks like K, and is of another alphabet: type a plain K."),
    (put(5, b"X\t2\t0\t1"), 14, f"line 5, {LETTER}`X` stands where T belongs", "X<tab>2<tab>0<tab>1", "^", TERM),
    (put(1, b"# a circle"), 14, f"line 1, {LETTER}`# a circle` stands where D belongs", "# a circle", "^^^^^^^^^^",
     "A sheet has no comments: take the line out."),
    (GOOD + b"\n", 14, f"line 8, {LETTER}the line is empty", EMPTY),
    (put(3, b" \t\r"), 14, f"line 3, {LETTER}` ` stands where K belongs", r" <tab>\r", "^", EMPTY),
    (put(1, b"\tX\t2"), 14, f"line 1, {LETTER}nothing stands where D belongs", "<tab>X<tab>2", "^",
     "Line 1 should be D<tab>d: the degree, at most 8."),
    (put(2, b"\t-4\t-4\t3"), 14, f"line 2, {LETTER}nothing stands where B belongs", "<tab>-4<tab>-4<tab>3", "^", SQUARE),
    (b"\xef\xbb\xbf", 14, rf"line 1, {LETTER}`\xef\xbb\xbf` stands where D belongs", r"\xef\xbb\xbf", "^" * 12, EDITOR,
     HELPS + "tail -c +4 < old.sheet > new.sheet", "Line 1 should be D<tab>d: the degree, at most 8."),
    (GOOD.replace(b"\t", b" ").replace(b"\n", b" "), 14, f"line 1, {LETTER}`D 2 B -4 -4 3 K 5 M 0 T 2 0 1 ...` (47 bytes) stands where D belongs",
     "D 2 B -4 -4 3 K 5 M 0 T 2 0 1 T 0 2 1 T 0 0 -9 ", "^" * 47, BLANKS, HELPS + MENDS_BLANKS, "A line end belongs before B."),
    (put(1, b"D2"), 14, f"line 1, {LETTER}`D2` stands where D belongs", "D2", "^^", "A tab belongs after the letter: D<tab>2"),
    (put(3, b"k0"), 14, f"line 3, {LETTER}`k0` stands where K belongs", "k0", "^^", "A tab belongs after the letter: K<tab>0",
     "The letter is a capital: write K."),
    (put(3, b"k 5"), 14, f"line 3, {LETTER}`k 5` stands where K belongs", "k 5", "^^^", BLANKS, HELPS + MENDS_BLANKS,
     "The letter is a capital: write K."),
    (put(2, b"K 5"), 14, f"line 2, {LETTER}`K 5` stands where B belongs", "K 5", "^^^", BLANKS, HELPS + MENDS_BLANKS,
     f"{ORDER} The B line is left out."),
    (put(5, b"T 2 0 +1"), 14, f"line 5, {LETTER}`T 2 0 +1` stands where T belongs", "T 2 0 +1", "^" * 8, BLANKS, HELPS + MENDS_BLANKS, TERM),
    (put(5, b"\x1b[7m\xff\t2"), 14, rf"line 5, {LETTER}`\x1b[7m\xff` stands where T belongs", r"\x1b[7m\xff<tab>2", "^^^^^^^^^^^", TERM),
    # 15
    (put(2, b"B\t-4"), 15, "line 2 has 2 fields, and a B line has 4", "B<tab>-4", SQUARE),
    (b"D\t2\t", 15, "line 1 has 3 fields, and a D line has 2", "D<tab>2<tab>", f"{AFTER} It has no line end.",
     MENDS + "sed 's/[[:blank:]]*$//' < old.sheet | awk 1 > new.sheet"),
    (put(5, b"T\t2\t0\r"), 15, "line 5 has 3 fields, and a T line has 4", r"T<tab>2<tab>0\r", WINDOWS, HELPS + MENDS_CR, TERM),
    (put(5, b"T\t2\t0 "), 15, "line 5 has 3 fields, and a T line has 4", "T<tab>2<tab>0 ", TERM),
    (put(2, b"B\t-4,5\t3"), 15, "line 2 has 3 fields, and a B line has 4", "B<tab>-4,5<tab>3", UNSURE, SQUARE),
    (put(2, b"B\t-4,-4,3"), 15, "line 2 has 2 fields, and a B line has 4", "B<tab>-4,-4,3", UNSURE, SQUARE),
    (put(2, b"B\t1 234\t3"), 15, "line 2 has 3 fields, and a B line has 4", "B<tab>1 234<tab>3", SQUARE),
    (put(2, b"B\t0x1D\t0"), 15, "line 2 has 3 fields, and a B line has 4", "B<tab>0x1D<tab>0", SQUARE),
    (put(4, b"M"), 15, "line 4 has 1 field, and an M line has 2", "M", "Line 4 should be M<tab>mode: the mode, 0 as a rule."),
    (put(5, b"T\t2\t0\t1\tx^2"), 15, "line 5 has 5 fields, and a T line has 4", "T<tab>2<tab>0<tab>1<tab>x^2", TERM),
    (GOOD.replace(b"5\nM\t0\n", b"5M\t0"), 15, "line 3 has 6 fields, and a K line has 2", "K<tab>5M<tab>0T<tab>2<tab>0<tab>1",
     "A line end belongs before M."),
    (put(5, b"T" + b"\t2" * 4000), 15, "line 5 has 4,001 fields, and a T line has 4", "T" + "<tab>2" * 11 + "<tab>...", TERM),
    # 16: a number that is meant for sure, one that is not whole, one that is none
    (term(b"+3"), 16, f"{COEFFICIENT}`+3` is not written as a number", "T<tab>2<tab>0<tab>+3", " " * 18 + "^^", "A number has no plus: write 3."),
    (term(b""), 16, f"{COEFFICIENT}nothing stands where a number belongs", "T<tab>2<tab>0<tab>", " " * 18 + "^", RIGHT),
    (term("\u22123".encode()), 16, rf"{COEFFICIENT}`\xe2\x88\x923` is not written as a number", r"T<tab>2<tab>0<tab>\xe2\x88\x923",
     " " * 18 + "^" * 13, "A number has a plain - for a minus: write -3."),
    (term(b"1.5"), 16, f"{COEFFICIENT}`1.5` is not written as a number", "T<tab>2<tab>0<tab>1.5", " " * 18 + "^^^",
     "A number is whole and has no decimal point. All coefficients times 2 draw the same curve: this one is 3 then."),
    (term(b"1,000"), 16, f"{COEFFICIENT}`1,000` is not written as a number", "T<tab>2<tab>0<tab>1,000", " " * 18 + "^^^^^",
     "A number has no comma: write 1.", "If the comma parts thousands, write 1000."),
    (term(b"1,500"), 16, f"{COEFFICIENT}`1,500` is not written as a number", "T<tab>2<tab>0<tab>1,500", " " * 18 + "^^^^^",
     "A number is whole and has no comma. All coefficients times 2 draw the same curve: this one is 3 then.",
     "If the comma parts thousands, write 1500."),
    (put(3, b"K\t1,500"), 16, "line 3, field 2 (the depth k): `1,500` is not written as a number", "K<tab>1,500", "      ^^^^^",
     "A number is whole and has no comma: write 1 or 2."),
    (term(b"1.000"), 16, f"{COEFFICIENT}`1.000` is not written as a number", "T<tab>2<tab>0<tab>1.000", " " * 18 + "^^^^^",
     "A number has no decimal point: write 1.", "If the point parts thousands, write 1000."),
    (term(b"3x"), 16, f"{COEFFICIENT}`3x` is not written as a number", "T<tab>2<tab>0<tab>3x", " " * 18 + "^^", ALONE, RIGHT),
    (term(b"\xff" * 40), 16, COEFFICIENT + r"`\xff\xff\xff\xff\xff\xff\xff...` (40 bytes) is not written as a number",
     "T<tab>2<tab>0<tab>" + r"\xff" * 13 + "...", " " * 18 + "^" * 52, ALONE, RIGHT),
    (put(3, b"K\tx"), 16, "line 3, field 2 (the depth k): `x` is not written as a number", "K<tab>x", "      ^",
     "A number is digits alone.", "The depth k is a whole number from 0 to 7."),
    (put(3, b"K\t+9"), 16, "line 3, field 2 (the depth k): `+9` is not written as a number", "K<tab>+9", "      ^^",
     "A number has no plus.", "The depth k is a whole number from 0 to 7."),
    (put(2, b"B\t0.5\t0\t3"), 16, "line 2, field 2 (the corner's X): `0.5` is not written as a number", "B<tab>0.5<tab>0<tab>3", "      ^^^",
     "A number is whole and has no decimal point: write 0 or 1."),
    (put(4, b"M\t01\r"), 16, r"line 4, field 2 (the mode): `01\r` is not written as a number", r"M<tab>01\r", "      ^^^^", WINDOWS, HELPS + MENDS_CR,
     "A number has no zero before it: write 1."),
    (put(5, b"T\t2\t0\t1\r5"), 16, rf"{COEFFICIENT}`1\r5` is not written as a number", r"T<tab>2<tab>0<tab>1\r5", " " * 18 + "^^^^", ALONE, RIGHT),
    # 17
    (term(b"2147483648"), 17, f"{COEFFICIENT}`2147483648` is too large", "T<tab>2<tab>0<tab>2147483648", " " * 18 + "^" * 10, RIGHT),
    (term(b"-2147483649"), 17, f"{COEFFICIENT}`-2147483649` is too far below 0", "T<tab>2<tab>0<tab>-2147483649", " " * 18 + "^" * 11, RIGHT),
    (term(b"9" * 5000), 17, f"{COEFFICIENT}`{'9' * 30}...` (5,000 bytes) is too large",
     f"T<tab>2<tab>0<tab>{'9' * 54}...", " " * 18 + "^" * 54, RIGHT),
    (put(2, b"B\t99999999999\t0\t0"), 17, "line 2, field 2 (the corner's X): `99999999999` is too large", "B<tab>99999999999<tab>0<tab>0",
     " " * 6 + "^" * 11, "The corner's X is a whole number from -1,048,576 to 1,048,576."),
    (put(4, b"M\t-1"), 17, "line 4, field 2 (the mode): `-1` is below 0", "M<tab>-1", "      ^^", "The mode is 0 or 1."),
    (put(2, b"B\t0\t0\t-1"), 17, "line 2, field 4 (the side's exponent s): `-1` is below 0", "B<tab>0<tab>0<tab>-1", " " * 18 + "^^",
     "The side's exponent s is a whole number from 0 to 10."),
    # 18
    (put(6, b"T\t2\t1\tx"), 18, f"line 6, {BOTH}i + j is 3, and line 1 says D<tab>2", "T<tab>2<tab>1<tab>x", MARKS,
     f"Write D<tab>3 in line 1; or {MEND}"),
    (put(1, b"D\t0"), 18, f"line 5, {BOTH}i + j is 2, and line 1 says D<tab>0", "T<tab>2<tab>0<tab>1", MARKS,
     f"Write D<tab>2 in line 1; or {MEND}"),
    *((GOOD + written("T 2 1 1", "T 1 2 1", *more), 18, f"line 8, {BOTH}i + j is 3, and line 1 says D<tab>2", "T<tab>2<tab>1<tab>1", MARKS,
       f"Write D<tab>{enough} in line 1{', which is enough for all terms' if enough > 3 else ''}; or {MEND}")
      for *more, enough in ((3,), ("T 4 4 1", 8), ("T 5 4 1", 3), ("T 4 x 1", "T 3 1 1", 3))),
    (put(5, b"T\t8\t0\t1"), 18, f"line 5, {BOTH}i + j is 8, and line 1 says D<tab>2", "T<tab>8<tab>0<tab>1", MARKS,
     f"Write D<tab>8 in line 1; or {MEND}"),
    (put(5, b"T\t5\t4\t1"), 18, f"line 5, {BOTH}i + j is 9, and line 1 says D<tab>2", "T<tab>5<tab>4<tab>1", MARKS,
     f"No degree is above 8: {MEND}"),
    (put(5, b"T\t9\t12\t1"), 18, f"line 5, {BOTH}i is 9 and j is 12, and 8 is the most", "T<tab>9<tab>12<tab>1", f"{MARKS}^",
     f"No term has a power above 8: {MEND}"),
    # 19: with a sum, where it is one
    *((written("D 0", "B 0 0 0", "K 0", "M 0", f"T 0 0 {first}", f"T 0 0 {again}"), 19,
       f"line 6, {BOTH}line 5 has the term of i = 0 and j = 0 already", f"T<tab>0<tab>0<tab>{again}", MARKS,
       "Take one of the two lines out, or mend its i or j.",
       *([f"If both are meant, their sum stands in one line: T<tab>0<tab>0<tab>{total}"] if total is not None else []))
      for first, again, total in ((1, -5, -4), (1, 1, None), (1, "+", None), (2147483646, 1, 2147483647), (2147483647, 1, None),
                                  (-2147483648, 0, -2147483648), (-2147483648, -1, None))),
    (put(7, b"T\t2\t0\t-5"), 19, f"line 7, {BOTH}line 5 has the term of i = 2 and j = 0 already", "T<tab>2<tab>0<tab>-5", MARKS,
     "Take one of the two lines out, or mend its i or j.", "If both are meant, their sum stands in one line: T<tab>2<tab>0<tab>-4"),
    # 20
    (GOOD[:-1], 20, "line 7 has no line end", "T<tab>0<tab>0<tab>-9", " " * 20 + "^", ENTER),
    (written("D 2")[:-1], 20, "line 1 has no line end", "D<tab>2", "       ^", ENTER),
]
# texts that a command mends: what is said of each besides the command
COMMANDED = [
    (GOOD.replace(b"\t", b" "), BLANKS),
    (GOOD.replace(b"\t", b"    "), BLANKS),
    (GOOD.replace(b"\t", b" \t "), BLANKS),
    (b"  " + GOOD.replace(b"\t", b" ").replace(b"\n", b"\n  ")[:-2], f"{BEFORE} {BLANKS}"),
    (put(1, b" D\t2"), BEFORE),
    (put(1, b"\tD\t2"), BEFORE),
    (put(5, b"T 2 0 1"), BLANKS),
    (put(5, b"T\t2 0\t1"), BLANKS),
    (GOOD.replace(b"\n", b"\r\n"), WINDOWS),
    (put(7, b"T\t0\t0\t-9\r"), WINDOWS),
    (GOOD.replace(b"\t", b" ").replace(b"\n", b"\r\n"), f"{WINDOWS} {BLANKS}"),
    (GOOD.replace(b"\n", b"\r"), r"The \r is a carriage return, which ends no line here."),
    (GOOD.replace(b"\t", b" ").replace(b"\n", b"\r"), rf"The \r is a carriage return, which ends no line here. {BLANKS}"),
    (b"\xef\xbb\xbf" + GOOD, EDITOR),
    (b"\xef\xbb\xbf" + GOOD.replace(b"\n", b"\r\n"), f"{EDITOR} {WINDOWS}"),
    (b"\xef\xbb\xbf" + GOOD.replace(b"\t", b" ").replace(b"\n", b"\r\n"), f"{EDITOR} {WINDOWS} {BLANKS}"),
    (GOOD.decode().encode("utf-16"), "The text is saved as UTF-16, and is no plain text."),
    (b"\xfe\xff" + GOOD.decode().encode("utf-16-be"), "The text is saved as UTF-16, and is no plain text."),
    (GOOD.replace(b"\t", b"\xc2\xa0"), "No-break blanks stand where tabs belong."),
    (GOOD.replace(b"\t", b"<tab>"), "The five signs <tab> stand where tabs belong."),
    (GOOD.replace(b"\t", rb"\t"), r"The two signs \t stand where tabs belong."),
    (GOOD.replace(b"\t", b","), COMMAS),
    (GOOD.replace(b"\t", b", "), f"{COMMAS} {BLANKS}"),
    (GOOD.replace(b"\t", b",").replace(b"\n", b",,\n"), f"{COMMAS} {AFTER}"),
    (GOOD.replace(b"\t", b";"), "Semicolons stand where tabs belong."),
    (GOOD.replace(b"\n", b"\t\t\n"), AFTER),
    (GOOD.replace(b"\n", b"\t\t\r\n"), f"{WINDOWS} {AFTER}"),
    (GOOD.replace(b"\t", b" ").replace(b"\n", b" \n"), f"{BLANKS} {AFTER}"),
    (GOOD[:-1] + b"\r", r"The \r is a carriage return, which ends no line here."),
    (GOOD.replace(b"\n", b"\r\r\n"), WINDOWS),
    (put(5, b"T\t2\r\t0\t1"), WINDOWS),
    (put(5, b"T\t2\t0\t1\r\r"), WINDOWS),
    (put(7, b"T 0 0 -9")[:-1], f"{BLANKS} It has no line end."),
    ("\r\n".join(GOOD.decode().split("\n")).encode("utf-16"), f"The text is saved as UTF-16, and is no plain text. {WINDOWS}"),
    (GOOD.replace(b"\t", b"\t\t"), "Two tabs stand where one belongs."),
]


# ---- numbers written amiss

LIGHT = written("D 3", "B 4 5 3", "K 1", "M 1", "T 1 1 7")
WIDE = {(2, 2), (2, 3), (5, 4)}
# how a number n is written amiss, what is said, and whether it is the number for sure
AMISS = [
    ("+{n}", "A number has no plus", True), ("{n}.0", "A number has no decimal point", True), ("{n}.", "A number has no decimal point", True),
    ("{n},0", "A number has no comma", True), ("0{n}", "A number has no zero before it", True), ("00{n}", "A number has no zero before it", True),
    (" {n}", "A number has no blank beside it", True), ("{n} ", "A number has no blank beside it", True),
    ("\u00a0{n}", "A number has no blank beside it", True), ("'{n}'", "A number has no quotes around it", True),
    ('"{n}"', "A number has no quotes around it", True), ("{n}e0", "A number has no e", True), ("{n}/1", "A number has no fraction", True),
    (" +0{n}.0", "A number has no blank beside it and no plus and no zero before it and no decimal point", True),
    ("{n}.5", "A number is whole and has no decimal point", False), ("{n},5", "A number is whole and has no comma", False),
    ("1/3", "A number is whole and has no fraction", False),
    ("{n}x", "A number is digits alone", False), ("{n}\0", "A number is digits alone", False), ("--{n}", "A number is digits alone", False),
    ("II", "A number is digits alone", False), ("lol", "A number is digits alone", False), ("O", "A number is digits alone", False),
]
# the same where the number may be large or negative: how it is written, what is said, and the number
AMISS_WIDE = [
    ("-1,000,000", "no comma", -1_000_000), ("1 000", "no blank in it", 1000), ("1\u202f000", "no blank in it", 1000),
    ("1'000", "no sign between its digits", 1000), ("1_000", "no sign between its digits", 1000), ("-1.000.000", "no point", -1_000_000),
    ("1e3", "no e", 1000), ("-1E+05", "no e", -100_000), ("1.5e3", "no e", 1500), ("-0", "no minus where it is 0", 0),
    ("-00", "no zero before it and no minus where it is 0", 0), ("-007", "no zero before it", -7), ("- 3", "no blank after its minus", -3),
    ("\u22123", "a plain - for a minus", -3), ("\u20133", "a plain - for a minus", -3),
    ("\u2212 3", "a plain - for a minus and no blank after its minus", -3),
    ("1O", "digits, and no letters like them", 10), ("l0", "digits, and no letters like them", 10), ("\uff11\u0662", "the digits 0 to 9", 12),
    ("0" * 39 + "7", "no zero before it", 7),
]
# numbers that are not whole, and how many times such a one is whole
NOT_WHOLE = {"1.5": 2, "-0.25": 4, "1,3": 10, "22/7": 7, ".5": 2, "3.14159": 100_000, "1e-3": 1000, "-7.50": 2, "1234,567": 1000,
             "2147483647/2": 2, "-2147483648/3": 3}
# the range of each number: its line and its field
RANGES = {(1, 2): (0, 8), (2, 2): (-1_048_576, 1_048_576), (2, 3): (-1_048_576, 1_048_576), (2, 4): (0, 10), (3, 2): (0, 7), (4, 2): (0, 1),
          (5, 2): (0, 8), (5, 3): (0, 8), (5, 4): (-2_147_483_648, 2_147_483_647)}


# ---- several slips in a text

def exchanged(old, new):
    """A slip wherever it may be."""
    return lambda rng, text: text.replace(old, new)


def in_a_line(found, put):
    """A slip in one line, at each place that is found."""
    def slip(rng, text):
        lines = text.split(b"\n")
        at = rng.randrange(len(lines))
        lines[at] = re.sub(found, put, lines[at])
        return b"\n".join(lines)
    return slip


def in_a_field(*words):
    """Another word in one of the fields."""
    def slip(rng, text):
        fields = re.split(rb"([\t\n])", text)
        fields[2 * rng.randrange(len(fields) // 2)] = rng.choice(words)
        return b"".join(fields)
    return slip


# what may stand for a tab
FOR_TABS = (b" ", b"  ", b"\t ", b",", b", ", b";", b"; ", b" ;", b"\xc2\xa0", b"<tab>", b"<tab> ", rb"\t", b"\t\t")
# what may stand at a line end
AT_ENDS = (b"\r\n", b"\r\r\n", b"\r", b" \n", b"\t\n", b" \t \n", b",,\n", b";\n", b"\t\t\r\n", b" \r\n", b"\n\n", b" ")
# in fields; after the others, which look for tabs and line ends
TYPED = (in_a_field(b"", b"+3", b"07", b"1,500", b"1.5", b"-4,5", b"1 234", b"1e3", b"O", b"II", b"0x1D", b"2\r", b"2\r5", b" 7", b"k", b"T",
                    b"5M", b"9"),
         in_a_line(rb"\A\w", b""), in_a_line(rb"\t[-0-9]+\Z", b""), in_a_line(rb"\Z", b"\t0"), lambda rng, text: text.lower())
SLIPS = (*(exchanged(b"\t", sign) for sign in FOR_TABS), *(in_a_line(rb"\t", re.sub(rb"\\", rb"\\\\", sign)) for sign in FOR_TABS),
         *(exchanged(b"\n", end) for end in AT_ENDS), *(in_a_line(rb"\Z", end.removesuffix(b"\n")) for end in AT_ENDS),
         *(exchanged(b"\n", b"\n" + sign) for sign in (b" ", b"\t")), *(in_a_line(rb"\A", sign) for sign in (b" ", b"\t", b"  \t")),
         lambda rng, text: text[:-1], lambda rng, text: b"\xef\xbb\xbf" + text, lambda rng, text: text.decode("latin-1").encode("utf-16"))


def with_slips(rng):
    """A good text with up to four slips."""
    text = GOOD
    for slip in rng.choices(TYPED, k=rng.choice((0, 0, 1))) + rng.choices(SLIPS, k=rng.randint(1, 3)):
        text = slip(rng, text)
    return text


# texts with a number that may be read in two ways, and slips beside it: whatever is followed, they are not accepted
UNSEEN = [put(1, first, put(2, line)) for first in (b"D\t2", b"D,2", b"D 2", b"D, 2", b"D;2", b"D\xc2\xa02", b"D\t2\r", b" D\t2", b"D\t2\t")
          for line in (b"B\t-4,5\t3", b"B -4,5 3", b"B;-4,5;3", b"B<tab>-4,5<tab>3", b"B\xc2\xa0-4,5\xc2\xa03", b"B\t1 234\t3", b"B,1 234,3",
                       b"B, 1 234, 3", b"B;1 234;3", b"B\t1\xc2\xa0234\t3", b"B,1\xc2\xa0234,3", b"B\t1\r5\t0\t3", b"B\t-4,5 3", rb"B\t-4,5\t3")]
