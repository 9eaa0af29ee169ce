"""The second program where it meets pictures: plain PBM written and read, and the program `picture`, worked out from request #103 and its readings.

A text is a row of bytes, and nothing is asked of it. A raster, a mask and a place are rows of bytes too; row 0 is the bottom row. An answer begins
with a number: 0, or the number of the refusal, then with 0 beside it and the place as it was. The sheet that a sheet text describes is read by
tests/second_text.py and walked by tests/second.py.

    python3 tests/second_pbm.py          holds the program to examples, worked out by hand from the request's words
    python3 tests/second_pbm.py FILE     writes what the program `picture` writes for a sheet text
"""
import functools
import pathlib
import re
import sys

sys.dont_write_bytecode = True  # nothing is left in the tree
import second
import second_text
from second_text import line_of

DEEPEST = 7
# the digits of a row that stand on one line, at most
LINE = 70
# the sides of pictures that are read, each at its depth
SIDES = [2 ** k for k in range(DEEPEST + 1)]
# the room that the call `depict` asks for: the length of a picture of depth 7
ROOM = 16_651
# a number that no text has so many digits as
MANY = 10 ** 18
WHITE = b" \t\n\r"
# white space, or a comment with the LF or CR that it ends before, which is white space
GAP = rb"(?:[ \t\n\r]|#[^\n\r]*[\n\r])"
# what stands before the digits of the picture: a gap or more parts the numbers, and just one opens the digits
HEAD = re.compile(rb"P1" + GAP + rb"+([0-9]+)" + GAP + rb"+([0-9]+)" + GAP)


# ---- writing

def lines_of(row):
    """The lines of a row of digits."""
    return b"".join(row[at:at + LINE] + b"\n" for at in range(0, len(row), LINE))


def text_of(k, raster):
    """The picture of a raster of depth k."""
    side = 2 ** k
    digits = bytes(b"01"[byte == 1] for byte in raster[:side * side])
    rows = [digits[at:at + side] for at in range(0, side * side, side)]
    return b"P1\n%d %d\n" % (side, side) + b"".join(map(lines_of, reversed(rows)))


def written(k, raster, place):
    """(number, how many bytes are written, the place afterwards)"""
    if k > DEEPEST:
        return 3, 0, place
    if len(raster) < 4 ** k:
        return 7, 0, place
    text = text_of(k, raster)
    return (0, len(text), text + place[len(text):]) if len(text) <= len(place) else (7, 0, place)


# ---- reading

def size_of(digits):
    """The number that digits stand for. One of more than 18 digits, without zeros before them, is only known to be MANY or more."""
    digits = digits.lstrip(b"0")
    return int(digits or b"0") if len(digits) <= 18 else MANY


def digits_of(rest, count):
    """So many digits, white space aside, or None where they are cut short, where something else stands among them, or right after them."""
    digits = bytearray()
    for at, byte in enumerate(rest):
        if byte in b"01":
            digits.append(byte)
            if len(digits) == count:
                return None if rest[at + 1:at + 2].strip(WHITE) else digits
        elif byte not in WHITE:
            return None
    return None


def picture_of(text):
    """The width, the height and the digits of a plain PBM, or None where the text is none."""
    head = HEAD.match(text)
    if not head:
        return None
    width, height = map(size_of, head.groups())
    digits = digits_of(text[head.end():], width * height) if width and height else None
    return digits and (width, height, digits)


def mask_of(side, digits):
    """A byte for each digit, the bottom row first."""
    rows = [digits[at:at + side] for at in range(0, side * side, side)]
    return bytes(b"01".index(digit) for row in reversed(rows) for digit in row)


def read(text, place):
    """(number, the side's depth, the place afterwards)"""
    picture = picture_of(text)
    if picture is None:
        return 12, 0, place
    width, height, digits = picture
    if width != height or width not in SIDES:
        return 13, 0, place
    if len(place) < width * height:
        return 7, 0, place
    mask = mask_of(width, digits)
    return 0, SIDES.index(width), mask + place[len(mask):]


# ---- the program `picture`

@functools.cache
def picture_text(text):
    """What the program `picture` writes for a sheet text: the picture, or the refusal line of the listing program."""
    number, line, field, d, X, Y, s, k, mode, coefficients = second_text.read(text)
    if number:
        return line_of(b"refused", number, line, field)
    *_, raster = second.raster(d, list(coefficients[:len(second.exponents(d))]), X, Y, s, k, mode, [0] * 4 ** k)
    return text_of(k, raster)


def left(told, place):
    """What `depict` answers and leaves behind in a lent place, where `picture` writes so much: a place without the room stays as it was."""
    return (0, len(told), told + place[len(told):]) if len(place) >= ROOM else (0, 0, place)


def depicted(text, place):
    """(0, how many bytes are written, the place afterwards)"""
    return left(picture_text(text), place)


# ---- the request's own words

# a depth, a raster, and its picture
ROW = b"0" * 70 + b"\n" + b"0" * 58 + b"\n"
PICTURES = [
    (0, b"\1", b"P1\n1 1\n1\n"),
    *((0, bytes([byte]), b"P1\n1 1\n0\n") for byte in (0, 2, 3, 4, 5, 16, 48, 49, 128, 129, 255)),
    (1, b"\1\0\2\1", b"P1\n2 2\n01\n10\n"),
    (1, b"\1\1\3\0\1\1", b"P1\n2 2\n00\n11\n"),
    (2, b"\1\0\0\0" b"\1\1\0\0" b"\0\3\1\2" b"\0\0\xff\1", b"P1\n4 4\n0001\n0010\n1100\n1000\n"),
    (3, b"\1" + b"\2" * 63, b"P1\n8 8\n" + b"00000000\n" * 7 + b"10000000\n"),
    (6, b"\3" * 4032 + b"\1" * 63 + b"\2", b"P1\n64 64\n" + b"1" * 63 + b"0\n" + (b"0" * 64 + b"\n") * 63),
    (7, bytes(16384), b"P1\n128 128\n" + ROW * 128),
    (7, bytes(16256) + b"\1" + bytes(68) + b"\1\1" + bytes(56) + b"\1",
     b"P1\n128 128\n" b"1" + b"0" * 68 + b"1\n1" + b"0" * 56 + b"1\n" + ROW * 127),
    (7, bytes(69) + b"\1\2" + bytes(16313), b"P1\n128 128\n" + ROW * 127 + b"0" * 69 + b"1\n" + b"0" * 58 + b"\n"),
]
# how long a picture of each depth is
LENGTHS = (9, 13, 27, 79, 281, 1065, 4169, 16651)

# a plain PBM, its depth and its mask
READ = [
    (b"P1\n1 1\n1\n", 0, b"\1"),
    (b"P1\n1 1\n0\n", 0, b"\0"),
    (b"P1\n2 2\n01\n10\n", 1, b"\1\0\0\1"),
    (b"P1\n2 2\n0011", 1, b"\1\1\0\0"),
    (b"P1\n4 4\n0001\n0010\n1100\n1000\n", 2, b"\1\0\0\0" b"\1\1\0\0" b"\0\0\1\0" b"\0\0\0\1"),
    (b"P1\n128 128\n" + b"1" + ROW[1:] + ROW * 127, 7, bytes(16256) + b"\1" + bytes(127)),
    (b"P1\n128 128\n" + b"0" * 16383 + b"1", 7, bytes(127) + b"\1" + bytes(16256)),
    # white space of each kind, wherever it may stand, as much as one likes
    (b"P1 2 2 0 1 1 0 ", 1, b"\1\0\0\1"),
    (b"P1\t2\t2\t0\t1\t1\t0\t", 1, b"\1\0\0\1"),
    (b"P1\r2\r2\r0\r1\r1\r0\r", 1, b"\1\0\0\1"),
    (b"P1\r\n2 2\r\n01\r\n10\r\n", 1, b"\1\0\0\1"),
    (b"P1 \t\n\r 2 \t\n\r 2 \t\n\r 0 \t\n\r 110 \t\n\r ", 1, b"\1\0\0\1"),
    (b"P1\n1 1\n\n\n\n1", 0, b"\1"),
    # comments: right after P1, after a number, several, empty, ended by LF or CR, with whatever in them
    (b"P1#c\n2 2\n0110", 1, b"\1\0\0\1"),
    (b"P1#c\r2 2\n0110", 1, b"\1\0\0\1"),
    (b"P1 1#c\n1\n1", 0, b"\1"),
    (b"P1 1#c\r1\n1", 0, b"\1"),
    (b"P1 1 1#c\n1", 0, b"\1"),
    (b"P1 1 1#c\r1", 0, b"\1"),
    (b"P1 1 1#\n1", 0, b"\1"),
    (b"P1 1 1#c d 1\t0\n1", 0, b"\1"),
    (b"P1#\n#\n#\n1#\n#\n1#\n0", 0, b"\0"),
    (b"P1 # P1 7 7\n# \x0b\x0c\0\xff#\r \n1\t# 2\n1 1", 0, b"\1"),
    (b"P1\n# made by hand\n2 2\n0110\n", 1, b"\1\0\0\1"),
    # sizes with zeros before them
    (b"P1 01 001\n1", 0, b"\1"),
    (b"P1 " + b"0" * 9999 + b"2 " + b"0" * 50000 + b"2\n0110", 1, b"\1\0\0\1"),
    # what follows the last digit: nothing; white space, and after it anything
    (b"P1 1 1\n1", 0, b"\1"),
    *((b"P1 1 1\n1" + white + b"junk", 0, b"\1") for white in (b" ", b"\t", b"\n", b"\r")),
    (b"P1 1 1\n1 1", 0, b"\1"),
    (b"P1 1 1\n1 #", 0, b"\1"),
    (b"P1 1 1\n1\n\x0b\xff\0", 0, b"\1"),
    (b"P1 1 1\n1\nP1 1 1\n0\n", 0, b"\1"),
]
# texts that are refused by 12, those with sizes for 13 too
NOT_READ = [
    b"", b"P", b"P1", b"1", b"P1\n", b"P1 1", b"P1 1 ", b"P1 1 1", b"P1 1 1\n", b"P1 1 1#c", b"P1 1 1#c 1", b"P1#", b"P1 #1 1\n", b"P1 1#",
    b"p1 1 1\n1", b"P4 1 1\n1", b"P2 1 1\n1", b"P 1 1 1\n1", b" P1 1 1\n1", b"\nP1 1 1\n1", b"#c\nP1 1 1\n1", b"\xef\xbb\xbfP1 1 1\n1", b"P01 1 1\n1",
    # nothing parts P1 and the width, or the height and the digits
    b"P11 1\n1", b"P11 1 1\n1", b"P1 1 11", b"P1 2 20110", b"P1 11\n1",
    # a size is digits, and not 0
    b"P1 +1 1\n1", b"P1 1 +1\n1", b"P1 -1 -1\n1", b"P1 1 -1\n1", b"P1 1. 1\n1", b"P1 1,1\n1", b"P1 0x1 1\n1", b"P1 1e0 1\n1", b"P1 a 1\n1",
    b"P1 \xb9 1\n1", b"P1 0 0\n", b"P1 0 1\n1", b"P1 1 0\n1", b"P1 0 0\n\n", b"P1 000 1\n1", b"P1 1 " + b"0" * 50000 + b"\n1", b"P1 0 3\n1",
    # vertical tab and form feed are no white space, nor is NUL
    *(text.replace(b"_", odd) for odd in (b"\x0b", b"\x0c", b"\0", b"\xa0", b"\x85", b"\x1c") for text in (
        b"P1_1 1\n1", b"P1 _1 1\n1", b"P1 1_1\n1", b"P1 1 _1\n1", b"P1 1 1_1", b"P1 1 1\n_1", b"P1 2 2\n01_10", b"P1 1 1\n1_", b"P1 1 1\n1_ ",
        b"P1#c_1 1\n1", b"P1 1 1#c_1")),
    # after the white space that opens the digits there is no comment
    b"P1 1 1\n#c\n1", b"P1 1 1 #c\n1", b"P1 1 1#c\n#d\n1", b"P1 1 1#c\n#d\n 1", b"P1 1 1\n\n#c\n1",
    b"P1 2 2\n01#c\n10", b"P1 2 2\n01\n#c\n10", b"P1 2 2\n011#c\n0",
    # other digits, and other signs among the digits
    b"P1 1 1\n2", b"P1 1 1\n9", b"P1 1 1\nx", b"P1 1 1\n-1", b"P1 2 2\n01,10", b"P1 2 2\n0120", b"P1 2 2\n01\xff10", b"P1 2 2\n01\n/10",
    # what follows the last digit at once
    b"P1 1 1\n1junk", b"P1 1 1\n1#c\n", b"P1 1 1\n11", b"P1 1 1\n10\n", b"P1 2 2\n01\n101", b"P1 1 1\n1-", b"P1 1 1\n1\xff",
    # cut short, with sizes for 13 too
    b"P1 2 2\n011", b"P1 2 2\n01\n1\n", b"P1 3 3\n01101100", b"P1 1 2\n1", b"P1 2 1\n0\n", b"P1 256 256\n01", b"P1 128 128\n" + b"0" * 16383,
    # huge sizes: 2^32 by 2^32, 2^64 + 1, and products of sizes that are 1 where high digits are lost
    b"P1 4294967296 4294967296\n1", b"P1 4294967297 1\n1", b"P1 1 4294967297\n1", b"P1 18446744073709551617 1\n1",
    b"P1 18446744073709551617 18446744073709551617\n1",
    b"P1 2147483649 2147483649\n1", b"P1 9223372036854775809 9223372036854775809\n1", b"P1 " + b"9" * 9999 + b" " + b"9" * 9999 + b"\n1",
    b"P1 1" + b"0" * 50000 + b"1 1\n1", b"P1 0" + b"0" * 9999 + b" " + b"9" * 9999 + b"\n1",
]
# plain PBMs of other sizes, refused by 13
OTHER_SIZES = [
    b"P1 1 2\n11", b"P1 2 1\n11", b"P1 2 4\n01010101", b"P1 4 2\n01010101", b"P1 3 3\n010101010", b"P1 1 128\n" + b"1" * 128,
    b"P1 128 1\n" + b"0" * 128,
    b"P1 128 64\n" + b"0" * 8192, b"P1 127 127\n" + b"0" * 16129, b"P1 129 129\n" + b"0" * 16641, b"P1 256 256\n" + b"0" * 65536,
    b"P1 5 1\n11111 junk", b"P1 03 0003\n0\n1\n0 101 010", b"P1#c\n6#c\n1#c\n0 00000", b"P1 65536 1\n" + b"1" * 65536,
]


def writing_cases():
    """Pictures in places with just the room, more and less; and rasters and depths that are refused."""
    for k, raster, text in PICTURES:
        yield text_of, (k, raster), text
        yield written, (k, raster, b"x" * len(text)), (0, len(text), text)
        yield written, (k, raster, b"xyz" * 9999), (0, len(text), text + (b"xyz" * 9999)[len(text):])
        yield written, (k, raster, b"x" * (len(text) - 1)), (7, 0, b"x" * (len(text) - 1))
        yield written, (k, raster, b""), (7, 0, b"")
        yield written, (k, raster[:4 ** k - 1], b"x" * 30000), (7, 0, b"x" * 30000)
        yield written, (k, b"", b"x" * 30000), (7, 0, b"x" * 30000)
        yield read, (text, b"x" * 4 ** k), (0, k, bytes(int(byte == 1) for byte in raster[:4 ** k]))
    for k, length in enumerate(LENGTHS):
        yield written, (k, bytes(4 ** k), b"x" * length), (0, length, text_of(k, bytes(4 ** k)))
        yield written, (k, bytes(4 ** k), b"x" * (length - 1)), (7, 0, b"x" * (length - 1))
    for k in (8, 9, 255, 256, 2 ** 31, 2 ** 32 - 1):
        yield from ((written, (k, bytes(size), b"x" * entries), (3, 0, b"x" * entries)) for size in (0, 4 ** 8) for entries in (0, 30000))


def reading_cases():
    """Plain PBMs with places of every length, and texts that are refused, with and without a place."""
    for text, k, mask in READ:
        yield read, (text, b"x" * 4 ** k), (0, k, mask)
        yield read, (text, b"xyz" * 9999), (0, k, mask + (b"xyz" * 9999)[4 ** k:])
        yield read, (text, b"x" * (4 ** k - 1)), (7, 0, b"x" * (4 ** k - 1))
        yield read, (text, b""), (7, 0, b"")
    for number, texts in ((12, NOT_READ), (13, OTHER_SIZES)):
        yield from ((read, (text, place), (number, 0, place)) for text in texts for place in (b"", b"x" * 20000))


# two sheet texts beside the page's whole case: one leaves the lower left corner, the other all of the deepest grid
CORNER = second_text.written("D 1", "B -1 -1 1", "K 1", "M 1", "T 1 0 2", "T 0 1 2", "T 0 0 -1")
CLEARED = second_text.written("D 0", "B 0 0 0", "K 7", "M 0", "T 0 0 -5")
TOLD = [
    (second_text.WHOLE, b"P1\n2 2\n11\n11\n"),
    (CORNER, b"P1\n2 2\n11\n01\n"),
    (CLEARED, b"P1\n128 128\n" + ROW * 128),
    (second_text.written("D 0", "B 0 0 0", "K 0", "M 0"), b"P1\n1 1\n1\n"),
    (b"", b"refused\t14\t1\t0\n"),
    (second_text.WHOLE[:-1], b"refused\t20\t6\t0\n"),
    (second_text.WHOLE + b"T\t0\t0\tx\n", b"refused\t16\t7\t4\n"),
    (second_text.written("D 9", *second_text.START[1:]), b"refused\t1\t0\t0\n"),
    (b"\n" * (second_text.LONGEST + 1), b"refused\t11\t0\t0\n"),
]


def depicting_cases():
    for text, told in TOLD:
        yield from ((depicted, (text, b"x" * entries), (0, 0, b"x" * entries)) for entries in (0, 1, 14, ROOM - 1))
        yield from ((depicted, (text, b"x" * entries), (0, len(told), told + b"x" * (entries - len(told)))) for entries in (ROOM, ROOM + 1, 65_536))


def shown(given):
    return ", ".join(f"{one[:60]!r} and so on, {len(one)} bytes" if isinstance(one, bytes) and len(one) > 60 else repr(one) for one in given)


def main():
    if len(sys.argv) == 2:
        sys.stdout.buffer.write(picture_text(pathlib.Path(sys.argv[1]).read_bytes()))
        return 0
    checks = [*writing_cases(), *reading_cases(), *depicting_cases()]
    wrong = [(call, given, answer) for call, given, answer in checks if call(*given) != answer]
    for call, given, answer in wrong:
        print(f"{call.__name__}({shown(given)}) answers ({shown(call(*given))}), and the request says ({shown(answer)})")
    print(f"second program, pictures: {len(checks) - len(wrong)} of {len(checks)} answers are as the request says")
    return 1 if wrong else 0


if __name__ == "__main__":
    sys.exit(main())
