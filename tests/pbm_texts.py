"""Texts that tests/pbm_cases.py has read as plain PBM: good ones, put together of parts, and others, mostly made of such by a damage.

A text says what was done to make it; and where that follows from how it was made, the number of its answer in a place that is long enough, and the
mask. Nothing here asks the second program.
"""
import collections
import itertools

# the longest text that the program takes
LONGEST = 65_600
WHITE = b" \t\n\r"
# bytes that are no white space, no digit and begin no comment: those that one may take for such come often
ODD = bytes(byte for byte in range(256) if byte not in b" \t\n\r#0123456789")
LIKELY = b"\x0b\x0c\0\x1c\x1d\x1e\x1f\x85\xa0+-.,:/;xPp_\"'\x08\x0e\x7f\x80\xb2\xff"
# of a random byte a bit
PARITY = b"\0\1" * 128
# how often each depth comes up
DEPTHS = (0,) * 9 + (1,) * 12 + (2,) * 9 + (3,) * 5 + (4,) * 3 + (5,) * 2 + (6, 7)

# what was done, the text, its number and its mask where they are known, how many entries a place should have, where no mask says it, and of what kind it
# is to be, where it is not to be any
Text = collections.namedtuple("Text", "kind text number mask need place", defaults=(None, None, None, None))


# ---- a picture, by its parts

# digits is a list, each a digit with the white space before it
Parts = collections.namedtuple("Parts", "magic first width second height comment opening digits after")


def text_of(parts):
    return b"".join((*parts[:7], *parts.digits, parts.after))


def white(rng, most=3):
    return bytes(rng.choices(WHITE, k=rng.randint(1, most)))


def line_end(rng):
    return rng.choice((b"\n", b"\r"))


def note(rng):
    """A comment, without what ends it."""
    chance = bytes(byte for byte in rng.randbytes(rng.randint(1, 12)) if byte not in b"\n\r")
    return b"#" + rng.choice((b"", b" made by hand", b"#", b" 1 1", b" P1 8 8", b"\x0b\x0c\t ", b"\0\xff\x80", chance, b"0" * 90))


def gap(rng):
    """White space and comments, each with its end."""
    return b"".join(note(rng) + line_end(rng) if rng.random() < 0.3 else white(rng) for _ in range(rng.choice((1, 1, 1, 2, 3, 5))))


def sized(rng, number):
    """A size, with zeros before it at times."""
    return b"0" * rng.choice((0, 0, 0, 0, 1, 2, rng.randint(3, 40))) + b"%d" % number


def strewn(rng, bits, width):
    """The digits, with white space before some of them."""
    style = rng.choice(("none", "rows", "rows", "each", "some"))
    line, often = rng.choice((b"\n", b"\r\n", b"\r")), rng.choice((0.02, 0.2, 0.6))
    before = {"none": lambda at: b"", "rows": lambda at: line if at and at % width == 0 else b"", "each": lambda at: b" ",
              "some": lambda at: white(rng) if rng.random() < often else b""}[style]
    return [before(at) + b"%d" % bit for at, bit in enumerate(bits)]


def behind(rng):
    """What may follow the last digit."""
    return rng.choice((b"", b"\n", white(rng), white(rng, 1) + rng.choice((b"junk", b"#c", b"1", b"0101", b"P1 1 1\n1", rng.randbytes(5)))))


def pictured(rng, width, height, plain=False):
    """The parts of a picture at random, and its mask."""
    bits = rng.randbytes(width * height).translate(PARITY)
    digits, comment = strewn(rng, bits, width), note(rng) if rng.random() < 0.25 else b""
    opening = line_end(rng) if comment else white(rng, 1)
    parts = Parts(b"P1", gap(rng), sized(rng, width), gap(rng), sized(rng, height), comment, opening, digits, behind(rng))
    if plain or len(text_of(parts)) > LONGEST:
        parts = Parts(b"P1", b"\n", b"%d" % width, b" ", b"%d" % height, b"", b"\n", [digit[-1:] for digit in digits], b"")
    return parts, b"".join(bits[at - width:at] for at in range(width * height, 0, -width))


def good(rng, k):
    parts, mask = pictured(rng, 2 ** k, 2 ** k)
    return Text("a picture", text_of(parts), 0, mask)


# ---- other sizes

SMALL = [(w, h) for w in range(1, 10) for h in range(1, 10) if w != h or w not in (1, 2, 4, 8)] + [(2, 128), (128, 2), (32, 8), (2, 8), (64, 256)]
SMALL += [size for n in range(10, 131) for size in ((n, 1), (1, n))]
LARGE = [(127, 127), (129, 129), (128, 127), (64, 128), (128, 64), (255, 255), (256, 255), (256, 256), (128, 256), (65_000, 1), (1, 65_000), (3, 20_000)]


def other_size(rng, width, height):
    parts, _ = pictured(rng, width, height)
    return Text("another size", text_of(parts), 13, None, width * height)


def base(rng):
    """The parts of a picture that is to be damaged: mostly a small square."""
    width, height = [2 ** rng.choice(DEPTHS[:-4])] * 2 if rng.random() < 0.85 else rng.choice(SMALL)
    return pictured(rng, width, height)[0]


# ---- damages, each of which gives 12

HUGE = [2 ** bits + more for bits in (8, 16, 31, 32, 63, 64, 128) for more in (0, 1, 2, 4, 128)] + [10 ** 9, 10 ** 10, 10 ** 19, 10 ** 20]
MAGICS = (b"", b"P", b"1", b"p1", b"P4", b"P2", b"P0", b"P7", b"P 1", b"P01", b"P1P1", b" P1", b"\nP1", b"#c\nP1", b"\xef\xbb\xbfP1", b"PP1", b"1P",
          b"\0P1")


def odd(rng):
    return bytes([rng.choice(LIKELY if rng.random() < 0.7 else ODD)])


def with_odd(rng, part):
    """A part with a byte more that does not belong there, at any place of it."""
    at = rng.randint(0, len(part))
    return part[:at] + odd(rng) + part[at:]


def odd_gap(rng):
    return with_odd(rng, rng.choice((b"", white(rng))))


def among(rng, parts, more, first=0):
    """The picture with something more before a digit, or before its white space."""
    at = rng.randrange(min(first, len(parts.digits) - 1), len(parts.digits))
    digit = parts.digits[at]
    return parts._replace(digits=[*parts.digits[:at], rng.choice((more + digit, digit[:-1] + more + digit[-1:])), *parts.digits[at + 1:]])


def too_few(rng, parts):
    """The last digits left out, or all of them, and no more after them."""
    return parts._replace(digits=parts.digits[:rng.choice((-1, -1, rng.randrange(len(parts.digits))))], after=rng.choice((b"", white(rng), b"\n")))


def huge(rng, parts, *names):
    """Sizes that are not small, or have thousands of digits, with the few digits of the picture."""
    return parts._replace(**{name: rng.choice((sized(rng, rng.choice(HUGE)), b"1" + b"0" * rng.randint(20, 6000), b"9" * 5000)) for name in names})


DAMAGES = {
    "another beginning": lambda rng, parts: parts._replace(magic=rng.choice(MAGICS)),
    "nothing after P1": lambda rng, parts: parts._replace(first=b""),
    "another byte in the first gap": lambda rng, parts: parts._replace(first=odd_gap(rng)),
    "another byte in the second gap": lambda rng, parts: parts._replace(second=odd_gap(rng)),
    "another byte for the opening": lambda rng, parts: parts._replace(comment=b"", opening=odd(rng)),
    "a sign before the width": lambda rng, parts: parts._replace(width=rng.choice((b"+", b"-")) + parts.width),
    "a sign before the height": lambda rng, parts: parts._replace(height=rng.choice((b"+", b"-")) + parts.height),
    "another byte in the width": lambda rng, parts: parts._replace(width=with_odd(rng, parts.width)),
    "another byte in the height": lambda rng, parts: parts._replace(height=with_odd(rng, parts.height)),
    "a width of 0": lambda rng, parts: parts._replace(width=b"0" * rng.choice((1, 1, 2, 30))),
    "a height of 0": lambda rng, parts: parts._replace(height=b"0" * rng.choice((1, 1, 2, 30))),
    "a huge width": lambda rng, parts: huge(rng, parts, "width"),
    "a huge height": lambda rng, parts: huge(rng, parts, "height"),
    "two huge sizes": lambda rng, parts: huge(rng, parts, "width", "height"),
    "a comment among the digits": lambda rng, parts: among(rng, parts, note(rng) + line_end(rng), 1),
    "a comment before the digits": lambda rng, parts: parts._replace(digits=[note(rng) + line_end(rng) + parts.digits[0], *parts.digits[1:]]),
    "another byte among the digits": lambda rng, parts: among(rng, parts, odd(rng)),
    "another digit among the digits": lambda rng, parts: among(rng, parts, b"%d" % rng.randint(2, 9)),
    "too few digits": too_few,
    "junk after the last digit": lambda rng, parts: parts._replace(after=odd(rng) + rng.choice((b"", b"\n", b" 1", parts.after))),
    "a digit after the last digit": lambda rng, parts: parts._replace(after=b"%d" % rng.choice((0, 1, rng.randint(2, 9))) + parts.after),
    "a comment after the last digit": lambda rng, parts: parts._replace(after=note(rng) + rng.choice((b"", b"\n", b"\r1"))),
}
# the parts in which a text may be cut short
CUT = ("beginning", "first gap", "width", "second gap", "height", "comment after the height", "opening", "digits")


def damaged(rng, kind):
    return Text(kind, text_of(DAMAGES[kind](rng, base(rng))), 12)


def cuts(rng, parts):
    """A picture cut within each of its parts, before its last digit."""
    text, at = text_of(parts), 0
    for name, part in zip(CUT, (*parts[:7], b"".join(parts.digits))):
        if part:
            yield Text(f"cut short in the {name}", text[:at + rng.randrange(len(part))], 12)
        at += len(part)


# ---- texts by turns

# what stands before a byte, and after it, for each place of a text where a byte may be another
SPLITS = [
    (b"", b"P1 1 1\n1\n"), (b"P", b"1 1 1\n1\n"), (b"P1", b" 1 1\n1\n"), (b"P1#", b"\n1 1\n1\n"), (b"P1 ", b" 1 1\n1\n"), (b"P1 #", b"\n1 1\n1\n"),
    (b"P1 1", b" 1\n1\n"), (b"P1 1#", b"\n1\n1\n"), (b"P1 1 ", b" 1\n1\n"), (b"P1 1 #", b"\n1\n1\n"), (b"P1 1 1", b"\n1\n"), (b"P1 1 1#", b"\n1\n"),
    (b"P1 1 1\n", b"1\n"), (b"P1 2 2\n01", b"10\n"), (b"P1 1 1\n1", b""), (b"P1 1 1\n1", b"\n"), (b"P1 1 1\n1\n", b"\n"),
]
# how many zeros stand before a size: as many digits as 32 and 64 bits have, hundreds, thousands, and as many as Python itself takes
ZEROS = (3, 9, 10, 11, 18, 19, 20, 21, 255, 256, 999, 1000, 4299, 4300, 4301, 20_000)
# two sizes, and as many digits as they ask for where high digits of a size, or of the two multiplied, are lost
BITS = (8, 16, 31, 32, 63, 64)
WRAPS = [(2 ** bits + n, 2 ** bits + n, n * n) for bits in BITS for n in (1, 2, 8)]
WRAPS += [size for bits in BITS for size in ((2 ** bits + 1, 1, 1), (1, 2 ** bits + 1, 1), (2 ** bits + 1, 2, 2), (2, 2 ** bits + 1, 2))]
WRAPS += [(2 ** 16, 2 ** 16, 0), (2 ** 32, 2 ** 32, 0), (2 ** 32, 2 ** 32, 4), (2 ** 31, 2 ** 33, 1), (2 ** 64, 2 ** 64, 16), (2 ** 62, 4, 0)]


def every_byte():
    """Every byte, at each place where it may be another."""
    for before, after in SPLITS:
        yield from (Text("every byte", before + bytes([byte]) + after, need=4 if b"2" in before else 1) for byte in range(256))


def every_short(most=8):
    """Every text of P1 and a few bytes, each LF, # or 1."""
    for length in range(most + 1):
        yield from (Text("every short text", b"P1" + bytes(some), need=1) for some in itertools.product(b"\n#1", repeat=length))


def every_size(rng):
    """Other sizes, with all their digits and with fewer, and sizes that are huge, or have many digits."""
    for width, height in SMALL + LARGE:
        yield other_size(rng, width, height)._replace(place="longer" if (width, height) in LARGE else None)
        yield Text("another size, too few digits", text_of(too_few(rng, pictured(rng, width, height)[0])), 12)
    for w, h, count in WRAPS:
        yield Text("sizes that are small where digits are lost", b"P1 %d %d\n" % (w, h) + b"1" * count, 12, need=max(1, count), place="longer")
    for zeros, k, name in itertools.product(ZEROS, (0, 1, 4), ("width", "height")):
        parts, mask = pictured(rng, 2 ** k, 2 ** k, plain=True)
        yield Text("many zeros before a size", text_of(parts._replace(**{name: b"0" * zeros + getattr(parts, name)})), 0, mask, place="longer")
        yield Text("many zeros for a size", text_of(parts._replace(**{name: b"0" * zeros})), 12)
        yield Text("a size of many digits", text_of(parts._replace(**{name: b"1" + b"0" * zeros})), 12)


# parts that fill a text up, each with its bytes: they stand before what the part holds, but "after" that
FILLING = [("first", b" "), ("first", b"#"), ("second", b"\t"), ("second", b"\r"), ("second", b"#"), ("width", b"0"), ("height", b"0"),
           ("comment", b"#"), ("digits", b" "), ("digits", b"\n"), ("after", b"1"), ("after", b"x"), ("after", b"\n")]


def filled(parts, name, more):
    """A picture as long as a text may be: one of its parts is filled up with a byte."""
    room = LONGEST - len(text_of(parts))
    run = more * room if more != b"#" else b"#" * (room - 1) + b"\n"
    if name == "digits":
        return parts._replace(digits=[run + parts.digits[0], *parts.digits[1:]])
    return parts._replace(**{name: b"\n" + run[1:] if name == "after" else run + getattr(parts, name)})


def long_texts(rng):
    """Texts as long as they may be: good ones, the same with their last byte taken off, and bad ones."""
    for turn, (name, more) in enumerate(FILLING):
        k = (0, 3, 7)[turn % 3]
        parts, mask = pictured(rng, 2 ** k, 2 ** k, plain=True)
        text = text_of(filled(parts, name, more))
        yield Text("the longest text", text, 0, mask, place="longer")
        number = 0 if name == "after" else 12
        yield Text("the longest text, less a byte", text[:-1], number, mask if number == 0 else None, len(mask), "longer")
    yield from (Text("the longest text, of one byte", byte * LONGEST, 12) for byte in (b"P", b"1", b" ", b"#", b"\0"))
    yield Text("the longest text, of nines", b"P1 " + b"9" * (LONGEST - 3), 12)
    yield Text("256 by 256, one digit short", b"P1\n256 256\n" + (b"01" * 2 ** 15)[1:], 12, need=LONGEST - 1)


# ---- texts at random

BEGUN = (b"P1", b"P1 1", b"P1 1 1", b"P1 2 2\n0", b"P1\n1 1\n1")
TOKENS = [b" ", b"\n", b"\t", b"\r", b"#", b"#c\n", b"#\r", b"0", b"1", b"1", b"2", b"4", b"01", b"10", b"00", b" 1", b"\n1", b" 1 1\n1",
          b" 2 2\n0110", b"\x0b", b"+", b"x", b"P1"]


def mixed(rng):
    """Bits of texts, one after the other."""
    return Text("mixed", rng.choice(BEGUN) + b"".join(rng.choices(TOKENS, k=rng.randint(0, 9))))


def edited(rng):
    """A picture with a byte taken out, put in, replaced or doubled, or a bit of it turned, once or more."""
    text = text_of(base(rng))
    for _ in range(rng.choice((1, 1, 1, 2, 5))):
        at = rng.randrange(len(text) + 1)
        byte = bytes([rng.choice((rng.choice(LIKELY), rng.choice(b" \n#01248"), rng.randrange(256)))])
        here, rest = text[at:at + 1], text[at + 1:]
        turned = bytes([here[0] ^ 1 << rng.randrange(8)]) if here else b""
        text = text[:at] + rng.choice((rest, byte + here + rest, byte + rest, here + here + rest, turned + rest))
    return Text("bytes edited", text)


def by_chance(rng):
    return Text("bytes at random", rng.choice((b"", b"P1", b"P1 2 2\n")) + rng.randbytes(rng.randint(0, 40)))


def any_text(rng):
    return rng.choice((
        lambda: good(rng, rng.choice(DEPTHS)), lambda: good(rng, rng.choice(DEPTHS)), lambda: other_size(rng, *rng.choice(SMALL)), lambda: mixed(rng),
        lambda: edited(rng), lambda: edited(rng), *[lambda: damaged(rng, rng.choice([*DAMAGES]))] * 3, lambda: rng.choice([*cuts(rng, base(rng))]),
        lambda: by_chance(rng)))()


def texts_by_turns(rng):
    yield from (*every_byte(), *every_short(), *every_size(rng), *long_texts(rng))
    yield from (damaged(rng, kind) for kind in DAMAGES for _ in range(40))
    yield from (text for _ in range(60) for text in cuts(rng, base(rng)))
    yield from (make(rng) for make in (mixed, edited, by_chance) for _ in range(200))
