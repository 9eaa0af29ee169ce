"""Netpbm reads what the proved program writes, and the proved program reads what Netpbm writes. It is no part of the gate, which needs no Netpbm.

    python3 tests/netpbm.py [--seed S] [--cases N]     N random pictures of each depth, beside some plain ones

Pictures of every depth, written by the program `compare_pictures`, are named by Netpbm's `pamfile`, made raw by `pamtopnm`, of which every pixel is
compared with the raster, and enlarged and made a PNG and back by `pamenlarge`, `pnmtopng` and `pngtopam`, as for a printed page. Then `pbmmake` makes
plain PBMs, and `pnmtoplainpnm` makes them of raw ones with random pixels: compare_pictures reads all of them, and the masks are compared, and other
sizes, which it refuses by 13. At the end stands, for information, where the two differ on the examples of tests/second_pbm.py: Netpbm lets more through
before and among the digits, and takes what follows a picture for another one.

Where Netpbm is not installed this says so, and ends with status 2: the Debian package `netpbm` has it.
"""
import argparse
import collections
import pathlib
import random
import re
import shutil
import subprocess
import sys

sys.dont_write_bytecode = True  # nothing is left in the tree
import second_pbm
from pbm_cases import Case, Place, length_of, raster
from pictures import run, shown
from program import made

NEEDED = ("pamfile", "pamtopnm", "pamenlarge", "pnmtopng", "pngtopam", "pbmmake", "pnmtoplainpnm")
RAW = re.compile(rb"P4\s(\d+) (\d+)\s")
TIMES = 3
OTHER = [(1, 2), (2, 1), (3, 3), (5, 7), (70, 70), (71, 71), (127, 127), (129, 129), (64, 128), (128, 64), (200, 1), (1, 200)]


# ---- Netpbm

def piped(given, *commands):
    """What some commands make of bytes, one after the other; nothing where one does not end well."""
    for words in commands:
        ended = subprocess.run(words, input=given, capture_output=True)
        if ended.returncode != 0:
            return None
        given = ended.stdout
    return given


def rows_of(raw):
    """The rows of a raw PBM, the top row first, each a byte for a pixel; nothing where it is none."""
    head = raw is not None and RAW.match(raw)
    if not head:
        return None
    width, height = map(int, head.groups())
    line, packed = (width + 7) // 8, raw[head.end():]
    if len(packed) != line * height:
        return None
    return [bytes(packed[row * line + at // 8] >> 7 - at % 8 & 1 for at in range(width)) for row in range(height)]


def raw_of(rows):
    """A raw PBM: eight pixels to a byte, and each row filled up with zeros."""
    bits = ["".join(map(str, row)).ljust((len(row) + 7) // 8 * 8, "0") for row in rows]
    return b"P4\n%d %d\n" % (len(rows[0]), len(rows)) + b"".join(int(line, 2).to_bytes(len(line) // 8, "big") for line in bits)


# ---- what is written, read by Netpbm

def rasters(rng, count):
    """Rasters of every depth: all coloured, none, a single cell, and others."""
    for k in range(8):
        cell = rng.randrange(4 ** k)
        yield from ((k, one) for one in (b"\1" * 4 ** k, b"\2" * 4 ** k, bytes(cell) + b"\1" + bytes(4 ** k - cell - 1)))
        yield from ((k, raster(rng, 4 ** k)) for _ in range(count))


def coloured(k, cells):
    """The pixels that a raster is to show, the top row first."""
    return [bytes(byte == 1 for byte in cells[row * 2 ** k:(row + 1) * 2 ** k]) for row in reversed(range(2 ** k))]


def writing_faults(program, rng, count):
    """What Netpbm does not read as it should."""
    made = list(rasters(rng, count))
    cases = [Case("write", "a raster", k, cells, Place("just enough", "all 0", length_of(k), 0, 0, b"")) for k, cells in made]
    same = 0
    for (k, cells), (number, answer, place) in zip(made, run(program, cases)):
        text, side, pixels = place[:answer], 2 ** k, coloured(k, cells)
        large = [bytes(pixel for pixel in row for _ in range(TIMES)) for row in pixels for _ in range(TIMES)]
        named = piped(text, ["pamfile"])
        if number or named is None or f"PBM plain, {side} by {side}" not in named.decode():
            yield f"depth {k}: number {number}, and pamfile says {named!r} of {shown(text)}"
        elif rows_of(piped(text, ["pamtopnm"])) != pixels:
            yield f"depth {k}: pamtopnm reads other pixels in {shown(text)}"
        elif rows_of(piped(text, ["pamenlarge", str(TIMES)], ["pnmtopng"], ["pngtopam"], ["pamtopnm"])) != large:
            yield f"depth {k}: other pixels stand in the PNG of {shown(text)}"
        same += piped(text, ["pnmtoplainpnm"]) == text
    print(f"written: {len(made)} pictures; {same} of them are byte for byte as pnmtoplainpnm writes them")


# ---- what Netpbm writes, read back

def netpbm_texts(rng, count):
    """Plain PBMs that Netpbm writes, and their pixels."""
    for width, height in [(2 ** k, 2 ** k) for k in range(8)] + OTHER:
        for colour in ("-white", "-black", "-gray"):
            made = piped(b"", ["pbmmake", "-plain", colour, str(width), str(height)])
            pixels = rows_of(piped(b"", ["pbmmake", colour, str(width), str(height)]))
            if colour != "-gray":
                pixels = [bytes([colour == "-black"]) * width] * height
            yield f"pbmmake {colour} {width} {height}", made, pixels
        for _ in range(count):
            pixels = [bytes(rng.choices((0, 1), k=width)) for _ in range(height)]
            yield f"pnmtoplainpnm of {width} by {height} pixels", piped(raw_of(pixels), ["pnmtoplainpnm"]), pixels


def reading_faults(program, rng, count):
    """What is not read as Netpbm means it."""
    made = list(netpbm_texts(rng, count))
    cases = [Case("read", name, 0, text or b"", Place("longer", "all 255", 4 ** 7 + 1, 255, 0, b"")) for name, text, _ in made]
    for (name, text, pixels), (number, answer, place) in zip(made, run(program, cases)):
        mask, side = b"".join(reversed(pixels)), len(pixels)
        good = {2 ** k: k for k in range(8)}.get(side) if len(pixels[0]) == side else None
        wanted = (13, 0, b"\xff" * (4 ** 7 + 1)) if good is None else (0, good, mask + b"\xff" * (4 ** 7 + 1 - len(mask)))
        if (number, answer, place) != wanted:
            yield f"{name}: number {number}, answer {answer}, and {wanted[:2]} is right, or the mask is another, for {shown(text or b'')}"
    print(f"read: {len(made)} plain PBMs that Netpbm wrote, of which {sum(name.startswith('pbmmake') for name, *_ in made)} are by pbmmake")


# ---- for information

def differences(program):
    """How Netpbm takes the examples of tests/second_pbm.py, where it does not take them as the proved program does."""
    texts = [text for text, *_ in second_pbm.READ] + second_pbm.NOT_READ + second_pbm.OTHER_SIZES
    texts = [text for text in dict.fromkeys(texts) if len(text) < 20_000]
    cases = [Case("read", "an example", 0, text, Place("longer", "all 0", 4 ** 7, 0, 0, b"")) for text in texts]
    found = collections.defaultdict(list)
    for text, (number, *_) in zip(texts, run(program, cases)):
        raw = piped(text, ["pamtopnm"])
        netpbm = "refuses" if raw is None else "takes" if rows_of(raw) else "takes for several pictures"
        found[netpbm, "refuses" if number == 12 else "takes"].append(text)
    for (netpbm, ours), some in sorted(found.items()):
        print(f"for information: {len(some)} examples that Netpbm {netpbm} and the request {ours}" + ("" if netpbm == ours else ":"))
        for text in some if netpbm != ours else ():
            print(f"    {text[:60]!r}{' and so on' if len(text) > 60 else ''}")


def main():
    options = argparse.ArgumentParser(description="Has Netpbm read what is written, and reads what Netpbm writes.")
    options.add_argument("--seed", type=int, default=20250505)
    options.add_argument("--cases", type=int, default=10)
    options.add_argument("--program", type=pathlib.Path, default=made("compare_pictures"))
    chosen = options.parse_args()
    missing = [name for name in NEEDED if shutil.which(name) is None]
    if missing:
        print(f"netpbm: there is no {', '.join(missing)} here, so nothing was tried: the Debian package netpbm has them (apt-get install netpbm)")
        return 2
    rng = random.Random(chosen.seed)
    faults = [*writing_faults(chosen.program, rng, chosen.cases), *reading_faults(chosen.program, rng, chosen.cases)]
    for fault in faults:
        print(fault)
    differences(chosen.program)
    version = subprocess.run(["pamfile", "--version"], capture_output=True, text=True).stderr.split("\n")[0]
    print(f"netpbm: seed {chosen.seed}, {len(faults)} faults; {version}")
    return 1 if faults else 0


if __name__ == "__main__":
    sys.exit(main())
