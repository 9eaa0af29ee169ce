"""The script `sheet` draws what the program lists, and says in words what a refusal means.

    python3 tests/script.py [--without-devices]

It is run as a person runs it: on the page's whole case, on every sheet of sheets/, whose pictures are compared with the second program's rasters, on
texts that are refused by each number, on what cannot be read or written, and without arguments. What it says of a bad line is held to the second
program (tests/script_faults.py), and so are what it says of a sheet that weighs too much (tests/advice.py) and its picture for a printer; its files
are complete or not there at all (tests/script_pictures.py). A tree of its own, with a stand-in for `rt`, shows when a program is proved and built.
And the picture that README.md begins with is the one that `sheet` draws, with the one that signs at the corners give beside it. A check that cannot
be tried, since the machine lacks a device, is a fault, unless --without-devices is said (tests/devices.py).
"""
import argparse
import importlib.machinery
import importlib.util
import os
import pathlib
import shutil
import subprocess
import sys
import tempfile

sys.dont_write_bytecode = True  # nothing is left in the tree
import advice
import devices
import script_faults
import script_pictures
import script_words
import second
import sheets
from program import ROOT, absent, made
from second_text import START, WHOLE, WHOLE_LISTING, written

SCRIPT = ROOT / "sheet"
MARKS = {1: "██", 2: "  ", 3: "· "}
# the character of four cells, the upper two and the lower two
QUARTERS = {"    ": " ", "█   ": "▘", " █  ": "▝", "██  ": "▀", "  █ ": "▖", "█ █ ": "▌", " ██ ": "▞", "███ ": "▛",
            "   █": "▗", "█  █": "▚", " █ █": "▐", "██ █": "▜", "  ██": "▄", "█ ██": "▙", " ███": "▟", "████": "█"}
# what the usage says of status 2
ENDS_WITH_2 = ("options are not as above", "no FILE is named", "cannot be read", "OUT is\nFILE itself", "there is no rt", "cannot be built or started",
               "standard\noutput or OUT cannot be written")
# the ways to have it write, and what it says where it cannot
WRITING = (["-"], ["--list", "-"], ["--pbm", "-"], ["--help"])
UNWRITTEN = "sheet: standard output cannot be written: "
LEGEND = "[██] coloured: the curve may be here   [  ] above: f > 0 all over it   [· ] below: f < 0 all over it"
PICTURE = f"""\
┌────┐
│████│   standard input
│████│
└────┘   depth     1
         visited   5 cells
         coloured  4 of 4 cells

         x from 0 to 1
         y from 0 to 1

{LEGEND}
"""
# a text, and what is said of it
REFUSALS = [
    (written("D 9", *START[1:]), "refused by 1: the degree d is above 8"),
    (written("D 1", "B 0 0 0", "K 8", "M 0"), "refused by 3: the depth k is above 7"),
    (written("D 1", "B 0 -1048577 0", "K 1", "M 0"), "refused by 4: the corner X or Y is outside -1,048,576 to 1,048,576, or s is above 10"),
    (written("D 1", "B 0 0 0", "K 1", "M 2"), "refused by 5: the mode is neither 0 nor 1"),
    *((text, "\n    ".join([advice.SAID, *told])) for text, told in advice.TOLD),
    *((text, "\n    ".join([f"refused by {number}: {first}", *more])) for text, number, first, *more in script_words.TOLD),
    *((text, "\n".join(script_faults.told(text))) for text, _ in script_words.COMMANDED),
    (b"\n" * 8193, "refused by 11: the text is longer than 8,192 bytes"),
    (b"x" * 100_000, "refused by 11: the text is longer than 8,192 bytes"),
]
# a text, and the line of its refusal
LISTED = [(b"", b"refused\t14\t1\t0\n"), (WHOLE.replace(b"-1", b"+1"), b"refused\t16\t5\t4\n"), (WHOLE[:-1], b"refused\t20\t6\t0\n"),
          (written("D 9", *START[1:]), b"refused\t1\t0\t0\n")]


def run(*words, given=b"", **more):
    """What the script ends with and writes."""
    ended = subprocess.run([SCRIPT, *words], input=given, **{"stdout": subprocess.PIPE, "stderr": subprocess.PIPE, **more})
    return ended.returncode, ended.stdout, (ended.stderr or b"").decode(errors="replace")


def module():
    """The script's own functions."""
    loader = importlib.machinery.SourceFileLoader("sheet", str(SCRIPT))
    spec = importlib.util.spec_from_loader("sheet", loader)
    loaded = importlib.util.module_from_spec(spec)
    loader.exec_module(loaded)
    return loaded


def framed(raster, k):
    """The picture of a raster."""
    rows = ["│" + "".join(MARKS[colour] for colour in raster[at:at + 2 ** k]) + "│" for at in range(0, 4 ** k, 2 ** k)]
    across = "──" * 2 ** k
    return [f"┌{across}┐", *reversed(rows), f"└{across}┘"]


def command_checks():
    """The script as a person runs it: what is tried, and whether it is as it should be."""
    yield "the whole case", run("-", given=WHOLE) == (0, PICTURE.encode(), "")
    yield "the whole case, listed", run("--list", "-", given=WHOLE) == (0, WHOLE_LISTING, "")
    for text, line in LISTED:
        yield f"a refusal, listed: {line}", run("--list", "-", given=text) == (1, line, "")
    for text, words in REFUSALS:
        status, out, err = run("-", given=text)
        yield f"{text[:80]!r} is refused in words", (status, out, err) == (1, b"", f"standard input: {words}\n")
    with tempfile.TemporaryDirectory() as folder:
        file = pathlib.Path(folder) / "of no sheet"
        yield "a file that is not there", run(file) == (2, b"", "sheet: of no sheet cannot be read: No such file or directory\n")
        yield "a folder", run(folder)[:2] == (2, b"")
        file.write_bytes(WHOLE)
        status, out, _ = run(file)
        yield "a file", (status, out) == (0, PICTURE.replace("standard input", "of no sheet").encode())
        for odd, safe in ((b"\x1b[7m\xff\n", r"\x1b[7m\xff\n"), ("é".encode(), "é")):
            file = pathlib.Path(folder) / os.fsdecode(odd)
            yield f"the name {safe}, of no file", run(file)[2] == f"sheet: {safe} cannot be read: No such file or directory\n"
            file.write_bytes(WHOLE)
            yield f"the name {safe}", run(file)[1] == PICTURE.replace("standard input", safe).encode()
        status, out, _ = run(file, env={**os.environ, "PYTHONIOENCODING": "ascii"})
        yield "a name that plain signs do not show", status == 0 and out.isascii() and rb"\xe9" in out
    known = [name + ".sheet" for name in sheets.names()]
    usage = ["./sheet", "FILE", "--list", "--pbm", "-o OUT", *known, *ENDS_WITH_2]
    status, out, err = run("--help")
    yield "the usage", (status, err) == (0, "") and all(name in out.decode() for name in usage)
    for words in ([], ["--list"], [""]):
        status, out, err = run(*words)
        yield "no file", (status, out) == (2, b"") and all(name in err for name in usage) and err.endswith("\nsheet: no FILE is named\n")
    for name in sheets.names():
        status, out, err = run(sheets.SHEETS / f"{name}.sheet")
        picture, k = out.decode().split("\n"), sheets.sheet(name).k
        drawn = [line[:2 * 2 ** k + 2] for line in picture[:2 ** k + 2]]
        labels = [line[2 * 2 ** k + 5:] for line in picture[:2 ** k + 2]]
        _, visited, coloured, _, raster = second.raster(*sheets.sheet(name), [0] * 4 ** k)
        yield f"the picture of {name}", (status, err) == (0, "") and drawn == framed(raster, k)
        counts = {f"depth     {k}", f"visited   {visited} cells", f"coloured  {coloured} of {4 ** k:,} cells"}
        yield f"the tally of {name}", counts | {f"{name}.sheet"} <= set(labels)
        yield f"the legend of {name}", picture[2 ** k + 2:] == ["", LEGEND, ""]


def full_checks(env, kind):
    """The script where standard output, or standard error, is full."""
    names = [f"standard output full, {' '.join(words)}{kind}" for words in WRITING]
    names += [f"standard output full, which cannot be told{kind}", f"a refusal that cannot be told{kind}"]
    if not devices.has_full():
        yield from ((name, devices.NO_FULL) for name in names)
        return
    with devices.FULL.open("wb") as full:
        for name, words in zip(names, WRITING):
            yield name, run(*words, given=WHOLE, stdout=full, env=env) == (2, None, f"{UNWRITTEN}No space left on device\n")
        yield names[-2], run("-", given=WHOLE, stdout=full, stderr=full, env=env)[0] == 2
        yield names[-1], run("-", stderr=full, env=env) == (1, b"", "")


def unwritten_checks():
    """The script where what it writes goes nowhere."""
    for unbuffered in ("", "1"):
        env, kind = {**os.environ, "PYTHONUNBUFFERED": unbuffered}, ", unbuffered" if unbuffered else ""
        for words in WRITING:
            name = " ".join(words) + kind
            closed = subprocess.run(["sh", "-c", 'exec "$@" >&-', "sh", SCRIPT, *words], input=WHOLE, stderr=subprocess.PIPE, env=env)
            yield f"standard output closed, {name}", (closed.returncode, closed.stderr.decode()) == (2, f"{UNWRITTEN}it is closed\n")
            reading, writing = os.pipe()
            os.close(reading)
            yield f"nobody reads, {name}", run(*words, given=WHOLE, stdout=writing, env=env) == (2, None, "")
            os.close(writing)
        yield from full_checks(env, kind)


# the words for each program, what is then written for the whole case, and the other program
PROGRAMS = {"listing": (["-"], PICTURE.encode(), "picture"), "picture": (["--pbm", "-"], script_pictures.WHOLE_PICTURE, "listing")}
# as rt does, it is told in the crate's folder, builds nothing where the program stands, and runs it where it is proved
STAND_IN = """#!/bin/sh
echo "$@" >> ../../calls
mkdir -p out
[ -f out/"$2" ] || cp "$CRATES"/"$2"/out/"$2" out/"$2"
[ "$ENDS" != 0 ] || out/"$2" | sed "$CHANGE"
exit "$ENDS"
"""


def small_tree(tree):
    """What the script needs, in a tree of its own, with a stand-in for rt that ends as it is told and notes that it ran."""
    for place in ("crates/listing/src", "crates/picture/src", "tests", "rt"):
        (tree / place).mkdir(parents=True)
    modules = ("fault_words", "in_words", "line_forms", "number_words", "program", "slip_words", "too_heavy", "whole_file")
    crates = [f"crates/{crate}/{file}" for crate in PROGRAMS for file in ("src/main.rt", "stdin", "stdout")]
    for name in ("sheet", *(f"tests/{module}.py" for module in modules), "crates.txt", *crates):
        shutil.copy(ROOT / name, tree / name)
    (tree / "rt" / "rt").write_text(STAND_IN)
    (tree / "rt" / "rt").chmod(0o755)


def build_checks(name):
    """When a program is proved and built: in a tree of its own."""
    words, expected, other = PROGRAMS[name]
    with tempfile.TemporaryDirectory() as folder:
        tree = pathlib.Path(folder)
        small_tree(tree)
        sources, out = tree / "crates" / "listing" / "src", tree / "crates" / name / "out"
        program = out / name

        def turn(ends=0, change=""):
            """The status, whether the sheet came, what was said, and what rt was asked for."""
            (tree / "calls").write_text("")
            env = {**os.environ, "PATH": f"{tree / 'rt'}{os.pathsep}{os.environ['PATH']}", "ENDS": str(ends), "CHANGE": change,
                   "CRATES": str(ROOT / "crates")}
            ended = subprocess.run([tree / "sheet", *words], input=WHOLE, capture_output=True, env=env)
            return ended.returncode, ended.stdout == expected, ended.stderr.decode(), (tree / "calls").read_text()

        def newer(path):
            """Gives a source a time after the program's."""
            late = program.stat().st_mtime_ns + 10 ** 9
            os.utime(path, ns=(late, late))

        first = (f"sheet: the program `{name}` is not built yet. It is proved and built now, once, which takes some minutes. "
                 f"crates/{name}/out/sheet.log shows how far it is.\n")
        again = f"sheet: the program `{name}` may be older than its sources. What changed is proved and built again.\n"
        kept = f"so no program is kept; crates/{name}/out/sheet.log has what rt said\n"
        failed, odd = f"sheet: `rt run {name}` ended with status 1, {kept}", f"sheet: `rt run {name}` did not write what its crate wants, {kept}"
        once = f"run {name}\n"
        yield f"{name}: the first time it is built", turn() == (0, True, first, once)
        yield f"{name}: the second time it is not", turn() == (0, True, "", "")
        for path in (sources / "main.rt", sources, tree / "crates.txt"):
            newer(path)
            yield f"{name}: {path.name} newer: it is built again", turn() == (0, True, again, once)
            yield f"{name}: {path.name} newer: once", turn() == (0, True, "", "")
        newer(sources / "main.rt")
        yield f"{name}: a build that fails", turn(1) == (2, False, again + failed, once) and not program.exists()
        yield f"{name}: a build that failed is not used", turn(1) == (2, False, first + failed, once) and not program.exists()
        yield f"{name}: a build that failed is mended", turn() == (0, True, first, once)
        (out / "stdout").unlink()
        yield f"{name}: a program that was not tried", turn(1) == (2, False, again + failed, once)
        yield f"{name}: a program that writes something else", turn(change="s/1/2/") == (2, False, first + odd, once) and not program.exists()
        yield f"{name}: one that wrote something else is not used", turn(1) == (2, False, first + failed, once) and not program.exists()
        yield f"{name}: a program that rt passes at last", turn() == (0, True, first, once)
        program.unlink()
        yield f"{name}: a program that was taken away", turn() == (0, True, first, once)
        yield f"{name}: it alone is built", not (tree / "crates" / other / "out").exists()


def function_checks():
    """The script's functions where a person's window is narrow, or shows no such signs."""
    script, name = module(), sheets.LOST
    text, k = sheets.text(name), sheets.sheet(name).k
    listing = (sheets.SHEETS / f"{name}.listing").read_bytes()
    raster = sheets.raster(name)
    wide = script.shown(name, text, listing)
    for columns in (40, 20):
        lines = script.shown(name, text, listing, columns=columns)
        yield f"{columns} columns", lines[2 ** k + 2] == name and all(len(line) <= columns for line in lines[:2 ** k + 3])
    yield "40 columns", script.shown(name, text, listing, columns=40)[:2 ** k + 2] == framed(raster, k)
    narrow = [line[1:-1] for line in script.shown(name, text, listing, columns=20)[1:2 ** k + 1]]
    yield "one character for a cell", [line[1:2 * 2 ** k + 1:2] for line in wide[1:2 ** k + 1]] == narrow
    plain = script.shown(name, text, listing, script.PLAIN)
    yield "plain signs", [line.translate(str.maketrans("█·│", "#.|")) for line in wide[1:2 ** k + 1]] == plain[1:2 ** k + 1]
    yield "plain signs are plain", all(line.isascii() for line in plain)
    quarters = script.shown(name, text, listing, columns=10)
    both = zip(narrow[::2], narrow[1::2])
    squares = [[upper[at:at + 2] + lower[at:at + 2] for at in range(0, 2 ** k, 2)] for upper, lower in both]
    signs = ["".join(QUARTERS["".join("█" if cell == "█" else " " for cell in square)] for square in row) for row in squares]
    yield "a quarter of a character for a cell", [line[1:-1] for line in quarters[1:2 ** (k - 1) + 1]] == signs
    yield "a quarter's frame", quarters[0] == "┌────────┐" and quarters[2 ** (k - 1) + 1] == "└────────┘"
    yield "a quarter's legend", quarters[-1] == "Blank is above or below, not told apart at this width, but at 18 columns."
    for kind, needed, lines in (("9 columns", 10, script.shown(name, text, listing, columns=9)),
                                ("17 columns, plain", 18, script.shown(name, text, listing, script.PLAIN, 17))):
        there = int(kind.split()[0])
        yield f"no room in {kind}", lines[0] == name and lines[-1] == f"There is no picture: it needs {needed} columns, and there are {there}."
        yield f"the tally in {kind}", f"depth     {k}" in lines and not any("█" in line or "#" in line for line in lines)
    yield "no room for one cell", script.picture([["0"]], script.ROUNDED, 2)[0] == []
    yield "a quarter of which no record tells", script.four(["0", None, "+", "-"], script.ROUNDED) == "?"
    deep = written("D 0", "B 0 0 0", "K 7", "M 0", "T 0 0 -5")
    yield "a deep sheet in 80 columns", all(len(line) <= 80 for line in script.shown("", deep, b"0\t0\t0\t-\ntotal\t1\t0\n", columns=80)[:66])
    yield "one record for a whole sheet", script.shown("", deep, b"0\t0\t0\t-\ntotal\t1\t0\n")[1] == "│" + "· " * 128 + "│"
    yield "a cell of which no record tells", script.grid([(1, 1, 0, "0"), (1, 0, 1, "-")], 1) == [[None, "0"], ["-", None]]


def readme_checks():
    k = sheets.sheet(sheets.LOST).k
    right = framed(sheets.by_corners(sheets.LOST), k)
    both = [f"{one}   {other}" for one, other in zip(framed(sheets.raster(sheets.LOST), k), right)]
    readme = (ROOT / "README.md").read_text()
    yield "the pictures in README.md", "\n".join(both) in readme
    whole = "\n".join(line.replace(b"\t", b"\\t").decode() for line in WHOLE.split(b"\n"))
    for name in sheets.names():
        sheet = sheets.sheet(name)
        modified, centred = (second.raster(*sheet._replace(mode=mode), [0] * 4 ** sheet.k)[2] for mode in (0, 1))
        yield f"centred forms never colour fewer, {name}", modified <= centred
    yield "the whole case in README.md", f"printf '{whole}".replace("\n", "\\n") in readme


def main():
    options = argparse.ArgumentParser(description="Tries the script `sheet` as a person runs it.")
    devices.add_option(options)
    chosen = options.parse_args()
    for name in PROGRAMS:
        if not (made(name)).is_file():
            sys.exit(f"script: {absent(made(name))}")
    if not os.access(SCRIPT, os.X_OK):
        sys.exit("script: ./sheet is no file that can be run")
    for words, *_ in PROGRAMS.values():
        run(*words, given=WHOLE)  # where a source is newer than the program, this proves and builds it
    checks = [*command_checks(), *unwritten_checks(), *build_checks("listing"), *build_checks("picture"), *function_checks(),
              *script_faults.checks(), *advice.checks(module()), *script_pictures.checks(run, module(), REFUSALS), *readme_checks()]
    untried = devices.left_out(checks, chosen)
    wrong = [(name, good) for name, good in checks if good is not True and (name, good) not in untried]
    for name, good in wrong:
        print(f"not as it should be: {name}" + (f": {good}" if good else ""))
    print(f"script: {len(checks) - len(wrong) - len(untried)} of {len(checks)} checks of ./sheet hold")
    devices.tell(checks, chosen)
    return 1 if wrong else 0


if __name__ == "__main__":
    sys.exit(main())
