"""How the tree is read: its sources without their comments, what they bring in and what they declare, and the tables of its documents.

The rules of tests/tree.py and tests/faces.py go by lines and words, as a reader does. `oddities` tells of whatever could make a source mean something
else than its lines show: a comment that does not look like one, a name in disguise, a character that is not seen.
"""
import collections
import functools
import pathlib
import re

# the tree that is looked at; the tests of the rules look at another
ROOT = pathlib.Path(__file__).resolve().parent.parent
# what is of Type 0 and no statement: a kind of thing
KINDS = {("forms", "Points", "Point"), ("verdicts", "Walking", "Verdicts")}
# what a line of a source has besides code: texts, and a comment at its end
ASIDE = {".antt": re.compile(r'"(?:\\.|[^"\\])*"|--.*'), ".rt": re.compile(r"""b'(?:\\.|[^'\\])+'|"(?:\\.|[^"\\])*"|//.*""")}
# the words of antt: what has such a name in code stands in « » in antt
WORDS = ("data|record|deriving|module|where|use|mod|pub|package|open|as|unfoldable|abbrev|axiom|unfold|unfolding|ruleset|mutual|infix[lr]?|elim|let|in|do|Type"
         "|f?coe|tcoe|hcom|com")
# a name of antt is any run of other characters than these
NAME = r'[^\s(){}.;,@"«»]+'
USING = r"^[ \t]*((?:(?:unfoldable|pub)[ \t]+)*)use\b"
USE = re.compile(USING + rf"[ \t]+([^\s{{}};]+?)(?:\.\{{([^{{}}]*)\}}|[ \t]+as[ \t]+({NAME}))?[ \t]*$", re.M)
GHOST_USING = r"\bghost\s+use\b"
GHOST_USE = re.compile(GHOST_USING + rf"\s+([^\s{{}};]+?)(?:\.\{{([^{{}}]*)\}}|\s+as\s+({NAME}))?\s*;")
SIGNED = re.compile(rf"(?!let |where |\| )((?:(?:unfoldable|abbrev|axiom|pub|record|data) )*)((?:(?![=:] ){NAME} )+)(?:\{{[^}}]*\}} )?: (.*)")

# a line that brings names in: where it stands, its marks, the path, and each item (none for a module) with the name that it gets
Use = collections.namedtuple("Use", "line marks home items")
# a declared name with its type: where it stands and how far from the margin, its marks, the name, the type
Signature = collections.namedtuple("Signature", "line margin marks name type")


# ---- files and lines

def at(name):
    return ROOT / name


def named(path):
    """A file's name in the tree."""
    return path.relative_to(ROOT).as_posix()


def sources():
    """All but what rt made, which lies in the folders out."""
    found = (p for p in ROOT.glob("crates/**/*") if p.suffix in (".antt", ".rt") and p.relative_to(ROOT).parts[2] != "out")
    return sorted(p for p in found if p.is_file())


def crates():
    return sorted(path.name for path in ROOT.glob("crates/*") if path.is_dir())


def listed():
    """The crates of crates.txt, and what each rests on."""
    return {crate: below.split() for crate, below in re.findall(r"^(\w+):([^#\n]*)", text_of(at("crates.txt")), re.M)}


def explained():
    """The crates of crates.txt that rest on one for a reason that is told there: both names."""
    return re.findall(r"^(\w+):[^#\n]*# (\w+): \w", text_of(at("crates.txt")), re.M)


def text_of(path):
    return path.read_bytes().decode()


@functools.cache
def code_in(suffix, text):
    return tuple(ASIDE[suffix].sub(lambda found: "" if found[0][0] in "-/" else '""', line) for line in text.split("\n"))


def code_of(path):
    """A file's lines without their comments, and with nothing in their texts."""
    return list(code_in(path.suffix, text_of(path)))


def oddities(path):
    """What could make a source mean something else than its lines show: the number of the line, and what it is."""
    block = ("{-", "-}") if path.suffix == ".antt" else ("/*", "*/")
    for number, (line, code) in enumerate(zip(text_of(path).split("\n"), code_of(path)), 1):
        if not line.isprintable():
            yield number, "a character that is not seen"
        if any(mark in code for mark in block):
            yield number, "a comment in the midst of code"
        if code.replace('""', "").count('"'):
            yield number, "a text that does not end on its line"
        for found in ASIDE[path.suffix].finditer(line):
            if found[0][0] in "-/" and not (re.search(r"(?:^|\s)$", line[:found.start()]) and re.match(r"(--|//)(?:\s|$|-|/)", found[0])):
                yield number, f"a {found[0][:2]} that need not begin a comment"
        if re.search(rf"«(?!(?:{WORDS})»)", code):
            yield number, "a name in « » that needs none"
    text = "\n".join(code_of(path))
    starts, wholes = (USING, USE) if path.suffix == ".antt" else (GHOST_USING, GHOST_USE)
    whole = {found.start() for found in wholes.finditer(text)}
    for found in re.finditer(starts, text, re.M):
        if found.start() not in whole:
            yield text[:found.end()].count("\n") + 1, "a `use` that is not read"


# ---- what a source brings in, and what it declares

def uses(path):
    """What a file of antt brings in by `use`, and one of Rattle by `ghost use`."""
    yield from uses_in("\n".join(code_of(path)), path.suffix)


def uses_in(text, suffix):
    """The same of a text without comments, by the ending of its file."""
    for found in (USE if suffix == ".antt" else GHOST_USE).finditer(text):
        marks, home, items, name = ("", *found.groups()) if suffix == ".rt" else found.groups()
        if items is None:
            brought = [(None, name or home.split(".")[-1])]
        else:
            brought = [(item.split(" as ")[0].strip(), re.split(r" as |\.", item)[-1].strip()) for item in items.split(",") if item.strip()]
        yield Use(text[:found.end()].count("\n") + 1, marks.split(), home, brought)


def brings(path, home, name):
    """Whether a source brings in a name once, as itself, and from its home."""
    return [(use.home, item) for use in uses(path) for item, given in use.items if given == name] == [(home, name)]


def specs_of(crate, file):
    """The home of what a file of a crate's specs/ declares, from within the crate and from without."""
    return f"Rattle.{crate}.specs.{file.replace('/', '.')}"


def blocks(path):
    """A source's lines, each with those below it that stand further from the margin: number, margin, and all of it in one line."""
    lines = code_of(path)
    margins = [len(line) - len(line.lstrip()) if line.strip() else None for line in lines]
    for number, (line, margin) in enumerate(zip(lines, margins), 1):
        if margin is not None:
            end = next((n for n in range(number, len(lines)) if margins[n] is not None and margins[n] <= margin), len(lines))
            yield number, margin, " ".join(" ".join(lines[number - 1:end]).split())


def signatures(path):
    """What a file of antt declares with a type, wherever it stands and however many lines it takes."""
    for number, margin, text in blocks(path):
        found = SIGNED.match(text)
        for name in found[2].split() if found else ():
            yield Signature(number, margin, found[1].split(), name, re.split(r" where\b", found[3])[0])


# ---- documents

def document(page):
    return text_of(at("docs") / page)


def tables(page):
    """The rows of a document's tables: the columns of the table, and the cells of the row."""
    columns = []
    for line in document(page).splitlines():
        cells = [cell.strip() for cell in re.split(r"(?<!\\)\|", line)[1:-1]]
        if not cells:
            columns = []
        elif not columns:
            columns = cells
        elif not all(re.fullmatch(":?-+:?", cell) for cell in cells):
            yield columns, cells


def names_in(cell, folder):
    """What a cell cites of the files of a folder: crate, file without its ending, name."""
    found = re.findall(rf"`crates/(\w+)/{folder}/([^`]+)\.antt`((?:,?\s+`[^`/]+`)+)", cell)
    return [(crate, file, name) for crate, file, names in found for name in re.findall(r"`([^`]+)`", names)]
