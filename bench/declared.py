"""What a source declares, name by name, for bench/moved.

A declaration of an .antt file is its type, its `unfolding` line, its clauses with what stands under `where`, and the `infix` lines before it. The parameters
of a module around it are no part of it; they are kept beside it. In an .rt file the items are declarations, those of an `impl` too, and of a function its
contract is one by itself. That of a public call has its names from outside and its signature besides. Comments and white space are no part of anything.

What brings names in (`use`, `mod`) declares nothing, but a `pub use` of an .antt file declares the names that it gives. With each word of a declaration
stands what it means where it is a name: the module that it comes from, the name there, and for the types of code what of the type it is.
"""
import collections
import dataclasses
import functools
import pathlib
import re
import sys
import textwrap

sys.path.insert(0, str(pathlib.Path(__file__).resolve().parent.parent / "tests"))
from sources import KINDS, uses_in

QUOTED = r'"(?:\\.|[^"\\])*"'
# a word of an .antt file, or of a contract; a field keeps its dot, as in `S.k`. Code has words of its own
WORD = re.compile(QUOTED + r"|\.?[^\s(){}.,;@\"«»]+|\S")
CODE = re.compile(QUOTED + r"|\w+|::|\S")
REMARKS = {
    ".antt": re.compile(rf"({QUOTED})|\{{-.*?-\}}|(?<![^\s(){{}}.,;])--[^\n]*", re.S),
    ".rt": re.compile(rf"({QUOTED}|'(?:\\.|[^'\\])')|/\*.*?\*/|//[^\n]*", re.S),
}
BRINGS = re.compile(r"\s*(?:pub |ghost )*(?:use|mod) ")
MARKS = "pub", "abbrev", "unfoldable", "axiom"
CONTRACT = re.compile(r"^\s+(?:ghost|requires|ensures)(?: \w+:?)? \{.*?(?=^\{)", re.M | re.S)
TYPES = "struct", "enum", "const", "static", "type"
OPENING, CLOSING = {"(", "{", "["}, {")", "}", "]"}
# what is of Type 0 and no statement
NO_STATEMENTS = {name for *_, name in KINDS}
# what ends the names that stand after a word; after a comma they stand in signatures of code alone
ENDS = {"λ": {"."}, "let": {":", "="}, "(": {":"}, "{": {":"}}
GIVEN = {**ENDS, ",": {":"}}
# cases that no file brings in
CASES = {"yes", "no", "refl", "tt"}


@dataclasses.dataclass(frozen=True)
class Declared:
    kind: str  # definition, statement, contract, function or proof
    path: str
    name: str
    words: tuple
    origin: str = ""  # its path before its file got another name
    nth: int = 0  # among those of one kind and name in a file
    within: tuple = ()  # the heads of the modules that it stands in
    members: tuple = ()  # its cases or fields
    lefts: tuple = ()  # the left sides of its clauses
    code: int = 0  # how many of its words, from the first, are code
    public: bool = False
    means: tuple = ()  # what its words mean, and those of the modules around it: all that a name may stand for

    @property
    def passes(self):
        """Whether it only passes a name on, by `pub use`."""
        return self.words[-2:-1] == ("use",)

    @property
    def home(self):
        return self.origin or self.path

    @property
    def crate(self):
        return self.home.split("/")[1]

    @property
    def place(self):
        return self.kind, self.path, self.name, self.nth

    def variables(self):
        """The names of its own: what it takes, and what stands after λ or `let`. A word by a dot, or first in brackets, may be a case's."""
        found = {word for left in self.lefts for n, word in enumerate(left) if n and left[n - 1] not in ("(", ".") and left[n + 1:n + 2] != (".",)}
        ends = GIVEN if self.public else ENDS
        for n, word in enumerate(self.words):
            if word in ends:
                end = next((m for m in range(n + 1, len(self.words)) if self.words[m] in (*OPENING, *CLOSING, ".", ",", ";", ":", "=")), n)
                found.update(self.words[n + 1:end] if self.words[end] in ends[word] else ())
        return {word for word in found if word[0].isalpha()} - CASES


def words_of(text, modules=()):
    """The words of a text in antt. By a module that is brought in, what stands after its dot is a name of that, and no field."""
    found = []
    for word in WORD.findall(text):
        found += [".", word[1:]] if word[0] == "." and word[1:] and found and found[-1] in modules else [word]
    return tuple(found)


def modules_in(lines, suffix):
    """The modules that a file brings in, by the names that it gives them."""
    return {name for use in uses_in("\n".join(lines), suffix) for item, name in use.items if item is None}


def parts(name):
    """A name and its parts: `◌when◌` and `when`; of a function of a type the last."""
    return {name, *filter(None, name.split("◌")), name.split("::")[-1]}


def indent(line):
    return len(line) - len(line.lstrip())


def items(lines):
    """What stands side by side. A line that is indented least begins an item, unless it begins with a bracket that goes on; the lines after it are its own."""
    margin = min(map(indent, lines), default=0)
    found = []
    for line in lines:
        if not found or indent(line) == margin and line[margin] not in "{)]}":
            found.append([])
        found[-1].append(line)
    return found


def outside(words, sought):
    """Where the first of the words sought stands outside all brackets, or None."""
    depth = 0
    for n, word in enumerate(words):
        depth += (word in OPENING) - (word in CLOSING)
        if depth == 0 and word in sought:
            return n
    return None


def head_of(words):
    """The name that is declared here, and by which word if one says it (`record`, `data`, `ruleset`); None for a clause."""
    head = words[next((n for n, word in enumerate(words) if word not in MARKS), 0):]
    if head[0] in ("record", "data", "ruleset"):
        return head[1], head[0]
    sign = outside(head, (":", "="))
    return (head[0], None) if sign and head[sign] == ":" else None


def members(item):
    """The cases that stand under `data`, the fields under `record`."""
    end = next((n for n, line in enumerate(item, 1) if line.rstrip().endswith("where")), len(item))
    for inner in items(item[end:]):
        words = words_of("\n".join(inner))
        yield from (word for word in words[:outside(words, (":",))] if word not in MARKS)


def blocks(lines, modules, within=()):
    """The declarations of an .antt file: the parts of each, which are `infix` lines, the type line and the rest; the type's lines; the modules around it."""
    before, found = [], []
    for item in items(lines):
        words = words_of("\n".join(item), modules)
        if BRINGS.match(item[0]):
            continue
        if words[0] in ("module", "mutual"):
            end = next((n for n, line in enumerate(item, 1) if words[0] == "mutual" or line.rstrip().endswith("where")), len(item))
            found += blocks(item[end:], modules, (*within, words_of("\n".join(item[:end]), modules)))
        elif words[0].startswith("infix"):
            before.append(words)
        elif words[0] != "unfolding" and head_of(words):
            found.append(([*before, words], item, within))
            before = []
        elif found:
            found[-1][0].append(words)
        else:
            raise ValueError(f"nothing is declared before `{' '.join(words)[:80]}`")
    if before and found:
        found[-1][0].extend(before)
    return found


def kind_of(path, words, name, said):
    """What a declaration is, by its type line."""
    if "/proofs/" in path:
        return "proof"
    head = words[:words.index("where")] if said in ("record", "data") and "where" in words else words
    alone = head[-4:] == (name, ":", "Type", "0")
    if path.endswith("/specs/Promises.antt"):
        return "statement" if head[-2:] == ("Type", "0") and not (alone and said) else "definition"
    return "statement" if alone and not said and name not in NO_STATEMENTS else "definition"


def read_antt(path, lines):
    for use in uses_in("\n".join(lines), ".antt"):
        for name in [name for _, name in use.items if "pub" in use.marks]:
            yield Declared("proof" if "/proofs/" in path else "definition", path, name, (*use.marks, "use", name))
    for block, item, within in blocks(lines, modules_in(lines, ".antt")):
        first = next(words for words in block if not words[0].startswith("infix"))
        name, said = head_of(first)
        lefts = tuple(words[:outside(words, ("=",))] for words in block if words is not first and outside(words, ("=",)))
        inner = tuple(members(item)) if said in ("record", "data") else ()
        yield Declared(kind_of(path, first, name, said), path, name, sum(block, ()), within=within, members=inner, lefts=lefts)


def type_of(head):
    """The name of the type whose functions stand under a head, as in `impl<'a> path::Type<'a>`."""
    depths = [head[:n].count("<") - head[:n].count(">") for n in range(len(head))]
    return [word for word, depth in zip(head, depths) if not depth and word[0].isalpha()][-1]


def read_rt(path, lines, shown, within=()):
    """The declarations of code. The public calls are given, with their names from outside. Where the items are those of a type, it is given how that begins."""
    before, owner, modules = (), f"{type_of(within[0])}::" if within else "", modules_in(lines, ".rt")
    for item in items(lines):
        text = "\n".join(item)
        words = tuple(CODE.findall(text))
        if words[0] == "#":
            # what is for the whole file is part of no item
            before += words if words[1] != "!" else ()
            continue
        if BRINGS.match(text) and words[-1] == ";":
            continue
        head = words[:next((n for n, word in enumerate(words) if word in ("(", "{", "=", ";")), len(words))]
        if "fn" in head:
            name = owner + head[head.index("fn") + 1]
            said = words_of("".join(CONTRACT.findall(text)), modules)
            plain = CONTRACT.sub("", text)
            face = ()
            if outside_names := sorted(shown.get((path, name), ())):
                signature = tuple(CODE.findall(plain[:plain.index("\n{") if "\n{" in plain else plain.index("{")]))
                face = (*(word for one in outside_names for word in CODE.findall(one)), *before, *signature)
            if said or face:
                yield Declared("contract", path, name, face + said, within=within, code=len(face), public=bool(face))
            body = before + tuple(CODE.findall(plain))
            yield Declared("function", path, name, body, within=within, code=len(body))
        elif words[0] == "impl" and len(item) > 1:
            inner = textwrap.dedent("\n".join(item[next(n for n, line in enumerate(item, 1) if line.rstrip().endswith("{")):-1]))
            yield from read_rt(path, inner.splitlines(), shown, (before + head,))
        else:
            name = owner + next((head[n + 1] for n, word in enumerate(head[:-1]) if word in TYPES), " ".join(head))
            yield Declared("definition", path, name, before + words, within=within, code=len(before + words))
        before = ()


def module_of(path):
    """By which name the declarations of a file are brought in elsewhere. The types of a crate's code count as one file."""
    _, crate, *rest = path.rsplit(".", 1)[0].removesuffix("/Lib").split("/")
    return ".".join([f"Rattle.{crate}", *rest]) if path.endswith(".antt") else f"Rattle.{crate}.specs.declared"


def meaning(module, name):
    """What a name of a module stands for, or the module itself. A type of code has a module of its own, which holds the type and what belongs to it."""
    if found := re.fullmatch(r"(Rattle\.\w+\.specs\.declared)\.(?:[a-z]\w*\.)*([^.]+)(.*)", module):
        return found[1], found[2], f"{found[3]}.{name or ''}" if (found[2], "") != (name, found[3]) else ""
    return module, name or "", "" if name else "."


def known_in(path, lines, found):
    """The names that mean something in a file, and what those that are none of code stand for: those that it brings in, and its own, cases and fields too."""
    known, suffix = collections.defaultdict(set), pathlib.PurePath(path).suffix
    brought = [line for line in lines if BRINGS.match(line)]
    names = {word for line in brought for word in words_of(BRINGS.sub("", line.replace("::", " ")).replace(".", " "))}
    names.update(re.findall(r"::(\w+)", "\n".join(lines)) if suffix == ".rt" else ())
    for part in [part for name in names for part in parts(name)]:
        known[part].update()
    for original, name, module in [(*item, use.home) for use in uses_in("\n".join(lines), suffix) for item in use.items]:
        for part in parts(name):
            known[part].add(meaning(module, original))
    for one, name, part in [(one, name, part) for one in found for name in (one.name, *one.members) for part in parts(name)]:
        known[part].update([(module_of(path), name, "")] if one.kind not in ("function", "contract") and not one.passes else ())
    return dict(known)


def read(path, text, code):
    """The declarations of a file, and the names that mean something in it. Of the whole tree the code is given."""
    suffix = pathlib.PurePath(path).suffix
    lines = [line for line in REMARKS[suffix].sub(lambda remark: remark[1] or "", text).splitlines() if line.strip()]
    seen, found = collections.Counter(), []
    try:
        for one in read_rt(path, lines, code.shown) if suffix == ".rt" else read_antt(path, lines):
            found.append(dataclasses.replace(one, nth=seen[one.kind, one.name]))
            seen[one.kind, one.name] += 1
    except ValueError as fault:
        raise ValueError(f"{path} cannot be read: {fault}") from None
    known, in_code = known_in(path, lines, found), functools.cache(lambda word: code.meant(path, word))

    def means(one):
        """What comes after `::` is no name by itself, and a module is what stands before a dot."""
        words = one.words + sum(one.within, ())
        for n, word in enumerate(words):
            found = known.get(word, set()) if n >= one.code else in_code(word) if words[n - 1] != "::" else set()
            modules = {meant for meant in found if meant[2].endswith(".")}
            yield frozenset((modules if words[n + 1:n + 2] == (".",) else found - modules) or found)
    return [dataclasses.replace(one, means=tuple(means(one))) for one in found], set(known)
