#!/usr/bin/env python3
"""Brings the names of the repository's own definitions and lemmas to snake case.

usage: tools/respell.py            rewrites crates/, and what docs/ and README.md cite; run it once
       tools/respell.py --table    prints the names that it would turn, and writes nothing

What turns: each name with a dash that specs/*.antt or a lemma file proofs/*.antt of some crate declares (a definition,
a lemma, a field, a constructor, a lemma within one). A dash becomes `_`, as in `sum_map` and `*_assoc`, but where it joins a name to an
operator, as in `sum-+`. A word of the older library inside such a name is spelled as the library has it now.
Names of the library, names that files in proofs/F/ declare for a function's goals, functions of src/, strings, inputs
and outputs keep their spelling. A word is turned only where it stands whole.
"""
import pathlib
import re
import sys

ROOT = pathlib.Path(__file__).resolve().parent.parent
WORD = re.compile(r"[^\s(){}.;,@\"«»`]+")
DECLARED = re.compile(r"^(?P<space>\s*)(?P<words>(?:(?:pub|abbrev|unfoldable|record|data|ruleset)\s+)*)(?P<name>[^\s(){}.;,@\"«»`:]+)\s+(?=:|\()")
USE = re.compile(r"^\s*(?:pub |ghost )*use\s+(?P<path>[^\s{;]+?)(?:\.\{(?P<names>[^}]*)\}|\s+as\s+(?P<alias>\w+))?;?\s*$")
OPERATORS = {"+", "*", "-", "++", "≤", "<", "≡", "∷", "[]", "·", "^", "/", "%", "+ℤ", "*ℤ", "-ℤ", "≤ℤ", "<ℤ", "⋯", "∸", "≤-", "◌"}
LIBRARY = {"length", "map", "sum", "take", "drop", "get_or", "set", "filter", "append", "reverse", "fold", "flat_map", "nat_abs", "min", "max"}


def lemma_files():
    for crate in sorted((ROOT / "crates").iterdir()):
        for folder in ("specs", "proofs"):
            for path in sorted((crate / folder).glob("*.antt")):
                yield crate.name, folder, path


def declared(text):
    """The names that a file declares, each with the words before it and whether it stands at the margin."""
    for line in text.splitlines():
        match = DECLARED.match(line)
        if match and not line.lstrip().startswith("--"):
            inside = bool(match["space"])
            if inside and "pub" not in match["words"] and not line[match.end():].startswith(": "):
                continue
            yield match["name"], match["words"].split(), inside


def gather():
    """All declared names, and those of them that are definitions of specs/."""
    names, definitions = set(), set()
    for _, folder, path in lemma_files():
        for name, words, inside in declared(path.read_text()):
            names.add(name)
            if folder == "specs" and not inside:
                definitions.add(name)
    return names, definitions


def plain(name):
    return name.replace("-", "_")


def is_operator(part):
    return part in OPERATORS


def snake(word):
    """A word of the older library inside a name, as the library spells it now."""
    for old, new in (("natAbs", "nat_abs"), ("getD", "get_or"), ("flatMap", "flat_map"), ("isZero", "is_zero"), ("negℤ", "neg_ℤ")):
        word = re.sub(rf"(?<![A-Za-z]){old}(?![a-z])", new, word)
    return word


def respelled(name, known):
    parts = name.split("-")
    if "" in parts or len(parts) == 1:
        return snake(name)
    parts = [snake(part) for part in parts]
    new = parts[0]
    for before, part in zip(parts, parts[1:]):
        joins_names = is_operator(before) and part in known or is_operator(part) and before in known
        new += ("-" if joins_names else "_") + part
    return new


def settled(name, known):
    """The name as it stays, however often it is turned."""
    new = respelled(name, known)
    return new if new == name else settled(new, known)


def table():
    names, definitions = gather()
    known = {plain(name) for name in definitions} | OPERATORS | LIBRARY
    turned = {name: settled(name, known) for name in sorted(names)}
    turned = {old: new for old, new in turned.items() if old != new}
    seen = {}
    for old, new in turned.items():
        if new in names or new in seen:
            print(f"falls together: {old} and {seen.get(new, new)}, both {new}", file=sys.stderr)
        seen[new] = old
    return turned


def foreign(text):
    """The names that a file takes from the library, and the aliases of modules of the library."""
    names, aliases = set(), set()
    for line in text.splitlines():
        match = USE.match(line)
        if not match:
            continue
        own = match["path"].startswith("Rattle.") and not match["path"].startswith("Rattle.std.") and not match["path"].startswith("Rattle.bytes.")
        if own:
            continue
        for item in (match["names"] or "").split(","):
            if item.strip():
                names.add(item.split()[-1])
        if match["alias"]:
            aliases.add(match["alias"])
    return names, aliases


def turn(text, turned, kept=frozenset(), aliases=frozenset()):
    def word(match):
        name = match[0]
        if name not in turned or name in kept:
            return name
        before = text[: match.start()]
        head = re.search(r"(?:^|[\s(){};,])(\w+)\.$", before)
        if head and head[1] in aliases:
            return name
        return turned[name]

    return WORD.sub(word, text)


def turn_clauses(text, turned):
    """A file of src/: names with a dash stand in clauses, ghost items and comments alone."""
    return turn(text, turned)


def turn_page(text, turned):
    return re.sub(r"`[^`\n]+`", lambda span: turn(span[0], turned), text)


def main():
    turned = table()
    if "--table" in sys.argv[1:]:
        for old, new in turned.items():
            print(f"{old}\t{new}")
        return 0
    for path in sorted((ROOT / "crates").rglob("*")):
        if not path.is_file() or "out" in path.relative_to(ROOT).parts:
            continue
        text = path.read_text() if path.suffix in (".antt", ".rt", ".edit") else None
        if path.suffix == ".antt":
            new = turn(text, turned, *foreign(text))
        elif path.suffix == ".rt":
            new = turn_clauses(text, turned)
        elif path.suffix == ".edit":
            new = "".join(turn(line, turned) if line.startswith(("old:", "new:", "refused:")) else line for line in text.splitlines(keepends=True))
        else:
            continue
        if new != text:
            path.write_text(new)
    for path in [ROOT / "README.md", *sorted((ROOT / "docs").glob("*.md"))]:
        text = path.read_text()
        new = turn_page(text, turned)
        if new != text:
            path.write_text(new)
    return 0


if __name__ == "__main__":
    sys.exit(main())
