"""The tree keeps its promises about itself.

- docs/PROMISES.md, docs/THEORY.md and docs/PAGE.md name definitions, theorems, code and tests by file and name: each is declared in that file, and
  public where another file may bring it in. The must-fail edits that they name are there, and docs/PROMISES.md has a row for each.
- Where a table of the first two has the columns 'statement' and 'theorem', the statement is closed, and the theorem is declared with
  just that statement as its type, brought in from the file of specs/. Every other statement of such a file has its row too.
- A function that stands as a theorem in a table of these ensures something: the check proves that it does, or nothing is built.
- docs/PAGE.md has in each row a sentence, a definition, and what stands behind it: files and must-fail edits that are there.
- Every file of a crate that a document names stands in the tree, and docs/DESIGN.md names each file of src/, specs/ and proofs/, and
  each crate.
- A source means what its lines show: no comment stands in the midst of code, no character is unseen, no name is that of a library.
- No axiom and no hole stands in a crate, and no function of C is declared in one. No definition and no contract rests on anything of a folder proofs/;
  what the kit's own library std has there is the kit's.
- What must be read for the law, the definitions of document 01 and what they name, rests on nothing else of the tree, and has no function.
- Nothing of the world outside stands below a library: programs and their parts alone name what std has of it, or rest on the kit's crates that call
  functions of C.
- A crate names each crate that crates.txt has it rest on.
- No file of a crate, of tests/ or of bench/ is over 400 lines, and no source brings in a name that it does not use.
- Inner crates say that they are, and what other libraries show to the outside is held to its promises: tests/faces.py.
- docs/BENCHMARKS.md counts the lines and the edits of each crate as bench/cost does.
- No tracked file is missing, and none speaks of a place on somebody's machine.

tests/tree_tests.py breaks each of these rules.
"""
import importlib.machinery
import importlib.util
import pathlib
import re
import subprocess
import sys

sys.dont_write_bytecode = True  # nothing is left in the tree
import faces
import rattle
import sources
from sources import KINDS, NAME, at, brings, code_of, document, named, names_in, oddities, signatures, specs_of, tables, text_of, uses
from tokens import asked, members

LONGEST = 400
# the left column of docs/DESIGN.md: document 01 as definitions, and what they rest on
LAW = ("algebra", "forms", "verdicts", "page", "pbm")
# the kit's crates that call functions of C
OUTSIDE = ("io", "libc", "os")
# what std has of the world outside, in code: its modules, the handle by which a program reaches it, and what prints
WORLD = re.compile(r"(?<![\w.])(?:std|core)\s*::\s*(?:\{[^;]*?\b)?(?:env|fd|ffi|fs|io|net|os|process|random|rt|runtime|thread|time)\b"
                   r"|\b(?:Host)?Runtime\b|\be?print(?:ln)?\s*!|\bdbg\s*!")
# parts of programs that more than one of them has: libraries that read and write, and that only programs rest on
PARTS = ("items", "intake")
# the documents that cite by file and name
CITING = ("PROMISES.md", "THEORY.md", "PAGE.md")
# those that give a theorem for each statement
STATING = ("PROMISES.md", "THEORY.md")
CITED = re.compile(r"`((?:crates|tests)/[^`]+\.(?:antt|rt|py))`((?:,?\s+`[^`/]+`)+)")
# how a name is declared, by the file's ending; a sample, which no file brings in, need not be public
DECLARED = {
    ".antt": r"^\s*(?:(?:unfoldable|abbrev) )*pub (?:(?:record|data) )?{} ",
    "Samples.antt": r"^\s*(?:(?:unfoldable|abbrev) )*(?:pub )?{} ",
    ".rt": r"^\s*(?:pub )?(?:fn|struct|enum|trait|const) {}\b",
    ".py": r"^(?:def {}\(|{} = )",
}
# what the kit's library std has among its proofs: a few words of its own, as the powers of whole numbers
KIT_PROOFS = re.compile(r"(?<![^\s(])Rattle\.std\.proofs\.(?=[A-Z]|lemmas\.[A-Z])")
EDIT = r"`(\w+/must-fail/\w+)`"
MENTIONED = r"`((?:crates|tests|docs|bench|sheets|\.ci)/[^`*{ ]+)`"
# the columns of their tables with what is proved
PROVED = re.compile(r"\b(?:theorem|kept by the code)\b")
SENTENCES = ["sentence", "definition", "theorem, edit or test"]
PLACES = re.compile(r"/(?:{0})/|(?:^|[^\w.*/-])/(?:{0})\b".format("|".join(("opt", "home", "root", "work", "tmp", "usr", "var", "mnt", "srv", "Users"))))


# ---- documents

def citations():
    for page in CITING:
        cited = CITED.findall(document(page))
        if not cited:
            yield f"docs/{page} cites nothing"
        for file, names in cited:
            path = at(file)
            text = "" if not path.exists() else text_of(path) if path.suffix == ".py" else "\n".join(code_of(path))
            ending = max((e for e in DECLARED if file.endswith(e)), key=len)
            for name in re.findall(r"`([^`]+)`", names):
                if not re.search(DECLARED[ending].replace("{}", re.escape(name)), text, re.M):
                    yield f"docs/{page} cites {name}, which {file} does not declare"


def edits():
    tried = {f"{p.parent.parent.name}/must-fail/{p.stem}" for p in at("crates").glob("*/must-fail/*.edit")}
    for page in CITING:
        for name in sorted(set(re.findall(EDIT, document(page))) - tried):
            yield f"docs/{page} names the edit {name}, which is not in the tree"
    rows = [cells[0].strip("`") for columns, cells in tables("PROMISES.md") if columns == faces.EDITED]
    functions = {crate: {"::".join((*module.path, name)) for module in root.within() for name, _ in module.named_functions()}
                 for crate, root in faces.roots().items() if root}
    for name in sorted(name for name in tried if rows.count(name) != 1):
        yield f"docs/PROMISES.md has {rows.count(name)} rows for the edit {name}"
    for name in sorted(tried):
        said = re.findall(r"^refused: (\S+) \S+$", text_of(at(f"crates/{name}.edit")), re.M)
        if not said:
            yield f"{name} does not say which proof refuses it"
        for one in [one for one in said if not one.startswith("proofs/") and one not in functions.get(name.split("/")[0], [one])]:
            yield f"{name} is refused by {one}, which is neither a file of proofs/ nor a function of its crate"
        for file in re.findall(r"^file: (?!src/|specs/)(.*)$", text_of(at(f"crates/{name}.edit")), re.M):
            yield f"{name} is an edit of {file}, which is neither code nor a definition"


def mentions():
    for page in sorted(at("docs").glob("*.md")) + [at("README.md")]:
        for file in re.findall(MENTIONED, text_of(page)):
            if not at(file).exists():
                yield f"{named(page)} names {file}, which is not in the tree"


def drawn():
    """The files that the tables of docs/DESIGN.md name: crate, folder, file. A name goes on from the one before it: `lines/proofs/Parting`, `Counting`."""
    crate = folder = None
    for line in document("DESIGN.md").splitlines():
        if line.startswith("## "):
            crate, folder = next((name for name in re.findall(r"`(\w+)`", line) if name in sources.crates()), None), None
        for name in re.findall(r"`([^`]+)`", line.split("|")[1]) if line.startswith("| `") else ():
            *home, file = name.split("/")
            if home and home[0] in sources.crates():
                crate, *home = home
            folder = home[0] if home else folder
            yield crate, folder, file.removesuffix(".rt")


def the_map():
    # below proofs/ the folders have the names of functions, and what they hold is told by those
    parts = [(path.relative_to(sources.ROOT).parts, path.stem) for path in sources.sources()]
    files = {(names[1], names[2], stem) for names, stem in parts if len(names) == 4 or names[2] != "proofs"}
    found = set(drawn())
    for crate, folder, file in sorted(files - found):
        # a folder may be named as a whole, and what a file lib or Lib holds is told by its crate
        if file.lower() != "lib" and (crate, folder, "") not in found:
            yield f"docs/DESIGN.md does not name {file} of crates/{crate}/{folder}"
    for crate, folder, file in sorted(name for name in found - files if all(name)):
        yield f"docs/DESIGN.md names {file} of crates/{crate}/{folder}, which is not there"


def crate_rows():
    """The table of crates on the map has each crate that is listed, and no other."""
    rows = [name for columns, cells in tables("DESIGN.md") if columns[0] == "crate" for name in re.findall(r"`([^`]+)`", cells[0])]
    for name in sorted({*rows, *sources.listed()}):
        if rows.count(name) != (name in sources.listed()):
            yield f"docs/DESIGN.md has the crate {name} {rows.count(name)} times in its table, and crates.txt {int(name in sources.listed())} times"


def sentences():
    rows = list(tables("PAGE.md"))
    if not rows:
        yield "docs/PAGE.md has no row"
    for columns, cells in rows:
        if columns != SENTENCES or len(cells) != len(SENTENCES) or not all(cells):
            yield f"docs/PAGE.md: the row {' | '.join(cells)} has not {', '.join(SENTENCES)}"
            continue
        behind = re.findall(r"`[^`]*/[^`]*`", cells[-1])
        if not behind:
            yield f"docs/PAGE.md names nothing that stands behind {cells[0]}"
        # an edit that is missing is told of by the rule for edits, and a file of a known folder by that for what documents name
        for name in [name for name in behind if not re.fullmatch(EDIT, name)]:
            path = at(name.strip("`")).resolve()
            if not (path.is_file() and path.is_relative_to(sources.ROOT)) and (path.exists() or not re.fullmatch(MENTIONED, name)):
                yield f"docs/PAGE.md has {name} behind {cells[0]}, which is neither a file nor an edit"


def ensured():
    """A function that is cited as a theorem has a contract to keep."""
    modules = [module for root in faces.roots().values() if root for module in root.within()]
    functions = {(named(module.file), said): one for module in modules for name, one in module.named_functions() for said in (name, one.name)}
    for page in CITING:
        for columns, cells in tables(page):
            cited = [found for column, cell in zip(columns, cells) if PROVED.search(column) for found in CITED.findall(cell)]
            for file, name in [(file, name) for file, names in cited for name in re.findall(r"`([^`]+)`", names)]:
                one = functions.get((file, name))
                if one and "ensures" not in [word for word, _ in one.clauses]:
                    yield f"docs/{page} has {name} of {file} as a theorem, which ensures nothing"


# ---- statements

def closed():
    """What specs/ declare as a type that leaves nothing open: crate and file, and how it is declared."""
    for path in sorted(at("crates").glob("*/specs/**/*.antt")):
        _, crate, _, *file = path.relative_to(sources.ROOT).with_suffix("").parts
        for one in signatures(path):
            if re.match(r"\(*Type(?![^\s()])", one.type) and "→" not in one.type:
                yield crate, "/".join(file), one


def stated():
    """The rows under the columns 'statement' and 'theorem': those two cells of each."""
    return [cells[-2:] for page in STATING for columns, cells in tables(page) if columns[-2:] == ["statement", "theorem"]]


def statements():
    found = [((crate, file, one.name), one) for crate, file, one in closed()]
    things = {fact for fact, one in found if {"record", "data"} & set(one.marks)}
    complete, met = {fact for fact, _ in found} - things, set()
    for (crate, file, name), one in found:
        if one.type != "Type 0":
            yield f"crates/{crate}/specs/{file}.antt declares {name} with {one.type}, where a statement has Type 0"
    for statement, theorem in stated():
        said = [fact for fact in names_in(statement, "specs") if fact in complete]
        proved = names_in(theorem, "proofs")
        met.update(said)
        for crate, file, name in [fact for fact in names_in(statement, "specs") if fact in things]:
            yield f"{name} of crates/{crate}/specs/{file}.antt is no statement: {statement} | {theorem}"
        if not said or len(said) != len(proved):
            yield f"{statement} | {theorem} has not one theorem for each closed statement"
            continue
        for (crate, file, name), (home, proof, witness) in zip(said, proved):
            path = at(f"crates/{home}/proofs/{proof}.antt")
            declared = [(one.margin, one.marks, one.type) for one in signatures(path) if one.name == witness] if path.exists() else []
            if declared != [(0, ["pub"], name)]:
                yield f"crates/{home}/proofs/{proof}.antt does not declare `pub {witness} : {name}`"
            elif not brings(path, specs_of(crate, file), name):
                yield f"crates/{home}/proofs/{proof}.antt does not bring in {name} from crates/{crate}/specs/{file}.antt"
    for crate, file, name in sorted(complete - met - KINDS):
        yield f"no document has a theorem for the statement {name} of crates/{crate}/specs/{file}.antt"


# ---- sources

def readable():
    """Every source means what its lines show, and the modules of every crate are understood."""
    odd = set()
    for path in sources.sources():
        # the first of a line may bring others with it
        for number, what in dict(reversed(list(oddities(path)))).items():
            odd.add(path.relative_to(sources.ROOT).parts[1])
            yield f"{named(path)}:{number} has {what}"
    for crate in [crate for crate in sources.crates() if crate not in odd]:
        try:
            rattle.crate_at(crate)
        except rattle.Unread as fault:
            line, what, file = fault.args
            yield f"{named(file)}:{line} has {what}"


def disguises():
    """No name that a file brings in, or that stands below it, is a library's: a `use` that begins with it would mean something else."""
    for path in sources.sources():
        brought = list(uses(path))
        libraries = {use.home.split(".")[0] for use in brought}
        below = [(number, found[1]) for number, line in enumerate(code_of(path), 1) if (found := re.match(rf"\s*(?:pub )?mod ({NAME})", line))]
        for number, name in [(use.line, name) for use in brought for _, name in use.items] + below:
            if name in libraries or name.startswith("Rattle"):
                yield f"{named(path)}:{number} gives something else the name of the library {name}"


def in_antt(path):
    """What of a source is antt, with the number of its line: of code that is what stands in clauses, since elsewhere a `?` passes an error on."""
    if path.suffix == ".antt":
        return list(enumerate(code_of(path), 1))
    try:
        return rattle.clauses(text_of(path))
    except rattle.Unread:
        return []


def axioms_and_holes():
    for path in sources.sources():
        words = {number for number, line in enumerate(code_of(path), 1) if {"axiom", "Axiom"} & set(re.findall(NAME, line))}
        for number in sorted(words | {number for number, text in in_antt(path) if "?" in text or "{!" in text}):
            yield f"{named(path)}:{number} has an axiom or a hole"
    for root in filter(None, faces.roots().values()):
        for module in root.within():
            for line in module.foreign:
                yield f"{named(module.file)}:{line} declares functions of C, whose contracts nothing proves"


def in_laws(path):
    """The lines of code that bring in from proofs/ what stands nowhere but in proofs of laws: in what an `impl` gives for a member that a trait of the file
    declares below its last function."""
    text = "\n".join(code_of(path))
    bodies = re.findall(r"^(?:pub )?trait\b[^{]*\{(.*?)^\}", text, re.M | re.S)
    laws = {name for body in bodies if " fn " in body for name in re.findall(r"^ *ghost (\w+): \{", body[body.rfind(" fn "):], re.M)}
    # what a clause names is data, wherever it is declared: in its own crate by any word, in another as a type's member
    kin = sorted(at(f"crates/{path.relative_to(sources.ROOT).parts[1]}/src").glob("**/*.rt"))
    laws = laws.difference(*(asked(text_of(one)) for one in kin), *(members(text_of(one)) for one in sources.sources() if one.suffix == ".rt"))
    rest = re.sub(r"^( +)ghost (\w+) = \{.*?\};$", lambda found: "" if found[2] in laws else found[0], text, flags=re.M | re.S)
    words = set(re.findall(NAME, sources.GHOST_USE.sub("", rest)))
    return {use.line for use in uses(path) if use.items and all(item and name not in words and not {*name.split("◌")} & words for item, name in use.items)}


def definitions_alone():
    """What a reader must believe is in specs/ and in the contracts: nothing of proofs/ is behind them, by whatever path it is named. A law is a statement, and
    what proves it may be."""
    for path in [path for path in sources.sources() if path.suffix == ".rt" or "specs" in path.relative_to(sources.ROOT).parts]:
        proving = in_laws(path) if path.suffix == ".rt" else ()
        for number, line in enumerate(code_of(path), 1):
            if number not in proving and re.search(r"\bproofs\b", KIT_PROOFS.sub("", line)):
                yield f"{named(path)}:{number} rests on something of proofs/"


def worldless():
    """Nothing of the world outside stands below a library, but for the parts of programs: docs/ASSUMPTIONS.md says that its calls rest on no function of C."""
    for crate, below in sources.listed().items():
        if crate in PARTS or at(f"crates/{crate}/src/main.rt").is_file() and not at(f"crates/{crate}/src/lib.rt").is_file():
            continue
        for name in [name for name in OUTSIDE + PARTS if name in below]:
            yield f"crates.txt has {crate}, which is no program, rest on {name}"
        for path in sorted(at(f"crates/{crate}/src").glob("**/*.rt")):
            text = "\n".join(code_of(path))
            for found in WORLD.finditer(text):
                yield f"{named(path)}:{text[:found.start()].count(chr(10)) + 1} names `{' '.join(found[0].split())}`, and {crate} is no program"


def named_below():
    """A crate names each crate that it is listed to rest on, in its code, its definitions or its proofs; or crates.txt says what it needs it for."""
    for crate, below in sources.listed().items():
        files = [path for path in sources.sources() if path.relative_to(sources.ROOT).parts[1] == crate]
        text = "\n".join(line for path in files for line in code_of(path))
        for name in [name for name in below if not re.search(rf"(?<![\w.])Rattle\.{name}\b|(?<![\w:.]){name}::", text) and (crate, name) not in sources.explained()]:
            yield f"crates.txt has {crate} rest on {name}, which it does not name"


def law():
    """Nothing but the law stands below it, and no code."""
    for crate, below in sources.listed().items():
        for name in below if crate in LAW else ():
            if name not in LAW:
                yield f"crates.txt has {crate}, which is of the law, rest on {name}"
    for crate, root in faces.roots().items():
        for function in [one for module in root.within() for one in module.functions()] if root and crate in LAW else ():
            yield f"{crate} is of the law and has the function {function.name}"


def lengths():
    for path in [*sources.sources(), *sorted(at("tests").glob("*.py")), *sorted(at("bench").glob("*"))]:
        count = len(text_of(path).splitlines())
        if count > LONGEST:
            yield f"{named(path)} has {count} lines, over {LONGEST}"


def imports():
    """Names brought in by `use`, and in code by `ghost use`, that a file does not use; of an operator, its parts."""
    for path in sources.sources():
        body = (sources.USE if path.suffix == ".antt" else re.compile(r"^[ \t]*(?:pub |ghost )*use [^;]*;", re.M)).sub("", "\n".join(code_of(path)))
        words = set(re.findall(NAME, body))
        for use in uses(path):
            for name in [name for _, name in use.items if "pub" not in use.marks and name != "*"]:
                if name not in words and not ("◌" in name and all(part in words for part in name.split("◌") if part)):
                    yield f"{named(path)}:{use.line} brings in {name} and does not use it"


# ---- the whole tree

def counting():
    """bench/cost as a module, for the tree that is looked at."""
    loader = importlib.machinery.SourceFileLoader("cost", str(pathlib.Path(__file__).resolve().parent.parent / "bench" / "cost"))
    cost = importlib.util.module_from_spec(importlib.util.spec_from_loader("cost", loader))
    loader.exec_module(cost)
    cost.ROOT = sources.ROOT
    return cost


def costs():
    cost = counting()
    written = {cells[0]: cells[1:len(cost.LINES) + 1] for columns, cells in tables("BENCHMARKS.md") if columns == ["crate", *cost.COLUMNS]}
    counted = {name: [f"{count:,}" for count in cells] for name, cells in cost.counted()}
    for name in [name for name in counted if written.get(name) != counted[name]]:
        yield f"docs/BENCHMARKS.md has not what bench/cost counts of {name}: bench/cost --update"
    if [name for name in written if name in counted] != [name for name in counted if name in written] or set(written) - set(counted):
        yield "docs/BENCHMARKS.md has other rows than bench/cost: bench/cost --update"


def places():
    tracked = subprocess.run(["git", "ls-files", "-co", "--exclude-standard"], cwd=sources.ROOT, capture_output=True, text=True, check=True).stdout.split("\n")
    for name in filter(None, tracked):
        path = at(name)
        if not path.is_file():
            yield f"{name} is tracked, and is no file of the tree"
            continue
        for number, line in enumerate(path.read_text(errors="replace").splitlines(), 1):
            if PLACES.search(line.replace("#!/usr/bin/env", "")):
                yield f"{name}:{number} names a place on a machine"


RULES = (
    citations, statements, edits, sentences, ensured, mentions, the_map, crate_rows, readable, disguises, axioms_and_holes, definitions_alone, law,
    worldless, named_below, lengths, imports,
    faces.inner_crates, faces.shown_types, faces.contracts, faces.promises_told, faces.known_calls, faces.one_outcome, faces.wrong_answers, costs, places,
)


def main():
    faults = [fault for rule in RULES for fault in rule()]
    for fault in faults:
        print(fault)
    print(f"tree: {len(faults)} faults in {len(sources.sources())} source files")
    return 1 if faults else 0


if __name__ == "__main__":
    sys.exit(main())
