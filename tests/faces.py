"""The public faces: what the libraries show that are called from outside, and what is asked of each of their calls.

Inner crates are named here, and say so themselves. Every other library is called from outside, and every function that it shows is a call: one at the
root or in a public module, its own or another crate's that it passes on by path, list, star or another name, one of a type that can be met there,
and one that C may call. A call

- has no `requires`, and one `ensures`, which is a promise of its crate's specs/Promises.antt on all that is given and on the outcome, and no more;
  and docs/PROMISES.md gives that promise for it;
- has a promise with the types of what it speaks of, that nobody chooses, and one clause, which speaks of each of these things;
- has one outcome: docs/PROMISES.md gives for it a statement of specs/Promises.antt, and a theorem, that no two outcomes of these types satisfy the promise;
- is shown, where a table of a document has its rows by call;
- has two wrong answers at least: edits of its crate whose rows in docs/PROMISES.md begin with its name. Where proofs of functions refuse such an edit,
  one of them is that of the call itself, or of a function that it comes to and that is no other call.
"""
import collections
import re

import rattle
from rattle import Unread
from sources import NAME, WORDS, at, blocks, brings, code_of, crates, named, names_in, signatures, specs_of, tables, text_of, uses

INNER = ("algebra", "forms", "numbers", "weight", "verdicts", "tables", "local", "page", "pbm", "decimals", "cells", "marks", "lines", "writing", "header", "words", "items", "intake", "starred",
         "earlier", "returning")
# what the first comment of an inner crate says: where it has functions, types alone, or nothing
FUNCTIONS = "An inner crate: what its functions require, every caller proves."
TYPES = "An inner crate: types, and no functions."
NOTHING = "No code"
# a line of each crate's root file, by which the prover tries its tactics
TACTIC = "#![tactic(auto)]"
# what a sheet is given by
SHEET = ("d", "coefficients.now", "x", "y", "s", "k")
# an answer, in a clause
ANSWER = "result"
EDITED = ["edit", "what it would mean", "refused by"]
WRONG = 2

# a function that is shown: its name from outside, the crate that has it, and the function
Call = collections.namedtuple("Call", "shown name crate function")
# what a call ensures: the promise's name, the types of the things that it speaks of, and which of these are outcomes
Promise = collections.namedtuple("Promise", "name types outcomes")


class Fault(Exception):
    """What is wrong with a call."""


# ---- crates

def roots():
    """The crates that can be read, by their names. What can't be read is told by the rule `readable` of tests/tree.py."""
    found = {}
    for crate in crates():
        try:
            found[crate] = rattle.crate_at(crate)
        except Unread:
            continue
    return found


def public():
    """The libraries that are called from outside, and what each shows."""
    yield from shown_by(rattle.Faces({crate: root for crate, root in roots().items() if root}))


def shown_by(faces):
    """Those among the crates that were read."""
    for crate in faces.roots:
        if crate not in INNER and faces.roots[crate].file.name == "lib.rt":
            yield crate, faces.face(crate)


def calls():
    """Every call, under each name that it has."""
    met = set()
    for _, (functions, _, _) in public():
        for shown, function in functions:
            name = shown.split("::")[-1]
            if (name, id(function)) not in met:
                met.add((name, id(function)))
                yield Call(shown, name, function.module.crate, function)


def inner_crates():
    found = roots()
    for crate in [crate for crate in INNER if crate not in crates()]:
        yield f"tests/faces.py names the inner crate {crate}, which is not there"
    for crate, root in found.items():
        if root is None:
            yield f"crates/{crate} is neither a library nor a program"
        elif crate in INNER and root.file.name != "lib.rt":
            yield f"tests/faces.py names the inner crate {crate}, which is a program"
        elif crate in INNER:
            comment = " ".join(line[2:].strip() for line in re.match(r"(?://.*\n?)*", text_of(root.file))[0].split("\n"))
            functions = [item for module in root.within() for item in module.functions()]
            says = FUNCTIONS if functions else TYPES if "".join(code_of(root.file)).replace(TACTIC, "").strip() else NOTHING
            if says not in comment:
                yield f"{named(root.file)} does not say '{says}'"
            for function in functions:
                if function.exported:
                    yield f"{crate} is an inner crate, and C may call {function.name}"


def shown_types():
    """What else a library shows: nothing that asks for more than a contract says, or that no promise of an answer could speak of."""
    for crate, (functions, types, lost) in public():
        if not functions:
            yield f"{crate} is no inner crate and has no public call"
        for name in lost:
            yield f"{name} is of no crate here"
        for one in types:
            if any(token == "ghost" or isinstance(token, tuple) for token in one.tokens):
                yield f"{crate} shows the type {one.name}, which asks for a proof"
            elif "&" in one.tokens:
                yield f"{crate} shows the type {one.name}, which holds a reference"


# ---- contracts

def given(call):
    """What a promise speaks of: a call's sheet, the others that it is given, a lent place before, the answer, and the place after. The last are outcomes."""
    plain, lent = [], []
    for name, kind in call.function.given:
        name = f"«{name}»" if re.fullmatch(WORDS, name) else name
        if "&" in kind[1:]:
            raise Fault(f"{call.shown} is given a reference within another type")
        if kind[0] != "&":
            plain.append(name)
        elif "mut" in kind[1:3]:
            lent.append(name)
        else:
            plain.append(f"{name}.now")
    said = "\n".join(plain).replace("\n".join(SHEET), f"(sheet_of {' '.join(SHEET)})").split("\n") if plain else []
    return [*said, *(f"{name}.old" for name in lent)], [ANSWER, *(f"{name}.new" for name in lent)]


def types_of(file, name):
    """The types of what a promise speaks of: declared without braces, so that a type is the one that is written, and spoken of in its one clause."""
    said = [text for _, margin, text in blocks(file) if not margin and re.search(rf"(?:^|\s){name}(?:\s|$)", text.split(" = ")[0].split(" : ")[0])]
    found = len(said) == 2 and re.fullmatch(rf"(?:\w+ )+{name} : ([^{{}}:=]*) → Type 0", said[0])
    clause = found and re.fullmatch(rf"{name} ((?:(?!= ){NAME} )+)= (.*)", said[1])
    types, things = (found[1].split(" → "), clause[1].split()) if clause else ([], [])
    if not clause or not len(types) == len(things) == len(set(things)):
        raise Fault(f"{name} of {named(file)} has not a type for each thing that it speaks of, and one clause")
    words = re.findall(NAME, clause[2])
    for thing in things:
        if thing not in words:
            raise Fault(f"{name} of {named(file)} says nothing of {thing}")
    for word in ("where", "let", "λ"):
        if word in words:
            raise Fault(f"{name} of {named(file)} has a `{word}`, by which a name may mean something else")
    return types


def promise_of(call):
    """The promise that a call ensures."""
    function, file = call.function, call.function.module.file
    for word, _ in function.clauses:
        if word != "ensures":
            raise Fault(f"{call.shown} is a public call and has a `{word}`")
    if len(function.clauses) != 1:
        raise Fault(f"{call.shown} is a public call and has not one `ensures`")
    if "&" in function.answer:
        raise Fault(f"{call.shown} answers a reference")
    if ANSWER in [name for name, _ in function.given]:
        raise Fault(f"{call.shown} is given a thing by the name of its answer, {ANSWER}")
    said, (before, after) = function.clauses[0][1], given(call)
    # the promise of all that is given, of the outcome, and of the place before and after: nothing beside it
    promise = re.fullmatch(rf"(\w+) {re.escape(' '.join(before + after))}", said)
    name, promises = promise and promise[1], at(f"crates/{call.crate}/specs/Promises.antt")
    declared = [one.name for one in signatures(promises) if not one.margin and "pub" in one.marks] if promises.is_file() else []
    if name not in declared or not brings(file, specs_of(call.crate, "Promises"), name):
        raise Fault(f"{call.shown} ensures what is no promise of crates/{call.crate}/specs/Promises.antt")
    if "(sheet_of " in said and not brings(file, specs_of("page", "Sheet"), "sheet_of"):
        raise Fault(f"{call.shown} speaks of another sheet than that of crates/page/specs/Sheet.antt")
    for operator in [brought for use in uses(file) for _, brought in use.items if "◌" in brought]:
        if set(operator.split("◌")) & set(re.findall(NAME, said)):
            raise Fault(f"{call.shown} ensures something by a word of the operator {operator}")
    types = types_of(promises, name)
    if len(types) != len(before + after):
        raise Fault(f"{call.shown} ensures {name} of other things than it speaks of")
    return Promise(name, types, list(range(len(before), len(types))))


def contracts():
    for call in calls():
        try:
            promise_of(call)
        except Fault as fault:
            yield str(fault)


def kept():
    """The calls whose contracts are right, and their promises."""
    for call in calls():
        try:
            yield call, promise_of(call)
        except Fault:
            continue


def promises_told():
    rows = [cells for columns, cells in tables("PROMISES.md") if columns[:2] == ["call", "promise"]]
    for call, promise in kept():
        facts = [fact for cells in rows if re.match(rf"`{call.name}`", cells[0]) for fact in names_in(cells[1], "specs") if fact[0] == call.crate]
        if facts != [(call.crate, "Promises", promise.name)]:
            yield f"docs/PROMISES.md does not give {promise.name} as the promise of {call.shown}"


def known_calls():
    """Every table of a document that has its rows by call has them for calls that are shown, and a last one for all of them."""
    names = {call.name for call in calls()}
    for page in sorted(at("docs").glob("*.md")):
        for columns, cells in tables(page.name):
            found = re.match(r"`(\w+)`", cells[0])
            if columns[0] == "call" and cells[0] != "all" and not (found and found[1] in names):
                yield f"{named(page)} has a row for the call {cells[0]}, which nothing shows"


# ---- one outcome

def says_one(text, promise):
    """Whether a statement says that of any two outcomes that satisfy a promise, at the same things given, each part is the same."""
    binder = r"\(([^():]+) : ((?:[^()]|\([^()]*\))+)\) "
    found = re.fullmatch(rf"((?:{binder})+)→ {promise.name} ([^()→]+) → {promise.name} ([^()→]+) → (.*)", text)
    if not found:
        return False
    bound = [(name, kind) for names, kind in re.findall(binder, found[1]) for name in names.split()]
    one, other, count = found[4].split(), found[5].split(), len(promise.types)
    if not len(one) == len(other) == count or [n for n in range(count) if one[n] != other[n]] != promise.outcomes:
        return False
    # everything that the promise speaks of, in its order and with its type, and an outcome twice
    spoken = [(name, promise.types[n]) for n in range(count) for name in ([one[n], other[n]] if n in promise.outcomes else [one[n]])]
    same = [f"{one[n]} ≡ {other[n]}" for n in promise.outcomes]
    both = same[0] if len(same) == 1 else " × ".join(f"({part})" for part in same)
    return len({name for name, _ in spoken}) == len(spoken) and bound == spoken and found[6] == both


def one_outcome():
    rows = [cells for columns, cells in tables("PROMISES.md") if columns == ["call", "statement", "theorem"]]
    for call, promise in kept():
        file = at(f"crates/{call.crate}/specs/Promises.antt")
        facts = [fact for cells in rows if cells[0] == f"`{call.name}`" for fact in names_in(cells[1], "specs")]
        cited = [name for crate, home, name in facts if (crate, home) == (call.crate, "Promises")]
        if len(cited) != 1:
            yield f"docs/PROMISES.md has not one statement of crates/{call.crate}/specs/Promises.antt that {call.shown} has one outcome"
            continue
        texts = [text.removeprefix(f"{cited[0]} = ") for _, margin, text in blocks(file) if not margin and text.split()[0] == cited[0]]
        if len(texts) != 1 or not says_one(texts[0], promise):
            yield f"{cited[0]} of crates/{call.crate}/specs/Promises.antt does not say that {promise.name} has one outcome"
    for file in sorted({at(f"crates/{call.crate}/specs/Promises.antt") for call, _ in kept()}):
        others = [brought for use in uses(file) for _, brought in use.items] + [one.name for one in signatures(file)]
        if not brings(file, "Rattle.std.specs.Prelude", "◌≡◌") or any("×" in name for name in others):
            yield f"{named(file)} may mean something else by ≡ or ×"


# ---- wrong answers

def reached(call, others):
    """The functions of its crate that a call comes to, by their names: itself, those that it calls, and so on; without the other calls."""
    functions = [one for module in call.function.module.root().within() for one in module.functions()]
    found, more = set(), {call.function.name}
    while more:
        found |= more
        more = {name for one in functions if one.name in more for name in one.called} - found
    return found - {other.function.name for other in others if other.crate == call.crate} | {call.function.name}


def refusing(edit, functions):
    """The functions of a crate whose proofs refuse an edit, by their names; none, where only other files do, and an edit of a definition may be of any
    call."""
    path = at(f"crates/{edit.strip('`')}.edit")
    said = re.findall(r"^refused: (\S+)", text_of(path), re.M) if path.is_file() else []
    homes = [found[1] for one in said if (found := re.fullmatch(r"proofs/(?:\S+/)?([^\s/]+)/(?:Answers|Invariants|Proof)\.antt", one))]
    names = {*homes, *(one.split("::")[-1] for one in said if "/" not in one)}
    # the proofs of functions that call each other, or of one that calls itself, are in one folder
    return names | {one.name for one in functions if f"+{one.cycle or one.name}" in homes}


def wrong_answers():
    """Each call has its wrong answers, each edit of its crate begins with calls that the crate shows, and each of these has to do with it."""
    tried, shown = [], [crate for crate, _ in public()]
    for _, (edit, meaning, *_) in [row for row in tables("PROMISES.md") if row[0] == EDITED]:
        crate, said = edit.strip("`").split("/")[0], re.match(r"((?:`\w+`, )*`\w+`): ", meaning)
        if crate in shown and not said:
            yield f"docs/PROMISES.md does not say of which call {edit} is a wrong answer"
        tried += [(edit, crate, name) for name in re.findall(r"`(\w+)`", said[1])] if said else []
    right = [call for call, _ in kept()]
    for call in right:
        count = sum(1 for _, crate, name in tried if (crate, name) == (call.crate, call.name))
        if count < WRONG:
            yield f"docs/PROMISES.md has {count} wrong answers of {call.shown}, and not {WRONG}"
    known = {(call.crate, call.name): reached(call, right) for call in calls()}
    functions = {crate: [one for module in root.within() for one in module.functions()] for crate, root in roots().items() if root}
    for edit, crate, name in tried:
        if (crate, name) not in known:
            yield f"docs/PROMISES.md has {edit} as a wrong answer of {name}, which {crate} does not show"
        elif (refused := refusing(edit, functions[crate])) and not refused & known[crate, name]:
            yield f"docs/PROMISES.md has {edit} as a wrong answer of {name}, and no proof of what {name} comes to refuses it"
