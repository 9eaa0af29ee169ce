"""bench/moved on a small repository of its own: what is added, changed, removed, moved and renamed, and what is left alone.

Each case is a tree as it stands after one commit, with files that git does not know among it, and what `bench/moved --brief` says of it word for word: the
row for all crates, and the names. Then come two commits and a tree after them, and what is said where there is nothing to compare with.
"""
import concurrent.futures
import os
import pathlib
import shutil
import subprocess
import sys
import tempfile

sys.dont_write_bytecode = True  # nothing is left in the tree
from moved_tree import AREA, BASE, FACTS, INNER, LIB, MAIN, PROMISES, PROOF, PROOFS, ROOM, SHOWN, SIZES, edited, exchanged

ROOT = pathlib.Path(__file__).resolve().parent.parent
SCRIPT = "bench/moved", "bench/paired.py", "bench/declared.py", "bench/calls.py", "bench/cost", "tests/sources.py", "tests/tokens.py", "tests/rattle.py", "tests/faces.py"

# the row of a tree in which nothing changed
ALONE = {"definitions": "=11", "statements": "=2", "contracts": "=4", "proofs": "=5", "functions": "=7", "lines": "+0 −0"}
NO_NAME = ["no definition, promise or statement is other than it was, nor the contract of a public call"]


def cases():
    """What is tried: its name, the tree, the cells of the row that are not as in ALONE, and what is said of names."""
    yield "nothing", BASE, {}, NO_NAME
    yield "comments", edited((SIZES, "-- a size\n", "-- how large\n\n"), (LIB, "// An", "// One"), (FACTS, "-- What is said of sizes.\n", "")), {}, NO_NAME
    yield "lines broken, and a comment after code", edited(
        (SIZES, "zero = zero", "zero =\n    zero"), (MAIN, "(area)", "(\n        area\n    )"), (INNER, " // no more", "")
    ), {"lines": "+6 −3"}, NO_NAME

    yield "added", edited(
        (SIZES, "-- one beside", "abbrev pub large : ℕ\nlarge = 9\n\n-- one beside"),
        (FACTS, "abbrev pub Small", "abbrev pub None : Type 0\nNone = Small 0\n\nabbrev pub Small"),
        (PROOFS, "pub same :", "pub none : None\nnone = refl\n\npub same :"),
        (LIB, "// Twice", "pub const MOST: u32 = 8;\n\npub fn once(n: u32) -> u32 {\n    n\n}\n\n// Twice"),
    ), {"definitions": "+2 =11", "statements": "+1 =2", "contracts": "+1 =4", "proofs": "+1 =5", "functions": "+1 =7", "lines": "+10 −0"}, [
        "- `page`, definitions: added `large`", "- `page`, statements: added `None`", "- `call`, definitions: added `MOST`",
        "- `call`, contracts of public calls: added `once`"]

    yield "changed", edited(
        (SIZES, "(suc n) = suc", "(suc n) ="), (FACTS, "(b + a)", "(a + a)"), (PROMISES, "(n + n)", "n"), (PROOFS, "go m = refl", "go m = same")
    ), {"definitions": "~1 =10", "statements": "~2", "proofs": "~1 =4", "lines": "+4 −4"}, [
        "- `page`, definitions: changed `area`", "- `page`, statements: changed `Same`", "- `call`, promises: changed `TwicePromise`"]
    yield "changed by an infix line, a field, cases", edited(
        (SIZES, "infix 3", "infix 4"), (SIZES, "wide high", "wide tall"), (SIZES, "left right :", "right left :"), (LIB, "Nothing", "Nowhere")
    ), {"definitions": "~4 =7", "lines": "+4 −4"}, [
        "- `page`, definitions: changed `Size`, `Side`, `◌beside◌`", "- `call`, definitions: changed `Answer`"]
    yield "a body alone", edited((LIB, "inner::double(n)", "inner::double(n + 0)")), {"functions": "~1 =6", "lines": "+1 −1"}, NO_NAME
    yield "contracts alone", edited(
        (LIB, "TwicePromise n result", "TwicePromise result n"), (INNER, "n ≤ room", "room ≤ n")
    ), {"contracts": "~2 =2", "lines": "+2 −2"}, ["- `call`, contracts of public calls: changed `twice`"]

    yield "contracts by name", edited((INNER, "requires { n", "requires room { n"),
                                      (LIB, "requires { limit ≤ room }", "requires a { limit ≤ room }\n        requires b { limit ≤ 8 }")), {
        "contracts": "~2 =2", "lines": "+3 −2"}, ["- `call`, contracts of public calls: changed `Answer::most`"]
    yield "what stands before an item, and before all", edited((LIB, "#[derive(Drop)]", "#[derive(Copy, Clone, Drop)]"), (MAIN, "auto", "none")), {
        "definitions": "~1 =10", "lines": "+2 −2"}, ["- `call`, definitions: changed `Answer`"]

    yield "removed", edited((SIZES, AREA, ""), (PROOFS, "pub same : Same\nsame a b = refl\n", "")), {
        "definitions": "−1 =10", "proofs": "−1 =4", "lines": "+0 −5"}, ["- `page`, definitions: removed `area`"]
    yield "contracts removed", edited((LIB, "    ensures { TwicePromise n result }\n", ""), (INNER, "    requires { n ≤ room }\n", "")), {
        "contracts": "~1 −1 =2", "lines": "+0 −2"}, ["- `call`, contracts of public calls: changed `twice`"]

    yield "moved", edited((SIZES, AREA, ""), (FACTS, "specs.Sizes.{area}", "specs.Area.{area}"), (PROOFS, "specs.Sizes", "specs.Area")) | {
        "crates/page/specs/Area.antt": f"use Rattle.std.specs.Prelude.{{ℕ, zero, suc}}\n\n{AREA}"}, {
        "definitions": "↔1 =10", "lines": "+6 −5"}, ["- `page`, definitions: moved `area`: page/specs/Sizes → page/specs/Area"]
    yield "moved to another crate", edited((SIZES, AREA, ""), (ROOM, "abbrev", f"{AREA}abbrev")), {
        "definitions": "↔1 =10", "lines": "+3 −3"}, ["- `call`, definitions: moved `area`: page/specs/Sizes → call/specs/Room"]
    yield "moved to where its names mean something else", edited(
        (SIZES, AREA, ""), (FACTS, "specs.Sizes.{area}", "specs.Area.{area}"), (PROOFS, "specs.Sizes", "specs.Area")
    ) | {"crates/page/specs/Area.antt": f"use Rattle.std.specs.Prelude.{{ℕ, zero, id as suc}}\n\n{AREA}"}, {
        "definitions": "~1 =10", "lines": "+6 −5"}, ["- `page`, definitions: changed `area`"]
    yield "a module's parameters", edited((PROOFS, "module _ (n : ℕ)", "module _ {n : ℕ}")), {
        "lines": "+1 −1"}, ["- 2 more stand in a module whose parameters changed: proofs 2"]

    yield "renamed, and in code a variable", exchanged(("area", "surface")), {"definitions": "↔1 =10", "functions": "~1 =6", "lines": "+12 −12"}, [
        "- `page`, definitions: renamed `area` → `surface`",
        "- 3 more differ only by a name that was renamed: definitions `Small`; statements `Same`; proofs 1"]
    yield "renamed, with another word for it once", exchanged(("Small n = area n", "Small n = room n"), ("area", "surface")), {
        "definitions": "~1 ↔1 =9", "functions": "~1 =6", "lines": "+12 −12"}, [
        "- `page`, definitions: changed `Small`; renamed `area` → `surface`",
        "- 2 more differ only by a name that was renamed: statements `Same`; proofs 1"]
    yield "an operator renamed", exchanged(("beside", "by")), {
        "definitions": "↔1 =10", "lines": "+3 −3"}, ["- `page`, definitions: renamed `◌beside◌` → `◌by◌`"]
    yield "a function renamed, with its proof", exchanged(("double", "doubled")), {
        "contracts": "↔1 =3", "functions": "↔1 =6", "lines": "+4 −4"}, ["- 1 more differ only by a name that was renamed: functions 1"]
    yield "a function in place of another, with its proof", exchanged(("double", "triple"), ("2 * n", "3 * n")), {
        "contracts": "+1 −1 =3", "proofs": "+2 −2 =3", "functions": "+1 ~1 −1 =5", "lines": "+9 −9"}, NO_NAME
    yield "a crate renamed", exchanged(("/call/", "/answers/"), ("Rattle.call", "Rattle.answers"), ("call::t", "answers::t"), ("\ncall: ", "\nanswers: ")), {
        "lines": "+9 −9"}, ["- `call` is now `answers`"]
    yield "a file renamed", exchanged(("specs/Facts", "specs/Sayings"), ("specs.Facts", "specs.Sayings")), {
        "lines": "+1 −1"}, ["- `page/specs/Facts` is now `page/specs/Sayings`"]

    yield "variables", edited(
        (SIZES, "(suc n) = suc (area n)", "(suc m) = suc (area m)"),
        (FACTS, "(a b : ℕ) → area (a + b) ≡ area (b + a)", "(b a : ℕ) → area (b + a) ≡ area (a + b)"),
    ), {"lines": "+2 −2"}, ["- 2 more differ only by the name of a variable: definitions `area`; statements `Same`"]
    yield "another field", edited((SIZES, "high = a.high", "high = a.wide")), {
        "definitions": "~1 =10", "lines": "+1 −1"}, ["- `page`, definitions: changed `◌beside◌`"]
    yield "another name of a module", edited((PROMISES, "Answer.Number (n + n)", "Answer.Nothing (n + n)")), {
        "statements": "~1 =1", "lines": "+1 −1"}, ["- `call`, promises: changed `TwicePromise`"]
    yield "one variable for another", edited((FACTS, "(b + a)", "(a + b)")), {
        "statements": "~1 =1", "lines": "+1 −1"}, ["- `page`, statements: changed `Same`"]
    yield "cases, which are no variables", edited(
        (SIZES, "left left = 0\nfrom_left right", "left right = 0\nfrom_left left"), (SIZES, "yes = 1\nif_so no", "no = 1\nif_so yes")
    ), {"definitions": "~2 =9", "lines": "+4 −4"}, ["- `page`, definitions: changed `from_left`, `if_so`"]

    yield "a name from another file, to which nothing moved", edited((FACTS, "specs.Sizes.{area}", "specs.Others.{area}")), {
        "definitions": "~1 =10", "statements": "~1 =1", "lines": "+1 −1"}, [
        "- `page`, definitions: changed `Small`", "- `page`, statements: changed `Same`"]
    yield "another name by the same word", edited((FACTS, "◌≤◌", "◌<◌ as ◌≤◌"), (PROOFS, "refl}", "sym as refl}")), {
        "definitions": "~1 =10", "proofs": "~2 =3", "lines": "+2 −2"}, ["- `page`, definitions: changed `Small`"]
    yield "two names exchanged", edited((SIZES, "zero, suc,", "suc as zero, zero as suc,")), {
        "definitions": "~1 =10", "lines": "+1 −1"}, ["- `page`, definitions: changed `area`"]
    yield "a name brought in that meant something by itself", edited((SIZES, "-- a size", "use lib.Others.{Dec}\n")), {
        "definitions": "~1 =10", "lines": "+1 −0"}, ["- `page`, definitions: changed `if_so`"]
    yield "something new by the name of a variable", edited((FACTS, "abbrev pub Small", "abbrev pub b : ℕ\nb = 1\n\nabbrev pub Small")), {
        "definitions": "+1 =11", "lines": "+2 −0"}, ["- `page`, definitions: added `b`"]
    yield "a promise by another's name", edited((LIB, "{TwicePromise}", "{OtherPromise as TwicePromise}")), {
        "contracts": "~1 =3", "lines": "+1 −1"}, ["- `call`, contracts of public calls: changed `twice`"]
    yield "an answer by another's name", edited(
        (SHOWN, "crate::Answer", "crate::Other as Answer"), (LIB, "// An", "pub enum Other {\n    Number(u32),\n}\n\n// An")
    ), {"definitions": "+1 =11", "contracts": "~1 =3", "functions": "~1 =6", "lines": "+4 −1"}, [
        "- `call`, definitions: added `Other`", "- `call`, contracts of public calls: changed `thrice`"]

    yield "passed on by another's name", edited((FACTS, "{from_left}", "{area as from_left}")), {
        "definitions": "~1 =10", "lines": "+1 −1"}, ["- `page`, definitions: changed `from_left`"]
    yield "passed on, and no more", edited((FACTS, "pub use Rattle.page.specs.Sizes.{from_left}", "pub use Rattle.page.specs.Sizes.{if_so}")), {
        "definitions": "+1 −1 =10", "lines": "+1 −1"}, ["- `page`, definitions: added `if_so`; removed `from_left`"]
    yield "passed on, and renamed", exchanged(("from_left", "left_most")), {
        "definitions": "↔2 =9", "lines": "+6 −6"}, [
        "- `page`, definitions: renamed `from_left` → `left_most`, `from_left` → `left_most`",
        "- 1 more differ only by a name that was renamed: definitions `room`"]
    yield "taken from where it is passed on", edited((ROOM, "Sizes.{from_left, right}", "Sizes.{right}\nuse Rattle.page.specs.Facts.{from_left}")), {
        "lines": "+2 −1"}, NO_NAME

    yield "the contract of a call that a module shows", edited((SHOWN, "TwicePromise n result", "TwicePromise result n")), {
        "contracts": "~1 =3", "lines": "+1 −1"}, ["- `call`, contracts of public calls: changed `thrice`"]
    yield "a call shown by another name", edited((LIB, "shown::thrice;", "shown::thrice as three;")), {
        "contracts": "~1 =3", "lines": "+1 −1"}, ["- `call`, contracts of public calls: changed `thrice`"]
    yield "a call shown no more", edited((LIB, "pub use shown::thrice;\n", "")), {
        "contracts": "~1 =3", "lines": "+0 −1"}, ["- `call`, contracts of public calls: changed `thrice`"]
    yield "the contract of a type's function", edited((LIB, "limit ≤ room", "room ≤ limit")), {
        "contracts": "~1 =3", "lines": "+1 −1"}, ["- `call`, contracts of public calls: changed `Answer::most`"]
    yield "a type's functions", edited(
        (LIB, "    // No more", "    fn none() -> u32 {\n        0\n    }\n    // No more"), (LIB, "        limit\n", "        8\n")
    ), {"functions": "+1 ~1 =6", "lines": "+4 −1"}, NO_NAME
    yield "what a call is given, and what it answers", edited((LIB, "twice(n: u32)", "twice(n: u64)"), (SHOWN, "-> Answer", "-> u32")), {
        "contracts": "~2 =2", "functions": "~2 =5", "lines": "+2 −2"}, ["- `call`, contracts of public calls: changed `twice`, `thrice`"]
    yield "what a call is given, by another name", edited((SHOWN, "n: u32", "m: u32"), (SHOWN, "TwicePromise n", "TwicePromise m"), (SHOWN, "(n)", "(m)")), {
        "functions": "~1 =6", "lines": "+3 −3"}, ["- 1 more differ only by the name of a variable: contracts 1"]


HEAD = "| crate | definitions | statements | contracts | proofs | functions | lines |", "|---|---|---|---|---|---|---|"
SIGNS = "`+` added, `~` changed, `−` removed, `↔` moved or renamed, `→` moved to another crate, `←` moved from another crate, `=` left alone"
USAGE = "say `bench/moved [--brief] [--proofs] COMMIT`, with the commit that the tree is compared with"
# a second commit, and the tree after it
SECOND = edited((SIZES, "from_left right = 1", "from_left right = 2"), (INNER, "2 * n", "n + n"), (PROOF, "search rules", "refl"))
THIRD = {**SECOND, "crates/page/specs/Wide.antt": "abbrev pub Wide : Type 0\nWide = ⊥\n", MAIN: "#![tactic(auto)]\n\nfn main() {}\n"}
# what the script is asked then, and its answer: the status, the lines, and what it says besides
ASKED = [
    (("HEAD~1",), 0, [
        *HEAD,
        "| `page` | ~1 =8 | +1 =1 | 0 | =3 | =2 | +3 −1 |",
        "| `call` | =2 | =1 | =4 | ~1 =1 | ~1 =3 | +2 −2 |",
        "| `program` | 0 | 0 | 0 | 0 | ~1 | +1 −4 |",
        "| all | ~1 =10 | +1 =2 | =4 | ~1 =4 | ~2 =5 | +6 −7 |",
        "", SIGNS, "", "left alone: no crate", "",
        "- `page`, definitions: changed `from_left`",
        "- `page`, statements: added `Wide`",
    ], ""),
    (("HEAD",), 0, [
        *HEAD,
        "| `page` | =9 | +1 =1 | 0 | =3 | =2 | +2 −0 |",
        "| `program` | 0 | 0 | 0 | 0 | ~1 | +1 −4 |",
        "| all | =11 | +1 =2 | =4 | =5 | ~1 =6 | +3 −4 |",
        "", SIGNS, "", "left alone: call", "",
        "- `page`, statements: added `Wide`",
    ], ""),
    (("--brief", "--proofs", "HEAD~1"), 0, [
        *HEAD,
        "| all | ~1 =10 | +1 =2 | =4 | ~1 =4 | ~2 =5 | +6 −7 |",
        "",
        "- `page`, definitions: changed `from_left`",
        "- `page`, statements: added `Wide`",
        "- `call`, proofs: changed `returns`",
        "- `call`, functions: changed `double`",
        "- `program`, functions: changed `main`",
    ], ""),
    ((), 2, [], USAGE),
    (("HEAD", "HEAD~1"), 2, [], USAGE),
    (("--all", "HEAD"), 2, [], USAGE),
    (("nowhere",), 2, [], "no commit nowhere is known here"),
    (("HEAD:crates.txt",), 2, [], "no commit HEAD:crates.txt is known here"),
]


class Repository:
    """A repository in a folder, with the script in it."""

    def __init__(self, home):
        self.home = pathlib.Path(home)
        # nothing of the one who runs this decides how git behaves
        self.settings = {name: value for name, value in os.environ.items() if not name.startswith("GIT_")}
        who = {f"GIT_{role}_{what}": "nobody" for role in ("AUTHOR", "COMMITTER") for what in ("NAME", "EMAIL")}
        self.settings.update(who, GIT_CONFIG_GLOBAL=os.devnull, GIT_CONFIG_NOSYSTEM="1")
        self.git("init", "-q")
        for name in SCRIPT:
            (self.home / name).parent.mkdir(exist_ok=True)
            shutil.copy(ROOT / name, self.home / name)

    def git(self, *words):
        return subprocess.run(["git", *words], cwd=self.home, env=self.settings, capture_output=True, text=True, check=True).stdout

    def write(self, texts):
        shutil.rmtree(self.home / "crates", ignore_errors=True)
        for name, text in texts.items():
            (self.home / name).parent.mkdir(parents=True, exist_ok=True)
            (self.home / name).write_text(text)

    def commit(self, texts):
        self.write(texts)
        self.git("add", "-A")
        self.git("commit", "-q", "-m", "a tree")
        return self.git("rev-parse", "HEAD").strip()

    def moved(self, *words):
        """What the script answers: its status, its lines, and what it says besides."""
        answer = subprocess.run([sys.executable, "bench/moved", *words], cwd=self.home, env=self.settings, capture_output=True, text=True, check=False)
        return answer.returncode, answer.stdout.splitlines(), answer.stderr.removeprefix("moved: ").strip()


def answers(part, parts):
    """For every so many of the cases, from one on, what was tried, the answer that is wanted and the one that came."""
    with tempfile.TemporaryDirectory() as home:
        repository = Repository(home)
        repository.commit(BASE)
        for what, texts, cells, names in list(cases())[part::parts]:
            repository.write(texts)
            row = f"| all | {' | '.join({**ALONE, **cells}.values())} |"
            yield what, (0, [*HEAD, row, "", *names], ""), repository.moved("--brief", "HEAD")
        repository.commit(SECOND)
        repository.write(THIRD)
        for words, *wanted in ASKED[part::parts]:
            yield " ".join(["bench/moved", *words]), tuple(wanted), repository.moved(*words)


def main():
    parts = os.cpu_count() or 1
    with concurrent.futures.ThreadPoolExecutor(parts) as pool:
        found = [answer for some in pool.map(lambda part: list(answers(part, parts)), range(parts)) for answer in some]
    faults = [(what, wanted, came) for what, wanted, came in found if wanted != came]
    for what, *both in faults:
        print(f"{what}:")
        for said, (status, lines, besides) in zip(("wanted", "came"), both):
            print("\n".join([f"  {said} {status} {besides}", *lines]))
    print(f"moved: {len(faults)} faults in {len(found)} cases")
    return 1 if faults else 0


if __name__ == "__main__":
    sys.exit(main())
