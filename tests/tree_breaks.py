"""Edits of the small tree that break the rules of tests/tree.py on documents and sources: for each rule the one fault that is told, and the edits.

An edit is a file with a text and another for it; or with one text, which is put at the file's end.
"""
import tree

NUMBERS, SPECS, PROVED = "crates/numbers/src/lib.rt", "crates/page/specs/Facts.antt", "crates/page/proofs/Facts.antt"
PROMISES, PAGE, DESIGN, COSTS = "docs/PROMISES.md", "docs/PAGE.md", "docs/DESIGN.md", "docs/BENCHMARKS.md"
UPDATE = "bench/cost --update"
MACHINE = ("opt", "home", "root", "work", "tmp", "usr", "var", "mnt", "srv", "Users")
# what the sources have
SHEET = "use Rattle.page.specs.Sheet.{Sheet}\n"
CLOSED = "abbrev pub OwnDegree : Type 0\n"
BROUGHT = "use Rattle.page.specs.Facts.{OwnDegree}"
THEOREM, PROOF = "pub own_degree : OwnDegree\n", "own_degree S = refl"
ROW = "| a sheet's degree is its own | `crates/page/specs/Facts.antt` `OwnDegree` |"
EDITED = "| `probe/must-fail/place_cleared` | `fill`: the first entry cleared | the place afterwards |\n"
# faults that are told in several ways
UNDECLARED = f"{PROVED} does not declare `pub own_degree : OwnDegree`"
UNBROUGHT = f"{PROVED} does not bring in OwnDegree from {SPECS}"
UNPROVED = f"no document has a theorem for the statement NoDegree of {SPECS}"
HOLE = "has an axiom or a hole"
RESTS = "rests on something of proofs/"

BREAKS = {
    # ---- documents
    tree.citations: [
        (f"docs/THEORY.md cites third, which {NUMBERS} does not declare", ("docs/THEORY.md", "`half`", "`half`, `third`")),
        ("docs/THEORY.md cites nothing", ("docs/THEORY.md", "`crates/numbers/src/lib.rt` `half`", "a number")),
        (f"docs/PAGE.md cites own, which {PROVED} does not declare", (PAGE, "`own_degree`", "`own_degree`, `own`"), (PROVED, "\n-- pub own : OwnDegree\n")),
    ],
    tree.edits: [
        ("docs/PAGE.md names the edit probe/must-fail/nothing, which is not in the tree", (PAGE, "`own_degree`", "`own_degree`; `probe/must-fail/nothing`")),
        ("docs/PROMISES.md has 0 rows for the edit numbers/must-fail/third",
         ("crates/numbers/must-fail/third.edit", "refused: half returns\nfile: src/lib.rt\nold: 2\nnew: 3\n")),
        ("probe/must-fail/place_cleared does not say which proof refuses it",
         ("crates/probe/must-fail/place_cleared.edit", "refused: proofs/fill/Answers.antt returns\n", "")),
        *((f"probe/must-fail/place_cleared is refused by {one}, which is neither a file of proofs/ nor a function of its crate",
           ("crates/probe/must-fail/place_cleared.edit", "refused: proofs/fill/Answers.antt", f"refused: {one}"))
          for one in ("first", "refusals::fill", "specs/Promises.antt")),
        ("probe/must-fail/place_cleared does not say which proof refuses it",
         ("crates/probe/must-fail/place_cleared.edit", "Answers.antt returns", "Answers.antt returns here")),
        ("docs/PROMISES.md has 2 rows for the edit probe/must-fail/place_cleared", (PROMISES, EDITED)),
        ("probe/must-fail/place_cleared is an edit of proofs/Promises.antt, which is neither code nor a definition",
         ("crates/probe/must-fail/place_cleared.edit", "src/lib.rt", "proofs/Promises.antt")),
    ],
    tree.sentences: [
        ("docs/PAGE.md has no row", (PAGE, '| "a degree" | `crates/page/specs/Sheet.antt` `Sheet` | `crates/page/proofs/Facts.antt` `own_degree` |',
                                     "\n`crates/page/specs/Sheet.antt` `Sheet`")),
        ('docs/PAGE.md names nothing that stands behind "a degree"', (PAGE, "`crates/page/proofs/Facts.antt` `own_degree`", "it is plain")),
        *((f'docs/PAGE.md has {name} behind "a degree", which is neither a file nor an edit', (PAGE, "`crates/page/proofs/Facts.antt` `own_degree`", name))
          for name in ("`no/such`", "`crates/page/proofs/`", "`docs/PAGE.md and/more`", "`/`", "`crates/../../.`")),
        ('docs/PAGE.md: the row "name" |  | `docs/DESIGN.md` has not sentence, definition, theorem, edit or test', (PAGE, '| "name" | | `docs/DESIGN.md` |\n')),
    ],
    tree.ensured: [
        (f"docs/PAGE.md has more of {NUMBERS} as a theorem, which ensures nothing", (PAGE, "`own_degree` |", f"`own_degree`; `{NUMBERS}` `half`, `more` |"),
         (NUMBERS, "\npub fn more(n: u64) -> u64\n    requires { n ≤ 8 }\n{\n    n\n}\n")),
        (f"docs/PROMISES.md has half of {NUMBERS} as a theorem, which ensures nothing",
         (PROMISES, "\n| sentence | theorem |\n|---|---|\n| more | `crates/numbers/src/lib.rt` `half` |\n"),
         (NUMBERS, "    ensures { result ≡ n / 2 }\n", ""), (NUMBERS, "◌≡◌, ◌/◌, ◌≤◌", "◌≤◌")),
    ],
    tree.mentions: [
        ("docs/PAGE.md names tests/more.py, which is not in the tree", (PAGE, "`own_degree` |", "`own_degree`; `tests/more.py` |")),
        ("README.md names docs/MORE.md, which is not in the tree", ("README.md", "More is in `docs/MORE.md`.\n")),
        ("docs/DESIGN.md names bench/more, which is not in the tree", (DESIGN, "Timed by `bench/more`.\n")),
    ],
    tree.the_map: [
        ("docs/DESIGN.md does not name More of crates/page/specs", ("crates/page/specs/More.antt", "-- More.\n")),
        ("docs/DESIGN.md does not name Deeper of crates/page/specs", ("crates/page/specs/more/Deeper.antt", "-- More.\n")),
        ("docs/DESIGN.md names Lost of crates/page/proofs, which is not there", (DESIGN, "`proofs/Facts` |", "`proofs/Facts`, `Lost` |")),
    ],
    tree.crate_rows: [
        ("docs/DESIGN.md has the crate more 0 times in its table, and crates.txt 1 times", ("crates.txt", "listing:", "more:\nlisting:")),
        ("docs/DESIGN.md has the crate page 0 times in its table, and crates.txt 1 times", (DESIGN, "| `page` | the page |\n", "")),
        ("docs/DESIGN.md has the crate gone 1 times in its table, and crates.txt 0 times", (DESIGN, "| `page` |", "| `page`, `gone` |")),
        ("docs/DESIGN.md has the crate probe 2 times in its table, and crates.txt 1 times", (DESIGN, "| `page` |", "| `page`, `probe` |")),
    ],

    # ---- statements and theorems
    tree.statements: [
        (UNDECLARED, (PROVED, THEOREM, "pub own_degree : OwnDegree → OwnDegree\n")),
        (UNDECLARED, (PROVED, THEOREM, "pub own_degree : OwnDegree\n    → OwnDegree\n")),
        (UNDECLARED, (PROVED, THEOREM, "abbrev Own : Type 0\nOwn = OwnDegree\n\npub own_degree : Own\n")),
        (UNDECLARED, (PROVED, THEOREM, "module _ (OwnDegree : Type 0) (h : OwnDegree) where\n  pub own_degree : OwnDegree\n  own_degree = h\n\n")),
        (UNBROUGHT, (PROVED, BROUGHT, BROUGHT.replace("{OwnDegree}", "{OtherDegree as OwnDegree}"))),
        (UNBROUGHT, (PROVED, BROUGHT, BROUGHT.replace("page", "numbers"))),
        (UNBROUGHT, (PROVED, BROUGHT, f"{BROUGHT}\n{BROUGHT.replace('Facts', 'Sheet')}")),
        (UNPROVED, (SPECS, "\nabbrev pub NoDegree : Type 0\nNoDegree = (S : Sheet) → S.d ≡ 0\n")),
        (UNPROVED, (SPECS, "\nunfoldable abbrev pub NoDegree\n    : Type 0\nNoDegree = (S : Sheet) → S.d ≡ 0\n")),
        (UNPROVED, (SPECS, "\nmodule _ where\n  abbrev pub NoDegree : Type 0\n  NoDegree = (S : Sheet) → S.d ≡ 0\n")),
        (UNPROVED, (SPECS, CLOSED, CLOSED.replace("OwnDegree", "OwnDegree NoDegree"))),
        (f"{SPECS} declares OwnDegree with Type (0), where a statement has Type 0", (SPECS, CLOSED, "abbrev pub OwnDegree : Type (0)\n")),
        (f"{SPECS} declares OwnDegree with Type _, where a statement has Type 0", (SPECS, CLOSED, "abbrev pub OwnDegree {ℓ} : Type _\n")),
        (f"`{SPECS}` `OwnDegree` | `{PROVED}` `own_degree`, `two` has not one theorem for each closed statement",
         (PROMISES, "`own_degree` |", "`own_degree`, `two` |"), (PROVED, "\npub two : OwnDegree\ntwo S = refl\n")),
        (f"Sure of {SPECS} is no statement: `{SPECS}` `OwnDegree`, `Sure` | `{PROVED}` `own_degree`",
         (SPECS, "\npub record Sure : Type 0 where\n  pub sure : (S : Sheet) → S.d ≡ 0\n"), (PROMISES, ROW, ROW[:-2] + ", `Sure` |")),
    ],

    # ---- a source means what its lines show
    tree.readable: [
        (f"{PROVED}:8 has a comment in the midst of code", (PROVED, "\n{- pub own : OwnDegree\n")),
        (f"{NUMBERS}:16 has a comment in the midst of code", (NUMBERS, "/* nothing\n")),
        (f"{PROVED}:8 has a -- that need not begin a comment", (PROVED, "\nother--degree : OwnDegree\n")),
        (f"{NUMBERS}:5 has a // that need not begin a comment", (NUMBERS, "{◌≡◌, ", "{◌//◌, ◌≡◌, ")),
        (f"{PROVED}:1 has a character that is not seen", (PROVED, "holds.\n", "holds.\u2028pub other : OwnDegree\n")),
        (f"{PROVED}:1 has a character that is not seen", (PROVED, "-- That", "-- \u202eThat")),
        (f"{PROVED}:8 has a name in « » that needs none", (PROVED, "\npub other : «OwnDegree»\n")),
        (f"{PROVED}:8 has a text that does not end on its line", (PROVED, '\nother = "text\n')),
        (f"{SPECS}:2 has a `use` that is not read", (SPECS, "use Rattle.std.specs.Prelude.{◌≡◌}", "use Rattle.{std.{specs.Prelude.◌≡◌}}")),
        (f"{NUMBERS}:17 has `static` where an item should begin", (NUMBERS, "\nstatic N: u32 = 8;\n")),
        (f"{NUMBERS}:17 has `#` where an item should begin", (NUMBERS, '\n#[path = "other.rt"]\nmod more;\n')),
        (f"{NUMBERS}:17 has `#` where an item should begin", (NUMBERS, "\n#[derive(Ask)]\nstruct More;\n")),
        (f"{NUMBERS}:17 has `#` where an item should begin", (NUMBERS, "\n#[cfg(more)]\nfn more() {}\n")),
        (f"{NUMBERS}:17 has the module more, which has no file", (NUMBERS, "\nmod more;\n")),
        (f"{NUMBERS}:11 has `requires` with a comment or a text in its braces", (NUMBERS, "n ≤ 8 }", "n ≤ 8 -- or more }")),
        (f"{NUMBERS}:17 has `- : u32` among what is given to last", (NUMBERS, "\nfn last(-: u32) {}\n")),
        (f"{NUMBERS}:17 has a block of a trait for no type", (NUMBERS, "\nimpl More for [u32; 2] {}\n")),
        (f"{NUMBERS}:17 has a block of a trait for no type of the crate", (NUMBERS, "\nimpl More for u32 {}\n")),
    ],
    tree.disguises: [
        (f"{PROVED}:3 gives something else the name of the library Rattle",
         (PROVED, BROUGHT, f"use Rattle.numbers as Rattle\n{BROUGHT}"), (PROVED, "\nmore = Rattle.x\n")),
        (f"{PROVED}:3 gives something else the name of the library Rattle·more",
         (PROVED, BROUGHT, f"use Rattle.std.proofs.Path as Rattle·more\n{BROUGHT}"), (PROVED, "\nmore = Rattle·more.x\n")),
        (f"{PROVED}:4 gives something else the name of the library page",
         (PROVED, BROUGHT, f"use page.specs.Facts.{{x}}\nuse Rattle.numbers.specs as page\n{BROUGHT}"), (PROVED, "\nmore = page.x x\n")),
        ("crates/page/proofs/Lib.antt:2 gives something else the name of the library lib",
         ("crates/page/proofs/Lib.antt", "pub mod lib\nuse lib.Pow.{refl}\nx = refl\n")),
    ],

    # ---- axioms and holes
    tree.axioms_and_holes: [
        (f"{PROVED}:8 {HOLE}", (PROVED, "\naxiom pub other : OwnDegree\n")),
        (f"{PROVED}:8 {HOLE}", (PROVED, "\npub axiom other : OwnDegree\n")),
        (f"{PROVED}:9 {HOLE}", (PROVED, "\nmodule _ where\n  unfoldable axiom other : OwnDegree\n")),
        (f"{PROVED}:2 {HOLE}", (PROVED, "use Rattle.std.proofs.Path.{refl}", "use Prim.Axiom.{lem as refl}")),
        (f"{PROVED}:2 {HOLE}", (PROVED, "use Rattle.std.proofs.Path.{refl}", "use Prim.{Axiom.lem as refl}")),
        *((f"{PROVED}:6 {HOLE}", (PROVED, PROOF, f"own_degree S = {hole}"), (PROVED, "\nother = refl\n"))
          for hole in ("?", "?later", "f (?)", "f λ x.?h", "(a,?h)", "⌜?h⌝", "f {x = ?0}", "{! sym !}")),
        *((f"{NUMBERS}:{line} {HOLE}", edit) for line, edit in (
            (11, (NUMBERS, "n ≤ 8 }", "n ≤ ? }")),
            (12, (NUMBERS, "n / 2 }", "{! n !} }")),
            (12, (NUMBERS, "ensures { result", "ensures same { result ≡ ?h }\n    ensures half { result")),
            (12, (NUMBERS, "n / 2 }", "axiom n }")),
        )),
        (f"{NUMBERS}:17 declares functions of C, whose contracts nothing proves", (NUMBERS, '\nextern "C" {\n    fn more(n: u32) -> u32;\n}\n')),
    ],

    # ---- no definition rests on proofs/
    tree.definitions_alone: [
        *((f"{SPECS}:3 {RESTS}", (SPECS, SHEET, f"{line}\n{SHEET}"), (SPECS, "\nmore = x\n")) for line in (
            "use Rattle.walk.proofs.Facts.{x}",
            "pub use Rattle.walk.proofs.Facts.{x}",
            "unfoldable pub use Rattle.walk.proofs.proofs.Facts.{x}",
            "use Rattle.walk.proofs.Facts as x",
            "use Rattle.walk.proofs.x",
            "  use Rattle.walk.proofs.Facts.{y as x}",
            "use Rattle.walk.{proofs.Facts.x}",
            "use package.Rattle.walk.proofs.Facts.{x}",
            "more : Rattle.walk.proofs.proofs.Facts.x",
            "use package.Rattle.std.proofs.Math.IntN.{x}",
            "use Rattle.std.proofs.lemmas.proofs.{x}",
            "use Rattle.stdio.proofs.Facts.{x}",
            "use Rattle.std.specs.proofs.Facts.{x}",
        )),
        (f"{SPECS}:7 {RESTS}", (SPECS, "S.d ≡ S.d", "S.d ≡ Rattle.walk.proofs.Facts.x S")),
        (f"{NUMBERS}:5 {RESTS}", (NUMBERS, "ghost use Rattle.std.specs.Prelude", "ghost use Rattle.walk.proofs.Facts")),
        (f"{NUMBERS}:18 {RESTS}", (NUMBERS, "\nmod within {\n    ghost use Rattle.walk.proofs.Facts as n;\n}\n")),
        (f"{NUMBERS}:12 {RESTS}", (NUMBERS, "{ result ≡", "{ Rattle.walk.proofs.Facts.x result ≡")),
        (f"{NUMBERS}:6 {RESTS}", (NUMBERS, "{◌≡◌, ◌/◌, ◌≤◌};\n", "{◌≡◌, ◌/◌, ◌≤◌};\nghost use Rattle.page.proofs.Facts.{own_degree};\n"),
         (NUMBERS, "\ntrait Axis {\n    ghost still: { OwnDegree };\n\n    fn moved(n: u64) -> u64;\n}\n"
                   "\nstruct Across;\n\nimpl Axis for Across {\n    ghost still = { λ S. own_degree S };\n\n    fn moved(n: u64) -> u64 {\n        n\n    }\n}\n")),
        (f"{NUMBERS}:6 {RESTS}", (NUMBERS, "{◌≡◌, ◌/◌, ◌≤◌};\n", "{◌≡◌, ◌/◌, ◌≤◌};\nghost use Rattle.page.proofs.Facts.{own_degree};\n"),
         (NUMBERS, "\ntrait Axis {\n    fn moved(n: u64) -> u64;\n\n    ghost still: { Type 0 };\n}\n"
                   "\nstruct Across;\n\nimpl Axis for Across {\n    fn moved(n: u64) -> u64 {\n        n\n    }\n\n    ghost still = { own_degree };\n}\n"
                   "\nfn same<A: Axis>(n: u64) -> u64\n    ensures { A.still }\n{\n    n\n}\n")),
        # the clause stands in another crate
        (f"{NUMBERS}:6 {RESTS}", (NUMBERS, "{◌≡◌, ◌/◌, ◌≤◌};\n", "{◌≡◌, ◌/◌, ◌≤◌};\nghost use Rattle.page.proofs.Facts.{own_degree};\n"),
         (NUMBERS, "\npub trait Axis {\n    fn moved(n: u64) -> u64;\n\n    ghost still: { Type 0 };\n}\n"
                   "\nstruct Across;\n\nimpl Axis for Across {\n    fn moved(n: u64) -> u64 {\n        n\n    }\n\n    ghost still = { own_degree };\n}\n"),
         ("crates/probe/src/refusals.rt", "\nfn same<A: numbers::Axis>(n: u64) -> u64\n    ensures { A.still }\n{\n    n\n}\n")),
        # it is what a ghost field says
        (f"{NUMBERS}:6 {RESTS}", (NUMBERS, "{◌≡◌, ◌/◌, ◌≤◌};\n", "{◌≡◌, ◌/◌, ◌≤◌};\nghost use Rattle.page.proofs.Facts.{own_degree};\n"),
         (NUMBERS, "\npub trait Axis {\n    fn moved(n: u64) -> u64;\n\n    ghost still: { Type 0 };\n}\n"
                   "\nstruct Across;\n\nimpl Axis for Across {\n    fn moved(n: u64) -> u64 {\n        n\n    }\n\n    ghost still = { own_degree };\n}\n"
                   "\nstruct Held<A: Axis> {\n    n: u64,\n    ghost is: { A.still },\n}\n")),
    ],

    # ---- what crates rest on
    tree.law: [
        ("crates.txt has page, which is of the law, rest on numbers", ("crates.txt", "page:\n", "page: numbers\n"),
         (SPECS, "\nmore = Rattle.numbers.specs.x\n")),
        ("page is of the law and has the function first",
         ("crates/page/src/lib.rt", "No code: the page as definitions.", "An inner crate: what its functions require, every caller proves."),
         ("crates/page/src/lib.rt", "fn first() -> u64 {\n    1\n}\n")),
    ],
    tree.worldless: [
        *((f"crates.txt has probe, which is no program, rest on {name}",
           ("crates.txt", "probe: page numbers verdicts", f"probe: page numbers verdicts {name}"), ("crates/probe/src/lib.rt", f"use {name}::more;\n"))
          for name in ("io", "libc", "os", "intake")),
        *((f"{NUMBERS}:{line} names `{said}`, and numbers is no program", (NUMBERS, f"\n{text}\n")) for line, said, text in (
            (17, "std::io", "use std::io::Read;"),
            (17, "std::{mem, fs", "use std::{mem, fs};"),
            (17, "std :: { mem, env", "use std ::\n    {\n    mem,\n    env,\n};"),
            (17, "std::time", "fn now() -> std::time::Instant {}"),
            (17, "HostRuntime", "fn now(world: HostRuntime) {}"),
            (18, "println!", 'fn say() {\n    println!(world; "more");\n}'),
        )),
        ("crates.txt has numbers, which is no program, rest on io", ("crates.txt", "numbers:\n", "numbers: io\n"), (NUMBERS, "use io::more;\n")),
        ("crates.txt has listing, which is no program, rest on io",
         ("crates.txt", "listing: probe", "listing: probe io"), ("crates/listing/src/lib.rt", "pub use probe::fill;\nuse io::more;\n")),
    ],
    tree.named_below: [
        ("crates.txt has listing rest on page, which it does not name", ("crates.txt", "listing: probe", "listing: probe page")),
        ("crates.txt has listing rest on page, which it does not name",
         ("crates.txt", "listing: probe", "listing: probe page"), ("crates/listing/src/main.rt", "// page::more, Rattle.page\nuse probe::page::more;\n")),
        ("crates.txt has listing rest on page, which it does not name", ("crates.txt", "listing: probe", "listing: probe page  # verdicts: for its type")),
        ("crates.txt has listing rest on probe, which it does not name", ("crates/listing/src/main.rt", "probe::fill", "probes::fill")),
        ("crates.txt has probe rest on numbers, which it does not name", ("crates/probe/src/refusals.rt", "numbers::half(n)", "n")),
    ],

    # ---- lengths and imports
    tree.lengths: [
        (f"{PROVED} has 401 lines, over 400", (PROVED, "-- more\n" * 395)),
        ("tests/more.py has 401 lines, over 400", ("tests/more.py", "# more\n" * 401)),
    ],
    tree.imports: [
        (f"{PROVED}:2 brings in sym and does not use it", (PROVED, "{refl}", "{refl, sym}")),
        (f"{PROVED}:5 brings in sym and does not use it", (PROVED, "{refl}", "{\n    refl,\n    sym\n}")),
        (f"{PROVED}:2 brings in Path and does not use it", (PROVED, "use Rattle.std.proofs.Path.{refl}", "use Rattle.std.proofs.Path")),
        (f"{PROVED}:3 brings in Nat and does not use it", (PROVED, "{refl}\n", "{refl}\nuse native.Mathlib.Nat as Nat\n")),
        (f"{NUMBERS}:5 brings in ◌<◌ and does not use it", (NUMBERS, "◌≤◌}", "◌≤◌, ◌<◌}")),
        (f"{PROVED}:2 brings in own_◌ and does not use it", (PROVED, "{refl}", "{refl, own_◌}")),
        (f"{PROVED}:2 brings in own_d and does not use it", (PROVED, "{refl}", "{refl, own_d}"), (PROVED, "\nmore own = own d\n")),
    ],

    # ---- the whole tree
    tree.costs: [
        (f"docs/BENCHMARKS.md has not what bench/cost counts of `numbers`: {UPDATE}", (COSTS, "| `numbers` | 6 |", "| `numbers` | 7 |")),
        (f"docs/BENCHMARKS.md has not what bench/cost counts of all: {UPDATE}", (COSTS, "| all |", "| all | 0 |")),
        (f"docs/BENCHMARKS.md has other rows than bench/cost: {UPDATE}", (COSTS, "| all |", "| `more` | 0 | 0 | 0 | 0 | 0 | 0 | 0 |\n| all |")),
    ],
    tree.places: [
        ("sheets is tracked, and is no file of the tree", ("LINK", "sheets")),
        # in a path, and at its end
        *(("README.md:2 names a place on a machine", ("README.md", f"It was made in /{name}/somebody.\n")) for name in MACHINE),
        *(("tests/more.py:1 names a place on a machine", ("tests/more.py", f'ROOT = "/{name}"\n')) for name in MACHINE),
        ("README.md:2 names a place on a machine", ("README.md", f"It was made in C:/{MACHINE[0]}/somebody.\n")),
    ],
}

# what may be done: what it is, and the edits
KEEPS = [
    ("a crate that another one needs, and why", ("crates.txt", "listing: probe", "listing: probe page  # page: for its sheet")),
    ("a program that reads and writes", ("crates.txt", "listing: probe", "listing: probe io libc os"),
     ("crates/listing/src/main.rt", "use io::more;\nuse {libc::more, os::more};\nuse std::io::Read;\n")),
    ("a part of programs", ("crates.txt", "listing:", "items:\nlisting:"),
     ("crates/items/src/lib.rt", "// A part.\n// An inner crate: what its functions require, every caller proves.\nuse std::io::Read;\nfn more() {}\n"),
     ("INNER", "items"), (DESIGN, "| `page` |", "| `page`, `items` |")),
    ("what std has besides the world", (NUMBERS, "\nuse std::mem;\n")),
    ("a crate that a proof alone names", ("crates.txt", "listing: probe", "listing: probe page"),
     ("crates/listing/proofs/Lib.antt", "use Rattle.page.specs.Sheet.{Sheet}\nsame : Sheet → Sheet\nsame S = S\n")),
    ("a definition that takes something", (SPECS, "\nabbrev pub Degree : Sheet → Type 0\nDegree S = S.d ≡ 0\n")),
    ("a name that needs « »", (NUMBERS, "\nfn same(data: u32) -> u32\n    ensures { result ≡ «data» }\n{\n    data\n}\n")),
    ("clauses by name", (NUMBERS, "\nfn same(n: u32) -> u32\n    ensures low { n ≤ result }\n    ensures high { result ≤ n }\n{\n    n\n}\n")),
    ("an error that is passed on", (NUMBERS, "\nfn same(n: u32) -> Option<u32> {\n    Some(one(n)?)\n}\n")),
    ("a definition of the kit, where its proofs are", (SPECS, "\nuse Rattle.std.proofs.Math.IntN.{pow}\nmore = pow\n")),
    ("what stands before an item", (NUMBERS, "\n#[derive(Clone, Copy, Drop)]\nstruct More(u32);\n\n#[cycle(same)]\n#[tactic(auto, using(more))]\nfn same() {}\n")),
    ("functions of a type with a lifetime, and of one by a trait",
     (NUMBERS, "\nstruct Few<'a> {\n    all: &'a [u32; 2],\n}\n\nimpl<'a> Few<'a> {\n    fn whole(self) -> [u32; 2] {\n        *self.all\n    }\n}\n"
               "\nimpl<'a> From<&'a [u32; 2]> for Few<'a> {\n    ghost from_gives = { λ a r. r.all ≡ a };\n\n    fn from(all: &'a [u32; 2]) -> Self {\n        Few { all }\n    }\n}\n")),
    ("a trait, and a function over it", (NUMBERS, "\ntrait Axis {\n    ghost along: { ℕ → ℕ };\n\n    fn moved(n: u64) -> u64\n        ensures { result ≡ along n };\n}\n"
                                                  "\nstruct Across;\n\nimpl Axis for Across {\n    ghost along = { λ n. n };\n\n    fn moved(n: u64) -> u64 {\n        n\n    }\n}\n"
                                                  "\nfn twice<A: Axis, I: Iterator<Item = [u64; 2]>, const N: usize>(n: u64) -> u64\nwhere\n    A: Drop,\n{\n    A::moved(n)\n}\n")),
    ("a lemma in the proof of a law",
     (NUMBERS, "{◌≡◌, ◌/◌, ◌≤◌};\n", "{◌≡◌, ◌/◌, ◌≤◌};\nghost use Rattle.page.proofs.Facts.{own_degree};\n"),
     (NUMBERS, "\ntrait Axis {\n    fn moved(n: u64) -> u64;\n\n    ghost still: { OwnDegree };\n}\n"
               "\nstruct Across;\n\nimpl Axis for Across {\n    fn moved(n: u64) -> u64 {\n        n\n    }\n\n    ghost still = { λ S. own_degree S };\n}\n")),
    ("a text with the mark of a comment", (NUMBERS, '\nfn mark() -> [u8; 2] {\n    *b"//"\n}\n')),
    ("a name that is passed on", (PROVED, "{refl}\n", "{refl}\npub use Rattle.std.proofs.Path.{sym}\n")),
    ("the word of a folder in a comment", (SPECS, "-- its degree", "-- see proofs/Facts: its degree")),
]
