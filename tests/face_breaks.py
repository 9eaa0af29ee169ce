"""Edits of the small tree that break the rules of tests/faces.py on what libraries show: for each rule the one fault that is told, and the edits.

An edit is a file with a text and another for it; or with one text, which is put at the file's end. One of `INNER` names one more inner crate.
"""
import faces

LIB, PART, VERDICTS = "crates/probe/src/lib.rt", "crates/probe/src/refusals.rt", "crates/verdicts/src/lib.rt"
NUMBERS, SPECS, PAGE = "crates/numbers/src/lib.rt", "crates/probe/specs/Promises.antt", "docs/PROMISES.md"
# what the sources have
SHEET = "sheet_of d coefficients.now x y s k"
FILLED = "FillPromise mode place.old result place.new"
BROUGHT = "use Rattle.probe.specs.Promises.{CheckPromise, FillPromise};\n"
TWICE = "OneCheck = (S : Sheet) (r t : Checked) → CheckPromise S r → CheckPromise S t → r ≡ t"
PLACES = "→ (r ≡ t) × (now ≡ after)"
PROMISE = "abbrev pub CheckPromise : Sheet → Checked → Type 0\n"
CLAUSE, FILLS = "CheckPromise S r = r ≡ Refused (S.d)", "FillPromise mode old r now = (r ≡ mode) × (now ≡ old)"
TYPES, FUNCTIONS = "An inner crate: types, and no functions.", "An inner crate: what its functions require, every caller proves."
# another promise in the place of the one there
OTHER = (LIB, BROUGHT, BROUGHT.replace("Fill", "Other")), (LIB, "FillPromise mode", "OtherPromise mode")
# rows of docs/PROMISES.md, and the head of a table there
PROMISED = "| `check` | `crates/probe/specs/Promises.antt` `CheckPromise` |\n"
ONE = "| `check` | `crates/probe/specs/Promises.antt` `OneCheck` | `crates/probe/proofs/Promises.antt` `one_check` |\n"
SAID = "| sentence | statement | theorem |\n|---|---|---|\n"
CLEARED = "| `probe/must-fail/place_cleared` | `fill`: the first entry cleared | the place afterwards |\n"
TRIED = "| `probe/must-fail/another_number` | `check`: the depth for the degree | the number |\n"
MORE = ("crates/probe/must-fail/more.edit", "refused: proofs/Promises.antt one_fill\nfile: src/lib.rt\nold: x\nnew: y\n")
# a function that asks for something, and one of a type that does
ASKING = "pub fn asking(n: u32) -> u32\n    requires { FillPromise n }\n{\n    n\n}\n"
METHOD = "impl Checked {\n    pub fn asking(self) -> u32\n        requires { FillPromise self }\n    {\n        8\n    }\n}\n"
# faults that are told in several ways
ASKS = "is a public call and has a `requires`"
NO_PROMISE = f"probe::fill ensures what is no promise of {SPECS}"
NOT_ONE = f"OneCheck of {SPECS} does not say that CheckPromise has one outcome"
ILL_SAID = f"CheckPromise of {SPECS} has not a type for each thing that it speaks of, and one clause"
STRANGE = "as a wrong answer of CALL, and no proof of what CALL comes to refuses it"
PLACES_NOT_ONE = f"OneFill of {SPECS} does not say that FillPromise has one outcome"

# the ways in which a library shows a function: its name from outside, and the edits
WAYS = [
    ("probe::asking", (LIB, ASKING)),
    ("probe::asking", (LIB, ASKING.replace("pub fn asking(n: u32)", "pub\nfn\nasking\n(\n    n: u32,\n)\n"))),
    ("probe::asking", (LIB, "pub const fn asking(n: u32) requires { FillPromise n } {}\n")),
    ("probe::asking", (LIB, "pub fn asking<'a>(n: &'a [u8]) -> u32 requires { FillPromise n } { 8 }\n")),
    # C may call it
    ("probe::asking", (LIB, 'pub extern "C" fn asking(n: u32) requires { FillPromise n } {}\n')),
    ("probe::asking", (PART, '#[no_mangle]\npub extern "C" fn asking(n: u32) requires { n ≤ 8 } {}\n')),
    # a public module
    ("probe::refusals::first", (LIB, "mod refusals;", "pub mod refusals;")),
    ("probe::more::asking", (LIB, f"pub mod more {{\n{ASKING}}}\n")),
    ("probe::more::within::asking", (LIB, f"pub mod more {{\n    pub mod within {{\n{ASKING}    }}\n}}\n")),
    ("probe::more::asking", (LIB, "pub mod more;\n"), ("crates/probe/src/more.rt", f"// More.\n{ASKING}")),
    # its own, passed on: by path, list, star, another name, and with its module
    ("probe::first", (LIB, "pub use refusals::first;\n")),
    ("probe::first", (LIB, "pub use self::refusals::first;\n")),
    ("probe::first", (LIB, "pub use crate::refusals::{first};\n")),
    ("probe::first", (LIB, "pub use refusals::*;\n")),
    ("probe::last", (LIB, "pub use refusals::first as last;\n")),
    ("probe::last", (LIB, "pub use refusals::{first as last,};\n")),
    ("probe::more", (LIB, "use refusals::first as known;\npub use known as more;\n")),
    ("probe::more::first", (LIB, "pub use refusals as more;\n")),
    ("probe::more::first", (LIB, "pub use refusals::{self as more};\n")),
    ("probe::more::first", (LIB, "pub mod more {\n    pub use super::refusals::first;\n}\n")),
    # another crate's, passed on in the same ways
    ("probe::half", (LIB, "pub use numbers::half;\n")),
    ("probe::half", (LIB, "pub use numbers::{CEILING, half};\n")),
    ("probe::half", (LIB, "pub use {verdicts::{Verdict as V}, numbers::{half}};\n")),
    ("probe::half", (LIB, "pub use numbers::*;\n")),
    ("probe::third", (LIB, "pub use numbers::half as third;\n")),
    ("probe::numbers::half", (LIB, "pub use numbers;\n")),
    ("probe::more::half", (LIB, "pub use numbers as more;\n")),
    # behind a module of the same name: of the crate's, and of the function's
    ("probe::half", (LIB, "mod numbers {\n    pub const half: u32 = 0;\n}\npub use ::numbers::half;\n")),
    ("probe::half", (LIB, "mod numbers {\n    pub const half: u32 = 0;\n}\npub use {::numbers::half};\n")),
    ("probe::first", (PART, "pub fn first", "pub mod first {\n    pub const N: u32 = 0;\n}\n\npub fn first"), (LIB, "pub use refusals::first;\n")),
    ("probe::first", (PART, "pub fn first", "pub const first: u32 = 0;\n\npub fn first"), (LIB, "pub use refusals::first;\n")),
    ("probe::half", (PART, "\nuse numbers::*;\npub mod half {}\n"), (LIB, "pub use refusals::half;\n")),
    # a function of a type that is shown, or that is met by what another holds
    ("probe::Checked::asking", (LIB, METHOD)),
    ("probe::Checked::asking", (LIB, f"mod more {{\n    mod within {{\n        use crate::Checked;\n{METHOD}    }}\n}}\n")),
    ("probe::Checked::asking", (LIB, f"mod more {{\n    use crate::Checked as C;\n{METHOD.replace('impl Checked', 'impl C')}}}\n")),
    ("probe::Checked::asking", (LIB, f"mod more {{\n    mod C {{}}\n    use crate::Checked as C;\n{METHOD.replace('impl Checked', 'impl C')}}}\n")),
    ("probe::Checked::asking", (LIB, f"type C = Checked;\n{METHOD.replace('impl Checked', 'impl C')}")),
    ("probe::Known::asking", (LIB, METHOD.replace("Checked", "Known")), (LIB, "{ verdict: Verdict }", "{ verdict: Verdict, known: Known }")),
    ("probe::Known::asking", (LIB, METHOD.replace("Checked", "Known")), (LIB, "pub const KNOWN: Known = Known { n: 8 };\n")),
    ("probe::Verdict::asking", (VERDICTS, METHOD.replace("Checked", "Verdict")), (VERDICTS, TYPES, FUNCTIONS)),
    # a function that a type has by a trait of std
    ("probe::Checked::from", (LIB, METHOD.replace("impl Checked", "impl From<u32> for Checked").replace("pub fn asking(self) -> u32", "fn from(self: u32) -> u32"))),
    # a new crate
    ("asking::asking", ("crates/asking/src/lib.rt", f"// Calls.\n{ASKING}")),
]

BREAKS = {
    faces.contracts: [
        *((f"{name} {ASKS}", *edits) for name, *edits in WAYS),
        ("probe::more is a public call and has not one `ensures`", (LIB, "pub fn more() {}\n")),
        ("probe::fill is a public call and has not one `ensures`", (LIB, f"{{ {FILLED} }}", f"same {{ {FILLED} }}\n    ensures more {{ result }}")),
        ("probe::fill is a public call and has a `ghost`", (LIB, ") -> u32\n    ensures", ") -> u32\n    ghost { FillPromise }\n    ensures")),
        (NO_PROMISE, (LIB, f"{{ {FILLED} }}", f"{{ {FILLED} × (result ≡ result) }}")),
        (NO_PROMISE, (LIB, "result place.new", "result place.old")),
        (NO_PROMISE, (LIB, "FillPromise mode", "FillPromise 8")),
        (NO_PROMISE, (LIB, "fn fill(\n    mode: u32,", "fn fill(\n    more: u32,\n    mode: u32,")),
        (NO_PROMISE, (LIB, "fn fill(\n", "fn fill<'a>(\n"), (LIB, "&mut [u8]", "&'a mut [u8]"), (LIB, "result place.new", "result")),
        (NO_PROMISE, (LIB, "FillPromise};", "OtherPromise as FillPromise};")),
        (NO_PROMISE, (LIB, BROUGHT, BROUGHT.replace(", Fill", "};\nghost use Rattle.page.specs.Sheet.{Fill"))),
        (NO_PROMISE, (LIB, "mod more {\n    ghost use Rattle.page.specs.Sheet.{FillPromise};\n}\n")),
        (NO_PROMISE, *OTHER),
        (NO_PROMISE, *OTHER, (SPECS, "\nabbrev OtherPromise : Sheet → Type 0\nOtherPromise S = Sheet\n")),
        (NO_PROMISE, *OTHER, (SPECS, "\nmodule _ where\n  abbrev pub OtherPromise : Sheet → Type 0\n  OtherPromise S = Sheet\n")),
        (NO_PROMISE, *OTHER, (SPECS, "◌≡◌, List, ℕ}\n", "◌≡◌, List, ℕ}\npub use Rattle.page.specs.Facts.{OtherPromise}\n")),
        (ILL_SAID, (SPECS, PROMISE, PROMISE.replace("Sheet → Checked", "{T : Type 0} → Sheet → T"))),
        (ILL_SAID, (SPECS, PROMISE, PROMISE.replace("CheckPromise : Sheet → Checked", "CheckPromise {T : Type 0} : Sheet → T"))),
        (ILL_SAID, (SPECS, PROMISE, PROMISE.replace("Sheet → Checked", "(T : Type 0) → T → Checked"))),
        (ILL_SAID, (SPECS, PROMISE, PROMISE.replace("→ Checked", "→ {r : Checked}"))),
        (ILL_SAID, (SPECS, PROMISE, PROMISE.replace("CheckPromise", "CheckPromise OtherPromise"))),
        (ILL_SAID, (SPECS, CLAUSE, f"{CLAUSE}\n{CLAUSE}")),
        (ILL_SAID, (SPECS, CLAUSE, "CheckPromise S (Refused r) = r ≡ S.d")),
        (ILL_SAID, (SPECS, CLAUSE, "CheckPromise S = λ r. r ≡ Refused (S.d)")),
        (ILL_SAID, (SPECS, CLAUSE, "CheckPromise r r = r ≡ Refused (r .d)")),
        (f"CheckPromise of {SPECS} says nothing of S", (SPECS, CLAUSE, "CheckPromise S r = r ≡ r"), (SPECS, "\nmore = Refused\n")),
        (f"FillPromise of {SPECS} says nothing of now", (SPECS, FILLS, "FillPromise mode old r now = (r ≡ mode) × (old ≡ old)")),
        *((f"CheckPromise of {SPECS} has a `{word}`, by which a name may mean something else", (SPECS, CLAUSE, clause)) for word, clause in (
            ("where", "CheckPromise S r = same where\n  same = r ≡ Refused (S.d)"),
            ("let", "CheckPromise S r = let r = Refused (S.d) in r ≡ Refused (S.d)"),
            ("λ", "CheckPromise S r = (λ r. r ≡ r) (Refused (S.d))"),
        )),
        ("probe::check ensures CheckPromise of other things than it speaks of",
         (SPECS, PROMISE, PROMISE.replace("Sheet →", "Sheet → Sheet →")), (SPECS, CLAUSE, "CheckPromise S T r = r ≡ Refused (S.d) (T .d)")),
        (NO_PROMISE.replace("fill", "check"), (LIB, SHEET, SHEET.replace("x y", "y x"))),
        ("probe::check speaks of another sheet than that of crates/page/specs/Sheet.antt", (LIB, "page.specs.Sheet.{", "page.specs.Facts.{")),
        ("probe::fill is given a thing by the name of its answer, result",
         (LIB, "    mode: u32,", "    result: u32,"), (LIB, "FillPromise mode", "FillPromise result"), (LIB, "refusals::first(mode)", "refusals::first(result)")),
        ("probe::fill ensures something by a word of the operator FillPromise◌", (LIB, "{sheet_of};", "{sheet_of, FillPromise◌};")),
        ("probe::fill is given a reference within another type", (LIB, "place: &mut [u8]", "place: &mut [&mut [u8]; 8]")),
        ("probe::fill answers a reference", (LIB, ") -> u32\n    ensures", ") -> &mut [u8]\n    ensures")),
        ("probe::same ensures what is no promise of crates/numbers/specs/Promises.antt",
         (LIB, "pub use numbers::same;\n"), (NUMBERS, "\npub fn same(n: u64) -> u64\n    ensures { Same n result }\n{\n    n\n}\n")),
    ],
    faces.promises_told: [
        ("docs/PROMISES.md does not give CheckPromise as the promise of probe::check", (PAGE, "`CheckPromise`", "`FillPromise`")),
        ("docs/PROMISES.md does not give CheckPromise as the promise of probe::check", (PAGE, PROMISED, "")),
    ],
    faces.known_calls: [
        *((f"docs/PROMISES.md has a row for the call {gone}, which nothing shows", (PAGE, row, row + row.replace("`check`", gone)))
          for row in (PROMISED, ONE) for gone in ("`gone`", "gone")),
        ("docs/PROMISES.md has a row for the call `first`, which nothing shows",
         (PAGE, "\n| call | edits |\n|---|---|\n| `check` | two |\n| `first` | none |\n")),
        ("docs/MORE.md has a row for the call `gone`, which nothing shows", ("docs/MORE.md", "| call | cases |\n|---|---|\n| `gone` | 8 |\n| all | 8 |\n")),
    ],
    faces.one_outcome: [
        (f"docs/PROMISES.md has not one statement of {SPECS} that probe::check has one outcome", (PAGE, ONE, ""), (PAGE, SAID, SAID + ONE)),
        *((NOT_ONE, (SPECS, TWICE, text)) for text in (
            TWICE.replace("r ≡ t", "r ≡ r"),
            TWICE.replace("r ≡ t", "(Checked → r ≡ t)"),
            TWICE.replace("CheckPromise S t → ", ""),
            TWICE.replace("CheckPromise S t", "CheckPromise S r"),
            TWICE.replace("(S : Sheet)", "(S Z : Sheet)").replace("CheckPromise S t", "CheckPromise Z t"),
            TWICE.replace("(S : Sheet)", "(Z : Sheet)"),
            TWICE.replace("(r t : Checked)", "(r t : ⊥)"),
            TWICE.replace("(r t : Checked)", "(r : Checked) (t : ⊥)"),
            TWICE.replace("(S : Sheet) (r t : Checked)", "(r t : Checked) (S : Sheet)"),
            TWICE.replace("(r t : Checked)", "(r t : Checked) (h : Sheet → Checked)"),
            TWICE + "\nOneCheck = CheckPromise",
        )),
        (NOT_ONE.replace("OneCheck", "OneFill"), (PAGE, ONE, ONE.replace("OneCheck", "OneFill").replace("one_check", "one_fill")), (PAGE, SAID, SAID + ONE)),
        *((f"{SPECS} may mean something else by ≡ or ×", *edits) for edits in (
            [(SPECS, "Prelude.{◌≡◌, List, ℕ}", "Other.{◌≡◌, List, ℕ}")],
            [(SPECS, "Prelude.{◌≡◌, List, ℕ}", "Prelude.{◌≢◌ as ◌≡◌, List, ℕ}")],
            [(SPECS, "List, ℕ}\n", "List, ℕ}\nuse Rattle.std.specs.Other.{◌×◌}\n")],
            [(SPECS, "\nabbrev pub ◌×◌ : Type 0 → Type 0 → Type 0\nA × B = A\n")],
        )),
        (PLACES_NOT_ONE, (SPECS, "(old : List ℕ)", "(mode : List ℕ)"), (SPECS, "→ FillPromise mode old r now", "→ FillPromise mode mode r now"),
         (SPECS, "→ FillPromise mode old t after", "→ FillPromise mode mode t after")),
        (PLACES_NOT_ONE, (SPECS, PLACES, "→ r ≡ t")),
        (PLACES_NOT_ONE, (SPECS, PLACES, "→ (r ≡ t) × (now ≡ now)")),
    ],
    faces.wrong_answers: [
        ("docs/PROMISES.md has 1 wrong answers of probe::check, and not 2", (PAGE, "`check`, `fill`: everything", "`fill`: everything")),
        ("docs/PROMISES.md has 0 wrong answers of probe::again, and not 2",
         (LIB, "pub use check as again;\n"), *((PAGE, row, row + row.replace("`check`", "`again`")) for row in (PROMISED, ONE))),
        ("docs/PROMISES.md does not say of which call `probe/must-fail/more` is a wrong answer",
         MORE, (PAGE, TRIED, TRIED + "| `probe/must-fail/more` | `check` refuses more | the number |\n")),
        ("docs/PROMISES.md has `probe/must-fail/more` as a wrong answer of first, which probe does not show",
         MORE, (PAGE, TRIED, TRIED + "| `probe/must-fail/more` | `first`: more refused | the number |\n")),
        # another call's, as it was or beside its own; one of a function that the call does not come to, or comes to only by its word
        (f"docs/PROMISES.md has `probe/must-fail/another_number` {STRANGE.replace('CALL', 'fill')}",
         (PAGE, TRIED, TRIED.replace("`check`:", "`check`, `fill`:"))),
        (f"docs/PROMISES.md has `probe/must-fail/place_cleared` {STRANGE.replace('CALL', 'check')}", (PAGE, CLEARED, CLEARED.replace("`fill`", "`check`")),
         MORE, (PAGE, TRIED, TRIED + "| `probe/must-fail/more` | `fill`: more refused | the number |\n")),
        (f"docs/PROMISES.md has `probe/must-fail/another_number` {STRANGE.replace('CALL', 'fill')}",
         (LIB, "    refusals::first(mode)", "    check(mode)"), (PAGE, "`check`, `fill`: everything", "`check`: everything"),
         MORE, (PAGE, TRIED, TRIED.replace("`check`:", "`check`, `fill`:") + "| `probe/must-fail/more` | `fill`: more refused | the number |\n")),
        *((f"docs/PROMISES.md has `probe/must-fail/more` {STRANGE.replace('CALL', 'fill')}", *edits,
           MORE, (MORE[0], "Promises.antt one_fill", f"refusals/{home}/Answers.antt returns"),
           (PAGE, TRIED, TRIED + "| `probe/must-fail/more` | `fill`: more refused | the number |\n"))
          for home, *edits in (("last",), ("last", (LIB, "    refusals::first(mode)", "    let last = refusals::first(mode);\n    last")), ("+last",),
                               ("+lasting", (PART, "#[cycle(lasting)]\nfn last() {}\n")), ("+first", (PART, "pub fn first", "#[cycle(more)]\npub fn first")))),
        (f"docs/PROMISES.md has `probe/must-fail/more` {STRANGE.replace('CALL', 'fill')}",
         MORE, (MORE[0], "proofs/Promises.antt one_fill", "check returns"),
         (PAGE, TRIED, TRIED + "| `probe/must-fail/more` | `fill`: more refused | the number |\n")),
    ],
    faces.shown_types: [
        ("probe::write_all is of no crate here", (LIB, "pub use io::write_all;\n")),
        ("probe::* is of no crate here", (LIB, "pub use io::*;\n")),
        ("more is no inner crate and has no public call", ("crates/more/src/lib.rt", "// Types.\npub struct More {\n    pub n: u32,\n}\n")),
        ("probe shows the type Checked, which asks for a proof", (LIB, "    Refused(u32),\n", "    Refused(u32),\n    ghost { FillPromise }\n")),
        ("probe shows the type Sure, which asks for a proof", (LIB, "pub struct Sure {\n    ghost sure: FillPromise,\n}\n")),
        ("probe shows the type Lent, which holds a reference", (LIB, "pub struct Lent<'a> {\n    pub place: &'a mut [u8],\n}\n")),
    ],
    faces.inner_crates: [
        (f"{NUMBERS} does not say '{FUNCTIONS}'", (NUMBERS, f"// {FUNCTIONS}\n", "")),
        (f"{VERDICTS} does not say '{FUNCTIONS}'", (VERDICTS, "\npub fn more() {}\n")),
        (f"{VERDICTS} does not say '{TYPES}'", (VERDICTS, f"// {TYPES}\n", "")),
        (f"crates/page/src/lib.rt does not say '{TYPES}'", ("crates/page/src/lib.rt", "\npub const MORE: u32 = 8;\n")),
        ("numbers is an inner crate, and C may call more", (NUMBERS, '\npub extern "C" fn more() {}\n')),
        ("crates/more is neither a library nor a program", ("crates/more/stdin", "more\n")),
        ("tests/faces.py names the inner crate more, which is not there", ("INNER", "more")),
        ("tests/faces.py names the inner crate listing, which is a program", ("INNER", "listing")),
    ],
}

# what may be done: what it is, and the edits
KEEPS = [
    ("a function for the crate alone", (LIB, ASKING.replace("pub fn", "pub(crate) fn"))),
    ("a public function in a module that is not shown", (LIB, f"mod more {{\n{ASKING}}}\n")),
    ("a function that another module of the crate uses", (LIB, "use refusals::first;\n")),
    ("a const and a type that are shown", (LIB, "pub use numbers::CEILING;\npub use verdicts::{Verdict as V};\npub type W = Verdict;\n")),
    ("a case of a type", (LIB, "pub use Checked::Refused;\n")),
    ("a module of types", (LIB, "pub mod more {\n    pub struct More(u32);\n}\n")),
    ("a function of a type that stays inside", (LIB, METHOD.replace("Checked", "Known"))),
    ("a function of a type, for the crate alone", (LIB, METHOD.replace("pub fn", "fn"))),
    ("a program's functions", ("crates/listing/src/main.rt", f"\n{ASKING}")),
    ("a call in a module", (LIB, "// Fill a place.\npub fn fill(", "// Fill a place.\npub use more::fill;\nmod more {\npub fn fill("), (LIB, "}\n")),
    ("a call that is shown twice", (LIB, "pub mod more {\n    pub use super::fill;\n}\n")),
    ("a place that is lent for a time", (LIB, "fn fill(\n", "fn fill<'a>(\n"), (LIB, "&mut [u8]", "&'a mut [u8]")),
    ("a wrong answer that a call's inner function refuses", MORE, (MORE[0], "proofs/Promises.antt one_fill", "refusals::first returns"),
     (PAGE, TRIED, TRIED + "| `probe/must-fail/more` | `fill`: more refused | the number |\n")),
    ("a wrong answer that a function which calls itself refuses", MORE, (MORE[0], "Promises.antt one_fill", "refusals/+first/Invariants.antt loop"),
     (PAGE, TRIED, TRIED + "| `probe/must-fail/more` | `fill`: more refused | the number |\n")),
    ("a wrong answer of a call that several functions refuse", MORE, (MORE[0], "Promises.antt one_fill", "refusals/+lasting/Answers.antt returns"),
     (PART, "pub fn first", "#[cycle(lasting)]\npub fn first"),
     (PAGE, TRIED, TRIED + "| `probe/must-fail/more` | `fill`: more refused | the number |\n")),
    ("a wrong answer in a definition", MORE,
     (PAGE, TRIED, TRIED + "| `probe/must-fail/more` | `fill`: more refused | the number |\n")),
]
