"""A small whole tree that keeps every rule of tests/tree.py, for tests/tree_tests.py to break.

It has two inner crates, `numbers` with a function and `verdicts` with a type; the definitions of `page`; the calls `check` and `fill` of `probe`; and a
program, `listing`. Nobody proves it: only its outside counts.
"""
INNER = ("numbers", "verdicts", "page")
LAW = ("page",)

FILES = {
    "crates.txt": """\
numbers:
verdicts:
page:
probe: page numbers verdicts
listing: probe
""",
    "README.md": "A small tree. What is promised is in `docs/PROMISES.md`.\n",
    "crates/numbers/src/lib.rt": """\
// Whole numbers on the machine.
// An inner crate: what its functions require, every caller proves.
#![tactic(auto)]

ghost use Rattle.std.specs.Prelude.{◌≡◌, ◌/◌, ◌≤◌};

pub const CEILING: u64 = 8;

// Half of n.
pub fn half(n: u64) -> u64
    requires { n ≤ 8 }
    ensures { result ≡ n / 2 }
{
    n / 2
}
""",
    "crates/verdicts/src/lib.rt": """\
// What a verdict is.
// An inner crate: types, and no functions.
#![tactic(auto)]

#[derive(Drop)]
pub enum Verdict {
    Above,
    Below,
}
""",
    "crates/page/src/lib.rt": "// No code: the page as definitions.\n#![tactic(auto)]\n",
    "crates/page/specs/Lib.antt": """\
-- The page.
pub mod Sheet
pub mod Facts
""",
    "crates/page/specs/Sheet.antt": """\
-- What a sheet holds.
use Rattle.std.specs.Prelude.{List, ℕ, ℤ}

pub record Sheet : Type 0 where
  pub d : ℕ
  pub A : List ℤ
  pub X : ℤ
  pub Y : ℤ
  pub s : ℕ
  pub k : ℕ

abbrev pub sheet_of : ℕ → List ℤ → ℤ → ℤ → ℕ → ℕ → Sheet
sheet_of d A x y s k = record { d = d; A = A; X = x; Y = y; s = s; k = k }
""",
    "crates/page/specs/Facts.antt": """\
-- What the page says of a sheet.
use Rattle.std.specs.Prelude.{◌≡◌}
use Rattle.page.specs.Sheet.{Sheet}

-- its degree is its own
abbrev pub OwnDegree : Type 0
OwnDegree = (S : Sheet) → S.d ≡ S.d
""",
    "crates/page/proofs/Lib.antt": "pub mod Facts\n",
    "crates/page/proofs/Facts.antt": """\
-- That it holds.
use Rattle.std.proofs.Path.{refl}
use Rattle.page.specs.Facts.{OwnDegree}

pub own_degree : OwnDegree
own_degree S = refl
""",
    "crates/probe/src/lib.rt": """\
// The calls: check a sheet, and fill a place.
#![tactic(auto)]

pub use verdicts::Verdict;

mod refusals;

ghost use Rattle.page.specs.Sheet.{sheet_of};
ghost use Rattle.probe.specs.Promises.{CheckPromise, FillPromise};

// A verdict, or a refusal.
#[derive(Drop)]
pub enum Checked {
    Accepted { verdict: Verdict },
    Refused(u32),
}

// What only the calls know.
struct Known {
    pub n: u32,
}

// Check a sheet.
pub fn check(d: u32, coefficients: &[i32], x: i32, y: i32, s: u32, k: u32) -> Checked
    ensures { CheckPromise (sheet_of d coefficients.now x y s k) result }
{
    Checked::Refused(refusals::first(d))
}

// Fill a place.
pub fn fill(
    mode: u32,
    place: &mut [u8],
) -> u32
    ensures { FillPromise mode place.old result place.new }
{
    refusals::first(mode)
}
""",
    "crates/probe/src/refusals.rt": """\
// The conditions that the calls try. Nothing shows them.
ghost use Rattle.std.specs.Prelude.{◌≡◌, ◌≤◌};

pub fn first(n: u32) -> u32
    requires { n ≤ 8 }
    ensures { result ≡ n }
{
    numbers::half(n)
}
""",
    "crates/probe/specs/Lib.antt": "pub mod Promises\n",
    "crates/probe/specs/Promises.antt": """\
-- The promises of the calls.
use Rattle.std.specs.Prelude.{◌≡◌, List, ℕ}
use Rattle.page.specs.Sheet.{Sheet}
use Rattle.probe.specs.declared.Checked.{Checked}
use Rattle.probe.specs.declared.Checked.TheVariants.{Refused}

abbrev pub CheckPromise : Sheet → Checked → Type 0
CheckPromise S r = r ≡ Refused (S.d)

abbrev pub FillPromise : ℕ → List ℕ → ℕ → List ℕ → Type 0
FillPromise mode old r now = (r ≡ mode) × (now ≡ old)

-- no second outcome satisfies a promise
abbrev pub OneCheck : Type 0
OneCheck = (S : Sheet) (r t : Checked) → CheckPromise S r → CheckPromise S t → r ≡ t

abbrev pub OneFill : Type 0
OneFill = (mode : ℕ) (old : List ℕ) (r t : ℕ) (now after : List ℕ) → FillPromise mode old r now → FillPromise mode old t after → (r ≡ t) × (now ≡ after)
""",
    "crates/probe/proofs/Lib.antt": "pub mod Promises\n",
    "crates/probe/proofs/Promises.antt": """\
-- That no second outcome satisfies a promise.
use Rattle.std.proofs.Path.{sym, ◌∙◌}
use Rattle.probe.specs.Promises.{OneCheck, OneFill}

pub one_check : OneCheck
one_check S r t p q = p ∙ sym q

pub one_fill : OneFill
one_fill mode old r t now after p q = (p.0 ∙ sym q.0, p.1 ∙ sym q.1)
""",
    "crates/probe/must-fail/another_number.edit": "refused: check returns\nfile: src/lib.rt\nold: first(d)\nnew: first(k)\n",
    "crates/probe/must-fail/everything_refused.edit": "refused: refusals::first returns\nfile: src/refusals.rt\nold:     numbers::half(n)\nnew:     8\n",
    "crates/probe/must-fail/place_cleared.edit": """\
refused: proofs/fill/Answers.antt returns
file: src/lib.rt
old:     refusals::first(mode)
new:     place[0] = 0; refusals::first(mode)
""",
    "crates/listing/src/main.rt": "// The program.\n#![tactic(auto)]\n\nfn main() {\n    probe::fill(8, &mut []);\n}\n",
    "docs/PROMISES.md": """\
# What is promised

| call | promise |
|---|---|
| `check` | `crates/probe/specs/Promises.antt` `CheckPromise` |
| `fill`, which leaves the place as it was | `crates/probe/specs/Promises.antt` `FillPromise` |

| call | statement | theorem |
|---|---|---|
| `check` | `crates/probe/specs/Promises.antt` `OneCheck` | `crates/probe/proofs/Promises.antt` `one_check` |
| `fill` | `crates/probe/specs/Promises.antt` `OneFill` | `crates/probe/proofs/Promises.antt` `one_fill` |

| sentence | statement | theorem |
|---|---|---|
| a sheet's degree is its own | `crates/page/specs/Facts.antt` `OwnDegree` | `crates/page/proofs/Facts.antt` `own_degree` |

| edit | what it would mean | refused by |
|---|---|---|
| `probe/must-fail/another_number` | `check`: the depth for the degree | the number |
| `probe/must-fail/everything_refused` | `check`, `fill`: everything refused | the number |
| `probe/must-fail/place_cleared` | `fill`: the first entry cleared | the place afterwards |
""",
    "docs/THEORY.md": "A half is `crates/numbers/src/lib.rt` `half`.\n",
    "docs/PAGE.md": """\
| sentence | definition | theorem, edit or test |
|---|---|---|
| "a degree" | `crates/page/specs/Sheet.antt` `Sheet` | `crates/page/proofs/Facts.antt` `own_degree` |
""",
    "docs/DESIGN.md": """\
# The map

| crate | holds |
|---|---|
| `numbers`, `verdicts` | numbers; verdicts |
| `page` | the page |
| `probe` | the calls |
| `listing` | the program |

## `page`

| file | what it is for |
|---|---|
| `specs/Sheet`, `Facts` | a sheet; what the page says of it |
| `proofs/Facts` | that it holds |

## `probe`

| file | what it is for |
|---|---|
| `src/`, `specs/Promises`, `proofs/Promises` | the calls |
| `listing/src/main.rt` | the program |
""",
    "docs/BENCHMARKS.md": """\
# What it costs

| crate | code | contracts | definitions | proofs | edits | proved in, s | edits tried in, s |
|---|---|---|---|---|---|---|---|
| `numbers` | 0 | 0 | 0 | 0 | 0 | 7 | 9 |
| `gone` | 1 | 1 | 1 | 1 | 1 | 1 | 1 |

That is all.
""",
}
