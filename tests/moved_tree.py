"""The small tree on which tests/moved_tests.py tries bench/moved, and edits of it."""
SIZES, FACTS, PROOFS = "crates/page/specs/Sizes.antt", "crates/page/specs/Facts.antt", "crates/page/proofs/Sizes.antt"
PROMISES, ROOM, LIB = "crates/call/specs/Promises.antt", "crates/call/specs/Room.antt", "crates/call/src/lib.rt"
INNER, SHOWN, PROOF = "crates/call/src/inner.rt", "crates/call/src/shown.rt", "crates/call/proofs/inner/double/Answers.antt"
INVARIANTS, MAIN, OWN = "crates/call/proofs/inner/double/Invariants.antt", "crates/program/src/main.rt", "crates/page/src/lib.rt"
AREA = """\
unfoldable pub area : ℕ → ℕ
area zero = zero
area (suc n) = suc (area n)

"""
BASE = {
    "crates.txt": "page:\ncall: page\nprogram: call\n",
    SIZES: f"""\
-- Sizes of things.
use Rattle.std.specs.Prelude.{{ℕ, zero, suc, ◌+◌}}

-- a size
pub record Size : Type 0 where
  pub wide high : ℕ

pub data Side : Type 0 where
  left right : Side

-- one beside the other
infix 3 ◌beside◌
abbrev pub ◌beside◌ : Size → Size → Size
a beside b = record {{ wide = a.wide + b.wide; high = a.high }}

{AREA}abbrev pub from_left : Side → ℕ
from_left left = 0
from_left right = 1

abbrev pub if_so : Dec → ℕ
if_so yes = 1
if_so no = 0

-- a kind of thing, and no statement
abbrev pub Point : Type 0
Point = ℕ → ℕ
""",
    FACTS: """\
-- What is said of sizes.
use Rattle.std.specs.Prelude.{◌≡◌, ℕ, ◌+◌, ◌≤◌}
use Rattle.page.specs.Sizes.{area}
pub use Rattle.page.specs.Sizes.{from_left}

abbrev pub Same : Type 0
Same = (a b : ℕ) → area (a + b) ≡ area (b + a)

abbrev pub Small : ℕ → Type 0
Small n = area n ≤ 8
""",
    PROOFS: """\
-- It is so.
use Rattle.std.specs.Prelude.{◌≡◌, ℕ, ◌≤◌}
use mathlib.Core.Path.{refl}
use Rattle.page.specs.Sizes.{area}
use Rattle.page.specs.Facts.{Same, Small}

module _ (n : ℕ) where
  kept : area n ≡ n
  unfolding area
  kept = go n
    where
      go : (m : ℕ) → area m ≡ m
      go m = refl

  pub small : n ≤ 8 → Small n
  small h = h

pub same : Same
same a b = refl
""",
    PROMISES: """\
-- What is promised.
use Rattle.std.specs.Prelude.{◌≡◌, ℕ, ◌+◌}
use Rattle.call.specs.declared.Answer.{Answer}
use Rattle.call.specs.declared.Answer.TheVariants as Answer

abbrev pub TwicePromise : ℕ → Answer → Type 0
TwicePromise n r = r ≡ Answer.Number (n + n)
""",
    ROOM: """\
use Rattle.std.specs.Prelude.{ℕ, zero, suc}
use Rattle.page.specs.Sizes.{from_left, right}

abbrev pub room : ℕ
room = from_left right
""",
    LIB: """\
// The call.
#![tactic(auto)]

mod inner;
mod shown;

pub use shown::thrice;
ghost use Rattle.std.specs.Prelude.{◌≤◌};
ghost use Rattle.call.specs.Promises.{TwicePromise};
ghost use Rattle.call.specs.Room.{room};

// An answer.
#[derive(Drop)]
pub enum Answer {
    Number(u32),
    Nothing,
}

impl Answer {
    // No more than is asked.
    pub fn most(self, limit: u32) -> u32
        requires { limit ≤ room }
    {
        limit
    }
}

// Twice a number.
pub fn twice(n: u32) -> Answer
    ensures { TwicePromise n result }
{
    Answer::Number(inner::double(n))
}
""",
    INNER: """\
// What the call is made of.
ghost use Rattle.std.specs.Prelude.{◌≤◌};
ghost use Rattle.call.specs.Room.{room};

pub fn double(n: u32) -> u32
    requires { n ≤ room }
{
    2 * n // no more
}
""",
    SHOWN: """\
// A call that stands apart.
use crate::Answer;
ghost use Rattle.call.specs.Promises.{TwicePromise};

pub fn thrice(n: u32) -> Answer
    ensures { TwicePromise n result }
{
    Answer::Number(n)
}
""",
    PROOF: """\
use Rattle.call.proofs.inner.double.Goals as goal

pub returns : goal.returns
returns c = search rules
""",
    INVARIANTS: """\
use Rattle.call.proofs.inner.double.Goals as goal

abbrev pub loop-n : goal.loop-n
loop-n c = c.args.n ≤ 8
""",
    MAIN: """\
#![tactic(auto)]

fn main() {
    let area = 3;
    call::twice(area);
}
""",
    # a module that has the name of a crate
    OWN: """\
mod call;

fn first() -> u32 {
    call::one()
}
""",
    "crates/page/src/call.rt": """\
pub fn one() -> u32 {
    1
}
""",
}


def edited(*edits):
    """The sources with some words exchanged: file, old, new."""
    texts = dict(BASE)
    for file, old, new in edits:
        assert old in texts[file], f"{file} has no {old}"
        texts[file] = texts[file].replace(old, new)
    return texts


def exchanged(*words):
    """The sources with some words exchanged in all files and in their names."""
    texts = BASE
    for old, new in words:
        texts = {file.replace(old, new): text.replace(old, new) for file, text in texts.items()}
    return texts
