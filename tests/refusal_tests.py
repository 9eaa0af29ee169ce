"""What tests/refusals.py says of edits, by logs as `rt check` writes them: each log with the `refused:` lines of an edit, and the fault that is found or none.

And how tests/trials.py applies an edit. It ends with 1 where something is not as it should be.
"""
import pathlib
import sys
import tempfile

sys.dont_write_bytecode = True  # nothing is left in the tree
import refusals
import trials

# lines of logs
LEMMA = "./proofs/Binomial.antt:64:8: error: `shift_suc`: the two sides differ"
SAMPLE = "./proofs/Samples.antt:30:14: error: `binomials`: as printed, the two types differ only where one has `1 ∷ []` (expected)"
FOLLOWS = ("./proofs/Binomial.antt:69:3: error: 7 declarations that depend on `shift_suc`, which was rejected, were not checked: shift_step and 6 more",
           "./proofs/Horner.antt:35:7: error: 1 declaration that depends on `entry_suc`, which was not admitted, was not checked: shifted_suc")
ANSWER = "./proofs/sizes/half/Answers.antt:15:100: error: `overflow_mul-result`: `omega`: the goal does not follow from what it read"
GONE = ("./proofs/sizes/half/Answers.antt:17:24: error: `returns-then-b-a`: `goal.returns-then-b-a`: module `Rattle.numbers.proofs.sizes.half.Goals` has no "
        "`returns-then-b-a` that can be named from here")
MISSING = "./proofs/sizes/half/Answers.antt:9:3: error: `returns`: `halves` is not in scope: not a local variable, nor a definition admitted earlier"
NO_FIELD = "./proofs/sizes/half/Answers.antt:9:3: error: `returns`: a record `Start` has no field `if-b-a`"
UNSOLVED = "./proofs/wide/Proof.antt:11:64: error: unsolved ?ℓ0 in `returns`: the level argument {ℓ} of `tt` was not determined"
UNREAD = "src/sizes.rt:9:3: error: `halves`: the name is not in scope"
PLAIN = "note: src/sizes.rt:44:1: it is not proved that what the function ensures holds when it returns (`returns-else-b-0`)"
FALSE = f"{PLAIN}; the facts known there allow values at which this goal is false"
LIMIT = f"{PLAIN}; `search` gave up at one of its limits"
HALF = "fn numbers::sizes::half: not proved"
LARGER = "fn numbers::larger: no proof: expected answers in ./proofs/larger/Answers.antt; `search` did not prove `returns-else-b-0`"
PROVED, END = "fn numbers::sum: proved", "logic=not-proved"
# what an edit says
OF_LEMMA, OF_SAMPLE = "refused: proofs/Binomial.antt shift_suc\n", "refused: proofs/Samples.antt binomials\n"
OF_ANSWER = "refused: proofs/sizes/half/Answers.antt overflow_mul-result\n"
OF_GOAL, OF_LARGER = "refused: sizes::half returns-else-b-0\n", "refused: larger returns-else-b-0\n"
CODE, DEFINITION = "file: src/sizes.rt\nold: a\nnew: b\n", "file: specs/Sizes.antt\nold: a\nnew: b\n"
WANT = "is refused for want of a name, not of a fact: "

# an edit, the log, and what is found
JUDGED = [
    (OF_LEMMA + OF_SAMPLE + DEFINITION, [LEMMA, FOLLOWS[0], SAMPLE], None),
    (OF_SAMPLE + DEFINITION, [*FOLLOWS, SAMPLE], None),
    (OF_ANSWER + CODE, [ANSWER, PROVED, HALF], None),
    (OF_LARGER + CODE, [PROVED, PLAIN, LARGER], None),
    (OF_LARGER + CODE, [PROVED, FALSE, LARGER], None),
    (OF_ANSWER + OF_GOAL + CODE, [ANSWER, GONE, FALSE, HALF], None),
    (OF_GOAL + CODE, [GONE, FALSE, HALF], None),
    (OF_ANSWER + CODE, [ANSWER, MISSING, HALF], None),
    (OF_LEMMA + DEFINITION, [LEMMA, SAMPLE], "changes a definition and names no computation that refuses it"),
    (OF_SAMPLE + DEFINITION, [LEMMA, SAMPLE], "is refused first at proofs/Binomial.antt shift_suc, which it does not name"),
    (OF_LEMMA + OF_SAMPLE + DEFINITION, [LEMMA, *FOLLOWS], "is not refused at proofs/Samples.antt binomials"),
    (OF_GOAL + CODE, [FALSE, LARGER], "is refused first at larger returns-else-b-0, which it does not name"),
    # a goal shows nothing where an answer of its function lost its own, or search gave up, unless there are values
    (OF_GOAL + CODE, [GONE, PLAIN, HALF], "is refused, and by no fact: an answer of sizes/half has lost its goal"),
    (OF_LARGER + CODE, [LIMIT, LARGER], "is refused, and by no fact"),
    (OF_LARGER + CODE, [GONE, FALSE, LARGER], "takes the goal of an answer of sizes/half away, of which no fact refuses it"),
    (OF_GOAL + CODE, [HALF], "is refused, and by no fact"),
    *((OF_ANSWER + CODE, [line, ANSWER, HALF], WANT + line) for line in (MISSING, NO_FIELD, UNSOLVED, UNREAD)),
    (CODE, [ANSWER, HALF], "has no lines 'refused: FILE DECLARATION' or 'refused: FUNCTION GOAL', or a malformed one"),
    ("refused: sizes::half\n" + CODE, [FALSE, HALF], "has no lines 'refused: FILE DECLARATION' or 'refused: FUNCTION GOAL', or a malformed one"),
]
# an edit of a file, and its text afterwards or what is wrong
FILE = "one\ntwo\nthree\n"
APPLIED = [
    ("why\nfile: src/lib.rt\nold: two\nnew: 2\n", "one\n2\nthree\n"),
    ("file: src/lib.rt\nold: two\nnew: three\nold: one\nnew: \n", "\nthree\nthree\n"),
    ("file: src/lib.rt\nold: o\nnew: 0\n", "src/lib.rt has 2 times: o"),
    ("file: src/lib.rt\nold: four\nnew: 4\n", "src/lib.rt has 0 times: four"),
    ("file: src/lib.rt\nold: two\n", "no 'old:' line has a 'new:' line"),
    ("old: two\nnew: 2\n", "a 'new:' line has no 'file:' or 'old:' line before it"),
]


def main():
    wrong = []
    with tempfile.TemporaryDirectory() as home:
        file, edit = pathlib.Path(home, "src", "lib.rt"), pathlib.Path(home, "some.edit")
        file.parent.mkdir()
        file.write_text(FILE)
        for text, log, wanted in JUDGED:
            edit.write_text(text)
            came = refusals.judge(edit, trials.Trial([*log, END], None))
            wrong += [(text, log, wanted, came)] if came != wanted else []
        for text, wanted in APPLIED:
            edit.write_text(text)
            try:
                came = trials.edited(edit, pathlib.Path(home)).get("src/lib.rt")
            except ValueError as fault:
                came = str(fault)
            wrong += [(text, [], wanted, came)] if came != wanted else []
    for text, log, wanted, came in wrong:
        print(f"{text}{chr(10).join(log)}\n    should be: {wanted}\n    and is: {came}")
    print(f"refusal tests: {len(wrong)} faults in {len(JUDGED) + len(APPLIED)} cases")
    return 1 if wrong else 0


if __name__ == "__main__":
    sys.exit(main())
