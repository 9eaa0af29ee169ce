"""Each must-fail edit is refused by the facts that its 'refused:' lines name.

    python3 tests/refusals.py [--facts] [--anew] [CRATE | CRATE/EDIT ..]

An edit that only makes a proof unfit (a name that is missing, a term that a rewriting step does not find) shows nothing. So every edit says which facts
the prover must refuse:

    refused: FILE DECLARATION    a declaration of proofs/: a lemma, a sample, or the answer to a goal of a function
    refused: FUNCTION GOAL       a goal of a function that no file answers, and that `search` does not prove: as `refused: refusals::first returns`

Each of them is refused for itself, and not because it cites another that was; the first that is refused at all is among them; and an edit of a definition
is refused at a computation with numbers too, in a file Samples.antt or Starred.antt, which no rewording of a proof can spoil.

A goal is named after the conditions on the way to it. So an edit of a condition takes an answer's goal away, which shows nothing by itself. The goal in its
place counts where rt tells of values at which it is false, since nobody has answered it; and so does one of which `search` gave up at a limit.

rt tries the edits too, and keeps of each no more than a line. So each is tried here once more, by `rt check` in copies of the crates, over what a check of
the crate without it leaves: tests/trials.py, which keeps what rt said for a later run on the same files. --anew tries all once more. --facts prints what
refuses each edit, as lines for it.
"""
import argparse
import re
import sys

sys.dont_write_bytecode = True  # nothing is left in the tree
import trials
from sources import ROOT

ERROR = re.compile(r"(?:\./)?(?P<file>\S+?):\d+:\d+: error: (?P<said>.*)")
NAMED = re.compile(r"(?:in )?`(?P<name>[^`]+)`: ")
UNFIT = ("that can be named from here", "is not in scope", "it has no file", "no occurrence of", "no equation of the list has an instance", "has no field",
         "is no name", "operand is missing", "expected the end", "cannot continue", "unsolved ")
FOLLOWS = re.compile(r"that depends? on `.*`, which was (?:rejected|not admitted), (?:was|were) not checked|was not admitted")
# a goal that is no more, of which an answer is there
GONE = re.compile(r"module `Rattle\.\w+\.proofs\.[^`]*Goals` has no `")
# the files with what is written of the proof of a function, in a folder of its own
ANSWERS = re.compile(r"proofs/(.+)/(?:Answers|Invariants|Proof)\.antt")
OPEN = re.compile(r"note: \S+:\d+:\d+: it is not proved that .*\(`(?P<goal>[^`]+)`\)(?P<more>.*)")
JUDGED = re.compile(r"fn \w+::(?P<function>\S+): ")
FALSE, GAVE_UP = "allow values at which this goal is false", ("gave up", "no proof within its bounds")
COMPUTED = "Samples.antt", "Starred.antt"


def folder_of(fact):
    """The folder with the proof of the function that a fact is of, without the plus of one that calls itself; none for a lemma's file."""
    home, _ = fact
    if home.endswith(".antt"):
        found = ANSWERS.fullmatch(home)
        return found and found[1].replace("/+", "/").removeprefix("+")
    return home.replace("::", "/")


def facts_in(log):
    """The facts that a check refuses, in its order; the folders of functions of which an answer has lost its goal; and the first message that is neither a
    fact nor a goal that is gone, if that comes before all facts."""
    facts, goals, gone, unfit = [], [], set(), None
    for line in log:
        if (found := ERROR.match(line)) and not FOLLOWS.search(found["said"]):
            name = NAMED.match(found["said"])
            fact = name and (found["file"], name["name"])
            if GONE.search(found["said"]) and ANSWERS.fullmatch(found["file"]):
                gone.add(folder_of(fact or (found["file"], "")))
            elif fact and found["file"].startswith("proofs/") and not any(word in found["said"] for word in UNFIT):
                facts.append((fact, True))
            elif not facts:
                unfit = unfit or line
        elif found := OPEN.match(line):
            goals.append((found["goal"], FALSE in found["more"], any(word in found["more"] for word in GAVE_UP)))
        elif found := JUDGED.match(line):
            # the goals of a function come before what is said of it
            facts += [((found["function"], goal), false or not gave_up and None) for goal, false, gave_up in goals]
            goals = []
    # a goal without values shows something only where no answer of its function lost its goal
    sure = [fact for fact, shown in facts if shown or shown is None and folder_of(fact) not in gone]
    return sure, gone, unfit


def judge(edit, trial):
    """What is wrong with the refusal of an edit, or nothing."""
    text = edit.read_text()
    lines = re.findall(r"^refused:.*$", text, re.M)
    said = [tuple(line.split()[1:]) for line in lines]
    if not said or any(len(fact) != 2 for fact in said):
        return "has no lines 'refused: FILE DECLARATION' or 'refused: FUNCTION GOAL', or a malformed one"
    if trial.fault:
        return trial.fault
    found, gone, unfit = facts_in(trial.log)
    if unfit:
        return f"is refused for want of a name, not of a fact: {unfit[:200]}"
    if not found:
        return "is refused, and by no fact" + (f": an answer of {', '.join(sorted(gone))} has lost its goal" if gone else "")
    if found[0] not in said:
        return f"is refused first at {' '.join(found[0])}, which it does not name"
    missing = [" ".join(fact) for fact in said if fact not in found]
    if missing:
        return f"is not refused at {', '.join(missing)}"
    lost = sorted(gone - {folder_of(fact) for fact in found})
    if lost:
        return f"takes the goal of an answer of {', '.join(lost)} away, of which no fact refuses it"
    if re.search(r"^file: specs/", text, re.M) and not any(home.endswith(COMPUTED) for home, _ in said):
        return "changes a definition and names no computation that refuses it"
    return None


def show(edit, trial):
    """Prints what refuses an edit."""
    found, gone, unfit = facts_in(trial.log)
    print(edit.relative_to(ROOT))
    lines = [trial.fault] if trial.fault else [f"refused: {' '.join(fact)}" for fact in dict.fromkeys(found)]
    lines += [f"an answer of {folder} has lost its goal" for folder in sorted(gone)] + ([f"for want of a name: {unfit[:200]}"] if unfit else [])
    for line in lines:
        print(f"    {line}")


def asked():
    options = argparse.ArgumentParser(description="Tries each must-fail edit, and holds what refuses it to what it says.")
    options.add_argument("--facts", action="store_true", help="print what refuses each edit, and judge none")
    options.add_argument("--anew", action="store_true", help="try all, those too that an earlier run tried on the same files")
    options.add_argument("only", nargs="*", metavar="CRATE | CRATE/EDIT")
    return options.parse_args()


def main():
    chosen = asked()
    edits = sorted(ROOT.glob("crates/*/must-fail/*.edit"))
    if chosen.only:
        edits = [edit for edit in edits if {edit.parts[-3], f"{edit.parts[-3]}/{edit.stem}"} & set(chosen.only)]
    tried = trials.of(edits, chosen.anew)
    if chosen.facts:
        for edit in edits:
            show(edit, tried[edit])
        return 0
    wrong = [(edit, fault) for edit in edits if (fault := judge(edit, tried[edit]))]
    for edit, fault in wrong:
        print(f"{edit.relative_to(ROOT)} {fault}")
    print(f"refusals: {len(edits) - len(wrong)} of {len(edits)} edits are refused by the facts that they name")
    return 1 if wrong or not edits else 0


if __name__ == "__main__":
    sys.exit(main())
