"""The rules of tests/tree.py, each broken: a small tree that keeps all of them is edited, and the edit's one fault is told, in its words, and no other.

tests/small_tree.py has the tree, tests/tree_breaks.py and tests/face_breaks.py have the edits, and some that break nothing. A rule that no edit breaks is
a fault too; and the check ends with 1 where there is a fault, and with 0 where there is none.
"""
import contextlib
import io
import multiprocessing
import os
import pathlib
import subprocess
import sys
import tempfile

sys.dont_write_bytecode = True  # nothing is left in the tree
import face_breaks
import faces
import small_tree
import sources
import tree
import tree_breaks


def write(name, text):
    path = sources.at(name)
    path.parent.mkdir(parents=True, exist_ok=True)
    path.write_bytes(text.encode())


def edit(name, *change):
    """Replaces a text of a file by another; or adds a text at its end, which makes the file where there is none. Or names one more inner crate, or a link."""
    if name == "INNER":
        faces.INNER += change
        return
    if name == "LINK":
        sources.at(change[0]).symlink_to("nowhere")
        return
    path = sources.at(name)
    text = sources.text_of(path) if path.is_file() else ""
    if len(change) == 1:
        write(name, text + change[0])
    elif text.count(change[0]) == 1:
        write(name, text.replace(*change))
    else:
        raise ValueError(f"{name} has {text.count(change[0])} times: {change[0]}")


def restore(whole):
    """The small tree as it was."""
    for path in [path for path in sources.ROOT.rglob("*") if (path.is_file() or path.is_symlink()) and ".git" not in path.relative_to(sources.ROOT).parts]:
        if sources.named(path) not in whole:
            path.unlink()
    for path in sorted(sources.ROOT.glob("crates/*/**/"), reverse=True):
        if path.is_dir() and not any(path.iterdir()):
            path.rmdir()
    for name, text in whole.items():
        write(name, text)
    faces.INNER = small_tree.INNER


def faults():
    return [(rule, fault) for rule in tree.RULES for fault in rule()]


def told(rule, edits):
    """The faults that are found after some edits. The page of costs is brought up to date, as the rule for it says, unless that rule is to be broken."""
    for change in edits:
        edit(*change)
    if rule is not tree.costs:
        tree.counting().update()
    return faults()


def status(*edits):
    """What the check of the tree ends with after some edits: its status, and what it says."""
    for change in edits:
        edit(*change)
    with contextlib.redirect_stdout(io.StringIO()) as said:
        return tree.main(), said.getvalue().splitlines()


RULES = {**tree_breaks.BREAKS, **face_breaks.BREAKS}
# each edit with the rule and the fault that should be told; and those that break none, with what they are
BREAKS = [(rule, *one) for rule, several in RULES.items() for one in several]
KEEPS = tree_breaks.KEEPS + face_breaks.KEEPS


@contextlib.contextmanager
def planted():
    """The small tree, in a folder of its own: its files."""
    with tempfile.TemporaryDirectory() as home:
        sources.ROOT, faces.INNER, tree.LAW = pathlib.Path(home).resolve(), small_tree.INNER, small_tree.LAW
        subprocess.run(["git", "init", "-q"], cwd=home, check=True)
        for name, text in small_tree.FILES.items():
            write(name, text)
        tree.counting().update()
        yield {**small_tree.FILES, "docs/BENCHMARKS.md": sources.document("BENCHMARKS.md")}


def tried(part, parts):
    """What is wrong with every so many of the edits, from one on."""
    wrong = []
    with planted() as whole:
        for rule, fault, *edits in BREAKS[part::parts]:
            found = told(rule, edits)
            if found != [(rule, fault)]:
                wrong.append(f"{edits}\n    should be told of by {rule.__name__}: {fault}")
                wrong += [f"    is told of by {one.__name__}: {other}" for one, other in found] or ["    is not told of"]
            restore(whole)
        for what, *edits in KEEPS[part::parts]:
            wrong += [f"{what}: {one.__name__}: {fault}" for one, fault in told(None, edits)]
            restore(whole)
        wrong += [f"after all edits: {rule.__name__}: {fault}" for rule, fault in faults()]
    return wrong


def untouched():
    """What is wrong with the tree as it is, and with what the check of it ends with."""
    with planted() as whole:
        wrong = [f"the whole tree: {rule.__name__}: {fault}" for rule, fault in faults()]
        if "| 7 | 9 |" not in whole["docs/BENCHMARKS.md"]:
            wrong.append("bench/cost --update does not keep the times")
        files = len(sources.sources())
        ends = [((), (0, [f"tree: 0 faults in {files} source files"])),
                ([("docs/THEORY.md", "`half`", "a half")], (1, ["docs/THEORY.md cites nothing", f"tree: 1 faults in {files} source files"]))]
        for edits, end in ends:
            found = status(*edits)
            wrong += [f"{edits}: the check should end with {end}, and ends with {found}"] if found != end else []
            restore(whole)
    return wrong


def main():
    wrong, parts = untouched(), os.cpu_count() or 1
    with multiprocessing.Pool(parts) as pool:
        for found in pool.starmap(tried, [(part, parts) for part in range(parts)]):
            wrong += found
    wrong += [f"no edit breaks the rule {rule.__name__}" for rule in tree.RULES if not RULES.get(rule)]
    for line in wrong:
        print(line)
    print(f"tree tests: {len(BREAKS)} edits that break one of {len(tree.RULES)} rules, {len(KEEPS)} that break none, {len(wrong)} lines of faults")
    return 1 if wrong else 0


if __name__ == "__main__":
    sys.exit(main())
