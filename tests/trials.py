"""What rt says of a crate with a must-fail edit: `rt check` is run in copies of the crates, as many at a time as there are processors and memory.

First the crate is checked as it stands, and then with each edit over what that check left, so that mostly what the edit changes is proved again. What was
said is kept on this machine for later runs, by the checksums of all that it was read from: rt's version, the crate and those below, and the edit.
"""
import collections
import concurrent.futures
import hashlib
import json
import os
import pathlib
import queue
import re
import shutil
import subprocess
import tempfile

from sources import ROOT, listed

# what a check says, line by line, or why there is none
Trial = collections.namedtuple("Trial", "log fault")
PARTS = "src", "specs", "proofs"
# the lines that tell what is refused
TOLD = re.compile(r"\S+:\d+:\d+: error|note: \S+:\d+:\d+: it is not proved|fn \S+: |logic=")
KEPT = pathlib.Path(os.environ.get("XDG_CACHE_HOME") or pathlib.Path.home() / ".cache") / "kipongaere" / "refusals"
# the edits of a crate that are tried in one copy, and the bytes that a check may take
SEVERAL, ROOM = 8, 3_000_000_000


# ---- edits

def edited(edit, home):
    """The files of a crate that an edit changes, with their texts; a text that stands not once is a ValueError."""
    texts, file, old = {}, None, None
    for line in edit.read_text().split("\n"):
        word, _, rest = line.partition(" ")
        if word == "file:":
            file = rest.strip()
        elif word == "old:":
            old = rest
        elif word == "new:":
            if file is None or old is None:
                raise ValueError("a 'new:' line has no 'file:' or 'old:' line before it")
            text = texts.get(file) or (home / file).read_text()
            if text.count(old) != 1:
                raise ValueError(f"{file} has {text.count(old)} times: {old}")
            texts[file], old = text.replace(old, rest), None
    if not texts:
        raise ValueError("no 'old:' line has a 'new:' line")
    return texts


# ---- what was said before

def version():
    return subprocess.run(["rt", "version"], capture_output=True, text=True, check=True).stdout


def below(crate, known):
    """A crate and those of the tree that it rests on."""
    return {crate}.union(*(below(name, known) for name in known.get(crate, ()) if name in known))


def sum_of(crate, known, rt):
    """A checksum of all that a check of a crate reads."""
    found = hashlib.sha256(rt.encode())
    for name in sorted(below(crate, known)):
        found.update(repr((name, known[name])).encode())
        for path in sorted(path for part in PARTS for path in (ROOT / "crates" / name / part).rglob("*") if path.is_file()):
            found.update(repr((path.relative_to(ROOT).as_posix(), path.read_bytes())).encode())
    return found.hexdigest()


def place(edit, sums):
    """Where it is kept what was said of an edit: by the lines of it that rt reads."""
    lines = [line for line in edit.read_text().split("\n") if line.startswith(("file:", "old:", "new:"))]
    return KEPT / hashlib.sha256(repr((sums[edit.parts[-3]], edit.stem, lines)).encode()).hexdigest()


def remembered(file):
    try:
        return Trial(json.loads(file.read_text())["log"], None)
    except (OSError, ValueError, KeyError, TypeError):
        return None


def remember(file, log):
    """Writes it apart and then renames it, so that nobody reads half of it. Where it cannot be kept, the next run tries the edit once more."""
    try:
        KEPT.mkdir(parents=True, exist_ok=True)
        with tempfile.NamedTemporaryFile("w", dir=KEPT, delete=False) as new:
            json.dump({"log": log}, new)
        os.replace(new.name, file)
    except OSError:
        pass


# ---- checks

def at_once():
    """How many checks are run beside each other."""
    free = int(re.search(r"MemAvailable:\s+(\d+)", pathlib.Path("/proc/meminfo").read_text())[1]) * 1024
    return max(1, min(len(os.sched_getaffinity(0)), free // ROOM))


def copied(home):
    """A copy of the crates without what rt left there. Nothing else of the tree is read by a check."""
    for name in ("crates.txt", "HANDLES"):
        if (ROOT / name).is_file():
            shutil.copy(ROOT / name, home / name)
    (home / ".git").mkdir()
    for crate in listed():
        for part in PARTS:
            if (ROOT / "crates" / crate / part).is_dir():
                shutil.copytree(ROOT / "crates" / crate / part, home / "crates" / crate / part)


def linked(folder, to):
    """A copy by links of what a check kept: rt replaces such a file, and changes none."""
    def copy(one, other):
        try:
            os.link(one, other)
        except OSError:
            shutil.copy2(one, other)
    shutil.copytree(folder, to, copy_function=copy)


def checked(home):
    """The status of a check of the crate in a folder, and what it says. One that gives no verdict, as where it is killed for memory, is run once more."""
    for _ in range(2):
        run = subprocess.run(["rt", "check", "--jobs", "1"], cwd=home, stdin=subprocess.DEVNULL, stdout=subprocess.PIPE, stderr=subprocess.STDOUT, text=True,
                             errors="replace")
        if run.returncode in (0, 1):
            break
    return run.returncode, run.stdout.splitlines()


def unfit(edit):
    """What comes of an edit that cannot be applied."""
    try:
        edited(edit, ROOT / "crates" / edit.parts[-3])
        return None
    except (OSError, ValueError) as error:
        return Trial([], f"cannot be applied: {error}")


def tried(edit, home, seed):
    """What a check says of the crate in a folder with an edit, begun with what the seed holds."""
    texts = edited(edit, home)
    were = {file: (home / file).read_text() for file in texts}
    kept = home / "out" / "incremental"
    shutil.rmtree(kept, ignore_errors=True)
    linked(seed, kept)
    try:
        for file, text in texts.items():
            (home / file).write_text(text)
        status, said = checked(home)
    finally:
        for file, text in were.items():
            (home / file).write_text(text)
    if status == 0:
        return Trial([], "is not refused")
    if status != 1 or "logic=not-proved" not in said:
        return Trial([], f"could not be tried: rt check ended with status {status}: {next((line for line in said if 'error' in line), said[-1:])}"[:400])
    return Trial([line for line in said if TOLD.match(line)], None)


def several(edits, homes):
    """What is said of some edits of one crate, in a copy that nobody else has."""
    home = homes.get()
    crate = edits[0].parts[-3]
    try:
        folder = home / "crates" / crate
        status, said = checked(folder)
        if status != 0:
            why = next((line for line in said if re.search(r"error|not proved|no proof", line)), "")
            return [(edit, Trial([], f"was not tried, since {crate} is not proved without it: {why}"[:300])) for edit in edits]
        seed = home / "seed"
        shutil.rmtree(seed, ignore_errors=True)
        os.rename(folder / "out" / "incremental", seed)
        return [(edit, tried(edit, folder, seed)) for edit in edits]
    finally:
        homes.put(home)


def of(edits, anew):
    """What is said of each edit."""
    known, rt = listed(), version()
    sums = {crate: sum_of(crate, known, rt) for crate in {edit.parts[-3] for edit in edits}}
    places = {edit: place(edit, sums) for edit in edits}
    found = {edit: trial for edit in edits if (trial := unfit(edit) or not anew and remembered(places[edit]))}
    left = collections.defaultdict(list)
    for edit in [edit for edit in edits if edit not in found]:
        left[edit.parts[-3]].append(edit)
    # those that others rest on first, since what is built of them in one copy serves in all
    parts = [left[crate][at:at + SEVERAL] for crate in known for at in range(0, len(left[crate]), SEVERAL)]
    if not parts:
        return found
    with tempfile.TemporaryDirectory() as room, concurrent.futures.ThreadPoolExecutor(at_once()) as pool:
        homes = queue.Queue()
        for number in range(at_once()):
            home = pathlib.Path(room, str(number))
            home.mkdir()
            copied(home)
            homes.put(home)
        for answers in pool.map(lambda some: several(some, homes), parts):
            for edit, trial in answers:
                found[edit] = trial
                if trial.log:
                    remember(places[edit], trial.log)
    return found
