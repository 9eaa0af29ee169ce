"""The pictures for a printer that the script `sheet` writes, and how it writes files (tests/whole_file.py): for tests/script.py.

A picture is just what the program `picture` writes, and the second program, too (tests/second_pbm.py). A file is there complete or not at all: where
the sheet is refused, the disk is full, a step fails, or somebody ends the script in the midst of it, the old file stays as it was and nothing else is
left. What is no plain file is written as it stands. These tests may be run by root, so whatever a fault could spoil is in a folder of their own.
"""
import contextlib
import errno
import io
import os
import pathlib
import re
import resource
import signal
import stat
import subprocess
import sys
import tempfile
from unittest import mock

import devices
import second_pbm
import sheets
import whole_file
from program import ROOT, made, written_by
from second_text import WHOLE, WHOLE_LISTING, written

SCRIPT = ROOT / "sheet"
WHOLE_PICTURE = b"P1\n2 2\n11\n11\n"
# the longest rows there are, which are broken
DEEP = written("D 2", "B -4 -4 3", "K 7", "M 0", "T 2 0 1", "T 1 1 1", "T 0 2 2", "T 0 0 -9")
OLD = b"an old file\n"
NODE = sheets.SHEETS / "node.sheet"
NOBODY = 65534


# ---- pictures

def picture_checks(run, refusals):
    """What is tried, and whether it is as it should be."""
    yield "the whole case, for a printer", run("--pbm", "-", given=WHOLE) == (0, WHOLE_PICTURE, "")
    for name, text in (("lost-oval", sheets.text("lost-oval")), ("node", sheets.text("node")), ("a deep sheet", DEEP)):
        status, out, err = run("--pbm", "-", given=text)
        yield f"{name}, for a printer", (status, out, err) == (0, second_pbm.picture_text(text), "")
        yield f"{name}, for a printer, just as the program writes it", out == written_by(made("picture"), text)
    yield "a file, for a printer", run("--pbm", NODE) == (0, second_pbm.picture_text(NODE.read_bytes()), "")
    for number, (text, words) in {words.split(":")[0]: (text, words) for text, words in reversed(refusals)}.items():
        status, out, err = run("--pbm", "-", given=text)
        yield f"no picture for a printer: {number}", (status, out, err) == (1, b"", f"standard input: {words}\n")


# ---- files

@contextlib.contextmanager
def old_file():
    """A folder, and an old file in it."""
    with tempfile.TemporaryDirectory() as name:
        out = pathlib.Path(name) / "out.pbm"
        out.write_bytes(OLD)
        yield out.parent, out


def held(folder):
    """What a folder holds: the bytes of each file, and of each link where it leads."""
    return {path.name: os.readlink(path) if path.is_symlink() else path.read_bytes() for path in folder.iterdir()}


def permissions(path):
    return stat.S_IMODE(path.stat().st_mode)


def written_checks(run):
    """Files that are written, new and old."""
    with old_file() as (folder, out):
        out.unlink()
        yield "a new file", run("--pbm", "-o", out, "-", given=WHOLE, umask=0o027) == (0, b"", "") and held(folder) == {out.name: WHOLE_PICTURE}
        yield "what may be done with a new file", permissions(out) == 0o640
        out.chmod(0o604)
        owner = NOBODY if os.geteuid() == 0 else os.geteuid()  # root alone may give a file away
        os.chown(out, owner, -1)
        os.link(out, folder / "before")
        yield "an old file", run("--list", "-o", out, "-", given=WHOLE) == (0, b"", "")
        yield "an old file is exchanged", held(folder) == {out.name: WHOLE_LISTING, "before": WHOLE_PICTURE}
        yield "what may be done with an old file", permissions(out) == 0o604 and out.stat().st_uid == owner
        yield "a sheet drawn to a file", run("-o", out, "-", given=WHOLE) == (0, b"", "") and out.read_bytes() == run("-", given=WHOLE)[1]
        odd = os.fsdecode(b"\x1b[7m\xff\n")
        yield "a file of an odd name", run("--pbm", "-o", folder / odd, "-", given=WHOLE) == (0, b"", "") and held(folder)[odd] == WHOLE_PICTURE
        closed = subprocess.run(["sh", "-c", 'exec "$@" >&-', "sh", SCRIPT, "-o", out, "-"], input=WHOLE)
        yield "a file, and standard output closed", closed.returncode == 0 and out.read_bytes().startswith(b"+----+\n|####|   standard input\n")


def kept_checks(run):
    """Old files that stay as they are, with nothing beside them."""
    with old_file() as (folder, out):
        for words in ([], ["--list"], ["--pbm"]):
            status, wrote, err = run(*words, "-o", out, "-", given=b"")
            refused = (status, wrote) == (1, b"") and err.startswith("standard input: refused by 14: line 1 is missing")
            yield f"a refusal and a file, {words}", refused and held(folder) == {out.name: OLD}
        limited = run("--pbm", "-o", out, "-", given=WHOLE, preexec_fn=lambda: resource.setrlimit(resource.RLIMIT_FSIZE, (5, 5)))
        said = f"sheet: {out} cannot be written: File too large\n"
        yield "a file of five bytes at most", limited == (2, b"", said) and held(folder) == {out.name: OLD}
        for words, said in ((["--pbm", "--list", "-o", out, "-"], "sheet: --list and --pbm ask for two things, and one is written: choose one\n"),
                            (["--pbm", "-", "-o"], "argument -o: expected one argument\n"), (["--pbm", "-o", "", "-"], "\nsheet: no OUT is named\n")):
            status, wrote, err = run(*words, given=WHOLE)
            yield f"no such options: {words}", (status, wrote) == (2, b"") and err.endswith(said) and held(folder) == {out.name: OLD}
        out.write_bytes(WHOLE)
        itself = (2, b"", f"sheet: {out} is the text of the sheet itself, which would be lost\n")
        yield "the sheet's own text", run("--pbm", "-o", out, out) == itself and held(folder) == {out.name: WHOLE}
        with out.open("rb") as text:
            given = run("--pbm", "-o", out, "-", given=None, stdin=text)
        yield "the sheet's own text, from standard input", given == itself and held(folder) == {out.name: WHOLE}


def straight_checks(run):
    """What is no plain file, and is written as it stands."""
    with old_file() as (folder, _):
        pipe = folder / "pipe"
        os.mkfifo(pipe)
        reading = os.open(pipe, os.O_RDONLY | os.O_NONBLOCK)
        good = run("--pbm", "-o", pipe, "-", given=WHOLE) == (0, b"", "") and pipe.is_fifo() and os.read(reading, 100) == WHOLE_PICTURE
        os.close(reading)
    yield "a pipe", good
    if not good:  # what exchanges a pipe for a file might exchange a device, too
        return
    yield "a device", run("--pbm", "-o", os.devnull, "-", given=WHOLE) == (0, b"", "") and pathlib.Path(os.devnull).is_char_device()
    said = f"sheet: {devices.FULL} cannot be written: No space left on device\n"
    yield "a full device", run("--pbm", "-o", devices.FULL, "-", given=WHOLE) == (2, b"", said) if devices.has_full() else devices.NO_FULL
    for name in ("-", "/dev/stdout"):
        yield f"standard output by the name {name}", run("--pbm", "-o", name, "-", given=WHOLE) == (0, WHOLE_PICTURE, "")


def descriptor_checks(run):
    """Descriptors, which are written as they stand though they are plain files. A link of ours is in place of /dev/stdout."""
    with old_file() as (folder, out):
        own = folder / "stdout"
        own.symlink_to("/proc/self/fd/1")
        with out.open("ab") as more:
            yield "standard output, a file that goes on", run("--pbm", "-o", own, "-", given=WHOLE, stdout=more) == (0, None, "")
            name = f"/dev/fd/{more.fileno()}"
            yield "a descriptor", run("--pbm", "-o", name, "-", given=WHOLE, pass_fds=[more.fileno()]) == (0, b"", "")
        yield "a file that goes on", out.read_bytes() == OLD + 2 * WHOLE_PICTURE and own.is_symlink()
        reading, writing = os.pipe()
        os.close(reading)
        yield "standard output that nobody reads", run("--pbm", "-o", own, "-", given=WHOLE, stdout=writing) == (2, None, "")
        os.close(writing)
        unopened = (2, b"", "sheet: /dev/fd/999 cannot be written: Bad file descriptor\n")
        yield "a descriptor that is not open", run("--pbm", "-o", "/dev/fd/999", "-", given=WHOLE) == unopened


# ---- the script within this process, with a program that answers at once

def call(script, *words):
    """What the script ends with and says, where it is asked for a picture for a printer."""
    said = io.StringIO()
    with mock.patch.object(sys, "argv", ["sheet", "--pbm", *map(str, words)]), contextlib.redirect_stderr(said):
        try:
            status = script.ending()
        except SystemExit as end:
            status = end.code
    return status, said.getvalue()


def half(fault):
    """What writes some bytes, and then fails."""
    def begin(descriptor, content):
        os.write(descriptor, content[:5])
        raise fault
    return begin


def step_checks(script):
    """Each step of writing a file fails, or is ended by Ctrl-C; and so is the program."""
    full = OSError(errno.ENOSPC, "No space left on device")
    with old_file() as (folder, out):
        for kind in ("an old file", "no file"):
            before = held(folder)
            for fault, expected in ((KeyboardInterrupt(), (130, "")), (full, (2, f"sheet: {out} cannot be written: No space left on device\n"))):
                for home, step, effect in ((whole_file, "into", half(fault)), (os, "fsync", fault), (os, "replace", fault)):
                    with mock.patch.object(home, step, side_effect=effect):
                        ended = call(script, "-o", out, NODE)
                    yield f"{kind}, {step}: {fault!r}", ended == expected and held(folder) == before
            with mock.patch.object(script, "answer_of", side_effect=KeyboardInterrupt):
                yield f"{kind}, the program: Ctrl-C", call(script, "-o", out, NODE) == (130, "") and held(folder) == before
            out.unlink(missing_ok=True)
        yield "all steps", call(script, "-o", out, NODE) == (0, "") and held(folder) == {out.name: WHOLE_PICTURE}


def name_checks(script):
    """Names at which no file can be."""
    with old_file() as (folder, out):
        (folder / "round").symlink_to("round")
        before, none = held(folder), "No such file or directory"
        names = {folder: "Is a directory", f"{folder}/": "Is a directory", "/dev/fd/": "Is a directory", f"{folder}/new/": none,
                 folder / "none" / "out": none, out / "out": "Not a directory", folder / "round": "Too many levels of symbolic links",
                 folder / ("n" * 256): "File name too long"}
        for name, why in names.items():
            ended = call(script, "-o", name, NODE)
            yield f"no file {name}", ended == (2, f"sheet: {name} cannot be written: {why}\n") and held(folder) == before
        ended = call(script, "-o", folder / os.fsdecode(b"\x1b[7m\xff\n/out"), NODE)
        yield "no file of an odd name", ended == (2, rf"sheet: {folder}/\x1b[7m\xff\n/out cannot be written: {none}" + "\n")


def link_checks(script):
    """Links stay, and the file is where they lead."""
    with old_file() as (folder, out):
        links, below, text = folder / "links", folder / "links" / "below", folder / "text"
        below.mkdir(parents=True)
        out.rename(below / "old")
        text.write_bytes(WHOLE)
        for name, end in (("first", "below/old"), ("second", "first"), ("third", "below/new"), ("fourth", text)):
            (links / name).symlink_to(end)
        ends = [call(script, "-o", links / name, NODE) for name in ("second", "third")]
        yield "links to an old file and to a new one", ends == [(0, ""), (0, "")] and held(below) == {"old": WHOLE_PICTURE, "new": WHOLE_PICTURE}
        yield "links stay", {path.name for path in links.iterdir() if path.is_symlink()} == {"first", "second", "third", "fourth"}
        lost = f"sheet: {links / 'fourth'} is the text of the sheet itself, which would be lost\n"
        yield "a link to the sheet's own text", call(script, "-o", links / "fourth", text) == (2, lost) and text.read_bytes() == WHOLE


# ---- other processes

def apart(folder, name, first=lambda: None):
    """How another process ends that does something first and then writes a file: 0, the number of an OSError, or that of a signal, below 0."""
    child = os.fork()
    if child == 0:
        status = 99
        try:
            os.chdir(folder)
            first()
            whole_file.write(name, WHOLE_PICTURE)
            status = 0
        except OSError as error:
            status = error.errno
        finally:
            os._exit(status)
    return os.waitstatus_to_exitcode(os.waitpid(child, 0)[1])


def killed_checks():
    """A process that is killed when the bytes are written. Nothing can be cleared up after SIGKILL; the others wait until the file is complete."""
    with old_file() as (folder, out):
        def killed_by(number):
            def kill(_):
                os.kill(os.getpid(), number)

            def change():
                if number != signal.SIGKILL:  # whoever runs the tests may have it passed over, as nohup does
                    signal.signal(number, signal.SIG_DFL)
                os.fsync = kill
            return change

        yield "a name without a folder", apart(folder, "alone") == 0 and held(folder) == {out.name: OLD, "alone": WHOLE_PICTURE}
        for name in (signal.SIGTERM, signal.SIGHUP):
            (folder / "alone").write_bytes(OLD)
            ended = apart(folder, "alone", killed_by(name))
            yield f"ended by {name.name}", ended == -name and held(folder) == {out.name: OLD, "alone": WHOLE_PICTURE}
        yield "ended by SIGKILL", apart(folder, out.name, killed_by(signal.SIGKILL)) == -signal.SIGKILL and out.read_bytes() == OLD


def unprivileged():
    """For root no permissions count."""
    if os.geteuid() == 0:
        os.setuid(NOBODY)


def forbidden_checks():
    """Files and folders that may not be written, and beside them some that may."""
    with old_file() as (folder, _):
        folder.chmod(0o755)
        for name, of_folder, of_file, expected in (("a shut folder", 0o555, 0o666, errno.EACCES), ("a shut file", 0o777, 0o444, errno.EACCES),
                                                   ("no shut file", 0o777, 0o666, 0)):
            place, out = folder / name, folder / name / "out"
            place.mkdir()
            out.write_bytes(OLD)
            out.chmod(of_file)
            place.chmod(of_folder)
            yield name, apart(folder, f"{name}/out", unprivileged) == expected and held(place) == {"out": OLD if expected else WHOLE_PICTURE}
            yield f"{name}: what may be done with it", permissions(out) == of_file
            place.chmod(0o777)


def readme_checks():
    """From a sheet to a printed page in README.md: the sheet is there, and the sizes are right."""
    readme = " ".join((ROOT / "README.md").read_text().split())
    found = re.search(r"\./sheet --pbm sheets/([\w-]+)\.sheet \| pamenlarge (\d+) \| pnmtopng > \1\.png", readme)
    name, scale = found.groups() if found else ("none", 0)
    yield "a sheet to print in README.md", name in sheets.names()
    for k in (sheets.sheet(name).k, 7) if name in sheets.names() else ():
        dots = 2 ** k * int(scale)
        size = rf"{2 ** k} cells[^.]*, which at scale {scale} are {dots:,} dots, and {dots / 300 * 25.4:.0f} mm"
        yield f"the size of depth {k} in README.md", bool(re.search(size, readme))


def checks(run, script, refusals):
    """What is tried, and whether it is as it should be."""
    yield from picture_checks(run, refusals)
    for kind in (written_checks, kept_checks, straight_checks, descriptor_checks):
        yield from kind(run)
    with mock.patch.object(script, "answer_of", lambda *_: WHOLE_PICTURE):
        for kind in (step_checks, name_checks, link_checks):
            yield from kind(script)
    for kind in (killed_checks, forbidden_checks, readme_checks):
        yield from kind()
