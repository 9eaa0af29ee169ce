"""Runs of a program that reads a sheet text from standard input and writes its answer to standard output, for tests/texts.py and tests/pictures.py.

It is run on the page's whole case, on input that comes in pieces, that is empty, far too long, or cannot be read, at all or after some of it, and with
an output that cannot be written. A run is a name, and what is wrong with it, or nothing. One that cannot be tried, since the machine lacks a device,
says so (tests/devices.py).
"""
import fcntl
import os
import subprocess
import termios
import time

import devices
from program import ROOT, command, ended
from second_text import LONGEST, WHOLE, written

STACK = 512 * 1024
# the deepest walk, with every cell coloured
DEEPEST = written("D 8", "B 0 0 0", "K 7", "M 0")


def fault_of(run, expected):
    """What is wrong with a run that was given a text, or nothing. The page says nothing of a status; an accepted sheet ends well."""
    if run.stdout != expected:
        return f"writes {run.stdout[:200]!r}, and {expected[:200]!r} is right"
    if run.stderr:
        return f"writes to standard error: {run.stderr[:200]!r}"
    if run.returncode != 0 and not expected.startswith(b"refused"):
        return f"ends with status {run.returncode}"
    return None


def taken(started):
    """Waits until a program has read all that was written for it, or has ended."""
    while started.poll() is None and fcntl.ioctl(started.stdin, termios.FIONREAD, bytes(4)) != bytes(4):
        time.sleep(0.001)


def in_pieces(program, pieces):
    """A run whose input comes piece by piece: none is written before those before it have been read."""
    started = subprocess.Popen(command(program), stdin=subprocess.PIPE, stdout=subprocess.PIPE, stderr=subprocess.PIPE)
    try:
        for piece in pieces:
            taken(started)
            started.stdin.write(piece)
            started.stdin.flush()
    except BrokenPipeError:  # it did not wait for all of it: what it wrote is judged
        pass
    out, err = started.communicate()
    return subprocess.CompletedProcess(started.args, started.returncode, out, err)


# ---- what cannot be read or written

def fault_unless_told(run, words):
    """What is wrong with a run that cannot read or write: nothing is to be written, and one line said."""
    told = not run.stdout and run.stderr == words.encode() + b"\n"
    return None if told else f"writes {run.stdout!r:.200}, and to standard error {run.stderr[:200]!r}, and {words!r} is right"


def unreadable(program, name):
    """Runs whose standard input is a folder, is open for writing alone, or fails after some good bytes."""
    inputs = [("a folder", lambda: os.open(ROOT, os.O_RDONLY)), ("open for writing alone", lambda: os.open(os.devnull, os.O_WRONLY))]
    for part, good in (("a part", WHOLE[:20]), ("all of the text", WHOLE)):
        if devices.breaks(good):
            inputs.append((f"that fails after {part}", lambda good=good: devices.breaking(good)))
        else:
            yield f"standard input that fails after {part}", devices.NO_TERMINAL
    for kind, opened in inputs:
        stdin = opened()
        run = subprocess.run(command(program), stdin=stdin, capture_output=True)
        os.close(stdin)
        yield f"standard input {kind}", fault_unless_told(run, f"{name}: standard input cannot be read")


def unwritable(program, name):
    """Runs whose standard output is full, or open for reading alone: for a sheet, and for a refusal."""
    for kind, path, way in (("full", devices.FULL, os.O_WRONLY), ("open for reading alone", os.devnull, os.O_RDONLY)):
        for given, text in (("a sheet", WHOLE), ("a refusal", b"")):
            if path == devices.FULL and not devices.has_full():
                yield f"standard output {kind}, {given}", devices.NO_FULL
                continue
            stdout = os.open(path, way)
            run = subprocess.run(command(program), input=text, stdout=stdout, stderr=subprocess.PIPE)
            os.close(stdout)
            yield f"standard output {kind}, {given}", fault_unless_told(run, f"{name}: standard output cannot be written")


# ---- all of them

def runs(program, name, told):
    """Runs of a program of that name, for which `told` says what it is to write for a text."""
    def whole(text, **more):
        return fault_of(ended(program, text, **more), told(text))

    def pieces(*some):
        return fault_of(in_pieces(program, some), told(b"".join(some)))

    yield "the whole case", whole(WHOLE)
    yield "the whole case in pieces", pieces(WHOLE[:1], WHOLE[1:20], WHOLE[20:-1], WHOLE[-1:])
    yield "the whole case unended", whole(WHOLE[:-1])
    yield "no input", whole(b"")
    long = WHOLE + b"\n" * (LONGEST - len(WHOLE))
    yield "the longest text", whole(long)
    yield "the longest text in pieces", pieces(long[:-1], long[-1:])
    yield "one byte more", whole(long + b"\n")
    yield "one byte more in pieces", pieces(long, b"\n")
    yield "megabytes", whole(WHOLE + b"T\t0\t0\t0\n" * 500_000)
    # on a small stack: no theorem bounds the stack (docs/ASSUMPTIONS.md)
    yield "the deepest walk", whole(DEEPEST, stack=STACK)
    yield from unreadable(program, name)
    yield from unwritable(program, name)
