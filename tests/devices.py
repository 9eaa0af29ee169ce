"""Devices that some tests need and a machine may lack, and what is said where one is missing.

A test that can't be tried is a fault like any other: its run fails, and says what is missing. Whoever wants to go on without such tests says
--without-devices; then the last lines of the run, NOT TRIED, tell which were left out. The gate does not say so.
"""
import os
import pathlib
import tty

FULL = pathlib.Path("/dev/full")


class Untried(str):
    """What comes of a test that can't be tried: why not."""


NO_FULL = Untried(f"can't be tried: there is no {FULL} here, an output that is always full")
NO_TERMINAL = Untried("can't be tried: no pseudo-terminal here gives some bytes and then fails")


def add_option(options):
    options.add_argument("--without-devices", action="store_true",
                         help="go on where the machine lacks a device that some tests need, and say at the end what was not tried")


def untried(tests):
    """Of tests, each a name and what came of it, those that can't be tried."""
    return [(name, why) for name, why in tests if isinstance(why, Untried)]


def left_out(tests, chosen):
    """The same, where it was agreed to go on without them: then they are no faults."""
    return untried(tests) if chosen.without_devices else []


def tell(tests, chosen):
    """The last lines of a run: what was left out; or, where a test should have been tried and can't be, how to go on without it."""
    for name, why in left_out(tests, chosen):
        print(f"NOT TRIED: {name}: {why}")
    if untried(tests) and not chosen.without_devices:
        print("--without-devices goes on without what can't be tried here, and says at the end what that is")


# ---- an output that is full

def has_full():
    return FULL.is_char_device()


# ---- an input that fails

def breaking(good):
    """A descriptor that gives some good bytes, and then fails: the near end of a terminal whose far end was left. None where there is no such thing."""
    try:
        near, far = os.openpty()
    except OSError:
        return None
    tty.setraw(far)  # the bytes come just as they are
    os.write(far, good)
    os.close(far)
    return near


def breaks(good):
    """Whether such a descriptor does so here."""
    near, got = breaking(good), b""
    try:
        while near is not None and len(got) <= len(good):
            more = os.read(near, len(good) + 1)
            if not more:
                return False
            got += more
    except OSError:
        return got == good
    finally:
        if near is not None:
            os.close(near)
    return False
