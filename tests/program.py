"""Where a built program is, how it is started, and how a signed number is handed to it and comes back.

The comparisons, the benchmark and the script `sheet` start the proved programs in this one way.
"""
import pathlib
import resource
import subprocess
import sys

ROOT = pathlib.Path(__file__).resolve().parent.parent


def made(name):
    """The program of that name, where `rt run` and `rt ci` leave it, once it is proved: in the folder of its crate."""
    return ROOT / "crates" / name / "out" / name


def absent(program):
    """What is said where a program is not there."""
    return f"{program} is not there: `rt run` in crates/{program.name} proves and builds it"


def command(program):
    """The program is for x86-64 Linux, and is run as `rt` runs it: by itself."""
    return [program]


def ended(program, given, stack=None):
    """A run of a program on what it is given, with a stack of so many bytes where that is said: its status and what it wrote."""
    limit = stack and (lambda: resource.setrlimit(resource.RLIMIT_STACK, (stack, stack)))
    return subprocess.run(command(program), input=given, capture_output=True, preexec_fn=limit)


def written_by(program, given):
    """What a program writes, where it ends well."""
    if not program.is_file():
        sys.exit(f"{program.name}: {absent(program)}")
    run = ended(program, given)
    if run.returncode != 0:
        sys.exit(f"{program.name}: the program ended with status {run.returncode}: {run.stderr.decode(errors='replace')}")
    return run.stdout


def code(number, bits):
    """A signed number as a program takes and gives it: a negative one by its top bit and its steps below -1."""
    return number if number >= 0 else 2 ** (bits - 1) + (-1 - number)


def number(code, bits):
    return code if code < 2 ** (bits - 1) else -1 - (code - 2 ** (bits - 1))
