"""How the benchmarks build their plain C programs, take times, and count instructions and stack."""
import os
import re
import shutil
import subprocess
import sys

from program import ROOT, command

MADE = ROOT / "target" / "bench"
# a function begins at a multiple of 64 bytes: else the time of a walk varies by a tenth and more with the functions that stand before it
LEVEL, FLAGS = "-O2", ["-falign-functions=64", "-std=c11", "-Wall", "-Wextra"]
RUNS = 15


def built(name, *words):
    """The C program of that name. The compiler may be given further words, a level of optimisation among them: each choice is a program of its own."""
    if shutil.which("gcc") is None:
        sys.exit("bench: there is no gcc")
    flags = [*([] if any(word.startswith("-O") for word in words) else [LEVEL]), *words, *FLAGS]
    MADE.mkdir(parents=True, exist_ok=True)
    program = MADE / "".join([name, *words])
    subprocess.run(["gcc", *flags, "-o", program, ROOT / "bench" / f"{name}.c"], check=True)
    print(f"bench: {name}.c is built by gcc {' '.join(flags)}")
    return program


# ---- times

def run_once(program, cases):
    """The time of the processor that one run on the bytes of a file takes."""
    with cases.open("rb") as stdin:
        started = subprocess.Popen(command(program), stdin=stdin, stdout=subprocess.DEVNULL)
        _, status, used = os.wait4(started.pid, 0)
        started.returncode = os.waitstatus_to_exitcode(status)
    if started.returncode != 0:
        sys.exit(f"bench: {program.name} ended with status {started.returncode}")
    return used.ru_utime + used.ru_stime


def seconds(*jobs, runs=RUNS):
    """The least time of the processor that a run took, for each job: a program, and the bytes that it is given. The jobs take turns, so that a
    while in which the machine is busy falls on all of them alike."""
    files = {given: MADE / f"cases_{at}" for at, (_, given) in enumerate(jobs)}
    for given, file in files.items():
        file.write_bytes(given)
    rounds = [[run_once(program, files[given]) for program, given in jobs] for _ in range(runs)]
    for file in files.values():
        file.unlink()
    return [min(times) for times in zip(*rounds)]


# ---- what does not vary

def counts():
    """Whether instructions and stack can be counted: there is a valgrind for the programs."""
    return shutil.which("valgrind") is not None


def under_valgrind(program, given, *words):
    """What valgrind says of a run of the program on the bytes."""
    run = subprocess.run(["valgrind", *words, *command(program)], input=given, stdout=subprocess.DEVNULL, stderr=subprocess.PIPE)
    if run.returncode != 0:
        sys.exit(f"bench: valgrind ended with status {run.returncode}: {run.stderr.decode(errors='replace')}")
    return run.stderr.decode(errors="replace")


def instructions(program, given):
    """The instructions of a run."""
    said = under_valgrind(program, given, "--tool=callgrind", "--callgrind-out-file=/dev/null")
    return int(re.search(r"Collected : (\d+)", said)[1])


def most_stack(program, given):
    """The most bytes of stack that a run has at a time."""
    file = MADE / "stack"
    under_valgrind(program, given, "--tool=massif", "--heap=no", "--stacks=yes", "--peak-inaccuracy=0.0", f"--massif-out-file={file}")
    most = max(map(int, re.findall(r"mem_stacks_B=(\d+)", file.read_text())))
    file.unlink()
    return most
