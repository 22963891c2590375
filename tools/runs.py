"""Finds the programs and runs them over scripts and schedules, for the tools beside it."""
from __future__ import annotations

import os
import subprocess
import sys
from concurrent.futures import Executor, ProcessPoolExecutor, ThreadPoolExecutor
from itertools import groupby

TOP = os.path.dirname(os.path.dirname(os.path.realpath(__file__)))
MOST_EVENTS = 65_536
NAMED_BY = {"hipc": "HIPC", "hipc_search": "HIPC_SEARCH"}  # the variable that names another program, by its crate


class Refused(Exception):
    """What the program says instead of a trace."""


def is_fresh(crate: str = "hipc") -> bool:
    """Whether the proved program of a crate is built, of the sources as they are."""
    return not subprocess.run([os.path.join(TOP, "tools", "is-fresh"), crate], check=False).returncode


def program_of(tool: str, crate: str = "hipc") -> str:
    """The program that the variable HIPC names, or HIPC_SEARCH that of the search, else the proved one, else what ./hipc or
    ./hipc-search keeps of the sources before their proof, which is said; ends the tool where there is none."""
    named, called = os.environ.get(NAMED_BY[crate]), crate.replace("_", "-")
    if named or is_fresh(crate):
        return named or os.path.join(TOP, "crates", crate, "out", crate)
    kept = os.path.join(TOP, "crates", crate, "out", "unproved")
    sums = subprocess.run([os.path.join(TOP, "tools", "sums")], stdout=subprocess.PIPE, text=True, check=True).stdout
    try:
        with open(os.path.join(kept, "sources"), encoding="ascii") as file:
            is_kept = file.read() == sums
    except OSError:
        is_kept = False
    if not is_kept:
        sys.exit(f"{tool}: there is no {called} of the sources as they are: run ./build, or ./{called}, or name one in {NAMED_BY[crate]}")
    print(f"{tool}: these runs are of the sources before their proof; ./build proves and builds them", file=sys.stderr)
    return os.path.join(kept, crate)


def workers() -> Executor:
    """Processes, as many as there are processors; threads where processes have no memory to share, as in some containers."""
    count = len(os.sched_getaffinity(0))
    try:
        return ProcessPoolExecutor(count)
    except (OSError, ImportError):
        return ThreadPoolExecutor(count)


def schedule_of(steps: list[str]) -> str:
    """The text of a schedule with a line for each event, where steps of one task that follow each other are one line."""
    runs = [(step, len(list(run))) for step, run in groupby(steps)]
    return "".join(f"{step} x {count}\n" if count > 1 and step.startswith("step ") else f"{step}\n" * count for step, count in runs)


def trace_of(program: str, script: str, steps: list[str]) -> str:
    """The trace of a script, which is a file, under a schedule of such lines; raises Refused where there is none."""
    with os.fdopen(os.memfd_create("schedule"), "w") as schedule:
        schedule.writelines(f"{step}\n" for step in steps)
        schedule.flush()
        handle = schedule.fileno()
        words = [program, "replay", script, f"/proc/self/fd/{handle}"]
        try:
            ran = subprocess.run(words, stdout=subprocess.PIPE, pass_fds=(handle,), text=True, check=False)
        except OSError as error:
            raise Refused(f"cannot run {program}: {error.strerror}") from error
    if ran.returncode:
        raise Refused(ran.stdout.strip() or f"{program} ended with status {ran.returncode}")
    return ran.stdout
