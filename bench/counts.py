"""Counts the instructions of a run by valgrind's callgrind, for the tools beside it."""
from __future__ import annotations

import os
import re
import shutil
import subprocess
import sys
import tempfile


def can_count() -> bool:
    """Whether there is a valgrind."""
    return shutil.which("valgrind") is not None


def instructions(tool: str, words: list[str], status: int = 0) -> int:
    """The instructions from the start of the program that the words run to its end, with its text thrown away.

    It is to end with this status.
    """
    with tempfile.TemporaryDirectory() as folder:
        counts = os.path.join(folder, "counts")
        run = subprocess.run(
            ["valgrind", "--tool=callgrind", f"--callgrind-out-file={counts}", *words],
            stdout=subprocess.DEVNULL,
            stderr=subprocess.PIPE,
            text=True,
        )
        if run.returncode != status:
            sys.exit(f"{tool}: {' '.join(words)} ended with status {run.returncode}\n{run.stderr}")
        with open(counts, encoding="ascii", errors="replace") as file:
            total = re.search(r"^(?:summary|totals): *(\d+)", file.read(), re.MULTILINE)
    if not total:
        sys.exit(f"{tool}: callgrind gave no total")
    return int(total.group(1))
