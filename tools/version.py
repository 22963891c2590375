"""Tells the version and the name of a tool, for the tools beside it."""
from __future__ import annotations

import os
import sys

TOP = os.path.dirname(os.path.dirname(os.path.realpath(__file__)))


def tell_version() -> None:
    """Where the one word is --version, prints the first line of VERSION behind the name of the tool, and ends."""
    if sys.argv[1:] == ["--version"]:
        with open(os.path.join(TOP, "VERSION"), encoding="utf-8") as file:
            print(os.path.basename(sys.argv[0]), file.readline().strip())
        sys.exit()


def called(tool: str) -> str:
    """What a tool is called: its place in the repository, or its name in the path, as a package has it there."""
    name = os.path.basename(sys.argv[0])
    return name if name == f"hipc-{os.path.basename(tool)}" else tool
