"""Reads docs/COURSE.md: the paths through the lessons, and the questions of the quiz."""
from __future__ import annotations

import os
import re
from typing import NamedTuple, Tuple

TOP = os.path.dirname(os.path.dirname(os.path.realpath(__file__)))
QUESTION = re.compile(r"\[([^]]+)\]\(\.\./quiz/([a-z-]+)/question\)")
LESSON = re.compile(r"\]\(\.\./examples/([a-z-]+)/README\.md\)")
MINUTES = re.compile(r"^\| (\d+) \|", re.M)
SUM = re.compile(r"\b(\d+) minutes\b")


class Path(NamedTuple):
    """A path: its title, the minutes that it says it takes, the minutes of its rows, and the names of its lessons."""
    title: str
    minutes: int
    of_rows: Tuple[int, ...]
    lessons: Tuple[str, ...]


def text() -> str:
    with open(os.path.join(TOP, "docs", "COURSE.md"), encoding="utf-8") as file:
        return file.read()


def paths() -> list[Path]:
    """The parts of the course that have lessons and minutes."""
    found = []
    for part in text().split("\n## ")[1:]:
        lessons, said = LESSON.findall(part), SUM.search(part)
        if lessons and said:
            rows = tuple(map(int, MINUTES.findall(part)))
            found.append(Path(part.partition("\n")[0], int(said[1]), rows, tuple(lessons)))
    return found


def questions() -> dict[str, str]:
    """The questions in their order, each with its title."""
    return {name: title for title, name in QUESTION.findall(text())}
