"""Runs hipc-search, and tells by the text of a trace what a goal asks for, for the tools beside it.

Goals are read here anew, over the lines that `hipc replay` prints: nothing of the search itself is used.
"""
from __future__ import annotations

import re
import subprocess
from typing import FrozenSet, NamedTuple, Tuple

from runs import Refused
from scripts import Place, places_of
from traces import Event, events_of

FOUND, NONE, NONE_WITHIN, NOT_KNOWN = 0, 1, 9, 11  # the statuses of an answer
FIRST_LINES = {
    FOUND: re.compile(r"# (?P<goal>.*): (?P<number>\d+) events?"),
    NONE: re.compile(r"# none, of any length: (?P<states>\d+) states?"),
    NONE_WITHIN: re.compile(r"# none within (?P<number>\d+) events?: (?P<states>\d+) states?"),
    NOT_KNOWN: re.compile(r"# not known: more than (?P<states>\d+) states?"),
}


class Answer(NamedTuple):
    """What the search prints, and the status with which it ends."""
    status: int
    text: str

    def first_line(self) -> str:
        return self.text.partition("\n")[0]

    def number(self) -> int | None:
        """The events that lead to what is found, or within which there is nothing; None in any other answer."""
        found = FIRST_LINES[self.status].fullmatch(self.first_line()) if self.status in FIRST_LINES else None
        return int(found["number"]) if found and "number" in found.groupdict() else None

    def is_well_formed(self) -> bool:
        form = FIRST_LINES.get(self.status)
        return bool(form and form.fullmatch(self.first_line()) and (self.status == FOUND or self.text.count("\n") == 1))


def answer_to(program: str, words: list[str], folder: str) -> Answer:
    """What the search answers to these words, whose files are in a folder; raises Refused where it cannot be run."""
    try:
        ran = subprocess.run([program, *words], stdout=subprocess.PIPE, cwd=folder, text=True, check=False)
    except OSError as error:
        raise Refused(f"cannot run {program}: {error.strerror}") from error
    return Answer(ran.returncode, ran.stdout)


class Goal(NamedTuple):
    """What a goal asks for: its kind, which is `lost`, `rest`, `stuck` or `line`; the task that it names, as t1, or an empty
    word; and the words with which a line begins."""
    kind: str
    task: str = ""
    words: Tuple[str, ...] = ()


def goal_of(text: str, numbers: dict[str, str]) -> Goal:
    """A goal that is in its form, over tasks whose words in a trace go by their names."""
    first, *others = text.split()
    if first in ("lost", "rest"):
        return Goal(first)
    if first == "stuck":
        return Goal(first, numbers[others[0]] if others else "")
    owner = numbers[first[:-1]] if first.endswith(":") else ""
    words = others if owner else [first, *others]
    return Goal("line", owner, tuple(word_of(word, numbers) for word in words))


def word_of(word: str, numbers: dict[str, str]) -> str:
    """A word of a goal as it stands in a line: for @ and the name of a task the task's word."""
    named = re.match(r"@([a-z0-9_]*)", word)
    return numbers[named[1]] + word[named.end():] if named else word


def begins(asked: Tuple[str, ...], line: str) -> bool:
    words = line.split()
    return len(asked) <= len(words) and all(it in ("*", word) for it, word in zip(asked, words))


class Behind(NamedTuple):
    """What is known behind an event: its lines, whether it changed nothing, and the calls of living tasks that are not
    answered, hangups left out, each with its caller."""
    lines: Tuple[str, ...]
    is_idle: bool
    open: FrozenSet[Tuple[str, str]]

    def has_line(self, goal: Goal) -> bool:
        is_own = not goal.task or begins((goal.task,), self.lines[0])
        return is_own and any(begins(goal.words, line) for line in self.lines)

    def has_open(self, goal: Goal) -> bool:
        return any(not goal.task or caller == goal.task for _, caller in self.open)


AT_THE_START = Behind((), False, frozenset())


def lines_of(event: Event) -> Tuple[str, ...]:
    outcome = [event.outcome] if event.outcome else []
    return tuple(it.text for it in [event.head, *event.effects, *outcome, *event.own])


def is_idle(event: Event, place: Place) -> bool:
    """Whether an event changes nothing: of a task that has ended, a receive that finds nothing, a step past the end."""
    return event.head.kind == "ended" or event.is_empty() or place.line == 0


def follow(script: str, schedule: str, trace: str) -> list[Behind]:
    """What is known behind each event of a run; the script and the schedule are texts."""
    events = events_of(trace)
    calls: dict[str, str] = {}
    found: list[Behind] = []
    for event, place in zip(events, places_of(script, schedule, events)):
        for it in event.effects:
            if it.kind == "accepted" and it.method != "0":
                calls[it.call] = it.over.partition(".")[0]
            elif it.kind in ("answered", "vanished", "forgotten"):
                calls.pop(it.call, None)
        found.append(Behind(lines_of(event), is_idle(event, place), frozenset(calls.items())))
    return found
