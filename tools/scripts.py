"""Reads scripts and schedules, and follows raw tasks through a trace, for the tools beside it.

What is read here is a script and a schedule that the program takes: the program tells the faults of others.
"""
from __future__ import annotations

import re
from typing import Iterator

from traces import CODES, Event, Line

# made by tools/words: methods
METHODS = ("PHONE_HUNGUP", "CONNECT_TO_ME", "CONNECT_ME_TO", "DATA_WRITE", "DATA_READ", "SHARE_OUT", "SHARE_IN")
# made by tools/words: rights
RIGHTS = ("R", "W", "RW")
# made by tools/words: flags
FLAGS = ["RESTRICT"]
# made by tools/words: structure
STRUCTURE = ("ns", "task", "template", "fibril", "connection", "wire")
# made by tools/words: kinds and modes
KINDS_AND_MODES = ("raw", "async", "block", "plain", "route", "atomic", "serialize", "parallel")
VALUES = {**{name: number for names in (METHODS, CODES) for number, name in enumerate(names)},
          **{name: number for names in (RIGHTS, FLAGS) for number, name in enumerate(names, 1)}}
REGISTERS = 32
ARGUMENTS = 5


class Operation:
    """An operation of a raw task: the number of its line, and its words."""

    def __init__(self, line: int, words: list[str]) -> None:
        self.line, self.words = line, words


class Task:
    """What a script says of a task or of a template: its name, its kind and, of a raw one, its operations."""

    def __init__(self, name: str, kind: str) -> None:
        self.name, self.kind = name, kind
        self.operations: list[Operation] = []


class Step:
    """An event of a schedule: its line, its word, the name of its task and, of a spawn, that of its template."""

    def __init__(self, line: int, kind: str, name: str, template: str, text: str) -> None:
        self.line, self.kind, self.name, self.template, self.text = line, kind, name, template, text


class Differs(Exception):
    """A trace that is not that of the script and the schedule."""


def number_of(word: str) -> int:
    return int(word, 16 if word.startswith("0x") else 10)


def lines_with_words(text: str) -> Iterator[tuple[int, list[str]]]:
    for number, line in enumerate(text.split("\n"), 1):
        words = line.partition("#")[0].split()
        if words:
            yield number, words


def tasks_of(script: str) -> tuple[list[Task], list[Task]]:
    """The tasks of a script in their order, and its templates."""
    tasks: list[Task] = []
    templates: list[Task] = []
    last = Task("", "")
    for number, words in lines_with_words(script):
        if words[0] in ("ns", "task", "template"):
            name, kind = ("ns", "ns") if words[0] == "ns" or len(words) < 3 else (words[1], words[2])
            last = Task(name, kind)
            (templates if words[0] == "template" else tasks).append(last)
        elif words[0] not in STRUCTURE and last.kind == "raw":
            last.operations.append(Operation(number, words))
    return tasks, templates


def steps_of(schedule: str) -> list[Step]:
    """The events of a schedule, in their order."""
    steps = []
    for number, words in lines_with_words(schedule):
        kind, name = words[0], words[-1] if words[0] == "spawn" else words[1] if len(words) > 1 else ""
        template = words[1] if kind == "spawn" and len(words) > 1 else ""
        is_many = kind == "step" and len(words) == 4
        text = " ".join(words[:2] if is_many else words)
        steps += [Step(number, kind, name, template, text)] * (number_of(words[3]) if is_many else 1)
    return steps


def tasks_by_number(script: str, steps: list[Step]) -> dict[str, Task]:
    """The tasks by their words in a trace, as t1: those of the script, and those that the steps spawn."""
    tasks, templates = tasks_of(script)
    kinds = {it.name: it for it in templates}
    for step in steps:
        if step.kind == "spawn" and step.template in kinds:
            task = Task(step.name, kinds[step.template].kind)
            task.operations = kinds[step.template].operations
            tasks.append(task)
    return {f"t{number}": task for number, task in enumerate(tasks, 1)}


def names_of(script: str, schedule: str = "") -> dict[str, str]:
    """The names of the tasks by their words in a trace."""
    return {word: task.name for word, task in tasks_by_number(script, steps_of(schedule)).items()}


def number_of_code(code: str) -> int:
    return VALUES[code] if code in CODES else int(code)


def numbers(words: str) -> list[int]:
    return [int(word) for word in words.split()]


class Raw:
    """A raw task as it goes: the place where it stands, and what its registers hold."""

    def __init__(self, word: str, task: Task) -> None:
        self.word, self.operations, self.place = word, task.operations, 0
        self.registers = [0] * REGISTERS

    def operation(self) -> Operation | None:
        return self.operations[self.place] if self.place < len(self.operations) else None

    def value(self, word: str) -> int:
        if re.fullmatch(r"r\d+", word):
            return self.registers[int(word[1:])]
        return VALUES[word] if word in VALUES else number_of(word)

    def head(self) -> str:
        """The head line of its next step."""
        operation = self.operation()
        kind, *words = operation.words if operation else ["nothing"]
        if kind in ("nothing", "set", "jump", "jumpeq", "jumpne"):
            return f"{self.word} nothing"
        if kind == "poke":
            return f"{self.word} poke {self.value(words[0])} {words[1].lower()}"
        fixed = {"call": 2, "answer": 2, "forward": 3}.get(kind, 0)
        told = [word if word in ("plain", "route") else str(self.value(word)) for word in words]
        if kind == "answer":
            told[1] = dict(enumerate(CODES)).get(int(told[1]), told[1])
        if kind in ("call", "answer") or kind == "forward" and len(words) > fixed:
            fixed += kind == "forward"
            told += ["0"] * (fixed + ARGUMENTS - len(told))
        return " ".join([self.word, kind, *told])

    def take(self, outcome: Line) -> None:
        """Makes of its registers and its place what an outcome makes of them."""
        operation = self.operation()
        kind, *words = operation.words if operation else ["nothing"]
        if outcome.kind == "empty" or kind == "nothing":
            return
        self.place += 1
        if kind == "set":
            self.registers[int(words[0][1:])] = self.value(words[1])
        elif kind.startswith("jump"):
            left, right = [0, 0] if kind == "jump" else [self.value(word) for word in words[:2]]
            if (left == right) == (kind != "jumpne"):
                self.place = number_of(words[-1])
        else:
            self.store(outcome)

    def store(self, outcome: Line) -> None:
        told = {0: number_of_code(outcome.code) if outcome.kind == "refused or done" else 0}
        if outcome.kind == "is accepted":
            told[1] = int(outcome.call)
        elif outcome.kind == "is received":
            label = [int(word) for word in outcome.label[1:].split(".")]
            values = [int(outcome.call), int(outcome.method), *numbers(outcome.args)]
            told.update({**dict(enumerate(values, 2)), **dict(enumerate(label, 16))})
        elif outcome.kind == "is answered":
            values = [int(outcome.call), number_of_code(outcome.code), *numbers(outcome.args)]
            told.update(enumerate(values, 9))
        for register, value in told.items():
            self.registers[register] = value


class Place:
    """Where an event comes from: its line in the schedule and, of a raw task, its line in the script, 0 past the end."""

    def __init__(self, step: Step, line: int | None) -> None:
        self.step, self.line = step, line


def may_head(step: Step, head: Line) -> bool:
    """Whether an event with such a head may come from this line of a schedule."""
    if step.kind == "step":
        return head.kind not in ("kill", "spawn")
    return head.kind in (step.kind, "ended")


def places_of(script: str, schedule: str, events: list[Event]) -> list[Place]:
    """Where each event comes from; raises Differs where the trace is not that of the script and the schedule.

    A trace may be shorter than its schedule, as one that was stopped is.
    """
    steps = steps_of(schedule)
    tasks = tasks_by_number(script, steps)
    words = {task.name: word for word, task in tasks.items()}
    raws = {word: Raw(word, task) for word, task in tasks.items() if task.kind == "raw"}
    if len(events) > len(steps):
        raise Differs(f"the trace has {len(events)} events, and the schedule {len(steps)}")
    places = []
    for number, (step, event) in enumerate(zip(steps, events), 1):
        head, word = event.head, words.get(step.name, "")
        if head.task != word or not may_head(step, head):
            raise Differs(f"event {number} is {head.text!r} in the trace, and {step.text!r} in the schedule")
        raw = raws.get(word) if step.kind == "step" and head.kind != "ended" else None
        if raw and raw.head() != head.text:
            raise Differs(f"event {number} is {head.text!r} in the trace, and the script has {raw.head()!r} there")
        operation = raw.operation() if raw else None
        places.append(Place(step, operation.line if operation else 0 if raw else None))
        if raw and event.outcome:
            raw.take(event.outcome)
    return places
