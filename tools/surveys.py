"""Reads what `hipc-search --survey` lists, and tells by a run what each task was told last, for tools/search-check."""
from __future__ import annotations

import re
from typing import FrozenSet, NamedTuple, Tuple

from searches import FOUND, NOT_KNOWN, Answer, Behind

SURVEY = "--survey"  # the word that stands in the place of a goal
FOUND_WITHIN = 12  # the status where longer schedules may lead to more states
HEADING = re.compile(r"# state (?P<place>\d+) of (?P<count>\d+): (?P<number>\d+) events")
TOLD = re.compile(r"#   [a-z][a-z0-9_]*: (?:= .+|no outcome)")
LAST_LINES = {
    FOUND: re.compile(r"# all states at rest, of any length: (?P<listed>\d+) of (?P<states>\d+) states"),
    FOUND_WITHIN: re.compile(r"# all states at rest within \d+ events: (?P<listed>\d+) of (?P<states>\d+) states"),
    NOT_KNOWN: re.compile(r"# not known: more than (?P<states>\d+) states"),
}


class State(NamedTuple):
    """A state at rest as it is listed: its place, of how many, how many events lead to it, the schedule, and the line of
    each task."""
    place: int
    among: int
    number: int
    schedule: str
    told: Tuple[str, ...]

    def lines(self) -> list[str]:
        heading = f"# state {self.place} of {self.among}: {self.number} events"
        return [heading, *self.schedule.splitlines(), *self.told]


class End(NamedTuple):
    """What the trace tells of the state behind a run: what each task was told last, which calls are open, and who was
    killed."""
    told: Tuple[str, ...]
    open: FrozenSet[Tuple[str, str]]
    killed: FrozenSet[str]


def state_of(lines: list[str]) -> State:
    """The state whose heading is the first of these lines."""
    heading, begin = HEADING.fullmatch(lines[0]), len(lines)
    assert heading
    while TOLD.fullmatch(lines[begin - 1]):
        begin -= 1
    place, among, number = (int(heading[name]) for name in ("place", "count", "number"))
    return State(place, among, number, "".join(f"{line}\n" for line in lines[1:begin]), tuple(lines[begin:]))


def listed_by(answer: Answer) -> list[State]:
    """The states that a survey lists."""
    lines = answer.text.splitlines()[:-1]
    begins = [number for number, line in enumerate(lines) if HEADING.fullmatch(line)]
    return [state_of(lines[begin:end]) for begin, end in zip(begins, begins[1:] + [len(lines)])]


def faults_of_form(answer: Answer) -> list[str]:
    """What is wrong with the lines of a survey."""
    last = answer.text.splitlines()[-1:] or [""]
    found, states = answer.status in LAST_LINES and LAST_LINES[answer.status].fullmatch(last[0]), listed_by(answer)
    if not found:
        return [f"it ends with {answer.status} and the line '{last[0]}'"]
    counts = [(state.place, state.among) for state in states]
    said = int(found.groupdict().get("listed", "0"))
    is_right = counts == [(place, said) for place in range(1, said + 1)]
    lines = [line for state in states for line in state.lines()] + last
    return [] if is_right and lines == answer.text.splitlines() else [f"its headings are {counts}, and it tells of {said} states"]


def with_states(answer: Answer, states: list[State]) -> Answer:
    """The survey with other states, which are counted anew."""
    *_, last = answer.text.splitlines()
    lines = [line for place, state in enumerate(states, 1) for line in state._replace(place=place, among=len(states)).lines()]
    listed = len(listed_by(answer))
    return Answer(answer.status, "\n".join([*lines, last.replace(f": {listed} of ", f": {len(states)} of ")]) + "\n")


def outcome_of(behind: Behind) -> "Tuple[str, str] | None":
    """The task that an event tells an outcome, and that outcome."""
    told = [line.strip() for line in behind.lines if line.strip().startswith("= ")]
    return (behind.lines[0].split()[0], told[0]) if told else None


def told_behind(names: list[str], run: list[Behind]) -> Tuple[str, ...]:
    """The line of each task of these names behind a run."""
    told = dict(it for it in map(outcome_of, run) if it)
    return tuple(f"#   {name}: {told.get(f't{number}', 'no outcome')}" for number, name in enumerate(names, 1))


def killed_in(run: list[Behind]) -> FrozenSet[str]:
    return frozenset(it.lines[0] for it in run if it.lines[0].startswith("kill "))


def changes_nothing(line: str, behind: Behind) -> bool:
    """Whether an event of this line of a schedule changes nothing: so it is too of a hangup that the kernel refuses."""
    return behind.is_idle or line.startswith("hangup ") and len(behind.lines) == 2
