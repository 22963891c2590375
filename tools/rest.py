"""Runs a script until it comes to rest, for tools/rounds and tools/sweep.

A round is one step of each task. The run is at rest once a whole round changes nothing: each task receives, and nothing
is there, or is a raw one past its last operation. From then on no round changes anything.
"""
from __future__ import annotations

from typing import Callable, NamedTuple

from runs import MOST_EVENTS, trace_of
from scripts import places_of
from traces import events_of

FIRST_SIZE = 16  # rounds of the first try; each further try has four times as many

Rounds = Callable[[int], "list[str]"]


class Rest(NamedTuple):
    """A run that went on behind its first steps: its trace, all its steps, how many of them lead to rest, and whether it
    came to rest."""
    trace: str
    steps: list[str]
    last: int
    is_at_rest: bool


def busy_events(script: str, steps: list[str], trace: str) -> list[bool]:
    """For each event of a run whether it changes anything."""
    events = events_of(trace)
    places = places_of(script, "\n".join(steps), events)
    return [not event.is_empty() and place.line != 0 for event, place in zip(events, places)]


def count_to_rest(busy: list[bool], begin: int, a_round: int) -> int | None:
    """How many events lead to the first round behind `begin` that changes nothing, or None where there is none."""
    for place in range(begin, len(busy) - a_round + 1, a_round):
        if not any(busy[place:place + a_round]):
            return max((number for number, is_busy in enumerate(busy[:place], 1) if is_busy), default=0)
    return None


def run_to_rest(program: str, script: str, text: str, first: list[str], rounds: Rounds, a_round: int, most: int) -> Rest:
    """Runs a script, which is a file with this text, by the first steps and then by ever more rounds of so many steps each,
    until it is at rest or had `most` events behind the first. Raises what trace_of and places_of do."""
    size = FIRST_SIZE
    most = min(most, MOST_EVENTS - len(first))
    while True:
        count = min(size * a_round, most)
        steps = first + rounds(count)
        trace = trace_of(program, script, steps)
        found = count_to_rest(busy_events(text, steps, trace), len(first), a_round) if a_round else len(first)
        if found is not None or count == most:
            return Rest(trace, steps, len(steps) if found is None else found, found is not None)
        size *= 4
