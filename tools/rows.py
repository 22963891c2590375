"""Makes the rows of a chart of the events of a trace, for the tools beside it."""
from __future__ import annotations

import re
from itertools import groupby

from scripts import METHODS, RIGHTS
from traces import Event, Line

ARROWS = ("call", "answer", "forward", "kernel")
RIGHT_NAMES = {str(number): name for number, name in enumerate(RIGHTS, 1)}
MOST_BYTES = 8  # that are shown of a poke or a peek
LEAST_ALIKE = 4  # events or rows that are drawn as the first, a count and the last


class Row:
    """A line of a chart. Its kind says what is drawn:

    call, answer, forward, kernel   an arrow from a task to a task, with a text
    box, more                       a text at a task; of `more` it stands for rows that are left out
    marks                           a short text at each of several tasks
    kill, spawn                     a text at a task, with a line over all columns
    end                             the end of a task's line
    heads                           the names of the tasks again
    """

    def __init__(self, kind: str, start: str = "", end: str = "", text: str = "") -> None:
        self.kind, self.start, self.end, self.text = kind, start, end, text
        self.marks: dict[str, str] = {}
        self.number = ""

    def shape(self) -> tuple[str, ...]:
        return self.kind, self.start, self.end, re.sub(r"\d+", "0", self.text), *self.marks

    def tasks(self) -> list[str]:
        return [task for task in (self.start, self.end, *self.marks) if task]


def trimmed(args: str) -> str:
    """Arguments without the zeros at their end, and with a space before them where any is left."""
    words = args.split()
    while words and words[-1] == "0":
        words.pop()
    return "".join(f" {word}" for word in words)


def marks(texts: dict[str, str]) -> Row:
    row = Row("marks")
    row.marks = texts
    return row


def more(count: int, like: Row) -> Row:
    return Row("more", like.start, text=f"{count} more like it")


def method(number: str) -> str:
    return METHODS[int(number)] if int(number) < len(METHODS) else number


def counted(count: str, what: str) -> str:
    return f"{count} {what}" + ("" if count == "1" else "s")


def shortened(digits: str) -> str:
    """Bytes in hexadecimal digits, of which the first are shown where there are many."""
    shown = 2 * MOST_BYTES
    return digits if len(digits) <= shown else f"{digits[:shown]}.., {counted(str(len(digits) // 2), 'byte')}"


class Story:
    """Makes rows of events, in their order: it knows from which task each call came, and where each call stands."""

    def __init__(self, names: dict[str, str]) -> None:
        self.names = names
        self.callers: dict[str, str] = {}
        self.places: dict[str, str] = {}

    def name(self, task: str) -> str:
        return f"{task} {self.names[task]}" if task in self.names else task

    def rows(self, event: Event) -> list[Row]:
        head = event.head
        rows = [Row(head.kind, head.task, text=f"{head.kind} {self.name(head.task)}")
                for _ in range(head.kind in ("kill", "spawn"))]
        for effect in event.effects:
            made: Row | None = getattr(self, effect.kind)(event, effect)
            rows += [made] if made else []
        told = self.outcome(event)
        end = [Row("end", head.task)] if head.kind == "kill" else []
        return rows + ([told] if told else []) + [self.own(it) for it in event.own] + end

    def outcome(self, event: Event) -> Row | None:
        head, outcome = event.head, event.outcome
        if outcome and outcome.kind == "empty":
            return marks({head.task: "EMPTY"})
        if outcome and outcome.kind == "refused or done" and outcome.code != "EOK":
            over = f"{head.task}.{head.phone}"
            of = {"call": f"call over {over}", "hangup": f"hangup of {over}", "area": f"area at {head.base}",
                  "unarea": f"unarea {head.base}", "poke": f"poke at {head.at}", "peek": f"peek at {head.at}"}
            what = of.get(head.kind, f"{head.kind} {head.call}".rstrip())
            return Row("box", head.task, text=f"{what}: {outcome.code}")
        if outcome and outcome.kind == "is read":
            return Row("box", head.task, text=f"reads at {head.at}: {shortened(outcome.bytes)}")
        return None

    def own(self, it: Line) -> Row:
        """A box at the task for what a fibril does."""
        told = {"sent": f"sends call {it.call}, {it.place}",
                "gets": f"gets answer {it.call}, {it.place}",
                "blocks": f"waits: {it.why}",
                "starts": f"starts, for {it.label}",
                "ends": f"ends exchange {it.exchange}" if it.exchange else "ends",
                "begins": f"begins exchange {it.exchange}: {it.mode}, session {it.session}, phone {it.phone}",
                "drops": f"drops exchange {it.exchange}",
                "refused": f"is refused: {it.code}"}
        return Row("box", it.fibril.partition("/")[0], text=f"{it.fibril} {told[it.kind]}")

    def accepted(self, event: Event, it: Line) -> Row:
        caller = it.over.partition(".")[0]
        self.callers[it.call], self.places[it.call] = caller, it.to
        arguments = trimmed(event.head.args) if event.head.kind == "call" else ""
        back = "" if it.to else ", back"
        kind = "kernel" if event.head.kind == "kill" else "call"
        return Row(kind, caller, it.to or caller, f"call {it.call} over {it.over}: {method(it.method)}{arguments}{back}")

    def received(self, event: Event, it: Line) -> Row:
        self.places[it.call] = it.task
        told = event.outcome.label if event.outcome else ""
        return Row("box", it.task, text=f"receives call {it.call}" + (f" from {told}" if told else ""))

    def delivered(self, event: Event, it: Line) -> Row:
        told = event.outcome if event.outcome and event.outcome.kind == "is answered" else None
        what = f": {told.code}{trimmed(told.args)}" if told else ""
        return Row("box", it.task, text=f"gets answer {it.call}{what}")

    def forwarded(self, event: Event, it: Line) -> Row:
        self.places[it.call] = it.to
        change = f": {method(event.head.method)}{trimmed(event.head.args)}" if event.head.method else ""
        mode = f", {event.head.mode}" if event.head.mode else ""
        return Row("forward", it.task, it.to, f"call {it.call}{mode}{change}")

    def answered(self, event: Event, it: Line) -> Row:
        start, caller = it.task or event.head.task, self.callers.get(it.call)
        text = f"answer {it.call}: {it.code}{trimmed(it.args)}"
        if caller is None:
            return Row("box", start, text=text)
        return Row("answer" if it.task else "kernel", start, caller, text)

    def dropped(self, _: Event, it: Line) -> Row:
        return Row("box", it.task, text=f"drops answer {it.call}")

    def vanished(self, event: Event, it: Line) -> Row:
        return Row("box", event.head.task, text=f"call {it.call} vanishes")

    def forgotten(self, event: Event, it: Line) -> Row:
        return Row("box", self.places.get(it.call) or event.head.task, text=f"call {it.call} forgotten")

    def phone(self, event: Event, it: Line) -> Row | None:
        task = it.over.partition(".")[0]
        if it.to:
            return Row("kernel", task, it.to, f"{it.over} connected")
        if it.state == "slammed":
            return Row("kernel", event.head.task, task, f"{it.over} slammed")
        if it.state != "hungup":
            return Row("box", task, text=f"{it.over} {it.state}")
        is_told = any(other.kind == "accepted" and other.over == it.over for other in event.effects)
        return None if is_told else Row("box", task, text=f"{it.over} hung up")

    def area(self, _: Event, it: Line) -> Row:
        what = f"{counted(it.pages, 'page')}, {RIGHT_NAMES.get(it.rights, it.rights)}, store {it.store}"
        return Row("box", it.task, text=f"area at {it.base}: {what}")

    def unarea(self, _: Event, it: Line) -> Row:
        return Row("box", it.task, text=f"no area at {it.base}")

    def write(self, event: Event, it: Line) -> Row:
        what = f": {shortened(event.head.bytes)}" if event.head.bytes else f", {counted(it.count, 'byte')}"
        return Row("box", it.task, text=f"written at {it.at}{what}")


class Piece:
    """What is drawn of an event, or of a run of events: the first and the last of their numbers, and the rows."""

    def __init__(self, first: int, last: int, rows: list[Row]) -> None:
        self.first, self.last, self.rows = first, last, rows
        self.idle: list[str] = []

    def label(self) -> str:
        return str(self.first) if self.first == self.last else f"{self.first}-{self.last}"

    def shape(self) -> list[tuple[str, ...]]:
        return [row.shape() for row in self.rows]


def pieces_of(story: Story, events: list[Event], first: int, last: int) -> list[Piece]:
    """A piece for each event that is drawn, from the first number to the last; idle events in a row make one."""
    pieces: list[Piece] = []
    for number, event in enumerate(events, 1):
        rows = story.rows(event)
        is_idle = event.is_empty() or event.head.kind == "ended"
        if not first <= number <= last or not rows and not is_idle:
            continue
        if not is_idle:
            pieces.append(Piece(number, number, rows))
            continue
        if not pieces or not pieces[-1].idle:
            pieces.append(Piece(number, number, []))
        pieces[-1].last = number
        pieces[-1].idle.append(f"{event.head.task} ended" if event.head.kind == "ended" else event.head.task)
    return pieces


def marks_of(idle: list[str]) -> Row:
    """One row for events that do nothing: at each task how many receives were empty, or that it has ended."""
    texts = {}
    for word in dict.fromkeys(idle):
        count = f" x {idle.count(word)}" if idle.count(word) > 1 else ""
        texts[word.split()[0]] = f"{word if ' ' in word else 'EMPTY'}{count}"
    return marks(texts)


def fold_rows(rows: list[Row]) -> list[Row]:
    """The rows of an event, with those between the first and the last of four or more of one shape as one."""
    made: list[Row] = []
    for _, group in groupby(rows, key=Row.shape):
        run = list(group)
        made += run if len(run) < LEAST_ALIKE else [run[0], more(len(run) - 2, run[0]), run[-1]]
    return made


def fold_pieces(pieces: list[Piece]) -> list[Piece]:
    """The pieces, with those between the first and the last of four or more of one shape as one."""
    made: list[Piece] = []
    for _, group in groupby(pieces, key=Piece.shape):
        run = list(group)
        if len(run) < LEAST_ALIKE:
            made += run
        else:
            between = Piece(run[1].first, run[-2].last, [more(len(run) - 2, run[0].rows[0])])
            made += [run[0], between, run[-1]]
    return made


def rows_of(pieces: list[Piece], heads_after: int) -> list[Row]:
    """All rows, the first of each piece with its number, and the names again after so many pieces."""
    rows = []
    for count, piece in enumerate(fold_pieces(pieces)):
        if count and count % heads_after == 0:
            rows.append(Row("heads"))
        made = [marks_of(piece.idle)] if piece.idle else fold_rows(piece.rows)
        made[0].number = piece.label()
        rows += made
    return rows
