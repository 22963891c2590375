"""Reads traces, for the tools beside it."""
from __future__ import annotations

import re
import signal
import sys
from functools import lru_cache
from typing import Tuple

# A reader of the output who has enough of it, as head does, ends the tool without a word, and so does Ctrl-C.
signal.signal(signal.SIGPIPE, signal.SIG_DFL)
signal.signal(signal.SIGINT, signal.SIG_DFL)

NUMBER = r"\d+"
TASK = r"t[1-9]\d*"
PHONE = TASK + r"\.\d+"
FIBRIL = TASK + r"/[1-9]\d*"
BYTES = r"(?:(?:[0-9a-f]{2})+|-)"

# made by tools/words: codes
CODES = ("EOK", "ENOENT", "EPERM", "EEXIST", "EINVAL", "ELIMIT", "EHANGUP", "EFORWARD", "EBUSY", "ENOMEM")

# The shapes of lines, in which N is a number, T a task, P a phone, F a fibril, C a code, and B bytes.
# made by tools/words: head shapes
HEADS = (
    "T call N N N N N N N",
    "T receive",
    "T answer N C N N N N N",
    "T forward N N plain",
    "T forward N N plain N N N N N N",
    "T forward N N route",
    "T forward N N route N N N N N N",
    "T hangup N",
    "T area N N N",
    "T unarea N",
    "T poke N B",
    "T peek N N",
    "T nothing",
    "T ended",
    "kill T",
    "spawn T",
)
# made by tools/words: outcome shapes
OUTCOMES = (
    "= EOK",
    "= C",
    "= call N",
    "= received N N N N N N N from P",
    "= answer N C N N N N N",
    "= EMPTY",
    "= bytes B",
)
# made by tools/words: effect shapes
EFFECTS = (
    "call N accepted P method N to T",
    "call N accepted P method N back",
    "call N received T",
    "call N forwarded T to T label P",
    "call N answered C N N N N N by T",
    "call N answered C N N N N N by kernel",
    "call N delivered T",
    "call N dropped T",
    "call N vanished",
    "call N forgotten",
    "phone P free",
    "phone P connecting",
    "phone P connected T",
    "phone P hungup",
    "phone P slammed",
    "area T N N N store N",
    "unarea T N",
    "write T N N store N",
)
# made by tools/words: fibril shapes
OWN = (
    "F sent N slot N",
    "F sent N begin",
    "F gets N slot N C N N N N N",
    "F gets N begin C N N N N N",
    "F blocks answer N",
    "F blocks mutex N",
    "F blocks phone",
    "F blocks message",
    "F starts P",
    "F ends",
    "F refused C",
    "F begins exchange N atomic session N phone N",
    "F begins exchange N serialize session N phone N",
    "F begins exchange N parallel session N phone N",
    "F ends exchange N",
    "F drops exchange N",
)

CODE = rf"(?:{'|'.join(CODES)}|[1-9]\d+)"
KINDS = {"N": NUMBER, "T": TASK, "P": PHONE, "F": FIBRIL, "C": CODE, "B": BYTES}
# What is named as one: five arguments, and a place or a reason with its number.
UNIT = re.compile(r"N(?: N){4}(?! N)|slot N|(?<=blocks )\S+(?: N)?|\S+")
# The kind of an outcome by its word.
TOLD = {"EOK": "refused or done", "C": "refused or done", "call": "is accepted", "received": "is received",
        "answer": "is answered", "EMPTY": "empty", "bytes": "is read"}
# The names of the parts that the tools use, by the kind of the line, one for each unit of its shapes: `-` where there is
# none, and with `=` before it where it may be a word that stands for itself.
HEAD_PARTS = {
    "call": "task - phone method args",
    "receive": "task",
    "answer": "task - call code args",
    "forward": "task - call phone =mode method args",
    "hangup": "task - phone",
    "area": "task - base pages rights",
    "unarea": "task - base",
    "poke": "task - at bytes",
    "peek": "task - at count",
    "nothing": "task",
    "ended": "task",
    "kill": "- task",
    "spawn": "- task",
}
OUTCOME_PARTS = {
    "refused or done": "- =code",
    "is accepted": "- - call",
    "is received": "- - call method args - label",
    "is answered": "- - call code args",
    "is read": "- - bytes",
}
EFFECT_PARTS = {
    "accepted": "- call - over - method - to",
    "received": "- call - task",
    "forwarded": "- call - task - to - label",
    "answered": "- call - code args - task",
    "delivered": "- call - task",
    "dropped": "- call - task",
    "vanished": "- call",
    "forgotten": "- call",
    "phone": "- over =state to",
    "area": "- task base pages rights - store",
    "unarea": "- task base",
    "write": "- task at count - store",
}
OWN_PARTS = {
    "sent": "fibril - call =place",
    "gets": "fibril - call =place code args",
    "blocks": "fibril - =why",
    "starts": "fibril - label",
    "ends": "fibril - - exchange",
    "begins": "fibril - - exchange =mode - session - phone",
    "drops": "fibril - - exchange",
    "refused": "fibril - code",
}


Forms = Tuple["tuple[str, re.Pattern[str]]", ...]


def kind_of(words: list[str]) -> str:
    """The kind of a line with a shape of these words."""
    if words[0] == "=":
        return TOLD.get(words[1], words[1])
    return words[2] if words[0] == "call" else words[1] if words[0] in KINDS else words[0]


def piece(unit: str, name: str) -> str:
    """The pattern of a unit of a shape, with its name if it has one."""
    form = " ".join(KINDS.get(word, word) for word in unit.split())
    is_named = name != "-" and (name.startswith("=") or unit.split()[0] in KINDS)
    return f"(?P<{name.lstrip('=')}>{form})" if is_named else form


def compiled(shapes: tuple[str, ...], parts: dict[str, str], before: str = "") -> Forms:
    forms = []
    for shape in shapes:
        kind, units = kind_of(shape.split()), UNIT.findall(shape)
        names = parts.get(kind, "").split() + ["-"] * len(units)
        form = " ".join(piece(unit, name) for unit, name in zip(units, names))
        forms.append((kind, re.compile(f"{before}{form}\\Z", re.ASCII)))
    return tuple(forms)


HEAD_FORMS = compiled(HEADS, HEAD_PARTS)
EFFECT_FORMS = compiled(EFFECTS, EFFECT_PARTS, "  ")
OUTCOME_FORMS = compiled(OUTCOMES, OUTCOME_PARTS, "  ")
OWN_FORMS = compiled(OWN, OWN_PARTS, "  ")


class Line:
    """A line of a trace: its text, its kind and its parts, each of which is empty where the form lacks it."""

    def __init__(self, text: str, kind: str, parts: dict[str, str | None]) -> None:
        self.text, self.kind, self.parts = text, kind, parts

    def __getattr__(self, name: str) -> str:
        return self.parts.get(name) or ""


class Event:
    """A head with its effects, its outcome, which is None where there is none, and what the task tells of its fibrils."""

    def __init__(self, head: Line) -> None:
        self.head = head
        self.effects: list[Line] = []
        self.outcome: Line | None = None
        self.own: list[Line] = []

    def is_empty(self) -> bool:
        """Whether it is a receive that found nothing and changed nothing."""
        return self.outcome is not None and self.outcome.kind == "empty" and not self.effects


class Unreadable(Exception):
    """A line that is none of a trace: its number, from 1, and what it is."""

    def __init__(self, number: int, text: str) -> None:
        super().__init__(f"line {number}: this is no line of a trace here: {text!r}")


@lru_cache(maxsize=4096)  # long traces repeat their lines
def read_as(forms: Forms, text: str) -> Line | None:
    for kind, form in forms:
        found = form.match(text)
        if found:
            return Line(text, kind, found.groupdict())
    return None


def add_line(event: Event | None, text: str) -> bool:
    """Adds a line below a head to its event; False where it is none that may stand there."""
    if event is None or event.head.kind == "ended":
        return False
    if text.startswith("  = "):
        is_told = event.head.kind not in ("kill", "spawn") and not event.outcome
        event.outcome = read_as(OUTCOME_FORMS, text) if is_told else None
        return event.outcome is not None
    own = read_as(OWN_FORMS, text) if event.outcome else None
    effect = None if event.outcome else read_as(EFFECT_FORMS, text)
    event.own += [own] if own else []
    event.effects += [effect] if effect else []
    return bool(own or effect)


def events_of(text: str) -> list[Event]:
    """The events of a trace's text; raises Unreadable for the first line that is none, or that stands out of place."""
    events: list[Event] = []
    lines = text.split("\n")
    for number, line in enumerate(lines[:-1] if not lines[-1] else lines, 1):
        head = None if line.startswith(" ") else read_as(HEAD_FORMS, line)
        if head:
            events.append(Event(head))
        elif not add_line(events[-1] if events else None, line):
            raise Unreadable(number, line)
    return events


def text_of(tool: str, name: str) -> str:
    """The text of a file; ends the tool where it cannot be read."""
    try:
        with open(name, encoding="ascii", errors="backslashreplace", newline="\n") as file:
            return file.read()
    except OSError as error:
        sys.exit(f"{tool}: cannot read {name}: {error.strerror}")
