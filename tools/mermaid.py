"""Writes the rows of a chart in the language of Mermaid, for tools/chart."""
from __future__ import annotations

from rows import ARROWS, Row

ARROW = {"call": "->>", "answer": "-->>", "forward": "-)", "kernel": "--)"}


def lines_of(row: Row, names: dict[str, str]) -> list[str]:
    number = f"{row.number}. " if row.number else ""
    if row.kind in ARROWS:
        return [f"{row.start}{ARROW[row.kind]}{row.end}: {number}{row.text}"]
    if row.kind in ("box", "more"):
        return [f"Note over {row.start}: {number}{row.text}"]
    if row.kind == "marks":
        return [f"Note over {task}: {number}{text}" for task, text in row.marks.items()]
    if row.kind in ("kill", "spawn"):
        first, *_, last = [*names, *names]
        return [f"Note over {first}{',' + last if last != first else ''}: {number}{row.text}"]
    return []


def mermaid(names: dict[str, str], rows: list[Row]) -> str:
    lines = [f"participant {task} as {name}" for task, name in names.items()]
    for row in rows:
        lines += lines_of(row, names)
    return "".join(f"{line}\n" for line in ["sequenceDiagram", *(f"    {line}" for line in lines)])
