"""Draws the rows of a chart in SVG, for tools/chart."""
from __future__ import annotations

from xml.sax.saxutils import escape

from rows import ARROWS, Row

SIZE = 11  # of letters, which all have one width
LETTER = 0.61 * SIZE
EDGE = 10
GAP = 8  # between a text and the line of the next task
LEAST = 50  # between the lines of two tasks
LOOP = 14  # how far an arrow from a task to itself goes
ROW = 22
MARKS = 16  # the height of a row of marks
ARROW = 27
HEADS = 30
HEAD_HEIGHT = 20
CROSS = 5
BASE, MARKS_BASE = 15, 12  # from the top of a row to the foot of its letters
LONG = 500  # how much longer than its text an arrow is that has it near its start
STYLE = f"""text {{ font: {SIZE}px "DejaVu Sans Mono", Menlo, Consolas, monospace; text-anchor: middle }}
.head {{ font-weight: bold }}
.number, .mark {{ fill: #777 }}
.number {{ text-anchor: end }}
.loop {{ text-anchor: start }}
.kill {{ fill: #b00000 }}
.spawn {{ fill: #00701a }}
rect, path {{ stroke: #000; fill: none }}
rect {{ fill: #fff }}
rect.sheet, rect.behind {{ stroke: none }}
rect.head {{ fill: #e8eef7 }}
path.life {{ stroke: #aaa }}
path.rule {{ stroke: #eee }}
path.answer {{ marker-end: url(#open) }}
path.call, path.kernel, path.tip {{ marker-end: url(#filled) }}
path.kernel {{ stroke-dasharray: 2 3 }}
path.kill, path.cross {{ stroke: #b00000 }}
path.spawn {{ stroke: #00701a }}
path.over {{ stroke-dasharray: 4 3 }}"""
MARKER = '<marker id="{}" viewBox="0 0 10 10" refX="10" refY="5" markerWidth="10" markerHeight="10"' \
         ' markerUnits="userSpaceOnUse" orient="auto">{}</marker>'
MARKERS = [MARKER.format("filled", '<polygon points="0,1 10,5 0,9"/>'),
           MARKER.format("open", '<polyline points="1,1 10,5 1,9" fill="none" stroke="#000"/>')]


def width_of(text: str) -> float:
    return LETTER * len(text)


class Columns:
    """Where the line of each task stands: as far to the left as the texts of all rows allow."""

    def __init__(self, names: dict[str, str], rows: list[Row], left: float) -> None:
        self.order = {task: place for place, task in enumerate(names)}
        self.count = len(names)
        self.needs = {(place, place + 1): float(LEAST) for place in range(-1, self.count)}
        self.need_boxes(names)
        for row in rows:
            self.need_row(row)
        self.x = [left]  # the left edge, the lines, and the right edge
        for place in range(self.count + 1):
            self.x.append(max(self.x[start + 1] + need for (start, end), need in self.needs.items() if end == place))

    def need(self, start: int, end: int, width: float) -> None:
        self.needs[start, end] = max(width, self.needs.get((start, end), 0))

    def need_boxes(self, texts: dict[str, str]) -> None:
        """Texts at tasks, beside each other and beside the lines of other tasks."""
        halves = sorted((self.order[task], width_of(text) / 2 + GAP) for task, text in texts.items())
        for place, half in halves:
            self.need(place - 1, place, half + GAP)
            self.need(place, place + 1, half + GAP)
        for (start, left), (end, right) in zip(halves, halves[1:]):
            self.need(start, end, left + right + GAP)

    def need_row(self, row: Row) -> None:
        if row.kind == "marks":
            self.need_boxes(row.marks)
        elif row.kind in ("box", "more", "kill", "spawn"):
            self.need_boxes({row.start: row.text})
        elif row.kind in ARROWS and row.start == row.end:
            place = self.order[row.start]
            self.need(place, place + 1, LOOP + width_of(row.text) + 2 * GAP)
        elif row.kind in ARROWS:
            start, end = sorted((self.order[row.start], self.order[row.end]))
            self.need(start, end, width_of(row.text) + 4 * GAP)

    def at(self, task: str) -> float:
        return self.x[self.order[task] + 1]


class Drawing:
    """The elements of a picture, which grows downwards row by row."""

    def __init__(self, names: dict[str, str], rows: list[Row], living: set[str]) -> None:
        """The names of all columns in their order, the rows, and the tasks that live before the first of them."""
        numbers = max((width_of(row.number) for row in rows), default=0)
        self.names, self.columns = names, Columns(names, rows, numbers + EDGE + GAP)
        self.gutter, self.y = numbers + EDGE, EDGE
        self.lives: list[str] = []
        self.elements: list[str] = []
        self.begins: dict[str, float] = {}
        self.heads([task for task in names if task in living])
        for row in rows:
            self.draw(row)
        self.y += GAP
        for task in list(self.begins):
            self.life(task)

    def text(self, x: float, y: float, text: str, kind: str = "") -> None:
        of = f' class="{kind}"' if kind else ""
        self.elements.append(f'<text x="{x:.1f}" y="{y:.1f}"{of}>{escape(text)}</text>')

    def text_over(self, x: float, text: str, kind: str = "", base: int = BASE) -> None:
        """A text in the row, over whatever line it crosses."""
        width = width_of(text)
        self.elements.append(f'<rect class="behind" x="{x - width / 2:.1f}" y="{self.y + base - SIZE + 1:.1f}"'
                             f' width="{width:.1f}" height="{SIZE + 1}"/>')
        self.text(x, self.y + base, text, kind)

    def path(self, kind: str, points: str) -> str:
        return f'<path class="{kind}" d="{points}"/>'

    def box(self, x: float, text: str, height: float, kind: str = "") -> None:
        width = width_of(text) + 2 * GAP
        of = f' class="{kind}"' if kind else ""
        self.elements.append(f'<rect x="{x - width / 2:.1f}" y="{self.y + 1:.1f}" width="{width:.1f}"'
                             f' height="{height:.1f}" rx="3"{of}/>')
        self.text(x, self.y + 1 + height / 2 + SIZE * 0.36, text, kind)

    def heads(self, tasks: list[str]) -> None:
        """The names of tasks; the line of one that has none yet begins here."""
        for task in tasks:
            self.box(self.columns.at(task), self.names[task], HEAD_HEIGHT, "head")
            self.begins.setdefault(task, self.y + 1 + HEAD_HEIGHT)
        self.y += HEADS

    def life(self, task: str) -> None:
        """The line of a task, which ends here."""
        line = f"M{self.columns.at(task):.1f} {self.begins.pop(task):.1f}V{self.y:.1f}"
        self.lives.append(self.path("life", line))

    def draw(self, row: Row) -> None:
        if row.number:
            base = MARKS_BASE if row.kind == "marks" else BASE
            self.text(self.gutter, self.y + base, row.number, "number")
            self.lives.append(self.path("rule", f"M{EDGE} {self.y:.1f}H{self.columns.x[-1]:.1f}"))
        drawn_by = {"heads": self.draw_heads, "kill": self.draw_over_all, "spawn": self.draw_spawn, "end": self.draw_end,
                    "more": self.draw_more, "marks": self.draw_marks, "box": self.draw_box}
        drawn_by.get(row.kind, self.draw_arrow if row.start != row.end else self.draw_loop)(row)

    def draw_heads(self, _: Row) -> None:
        self.y += GAP
        self.heads([task for task in self.names if task in self.begins])

    def draw_over_all(self, row: Row) -> None:
        left, right = self.columns.x[0], self.columns.x[-1]
        self.elements.append(self.path(f"{row.kind} over", f"M{left:.1f} {self.y + BASE - 4:.1f}H{right:.1f}"))
        self.text_over(self.columns.at(row.start), row.text, row.kind)
        self.y += ROW

    def draw_spawn(self, row: Row) -> None:
        self.draw_over_all(row)
        self.heads([row.start])

    def draw_end(self, row: Row) -> None:
        self.y += CROSS
        x, y = self.columns.at(row.start), self.y
        self.life(row.start)
        self.elements.append(self.path("cross", f"M{x - CROSS:.1f} {y - CROSS:.1f}l{2 * CROSS} {2 * CROSS}"
                                                f"m0 {-2 * CROSS}l{-2 * CROSS} {2 * CROSS}"))
        self.y += CROSS

    def draw_more(self, row: Row) -> None:
        self.text_over(self.columns.at(row.start), row.text, "mark")
        self.y += ROW

    def draw_marks(self, row: Row) -> None:
        for task, text in row.marks.items():
            self.text_over(self.columns.at(task), text, "mark", MARKS_BASE)
        self.y += MARKS

    def draw_box(self, row: Row) -> None:
        self.box(self.columns.at(row.start), row.text, ROW - 4)
        self.y += ROW

    def draw_arrow(self, row: Row) -> None:
        start, end = self.columns.at(row.start), self.columns.at(row.end)
        half = width_of(row.text) / 2 + 2 * GAP
        is_long = abs(end - start) > LONG + 2 * half
        self.text_over((start + end) / 2 if not is_long else start + (half if end > start else -half), row.text)
        self.y += ARROW
        y = self.y - 5
        if row.kind == "forward":
            tip = end - (GAP if end > start else -GAP)
            self.elements.append(self.path("forward", f"M{start:.1f} {y - 2:.1f}H{tip:.1f}m0 4H{start:.1f}"))
            self.elements.append(self.path("tip", f"M{tip:.1f} {y:.1f}H{end:.1f}"))
        else:
            self.elements.append(self.path(row.kind, f"M{start:.1f} {y:.1f}H{end:.1f}"))

    def draw_loop(self, row: Row) -> None:
        x = self.columns.at(row.start)
        self.elements.append(self.path(row.kind, f"M{x:.1f} {self.y + 5:.1f}h{LOOP}v12H{x:.1f}"))
        self.text(x + LOOP + GAP, self.y + BASE, row.text, "loop")
        self.y += ARROW

    def svg(self) -> str:
        width, height = round(self.columns.x[-1] + EDGE), round(self.y + 2 * EDGE)
        return "\n".join([
            f'<svg xmlns="http://www.w3.org/2000/svg" width="{width}" height="{height}" viewBox="0 0 {width} {height}">',
            f"<style>\n{STYLE}\n</style>", "<defs>", *MARKERS, "</defs>",
            f'<rect class="sheet" width="{width}" height="{height}"/>', *self.lives, *self.elements, "</svg>\n"])
