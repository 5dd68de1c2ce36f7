"""The picture as text: a line for each row, a column for so many ticks."""
from __future__ import annotations

from typing import Iterator

from kvm_tools import timeline_looks as looks
from kvm_tools.timeline_scene import Mark, Scene, Span

LEFT, LOG_LINES = 18, 40
MARKS, SPANS = list(looks.MARKS), list(looks.SPANS)


class Columns:
    """The columns of a line, and the tick at which each begins."""

    def __init__(self, first: int, last: int, count: int) -> None:
        self.first, self.count = first, count
        self.ticks = max(1, -(-(last - first + 1) // count))
        self.used = -(-(last - first + 1) // self.ticks)

    def of(self, tick: int) -> int:
        return (tick - self.first) // self.ticks


def spans_line(columns: Columns, spans: list[Span]) -> str:
    """A line of the spans' letters; a later kind of the looks wins a column."""
    line = [-1] * columns.used
    for it in spans:
        for place in range(columns.of(it.first), columns.of(it.last) + 1):
            line[place] = max(line[place], SPANS.index(it.kind))
    return "".join(looks.SPANS[SPANS[it]].letter if it >= 0 else " " for it in line)


def marks_line(columns: Columns, marks: list[Mark]) -> str:
    line = [-1] * columns.used
    for it in marks:
        place = columns.of(it.tick)
        line[place] = max(line[place], MARKS.index(it.kind))
    return "".join(looks.MARKS[MARKS[it]].letter if it >= 0 else " " for it in line)


def axis(columns: Columns) -> str:
    """The ticks over the columns, every tenth column that leaves room for the number."""
    line = ""
    for place in range(0, columns.used, 10):
        if len(line) <= place:
            line = line.ljust(place) + f"{columns.first + place * columns.ticks} "
    return line.rstrip()


def rows_of(columns: Columns, scene: Scene) -> Iterator[tuple[str, str]]:
    """Each line's name and what stands there. A port has its state in its first line."""
    for lane in scene.lanes:
        state = [*lane.spans, *scene.health] if lane.name.startswith("port") else lane.spans
        yield lane.name, spans_line(columns, state)
        for row in lane.rows:
            if row.spans:
                yield f"  {row.name}", spans_line(columns, row.spans)
            if row.marks:
                yield f"  {row.name}", marks_line(columns, row.marks)


def key_of(scene: Scene) -> list[str]:
    marks = {it.kind for lane in scene.lanes for row in lane.rows for it in row.marks}
    spans = {it.kind for lane in scene.lanes for row in [lane, *lane.rows] for it in row.spans} | {it.kind for it in scene.health}
    told = [f"{looks.SPANS[kind].letter} {looks.SPANS[kind].words}" for kind in SPANS if kind in spans]
    return told + [f"{looks.MARKS[kind].letter} {looks.MARKS[kind].words}" for kind in MARKS if kind in marks]


def folded(words: list[str], width: int) -> list[str]:
    """The words in lines of this width, three blanks between them."""
    lines = [""]
    for word in words:
        if lines[-1] and len(lines[-1]) + 3 + len(word) > width:
            lines.append("")
        lines[-1] += f"   {word}" if lines[-1] else word
    return lines


def text(scene: Scene, width: int, facts: str) -> str:
    """The whole text. No line is wider than this, but for the log's and the title."""
    columns = Columns(scene.first, scene.last, max(10, width - LEFT))
    unit = "1 tick" if columns.ticks == 1 else f"{columns.ticks} ticks"
    lines = [f"{scene.title}: {facts}; a column is {unit}", *scene.remarks, ""]
    lines += [f"log  {it.line}" for it in scene.log[:LOG_LINES]]
    if len(scene.log) > LOG_LINES:
        lines.append(f"log  and {len(scene.log) - LOG_LINES} more lines, in rules.log")
    lines += ["", " " * LEFT + axis(columns)]
    lines += [f"{name:<{LEFT}}{row}".rstrip() for name, row in rows_of(columns, scene)]
    return "\n".join([*lines, "", *folded(key_of(scene), width)]) + "\n"
