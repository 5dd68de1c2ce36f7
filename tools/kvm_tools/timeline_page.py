"""The picture as one HTML file: the whole run drawn here as SVG, with what the page's script needs to draw parts of it."""
from __future__ import annotations

import html
import json
from typing import Sequence

from kvm_tools import timeline_looks as looks
from kvm_tools.timeline_looks import ROW
from kvm_tools.timeline_scene import Mark, Scene, Span
from kvm_tools.timeline_script import SCRIPT

#: Pixels: the names at the left, the room at the right for a last label, between lanes, a line of labels, a letter, a place of marks.
LEFT, RIGHT, GAP, LABEL, LETTER, CELL = 176, 130, 9, 14, 6.1, 2
#: From the axis down to the first lane, and how far the spans behind all lanes reach above that.
AXIS, ABOVE = 40, 15
LABEL_ROWS, SPAN_LABELS = 6, 300
#: Of more marks than that the page has no lines.
EMBEDDED = 400000
MARKS, SPANS = list(looks.MARKS), list(looks.SPANS)
STYLE = """
body { font: 14px sans-serif; margin: 16px; color: #000; background: #fff }
h1 { font-size: 18px; margin: 0 0 4px } p { margin: 4px 0 }
svg { display: block; cursor: crosshair; touch-action: none; user-select: none }
svg text { font: 10px monospace } text.lane { font: bold 12px sans-serif } text.row { fill: #555 }
.edge { fill: none; stroke: #bbb } .grid { stroke: #e4e4e4 }
.mark { fill: none; stroke-width: 2 } text.refused { fill: #D55E00; font-weight: bold }
text.log { paint-order: stroke; stroke: #fff; stroke-width: 3px }
#tip { position: fixed; display: none; pointer-events: none; background: #fff; border: 1px solid #000; padding: 4px 6px;
  font: 12px monospace; white-space: pre; max-width: 90vw; overflow: hidden; box-shadow: 1px 2px 6px #0005 }
.key { display: flex; flex-wrap: wrap; gap: 2px 18px; margin-top: 8px } .key span { display: flex; align-items: center; gap: 5px }
.remark { font-weight: bold } button { font: inherit } pre { font-size: 12px }
"""


class Band:
    """A stripe of the picture with the spans and marks that it shows."""

    def __init__(self, top: int, height: int, marks: Sequence[Mark] = (), spans: Sequence[Span] = ()) -> None:
        self.top, self.height, self.marks, self.spans = top, height, marks, spans

    def told(self) -> dict:
        """What the page's script needs of it."""
        return {"y": self.top, "h": self.height, "t": [it.tick for it in self.marks], "k": [MARKS.index(it.kind) for it in self.marks],
                "lines": "\n".join(it.line for it in self.marks),
                "spans": [[it.first, it.last, SPANS.index(it.kind), it.label, it.line] for it in self.spans]}


class View:
    """The part of the time that is drawn, over so many pixels."""

    def __init__(self, first: int, last: int, width: int) -> None:
        self.first, self.last, self.width = first, last, width

    def x(self, tick: int) -> float:
        return LEFT + (tick - self.first) * self.width / (self.last - self.first + 1)


def layout(scene: Scene, base: int) -> tuple[list[Band], list[Band], list[tuple[int, str, str]], int]:
    """All bands from top to bottom, those of whole lanes, the texts at their left, and where the last one ends."""
    begin = top = base + AXIS
    bands, lanes, names = [], [], []
    for lane in scene.lanes:
        names.append((top + 11, "lane", lane.name))
        lanes.append(Band(top, len(lane.rows) * ROW, spans=lane.spans))
        bands.append(lanes[-1])
        for row in lane.rows:
            names.append((top + 11, "row", row.name))
            bands.append(Band(top, ROW, row.marks, row.spans))
            top += ROW
        top += GAP
    return [Band(begin - ABOVE, top - begin + ABOVE, spans=scene.health), *bands], lanes, names, top


def spans_drawn(band: Band, view: View) -> str:
    """A path for each kind of span; spans that would touch in one pixel are one."""
    paths, ends, labels = {}, {}, []
    for it in band.spans:
        left, right = int(view.x(it.first)), max(int(view.x(it.first)) + 1, int(view.x(it.last)))
        if left < ends.get(it.kind, -1):
            left = ends[it.kind]
        if right > left:
            paths.setdefault(it.kind, []).append(f"M{left} {band.top}h{right - left}v{band.height}h{left - right}z")
            ends[it.kind] = right
        if it.label and right - left > len(it.label) * LETTER + 4 and len(labels) < SPAN_LABELS:
            labels.append(f'<text x="{left + 3}" y="{band.top + 10}">{html.escape(it.label)}</text>')
    drawn = [f'<path class="span" fill="{looks.SPANS[kind].colour}" d="{"".join(paths[kind])}"/>' for kind in SPANS if kind in paths]
    return "".join(drawn + labels)


def marks_drawn(band: Band, view: View) -> str:
    """A path for each kind of mark. Of those that fall on one place the last kind of the looks is drawn, once."""
    places = {}
    for it in band.marks:
        place, kind = int(view.x(it.tick) - LEFT) // CELL, MARKS.index(it.kind)
        if places.get(place, -1) < kind:
            places[place] = kind
    paths = {}
    for place, kind in places.items():
        paths.setdefault(kind, []).append(f"M{LEFT + place * CELL + 1} {band.top}{looks.MARKS[MARKS[kind]].form}")
    return "".join(f'<path class="mark" stroke="{looks.MARKS[MARKS[kind]].colour}" d="{"".join(paths[kind])}"/>' for kind in sorted(paths))


def labels_placed(log: list[Mark], view: View) -> tuple[list[tuple[int, float, Mark]], int]:
    """The log's lines that find a place: each with its row, from the lowest up."""
    ends, placed = [], []
    for it in log:
        x = view.x(it.tick)
        row = next((row for row, end in enumerate(ends) if end <= x), len(ends))
        if row == LABEL_ROWS:
            continue
        ends[row:row + 1] = [x + len(it.line) * LETTER + 10]
        placed.append((row, x, it))
    return placed, len(ends)


def log_drawn(log: list[Mark], placed: list[tuple[int, float, Mark]], view: View, base: int) -> str:
    """A short line for each line of the log, drawn once in one place, and the labels with their stems."""
    lines = {int(view.x(it.tick)) for it in log}
    short = f'<path stroke="#000" d="{"".join(f"M{x} {base - 2}v6" for x in sorted(lines))}"/>'
    stems, texts = [], []
    for row, x, it in placed:
        y = base - 4 - row * LABEL
        stems.append(f'<path stroke="{looks.MARKS[it.kind].colour}" d="M{x:.1f} {y - 9}V{base + 4}"/>')
        texts.append(f'<text class="log {it.kind}" x="{x + 3:.1f}" y="{y}">{html.escape(it.line)}</text>')
    return "".join([short, *stems, *texts])


def step_of(view: View) -> int:
    """The ticks between two lines of the grid: 1, 2 or 5 and noughts, at least 80 pixels apart."""
    least, step = 80 * (view.last - view.first + 1) / view.width, 1
    while step < least:
        step = step * 2 if str(step)[0] in "15" else step * 5 // 2
    return step


def axis_drawn(view: View, base: int, bottom: int) -> str:
    """The ticks over the lanes, with a line down through them."""
    step = step_of(view)
    ticks = range(-(-view.first // step) * step, view.last + 1, step)
    return "".join(f'<path class="grid" d="M{view.x(it):.1f} {base + 20}V{bottom}"/><text x="{view.x(it):.1f}" y="{base + 17}" '
                   f'text-anchor="middle">{it}</text>' for it in ticks)


def key_of(scene: Scene) -> str:
    """What the forms and colours mean that this picture has."""
    marks = {it.kind for lane in scene.lanes for row in lane.rows for it in row.marks}
    spans = {it.kind for lane in scene.lanes for row in [lane, *lane.rows] for it in row.spans}
    spans |= {it.kind for it in scene.health}
    boxes = [(f'<rect width="14" height="{ROW}" fill="{look.colour}"/>', look.words) for kind, look in looks.SPANS.items() if kind in spans]
    forms = [(f'<path class="mark" stroke="{look.colour}" d="M7 0{look.form}"/>', look.words) for kind, look in looks.MARKS.items() if kind in marks]
    return "".join(f'<span><svg width="14" height="{ROW}">{drawn}</svg>{html.escape(words)}</span>' for drawn, words in boxes + forms)


def name_drawn(y: int, kind: str, name: str) -> str:
    place = 'x="4"' if kind == "lane" else f'x="{LEFT - 6}" text-anchor="end"'
    return f'<text class="{kind}" {place} y="{y}">{html.escape(name)}</text>'


def picture(scene: Scene, width: int) -> tuple[str, list[Band], int, int]:
    """The SVG, the bands in it, and where its axis and its lanes end."""
    view = View(scene.first, scene.last, width)
    placed, label_rows = labels_placed(scene.log, view)
    base = (max(1, label_rows) + 1) * LABEL
    bands, lanes, names, bottom = layout(scene, base)
    texts = "".join(name_drawn(*it) for it in names)
    edges = "".join(f'<rect class="edge" x="{LEFT}" y="{it.top}" width="{width}" height="{it.height}"/>' for it in lanes)
    drawn = "".join(f"<g>{spans_drawn(band, view)}{marks_drawn(band, view)}</g>" for band in bands)
    svg = (f'<svg id="run" xmlns="http://www.w3.org/2000/svg" width="{LEFT + width + RIGHT}" height="{bottom}" role="img" '
           f'aria-label="the run by its ticks"><clipPath id="inside"><rect x="{LEFT - 5}" width="{width + 10}" height="{bottom}"/></clipPath>'
           f'{texts}<g id="axis">{axis_drawn(view, base, bottom)}</g><g id="bands" clip-path="url(#inside)">{drawn}</g>{edges}'
           f'<g id="log">{log_drawn(scene.log, placed, view, base)}</g></svg>')
    return svg, bands, base, bottom


def told(scene: Scene, bands: list[Band], base: int, bottom: int, width: int) -> str:
    """What the page's script needs, as JSON that can stand in a page."""
    data = {"first": scene.first, "last": scene.last, "left": LEFT, "width": width, "cell": CELL, "letter": LETTER, "label": LABEL,
            "labelRows": LABEL_ROWS, "spanLabels": SPAN_LABELS, "base": base, "bottom": bottom,
            "marks": [[it.colour, it.form, kind] for kind, it in looks.MARKS.items()], "colours": [it.colour for it in looks.SPANS.values()],
            "bands": [it.told() for it in bands], "log": Band(0, base, scene.log).told()}
    return json.dumps(data, separators=(",", ":")).replace("<", "\\u003c")


USE = ('<p id="use" hidden>A mark shows its lines on hovering. Turn the wheel to look closer, drag to move, and '
       '<button id="whole">show the whole</button>.</p><noscript><p>Lines on hovering and a closer look need scripts.</p></noscript>')


def page(scene: Scene, width: int, facts: str, too_many: bool) -> str:
    """The HTML file. With too many marks it has no lines for them."""
    svg, bands, base, bottom = picture(scene, width)
    remarks, use, script = [*scene.remarks], USE, ""
    if too_many:
        remarks.append(f"There are more than {EMBEDDED} marks: draw a part, with --from and --to, to see their lines.")
        use = ""
    else:
        data = told(scene, bands, base, bottom, width)
        script = f'<script type="application/json" id="data">{data}</script><script>{SCRIPT}</script>'
    return ('<!DOCTYPE html>\n<html lang="en"><head><meta charset="utf-8">'
            f"<title>{html.escape(scene.title)}</title><style>{STYLE}</style></head><body><h1>{html.escape(scene.title)}</h1>"
            f"<p>{html.escape(facts)}</p>" + "".join(f'<p class="remark">{html.escape(it)}</p>' for it in remarks) +
            f'{use}{svg}<div class="key">{key_of(scene)}</div><div id="tip"></div>{script}</body></html>\n')
