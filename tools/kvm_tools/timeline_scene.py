"""The lanes of a run: spans and marks in rows, as both pictures draw them."""
from __future__ import annotations

import collections
import dataclasses
import re
from typing import Callable, Iterator

from kvm_tools.capture import Kind, Plug
from kvm_tools.finished_run import Item, PortItem, Run

VERDICT = re.compile(r"(?P<plug>KEYBOARD|MOUSE|TOKEN) (?:INTERFACE \d+ )?(?P<verdict>ACCEPTED|REFUSED)\b.*")
DEVICE_VERDICT = re.compile(r"(?P<plug>KEYBOARD|MOUSE|TOKEN) (?P<verdict>ACCEPTED|REFUSED)\b.*")
POWER = re.compile(r"(?P<plug>KEYBOARD|MOUSE|TOKEN) (?P<power>ON|OFF) (?P<life>\d+)")
MOVES = {Kind.ATTACH.name: "attached", Kind.DETACH.name: "detached", Kind.REPORT.name: "report"}
PORT_ROWS = {"RESET": "setup", "SETUP": "setup", "OUT": "out", "IN": "in"}

Test = Callable[[Item], bool]


@dataclasses.dataclass(frozen=True)
class Mark:
    """One thing at one tick, with its line."""

    tick: int
    kind: str
    line: str


@dataclasses.dataclass(frozen=True)
class Span:
    """From one tick to another; its lines tell how it began and how it ended."""

    first: int
    last: int
    kind: str
    label: str
    line: str


@dataclasses.dataclass
class Row:
    name: str
    marks: list[Mark] = dataclasses.field(default_factory=list)
    spans: list[Span] = dataclasses.field(default_factory=list)


@dataclasses.dataclass
class Lane:
    """Rows under one name. The spans lie behind all its rows."""

    name: str
    rows: list[Row]
    spans: list[Span] = dataclasses.field(default_factory=list)


@dataclasses.dataclass
class Scene:
    title: str
    remarks: list[str]
    first: int
    last: int
    #: the lines of the log
    log: list[Mark]
    lanes: list[Lane]
    #: the spans behind all lanes
    health: list[Span]


def kind_of_note(text: str) -> str:
    """What a line of the log is told apart by."""
    if found := VERDICT.fullmatch(text):
        return found["verdict"].lower()
    return {"ALIVE": "alive", "DARK": "dark", "SELECT": "select", "LEAVE": "leave"}.get(text.split(" ", 1)[0], "note")


def spans_between(items: list[Item], begins: Test, ends: Test, end: int, kind: str, label: str) -> list[Span]:
    """The spans from each item that begins one to the next that ends it, or to the end of the run."""
    spans, since = [], None
    for item in items:
        if since and ends(item):
            spans.append(Span(since.tick, item.tick, kind, label, f"{since.line}\n{item.line}"))
            since = None
        if not since and begins(item):
            since = item
    return spans + ([Span(since.tick, end, kind, label, f"{since.line}\nto the end of the run")] if since else [])


def is_dark(item: Item) -> bool:
    return item.text.startswith("DARK")


def health_spans(log: list[Item], first: int, last: int) -> list[Span]:
    """The self-test before the switch is alive, and the dark after it."""
    turn = next((it for it in log if it.text == "ALIVE" or is_dark(it)), None)
    until, line = (turn.tick, turn.line) if turn else (last, "to the end of the run")
    test = [Span(first, until, "self-test", "self-test", f"self-test\n{line}")] if first < until or not turn else []
    return test + spans_between(log, is_dark, lambda it: False, last, "dark", "dark")


def verdicts(log: list[Item], plug: str, verdict: str) -> list[Item]:
    """The log's lines that let a device in at a plug, or refuse one."""
    return [it for it in log if (found := DEVICE_VERDICT.fullmatch(it.text)) and (found["plug"], found["verdict"]) == (plug, verdict)]


def panel_lane(panel: list[Item], last: int) -> Lane:
    """The guard button, the port buttons that are used, the checks and the case."""
    moves = Row("checks", [Mark(it.tick, mark_of_check(it.text), it.line) for it in panel if it.text.startswith(("check", "tamper"))])
    rows = [moves]
    for button in ("guard", *"12345678"):
        mine = [it for it in panel if it.text.startswith(f"{button} ")]
        held = spans_between(mine, lambda it: it.text.endswith("down"), lambda it: it.text.endswith("up"), last, "held", button)
        if mine:
            rows.append(Row(button if button == "guard" else f"button {button}", spans=held))
    return Lane("panel", rows)


def mark_of_check(text: str) -> str:
    return "passed" if text.endswith("pass") else "failed"


def powered(plug: str, run: Run, last: int) -> Iterator[Span]:
    """The spans of a plug with power: asked until it is let in, and let in until the power goes off."""
    mine = [it for it in run.console if (found := POWER.fullmatch(it.text)) and found["plug"] == plug]
    lives = spans_between(mine, lambda it: " ON " in it.text, lambda it: " OFF " in it.text, last, "asked", "")
    accepted = collections.deque(verdicts(run.log, plug, "ACCEPTED"))
    for life in lives:
        while accepted and accepted[0].tick < life.first:
            accepted.popleft()
        if accepted and accepted[0].tick <= life.last:
            verdict, (on, off) = accepted.popleft(), life.line.split("\n")
            yield Span(life.first, verdict.tick, "asked", "", f"{on}\n{verdict.line}")
            yield Span(verdict.tick, life.last, "let-in", "let in", f"{verdict.line}\n{off}")
        else:
            yield life


def refused(plug: str, run: Run, last: int) -> list[Span]:
    """The spans from a refusal of a device to its being detached."""
    begins, detached = verdicts(run.log, plug, "REFUSED"), f"{plug} {Kind.DETACH.name}"
    items = sorted([it for it in run.fed if it.text == detached] + begins, key=lambda it: it.tick)
    return spans_between(items, lambda it: it.text != detached, lambda it: it.text == detached, last, "refused", "refused")


def mark_of_console(text: str) -> str:
    return {"ON": "on", "OFF": "off"}.get(text.split(" ")[1], "ask")


def mark_of_fed(text: str) -> str:
    return MOVES.get(text.split(" ")[1], "reply")


def plug_lane(plug: str, run: Run, last: int) -> Lane:
    """What the switch asked a peripheral, what that answered, and what the switch made of it."""
    def mine(items: list[Item], kind: Callable[[str], str]) -> list[Mark]:
        return [Mark(it.tick, kind(it.text), it.line) for it in items if it.text.startswith(f"{plug} ")]

    verdicts = [it for it in mine(run.log, kind_of_note) if it.kind in ("accepted", "refused")]
    rows = [Row("switch", sorted(mine(run.console, mark_of_console) + verdicts, key=lambda it: it.tick))]
    rows.append(Row("device", mine(run.fed, mark_of_fed)))
    return Lane(f"console {plug.lower()}", rows, [*powered(plug, run, last), *refused(plug, run, last)])


def routed(port: int, run: Run, last: int) -> list[Span]:
    """The spans in which the token is this port's."""
    items = sorted([it for it in run.log if it.text == f"TOKEN ROUTED {port}"] + [it for it in run.console if it.text.startswith("TOKEN OFF ")],
                   key=lambda it: it.tick)
    return spans_between(items, lambda it: it.text.startswith("TOKEN ROUTED"), lambda it: it.text.startswith("TOKEN OFF"), last, "routed", "token")


def mark_of_answer(item: PortItem) -> str:
    return "reset" if item.act == "RESET" else item.answer.lower()


def port_lane(port: int, run: Run, last: int) -> Lane:
    """What a port's computer asked and was answered at each connector, and when the port is selected."""
    rows = {("KM", it): Row(f"KM {it}") for it in ("setup", "out", "in")}
    if any(it.side == "UA" for it in run.answered[port - 1]):
        rows |= {("UA", it): Row(f"UA {it}") for it in ("setup", "out", "in")}
    for item in run.answered[port - 1]:
        rows[item.side, PORT_ROWS[item.act]].marks.append(Mark(item.tick, mark_of_answer(item), item.line))
    token = routed(port, run, last)
    stripes = [*rows.values(), *([Row("token", spans=token)] if token else [])]
    selected = spans_between(run.log, lambda it: it.text == f"SELECT {port}",
                             lambda it: is_dark(it) or it.text == f"LEAVE {port}", last, "selected", "selected")
    return Lane(f"port {port}", stripes, selected)


def scene_of(run: Run, first: int | None = None, last: int | None = None) -> Scene:
    """The scene of a run, or of its part between two ticks."""
    begin, end = run.ticks()
    lanes = [panel_lane(run.panel, end), *(plug_lane(it.name, run, end) for it in Plug), *(port_lane(it + 1, run, end) for it in range(run.ports))]
    log = [Mark(it.tick, kind_of_note(it.text), it.line) for it in run.log]
    scene = Scene(str(run.folder), run.remarks, begin, end, log, lanes, health_spans(run.log, begin, end))
    return scene if first is None and last is None else part_of(scene, begin if first is None else first, end if last is None else last)


def part_of(scene: Scene, first: int, last: int) -> Scene:
    """What of a scene lies between two ticks."""
    def cut(items: list[Mark]) -> list[Mark]:
        return [it for it in items if first <= it.tick <= last]

    def cut_spans(spans: list[Span]) -> list[Span]:
        return [dataclasses.replace(it, first=max(first, it.first), last=min(last, it.last)) for it in spans if it.first <= last and first <= it.last]

    lanes = [Lane(lane.name, [Row(row.name, cut(row.marks), cut_spans(row.spans)) for row in lane.rows], cut_spans(lane.spans))
             for lane in scene.lanes]
    return Scene(scene.title, scene.remarks, first, last, cut(scene.log), lanes, cut_spans(scene.health))


def marks_in(scene: Scene) -> int:
    return len(scene.log) + sum(len(row.marks) for lane in scene.lanes for row in lane.rows)
