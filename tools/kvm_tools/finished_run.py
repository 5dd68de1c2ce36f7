"""A finished run as its folder has it: what was fed in and what the program wrote, as items with a tick and a line each."""
from __future__ import annotations

import dataclasses
import pathlib
import re
from typing import Callable, Iterator

from kvm_tools import capture, script
from kvm_tools.capture import Plug, Record
from kvm_tools.capture_text import record_line
from kvm_tools.command import Trouble, reason

BYTES = r"(?:-|(?:[0-9a-f]{2})+)"
PORT_LINE = re.compile(
    r"(?P<tick>\d+) (?P<side>KM|UA) (?P<act>RESET|SETUP \d+ [0-9a-f]{16}|OUT \d+ \d+ [01] " + BYTES + r"|IN \d+ \d+ [01])"
    r" -> (?P<answer>ACK|NAK|STALL|SILENT|DATA [01] " + BYTES + ")")
TICK_LINE = re.compile(r"(?P<tick>\d+) \S.*")


@dataclasses.dataclass(frozen=True, slots=True)
class Item:
    """What happened at a tick: the words of its line without the tick, and the line itself."""

    tick: int
    text: str
    line: str


@dataclasses.dataclass(frozen=True, slots=True)
class PortItem(Item):
    """An act of a port's computer and its answer, by their first words."""

    side: str
    act: str
    answer: str


@dataclasses.dataclass
class Run:
    """All that a folder tells of a run, each list in the order of its file."""

    folder: pathlib.Path
    ports: int
    panel: list[Item]
    #: what the capture says of peripherals
    fed: list[Item]
    #: the ticks of the clock records
    clocks: list[int]
    #: how many acts each port has in the capture, from port 1 on
    acts: list[int]
    #: the lines of each port, from port 1 on
    answered: list[list[PortItem]]
    console: list[Item]
    log: list[Item]
    #: what a reader of the picture has to know, in sentences
    remarks: list[str]

    def ticks(self) -> tuple[int, int]:
        """The first and the last tick at which something happened."""
        lists = [[it.tick for it in items[:1] + items[-1:]] for items in (self.panel, self.fed, self.console, self.log, *self.answered)]
        ticks = sum(lists, self.clocks[:1] + self.clocks[-1:])
        return (min(ticks), max(ticks)) if ticks else (0, 0)


def text_of(file: pathlib.Path, missing: str | None = None) -> str:
    """The text of a file. One that isn't there reads as `missing`, where that is given."""
    try:
        return file.read_bytes().decode("ascii")
    except FileNotFoundError:
        if missing is not None:
            return missing
        raise Trouble(f"{file}: no such file; a replay in this folder makes it") from None
    except UnicodeDecodeError as error:
        raise Trouble(f"{file}: at offset {error.start}: no character of a line") from None
    except OSError as error:
        raise Trouble(f"{file}: {reason(error)}") from None


def items_of(file: pathlib.Path, form: re.Pattern, make: Callable[[int, re.Match, str], Item], missing: str | None = None) -> list:
    """The lines of a file as items. Each must have the form, end with a line feed, and not go back in time."""
    items, before = [], 0
    lines = text_of(file, missing).split("\n")
    if lines.pop():
        raise Trouble(f"{file}: line {len(lines) + 1}: the line feed at its end is missing")
    for number, line in enumerate(lines, 1):
        found = form.fullmatch(line)
        if not found:
            raise Trouble(f"{file}: line {number}: not a line of this file: '{line[:80]}'")
        tick = int(found["tick"])
        if not before <= tick <= capture.TICK_MAX:
            raise Trouble(f"{file}: line {number}: tick {tick} can't follow {before}")
        items.append(make(tick, found, line))
        before = tick
    return items


def plain(tick: int, _found: re.Match, line: str) -> Item:
    return Item(tick, line.split(" ", 1)[1], line)


def of_port(tick: int, found: re.Match, line: str) -> PortItem:
    act, answer = (found[part].split(" ", 1)[0] for part in ("act", "answer"))
    return PortItem(tick, line.split(" ", 1)[1], line, found["side"], act, answer)


def script_of(file: pathlib.Path) -> tuple[list[Item], str | None]:
    """The script's lines up to its first faulty one, and what is wrong with that."""
    items, before = [], 0
    lines = text_of(file, missing="").split("\n")
    if not lines[-1]:
        lines.pop()
    for number, line in enumerate(lines, 1):
        try:
            tick, _ = script.read_move(line)
        except script.ScriptFault:
            tick = -1
        if tick < before:
            return items, f"{file.name} is faulty at line {number}: the replay ends after the line before it."
        items.append(Item(tick, line.split(" ", 1)[1], line))
        before = tick
    return items, None


def capture_of(file: pathlib.Path) -> tuple[int, list[Record], str | None]:
    """The ports and the records of a capture up to its first fault, and what is wrong with that."""
    records, wrong = [], None
    try:
        with file.open("rb") as opened:
            ports = capture.read_header(opened)
            try:
                for record in capture.read_records(opened, ports):
                    records.append(record)
            except capture.CaptureFault as fault:
                wrong = f"{file.name} is faulty at offset {fault.offset} ({fault.why}): the replay ends before it."
    except OSError as error:
        raise Trouble(f"{file}: {reason(error)}") from None
    except capture.CaptureFault as fault:
        raise Trouble(f"{file}: at offset {fault.offset}: {fault.why}; a replay writes nothing of it") from None
    return ports, records, wrong


def served(panel: list[Item], panel_wrong: str | None, records: list[Record],
           capture_wrong: str | None) -> tuple[list[Item], list[Record]]:
    """What is served of both files: a fault of one ends the run after the last event before it in that file."""
    panel_end = panel[-1].tick if panel else -1
    records_end = records[-1].tick if records else -1
    if capture_wrong:
        panel = [it for it in panel if it.tick <= records_end]
    if panel_wrong:
        records = [it for it in records if it.tick < panel_end]
    return panel, records


def remarks_on_ports(run: Run) -> Iterator[str]:
    """Where a transcript has not as many lines as the capture has acts, the reader is told."""
    for port in range(run.ports):
        lines, acts = len(run.answered[port]), run.acts[port]
        if lines < acts:
            yield f"port{port + 1}.txt has {lines} lines, and the capture {acts} acts of port {port + 1}: the run stopped early."
        if lines > acts:
            yield f"port{port + 1}.txt has {lines} lines, and the capture {acts} acts of port {port + 1}: they are of two runs."


def read_run(folder: pathlib.Path) -> Run:
    """The run that a folder holds."""
    if not folder.is_dir():
        raise Trouble(f"{folder}: no such folder")
    ports, records, capture_wrong = capture_of(folder / "capture.kvc")
    panel, panel_wrong = script_of(folder / "buttons.txt")
    panel, records = served(panel, panel_wrong, records, capture_wrong)
    acts, fed, clocks = [0] * ports, [], []
    for record in records:
        if record.actor is None:
            clocks.append(record.tick)
        elif isinstance(record.actor, Plug):
            line = record_line(record)
            fed.append(Item(record.tick, line.split(" ", 1)[1], line))
        else:
            acts[record.actor.port - 1] += 1
    answered = [items_of(folder / f"port{it + 1}.txt", PORT_LINE, of_port) for it in range(ports)]
    console = items_of(folder / "console.txt", TICK_LINE, plain, missing="")
    log = items_of(folder / "rules.log", TICK_LINE, plain)
    run = Run(folder, ports, panel, fed, clocks, acts, answered, console, log, [it for it in (panel_wrong, capture_wrong) if it])
    run.remarks.extend(remarks_on_ports(run))
    return run
