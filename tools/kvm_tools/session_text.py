"""A whole text read: the bytes of the capture that it makes, and the lines of the script that stand in it."""
from __future__ import annotations

from typing import BinaryIO, Iterator

from kvm_tools import capture, capture_text
from kvm_tools.capture import Connector, Record
from kvm_tools.capture_text import Header, Line, Raw, ScriptLine, TextFault

NO_HEADER = "the header is missing: 'KVC1 PORTS N' at the front, or --ports N"


class Fault(Exception):
    """A fault of a text, with its place."""


class Reader:
    """Reads the lines of a text, and keeps what they give to the capture and to the script."""

    def __init__(self, name: str, ports: int | None = None, takes_script: bool = False) -> None:
        self.name = name
        self.ports = ports
        self.takes_script = takes_script
        self.begun = ports is not None
        self.capture = bytearray(capture.header_bytes(ports) if ports else b"")
        self.script: list[str] = []
        self.tick, self.script_tick = 0, 0

    def read(self, file: BinaryIO, in_order: bool = False) -> None:
        """Reads a whole text, in the order of its lines, or in that of their ticks."""
        lines = self.lines_in(file)
        for place, line in sorted(lines, key=order_of) if in_order else lines:
            try:
                self.take(line)
            except TextFault as fault:
                raise Fault(f"{place}: {fault}") from None
        if not self.begun:
            raise Fault(f"{self.name}: {NO_HEADER}")

    def lines_in(self, file: BinaryIO) -> Iterator[tuple[str, Line]]:
        """The lines of a text, each with its place."""
        for number, text in enumerate(file, 1):
            place = f"{self.name}:{number}"
            try:
                line = capture_text.read_line(text.decode("utf-8"))
            except UnicodeDecodeError:
                raise Fault(f"{place}: isn't text in UTF-8") from None
            except TextFault as fault:
                raise Fault(f"{place}: {fault}") from None
            if line:
                yield place, line

    def take(self, line: Line) -> None:
        match line:
            case Header():
                self.take_header(line)
            case Raw():
                self.begun = True
                self.capture += line.data
            case ScriptLine():
                self.take_script(line)
            case Record():
                self.take_record(line)

    def take_header(self, line: Header) -> None:
        if self.begun:
            raise TextFault("the header is already there, from the front of the text or from --ports")
        self.begun, self.ports = True, line.ports
        self.capture += capture.header_bytes(line.ports)

    def take_record(self, record: Record) -> None:
        if not self.begun:
            raise TextFault(NO_HEADER)
        if isinstance(record.actor, Connector):
            self.check_port(record.actor.port)
        if record.tick < self.tick:
            raise TextFault(f"tick {record.tick} is below {self.tick}, that of the record before")
        self.tick = record.tick
        self.capture += capture.record_bytes(record)

    def take_script(self, line: ScriptLine) -> None:
        if not self.takes_script:
            raise TextFault("a line of the button script; --script FILE says where these go")
        if line.port is not None:
            self.check_port(line.port)
        if line.tick < self.script_tick:
            raise TextFault(f"tick {line.tick} is below {self.script_tick}, that of the script's line before")
        self.script_tick = line.tick
        self.script.append(line.text)

    def check_port(self, port: int) -> None:
        if self.ports is not None and port > self.ports:
            raise TextFault(f"port {port}, and the header has {self.ports} ports")


def order_of(placed: tuple[str, Line]) -> int:
    """Where a line comes when they are put in order: the header first, then by ticks."""
    place, line = placed
    if isinstance(line, Raw):
        raise Fault(f"{place}: bytes have no tick, so they can't be put in order")
    return -1 if isinstance(line, Header) else line.tick
