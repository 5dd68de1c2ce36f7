"""Captures as text: one line a record, in the words of the transcripts.

docs/FORMATS.md has the form. Reading the text of a capture gives its bytes again, whatever they are: what is no record
stands as bytes.
"""
from __future__ import annotations

from dataclasses import dataclass
from typing import BinaryIO, Collection, Iterator

from kvm_tools import capture, script
from kvm_tools.capture import CaptureFault, Connector, Kind, Plug, Record, Side

#: How many bytes a line of bytes shows.
BYTES_IN_LINE = 32

NO_BYTES = "-"

ACTS = {kind.name: kind for kind in (Kind.RESET, Kind.SETUP, Kind.OUT, Kind.IN)}
MOVES = {kind.name: kind for kind in Kind if kind.plugs}


class TextFault(Exception):
    """Why a line isn't one of the text of a capture."""


@dataclass(frozen=True)
class Header:
    """The line of the header."""

    ports: int


@dataclass(frozen=True)
class Raw:
    """A line of bytes."""

    data: bytes


@dataclass(frozen=True)
class ScriptLine:
    """A line of the button script: its tick, the port whose button it names, and its text."""

    tick: int
    port: int | None
    text: str


Line = Header | Record | Raw | ScriptLine


def header_line(ports: int) -> str:
    return f"KVC1 PORTS {ports}"


def record_line(record: Record) -> str:
    """The line of a record."""
    parts = [str(record.tick), *actor_words(record.actor), record.kind.name, *map(str, record.values)]
    if record.kind.most:
        parts.append(record.data.hex() or NO_BYTES)
    return " ".join(parts)


def actor_words(actor: capture.Actor) -> list[str]:
    if actor is None:
        return []
    return [actor.name] if isinstance(actor, Plug) else ["PORT", str(actor.port), actor.side.name]


def raw_lines(data: bytes) -> Iterator[str]:
    for at in range(0, len(data), BYTES_IN_LINE):
        yield f"BYTES {data[at:at + BYTES_IN_LINE].hex()}"


def lines_of(file: BinaryIO) -> Iterator[tuple[str, Record | CaptureFault | None]]:
    """The lines of a capture, each with the record that it shows. Behind the line of a fault stand the bytes from there on."""
    try:
        ports = capture.read_header(file)
        yield header_line(ports), None
        for record in capture.read_records(file, ports):
            yield record_line(record), record
    except CaptureFault as fault:
        yield f"# {fault}: {fault.detail}", fault
        # from the front of the file where the header is faulty, so that its bytes are all there
        front = capture.MAGIC if fault.offset == 4 else b""
        for line in rest_lines(front + fault.taken, file):
            yield line, None


def rest_lines(front: bytes, file: BinaryIO) -> Iterator[str]:
    """Lines of these bytes and all that follow in the file, at least one: it takes the header's place where there is none."""
    if not front:
        yield f"BYTES {NO_BYTES}"
    while more := file.read(64 * BYTES_IN_LINE):
        front += more
        whole = len(front) - len(front) % BYTES_IN_LINE
        yield from raw_lines(front[:whole])
        front = front[whole:]
    yield from raw_lines(front)


def read_line(text: str) -> Line | None:
    """What a line says; nothing where it is empty or a comment."""
    words = text.split("#", 1)[0].split()
    if not words:
        return None
    if words[0] == "KVC1":
        return read_header_line(words)
    if words[0] == "BYTES":
        return Raw(read_bytes(words[1:], "BYTES"))
    tick = read_number(words[0], capture.TICK_MAX, "a tick")
    if len(words) == 1:
        raise TextFault("nothing stands behind the tick")
    if words[1][0].isupper():
        return read_record(tick, words[1:])
    return read_script_line(" ".join(words))


def read_header_line(words: list[str]) -> Header:
    if len(words) != 3 or words[1] != "PORTS":
        raise TextFault("the header is 'KVC1 PORTS N'")
    return Header(read_number(words[2], capture.MOST_PORTS, "the number of ports", capture.LEAST_PORTS))


def read_script_line(text: str) -> ScriptLine:
    try:
        return ScriptLine(*script.read_move(text), text)
    except script.ScriptFault:
        raise TextFault(f"'{text}' is no record and no line of the script") from None


def read_record(tick: int, words: list[str]) -> Record:
    if words[0] == "CLOCK":
        return finish(Record(tick, Kind.CLOCK, None), words[1:])
    if words[0] == "PORT":
        return read_act(tick, words[1:])
    if words[0] in Plug.__members__:
        return read_plug_record(tick, Plug[words[0]], words[1:])
    raise TextFault(f"'{words[0]}' isn't CLOCK, PORT, KEYBOARD, MOUSE or TOKEN")


def read_act(tick: int, words: list[str]) -> Record:
    if len(words) < 3:
        raise TextFault("an act is 'TICK PORT P SIDE ACT'")
    port = read_number(words[0], capture.MOST_PORTS, "a port", 1)
    if words[1] not in Side.__members__:
        raise TextFault(f"'{words[1]}' isn't KM or UA")
    if words[2] not in ACTS:
        raise TextFault(f"'{words[2]}' isn't {one_of(ACTS)}")
    return finish(Record(tick, ACTS[words[2]], Connector(port, Side[words[1]])), words[3:])


def read_plug_record(tick: int, plug: Plug, words: list[str]) -> Record:
    moves = {name: kind for name, kind in MOVES.items() if plug in kind.plugs}
    if not words or words[0] not in moves:
        found = f"'{words[0]}'" if words else "nothing"
        raise TextFault(f"{found} stands behind {plug.name}, not {one_of(moves)}")
    return finish(Record(tick, moves[words[0]], plug), words[1:])


def finish(record: Record, words: list[str]) -> Record:
    """A record with the fields and the bytes that these words say."""
    kind = record.kind
    count = len(kind.fields)
    if len(words) < count + bool(kind.most) or (len(words) > count and not kind.most):
        raise TextFault(f"{kind.name} has {shape_of(kind)}")
    values = tuple(read_number(word, field.most, field.name) for field, word in zip(kind.fields, words))
    data = read_bytes(words[count:], kind.name) if kind.most else b""
    if not kind.least <= len(data) <= kind.most:
        fits = f"{kind.least}" if kind.least == kind.most else f"{kind.least} to {kind.most}"
        raise TextFault(f"{kind.name} has {fits} bytes, and these are {len(data)}")
    return Record(record.tick, kind, record.actor, values, data)


def shape_of(kind: Kind) -> str:
    parts = [field.name for field in kind.fields] + (["bytes"] if kind.most else [])
    return "nothing behind it" if not parts else f"{', '.join(parts)} behind it"


def one_of(names: Collection[str]) -> str:
    *front, last = names
    return f"{', '.join(front)} or {last}" if front else last


def read_number(word: str, most: int, what: str, least: int = 0) -> int:
    plain = word.isascii() and word.isdigit() and (word == "0" or word[0] != "0")
    if not plain or not least <= int(word) <= most:
        raise TextFault(f"'{word}' isn't {what} ({least} to {most}, decimal)")
    return int(word)


def read_bytes(words: list[str], what: str) -> bytes:
    """Bytes in hexadecimal, with blanks between them or not; '-' is none."""
    if not words:
        raise TextFault(f"no bytes stand behind {what}; none is '{NO_BYTES}'")
    if words == [NO_BYTES]:
        return b""
    try:
        return bytes.fromhex(" ".join(words))
    except ValueError:
        raise TextFault(f"'{' '.join(words)}' isn't bytes in hexadecimal") from None
