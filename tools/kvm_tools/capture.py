"""The capture format KVC1: records as values and as bytes, and the faults that the program names.

docs/FORMATS.md says what it is.
"""
from __future__ import annotations

import enum
import struct
from dataclasses import dataclass
from typing import BinaryIO, Iterator, NamedTuple

MAGIC = b"KVC1"
HEADER_SIZE = 8
HEAD = struct.Struct("<IBBH")
LEAST_PORTS, MOST_PORTS = 2, 8
TICK_MAX = 2**32 - 1
PACKET_MAX = 64
BLOCK_MAX = 1024


class Plug(enum.Enum):
    """A plug at the console; the value is who acts in a record."""

    KEYBOARD = 1
    MOUSE = 2
    TOKEN = 3


ALL_PLUGS = frozenset(Plug)
NO_PLUGS: frozenset[Plug] = frozenset()


class Side(enum.Enum):
    """A computer's connector; the value and the port's number together are who acts in a record."""

    KM = 0x40
    UA = 0x80


class Connector(NamedTuple):
    """A connector of a port."""

    port: int
    side: Side


Actor = Plug | Connector | None


class Field(NamedTuple):
    """A number at the front of a payload."""

    name: str
    size: int
    most: int


ADDRESS = Field("address", 1, 127)
ENDPOINT = Field("endpoint", 1, 15)
LIFE = Field("life", 4, 2**32 - 1)
NUMBER = Field("number", 4, 2**32 - 1)
STATUS = Field("status", 1, 3)


class Kind(enum.Enum):
    """The kinds of record: the number, the plugs that may act in it, the fields, and how many bytes stand behind them.

    At a clock nobody acts, and in the other kinds without plugs a connector does.
    """

    CLOCK = (0x01, NO_PLUGS, (), 0, 0)
    RESET = (0x10, NO_PLUGS, (), 0, 0)
    SETUP = (0x11, NO_PLUGS, (ADDRESS,), 8, 8)
    OUT = (0x12, NO_PLUGS, (ADDRESS, ENDPOINT, Field("toggle", 1, 1)), 0, PACKET_MAX)
    IN = (0x13, NO_PLUGS, (ADDRESS, ENDPOINT, Field("acked", 1, 1)), 0, 0)
    ATTACH = (0x20, ALL_PLUGS, (), 0, 0)
    DETACH = (0x21, ALL_PLUGS, (), 0, 0)
    REPLY = (0x22, ALL_PLUGS, (LIFE, NUMBER, STATUS), 0, BLOCK_MAX)
    REPORT = (0x23, ALL_PLUGS - {Plug.TOKEN}, (Field("interface", 1, 255),), 0, PACKET_MAX)
    DONE = (0x24, frozenset({Plug.TOKEN}), (LIFE, NUMBER, STATUS), 0, BLOCK_MAX)

    def __init__(self, number: int, plugs: frozenset[Plug], fields: tuple[Field, ...], least: int, most: int) -> None:
        self.number = number
        self.plugs = plugs
        self.fields = fields
        self.front = sum(field.size for field in fields)
        self.least, self.most = least, most

    def has_length(self, length: int) -> bool:
        """Whether a payload may have so many bytes."""
        return self.least <= length - self.front <= self.most


KINDS = {kind.number: kind for kind in Kind}


@dataclass(frozen=True, slots=True)
class Record:
    """A record: its tick, its kind, who acts, the values of its fields in their order, and the bytes behind them."""

    tick: int
    kind: Kind
    actor: Actor
    values: tuple[int, ...] = ()
    data: bytes = b""


class CaptureFault(Exception):
    """Where a capture is faulty, and why, in the program's words; and what the words mean here."""

    def __init__(self, offset: int, why: str, detail: str, taken: bytes) -> None:
        super().__init__(f"capture {offset} {why}")
        self.offset = offset
        self.why = why
        self.detail = detail
        #: what was read from the offset on
        self.taken = taken


class Refused(Exception):
    """Why a record isn't one of the format: the program's word, and what it means here."""

    def __init__(self, why: str, detail: str) -> None:
        super().__init__(why)
        self.why = why
        self.detail = detail


def header_bytes(ports: int) -> bytes:
    return MAGIC + bytes([ports, 0, 0, 0])


def record_bytes(record: Record) -> bytes:
    front = b"".join(value.to_bytes(field.size, "little") for field, value in zip(record.kind.fields, record.values))
    return pack(record.tick, record.kind.number, who_of(record.actor), front + record.data)


def pack(tick: int, kind: int, who: int, payload: bytes = b"") -> bytes:
    """The bytes of a record by its numbers, whether the format has it or not."""
    return HEAD.pack(tick, kind, who, len(payload)) + payload


def who_of(actor: Actor) -> int:
    """The number that says who acts."""
    if actor is None:
        return 0
    return actor.value if isinstance(actor, Plug) else actor.side.value + actor.port


def read_header(file: BinaryIO) -> int:
    """Reads a capture's header and returns its number of ports."""
    header = file.read(HEADER_SIZE)
    if len(header) < HEADER_SIZE:
        raise CaptureFault(0, "truncated", f"the header has 8 bytes, and there are {len(header)}", header)
    if header[:4] != MAGIC:
        raise CaptureFault(0, "bad-magic", f"it begins with {header[:4].hex()}, not with 4b564331 (KVC1)", header)
    if not LEAST_PORTS <= header[4] <= MOST_PORTS:
        raise CaptureFault(4, "bad-ports", f"{header[4]} ports, and there can be 2 to 8", header[4:])
    if any(header[5:]):
        raise CaptureFault(4, "bad-ports", f"bytes 5 to 7 are {header[5:].hex()}, not zero", header[4:])
    return header[4]


def read_records(file: BinaryIO, ports: int) -> Iterator[Record]:
    """Reads the records behind a header, up to the end or the first fault."""
    offset, last = HEADER_SIZE, 0
    while head := file.read(HEAD.size):
        payload = b""
        try:
            if len(head) < HEAD.size:
                raise Refused("truncated", f"a record begins with 8 bytes, and {len(head)} are left")
            tick, number, who, length = HEAD.unpack(head)
            kind, actor = announced(ports, last, tick, number, who)
            check_length(kind, length)
            payload = file.read(length)
            if len(payload) < length:
                raise Refused("truncated", f"the payload has {length} bytes, and {len(payload)} are left")
            yield Record(tick, kind, actor, *fields_of(kind, payload))
        except Refused as refused:
            raise CaptureFault(offset, refused.why, refused.detail, head + payload) from None
        offset, last = offset + len(head) + length, tick


def announced(ports: int, last: int, tick: int, number: int, who: int) -> tuple[Kind, Actor]:
    """What a record's head announces after a record of tick `last`, or the first of its checks that fails."""
    if tick < last:
        raise Refused("tick-back", f"tick {tick} is below {last}, that of the record before")
    kind = KINDS.get(number)
    if kind is None:
        raise Refused("bad-kind", f"kind {number:02x}")
    return kind, actor_of(kind, ports, who)


def actor_of(kind: Kind, ports: int, who: int) -> Actor:
    """Who acts in a record of this kind."""
    if kind is Kind.CLOCK:
        if who:
            raise Refused("bad-who", f"who {who:02x} at a clock, where nobody acts (00)")
        return None
    if kind.plugs:
        for plug in kind.plugs:
            if plug.value == who:
                return plug
        raise Refused("bad-who", f"who {who:02x} at kind {kind.number:02x}")
    for side in Side:
        if side.value < who <= side.value + MOST_PORTS:
            if who - side.value > ports:
                raise Refused("bad-who", f"port {who - side.value}, and the header has {ports} ports")
            return Connector(who - side.value, side)
    raise Refused("bad-who", f"who {who:02x}, which is no connector")


def check_length(kind: Kind, length: int) -> None:
    if not kind.has_length(length):
        least, most = kind.front + kind.least, kind.front + kind.most
        fits = str(least) if least == most else f"{least} to {most}"
        raise Refused("bad-length", f"a payload of {length} bytes at kind {kind.number:02x}, which has {fits}")


def fields_of(kind: Kind, payload: bytes) -> tuple[tuple[int, ...], bytes]:
    """The values of a payload's fields, and the bytes behind them."""
    values, at = [], 0
    for field in kind.fields:
        value = int.from_bytes(payload[at:at + field.size], "little")
        if value > field.most:
            raise Refused("bad-field", f"{field.name} {value}, which is at most {field.most}")
        values.append(value)
        at += field.size
    return tuple(values), payload[at:]
