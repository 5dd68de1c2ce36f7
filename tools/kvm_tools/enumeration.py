"""A device at the console as a session: its attachment, and its answers to what the switch asks it."""
from __future__ import annotations

import re
from dataclasses import dataclass
from typing import Iterator

from kvm_tools import capture, script
from kvm_tools.capture import Kind, Plug, Record
from kvm_tools.descriptors import Device, hid_interfaces

DONE = 0
PORTS = 2
#: An order to a peripheral in console.txt.
ASK = re.compile(r"(?P<tick>\d+) (?P<plug>[A-Z]+) ASK (?P<life>\d+) (?P<number>\d+) (?P<setup>[0-9a-f]{16})")


@dataclass(frozen=True)
class Ask:
    """An order that asks a peripheral."""

    life: int
    number: int
    setup: bytes


def attach(tick: int, plug: Plug) -> Record:
    return Record(tick, Kind.ATTACH, plug)


def reply(tick: int, plug: Plug, life: int, number: int, data: bytes) -> Record:
    """A reply that is done, with these bytes."""
    return Record(tick, Kind.REPLY, plug, (life, number, DONE), data)


def session(records: list[Record]) -> dict[str, bytes]:
    """The inputs of a replay: a switch that is alive, and these records."""
    script_lines = "".join(f"{line}\n" for line in script.self_test(0))
    data = capture.header_bytes(PORTS) + b"".join(map(capture.record_bytes, records))
    return {"capture.kvc": data, "buttons.txt": script_lines.encode()}


def asks_in(console: str, plug: Plug) -> list[Ask]:
    """What the switch asked a plug, by the text of console.txt."""
    forms = (ASK.fullmatch(line) for line in console.splitlines())
    return [Ask(int(form["life"]), int(form["number"]), bytes.fromhex(form["setup"]))
            for form in forms if form and form["plug"] == plug.name]


def setups(device: Device, plug: Plug) -> Iterator[bytes]:
    """What the switch asks a device that it lets in, in order. Only the program knows whether it does."""
    configuration = device.configuration
    total = configuration[2:4].ljust(2, b"\0")
    yield bytes.fromhex("8006000100001200")
    yield bytes.fromhex("0005010000000000")
    yield bytes.fromhex("8006000200000900")
    yield bytes.fromhex("800600020000") + total
    yield bytes.fromhex("0009") + configuration[5:6].ljust(1, b"\0") + bytes(5)
    if plug is not Plug.TOKEN:
        for interface, length in hid_interfaces(configuration).items():
            if length is not None and length <= capture.BLOCK_MAX:
                yield bytes.fromhex("81060022") + bytes([interface, 0]) + length.to_bytes(2, "little")


def enumeration(device: Device, plug: Plug, tick: int, life: int) -> tuple[list[Record], list[int]]:
    """The replies of a life in which a device is let in, and the interfaces whose report descriptors are missing."""
    records, missing = [], []
    for number, setup in enumerate(setups(device, plug), 1):
        data = device.answer(setup)
        if data is None:
            missing.append(setup[4])
        else:
            records.append(reply(tick, plug, life, number, data[:capture.BLOCK_MAX]))
    return records, missing
