#!/usr/bin/env python3
"""Writes a session of at least COUNT events at a switch with four ports: workloads.py KIND COUNT FOLDER.

It prints how many events there are. The four ports are configured, and then one round follows on another.

| kind     | a round                                                                                                      |
|----------|--------------------------------------------------------------------------------------------------------------|
| control  | a SETUP for the device descriptor at each port, the IN that takes it, the OUT of its status stage, four Clocks |
| polls    | an IN at the keyboard's and the mouse's endpoint of each port, where nothing is due; a Clock each tenth time |
| idle     | a Clock                                                                                                      |
| typing   | a key goes down, and up; each time port 1, which is selected, and port 2 poll the keyboard; a Clock          |
| pointing | the mouse is moved, and its button goes down and up; each time port 1 polls the mouse twice; a Clock         |
| token    | port 1 asks the token for a status word: SETUP, IN, the end of the job, IN, OUT; a Clock                     |
| office   | typing, pointing, control and polls, and every 3,000 ticks another port is selected by hand                  |
"""
from __future__ import annotations

import functools
import itertools
import pathlib
import sys
from typing import BinaryIO, Callable, NamedTuple

sys.dont_write_bytecode = True
sys.path.insert(0, str(pathlib.Path(__file__).resolve().parent.parent / "tools"))

from kvm_tools import script  # noqa: E402
from kvm_tools.capture import Connector, Kind, Plug, Record, Side, header_bytes, record_bytes  # noqa: E402
from kvm_tools.descriptors import Device  # noqa: E402
from kvm_tools.enumeration import attach, enumeration  # noqa: E402

PORTS = range(1, 5)
CONFIGURE = bytes.fromhex("0009010000000000")
GET_DEVICE = bytes.fromhex("8006000100004000")
GET_STATUS = bytes.fromhex("8000000000000200")
TICK_SIZE = 4
#: The ticks at which the buttons are pressed, the port is selected, the ports are configured, and the rounds begin.
PRESSED, SELECTED, CONFIGURED, FIRST = 10, 10 + script.HOLD, 200, 1000
#: After how many rounds of the office another port is selected, and at which of them first.
SWITCHES, FIRST_SWITCH = 3000, 1500

#: A keyboard and a mouse with the boot protocols' reports (HID 1.11, appendix B), and a token with two bulk endpoints.
DEVICES = {
    Plug.KEYBOARD: Device(
        bytes.fromhex("120100020000000834120100000100000001"),
        bytes.fromhex("09022200010100a0320904000001030101000921110100012240000705810308000a"),
        {0: bytes.fromhex("05010906a101050719e029e71500250175019508810295017508810195057501050819012905910295017503"
                          "910195067508150026a4000507190029a48100c0")}),
    Plug.MOUSE: Device(
        bytes.fromhex("120100020000000834120200000100000001"),
        bytes.fromhex("09022200010100a0320904000001030102000921110100012234000705810304000a"),
        {0: bytes.fromhex("05010902a1010901a1000509190129051500250195057501810295017503810105010930093109381581257f"
                          "750895038106c0c0")}),
    Plug.TOKEN: Device(
        bytes.fromhex("120100020000000834120300000100000001"),
        bytes.fromhex("09022000010100803209040000020b0000000705810240000007050202400000"), {}),
}


def clock(tick: int = 0) -> Record:
    return Record(tick, Kind.CLOCK, None)


def setup(port: int, data: bytes, tick: int = 0, side: Side = Side.KM) -> Record:
    return Record(tick, Kind.SETUP, Connector(port, side), (0,), data)


def take(port: int, endpoint: int = 0, tick: int = 0, side: Side = Side.KM) -> Record:
    """An IN whose handshake arrives."""
    return Record(tick, Kind.IN, Connector(port, side), (0, endpoint, 1))


def status(port: int, side: Side = Side.KM) -> Record:
    """The OUT of a status stage."""
    return Record(0, Kind.OUT, Connector(port, side), (0, 0, 1))


def report(plug: Plug, *data: int) -> Record:
    return Record(0, Kind.REPORT, plug, (0,), bytes(data))


def control(turn: int) -> list[Record]:
    return [setup(port, GET_DEVICE) for port in PORTS] + [take(port) for port in PORTS] + \
        [status(port) for port in PORTS] + [clock() for _ in PORTS]


def polls(turn: int) -> list[Record]:
    return [take(port, endpoint) for port in PORTS for endpoint in (1, 2)] + [clock()] * (turn % 10 == 9)


def idle(turn: int) -> list[Record]:
    return [clock()]


def typing(turn: int) -> list[Record]:
    key = 4 + turn % 26
    asked = [take(1, 1), take(2, 1)]
    return [report(Plug.KEYBOARD, 0, 0, key, 0, 0, 0, 0, 0), *asked, report(Plug.KEYBOARD, *bytes(8)), *asked, clock()]


def pointing(turn: int) -> list[Record]:
    asked = [take(1, 2), take(1, 2)]
    return [report(Plug.MOUSE, 1, 3 + turn % 90, 251, 0), *asked, report(Plug.MOUSE, 0, 1, 1, 0), *asked, clock()]


def token(turn: int) -> list[Record]:
    done = Record(0, Kind.DONE, Plug.TOKEN, (1, turn + 1, 0), bytes(2))
    return [setup(1, GET_STATUS, side=Side.UA), take(1, side=Side.UA), done, take(1, side=Side.UA),
            status(1, Side.UA), clock()]


def office(turn: int) -> list[Record]:
    return [*typing(turn), *pointing(turn), *control(turn), *polls(turn)]


def holds(port: int, tick: int) -> list[str]:
    """The moves by which a port is selected at the Clock that comes `script.HOLD` ticks later."""
    up = tick + script.HOLD + 1
    return [f"{tick} guard down", f"{tick} {port} down", f"{up} guard up", f"{up} {port} up"]


def switching(turn: int) -> list[str]:
    """The moves that begin at a round of the office."""
    if turn % SWITCHES != FIRST_SWITCH:
        return []
    return holds(1 + turn // SWITCHES % len(PORTS), FIRST + turn)


def nothing(turn: int) -> list[str]:
    return []


class Workload(NamedTuple):
    """What is at the console, the records of a round at tick 0, after how many rounds they repeat (0 where they never do), how
    many rounds have the same tick, and the moves at the panel that begin at a round."""

    plugs: tuple[Plug, ...]
    records: Callable[[int], list[Record]]
    period: int = 1
    rounds_a_tick: int = 1
    moves: Callable[[int], list[str]] = nothing


KINDS = {
    "control": Workload((), control, rounds_a_tick=6),
    "polls": Workload((), polls, period=10),
    "idle": Workload((), idle),
    "typing": Workload((Plug.KEYBOARD,), typing, period=26),
    "pointing": Workload((Plug.MOUSE,), pointing, period=90),
    "token": Workload((Plug.TOKEN,), token, period=0),
    "office": Workload(tuple(DEVICES), office, period=1170, moves=switching),
}


def beginning(plugs: tuple[Plug, ...]) -> tuple[list[Record], list[str]]:
    """The records and the script before the first round."""
    records, moves = [], script.self_test(0)
    for plug in plugs:
        records += [attach(0, plug), *enumeration(DEVICES[plug], plug, 0, 1)[0]]
    if plugs:
        records.append(clock(SELECTED))
        moves += holds(1, PRESSED)
    for port in PORTS:
        records += [setup(port, CONFIGURE, CONFIGURED), take(port, 0, CONFIGURED)]
    return records, moves


def write_rounds(out: BinaryIO, moves: list[str], work: Workload, events: int, count: int) -> int:
    """Writes rounds behind so many events, until there are `count`, and appends their moves. Returns how many events there are
    then."""

    def parts(turn: int) -> list[bytes]:
        return [b"", *(record_bytes(record)[TICK_SIZE:] for record in work.records(turn))]

    kept = functools.cache(parts)
    for turn in itertools.count():
        if events >= count:
            return events
        records = kept(turn % work.period) if work.period else parts(turn)
        moved = work.moves(turn)
        tick = FIRST + turn // work.rounds_a_tick
        out.write(tick.to_bytes(TICK_SIZE, "little").join(records))
        moves += moved
        events += len(records) - 1 + len(moved)


def write(kind: str, count: int, folder: pathlib.Path) -> int:
    """Writes the session's files into a folder. Returns its number of events."""
    records, moves = beginning(KINDS[kind].plugs)
    folder.mkdir(parents=True, exist_ok=True)
    with open(folder / "capture.kvc", "wb") as out:
        out.write(header_bytes(len(PORTS)) + b"".join(map(record_bytes, records)))
        events = write_rounds(out, moves, KINDS[kind], len(records) + len(moves), count)
    (folder / "buttons.txt").write_text("".join(f"{move}\n" for move in moves))
    return events


def main() -> None:
    kind, count, folder = sys.argv[1:]
    print(write(kind, int(count), pathlib.Path(folder)))


if __name__ == "__main__":
    main()
