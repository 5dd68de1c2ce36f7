#!/usr/bin/env python3
"""Changes what one computer does in a capture, and nothing else.

    examples/vary.py silent PORT CAPTURE FILE
    examples/vary.py hostile PORT CAPTURE FILE [--acts N] [--seed N]

FILE gets the capture with all other records in their order, byte by byte. The computer at PORT does nothing at all there
(silent), or N acts at random in place of its own (hostile; 10,000, at both of its connectors, between all other records).
The same seed gives the same acts.

status: 0 written; 2 the words are wrong, the capture is faulty, or a file can't be read or written
"""
from __future__ import annotations

import argparse
import pathlib
import random
import sys

TOP = pathlib.Path(__file__).resolve().parent.parent
sys.path.insert(0, str(TOP / "tools"))

from kvm_tools import capture, command  # noqa: E402
from kvm_tools.capture import Connector, Kind, Record, Side  # noqa: E402

ACTS = 10_000
SEED = 1
# requests that a computer makes of a keyboard, a mouse or a token, so that not all of what it asks is nonsense
REQUESTS = ["8006000100001200", "800600020000ff00", "8106002200004000", "8106002201003400", "0005030000000000", "0005000000000000",
            "0009010000000000", "0009000000000000", "8008000000000100", "210a000000000000", "2109000200000100", "a101000100000800",
            "0201000081000000", "0203000081000000", "8000000000000200"]


def act_of(chance: random.Random, tick: int, port: int) -> Record:
    """An act at random: most addresses and endpoints are those that a device may have, and half of the requests known ones."""
    connector = Connector(port, chance.choice(list(Side)))
    address = chance.choice([0, 0, 3, chance.randrange(128)])
    endpoint = chance.choice([0, 0, chance.randrange(1, 3), chance.randrange(16)])
    kind = chance.choice([Kind.RESET] + 5 * [Kind.SETUP] + 4 * [Kind.OUT] + 20 * [Kind.IN])
    if kind is Kind.RESET:
        return Record(tick, kind, connector)
    if kind is Kind.SETUP:
        setup = chance.choice([bytes.fromhex(chance.choice(REQUESTS)), chance.randbytes(8)])
        return Record(tick, kind, connector, (address,), setup)
    data = chance.randbytes(chance.choice([0, 1, 8, chance.randrange(65)])) if kind is Kind.OUT else b""
    return Record(tick, kind, connector, (address, endpoint, chance.randrange(2)), data)


def hostile(others: list[Record], port: int, acts: int, seed: int) -> list[Record]:
    """The records with so many acts of the port between them, each at a place and a tick at random."""
    chance = random.Random(seed)
    last = others[-1].tick if others else 0
    ticks = [it.tick for it in others]
    gaps = [[] for _ in range(len(others) + 1)]
    for _ in range(acts):
        place = chance.randrange(len(gaps))
        least = ticks[place - 1] if place else 0
        gaps[place].append(chance.randint(least, ticks[place] if place < len(ticks) else last))
    records = []
    for place, gap in enumerate(gaps):
        records += [act_of(chance, tick, port) for tick in sorted(gap)]
        records += others[place:place + 1]
    return records


def words() -> argparse.Namespace:
    what, _, rest = __doc__.partition("\n\n")
    parser = command.Parser(prog="vary.py", description=what, epilog=rest, formatter_class=argparse.RawDescriptionHelpFormatter,
                            allow_abbrev=False)
    parser.add_argument("how", choices=["silent", "hostile"])
    parser.add_argument("port", type=command.number_up_to(capture.MOST_PORTS, 1), metavar="PORT")
    parser.add_argument("capture", metavar="CAPTURE")
    parser.add_argument("file", metavar="FILE")
    parser.add_argument("--acts", type=command.number_up_to(1_000_000), default=ACTS, metavar="N")
    parser.add_argument("--seed", type=command.number_up_to(2**32 - 1), default=SEED, metavar="N")
    return parser.parse_args()


def work() -> int:
    given = words()
    try:
        with open(given.capture, "rb") as file:
            ports = capture.read_header(file)
            records = list(capture.read_records(file, ports))
    except capture.CaptureFault as fault:
        raise command.Trouble(f"{given.capture}: at offset {fault.offset}: {fault.why}") from None
    if given.port > ports:
        raise command.Trouble(f"{given.capture}: it has {ports} ports, and no port {given.port}")
    others = [it for it in records if not (isinstance(it.actor, Connector) and it.actor.port == given.port)]
    varied = others if given.how == "silent" else hostile(others, given.port, given.acts, given.seed)
    pathlib.Path(given.file).write_bytes(capture.header_bytes(ports) + b"".join(map(capture.record_bytes, varied)))
    return 0


if __name__ == "__main__":
    command.run("vary.py", work)
