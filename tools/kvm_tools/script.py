"""The lines of the button script, and the moves that they say."""
from __future__ import annotations

import re

CHECKS = 4
#: How long the guard button and a port's button are held, in ticks, until a Clock record asks for the port.
HOLD = 100

MOVE = re.compile(r"(?P<tick>0|[1-9][0-9]{0,9}) "
                  r"(?:guard (?:down|up)|(?P<port>[1-8]) (?:down|up)|check [1-4] (?:pass|fail)|tamper)")


class ScriptFault(Exception):
    """Why a text is no line of the script."""


def read_move(text: str) -> tuple[int, int | None]:
    """The tick of a line, and the port whose button it names, if it names one."""
    form = MOVE.fullmatch(text)
    if not form or int(form["tick"]) >= 2**32:
        raise ScriptFault(text)
    return int(form["tick"]), int(form["port"]) if form["port"] else None


def self_test(tick: int) -> list[str]:
    """The four checks pass, so that the switch is alive."""
    return [f"{tick} check {number} pass" for number in range(1, CHECKS + 1)]
