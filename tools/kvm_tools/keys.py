"""The names of keys, and the report of a keyboard in the form of HID 1.11's boot keyboard (appendix B.1)."""
from __future__ import annotations

import string

#: How many ordinary keys such a report holds.
KEYS_IN_REPORT = 6

MODIFIERS = {f"{side}-{name}": 0xE0 + place + shift for side, shift in (("left", 0), ("right", 4))
             for place, name in enumerate(("ctrl", "shift", "alt", "gui"))}
#: Without a side a modifier is the left one.
SHORT_MODIFIERS = {name: MODIFIERS[f"left-{name}"] for name in ("ctrl", "shift", "alt", "gui")}

LETTERS = {letter: 0x04 + place for place, letter in enumerate(string.ascii_lowercase)}
DIGITS = {digit: 0x1E + place for place, digit in enumerate("1234567890")}
NAMED = {name: 0x28 + place for place, name in enumerate(
    ("enter", "escape", "backspace", "tab", "space", "minus", "equals", "left-bracket", "right-bracket", "backslash",
     "iso-hash", "semicolon", "quote", "grave", "comma", "period", "slash", "caps-lock"))}
FUNCTIONS = ({f"f{number}": 0x3A + number - 1 for number in range(1, 13)}
             | {f"f{number}": 0x68 + number - 13 for number in range(13, 25)})
CURSOR = {name: 0x46 + place for place, name in enumerate(
    ("print-screen", "scroll-lock", "pause", "insert", "home", "page-up", "delete", "end", "page-down",
     "right", "left", "down", "up", "num-lock"))}
KEYPAD = {f"keypad-{name}": 0x54 + place for place, name in enumerate(
    ("slash", "times", "minus", "plus", "enter", "1", "2", "3", "4", "5", "6", "7", "8", "9", "0", "period"))}
OTHERS = {"iso-backslash": 0x64, "menu": 0x65}
ALIASES = {"return": 0x28, "esc": 0x29, "del": 0x4C}

#: The usages of page 7 by name.
USAGES = LETTERS | DIGITS | NAMED | FUNCTIONS | CURSOR | KEYPAD | OTHERS | ALIASES | MODIFIERS | SHORT_MODIFIERS
#: The first name of each usage.
NAMES = {usage: name for name, usage in reversed(USAGES.items())}


class UnknownKey(Exception):
    """A name that is no key's."""


def usages_of(chord: str) -> list[int]:
    """The usages of keys that are held together, as 'ctrl+alt+delete'."""
    usages = []
    for name in chord.split("+"):
        usage = USAGES.get(name.lower()) or usage_in(name)
        if usage is None:
            raise UnknownKey(name)
        usages.append(usage)
    return usages


def usage_in(name: str) -> int | None:
    """A usage that is given by its number, as 0x2c."""
    try:
        usage = int(name, 16) if name.lower().startswith("0x") else 0
    except ValueError:
        return None
    return usage if 0 < usage <= 0xFF else None


def boot_report(usages: list[int]) -> bytes:
    """The report in which these keys are down: the modifiers, a zero byte, and up to six keys."""
    modifiers = sum(1 << (usage - 0xE0) for usage in set(usages) if 0xE0 <= usage <= 0xE7)
    ordinary = list(dict.fromkeys(usage for usage in usages if not 0xE0 <= usage <= 0xE7))
    if len(ordinary) > KEYS_IN_REPORT:
        raise ValueError(f"{len(ordinary)} keys, and such a report holds {KEYS_IN_REPORT}")
    return bytes([modifiers, 0, *ordinary]).ljust(KEYS_IN_REPORT + 2, b"\0")


def names_in(report: bytes) -> list[str]:
    """The names of the keys that are down in such a report."""
    modifiers = [0xE0 + bit for bit in range(8) if report[0] >> bit & 1]
    return [NAMES.get(usage, f"{usage:#04x}") for usage in modifiers + [key for key in report[2:] if key]]
