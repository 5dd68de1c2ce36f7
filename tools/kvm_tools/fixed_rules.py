"""The rules of the filter in the words of docs/RULES.md; tests/run_tools.py sees that they are the same."""
from __future__ import annotations

from typing import NamedTuple


class Rule(NamedTuple):
    """A fixed rule: its name in words, what it refuses, and what it protects from."""

    title: str
    refuses: str
    protects: str


FIXED = {
    "F01": Rule("malformed descriptor",
                "a device whose device or configuration descriptor breaks USB's form",
                "descriptors made to confuse whoever reads them"),
    "F02": Rule("hub",
                "a hub, alone or built into a device",
                "further devices behind the one that was attached"),
    "F03": Rule("sizes beyond limits",
                "a device whose packet size at endpoint 0 isn't 8, 16, 32 or 64, whose configuration is over 1,024 bytes, or "
                "that has more than 8 interfaces or 16 endpoints",
                "descriptors made to overflow whoever reads them, and devices that are far more than they seem"),
    "F04": Rule("no interface for the connector",
                "at the keyboard and the mouse plug a device without a HID interface (class 3), and each other interface of a "
                "device with one; at the token plug a device with any interface that isn't smart card (class 11), or with none",
                "drives, network adapters and the like that pose as a peripheral or are built into one"),
    "F05": Rule("malformed report descriptor",
                "an interface whose report descriptor is missing, cut short or breaks HID's form",
                "report layouts made to confuse whoever reads them"),
    "F06": Rule("report limits",
                "an interface whose report descriptor is over 1,024 bytes, or whose fields, nesting or report lengths are beyond "
                "what the switch reads",
                "report layouts made to overflow whoever reads them"),
    "F07": Rule("no usable field",
                "at the keyboard plug an interface without keys that are passed on, at the mouse plug one without buttons or motion",
                "interfaces that aren't what the plug is for"),
    "F08": Rule("request stalled",
                "a device that refuses a question of its examination; of a question about one interface's reports, that interface",
                "devices that hide what they are"),
    "F09": Rule("token changed after its reset",
                "a token that describes itself otherwise than when it was accepted before, since it was attached",
                "a token that turns into another device when it is passed to another computer"),
    "F10": Rule("absolute pointer",
                "at the mouse plug an interface that tells a position, as a tablet or a touch screen does",
                "positions taken for motion"),
    "F11": Rule("silent",
                "a device that fails a question of its examination, or leaves it unanswered for two seconds",
                "devices that hold up the console"),
}

NOT_ALLOWED = "A00"
ENTRIES_MAX = 64


def deny_entry(name: str) -> int | None:
    """The place of the deny entry that a rule names, from 1."""
    digits = name[1:]
    return int(digits) if name[:1] == "D" and digits.isdigit() else None
