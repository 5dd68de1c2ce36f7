"""The rule file as an administrator sees it: its entries, where they stand, what is faulty in them, and what is odd.

docs/RULES.md has the form. Whether a file is right is the program's to say; this explains what it said.
"""
from __future__ import annotations

import re
import tomllib
from dataclasses import dataclass
from typing import Any, Iterator

from kvm_tools import toml_places

LISTS = ("allow", "deny")
PLUGS = ("keyboard", "mouse", "token")
NUMBERS = {"vendor": 65535, "product": 65535, "class": 255}
KEYS = ("plug", *NUMBERS)
SIZE_MAX = 65_536
ENTRIES_MAX = 64
HUB, HID, SMART_CARD = 9, 3, 11

TOML_PLACE = re.compile(r" \(at (?:line (?P<line>\d+), column (?P<column>\d+)|end of document)\)$")
LINE_KEY = re.compile(r"\s*(?P<key>[\w.\"'-]+)\s*=")

Entry = dict[str, Any]


@dataclass(frozen=True)
class Remark:
    """Something to say about a place of the file: line and column from 1, or none where it is about all of it."""

    line: int | None
    column: int | None
    text: str

    def at(self, path: str) -> str:
        """The remark with its place, as compilers write it."""
        return f"{path}: {self.text}" if self.line is None else f"{path}:{self.line}:{self.column}: {self.text}"


class Rules:
    """A rule file that is TOML."""

    def __init__(self, data: bytes) -> None:
        text = data.decode("utf-8")
        self.root = tomllib.loads(text)
        self.places = toml_places.places(text)

    def entries(self, name: str) -> list[Any]:
        """The entries of a list, faulty ones included."""
        found = self.root.get(name, [])
        return found if isinstance(found, list) else []

    def remark(self, path: toml_places.Path, text: str) -> Remark:
        """A remark at the place of a path, or of the nearest thing that it lies in."""
        while path and path not in self.places:
            path = path[:-1]
        return Remark(*self.places.get(path, (None, None)), text)


def syntax_fault(data: bytes) -> Remark | None:
    """Why python's reader takes the file for no TOML document, and where; nothing where it takes it for one."""
    try:
        text = data.decode("utf-8")
        tomllib.loads(text)
    except UnicodeDecodeError as error:
        front = data[:error.start]
        line = front.count(b"\n") + 1
        column = len(front[front.rfind(b"\n") + 1:].decode("utf-8", "replace")) + 1
        return Remark(line, column, f"byte {data[error.start]:02x} isn't UTF-8")
    except tomllib.TOMLDecodeError as error:
        return place_in(text, str(error))
    return None


def place_in(text: str, said: str) -> Remark:
    """A message of python's reader with its place, and with the key of its line."""
    place = TOML_PLACE.search(said)
    why = said[:place.start()] if place else said
    lines = text.split("\n")
    if place and place["line"]:
        line, column = int(place["line"]), int(place["column"])
    else:
        line, column = len(lines), len(lines[-1]) + 1
    key = LINE_KEY.match(lines[line - 1]) if line <= len(lines) else None
    return Remark(line, column, f"key {key['key']}: {why}" if key else why)


def explain(data: bytes, said: str) -> Remark:
    """What a fault line of the program means: said is what stands behind the word `rules`."""
    words = said.split()
    if words[:1] == ["too-big"]:
        return Remark(None, None, f"the file has {len(data)} bytes, and may have {SIZE_MAX}")
    fault = syntax_fault(data)
    if fault:
        return fault
    if words[:1] == ["syntax"]:
        return Remark(None, None, "python's TOML reader finds no fault, and that of kvm does: it takes TOML 1.0, and whole numbers "
                                  "of 64 bits")
    rules = Rules(data)
    if len(words) == 3 and words[0] == "shape" and words[2].isdigit():
        return root_fault(rules) if words[1] == "root" else entry_fault(rules, words[1], int(words[2]))
    if len(words) == 2 and words[0] == "too-many":
        count = len(rules.entries(words[1]))
        return rules.remark((words[1], ENTRIES_MAX), f"{words[1]} has {count} entries, and may have {ENTRIES_MAX}; this is the "
                                                     f"{ENTRIES_MAX + 1}th")
    return Remark(None, None, said)


def root_fault(rules: Rules) -> Remark:
    """The first thing that is wrong at the root."""
    for key, value in rules.root.items():
        if key not in LISTS:
            return rules.remark((key,), f"unknown key '{key}': the root has allow and deny alone")
        if isinstance(value, dict):
            return rules.remark((key,), f"'{key}' is one table: an entry begins with [[{key}]], in double brackets")
        if not isinstance(value, list):
            return rules.remark((key,), f"'{key}' is {kind_of(value)}, and has to be an array of entries")
    return Remark(None, None, "the root has another key than allow and deny, or one of these isn't an array")


def entry_fault(rules: Rules, name: str, number: int) -> Remark:
    """What is wrong with an entry."""
    entries, path = rules.entries(name), (name, number - 1)
    front = f"{name} entry {number}"
    if not 1 <= number <= len(entries):
        return Remark(None, None, f"{front} is faulty")
    entry = entries[number - 1]
    if not isinstance(entry, dict):
        return rules.remark(path, f"{front} is {kind_of(entry)}, and has to be a table, as {{vendor = 0x1234}}")
    if not entry:
        return rules.remark(path, f"{front} has no key: it needs one or more of {', '.join(KEYS)}")
    for key, value in entry.items():
        wrong = key_fault(key, value)
        if wrong:
            return rules.remark(path + (key,), f"{front}, key '{key}': {wrong}")
    return rules.remark(path, f"{front} is faulty")


def key_fault(key: str, value: Any) -> str | None:
    """What is wrong with a key of an entry, if something is."""
    if key not in KEYS:
        like = f"; '{key.lower()}' is written in lower case" if key.lower() in KEYS else ""
        return f"no such key; there are {', '.join(KEYS)}{like}"
    if key == "plug":
        return None if value in PLUGS else f"{shown_value(key, value)} is no plug; there are {', '.join(map(repr_of, PLUGS))}"
    if isinstance(value, bool) or not isinstance(value, int):
        number = f"; without quotes it is one" if isinstance(value, str) and is_number(value) else ""
        return f"{shown_value(key, value)} is no whole number{number}"
    if not 0 <= value <= NUMBERS[key]:
        return f"{value} is out of range: 0 to {NUMBERS[key]}"
    return None


def is_number(text: str) -> bool:
    try:
        int(text, 0)
    except ValueError:
        return False
    return True


def kind_of(value: Any) -> str:
    kinds = {bool: "true or false", int: "a number", float: "a number with a point", str: "a text", list: "an array", dict: "a table"}
    return kinds.get(type(value), "a date or time")


def repr_of(text: str) -> str:
    return f'"{text}"'


def shown_value(key: str, value: Any) -> str:
    """A value as a rule file has it."""
    if isinstance(value, bool):
        return str(value).lower()
    if isinstance(value, int) and key in ("vendor", "product") and value >= 0:
        return f"0x{value:04x}"
    return repr_of(value) if isinstance(value, str) else str(value)


def shown(entry: Any) -> str:
    """An entry in one line."""
    if not isinstance(entry, dict):
        return str(entry)
    return ", ".join(f"{key} = {shown_value(key, value)}" for key, value in entry.items())


def entries(data: bytes, name: str) -> list[Any]:
    """The entries of a list; none where the file is no TOML."""
    return [] if syntax_fault(data) else Rules(data).entries(name)


def place_of(data: bytes, name: str, number: int) -> str:
    """The line and the column of an entry, as far as they are known."""
    remark = Rules(data).remark((name, number - 1), "")
    return "" if remark.line is None else f"{remark.line}:{remark.column}"


def covers(wide: Entry, narrow: Entry) -> bool:
    """Whether an entry matches each device that the other matches."""
    return all(key in narrow and narrow[key] == value for key, value in wide.items())


def hints(data: bytes) -> list[Remark]:
    """What is legal in a right rule file and yet odd, in the order of the file."""
    rules = Rules(data)
    found = list(allow_hints(rules))
    for name in LISTS:
        for place, entry in enumerate(rules.entries(name)):
            found += entry_hints(rules, name, place, entry)
    return sorted(found, key=lambda it: (it.line or 0, it.column or 0))


def entry_hints(rules: Rules, name: str, place: int, entry: Entry) -> Iterator[Remark]:
    """What is odd about one entry."""
    front, path = f"{name} entry {place + 1}", (name, place)
    for before, other in enumerate(rules.entries(name)[:place]):
        if covers(other, entry):
            same = "is the same as" if other == entry else "is covered by"
            yield rules.remark(path, f"{front} {same} {name} entry {before + 1} ({line_of(rules, name, before)}): it never decides")
            break
    if name == "allow":
        for number, other in enumerate(rules.entries("deny")):
            if covers(other, entry):
                yield rules.remark(path, f"{front} has no effect: deny entry {number + 1} ({line_of(rules, 'deny', number)}) refuses "
                                         "each device that it matches")
                break
    if "product" in entry and "vendor" not in entry:
        yield rules.remark(path + ("product",), f"{front} names a product without its vendor: every vendor has numbers of its own, so "
                                                "it matches other devices too")
    if entry.get("class") == HUB:
        yield rules.remark(path + ("class",), f"{front} never decides: F02 refuses hubs (class 9) before the lists are judged")
    elif entry.get("plug") == "token" and entry.get("class", SMART_CARD) != SMART_CARD:
        yield rules.remark(path + ("class",), f"{front} never decides: at the token plug F04 refuses each interface but smart card "
                                              "(class 11) before the lists are judged")
    elif name == "deny" and entry.get("class") == HID and entry.get("plug") != "token" and not entry.keys() & {"vendor", "product"}:
        plugs = f"{entry['plug']}" if "plug" in entry else "keyboard and mouse"
        yield rules.remark(path + ("class",), f"{front} refuses every {plugs}: each has a HID interface (class 3)")
    if name == "deny" and entry.keys() == {"plug"}:
        yield rules.remark(path, f"{front} refuses every {entry['plug']}")


def allow_hints(rules: Rules) -> Iterator[Remark]:
    """What is odd about the allow list as a whole."""
    allow = rules.entries("allow")
    if not allow:
        if "allow" in rules.root:
            yield rules.remark(("allow",), "the allow list has no entry, and so it refuses nothing")
        return
    for plug in PLUGS:
        if not any(entry.get("plug", plug) == plug for entry in allow):
            yield rules.remark(("allow",), f"no allow entry can match a {plug}: A00 refuses every {plug}")


def line_of(rules: Rules, name: str, place: int) -> str:
    remark = rules.remark((name, place), "")
    return "its place is unknown" if remark.line is None else f"line {remark.line}"
