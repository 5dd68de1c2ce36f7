"""Descriptors rebuilt from what `lsusb -v` prints of one device.

lsusb tells each field of a descriptor by its name, whose first letters say its size, and tells the length: where the
fields don't come to the length, the text is too little, and nothing is guessed.
"""
from __future__ import annotations

import re
from dataclasses import dataclass, field

BLOCK = re.compile(r"\s*(?P<name>Interface Association|[A-Z][\w ]*(?= Descriptor:))(?: Descriptor)?:\s*$")
REPORT = re.compile(r"\s*Report Descriptor: \(length is (?P<length>\d+)\)")
ITEM = re.compile(r"\s*Item\((?P<type>\w+)\s*\): (?P<name>.+?), data= ?(?:\[ (?P<data>(?:0x[0-9a-f]+ )+)\]|none)")
FIELD = re.compile(r"\s+(?P<name>(?:bcd|bm|id|dw|b|w|i)[A-Z0-9]\w*|MaxPower)\s+(?P<value>\S+)")
UNKNOWN = re.compile(r"\s*\*\* UNRECOGNIZED:\s+(?P<bytes>(?:[0-9a-f]{2}\s*)+)$")
SIZES = {"bcd": 2, "id": 2, "bm": 1, "dw": 4, "b": 1, "w": 2, "i": 1}

MAIN = {"Input": 0x8, "Output": 0x9, "Collection": 0xA, "Feature": 0xB, "End Collection": 0xC}
GLOBAL = ("Usage Page", "Logical Minimum", "Logical Maximum", "Physical Minimum", "Physical Maximum", "Unit Exponent", "Unit",
          "Report Size", "Report ID", "Report Count", "Push", "Pop")
LOCAL = ("Usage", "Usage Minimum", "Usage Maximum", "Designator Index", "Designator Minimum", "Designator Maximum", None,
         "String Index", "String Minimum", "String Maximum", "Delimiter")
PREFIXES = ({("Main", name): tag << 4 for name, tag in MAIN.items()}
            | {("Global", name): place << 4 | 0x4 for place, name in enumerate(GLOBAL)}
            | {("Local", name): place << 4 | 0x8 for place, name in enumerate(LOCAL) if name})
SIZE_CODES = {0: 0, 1: 1, 2: 2, 4: 3}


class Unclear(Exception):
    """Why the bytes can't be rebuilt from the text, and the number of the line."""

    def __init__(self, line: int, why: str) -> None:
        super().__init__(why)
        self.line = line


@dataclass
class Found:
    """What the text tells of one device."""

    device: bytes = b""
    configurations: bytes = b""
    reports: dict[int, bytes] = field(default_factory=dict)


@dataclass
class Open:
    """A descriptor whose fields are being read."""

    line: int
    name: str
    fields: bytearray = field(default_factory=bytearray)


def is_lsusb(text: str) -> bool:
    return "Device Descriptor:" in text and "bLength" in text


def read(text: str) -> Found:
    """Rebuilds what the text tells. It must tell of one device."""
    reader = Reader()
    for number, line in enumerate(text.splitlines(), 1):
        reader.take(number, line)
    reader.close()
    return reader.found


class Reader:
    """Reads the text line by line."""

    def __init__(self) -> None:
        self.found = Found()
        self.open: Open | None = None
        self.interface = 0
        self.report: tuple[int, int, bytearray] | None = None
        #: behind the configurations: the status, and descriptors that no configuration has
        self.past = False

    def take(self, number: int, line: str) -> None:
        block, report = BLOCK.match(line), REPORT.match(line)
        if report:
            self.close()
            self.report = (number, int(report["length"]), bytearray())
        elif block:
            self.begin(number, block["name"].strip())
        elif line.startswith("Device Status") or line.startswith("Device Qualifier"):
            self.close()
            self.past = True
        elif self.report:
            self.take_item(number, line)
        elif unknown := UNKNOWN.match(line):
            self.close()
            self.keep(number, bytes.fromhex(unknown["bytes"]))
        elif self.open:
            self.take_field(number, line)

    def begin(self, number: int, name: str) -> None:
        self.close()
        if name == "Device" and self.found.device:
            raise Unclear(number, "a second device; choose one with lsusb -v -s BUS:DEVICE or -d VENDOR:PRODUCT")
        self.past = self.past or name in ("Binary Object Store", "Device Qualifier")
        self.open = None if self.past else Open(number, name)

    def take_field(self, number: int, line: str) -> None:
        form = FIELD.match(line)
        if not form or not self.open:
            return
        size = 1 if form["name"] == "MaxPower" else next(size for front, size in SIZES.items() if form["name"].startswith(front))
        try:
            value = number_of(form["name"], form["value"])
            self.open.fields += value.to_bytes(size, "little")
        except (ValueError, OverflowError):
            raise Unclear(number, f"'{line.strip()}' isn't a field as lsusb prints it") from None

    def take_item(self, number: int, line: str) -> None:
        item = ITEM.match(line)
        if not item or not self.report:
            return
        prefix = PREFIXES.get((item["type"], item["name"]))
        data = bytes(int(byte, 16) for byte in (item["data"] or "").split())
        if prefix is None or len(data) not in SIZE_CODES:
            raise Unclear(number, f"'{line.strip()}' isn't an item that can be rebuilt")
        self.report[2].append(prefix | SIZE_CODES[len(data)])
        self.report[2].extend(data)

    def close(self) -> None:
        """Ends what is being read."""
        if self.report:
            line, length, data = self.report
            if len(data) != length:
                raise Unclear(line, f"the items of the report descriptor come to {len(data)} bytes, not to {length}")
            self.found.reports[self.interface] = bytes(data)
            self.report = None
        if self.open:
            line, data = self.open.line, bytes(self.open.fields)
            if not data or len(data) != data[0]:
                raise Unclear(line, f"the fields of '{self.open.name}' come to {len(data)} bytes, not to "
                                    f"{data[0] if data else 'its length'}")
            self.open = None
            self.keep(line, data)

    def keep(self, line: int, data: bytes) -> None:
        """Keeps a descriptor."""
        if self.past:
            return
        if not self.found.device:
            self.found.device = data
            return
        if len(data) >= 3 and data[1] == 4:
            self.interface = data[2]
        self.found.configurations += data


def number_of(name: str, word: str) -> int:
    """The value of a field as lsusb prints it."""
    if name == "MaxPower":
        return int(word.removesuffix("mA")) // 2
    if name.startswith("bcd"):
        high, _, low = word.partition(".")
        return int(high, 16) << 8 | int(low, 16)
    return int(word, 0)
