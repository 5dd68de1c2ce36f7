"""A device's descriptors from the files in which people have them: bytes, hexadecimal text, and what lsusb, sysfs and
usbhid-dump give."""
from __future__ import annotations

import pathlib
import re
from dataclasses import dataclass, field

from kvm_tools import lsusb
from kvm_tools.command import Trouble, read_file, reason

DEVICE_SIZE = 18
DEVICE, CONFIGURATION, INTERFACE, HID = 1, 2, 4, 0x21
HID_CLASS = 3
REPORT_ENTRY = 0x22

#: The line with which usbhid-dump begins what it tells of an interface: bus, device, interface, what it is.
HID_DUMP_HEAD = re.compile(r"(?P<bus>\d{3}):(?P<device>\d{3}):(?P<interface>\d{3}):(?P<what>DESCRIPTOR|STREAM)\b")
#: A line of xxd, and one of hexdump -C: the offset, the bytes, and the column of characters.
XXD_LINE = re.compile(r"(?P<at>[0-9a-fA-F]{8}): (?P<bytes>.*?)(?:  .*)?")
HEXDUMP_LINE = re.compile(r"(?P<at>[0-9a-fA-F]{8})  (?P<bytes>[^|]*)(?:\|.*)?")
HEXDUMP_END = re.compile(r"[0-9a-fA-F]{8}")
HEXADECIMAL = re.compile(r"(?:[0-9a-fA-F]{2})+")


@dataclass
class Device:
    """What a device has to tell: the device descriptor, its first configuration, and report descriptors by interface."""

    device: bytes
    configuration: bytes
    reports: dict[int, bytes] = field(default_factory=dict)
    #: what its user should know
    notes: list[str] = field(default_factory=list)

    def answer(self, setup: bytes) -> bytes | None:
        """The bytes with which it answers a request, or nothing where it has no answer to it."""
        kind, request = setup[0], setup[1]
        value, index, length = (int.from_bytes(setup[at:at + 2], "little") for at in (2, 4, 6))
        if (kind, request) in ((0x00, 5), (0x00, 9)):
            return b""
        if request != 6:
            return None
        if kind == 0x80 and value == DEVICE << 8:
            return self.device[:length]
        if kind == 0x80 and value == CONFIGURATION << 8:
            return self.configuration[:length]
        if kind == 0x81 and value == REPORT_ENTRY << 8 and (index in self.reports or not length):
            return self.reports.get(index, b"")[:length]
        return None


def is_text(data: bytes) -> bool:
    """Whether a file holds text: descriptors as bytes have zeros or other bytes that no text has."""
    return all(byte in b"\t\n\r\f" or 0x20 <= byte < 0x7F for byte in data) and bool(data.strip())


def text_of(data: bytes) -> str | None:
    """The text of a file, if it is one. What lsusb prints has the names of vendors in UTF-8."""
    if b"\0" in data:
        return None
    try:
        text = data.decode("utf-8")
    except UnicodeDecodeError:
        return None
    return text if is_text(data) or lsusb.is_lsusb(text) else None


def read_hexadecimal(path: str, text: str) -> bytes:
    """The bytes of a text: pairs of digits with or without blanks, `0x` and commas, lines of xxd and hexdump -C, comments."""
    data, dumped = bytearray(), False
    for number, line in enumerate(text.splitlines(), 1):
        line = re.split(r"#|//|/\*", line, maxsplit=1)[0].rstrip()
        dump = XXD_LINE.fullmatch(line) or HEXDUMP_LINE.fullmatch(line)
        if dump and int(dump["at"], 16) == len(data):
            line, dumped = dump["bytes"], True
        elif dumped and HEXDUMP_END.fullmatch(line) and int(line, 16) == len(data):
            break  # the last line of hexdump -C is the length alone
        for word in re.split(r"[\s,;{}]+", line):
            digits = word[2:] if word.lower().startswith("0x") else word
            if digits and not HEXADECIMAL.fullmatch(digits):
                raise Trouble(f"{path}:{number}: '{word}' isn't bytes in hexadecimal")
            data += bytes.fromhex(digits)
    return bytes(data)


def read_hid_dump(path: str, text: str) -> dict[int, bytes]:
    """The report descriptors that usbhid-dump tells, by interface."""
    reports: dict[int, bytes] = {}
    device, interface = None, None
    for number, line in enumerate(text.splitlines(), 1):
        head = HID_DUMP_HEAD.match(line)
        if head:
            interface = int(head["interface"]) if head["what"] == "DESCRIPTOR" else None
            if device not in (None, (head["bus"], head["device"])):
                raise Trouble(f"{path}:{number}: a second device; choose one with usbhid-dump -a BUS:DEVICE")
            device = (head["bus"], head["device"])
            if interface is not None:
                reports[interface] = b""
        elif interface is not None:
            try:
                reports[interface] += bytes.fromhex(line)
            except ValueError:
                raise Trouble(f"{path}:{number}: '{line.strip()}' isn't bytes in hexadecimal") from None
    return reports


def read_bytes(path: str) -> bytes:
    """The bytes that a file gives, itself or in hexadecimal."""
    data = read_file(path)
    text = text_of(data)
    return data if text is None else read_hexadecimal(path, text)


def read_device(paths: list[str]) -> Device:
    """A device from a folder of sysfs, from what lsusb prints, or from its descriptors in one file or two."""
    if len(paths) == 1 and pathlib.Path(paths[0]).is_dir():
        return read_sysfs(pathlib.Path(paths[0]))
    if len(paths) == 1:
        data = read_file(paths[0])
        text = text_of(data)
        if text is not None and lsusb.is_lsusb(text):
            return of_lsusb(paths[0], text)
        data = data if text is None else read_hexadecimal(paths[0], text)
        return split(paths[0], data)
    if len(paths) == 2:
        device = Device(read_bytes(paths[0]), b"")
        take_configuration(device, paths[1], read_bytes(paths[1]))
        return device
    raise Trouble("a device's descriptors are one file or two: the device descriptor and the configuration")


def of_lsusb(path: str, text: str) -> Device:
    try:
        found = lsusb.read(text)
    except lsusb.Unclear as unclear:
        raise Trouble(f"{path}:{unclear.line}: {unclear}; 'descriptors' in the device's folder of sysfs has the bytes") from None
    device = Device(found.device, b"", found.reports)
    take_configuration(device, path, found.configurations)
    return device


def split(path: str, data: bytes) -> Device:
    """The device descriptor and the first configuration behind it."""
    if len(data) < 2:
        raise Trouble(f"{path}: {len(data)} bytes, and a device descriptor has {DEVICE_SIZE}")
    if data[1] == CONFIGURATION:
        raise Trouble(f"{path}: begins with a configuration; the device descriptor is missing")
    device = Device(data[:DEVICE_SIZE], b"")
    take_configuration(device, path, data[DEVICE_SIZE:])
    return device


def take_configuration(device: Device, path: str, data: bytes) -> None:
    """Gives a device its first configuration, as long as it says itself."""
    total = int.from_bytes(data[2:4], "little") if len(data) >= 4 and data[1] == CONFIGURATION else len(data)
    device.configuration = data[:total] if total >= 9 else data
    behind = data[len(device.configuration):]
    if len(behind) >= 2 and behind[1] == CONFIGURATION:
        device.notes.append(f"{path}: has further configurations; the switch asks for the first one alone")
    elif behind:
        device.notes.append(f"{path}: {len(behind)} bytes stand behind the configuration, which says that it has {total}; "
                            "they are left out")


def read_sysfs(folder: pathlib.Path) -> Device:
    """A device from its folder of sysfs: `descriptors`, and `report_descriptor` below each interface's folder."""
    path = folder / "descriptors"
    if not path.is_file():
        raise Trouble(f"{path}: there is no such file; a device's folder of sysfs is /sys/bus/usb/devices/BUS-PORT")
    device = split(str(path), read_file(path))
    try:
        found = sorted(folder.glob("*:*/*/report_descriptor"))
    except OSError as error:
        raise Trouble(f"{folder}: {reason(error)}") from None
    for report in found:
        number = report.parent.parent.name.rsplit(".", 1)[-1]
        if number.isdigit():
            device.reports[int(number)] = read_file(report)
    return device


def add_report(device: Device, word: str) -> None:
    """Adds a report descriptor by a word of the command line: FILE, for the first interface that has none yet, N=FILE for
    interface N, or a file of usbhid-dump."""
    front, equals, path = word.partition("=")
    named = bool(equals) and front.isascii() and front.isdigit() and int(front) < 256
    path = path if named else word
    data = read_file(path)
    text = text_of(data)
    if text is not None and HID_DUMP_HEAD.search(text):
        found = read_hid_dump(path, text)
        if not found:
            raise Trouble(f"{path}: no report descriptor is in it")
        device.reports |= {int(front): found[int(front)]} if named and int(front) in found else found
        return
    data = data if text is None else read_hexadecimal(path, text)
    device.reports[int(front) if named else next_interface(device, path)] = data


def next_interface(device: Device, path: str) -> int:
    """The first interface of the HID class that has no report descriptor yet."""
    for interface in hid_interfaces(device.configuration):
        if interface not in device.reports:
            return interface
    raise Trouble(f"{path}: no interface is left for this report descriptor; N={path} gives it to interface N")


def hid_interfaces(configuration: bytes) -> dict[int, int | None]:
    """The interfaces of the HID class with alternate setting 0, in their order, each with the length that its HID descriptor
    gives its report descriptor."""
    found: dict[int, int | None] = {}
    at, present = 0, None
    while at + 2 <= len(configuration):
        length, kind = configuration[at], configuration[at + 1]
        here = configuration[at:at + length]
        if length < 2 or len(here) < length:
            break
        if kind == INTERFACE and length >= 9:
            present = here[2] if here[3] == 0 and here[5] == HID_CLASS else None
            if present is not None:
                found.setdefault(present, None)
        elif kind == HID and length >= 9 and present is not None and found[present] is None:
            if here[6] == REPORT_ENTRY:
                found[present] = int.from_bytes(here[7:9], "little")
            present = None  # the first HID descriptor of an interface alone counts
        at += length
    return found
