"""What a setup packet asks for, in words: USB 2.0 chapter 9 and the class requests of HID 1.11."""
from __future__ import annotations

STANDARD = {
    (0x00, 0): "GET_STATUS", (0x00, 1): "CLEAR_FEATURE", (0x00, 3): "SET_FEATURE", (0x00, 5): "SET_ADDRESS",
    (0x00, 6): "GET_DESCRIPTOR", (0x00, 7): "SET_DESCRIPTOR", (0x00, 8): "GET_CONFIGURATION", (0x00, 9): "SET_CONFIGURATION",
    (0x00, 10): "GET_INTERFACE", (0x00, 11): "SET_INTERFACE", (0x00, 12): "SYNCH_FRAME",
    (0x20, 1): "GET_REPORT", (0x20, 2): "GET_IDLE", (0x20, 3): "GET_PROTOCOL",
    (0x20, 9): "SET_REPORT", (0x20, 10): "SET_IDLE", (0x20, 11): "SET_PROTOCOL",
}
DESCRIPTORS = {1: "device", 2: "configuration", 3: "string", 4: "interface", 5: "endpoint", 6: "device qualifier",
               0x21: "HID", 0x22: "report descriptor"}
TYPES = {0x00: "standard", 0x20: "class", 0x40: "vendor", 0x60: "reserved"}


def explain_setup(setup: bytes) -> str:
    """A setup packet's eight bytes in words."""
    kind, request = setup[0], setup[1]
    value, index, length = (int.from_bytes(setup[at:at + 2], "little") for at in (2, 4, 6))
    name = STANDARD.get((kind & 0x60, request), f"{TYPES[kind & 0x60]} request {request:02x}")
    parts = [name]
    if name == "GET_DESCRIPTOR":
        parts.append(DESCRIPTORS.get(value >> 8, f"kind {value >> 8:02x}"))
        parts += [str(value & 0xFF)] if value & 0xFF else []
    elif name in ("SET_ADDRESS", "SET_CONFIGURATION"):
        parts.append(str(value))
    elif value:
        parts.append(f"value {value:04x}")
    if kind & 0x1F == 1:
        parts.append(f"interface {index & 0xFF}")
    elif kind & 0x1F == 2:
        parts.append(f"endpoint {index & 0xFF:02x}")
    if length:
        parts.append(f"{'at most ' if kind & 0x80 else ''}{length} bytes")
    return " ".join(parts[:2]) + "".join(f", {part}" for part in parts[2:])
