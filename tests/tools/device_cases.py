"""Cases of the descriptors that the tools read: the forms of files, and the session of a device."""
import shutil

from harness import DEVICES, TOP, Wrong, has, room, run, same, tool
from kvm_tools import descriptors, enumeration, fixed_rules, lsusb
from kvm_tools.capture import Plug

FORMS = TOP / "tests" / "devices"
KEYBOARD = DEVICES / "keyboard-with-media-keys.hex"
KEYS, MEDIA = DEVICES / "keyboard-report.hex", DEVICES / "media-keys-report.hex"

#: An enumeration as bytes, by docs/FORMATS.md: a keyboard of one interface, attached and answering at tick 0.
SESSION = """
4b56433102000000
00000000 20 01 0000
00000000 22 01 1b00 01000000 01000000 00 12010002000000083c411321000100000001
00000000 22 01 0900 01000000 02000000 00
00000000 22 01 1200 01000000 03000000 00 09022200010100a032
00000000 22 01 2b00 01000000 04000000 00 09022200010100a032 090400000103010100 092111010001224000 0705810308000a
00000000 22 01 0900 01000000 05000000 00
00000000 22 01 4900 01000000 06000000 00 05010906a101050719e029e7150025017501950881029501750881019505750105081901290591029501750391
01950675081500 26a4000507190029a48100c0
"""


def data_of(path):
    return descriptors.read_bytes(str(path))


def lines_of(*words):
    """The lines that kvc prints of a device."""
    done = tool("kvc", "device", "keyboard", *words)
    same(f"the status of {words}", (done.status, done.err), (0, ""))
    return done.text


def try_a_session_has_the_documented_bytes():
    lines = lines_of(DEVICES / "keyboard.hex", "--report", KEYS)
    made = tool("kvc", "make", "--ports", "2", stdin=lines.encode())
    same("the bytes", made.out.hex(), bytes.fromhex(SESSION.replace("\n", " ")).hex())
    device = descriptors.read_device([str(DEVICES / "keyboard.hex")])
    descriptors.add_report(device, str(KEYS))
    records, missing = enumeration.enumeration(device, Plug.KEYBOARD, 0, 1)
    inputs = enumeration.session([enumeration.attach(0, Plug.KEYBOARD), *records])
    same("the capture of the session", inputs["capture.kvc"].hex(), made.out.hex())
    same("its script", inputs["buttons.txt"], b"0 check 1 pass\n0 check 2 pass\n0 check 3 pass\n0 check 4 pass\n")
    same("what is missing", missing, [])


def try_all_forms_give_the_same_device():
    wanted = lines_of(KEYBOARD, "--report", KEYS, "--report", MEDIA)
    device, configuration = data_of(KEYBOARD)[:18], data_of(KEYBOARD)[18:]
    with room() as folder:
        (folder / "descriptors").write_bytes(device + configuration)
        (folder / "device").write_bytes(device)
        (folder / "configuration").write_bytes(configuration)
        (folder / "keys").write_bytes(data_of(KEYS))
        (folder / "media").write_bytes(data_of(MEDIA))
        (folder / "array.h").write_text("{" + ", ".join(f"0x{byte:02X}" for byte in device + configuration) + "}; // all\n")
        (folder / "plain").write_text((device + configuration).hex() + "\n")
        (folder / "xxd").write_text(dump(device + configuration, 2, "{:08x}: {:<39}  {}\n"))
        (folder / "hexdump").write_text(dump(device + configuration, 1, "{:08x}  {:<49}  |{}|\n") + f"{len(device + configuration):08x}\n")
        reports = ["--report", folder / "keys", "--report", folder / "media"]
        for name in ("descriptors", "array.h", "plain", "xxd", "hexdump"):
            same(name, lines_of(folder / name, *reports), wanted)
        same("two files", lines_of(folder / "device", folder / "configuration", *reports), wanted)
        same("named interfaces", lines_of(KEYBOARD, "--report", f"1={MEDIA}", "--report", f"0={KEYS}"), wanted)
        same("usbhid-dump", lines_of(KEYBOARD, "--report", FORMS / "usbhid-dump.txt"), wanted)
        same("lsusb, with the report that it lacks", lines_of(FORMS / "lsusb.txt", "--report", KEYS), wanted)
        same("lsusb and usbhid-dump", lines_of(FORMS / "lsusb.txt", "--report", FORMS / "usbhid-dump.txt"), wanted)
        same("sysfs", lines_of(sysfs(folder, device + configuration)), wanted)
        same("xxd itself", lines_of(made_by(["xxd"], folder), *reports), wanted)
        same("hexdump itself", lines_of(made_by(["hexdump", "-C"], folder), *reports), wanted)
        same("od itself", lines_of(made_by(["od", "-An", "-tx1", "-v"], folder), *reports), wanted)


def dump(data, group, form):
    """What xxd and hexdump -C print, which puts two blanks behind the eighth byte."""
    lines = []
    for at in range(0, len(data), 16):
        row = data[at:at + 16]
        words = [row[it:it + group].hex() for it in range(0, len(row), group)]
        if group == 1:
            words.insert(8, "")
        lines.append(form.format(at, " ".join(words), "".join(chr(byte) if 0x20 <= byte < 0x7F else "." for byte in row)))
    return "".join(lines)


def made_by(words, folder):
    """What a command prints of the descriptors; a plain dump where the system lacks it."""
    to = folder / f"by-{words[0]}"
    if shutil.which(words[0]):
        to.write_bytes(run([*words, folder / "descriptors"]).out)
    else:
        to.write_bytes((folder / "plain").read_bytes())
    return to


def sysfs(folder, data):
    """A device's folder as the system has it."""
    device = folder / "1-2"
    for number, report in enumerate((KEYS, MEDIA)):
        below = device / f"1-2:1.{number}" / f"0003:03F0:0024.000{number + 1}"
        below.mkdir(parents=True)
        (below / "report_descriptor").write_bytes(data_of(report))
    (device / "descriptors").write_bytes(data)
    return device


def try_what_cannot_be_read_is_named():
    with room() as folder:
        (folder / "letters").write_text("12 01\n0g\n")
        (folder / "short").write_text("12\n")
        (folder / "configuration").write_bytes(data_of(KEYBOARD)[18:])
        (folder / "lsusb").write_text((FORMS / "lsusb.txt").read_text().replace("  bNumConfigurations      1\n", ""))
        (folder / "two").write_text((FORMS / "lsusb.txt").read_text() * 2)
        (folder / "dump").write_text("001:003:000:DESCRIPTOR         1.1\n 05 0\n")
        (folder / "dumps").write_text("001:003:000:DESCRIPTOR         1.1\n 05\n001:004:000:DESCRIPTOR         1.1\n 05\n")
        for words, wanted in (
                ([folder / "letters"], "letters:2: '0g' isn't bytes in hexadecimal"),
                ([folder / "short"], "short: 1 bytes, and a device descriptor has 18"),
                ([folder / "configuration"], "configuration: begins with a configuration; the device descriptor is missing"),
                ([folder / "lsusb"], "lsusb:3: the fields of 'Device' come to 17 bytes, not to 18; 'descriptors' in"),
                ([folder / "two"], "a second device; choose one with lsusb -v"),
                ([KEYBOARD], "interface 0 has a report descriptor that isn't given; --report 0=FILE gives it"),
                ([KEYBOARD, "--report", folder / "dump"], "dump:2: '05 0' isn't bytes in hexadecimal"),
                ([KEYBOARD, "--report", folder / "dumps"], "dumps:3: a second device"),
                ([KEYBOARD, *["--report", KEYS] * 3], "no interface is left for this report descriptor"),
                ([folder / "nowhere"], "nowhere: No such file or directory"),
                ([folder], "descriptors: there is no such file; a device's folder of sysfs"),
                ([KEYBOARD] * 3, "one file or two")):
            done = tool("kvc", "device", "keyboard", *words)
            same(f"{words}", (done.status, done.out), (2, b""))
            has(f"{words}", done.err, wanted)


def try_further_configurations_are_told():
    with room() as folder:
        data = data_of(KEYBOARD)
        (folder / "two").write_bytes(data + data[18:])
        (folder / "more").write_bytes(data + b"\1\7")
        for name, wanted in (("two", "has further configurations; the switch asks for the first one alone"),
                             ("more", "2 bytes stand behind the configuration, which says that it has 59")):
            done = tool("kvc", "device", "keyboard", folder / name, "--report", KEYS, "--report", MEDIA)
            same(name, (done.status, done.text), (0, lines_of(KEYBOARD, "--report", KEYS, "--report", MEDIA)))
            has(name, done.err, wanted)


def try_an_item_of_each_name_is_rebuilt():
    """lsusb's names of items lead back to their prefixes: of each name one, with each size of data that it may have."""
    tried = 0
    for (kind, name), prefix in lsusb.PREFIXES.items():
        for size, code in ((0, 0), (1, 1), (2, 2), (4, 3)):
            data = bytes(range(1, size + 1))
            shown = f"[ {''.join(f'0x{byte:02x} ' for byte in data)}] 1" if size else "none"
            text = (FORMS / "lsusb.txt").read_text()
            front, rest = text.split("          Report Descriptor: (length is 25)\n")
            items = f"          Report Descriptor: (length is {1 + size})\n            Item({kind:<6}): {name}, data={' ' * bool(size)}{shown}\n"
            found = lsusb.read(front + items + "      Endpoint Descriptor:" + rest.split("      Endpoint Descriptor:", 1)[1])
            same(f"{kind} {name}", found.reports[1], bytes([prefix | code]) + data)
            tried += 1
    if tried != 4 * 27:
        raise Wrong(f"{tried} items were tried")


def try_the_rules_are_in_the_words_of_the_page():
    page = (TOP / "docs" / "RULES.md").read_text()
    rows = [row.strip("| ").split(" | ") for row in page.split("\n") if row.startswith("| F")]
    wanted = {front.split(" ", 1)[0]: fixed_rules.Rule(front.split(" ", 1)[1], refuses, protects) for front, refuses, protects in rows}
    same("the fixed rules", fixed_rules.FIXED, wanted)
    has("the page", page, "A00 says that there is an allow list and the device isn't on it")
