"""Cases of tools/judge: the verdicts are the program's."""
import stat

from harness import DEVICES, TOP, has, program, room, run, same, tool

EXAMPLE = TOP / "examples" / "rules" / "rules.toml"
KEYBOARD, KEYS = DEVICES / "keyboard.hex", DEVICES / "keyboard-report.hex"
MOUSE, MOTION = DEVICES / "mouse.hex", DEVICES / "mouse-report.hex"
TOKEN = DEVICES / "token.hex"
MEDIA = [DEVICES / "keyboard-with-media-keys.hex", "--report", KEYS, "--report", DEVICES / "media-keys-report.hex"]

#: The words, the status, and the lines that begin a paragraph with the step that judged.
VERDICTS = [
    (["keyboard", KEYBOARD, "--report", KEYS], 0, ["interface 0: accepted", "accepted"]),
    (["mouse", MOUSE, "--report", MOTION], 0, ["interface 0: accepted", "accepted"]),
    (["keyboard", *MEDIA], 0, [
        "interface 0: accepted", "interface 1: refused by F07 no usable field",
        "    judged at step 7: the report descriptor of interface 1", "accepted"]),
    (["keyboard", DEVICES / "hub.hex"], 1, ["refused by F02 hub", "    judged at step 1: the device descriptor"]),
    (["keyboard", DEVICES / "keyboard-with-drive.hex", "--report", KEYS], 0, [
        "interface 1: refused by F04 no interface for the connector", "    judged at step 4: the configuration",
        "interface 0: accepted", "accepted"]),
    (["keyboard", DEVICES / "keyboard-with-drive.hex", "--report", KEYS, "--rules", EXAMPLE], 1, [
        "refused by D03: deny entry 3 matches the device", f"    {EXAMPLE}:17:1: class = 8", "    judged at step 4: the configuration"]),
    (["keyboard", KEYBOARD, "--report", KEYS, "--rules", EXAMPLE], 0, ["interface 0: accepted", "accepted"]),
    (["mouse", DEVICES / "tablet.hex", "--report", DEVICES / "tablet-report.hex"], 1, [
        "interface 0: refused by F10 absolute pointer", "    judged at step 6: the report descriptor of interface 0",
        "refused by F10 absolute pointer: none of its interfaces is accepted"]),
    (["mouse", DEVICES / "tablet.hex", "--report", DEVICES / "tablet-report.hex", "--rules", EXAMPLE], 1, [
        "refused by A00: there is an allow list and the device isn't on it",
        f"    {EXAMPLE}: it has 4 entries, and none matches", "    judged at step 4: the configuration"]),
    (["mouse", KEYBOARD, "--report", KEYS], 1, [
        "interface 0: refused by F07 no usable field", "    judged at step 6: the report descriptor of interface 0",
        "refused by F07 no usable field: none of its interfaces is accepted"]),
    (["token", TOKEN], 0, ["accepted"]),
    (["token", TOKEN, "--rules", EXAMPLE], 0, ["accepted"]),
    (["token", KEYBOARD], 1, ["refused by F04 no interface for the connector", "    judged at step 4: the configuration"]),
    (["keyboard", TOKEN], 1, ["refused by F04 no interface for the connector", "    judged at step 4: the configuration"]),
]


def paragraph_lines(text):
    """What a verdict says, without the words of the rules, which are those of docs/RULES.md."""
    return [line for line in text.splitlines() if not line.startswith(("    refuses: ", "    protects from: "))]


def judged(*words, **options):
    return tool("judge", *words, "--program", program(), **options)


def try_verdicts():
    for words, status, lines in VERDICTS:
        done = judged(*words)
        same(f"{words}", (done.status, done.err, paragraph_lines(done.text)), (status, "", lines))


def try_malformed_devices():
    """What a device says of itself is handed on as it is, however wrong."""
    data = bytes.fromhex("".join(line.split("#")[0] for line in KEYBOARD.read_text().splitlines()))
    device, configuration = data[:18], data[18:]
    cases = [
        ("a short device descriptor", device[:17], configuration, "F01", 1),
        ("a device descriptor of another kind", device[:1] + b"\2" + device[2:], configuration, "F01", 1),
        ("a packet size of 9", device[:7] + b"\x09" + device[8:], configuration, "F03", 1),
        ("a cut configuration", device, configuration[:-1], "F01", 4),
        ("no configuration", device, b"\0", "F01", 3),
        ("a total of 1025", device, configuration[:2] + b"\x01\x04" + configuration[4:], "F03", 3),
        ("no HID interface", device, configuration[:14] + b"\x08" + configuration[15:], "F04", 4),
    ]
    with room() as folder:
        for name, front, rest, rule, step in cases:
            (folder / "device").write_bytes(front)
            (folder / "configuration").write_bytes(rest)
            done = judged("keyboard", folder / "device", folder / "configuration", "--report", f"0={KEYS}")
            same(name, (done.status, done.text.split()[:3]), (1, ["refused", "by", rule]))
            has(name, done.text, f"    judged at step {step}: ")
        (folder / "device").write_bytes(device)
        (folder / "configuration").write_bytes(configuration)
        (folder / "report").write_bytes(bytes.fromhex("05010906a1"))
        done = judged("keyboard", folder / "device", folder / "configuration", "--report", folder / "report")
        same("a cut report descriptor", (done.status, paragraph_lines(done.text)), (1, [
            "interface 0: refused by F05 malformed report descriptor", "    judged at step 6: the report descriptor of interface 0",
            "refused by F05 malformed report descriptor: none of its interfaces is accepted"]))


def try_reports_that_are_not_asked_for():
    """An interface whose HID descriptor has no report descriptor, or one that is too long, is refused without a question."""
    text = MEDIA[0].read_text()
    first, second = "09 21 11 01 00 01 22 40 00", "09 21 11 01 00 01 22 19 00"
    with room() as folder:
        device = folder / "device.hex"
        for hid, name in (("09 21 11 01 00 01 23 19 00", "F05 malformed report descriptor"),
                          ("09 21 11 01 00 01 22 01 04", "F06 report limits")):
            device.write_text(text.replace(second, hid))
            done = judged("keyboard", device, "--report", KEYS)
            same(hid, (done.status, paragraph_lines(done.text)), (0, [
                "interface 0: accepted", f"interface 1: refused by {name}",
                "    judged at step 6 and on: its report descriptor isn't asked for", "accepted"]))
            device.write_text(text.replace(second, hid).replace(first, hid))
            done = judged("keyboard", device)
            same(f"{hid} twice", (done.status, paragraph_lines(done.text)), (1, [
                f"interface 0: refused by {name}", "    judged at step 6 and on: its report descriptor isn't asked for",
                f"interface 1: refused by {name}", "    judged at step 6 and on: its report descriptor isn't asked for",
                f"refused by {name}: none of its interfaces is accepted"]))


def try_a_kept_session_replays():
    with room() as folder:
        done = judged("keyboard", KEYBOARD, "--report", KEYS, "--rules", EXAMPLE, "--keep", folder / "kept")
        same("the status", (done.status, done.err), (0, ""))
        kept = {file.name: file.read_bytes() for file in (folder / "kept").iterdir()}
        same("what is kept", {"capture.kvc", "buttons.txt", "rules.toml", "console.txt", "rules.log"} <= kept.keys(), True)
        same("the rules", kept["rules.toml"], EXAMPLE.read_bytes())
        again = run([program(), "replay"], cwd=folder / "kept")
        same("the replay", (again.status, again.err), (0, ""))
        same("what it writes", {name: (folder / "kept" / name).read_bytes() for name in kept}, kept)
        has("the log", kept["rules.log"].decode(), "6 KEYBOARD ACCEPTED\n")
        made = tool("kvc", "show", folder / "kept" / "capture.kvc").text
        has("the session", made, "KVC1 PORTS 2\n0 KEYBOARD ATTACH\n1 KEYBOARD REPLY 1 1 0 ")
        taken = judged("keyboard", KEYBOARD, "--report", KEYS, "--keep", folder / "kept")
        same("a folder that is there", (taken.status, taken.out), (2, b""))
        has("a folder that is there", taken.err, "kept: is there already; --keep makes a folder anew")


def try_trouble_is_no_verdict():
    with room() as folder:
        (folder / "rules.toml").write_text("allow = 3\n")
        (folder / "program").write_text("#!/bin/sh\ncase $0 in *) echo out of memory >&2; exit 8;; esac\n")
        (folder / "program").chmod(stat.S_IRWXU)
        device = ["keyboard", KEYBOARD]
        for words, wanted in (
                ([*device], "the switch asks for GET_DESCRIPTOR report descriptor, interface 0, at most 64 bytes, which isn't given; "
                            "--report 0=FILE gives it"),
                ([*device, "--report", KEYS, "--rules", folder / "rules.toml"], "rules.toml: the rules are refused (rules shape root 0)"),
                ([*device, "--report", KEYS, "--rules", folder / "none"], "none: No such file or directory"),
                (["keyboard", folder / "none"], "none: No such file or directory"),
                (["keybord", KEYBOARD], "invalid choice: 'keybord'")):
            done = judged(*words)
            same(f"{words}", (done.status, done.out), (2, b""))
            has(f"{words}", done.err, wanted)
        for path, wanted in ((folder / "program", "program: out of memory"), (folder / "none", "none: no program is there"),
                             ("/bin/true", "/true: has no verdict after 0 answers, and asks nothing more")):
            done = tool("judge", *device, "--report", KEYS, env={"KVM": str(path)})
            same(f"{path}", (done.status, done.out), (2, b""))
            has(f"{path}", done.err, wanted)
