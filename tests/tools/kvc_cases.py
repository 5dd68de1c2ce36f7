"""Cases of tools/kvc: captures as text and back, the faults that it names, and the common things from one word."""
import io
import os
import pty
import random

from harness import DEVICES, TOP, TOOLS, Wrong, example_after, has, program, room, run, same, tool
from kvm_tools import capture, capture_text, session_text
from kvm_tools.capture import CaptureFault, Connector, Kind, Record, Side

MADE = 10_000
SPOILT = 3_000
RUN_BY_PROGRAM = 300
CAUSES = {"truncated", "bad-magic", "bad-ports", "tick-back", "bad-kind", "bad-who", "bad-length", "bad-field"}
#: A capture for a tool that doesn't have to read it.
CLOCK = "0000000001000000"


def captures():
    """The captures of the repository."""
    found = sorted(TOP.glob("tests/sessions/*/capture.kvc")) + sorted(TOP.glob("examples/*/capture.kvc"))
    if len(found) < 40:
        raise Wrong(f"only {len(found)} captures were found")
    return found


def fault_of(data):
    """The fault line of a capture, or nothing."""
    try:
        file = io.BytesIO(data)
        for _ in capture.read_records(file, capture.read_header(file)):
            pass
    except CaptureFault as fault:
        return f"{fault}\n"
    return ""


def text_of(data):
    return "".join(f"{line}\n" for line, _ in capture_text.lines_of(io.BytesIO(data)))


def bytes_of(text):
    reader = session_text.Reader("text")
    reader.read(io.BytesIO(text.encode()))
    return bytes(reader.capture)


def made_record(random_one, tick, ports):
    """A record of the format, as it falls."""
    kind = random_one.choice(list(Kind))
    if kind is Kind.CLOCK:
        actor = None
    elif kind.plugs:
        actor = random_one.choice(sorted(kind.plugs, key=lambda it: it.value))
    else:
        actor = Connector(random_one.randint(1, ports), random_one.choice(list(Side)))
    values = tuple(random_one.choice([0, field.most, random_one.randint(0, field.most)]) for field in kind.fields)
    size = random_one.choice([kind.least, kind.most, random_one.randint(kind.least, kind.most)])
    return Record(tick, kind, actor, values, random_one.randbytes(size))


def made_capture(random_one):
    """A right capture, and its records."""
    ports, tick, records = random_one.randint(2, 8), 0, []
    for _ in range(random_one.randint(0, 12)):
        tick = min(capture.TICK_MAX, tick + random_one.choice([0, 0, 1, 5, 2**31]))
        records.append(made_record(random_one, tick, ports))
    return capture.header_bytes(ports) + b"".join(map(capture.record_bytes, records)), records


def spoilt(random_one, data):
    """The bytes of a capture with something wrong, most often."""
    data = bytearray(data)
    for _ in range(random_one.randint(1, 2)):
        at = random_one.randrange(len(data))
        data[at] = random_one.choice([0, 1, 0xFF, data[at] ^ 1 << random_one.randrange(8), random_one.randrange(256)])
    return bytes(data[:random_one.randint(0, len(data))]) if random_one.random() < 0.3 else bytes(data)


def try_show_and_make_give_the_stored_captures_again():
    with room() as folder:
        for file in captures():
            data = file.read_bytes()
            shown = tool("kvc", "show", file)
            (folder / "text").write_bytes(shown.out)
            made = tool("kvc", "make", folder / "text", "-o", folder / "made")
            same(f"make of {file}", (made.status, made.err, made.out), (0, "", b""))
            same(f"what is made of {file}", (folder / "made").read_bytes(), data)
            same(f"the status of show {file}", shown.status, 1 if fault_of(data) else 0)


def try_faults_of_the_stored_captures_are_the_expected_ones():
    tried = 0
    for file in captures():
        expected = file.parent / "expect" / "faults"
        if expected.exists() and expected.read_text().startswith("capture "):
            has(f"show {file}", tool("kvc", "show", file).err, expected.read_text().rstrip("\n"))
            tried += 1
    if tried < 10:
        raise Wrong(f"only {tried} stored captures are faulty")


def try_made_captures_come_back():
    random_one = random.Random(1)
    for number in range(MADE):
        data, records = made_capture(random_one)
        text = text_of(data)
        same(f"capture {number}", bytes_of(text), data)
        same(f"the lines of capture {number}", text.count("\n"), 1 + len(records))
        shown = [record for _, record in capture_text.lines_of(io.BytesIO(data)) if record]
        same(f"the records of capture {number}", shown, records)


def try_spoilt_captures_come_back():
    random_one, causes = random.Random(2), set()
    for number in range(SPOILT):
        data = spoilt(random_one, made_capture(random_one)[0])
        text = text_of(data)
        same(f"capture {number}", bytes_of(text), data)
        fault = fault_of(data)
        if fault:
            causes.add(fault.split()[2])
            has(f"the text of capture {number}", text, f"# {fault.rstrip()}: ")
    same("the causes that came up", causes, CAUSES)


def program_fault(data):
    """The fault line of the program for this capture."""
    with room() as folder:
        (folder / "capture.kvc").write_bytes(data)
        done = run([program(), "replay"], cwd=folder)
    if done.status not in (0, 3):
        raise Wrong(f"the program ended with {done.status}: {done.err}")
    return done.err


def faulty_of_each_kind():
    """For each kind a right record, and one with each head that may be wrong: what the program knows is tried kind by kind."""
    for number in range(0x100):
        for who in (0, 1, 2, 3, 4, 0x40, 0x41, 0x42, 0x43, 0x48, 0x49, 0x80, 0x82, 0x83, 0x88):
            yield capture.pack(1, number, who, bytes(9))
    for kind in Kind:
        for length in {0, kind.front + kind.least, kind.front + kind.least - 1, kind.front + kind.most, kind.front + kind.most + 1}:
            for who in (0, 1, 2, 3, 0x41, 0x82):
                yield capture.pack(1, kind.number, who, bytes(max(0, length)))
        for place in range(kind.front):
            payload = bytearray(kind.front + kind.least)
            payload[place] = 0xFF
            for who in (0, 1, 2, 3, 0x41):
                yield capture.pack(1, kind.number, who, bytes(payload))


def try_faults_are_those_of_the_program():
    random_one, causes = random.Random(3), set()
    heads = [capture.header_bytes(2) + record for record in faulty_of_each_kind()]
    known = [kind.number for kind in Kind]
    some = [data for data in heads if data[12] in known] + random_one.sample(heads, RUN_BY_PROGRAM)
    some += [spoilt(random_one, made_capture(random_one)[0]) for _ in range(RUN_BY_PROGRAM)]
    for data in some:
        fault = fault_of(data)
        causes.add((fault.split() or ["", "", "none"])[2])
        same(f"the fault of {data.hex()}", fault, program_fault(data))
    same("the causes that came up", causes, CAUSES | {"none"})


def try_the_documented_text_is_right():
    text, data, front = example_after("docs/FORMATS.md", "### An example of a text")
    wanted = bytes.fromhex(" ".join(data))
    made = tool("kvc", "make", stdin="\n".join(text).encode())
    same("the bytes", (made.status, made.out), (0, wanted))
    cut = tool("kvc", "show", stdin=wanted[:-2])
    lines = cut.text.splitlines()
    same("the end of the cut text", (cut.status, lines[-2:]), (1, front))
    same("its front", bytes_of("\n".join(lines[:-2])), wanted[:-8])


def try_records_of_the_token():
    text = b"KVC1 PORTS 2\n0 TOKEN ATTACH\n0 TOKEN REPLY 1 1 0 -\n5 TOKEN DONE 1 1 3 0102\n6 TOKEN DETACH\n"
    made = tool("kvc", "make", stdin=text)
    same("make", (made.status, made.err), (0, ""))
    shown = tool("kvc", "show", stdin=made.out)
    same("show", (shown.status, shown.err, shown.out), (0, "", text))
    explained = tool("kvc", "show", "--explain", stdin=made.out)
    has("show --explain", explained.text, "5 TOKEN DONE 1 1 3 0102  # life 1, number 1, not ready, 2 bytes\n")
    report = tool("kvc", "show", stdin=capture.header_bytes(2) + capture.pack(1, Kind.REPORT.number, 3, bytes(1)))
    has("a report of the token", report.err, "capture 8 bad-who: who 03 at kind 23\n")


REFUSED_TEXTS = """
CLOCK | 'CLOCK' isn't a tick (0 to 4294967295, decimal)
01 CLOCK | '01' isn't a tick
4294967296 CLOCK | '4294967296' isn't a tick
1 | nothing stands behind the tick
1 CLOCK 2 | CLOCK has nothing behind it
1 CLOKC | 'CLOKC' isn't CLOCK, PORT, KEYBOARD, MOUSE or TOKEN
1 PORT 9 KM RESET | '9' isn't a port (1 to 8, decimal)
1 PORT 3 KM RESET | port 3, and the header has 2 ports
1 PORT 1 KN RESET | 'KN' isn't KM or UA
1 PORT 1 KM SETUP 0 80060001000040 | SETUP has 8 bytes, and these are 7
1 PORT 1 KM SETUP 128 8006000100004000 | '128' isn't address (0 to 127, decimal)
1 PORT 1 KM OUT 0 16 1 - | '16' isn't endpoint
1 PORT 1 KM OUT 0 0 2 - | '2' isn't toggle
1 PORT 1 KM OUT 0 0 1 | OUT has address, endpoint, toggle, bytes behind it
1 PORT 1 KM IN 0 0 1 - | IN has address, endpoint, acked behind it
1 PORT 1 KM PUT | 'PUT' isn't RESET, SETUP, OUT or IN
1 KEYBOARD DONE 1 1 0 - | 'DONE' stands behind KEYBOARD, not ATTACH, DETACH, REPLY or REPORT
1 TOKEN REPORT 0 - | 'REPORT' stands behind TOKEN, not ATTACH, DETACH, REPLY or DONE
1 KEYBOARD REPLY 1 1 4 - | '4' isn't status
1 KEYBOARD REPORT 0 abc | 'abc' isn't bytes in hexadecimal
1 MOUSE | nothing stands behind MOUSE
1 guard dwon | '1 guard dwon' is no record and no line of the script
1 guard down | a line of the button script; --script FILE says where these go
KVC1 PORTS 2 | the header is already there
BYTES | no bytes stand behind BYTES; none is '-'
"""


def try_faulty_lines_are_named():
    for case in REFUSED_TEXTS.strip().split("\n"):
        line, wanted = case.split(" | ")
        done = tool("kvc", "make", stdin=f"# a text\nKVC1 PORTS 2\n\n{line}\n".encode())
        same(f"{line!r}", (done.status, done.out), (1, b""))
        has(f"{line!r}", done.err, f"kvc: standard input:4: {wanted}")
    for text, wanted in (("5 CLOCK\n4 CLOCK", "3: tick 4 is below 5, that of the record before"),
                         ("BYTES 00", None), ("1 CLOCK\n1 CLOCK", None)):
        done = tool("kvc", "make", stdin=f"KVC1 PORTS 2\n{text}\n".encode())
        same(f"{text!r}", done.status, 1 if wanted else 0)
        has(f"{text!r}", done.err, wanted or "")
    same("no header", tool("kvc", "make", stdin=b"1 CLOCK\n").err,
         "kvc: standard input:1: the header is missing: 'KVC1 PORTS N' at the front, or --ports N\n")
    same("nothing", tool("kvc", "make", stdin=b"").status, 1)
    has("bytes", tool("kvc", "make", stdin=b"\xff\n").err, "standard input:1: isn't text in UTF-8")


def try_sort_puts_lines_in_order():
    with room() as folder:
        text = b"9 CLOCK\n3 1 up\nKVC1 PORTS 2\n# a comment\n4 CLOCK\n2 guard down\n4 PORT 1 KM RESET\n"
        done = tool("kvc", "make", "--sort", "--script", folder / "buttons.txt", stdin=text)
        same("the text", tool("kvc", "show", stdin=done.out).text, "KVC1 PORTS 2\n4 CLOCK\n4 PORT 1 KM RESET\n9 CLOCK\n")
        same("the script", (folder / "buttons.txt").read_text(), "2 guard down\n3 1 up\n")
        port = tool("kvc", "make", "--script", folder / "other", stdin=b"KVC1 PORTS 2\n3 8 up\n")
        has("a port", port.err, "standard input:2: port 8, and the header has 2 ports")
        back = tool("kvc", "make", "--script", folder / "other", stdin=b"KVC1 PORTS 2\n3 1 up\n2 1 up\n")
        has("a tick", back.err, "standard input:3: tick 2 is below 3, that of the script's line before")
        same("nothing was written", (folder / "other").exists(), False)
        raw = tool("kvc", "make", "--sort", stdin=b"KVC1 PORTS 2\nBYTES 00\n")
        has("bytes", raw.err, "standard input:2: bytes have no tick")


def try_words_write_the_common_things():
    same("alive", tool("kvc", "alive").text, "0 check 1 pass\n0 check 2 pass\n0 check 3 pass\n0 check 4 pass\n")
    same("select", tool("kvc", "select", "2", "--at", "50").text, "50 guard down\n50 2 down\n150 CLOCK\n151 2 up\n151 guard up\n")
    same("press", tool("kvc", "press", "shift+a", "enter", "--at", "10", "--hold", "5").text,
         "10 KEYBOARD REPORT 0 0200040000000000\n15 KEYBOARD REPORT 0 0000000000000000\n"
         "20 KEYBOARD REPORT 0 0000280000000000\n25 KEYBOARD REPORT 0 0000000000000000\n")
    same("a chord", tool("kvc", "press", "ctrl+right-alt+Delete", "--interface", "3").text.split("\n")[0],
         "0 KEYBOARD REPORT 3 41004c0000000000")
    same("a usage", tool("kvc", "press", "0x64").text.split("\n")[0], "0 KEYBOARD REPORT 0 0000640000000000")
    names = dict(line.split()[::-1] for line in tool("kvc", "press", "--list").text.splitlines())
    for name, usage in (("a", "0x04"), ("z", "0x1d"), ("1", "0x1e"), ("0", "0x27"), ("enter", "0x28"), ("caps-lock", "0x39"),
                        ("f1", "0x3a"), ("f12", "0x45"), ("print-screen", "0x46"), ("right", "0x4f"), ("up", "0x52"),
                        ("num-lock", "0x53"), ("keypad-slash", "0x54"), ("keypad-1", "0x59"), ("keypad-period", "0x63"),
                        ("iso-backslash", "0x64"), ("menu", "0x65"), ("f13", "0x68"), ("f24", "0x73"), ("left-ctrl", "0xe0"),
                        ("right-gui", "0xe7"), ("gui", "0xe3")):
        same(f"the usage of {name}", names[name], usage)
    for words, wanted in ((["press", "shift+foo"], "'foo' in 'shift+foo' is no key's name"), (["press"], "no key is named"),
                          (["press", "a+b+c+d+e+f+g"], "'a+b+c+d+e+f+g' has 7 keys"), (["select", "9"], "whole number from 1 to 8"),
                          (["select", "1", "--at", "4294967290"], "tick 4294967391 is above 4294967295"), (["show", "nowhere"],
                          "nowhere: No such file or directory"), (["make", "-o", "/nowhere/x", "-"], "/nowhere/x: No such file"),
                          (["show", "/"], "/: Is a directory"), (["sow"], "invalid choice: 'sow'")):
        done = tool("kvc", *words, stdin=b"KVC1 PORTS 2\n")
        same(f"{words}", (done.status, done.out), (2, b""))
        has(f"{words}", done.err, wanted)


def try_explanations_are_comments():
    text = b"KVC1 PORTS 2\n0 KEYBOARD REPLY 1 1 1 -\n1 PORT 1 KM SETUP 0 8006000100004000\n1 PORT 1 KM SETUP 0 2109000200000100\n" \
           b"1 PORT 1 KM SETUP 0 0005070000000000\n1 PORT 1 KM SETUP 0 c0ff000000000000\n2 KEYBOARD REPORT 0 0200040000000000\n"
    data = tool("kvc", "make", stdin=text).out
    shown = tool("kvc", "show", "--explain", stdin=data)
    comments = [line.split("  # ")[1] for line in shown.text.splitlines()[1:]]
    same("the comments", comments, ["life 1, number 1, stalled, 0 bytes", "GET_DESCRIPTOR device, at most 64 bytes",
                                    "SET_REPORT value 0200, interface 0, 1 bytes", "SET_ADDRESS 7", "vendor request ff",
                                    "as a boot keyboard's: left-shift a"])
    same("made again", tool("kvc", "make", stdin=shown.out).out, data)


def try_a_terminal_gets_no_bytes():
    leader, follower = pty.openpty()
    try:
        process = os.fork()
        if process == 0:
            os.dup2(os.open(os.devnull, os.O_RDWR), 0)
            os.dup2(follower, 1)
            os.dup2(os.open(os.devnull, os.O_RDWR), 2)
            os.execv(TOOLS / "kvc", ["kvc", "make"])
        same("the status", os.waitstatus_to_exitcode(os.waitpid(process, 0)[1]), 2)
    finally:
        os.close(leader)
        os.close(follower)


def try_a_reader_may_go_away():
    data = capture.header_bytes(2) + bytes.fromhex(CLOCK) * 100_000
    with room() as folder:
        (folder / "capture.kvc").write_bytes(data)
        done = run(["bash", "-c", f"'{TOOLS}/kvc' show capture.kvc | head -n 1"], cwd=folder)
        same("what is said", (done.text, done.err), ("KVC1 PORTS 2\n", ""))


def try_the_documented_session_types_a_key():
    """The session of docs/FORMATS.md, made by words and replayed: the keyboard is accepted, and the selected computer reads its keys."""
    session = "\n".join(example_after("docs/FORMATS.md", "### Common things from one word")[0])
    with room() as folder:
        (folder / "examples").symlink_to(DEVICES.parent)
        made = run(["bash", "-e", "-o", "pipefail", "-c", session], cwd=folder, env={"PATH": f"{TOOLS}:{os.environ['PATH']}"})
        same("the words", (made.status, made.err), (0, ""))
        ran = run([program(), "replay"], cwd=folder)
        same("the replay", (ran.status, ran.err), (0, ""))
        has("the log", (folder / "rules.log").read_text(), "0 KEYBOARD ACCEPTED\n110 SELECT 1\n")
        same("the poll", (folder / "port1.txt").read_text().splitlines()[-1], "141 KM IN 0 1 1 -> DATA 0 0200000000000000")
        same("the other computer", (folder / "port2.txt").read_text(), "")
