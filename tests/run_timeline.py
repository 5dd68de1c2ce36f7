#!/usr/bin/env python3
"""Tries tools/timeline over the sessions beside this file and over made runs.

    run_timeline.py

Each session whose files are expected whole is drawn from its inputs and its expected files: each line must be in the page
once, and no more marks may be drawn than there are places. A made run with a refused and an accepted peripheral must have
just the spans and marks that are told here, a run of 100,000 acts must be drawn in few marks, faulty files must be named
with their place, and the colours must stay apart as colour-blind people see them.
The last line is 'N passed, N failed'.
"""
import html.parser
import itertools
import json
import pathlib
import re
import shutil
import subprocess
import sys
import tempfile
import time

TOP = pathlib.Path(__file__).resolve().parent.parent
SESSIONS = TOP / "tests" / "sessions"
sys.dont_write_bytecode = True
sys.path.insert(0, str(TOP / "tools"))

from kvm_tools import capture  # noqa: E402
from kvm_tools.capture import Connector, Kind, Plug, Record, Side  # noqa: E402
from kvm_tools import timeline_looks as looks  # noqa: E402

NO_FILES = ("status", "report", "faults")
SECONDS = 120
MANY = 100_000
PLACE = re.compile(r"M(\d+) (\d+)")


class Wrong(Exception):
    pass


def expect(right, what):
    if not right:
        raise Wrong(what)


def timeline(*words):
    return subprocess.run([sys.executable, "-B", TOP / "tools" / "timeline", *map(str, words)], stdin=subprocess.DEVNULL,
                          capture_output=True, text=True, timeout=SECONDS)


def drawn(folder, *words):
    done = timeline(folder, *words)
    expect(done.returncode == 0, f"status {done.returncode}: {done.stderr.strip()}")
    return done.stdout


class Page(html.parser.HTMLParser):
    """A page's data, its paths of marks and spans, and what it takes from elsewhere."""

    def __init__(self, text):
        super().__init__()
        self.open, self.json, self.marks, self.spans, self.texts, self.elsewhere = [], "", [], [], [], []
        self.feed(text)
        expect(not self.open, f"{self.open} aren't closed")
        self.data = json.loads(self.json) if self.json else None

    def handle_starttag(self, tag, attributes):
        given = dict(attributes)
        self.elsewhere += [given[it] for it in ("src", "href") if it in given]
        if tag == "path" and ("svg", "run") in self.open:
            {"mark": self.marks, "span": self.spans}.get(given.get("class"), []).append((given.get("stroke") or given.get("fill"), given["d"]))
        if tag not in ("meta", "path", "rect"):
            self.open.append((tag, given.get("id")))

    def handle_startendtag(self, tag, attributes):
        self.handle_starttag(tag, attributes)
        if tag not in ("meta", "path", "rect"):
            self.handle_endtag(tag)

    def handle_endtag(self, tag):
        if tag in ("path", "rect"):
            return
        expect(self.open and self.open[-1][0] == tag, f"</{tag}> closes {self.open[-1:]}")
        self.open.pop()

    def handle_data(self, data):
        if self.open and self.open[-1] == ("script", "data"):
            self.json += data
        elif self.open and self.open[-1][0] == "text":
            self.texts.append(data)


def page_of(folder, *words):
    drawn(folder, *words)
    page = Page((folder / "timeline.html").read_text())
    expect(not page.elsewhere, f"the page takes {page.elsewhere}")
    return page


def lines_in(page):
    """The lines that the marks of the page show, in order of their text."""
    bands = [*page.data["bands"], page.data["log"]]
    for band in bands:
        expect(len(band["t"]) == len(band["k"]) == len(band["lines"].split("\n")) - (band["lines"] == ""), "a mark has no line")
    return sorted(line for band in bands for line in band["lines"].split("\n") if line)


def lines_of(folder, *names):
    return [line for name in names for file in sorted(folder.glob(name)) for line in file.read_text().split("\n")[:-1]]


def session_folder(session, folder):
    """The folder of a run as its session expects it."""
    named = session / "inputs"
    inputs = [TOP / it for it in named.read_text().split()] if named.exists() else []
    own = [it for it in session.iterdir() if it.is_file() and it.name not in ("words", "inputs")]
    for file in [*inputs, *own, *(it for it in (session / "expect").iterdir() if it.name not in NO_FILES)]:
        shutil.copy(file, folder)


def check_session(session):
    with tempfile.TemporaryDirectory(prefix="timeline-") as name:
        folder = pathlib.Path(name)
        session_folder(session, folder)
        page = page_of(folder)
        told, log = lines_of(folder, "port?.txt", "console.txt"), lines_of(folder, "rules.log")
        shown = lines_in(page)
        for line in told + log:
            expect(shown.count(line) >= (told + log).count(line), f"'{line}' isn't in the page")
        text = drawn(folder, "--text", "--width", 100)
        expect([it[5:] for it in text.split("\n") if it.startswith("log  ")] == log or len(log) > 40, "the text has another log")


def record(tick, kind, actor=None, values=(), data=b""):
    return capture.record_bytes(Record(tick, kind, actor, values, data))


def make_run(folder):
    """A run with a keyboard that is refused and then another that is let in, two selections and the dark."""
    keyboard = Plug.KEYBOARD
    one, two = Connector(1, Side.KM), Connector(2, Side.UA)
    (folder / "capture.kvc").write_bytes(capture.header_bytes(2) + b"".join([
        record(0, Kind.ATTACH, keyboard), record(1, Kind.REPLY, keyboard, (1, 1, 0), bytes(18)), record(20, Kind.DETACH, keyboard),
        record(30, Kind.ATTACH, keyboard), record(31, Kind.REPLY, keyboard, (2, 1, 0), bytes(18)), record(110, Kind.CLOCK),
        record(120, Kind.RESET, one), record(121, Kind.IN, one, (0, 1, 1)), record(122, Kind.IN, one, (0, 1, 1)),
        record(140, Kind.REPORT, keyboard, (0,), bytes(8)), record(150, Kind.SETUP, two, (0,), bytes(8)), record(250, Kind.CLOCK)]))
    (folder / "buttons.txt").write_text("0 check 1 pass\n10 guard down\n10 1 down\n120 guard up\n130 1 up\n300 tamper\n")
    (folder / "port1.txt").write_text("120 KM RESET -> SILENT\n121 KM IN 0 1 1 -> DATA 0 0000\n122 KM IN 0 1 1 -> NAK\n")
    (folder / "port2.txt").write_text("150 UA SETUP 0 0000000000000000 -> STALL\n")
    (folder / "console.txt").write_text("5 KEYBOARD ON 1\n5 KEYBOARD ASK 1 1 8006000100001200\n6 KEYBOARD OFF 1\n30 KEYBOARD ON 2\n"
                                        "30 KEYBOARD ASK 2 1 8006000100001200\n300 KEYBOARD OFF 2\n")
    (folder / "rules.log").write_text("5 ALIVE\n6 KEYBOARD REFUSED F02\n31 KEYBOARD INTERFACE 0 ACCEPTED\n31 KEYBOARD ACCEPTED\n"
                                      "110 SELECT 1\n250 LEAVE 1\n250 SELECT 2\n300 DARK TAMPER\n")


SPANS_MADE = [("self-test", 0, 5), ("dark", 300, 300), ("held", 10, 120), ("held", 10, 130), ("asked", 5, 6), ("asked", 30, 31),
              ("let-in", 31, 300), ("refused", 6, 20), ("selected", 110, 250), ("selected", 250, 300)]
MARKS_MADE = {"passed": 1, "failed": 1, "on": 2, "off": 2, "ask": 2, "refused": 1, "accepted": 2, "attached": 2, "detached": 1,
              "reply": 2, "report": 1, "reset": 1, "data": 1, "nak": 1, "stall": 1}


def check_made():
    with tempfile.TemporaryDirectory(prefix="timeline-") as name:
        folder = pathlib.Path(name)
        make_run(folder)
        page = page_of(folder)
        spans = [(list(looks.SPANS)[kind], first, last) for band in page.data["bands"] for first, last, kind, *_ in band["spans"]]
        expect(spans == SPANS_MADE, f"the spans are {spans}")
        kinds = [list(looks.MARKS)[kind] for band in page.data["bands"] for kind in band["k"]]
        counted = {kind: kinds.count(kind) for kind in kinds}
        expect(counted == MARKS_MADE, f"the marks are {counted}")
        colours = [colour for colour, _ in page.marks]
        expect(colours.count(looks.MARKS["refused"].colour) == 1, "the refusal isn't drawn in its colour")
        expect([it for it in page.texts if it.startswith("6 KEYBOARD REFUSED")] == ["6 KEYBOARD REFUSED F02"], "the refusal isn't above")
        expect(drawn(folder, "--text", "--width", 79) == MADE_TEXT.replace("FOLDER", name), drawn(folder, "--text", "--width", 79))


MADE_TEXT = """\
FOLDER: 2 ports, acts answered: 4, ticks 0 to 300; a column is 5 ticks

log  5 ALIVE
log  6 KEYBOARD REFUSED F02
log  31 KEYBOARD INTERFACE 0 ACCEPTED
log  31 KEYBOARD ACCEPTED
log  110 SELECT 1
log  250 LEAVE 1
log  250 SELECT 2
log  300 DARK TAMPER

                  0         50        100       150       200       250       300
panel
  checks          p                                                           x
  guard             _______________________
  button 1          _________________________
console keyboard   !!!! =======================================================
  switch           X    o                                                     v
  device          +   - +                     r
console mouse
console token
port 1            ~~                    =============================         #
  KM setup                                R
  KM in                                   D
port 2            ~~                                                ==========#
  UA setup                                      S

~ self-test: nobody is answered   = port selected   _ button held
: has power, is asked   = has power, is let in   ! refused, till detached
# dark: nobody is answered any more   r report of the peripheral
y reply of the peripheral   ? order to the peripheral   ^ power on
v power off   + attached   - detached   n NAK   D DATA   R bus reset   S STALL
p check passed   x check failed, case opened   o let in   X refused
"""


def check_token():
    """The spans in which a port has the token begin where it is routed and end where its power goes off."""
    with tempfile.TemporaryDirectory(prefix="timeline-") as name:
        folder = pathlib.Path(name)
        session_folder(SESSIONS / "two-computers-use-the-token", folder)
        spans = [(first, last) for band in page_of(folder).data["bands"] for first, last, kind, *_ in band["spans"]
                 if list(looks.SPANS)[kind] == "routed"]
        expect(spans == [(110, 250), (2401, 2412), (1251, 1400)], f"the spans are {spans}")


def check_part():
    """With --from and --to only what lies between them is drawn."""
    with tempfile.TemporaryDirectory(prefix="timeline-") as name:
        folder = pathlib.Path(name)
        make_run(folder)
        page = page_of(folder, "--from", 121, "--to", 250)
        ticks = [tick for band in [*page.data["bands"], page.data["log"]] for tick in band["t"]]
        expect(ticks and min(ticks) == 121 and max(ticks) == 250, f"the ticks are {ticks}")
        expect(all(121 <= it[0] <= it[1] <= 250 for band in page.data["bands"] for it in band["spans"]), "a span leaves the part")


def many(folder):
    """A run of 100,000 acts at four ports, with as many selections as that time holds, and every answer."""
    answers = ["ACK", "NAK", "STALL", "SILENT", "DATA 0 0000040000000000"]
    lines, records = [[], [], [], []], [capture.header_bytes(4)]
    for number in range(MANY):
        port, tick = number % 4, number // 3
        lines[port].append(f"{tick} KM IN 0 1 1 -> {answers[number // 4 % 5]}\n")
        records.append(record(tick, Kind.IN, Connector(port + 1, Side.KM), (0, 1, 1)))
    (folder / "capture.kvc").write_bytes(b"".join(records))
    for port in range(4):
        (folder / f"port{port + 1}.txt").write_text("".join(lines[port]))
    log, selected = ["0 ALIVE\n"], None
    for tick in range(100, MANY // 3, 100):
        log += ([f"{tick} LEAVE {selected}\n"] if selected else []) + [f"{tick} SELECT {tick // 100 % 4 + 1}\n"]
        selected = tick // 100 % 4 + 1
    (folder / "rules.log").write_text("".join(log))


def check_many():
    with tempfile.TemporaryDirectory(prefix="timeline-") as name:
        folder = pathlib.Path(name)
        many(folder)
        before = time.monotonic()
        page = page_of(folder, "--width", 1000)
        expect(time.monotonic() - before < 30, "it took over 30 seconds")
        expect(len(lines_in(page)) >= MANY, "lines are missing")
        places = [it for _, path in page.marks for it in PLACE.findall(path)]
        expect(len(places) == len(set(places)), "two marks are drawn in one place")
        expect(1000 <= len(places) <= 4 * 501, f"{len(places)} marks are drawn")
        size = (folder / "timeline.html").stat().st_size
        expect(size < 100 * MANY, f"the page has {size} bytes")


def check_no_lines():
    """Above the bound the page has no lines, and says so."""
    with tempfile.TemporaryDirectory(prefix="timeline-") as name:
        folder = pathlib.Path(name)
        make_run(folder)
        (folder / "port2.txt").write_text("150 UA IN 0 0 1 -> SILENT\n" * 400_001)
        page = page_of(folder)
        expect(page.data is None, "the page has the lines")
        expect("draw a part, with --from and --to" in (folder / "timeline.html").read_text(), "the page doesn't say why")


def check_names():
    """A folder's name can't break the page."""
    with tempfile.TemporaryDirectory(prefix="timeline-") as name:
        folder = pathlib.Path(name) / "<script>alert(1)<b>&"
        folder.mkdir()
        make_run(folder)
        page_of(folder)


FAULTS = [
    ("port1.txt", "1 KM IN 0 1 1 -> NACK\n", "port1.txt: line 1: not a line"),
    ("port1.txt", "1 KM IN 0 1 1 -> NAK\n1 KM IN 0 1 -> NAK\n", "port1.txt: line 2: not a line"),
    ("port2.txt", "5 KM RESET -> SILENT\n4 KM RESET -> SILENT\n", "port2.txt: line 2: tick 4 can't follow 5"),
    ("port2.txt", "5 KM RESET -> SILENT", "port2.txt: line 1: the line feed"),
    ("rules.log", "ALIVE\n", "rules.log: line 1: not a line"),
    ("rules.log", None, "rules.log: no such file"),
    ("port2.txt", None, "port2.txt: no such file"),
    ("capture.kvc", None, "capture.kvc: No such file"),
    ("capture.kvc", "KVC2....", "capture.kvc: at offset 0: bad-magic"),
    ("console.txt", "1 \u00e9\n", "console.txt: at offset 2"),
]


def check_fault(name, text, told):
    with tempfile.TemporaryDirectory(prefix="timeline-") as folder:
        folder = pathlib.Path(folder)
        make_run(folder)
        (folder / name).unlink()
        if text is not None:
            (folder / name).write_text(text)
        done = timeline(folder)
        expect(done.returncode == 2 and not done.stdout, f"status {done.returncode}, {done.stdout!r}")
        expect(f"timeline: {folder}/{told}" in done.stderr and done.stderr.count("\n") == 1, f"it says {done.stderr!r}")
        expect(not (folder / "timeline.html").exists(), "there is a picture")


def check_cut():
    """A faulty capture and a faulty script are shown up to the fault, which is told."""
    for name, more, told in (("capture.kvc", b"\1", "capture.kvc is faulty at offset"),
                             ("buttons.txt", b"301 gaurd down\n", "buttons.txt is faulty at line 7")):
        with tempfile.TemporaryDirectory(prefix="timeline-") as folder:
            folder = pathlib.Path(folder)
            make_run(folder)
            (folder / name).write_bytes((folder / name).read_bytes() + more)
            expect(told in drawn(folder, "--text"), f"the fault of {name} isn't told")
            page_of(folder)
            expect(told in (folder / "timeline.html").read_text(), f"the page doesn't tell the fault of {name}")


WORDS = [["--colour"], ["--text", "-o", "x"], ["--from", "2", "--to", "1"], ["--from", "-1"], ["--width", "wide"], ["a", "b"], ["no-such-folder"],
         ["--to", "4294967296"]]


def check_words(words):
    done = timeline(*words)
    expect(done.returncode == 2 and done.stderr and not done.stdout, f"status {done.returncode}: {done.stdout}")


def check_help():
    done = timeline("--help")
    expect(done.returncode == 0 and "exit status:" in done.stdout, f"status {done.returncode}")


def check_unwritable():
    with tempfile.TemporaryDirectory(prefix="timeline-") as name:
        folder = pathlib.Path(name)
        make_run(folder)
        done = timeline(folder, "-o", folder / "none" / "x.html")
        expect(done.returncode == 2 and "none/x.html: No such file" in done.stderr, f"status {done.returncode}: {done.stderr}")


# How linear light looks without the second and without the first kind of cone (Machado, Oliveira and Fernandes 2009).
BLIND = {
    "deuteranopia": ((0.367322, 0.860646, -0.227968), (0.280085, 0.672501, 0.047413), (-0.011820, 0.042940, 0.968881)),
    "protanopia": ((0.152286, 1.052583, -0.204868), (0.114503, 0.786281, 0.099216), (-0.003882, -0.048116, 1.051998)),
    "full sight": ((1, 0, 0), (0, 1, 0), (0, 0, 1)),
}
LEAST_APART = 11


def lab(colour, matrix):
    """A colour in CIE L*a*b*, as it is seen through the matrix."""
    light = [int(colour[at:at + 2], 16) / 255 for at in (1, 3, 5)]
    light = [it / 12.92 if it <= 0.04045 else ((it + 0.055) / 1.055) ** 2.4 for it in light]
    light = [min(1, max(0, sum(a * b for a, b in zip(row, light)))) for row in matrix]
    x, y, z = (sum(a * b for a, b in zip(row, light)) / white for row, white in (
        ((0.4124, 0.3576, 0.1805), 0.9505), ((0.2126, 0.7152, 0.0722), 1), ((0.0193, 0.1192, 0.9505), 1.089)))
    x, y, z = (it ** (1 / 3) if it > 0.008856 else 7.787 * it + 16 / 116 for it in (x, y, z))
    return 116 * y - 16, 500 * (x - y), 200 * (y - z)


def check_colours(seen, matrix, table):
    """Two colours of a table that differ are seen apart. Marks of one colour have two forms, but those that stand in no one row."""
    for a, b in itertools.combinations(sorted({it.colour for it in table.values()}), 2):
        apart = sum((p - q) ** 2 for p, q in zip(lab(a, matrix), lab(b, matrix))) ** 0.5
        expect(apart >= LEAST_APART, f"{a} and {b} are {apart:.1f} apart")


ONE_ROW = [("nak", "ack", "data", "silent", "reset", "stall"), ("ask", "on", "off", "accepted", "refused"),
           ("reply", "report", "attached", "detached"), ("passed", "failed")]


def check_forms():
    for row in ONE_ROW:
        expect(len({looks.MARKS[it].form for it in row}) == len(row), f"two of {row} have one form")
        expect(len({looks.MARKS[it].letter for it in row}) == len(row), f"two of {row} have one letter")
    others = {it.colour for table in (looks.MARKS, looks.SPANS) for kind, it in table.items() if kind != "refused"}
    expect(not others & {looks.MARKS["refused"].colour, looks.SPANS["refused"].colour}, "a refusal has the colour of something else")


def cases():
    for session in sorted(SESSIONS.iterdir()):
        if (session / "expect" / "rules.log").exists():
            yield session.name, lambda session=session: check_session(session)
    yield from (("made run", check_made), ("a token", check_token), ("part of a run", check_part), ("100,000 acts", check_many),
                ("too many for lines", check_no_lines), ("names", check_names), ("faulty inputs", check_cut), ("help", check_help), ("unwritable", check_unwritable),
                ("forms", check_forms))
    for fault in FAULTS:
        yield fault[2], lambda fault=fault: check_fault(*fault)
    for words in WORDS:
        yield " ".join(words), lambda words=words: check_words(words)
    for seen, matrix in BLIND.items():
        for name, table in (("marks", looks.MARKS), ("spans", looks.SPANS)):
            yield f"colours of {name}, {seen}", lambda seen=seen, matrix=matrix, table=table: check_colours(seen, matrix, table)


def main():
    if len(sys.argv) != 1:
        sys.exit(__doc__)
    passed = failed = 0
    for name, case in cases():
        try:
            case()
            passed += 1
        except (Wrong, OSError, subprocess.TimeoutExpired) as error:
            failed += 1
            print(f"{name}: {error}")
    print(f"{passed} passed, {failed} failed")
    return 0 if passed and not failed else 1


if __name__ == "__main__":
    sys.exit(main())
