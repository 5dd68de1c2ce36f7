#!/usr/bin/env python3
"""Tries the demo with the program, and with three programs that only look like it.

    run_demo.py PROGRAM

The demo must refuse words that it doesn't know, say where the program is older than its sources, and end with the name of
its folder, where each file is one that it spoke of. With PROGRAM it must find port 1's transcript the same three times; with
one that lets a computer, or the console, learn of another computer's acts it must say so and end with status 1.
The last line is 'N passed, N failed'.
"""
import os
import pathlib
import re
import shutil
import subprocess
import sys
import tempfile
import time

TOP = pathlib.Path(__file__).resolve().parent.parent
SECONDS = 300
FILES = ["demo", "crates.txt"]
FOLDERS = ["examples", "tools"]
# Looks like the program. At LEAK it writes to port 1, and at TOLD to the console, whether port 2 did as much as in the session.
STAND_IN = """#!/usr/bin/env python3
import pathlib
data = pathlib.Path("capture.kvc").read_bytes()
for name in ("rules.log", "port2.txt"):
    pathlib.Path(name).write_text("")
pathlib.Path("port1.txt").write_text(f"1 KM IN 0 0 {LEAK} -> NAK\\n")
pathlib.Path("console.txt").write_text(f"1 KEYBOARD ON {TOLD}\\n")
print("events 0")
"""
# the session's capture has more bytes, and the one without port 2's acts has fewer
ACTS = "int(len(data) > 1900)"
HONEST, LEAKING, TELLING = (STAND_IN.replace("LEAK", leak).replace("TOLD", told) for leak, told in (("1", "1"), (ACTS, "1"), ("1", ACTS)))


class Wrong(Exception):
    pass


def expect(right, what):
    if not right:
        raise Wrong(what)


def copy(folder, program):
    """The repository as far as the demo reads it, with this program in its place, newer than all else."""
    for name in FILES:
        shutil.copy2(TOP / name, folder)
    for name in FOLDERS:
        shutil.copytree(TOP / name, folder / name, ignore=shutil.ignore_patterns("__pycache__"))
    for crate in (TOP / "crates").iterdir():
        for part in ("src", "specs"):
            if (crate / part).is_dir():
                shutil.copytree(crate / part, folder / "crates" / crate.name / part)
    place = folder / "crates" / "kvm_program" / "out" / "kvm_program"
    place.parent.mkdir(parents=True)
    if isinstance(program, str):
        place.write_text(program)
    else:
        shutil.copy(program, place)
    place.chmod(0o755)
    os.utime(place, (time.time() + 60, time.time() + 60))


def demo(top, *words):
    """Runs the demo of this copy; its folders come into the copy, too."""
    made = top / "made"
    made.mkdir(exist_ok=True)
    return subprocess.run([top / "demo", *words], stdin=subprocess.DEVNULL, capture_output=True, text=True, timeout=SECONDS,
                          env=os.environ | {"TMPDIR": str(made)})


def with_copy(program, check):
    with tempfile.TemporaryDirectory(prefix="demo-") as name:
        top = pathlib.Path(name)
        copy(top, program)
        check(top)


def check_words(top):
    for words in (["--fast"], ["--quick", "--quick"], [""], ["--quick", ""], ["session"]):
        done = demo(top, *words)
        expect(done.returncode == 2 and done.stderr.startswith("usage: ") and not done.stdout, f"{words}: status {done.returncode}")
    expect(not list((top / "made").iterdir()), "it made a folder")
    done = demo(top, "--help")
    expect(done.returncode == 0 and done.stdout.startswith("usage: "), f"--help: status {done.returncode}")


def sums(text, name):
    found = re.search(rf"^    checksum of {name} +(\w+) +(\w+) +(\w+) *$", text, re.MULTILINE)
    expect(found, f"there are no checksums of {name}")
    return found.groups()


def check_shown(top, real):
    done = demo(top)
    expect(done.returncode == 0, f"status {done.returncode}: {done.stderr}")
    folder = pathlib.Path(done.stdout.split("\n")[-2])
    expect(folder.parent == top / "made" and folder.is_dir(), f"the last line is {folder}")
    expect("older than its sources" not in done.stdout, "it calls the program old")
    for file in (folder / "session").iterdir():
        expect(len(re.findall(rf"^session/{file.name}: \w", done.stdout, re.MULTILINE)) == 1, f"it has no line on {file.name}")
    for name in ("port1.txt", "console.txt", "rules.log"):
        expect(len(set(sums(done.stdout, name))) == 1, f"{name}'s checksums differ")
    expect("proved for every session" in done.stdout, "it doesn't say why")
    if real:
        expect(len(set(sums(done.stdout, "port2.txt"))) == 3, "port 2 was answered the same in two replays")
        acts = [len((folder / it / "port2.txt").read_text().split("\n")) - 1 for it in ("session", "silent", "hostile")]
        expect(acts[0] > 0 and acts[1:] == [0, 10_000], f"port 2 did {acts} acts")
        expect((folder / "session" / "port1.txt").stat().st_size > 1000, "port 1 was answered nothing")
        expect("KEYBOARD ASK" in (folder / "session" / "console.txt").read_text(), "the keyboard was asked nothing")
        for name, pressed in (("port1.txt", "344 KM IN 5 1 1 -> DATA 0 0200000000000000\n"), ("port2.txt", "718 KM IN 3 1 1 -> DATA 0 0000120000000000\n")):
            expect(pressed in (folder / "session" / name).read_text(), f"{name} has no key that was typed")


def check_leak(top, told):
    done = demo(top)
    expect(done.returncode == 1 and told in done.stdout, f"status {done.returncode}: {done.stdout[-300:]}")
    expect("proved for every" not in done.stdout, "it says that this is proved")


def check_older(top):
    later = time.time() + 120
    os.utime(top / "crates" / "call_tests" / "src" / "lib.rt", (later, later))
    expect("older than its sources" not in demo(top).stdout, "a crate that the program doesn't stand on makes it old")
    for name in ("crates/selector/src/lib.rt", "crates/psd_base/specs/Lib.antt"):
        os.utime(top / name, (later, later))
        expect(f"older than its sources (1 files, {name}" in demo(top).stdout, f"{name} is newer, and it doesn't say so")
        os.utime(top / name, (1, 1))


def vary(*words):
    return subprocess.run([sys.executable, "-B", TOP / "examples" / "vary.py", *map(str, words)], capture_output=True, timeout=SECONDS)


def check_vary(top):
    """Other computers' records stay as they are, a seed gives the same acts again, and a fault is named with its place."""
    session = TOP / "examples" / "first-session" / "capture.kvc"
    for words, file in ((["silent", 2], "silent"), (["hostile", 2], "first"), (["hostile", 2], "again"),
                        (["hostile", 2, "--seed", 3], "other")):
        done = vary(*words[:2], session, top / file, *words[2:])
        expect(done.returncode == 0 and not done.stderr, f"{words}: {done.stderr!r}")
    made = {it: (top / it).read_bytes() for it in ("silent", "first", "again", "other")}
    expect(made["first"] == made["again"] != made["other"], "a seed gives other acts, or another one the same")
    vary("silent", 2, top / "first", top / "back")
    expect((top / "back").read_bytes() == made["silent"], "the other computer's records changed")
    for port, name, told in ((3, session, b"it has 2 ports"), (2, top / "demo", b"demo: at offset 0: bad-magic"), (2, top / "none", b"none: No such")):
        done = vary("silent", port, name, top / "never")
        expect(done.returncode == 2 and told in done.stderr, f"port {port} of {name}: {done.returncode}, {done.stderr!r}")
    expect(not (top / "never").exists(), "a faulty capture was varied")


def main():
    if len(sys.argv) != 2:
        sys.exit(__doc__)
    program = pathlib.Path(sys.argv[1]).resolve()
    cases = [("words", HONEST, check_words), ("with the program", program, lambda top: check_shown(top, True)),
             ("with one that looks like it", HONEST, lambda top: check_shown(top, False)),
             ("with one that leaks", LEAKING, lambda top: check_leak(top, "not answered the same")),
             ("with one that tells the console", TELLING, lambda top: check_leak(top, "not told the same")),
             ("older", HONEST, check_older), ("vary.py", HONEST, check_vary)]
    passed = 0
    for name, stand_in, check in cases:
        try:
            with_copy(stand_in, check)
            passed += 1
        except (Wrong, OSError, subprocess.TimeoutExpired) as error:
            print(f"{name}: {error}")
    failed = len(cases) - passed
    print(f"{passed} passed, {failed} failed")
    return 0 if passed and not failed else 1


if __name__ == "__main__":
    sys.exit(main())
