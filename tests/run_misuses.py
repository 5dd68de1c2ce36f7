#!/usr/bin/env python3
"""Tries the misuses beside this file: code that the types alone must refuse, before any proof.

    run_misuses.py [MISUSE ...]

A misuse is a file of tests/misuses, NAME.misuse. It begins with what it shows; `crate:` and `file:` say to which file it
is appended, `only:` the path of its function, `error:` the name of the error that refuses it. Below the line `control:`
stands the right use, which differs in the misused thing alone, and below the line `misuse:` the wrong one. Both are
appended to a copy of the crates, and `rt check` must refuse the misuse with that error, and nothing else: so the control
is read in the same pass, and shows that the misuse is refused for what it does.
The last line is 'N passed, N failed'.
"""
import pathlib
import re
import shutil
import subprocess
import sys
import tempfile

TOP = pathlib.Path(__file__).resolve().parent.parent
MISUSES = TOP / "tests" / "misuses"
SECONDS = 1800
FORM = re.compile(r"(?P<shows>.+?)\n\ncrate: (?P<crate>\S+)\nfile: (?P<file>\S+)\nonly: (?P<only>\S+)\nerror: (?P<error>\S+)\n"
                  r"\ncontrol:\n(?P<control>.+?)\n\nmisuse:\n(?P<misuse>.+)", re.DOTALL)
ERROR = re.compile(r"^(?P<file>\S+?):(?P<line>\d+):\d+: error(?:\[(?P<name>[^\]]+)\])?:", re.MULTILINE)


class Wrong(Exception):
    """Why a misuse does not pass."""


def copy_crates(to):
    """Copies what rt reads. What earlier checks made stays behind: these errors come before any proof."""
    shutil.copytree(TOP / "crates", to / "crates", ignore=shutil.ignore_patterns("out"))
    for name in ("crates.txt", "HANDLES"):
        shutil.copy(TOP / name, to)


def check(folder, only):
    """What rt says of the function in this crate, and whether it refuses it."""
    words = ["rt", "check", f"--only={only}"]
    done = subprocess.run(words, cwd=folder, stdin=subprocess.DEVNULL, stdout=subprocess.PIPE, stderr=subprocess.STDOUT, text=True, timeout=SECONDS)
    return done.stdout, done.returncode != 0


def judge(said, refused, form, first_line, last_line):
    """Sees that the misuse was refused with its error, and that nothing else was."""
    errors = list(ERROR.finditer(said))
    if not refused:
        raise Wrong("is not refused")
    if not errors:
        raise Wrong(f"no error is named: {said[-300:]!r}")
    for it in errors:
        if it["file"] != form["file"] or not first_line <= int(it["line"]) <= last_line:
            raise Wrong(f"something else is refused: {said[it.start():it.end() + 200]!r}")
        if it["name"] != form["error"]:
            raise Wrong(f"is refused with {it['name']}, not with {form['error']}")


def try_misuse(file, copy):
    form = FORM.fullmatch(file.read_text())
    if not form:
        raise Wrong("is not a misuse file")
    folder = copy / "crates" / form["crate"]
    source = folder / form["file"]
    if not source.is_file():
        raise Wrong(f"cannot be applied: {form['crate']} has no {form['file']}")
    text = source.read_text()
    before = f"{text}\n{form['control']}\n\n"
    try:
        source.write_text(before + form["misuse"])
        said, refused = check(folder, form["only"])
    finally:
        source.write_text(text)
    first_line = before.count("\n") + 1
    judge(said, refused, form, first_line, first_line + form["misuse"].count("\n"))
    return f"refused with {form['error']}"


def passes(file, copy):
    try:
        said, passed = try_misuse(file, copy), True
    except (Wrong, OSError, subprocess.TimeoutExpired) as error:
        said, passed = str(error), False
    print(f"{file.stem}: {said}", flush=True)
    return passed


def main():
    files = [MISUSES / f"{it}.misuse" for it in sys.argv[1:]] or sorted(MISUSES.iterdir())
    with tempfile.TemporaryDirectory(prefix="misuses-") as folder:
        copy = pathlib.Path(folder)
        copy_crates(copy)
        passed = sum(passes(it, copy) for it in files)
    failed = len(files) - passed
    print(f"{passed} passed, {failed} failed")
    return 0 if passed and not failed else 1


if __name__ == "__main__":
    sys.exit(main())
