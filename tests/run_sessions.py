#!/usr/bin/env python3
"""Replays the sessions beside this file and compares what the program wrote.

    run_sessions.py PROGRAM [SESSION ...]

A session is a folder of tests/sessions. Its file `words` has the words behind the program's name, one a line; its file
`inputs`, where there is one, names inputs elsewhere in the repository by their paths from its top, one a line. All other
files are inputs. The folder `expect` has the exit status as `status`, standard output as `report`, standard error as
`faults`, and each file that the program writes by its name: it must write these and no others, with these bytes.
The last line is 'N passed, N failed'.
"""
import pathlib
import shutil
import subprocess
import sys
import tempfile

TOP = pathlib.Path(__file__).resolve().parent.parent
SESSIONS = TOP / "tests" / "sessions"
SECONDS = 60


def lines_of(file):
    return file.read_text().split("\n")[:-1]


def inputs_of(session):
    """The files that lie in the folder of the run when the program begins."""
    own = [it for it in session.iterdir() if it.is_file() and it.name not in ("words", "inputs")]
    named = session / "inputs"
    return own + [TOP / it for it in lines_of(named)] if named.exists() else own


def run(program, session, folder):
    """Runs the program in a folder with the session's inputs, and returns what it gave by name."""
    inputs = inputs_of(session)
    for file in inputs:
        shutil.copy(file, folder)
    words = lines_of(session / "words")
    done = subprocess.run([program, *words], cwd=folder, stdin=subprocess.DEVNULL, capture_output=True, timeout=SECONDS)
    before = {it.name for it in inputs}
    given = {file.name: file.read_bytes() for file in folder.iterdir() if file.name not in before}
    return given | {"status": b"%d\n" % done.returncode, "report": done.stdout, "faults": done.stderr}


def difference(expect, given):
    """Says where what was given is not what is expected, if it is not."""
    wanted = {file.name: file.read_bytes() for file in expect.iterdir()}
    for name in sorted(wanted.keys() | given.keys()):
        if name not in given:
            return f"{name} was not written"
        if name not in wanted:
            return f"{name} was written"
        if given[name] != wanted[name]:
            return f"{name} is {given[name][:200]!r}, not {wanted[name][:200]!r}"
    return None


def passes(program, session):
    with tempfile.TemporaryDirectory(prefix="session-") as folder:
        try:
            wrong = difference(session / "expect", run(program, session, pathlib.Path(folder)))
        except (OSError, subprocess.TimeoutExpired) as error:
            wrong = str(error)
    if wrong:
        print(f"{session.name}: {wrong}")
    return not wrong


def main():
    if len(sys.argv) < 2:
        sys.exit(__doc__)
    program = str(pathlib.Path(sys.argv[1]).resolve())
    names = sys.argv[2:] or sorted(it.name for it in SESSIONS.iterdir() if it.is_dir())
    passed = sum(passes(program, SESSIONS / it) for it in names)
    failed = len(names) - passed
    print(f"{passed} passed, {failed} failed")
    return 0 if passed and not failed else 1


if __name__ == "__main__":
    sys.exit(main())
