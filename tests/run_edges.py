#!/usr/bin/env python3
"""Runs the program at its edges: with standard streams closed, with too little memory, and where the system decides.

    run_edges.py PROGRAM

With each combination of standard streams closed, the program replays a session that succeeds and one that stops. No file
may hold a byte that belongs to a stream, and the status tells what couldn't be written. With memory in steps, a replay
ends with status 0 and the whole of what it writes, or with 8, the line `out of memory` and no file touched, wherever there
was enough to begin at all. Links, FIFOs, folders, full disks, limits of files and signals do what docs/FORMATS.md says of them.
Calls that a signal interrupts are tried again; strace plays the signal, and where it isn't there, that is said and not tried.
The last line is 'N passed, N failed'.
"""
import contextlib
import itertools
import os
import pathlib
import resource
import shutil
import signal
import subprocess
import sys
import tempfile
import time

TOP = pathlib.Path(__file__).resolve().parent.parent
SESSION = TOP / "tests" / "sessions" / "device-descriptor"
STREAMS = {0: "standard input", 1: "standard output", 2: "standard error"}
READ_FAULT, WRITE_FAULT, OUT_OF_MEMORY, NOT_LOADED = 6, 7, 8, 127
SECONDS = 60
KIBIBYTE = 1024
#: Fewer bytes than the transcript of port 1 has, and more than the log.
SHORT = 50
#: How long a run that waits for a FIFO is watched, in seconds.
WATCHED = 0.5
STEP, MOST = 64 * KIBIBYTE, 64 * 1024 * KIBIBYTE


class Wrong(Exception):
    pass


class Skipped(Exception):
    pass


def expected(name):
    return (SESSION / "expect" / name).read_bytes()


def inputs():
    return [file for file in SESSION.iterdir() if file.is_file() and file.name not in ("words", "inputs")]


def written(folder):
    names = {file.name for file in inputs()}
    return {file.name: file.read_bytes() for file in folder.iterdir() if file.name not in names}


def run(program, words, folder, closed=(), memory=None):
    """Runs the program in a folder with the session's inputs, some streams closed, at most so many bytes of memory."""
    for file in inputs():
        shutil.copy(file, folder)

    def before():
        if memory is not None:
            resource.setrlimit(resource.RLIMIT_AS, (memory, memory))
        for stream in closed:
            os.close(stream)

    return subprocess.run([program, *words], cwd=folder, stdin=subprocess.DEVNULL, capture_output=True, timeout=SECONDS,
                          preexec_fn=before)


def outlets():
    """What a run of the session writes to files."""
    return {file.name: file.read_bytes() for file in (SESSION / "expect").iterdir()
            if file.name not in ("status", "report", "faults")}


def check_closed(program, closed):
    """A replay with these streams closed: the files have their own bytes, and a report that can't be written is told."""
    with tempfile.TemporaryDirectory(prefix="edge-") as folder:
        done = run(program, ["replay"], pathlib.Path(folder), closed)
        status = WRITE_FAULT if 1 in closed else 0
        if done.returncode != status:
            raise Wrong(f"replay ended with {done.returncode}, not {status}")
        if written(pathlib.Path(folder)) != outlets():
            raise Wrong(f"the files hold {written(pathlib.Path(folder))}")
        if 1 not in closed and done.stdout != expected("report"):
            raise Wrong(f"the report is {done.stdout!r}")
        if 2 not in closed and done.stderr != (b"write fault report\n" if 1 in closed else b""):
            raise Wrong(f"standard error is {done.stderr!r}")
    with tempfile.TemporaryDirectory(prefix="edge-") as folder:
        done = run(program, ["no", "command"], pathlib.Path(folder), closed)
        if done.returncode != 1 or written(pathlib.Path(folder)):
            raise Wrong(f"words that are no command ended with {done.returncode} and {written(pathlib.Path(folder))}")
        if 2 not in closed and done.stderr != b"not a command\n":
            raise Wrong(f"standard error is {done.stderr!r}")


def check_memory(program):
    """A replay with memory in steps: at each it is whole, or nothing; with little it stops, and with much it doesn't."""
    stopped, ended = 0, 0
    for memory in range(STEP, MOST, STEP):
        with tempfile.TemporaryDirectory(prefix="edge-") as folder:
            try:
                done = run(program, ["replay"], pathlib.Path(folder), memory=memory)
            except (OSError, subprocess.SubprocessError):
                continue
            files = written(pathlib.Path(folder))
            if done.returncode == 0 and files == outlets() and done.stdout == expected("report"):
                ended += 1
                if ended == 8:
                    break
            elif done.returncode == OUT_OF_MEMORY and not files and done.stderr in (b"out of memory\n", b""):
                stopped += done.stderr != b""
            elif (done.returncode < 0 or done.returncode == NOT_LOADED) and not files:
                continue  # the system couldn't even load the program
            else:
                raise Wrong(f"with {memory} bytes it ended with {done.returncode}, {done.stderr!r} and {sorted(files)}")
    if not stopped or not ended:
        raise Wrong(f"{stopped} runs stopped for want of memory, and {ended} came to their end")


def replay_in(program, folder, before=None, restore_signals=True):
    """A replay in a folder whose inputs are there already: its status, its report and its fault lines."""
    done = subprocess.run([program, "replay"], cwd=folder, stdin=subprocess.DEVNULL, capture_output=True, timeout=SECONDS,
                          preexec_fn=before, restore_signals=restore_signals)
    return done.returncode, done.stdout, done.stderr


def same(what, given, wanted):
    if given != wanted:
        raise Wrong(f"{what} is {given!r}, not {wanted!r}")


def lay_inputs(folder):
    for file in inputs():
        shutil.copy(file, folder)


def check_file_limit(program, folder):
    """Above the limit of a file the signal SIGXFSZ ends the run; where it is ignored, that is a write fault."""

    def before():
        resource.setrlimit(resource.RLIMIT_FSIZE, (SHORT, SHORT))

    part = outlets()["port1.txt"][:SHORT]
    same("the end by the signal", replay_in(program, folder, before), (-signal.SIGXFSZ, b"", b""))
    same("the transcript", (folder / "port1.txt").read_bytes(), part)
    same("the end without it", replay_in(program, folder, before, False), (WRITE_FAULT, b"", b"write fault port 1\n"))
    same("the transcript then", (folder / "port1.txt").read_bytes(), part)


def check_links(program, folder):
    """Links are followed, by inputs and by outlets; what an outlet's link leads to is made anew."""
    (folder / "capture.kvc").rename(folder / "kept.kvc")
    (folder / "capture.kvc").symlink_to("kept.kvc")
    (folder / "elsewhere").write_bytes(b"what stood there before\n" * 100)
    (folder / "port1.txt").symlink_to("elsewhere")
    same("the run", replay_in(program, folder), (0, expected("report"), b""))
    same("the link stays", (folder / "port1.txt").is_symlink(), True)
    same("what it leads to", (folder / "elsewhere").read_bytes(), outlets()["port1.txt"])


def check_full_disk(program, folder):
    """What the disk has no room for is a write fault."""
    (folder / "rules.log").symlink_to("/dev/full")
    same("the run", replay_in(program, folder), (WRITE_FAULT, b"", b"write fault log\n"))


def check_folders(program, folder):
    """A folder in the place of an input is a read fault, in that of an outlet a write fault."""
    (folder / "port1.txt").mkdir()
    same("port1.txt as a folder", replay_in(program, folder), (WRITE_FAULT, b"", b"write fault port 1\n"))
    for name, told in (("capture.kvc", b"capture"), ("buttons.txt", b"script"), ("rules.toml", b"rules")):
        (folder / name).unlink(missing_ok=True)
        (folder / name).mkdir()
        same(f"{name} as a folder", replay_in(program, folder), (READ_FAULT, b"", b"read fault " + told + b"\n"))
        (folder / name).rmdir()
        lay_inputs(folder)


ENDING = (signal.SIGINT, signal.SIGTERM, signal.SIGHUP)


@contextlib.contextmanager
def waiting_run(program, folder):
    """A run that waits for its capture, which is a FIFO."""

    def before():
        for number in ENDING:
            signal.signal(number, signal.SIG_DFL)  # whoever runs the tests may have had it ignored

    (folder / "capture.kvc").unlink()
    os.mkfifo(folder / "capture.kvc")
    begun = subprocess.Popen([program, "replay"], cwd=folder, stdin=subprocess.DEVNULL, stdout=subprocess.PIPE,
                             stderr=subprocess.PIPE, preexec_fn=before)
    try:
        time.sleep(WATCHED)
        same("the end of a run that has to wait", begun.poll(), None)
        yield begun
    finally:
        begun.kill()
        begun.communicate()


def check_fifo(program, folder):
    """A FIFO is waited for, and then read like a file."""
    with waiting_run(program, folder) as begun:
        (folder / "capture.kvc").write_bytes((SESSION / "capture.kvc").read_bytes())
        report, faults = begun.communicate(timeout=SECONDS)
    same("the run", (begun.returncode, report, faults), (0, expected("report"), b""))
    same("what it writes", written(folder), outlets())


def check_signals(program, folder):
    """A signal ends a run where it is: without a fault line, and with the system's own status."""
    for number in ENDING:
        with waiting_run(program, folder) as begun:
            begun.send_signal(number)
            report, faults = begun.communicate(timeout=SECONDS)
        same(f"the run that got {number.name}", (begun.returncode, report, faults), (-number, b"", b""))
        same("what it writes", written(folder), {})


#: The files that a replay reads, each as a fault line names it, and those that a replay of the session writes.
READ = {"rules.toml": b"rules", "capture.kvc": b"capture", "buttons.txt": b"script"}
WRITTEN = ("port1.txt", "port2.txt", "console.txt", "rules.log")
#: The calls that a signal may interrupt, each with files at which it is made.
INTERRUPTED = {"read": tuple(READ), "write": ("port1.txt", "rules.log"), "openat": (*READ, *WRITTEN)}


def see_strace():
    strace = shutil.which("strace")
    if strace is None:
        raise Skipped("strace isn't there")
    if subprocess.run([strace, "--quiet=all", "-o", "/dev/null", "true"], capture_output=True, timeout=SECONDS).returncode:
        raise Skipped("strace may not trace here")
    return strace


def replay_failing(strace, program, folder, call, name, error):
    """A replay where the first, the third and so on of these calls at a file fail so: how it ends, and how many failed."""
    with tempfile.TemporaryDirectory(prefix="edge-") as other:
        trace = pathlib.Path(other) / "trace"
        done = subprocess.run([strace, "--quiet=all", "-o", trace, "-P", name, "-e", f"trace={call}",
                               "-e", f"inject={call}:error={error}:when=1+2", program, "replay"],
                              cwd=folder, stdin=subprocess.DEVNULL, capture_output=True, timeout=SECONDS)
        return (done.returncode, done.stdout, done.stderr), trace.read_text().count("(INJECTED)")


def check_interrupted(program, folder):
    """Calls that a signal interrupts are tried again. Where a read fails otherwise at the same places, that is a read fault."""
    strace = see_strace()
    (folder / "rules.toml").write_bytes(b"[[deny]]\nvendor = 4660\n")
    for call, names in INTERRUPTED.items():
        for name in names:
            ended, count = replay_failing(strace, program, folder, call, name, "EINTR")
            same(f"the run with {call} interrupted at {name}", ended, (0, expected("report"), b""))
            same("what it writes", {it: (folder / it).read_bytes() for it in WRITTEN}, outlets())
            same(f"that {call} was interrupted at {name}", count > 0, True)
    for name, told in READ.items():
        ended, count = replay_failing(strace, program, folder, "read", name, "EIO")
        same(f"the run with a failed read of {name}", (ended, count), ((READ_FAULT, b"", b"read fault " + told + b"\n"), 1))


#: What the system decides, each case in a folder with the session's inputs.
DECIDED = {"a limit of files": check_file_limit, "links": check_links, "a full disk": check_full_disk, "folders": check_folders,
           "a FIFO": check_fifo, "signals": check_signals, "interrupted calls": check_interrupted}


def check_decided(program, check):
    with tempfile.TemporaryDirectory(prefix="edge-") as name:
        folder = pathlib.Path(name)
        lay_inputs(folder)
        check(program, folder)


def main():
    if len(sys.argv) != 2:
        sys.exit(__doc__)
    program = str(pathlib.Path(sys.argv[1]).resolve())
    combinations = [c for n in (1, 2, 3) for c in itertools.combinations(STREAMS, n)]
    cases = [(" and ".join(STREAMS[it] for it in c) + " closed", lambda c=c: check_closed(program, c)) for c in combinations]
    cases.append(("memory in steps", lambda: check_memory(program)))
    cases += [(name, lambda check=check: check_decided(program, check)) for name, check in DECIDED.items()]
    passed, skipped = 0, 0
    for name, case in cases:
        try:
            case()
            passed += 1
        except Skipped as why:
            skipped += 1
            print(f"{name}: skipped, since {why}")
        except (Wrong, OSError, subprocess.TimeoutExpired) as error:
            print(f"{name}: {error}")
    failed = len(cases) - passed - skipped
    print(f"{passed} passed, {failed} failed")
    return 0 if passed and not failed else 1


if __name__ == "__main__":
    sys.exit(main())
