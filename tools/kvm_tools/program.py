"""The program `kvm`: where it lies, and a run of it in a folder of its own."""
from __future__ import annotations

import argparse
import os
import pathlib
import subprocess
import tempfile
from dataclasses import dataclass
from typing import Mapping

from kvm_tools.command import Trouble, reason

#: The folder of the tools: tools/ of the repository, or lib/kvm of an installation.
TOOLS = pathlib.Path(__file__).resolve().parent.parent
IN_REPOSITORY = (TOOLS.parent / "crates").is_dir()
BUILT = TOOLS.parent / "crates" / "kvm_program" / "out" / "kvm_program"
INSTALLED = TOOLS.parent.parent / "bin" / "kvm"
USUAL = BUILT if IN_REPOSITORY else INSTALLED
VARIABLE = "KVM"
SECONDS = 60

WHERE = """The program kvm is the one that --program names; else the one that the
environment variable KVM names; else that of the installation or the repository
that this tool lies in (bin/kvm; crates/kvm_program/out/kvm_program). It isn't
looked for on the PATH, where other programs have this name too."""


@dataclass(frozen=True)
class Run:
    """What a run gave: its status, standard output and error, and the folder's files by name."""

    status: int
    report: str
    faults: str
    files: dict[str, bytes]

    def text(self, name: str) -> str:
        """The text of a file that the run wrote; empty where it wrote none."""
        return self.files.get(name, b"").decode("utf-8", "backslashreplace")


def add_option(parser: argparse.ArgumentParser) -> None:
    parser.add_argument("--program", metavar="PATH", help="the program kvm (see below)")


def find(named: str | None) -> pathlib.Path:
    """The program, from a word of the command line or from where it usually lies."""
    told = [("--program", named), (f"the environment variable {VARIABLE}", os.environ.get(VARIABLE))]
    for by, path in told:
        if path:
            if not is_program(pathlib.Path(path)):
                raise Trouble(f"{path}: no program is there, and {by} names it")
            return pathlib.Path(path).resolve()
    if is_program(USUAL):
        return USUAL
    how = "'./demo' proves and builds it, and " if IN_REPOSITORY else ""
    raise Trouble(f"{USUAL}: no program is there: {how}--program PATH or {VARIABLE}=PATH names another")


def is_program(path: pathlib.Path) -> bool:
    return path.is_file() and os.access(path, os.X_OK)


def run(program: pathlib.Path, words: list[str], inputs: Mapping[str, bytes], keep: pathlib.Path | None = None) -> Run:
    """Runs the program over these inputs, in a folder that is gone afterwards, or in the one to keep."""
    try:
        if keep:
            return run_in(program, words, inputs, keep)
        with tempfile.TemporaryDirectory(prefix="kvm-") as folder:
            return run_in(program, words, inputs, pathlib.Path(folder))
    except subprocess.TimeoutExpired:
        raise Trouble(f"{program}: the run didn't end within {SECONDS} seconds") from None
    except OSError as error:
        raise Trouble(f"{error.filename or program}: {reason(error)}") from None


def run_in(program: pathlib.Path, words: list[str], inputs: Mapping[str, bytes], folder: pathlib.Path) -> Run:
    for name, data in inputs.items():
        (folder / name).write_bytes(data)
    done = subprocess.run([program, *words], cwd=folder, stdin=subprocess.DEVNULL, capture_output=True, timeout=SECONDS)
    files = {file.name: file.read_bytes() for file in folder.iterdir() if file.is_file() and file.name not in inputs}
    return Run(done.returncode, text_of(done.stdout), text_of(done.stderr), files)


def text_of(data: bytes) -> str:
    return data.decode("utf-8", "backslashreplace")
