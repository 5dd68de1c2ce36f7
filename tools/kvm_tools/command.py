"""How a tool begins and ends: its words, its messages and its exit status."""
from __future__ import annotations

import argparse
import os
import pathlib
import sys
from typing import Callable, NoReturn

STANDARD = "-"


class Trouble(Exception):
    """What keeps a tool from its work, in words for its user."""


class Parser(argparse.ArgumentParser):
    """A parser of words whose refusals end with the tool's own status for trouble."""

    trouble = 2

    def error(self, message: str) -> NoReturn:
        self.print_usage(sys.stderr)
        self.exit(self.trouble, f"{self.prog}: {message}\n")


def tick(text: str) -> int:
    """A word of the command line that is a tick, in milliseconds."""
    return number_up_to(2**32 - 1)(text)


def number_up_to(most: int, least: int = 0) -> Callable[[str], int]:
    """A word of the command line that is a decimal number of this range."""

    def read(text: str) -> int:
        if not (text.isascii() and text.isdigit() and least <= int(text) <= most):
            raise argparse.ArgumentTypeError(f"'{text}' is no whole number from {least} to {most}")
        return int(text)

    return read


def read_file(path: str | pathlib.Path) -> bytes:
    """The bytes of a file, or of standard input for '-'."""
    try:
        if str(path) == STANDARD:
            return sys.stdin.buffer.read()
        return pathlib.Path(path).read_bytes()
    except OSError as error:
        raise Trouble(f"{path}: {reason(error)}") from None


def reason(error: OSError) -> str:
    """Why the system refused, without the path, which the message has already."""
    return error.strerror or str(error)


def run(name: str, work: Callable[[], int], trouble: int = 2) -> NoReturn:
    """Does a tool's work and ends with its status. Trouble is told in one line, and never as a traceback."""
    try:
        status = work()
        sys.stdout.flush()
    except Trouble as error:
        print(f"{name}: {error}", file=sys.stderr)
        status = trouble
    except BrokenPipeError:
        # whoever read the output has seen enough; nothing more may be written to it at the end either
        os.dup2(os.open(os.devnull, os.O_WRONLY), sys.stdout.fileno())
        status = trouble
    except OSError as error:
        print(f"{name}: {error.filename or 'standard streams'}: {reason(error)}", file=sys.stderr)
        status = trouble
    except KeyboardInterrupt:
        print(f"{name}: interrupted", file=sys.stderr)
        status = 130
    sys.exit(status)
