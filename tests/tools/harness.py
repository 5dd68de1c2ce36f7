"""What the cases share: runs of a tool and of the program, and what is said of a difference."""
import contextlib
import os
import pathlib
import subprocess
import tempfile
from dataclasses import dataclass

TOP = pathlib.Path(__file__).resolve().parent.parent.parent
TOOLS = TOP / "tools"
DEVICES = TOP / "examples" / "devices"
SECONDS = 120

_program = None


class Wrong(Exception):
    """What is wrong with a tool."""


@dataclass
class Done:
    status: int
    out: bytes
    err: str

    @property
    def text(self):
        return self.out.decode()


def set_program(path):
    global _program
    _program = path


def program():
    return _program


def run(words, cwd=None, stdin=b"", env=None):
    """Runs words. The environment has no program of its own, so that each case says which it means."""
    clean = {key: value for key, value in os.environ.items() if key not in ("KVM", "DESTDIR")}
    clean |= {"PYTHONDONTWRITEBYTECODE": "1"} | (env or {})
    done = subprocess.run([str(word) for word in words], cwd=cwd, input=stdin, capture_output=True, timeout=SECONDS, env=clean)
    err = done.stderr.decode("utf-8", "backslashreplace")
    if "Traceback" in err:
        raise Wrong(f"{words}: a traceback: {err[-400:]}")
    return Done(done.returncode, done.stdout, err)


def tool(name, *words, **options):
    return run([TOOLS / name, *words], **options)


@contextlib.contextmanager
def room():
    """A folder for a case."""
    with tempfile.TemporaryDirectory(prefix="tools-") as folder:
        yield pathlib.Path(folder)


def same(what, given, wanted):
    """Sees that what was given is what is wanted."""
    if given != wanted:
        raise Wrong(f"{what} is {shown(given)}, not {shown(wanted)}")


def has(what, text, part):
    if part not in text:
        raise Wrong(f"{what} has no {part!r}: {text[-400:]!r}")


def shown(value):
    text = repr(value)
    return text if len(text) <= 400 else text[:400] + "..."


def example_after(page, heading):
    """The indented blocks below a heading of a page, each as lines without the indent."""
    text = (TOP / page).read_text()
    if f"{heading}\n" not in text:
        raise Wrong(f"{page} has no heading {heading}")
    part = text.split(f"{heading}\n", 1)[1]
    level = heading.split(" ", 1)[0]
    blocks, block = [], []
    for line in part.split("\n"):
        if line.startswith("#") and line.split(" ", 1)[0] in (level, level[:-1]):
            break
        if line.startswith("    "):
            block.append(line[4:])
        elif block:
            blocks.append(block)
            block = []
    return blocks + ([block] if block else [])
