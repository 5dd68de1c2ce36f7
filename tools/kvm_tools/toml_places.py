"""Where the keys, tables and array elements of a TOML document stand. The document must be a right one."""
from __future__ import annotations

import bisect
import re

Path = tuple[str | int, ...]

BLANKS = re.compile(r"(?:[ \t\r\n]|#[^\n]*)*")
SPACES = re.compile(r"[ \t]*")
BARE_KEY = re.compile(r"[A-Za-z0-9_-]+")
BARE_VALUE = re.compile(r"[^,\]}\n#]+")
STRINGS = [re.compile(r'"""(?:[^\\]|\\.)*?"{3,5}', re.DOTALL), re.compile(r"'''.*?'{3,5}", re.DOTALL),
           re.compile(r'"(?:[^"\\\n]|\\.)*"'), re.compile(r"'[^'\n]*'")]


class Lost(Exception):
    """The document isn't as it was taken to be."""


def places(text: str) -> dict[Path, tuple[int, int]]:
    """The line and the column of each key, table and element, counted from 1, by its path; entries of arrays count from 0.

    Empty where the document isn't a right one.
    """
    walker = Walker(text)
    try:
        walker.document()
    except Lost:
        return {}
    starts = [0] + [found.end() for found in re.finditer("\n", text)]

    def place(at: int) -> tuple[int, int]:
        line = bisect.bisect_right(starts, at)
        return line, at - starts[line - 1] + 1

    return {path: place(at) for path, at in walker.found.items()}


class Walker:
    """Goes through a document once, and keeps where things begin."""

    def __init__(self, text: str) -> None:
        self.text = text
        self.at = 0
        self.found: dict[Path, int] = {}
        #: the arrays of tables, each with the index of its last table
        self.tables: dict[Path, int] = {}

    def skip(self, form: re.Pattern[str]) -> str:
        found = form.match(self.text, self.at)
        if not found:
            raise Lost(self.at)
        self.at = found.end()
        return found[0]

    def looks_at(self, front: str) -> bool:
        return self.text.startswith(front, self.at)

    def expect(self, front: str) -> None:
        if not self.looks_at(front):
            raise Lost(self.at)
        self.at += len(front)

    def keep(self, path: Path, at: int) -> None:
        self.found.setdefault(path, at)

    def document(self) -> None:
        table: Path = ()
        while True:
            self.skip(BLANKS)
            if self.at == len(self.text):
                return
            if self.looks_at("["):
                table = self.header()
            else:
                self.pair(table)

    def header(self) -> Path:
        """A table's header. Returns the path of its table."""
        begin, of_array = self.at, self.looks_at("[[")
        self.expect("[[" if of_array else "[")
        keys = self.keys()
        self.expect("]]" if of_array else "]")
        path: Path = ()
        for place, key in enumerate(keys):
            path += (key,)
            last = place == len(keys) - 1
            if of_array and last:
                self.keep(path, begin)
                self.tables[path] = self.tables.get(path, -1) + 1
            if path in self.tables:
                path += (self.tables[path],)
            self.keep(path, begin)
        return path

    def keys(self) -> list[str]:
        """A key, with its parts if it is dotted."""
        parts = []
        while True:
            self.skip(SPACES)
            if self.looks_at('"') or self.looks_at("'"):
                parts.append(self.string()[1:-1])
            else:
                parts.append(self.skip(BARE_KEY))
            self.skip(SPACES)
            if not self.looks_at("."):
                return parts
            self.at += 1

    def pair(self, table: Path) -> None:
        begin = self.at
        path = table
        for key in self.keys():
            path += (key,)
            self.keep(path, begin)
        self.expect("=")
        self.skip(SPACES)
        self.value(path)

    def string(self) -> str:
        for form in STRINGS:
            if form.match(self.text, self.at):
                return self.skip(form)
        raise Lost(self.at)

    def value(self, path: Path) -> None:
        if self.looks_at("["):
            self.array(path)
        elif self.looks_at("{"):
            self.inline_table(path)
        elif self.looks_at('"') or self.looks_at("'"):
            self.string()
        else:
            self.skip(BARE_VALUE)

    def array(self, path: Path) -> None:
        self.expect("[")
        index = 0
        while True:
            self.skip(BLANKS)
            if self.looks_at("]"):
                break
            self.keep(path + (index,), self.at)
            self.value(path + (index,))
            index += 1
            self.skip(BLANKS)
            if self.looks_at(","):
                self.at += 1
        self.expect("]")

    def inline_table(self, path: Path) -> None:
        self.expect("{")
        while True:
            self.skip(BLANKS)
            if self.looks_at("}"):
                break
            self.pair(path)
            self.skip(BLANKS)
            if self.looks_at(","):
                self.at += 1
        self.expect("}")
