#!/usr/bin/env python3
"""Sees that each clause, edit, session and misuse that docs/EVALUATOR.md names is there.

    check_evaluator.py [PAGE]

A table of the page whose columns are 'what is so', 'clauses' and 'tried by' names in its second column clauses of public
calls, as `crate call clause` or, where the call's clause has no name, `crate call`, and fields of promises, as
`crate Promise.field`; and in its third column edits, as `crate/must-fail/name`, sessions, as `sessions/name`, misuses, as
`misuses/name`, tests of calls, as `call_tests/module`, or 'none' with the reason. Each aim has such a table and a line on
what lies outside. Code that is shown stands in its file, and paths of the repository exist.

Then each name of the tables is changed, one at a time, and each such page must be refused: so the check can fail.
The last line is 'N passed, N failed'.
"""
import pathlib
import re
import sys

TOP = pathlib.Path(__file__).resolve().parent.parent
PAGE = TOP / "docs" / "EVALUATOR.md"
HEAD = ["what is so", "clauses", "tried by"]
AIMS = "## The aims"
OUTSIDE = "**Outside:**"
NO_CLAIM = "No conformity"

IMPL = re.compile(r"(?:unsafe )?impl(?:<[^{]*?>)? (?:[\w:<>, ']+ for )?(?P<name>\w+)")
FUNCTION = re.compile(r"(?P<indent> *)(?P<before>(?:pub(?:\([\w: ]+\))? )?(?:const |unsafe |extern \"C\" )*)fn (?P<name>\w+)")
CLAUSE = re.compile(r" +ensures(?: (?P<name>\w+))? \{")
PROMISE = re.compile(r"pub record (?P<name>\w+) .*where$")
FIELD = re.compile(r"  pub (?P<name>\w+) :")
PATH = re.compile(r"(?<![\w/])(?:crates|docs|tests|examples|tools)/[\w./-]+")


def clauses_of(crate):
    """The clauses of the public calls of a crate; the one without a name is named ''."""
    found = set()
    for file in (TOP / "crates" / crate / "src").rglob("*.rt"):
        owner, call = "", None
        for line in file.read_text().split("\n"):
            if line[:1].strip():
                started = IMPL.match(line) or re.match(r"(?:pub )?trait (?P<name>\w+)", line)
                owner = f"{started['name']}::" if started else ""
            if started := FUNCTION.match(line):
                is_public = started["before"].startswith("pub ")
                call = f"{owner if started['indent'] else ''}{started['name']}" if is_public else None
            elif call and (clause := CLAUSE.match(line)):
                found.add((call, clause["name"] or ""))
    return found


def promises_of(crate):
    """The fields of the records in a crate's definitions, as Promise.field."""
    found = set()
    for file in (TOP / "crates" / crate / "specs").rglob("*.antt"):
        record = None
        for line in file.read_text().split("\n"):
            if started := PROMISE.match(line):
                record = started["name"]
            elif record and (field := FIELD.match(line)):
                found.add(f"{record}.{field['name']}")
            elif line and not line.startswith(" "):
                record = None
    return found


class Repository:
    """What there is to be named."""

    def __init__(self):
        crates = [it.name for it in (TOP / "crates").iterdir() if it.is_dir()]
        self.clauses = {it: clauses_of(it) for it in crates}
        self.promises = {it: promises_of(it) for it in crates}

    def has_clause(self, name):
        crate, _, rest = name.partition(" ")
        call, _, clause = rest.partition(" ")
        if crate not in self.clauses:
            return False
        return rest in self.promises[crate] if "." in rest else (call, clause) in self.clauses[crate]

    def has_trial(self, name):
        kind, _, rest = name.partition("/")
        if kind == "sessions":
            return (TOP / "tests" / "sessions" / rest / "words").is_file()
        if kind == "misuses":
            return (TOP / "tests" / "misuses" / f"{rest}.misuse").is_file()
        if kind == "call_tests":
            return (TOP / "crates" / "call_tests" / "src" / f"{rest}.rt").is_file()
        return rest.startswith("must-fail/") and (TOP / "crates" / kind / f"{rest}.edit").is_file()


def cells_of(line):
    return [it.strip() for it in line.strip().strip("|").split("|")]


def names_in(cell):
    """The code in a cell, and what else stands there but commas."""
    return re.findall(r"`([^`]+)`", cell), re.sub(r"`[^`]+`", "", cell).replace(",", "").strip()


def rows_of(lines):
    """The rows of the page's tables of clauses, each with the number of its line."""
    inside = False
    for number, line in enumerate(lines, 1):
        if not line.startswith("|"):
            inside = False
        elif cells_of(line) == HEAD:
            inside = True
        elif inside and not set(line) <= set("|- "):
            yield number, cells_of(line)


def faults_in_rows(lines, repository):
    for number, cells in rows_of(lines):
        if len(cells) != len(HEAD):
            yield number, f"the row has {len(cells)} columns"
            continue
        clauses, other = names_in(cells[1])
        if other or not clauses:
            yield number, f"clauses, and no other words, stand in the second column, not '{cells[1]}'"
        yield from ((number, f"there is no clause {it}") for it in clauses if not repository.has_clause(it))
        trials, other = names_in(cells[2])
        if other and not re.match(r"none[:;] \w", cells[2]) or not trials and not other:
            yield number, f"trials, or 'none: why', stand in the third column, not '{cells[2]}'"
        yield from ((number, f"there is no {it}") for it in trials if not repository.has_trial(it))


def faults_in_aims(lines):
    """Each aim has a table, and a line on what lies outside."""
    if AIMS not in lines:
        yield 1, f"there is no heading '{AIMS}'"
        return
    begin = lines.index(AIMS) + 1
    end = next((at for at in range(begin, len(lines)) if lines[at].startswith("## ")), len(lines))
    starts = [at for at in range(begin, end) if lines[at].startswith("### ")]
    if not starts:
        yield begin, "there is no aim"
    for at, after in zip(starts, [*starts[1:], end]):
        if not list(rows_of(lines[at:after])):
            yield at + 1, "the aim has no table of clauses"
        if not any(it.startswith(OUTSIDE) for it in lines[at:after]):
            yield at + 1, "the aim doesn't say what lies outside"


def faults_in_code(lines):
    """Code under the name of a file stands there, line by line."""
    for number, line in enumerate(lines, 1):
        if not (shown := re.fullmatch(r"```rattle (\S+)", line)):
            continue
        file = TOP / shown[1]
        end = lines.index("```", number)
        code = "\n".join(it.strip() for it in lines[number:end])
        there = "\n".join(it.strip() for it in file.read_text().split("\n")) if file.is_file() else ""
        if not code or code not in there:
            yield number, f"the code isn't in {shown[1]}"


def faults_in(text, repository):
    lines = text.split("\n")
    yield from faults_in_rows(lines, repository)
    yield from faults_in_aims(lines)
    yield from faults_in_code(lines)
    if NO_CLAIM not in text:
        yield 1, f"it doesn't say '{NO_CLAIM}'"
    for number, line in enumerate(lines, 1):
        yield from ((number, f"there is no {it}") for it in PATH.findall(line) if not (TOP / it.rstrip(".")).exists())


def passes_changed(text, repository):
    """The names of the tables that could be wrong and the page would still pass, each with the number of its line."""
    lines = text.split("\n")
    for number, cells in rows_of(lines):
        for name in names_in(cells[1])[0] + names_in(cells[2])[0]:
            changed = [*lines]
            changed[number - 1] = changed[number - 1].replace(f"`{name}`", f"`{name}_not`")
            if not any(True for _ in faults_in_rows(changed, repository)):
                yield number, f"a wrong {name} would pass"


def main():
    if len(sys.argv) > 2:
        sys.exit(__doc__)
    page = pathlib.Path(sys.argv[1]) if len(sys.argv) == 2 else PAGE
    try:
        text = page.read_text()
    except OSError as error:
        sys.exit(f"{page}: {error.strerror}")
    repository = Repository()
    faults = [*faults_in(text, repository), *passes_changed(text, repository)]
    for number, fault in faults:
        print(f"{page}:{number}: {fault}")
    named = sum(len(names_in(cells[1])[0] + names_in(cells[-1])[0]) for _, cells in rows_of(text.split("\n")))
    print(f"{max(0, named - len(faults))} passed, {len(faults)} failed")
    return 0 if named and not faults else 1


if __name__ == "__main__":
    sys.exit(main())
