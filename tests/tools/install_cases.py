"""Cases of tools/install, of the man pages and of the completion; and what all tools have in common."""
import os
import re
import shutil

from harness import TOOLS, TOP, Wrong, has, program, room, run, same, tool

PAGES = sorted((TOP / "docs" / "man").glob("*.[15]"))
COMMANDS = ["show", "make", "device", "press", "select", "alive"]


def files_below(folder):
    return sorted(str(it.relative_to(folder)) for it in folder.rglob("*") if it.is_symlink() or not it.is_dir())


def install(*words, **env):
    return tool("install", *words, "--program", program(), env={key: str(value) for key, value in env.items()})


def try_an_installation_works_and_goes_away():
    with room() as folder:
        prefix = folder / "usr"
        done = install(prefix)
        same("install", (done.status, done.err), (0, ""))
        listed = [line for line in (prefix / "lib/kvm/installed-files").read_text().splitlines()]
        same("the list", sorted(line.removeprefix(f"{prefix}/") for line in listed if not line.endswith("/")), files_below(prefix))
        same("the program", (prefix / "bin/kvm").read_bytes(), program().read_bytes())
        for path in ("bin/kvc", "bin/kvm-judge", "bin/kvm-check-rules", "share/man/man1/kvm.1", "share/man/man5/kvm-rules.5",
                     "share/man/man5/kvm-capture.5", "share/bash-completion/completions/kvc"):
            same(f"{path} is there", (prefix / path).is_file(), True)
        rules = run([prefix / "bin/kvm-check-rules", TOP / "examples/rules/rules.toml"], cwd=folder)
        same("the installed tool with the installed program", (rules.status, rules.text, rules.err), (0, "allow 4\ndeny 3\n", ""))
        has("its name", run([prefix / "bin/kvm-judge", "--help"]).text, "kvm-judge keyboard lsusb.txt")
        same("kvc", run([prefix / "bin/kvc", "alive"]).status, 0)
        run([prefix / "bin/kvc", "alive"], env={"PYTHONDONTWRITEBYTECODE": ""})
        same("once more", install(prefix).status, 0)
        own = prefix / "share/man/man1/own.1"
        own.write_text("")
        gone = tool("install", "--remove", prefix)
        same("remove", gone.status, 0)
        same("what is left", files_below(prefix), ["share/man/man1/own.1"])
        has("what it says", gone.err, f"{prefix}/share/man/man1: stays")
        again = tool("install", "--remove", prefix)
        same("remove where nothing is", again.status, 2)
        has("remove where nothing is", again.err, "installed-files: there is no such list")


def try_destdir_is_honoured():
    with room() as folder:
        done = install("/opt/kvm", DESTDIR=folder / "package")
        same("install", (done.status, done.err), (0, ""))
        same("the folder", [it.name for it in folder.iterdir()], ["package"])
        listed = (folder / "package/opt/kvm/lib/kvm/installed-files").read_text()
        same("no path of the package", str(folder) in listed, False)
        has("the list", listed, "/opt/kvm/bin/kvm\n")
        links = [it for it in (folder / "package").rglob("*") if it.is_symlink()]
        same("links within it", [it for it in links if os.path.isabs(os.readlink(it)) or not it.exists()], [])
        same("the tool in the package", run([folder / "package/opt/kvm/bin/kvc", "alive"]).status, 0)
        same("remove", tool("install", "--remove", "/opt/kvm", env={"DESTDIR": str(folder / "package")}).status, 0)
        same("what is left", files_below(folder), [])


def try_files_of_others_stay():
    with room() as folder:
        (folder / "bin").mkdir()
        (folder / "bin/kvm").write_text("another program\n")
        done = install(folder)
        same("the status", done.status, 2)
        has("what it says", done.err, "bin/kvm: is there already and isn't of an earlier installation; --force writes over it")
        same("nothing was written", files_below(folder), ["bin/kvm"])
        same("with --force", install(folder, "--force").status, 0)
        same("the program", (folder / "bin/kvm").read_bytes(), program().read_bytes())
        (folder / "file").write_text("")
        has("a file as the prefix", install(folder / "file").err, "file: File exists")
        no_program = tool("install", folder / "x", "--program", folder / "none")
        same("no program", no_program.status, 2)
        has("no program", no_program.err, "none: no program is there")


def try_man_pages_are_right():
    same("the pages", {"kvm.1", "kvm-rules.5", "kvm-capture.5"} <= {page.name for page in PAGES}, True)
    for page in PAGES:
        text = page.read_text()
        has(page.name, text, f".Dt {page.stem.upper()} {page.suffix[1:]}\n")
        if max(map(len, text.splitlines())) > 80:
            raise Wrong(f"{page.name} has a line of more than 80 columns")
    if shutil.which("mandoc"):
        done = run(["mandoc", "-Tlint", *PAGES])
        same("mandoc -Tlint", (done.status, done.text + done.err), (0, ""))
    else:
        print("note: mandoc isn't there, so the man pages weren't judged by it")


def options_in(text):
    """The options that a tool's help tells."""
    words = text.split("options:")[1].split("\n\n")[0].replace(",", " ").split()
    return {word for word in words if word.startswith("--") and word != "--help"}


def try_man_pages_tell_all_options():
    for name, page in (("judge", "kvm-judge.1"), ("check-rules", "kvm-check-rules.1"), ("timeline", "kvm-timeline.1")):
        text = (TOP / "docs/man" / page).read_text()
        for option in options_in(tool(name, "--help").text):
            has(page, text, f"Fl -{option[2:]}")
    text = (TOP / "docs/man/kvc.1").read_text()
    for command in COMMANDS:
        has("kvc.1", text, f".It Cm {command}\n")
        for option in options_in(tool("kvc", command, "--help").text):
            has("kvc.1", text, f"Fl -{option[2:]}")


def try_the_example_of_the_man_page_runs():
    page = (TOP / "docs/man/kvm.1").read_text()
    session, log = (part.split("\n.Ed")[0].split("\n", 1)[1] for part in page.split(".Bd -literal -offset indent")[1:])
    with room() as folder:
        (folder / "kvm").symlink_to(program())
        done = run(["bash", "-e", "-c", session], cwd=folder, env={"PATH": f"{folder}:{TOOLS}:{os.environ['PATH']}"})
        same("the example", (done.status, done.err), (0, ""))
        same("the log", (folder / "rules.log").read_text(), log + "\n")


COMPLETIONS = [
    ("kvm", ["kvm", "r"], "replay"), ("kvm", ["kvm", ""], "replay check"), ("kvm", ["kvm", "replay", ""], ""),
    ("kvc", ["kvc", "s"], "show select"), ("kvc", ["kvc", "device", ""], "keyboard mouse token --help"),
    ("kvc", ["kvc", "make", "--ports", ""], "2 3 4 5 6 7 8"), ("kvc", ["kvc", "press", "print"], "print-screen"),
    ("kvc", ["kvc", "show", "--e"], "--explain"), ("kvm_judge", ["kvm-judge", "m"], "mouse"),
    ("kvm_judge", ["kvm-judge", "mouse", "a"], "a b.hex"), ("kvm_check_rules", ["kvm-check-rules", "-"], "--quiet --program --help"),
]


def try_words_are_completed():
    with room() as folder:
        (folder / "a b.hex").write_text("")
        for function, words, wanted in COMPLETIONS:
            quoted = " ".join(f"'{word}'" for word in words)
            text = f"source '{TOOLS}/completion/kvm.bash'; COMP_WORDS=({quoted}); COMP_CWORD={len(words) - 1}; _{function}; echo \"${{COMPREPLY[*]}}\""
            done = run(["bash", "-c", text], cwd=folder, env={"PATH": f"{TOOLS}:{os.environ['PATH']}"})
            same(f"the completion of {words}", (done.text, done.err), (f"{wanted}\n", ""))


def try_each_tool_tells_of_itself():
    tools = [it for it in sorted(TOOLS.iterdir()) if it.is_file() and os.access(it, os.X_OK)]
    if len(tools) < 4:
        raise Wrong(f"only {len(tools)} tools")
    for each in tools:
        done = run([each, "--help"])
        same(f"{each.name} --help", (done.status, done.err), (0, ""))
        has(f"{each.name} --help", done.text, "exit status:")
        if max(map(len, done.text.splitlines())) > 80:
            raise Wrong(f"{each.name} --help has a line of more than 80 columns")
        wrong = run([each, "--no-such-word"])
        same(f"{each.name} with a word that it doesn't know", (wrong.status != 0, wrong.out), (True, b""))


def try_options_are_completed_as_they_are():
    """Each option that a tool has is offered, and no other."""
    text = (TOOLS / "completion/kvm.bash").read_text()
    for name, function in (("judge", "_kvm_judge"), ("check-rules", "_kvm_check_rules"), ("timeline", "_kvm_timeline")):
        part = text.split(f"{function}()")[1].split("\n}")[0]
        same(f"the options of {name}", offered(part), options_in(tool(name, "--help").text))
    for command in COMMANDS:
        part = text.split(f"        {command})")[1].split(";;")[0]
        same(f"the options of kvc {command}", offered(part), options_in(tool("kvc", command, "--help").text))


def offered(part):
    """The options in a part of the completion."""
    return {word for word in re.findall(r'--[a-z-]+(?=[ "])', part) if word != "--help"}
