"""Cases of tools/check-rules: the program's words and status, the places of faults, and hints."""
import random

from harness import TOP, Wrong, has, program, room, run, same, tool
from kvm_tools import rule_file, toml_places

#: A rule file in one line (`;` is the end of a line), what kvm says of it, and where and why it is refused.
REFUSED = r"""
# a;[[deny]];vendor = 0x12zz | rules syntax | 3:14: key vendor:
[[deny]];vendor = 1;vendor = 2 | rules syntax | 3:11: key vendor:
[[deny]];vendor = "abc | rules syntax | 2:14: key vendor:
[[deny]];plug = "\q" | rules syntax | 2:11: key plug:
[deny];vendor = 1 | rules shape root 0 | 1:1: 'deny' is one table: an entry begins with [[deny]], in double brackets
deny = [];[[allows]];vendor = 1 | rules shape root 0 | 2:1: unknown key 'allows': the root has allow and deny alone
allow = 3 | rules shape root 0 | 1:1: 'allow' is a number, and has to be an array of entries
[[allow]];vendor = 1;;[[deny]];class = 8;Vendor = 3 | rules shape deny 1 | 6:1: deny entry 1, key 'Vendor': no such key; there are plug, vendor, product, class; 'vendor' is written in lower case
[[allow]];vendor = 1;[[allow]];vender = 3 | rules shape allow 2 | 4:1: allow entry 2, key 'vender': no such key
deny = [{vendor = 1},;  {plug = "mouse", vendor = "0x1234"}] | rules shape deny 2 | 2:20: deny entry 2, key 'vendor': "0x1234" is no whole number; without quotes it is one
deny = [{vendor = 1}, {class = 256}] | rules shape deny 2 | 1:24: deny entry 2, key 'class': 256 is out of range: 0 to 255
[[deny]];product = -1 | rules shape deny 1 | 2:1: deny entry 1, key 'product': -1 is out of range: 0 to 65535
[[deny]];plug = "Keyboard" | rules shape deny 1 | 2:1: deny entry 1, key 'plug': "Keyboard" is no plug
deny = [{}] | rules shape deny 1 | 1:9: deny entry 1 has no key
[[deny]];;[[deny]];vendor = 1 | rules shape deny 1 | 1:1: deny entry 1 has no key
deny = [{vendor = 1}, 3] | rules shape deny 2 | 1:23: deny entry 2 is a number
[[deny]];vendor = true | rules shape deny 1 | 2:1: deny entry 1, key 'vendor': true is no whole number
[[deny]];vendor = 2020-01-01 | rules shape deny 1 | 2:1: deny entry 1, key 'vendor': 2020-01-01 is no whole number
[[deny]];vendor = 1.0 | rules shape deny 1 | 2:1: deny entry 1, key 'vendor': 1.0 is no whole number
[[deny]];vendor = 1;[deny.more];x = 1 | rules shape deny 1 | 3:1: deny entry 1, key 'more': no such key
[[deny]];"vendor" = 1;more.x = 1 | rules shape deny 1 | 3:1: deny entry 1, key 'more': no such key
"""

#: A rule file that is right, the numbers of its entries, and the hints.
HINTED = r"""
[[deny]];vendor = 1 | 0 1 |
[[deny]];vendor = 0x1234;[[deny]];vendor = 0x1234;product = 7;[[deny]];vendor = 0x1234 | 0 3 | 3:1: hint: deny entry 2 is covered by deny entry 1 (line 1): it never decides + 6:1: hint: deny entry 3 is the same as deny entry 1 (line 1): it never decides
[[deny]];vendor = 1;[[deny]];vendor = 1;plug = "mouse" | 0 2 | 3:1: hint: deny entry 2 is covered by deny entry 1 (line 1): it never decides
[[deny]];vendor = 1;plug = "mouse";[[deny]];vendor = 1 | 0 2 |
[[allow]];vendor = 1;product = 7;[[deny]];vendor = 1 | 1 1 | 1:1: hint: allow entry 1 has no effect: deny entry 1 (line 4) refuses each device that it matches
[[allow]];vendor = 1;[[deny]];vendor = 1;product = 7 | 1 1 |
allow = [] | 0 0 | 1:1: hint: the allow list has no entry, and so it refuses nothing
[[deny]];product = 7 | 0 1 | 2:1: hint: deny entry 1 names a product without its vendor
[[deny]];class = 9 | 0 1 | 2:1: hint: deny entry 1 never decides: F02 refuses hubs (class 9) before the lists are judged
[[deny]];plug = "token";class = 8 | 0 1 | 3:1: hint: deny entry 1 never decides: at the token plug F04 refuses each interface but smart card
[[deny]];plug = "token";class = 11;vendor = 3 | 0 1 |
[[deny]];class = 3 | 0 1 | 2:1: hint: deny entry 1 refuses every keyboard and mouse
[[deny]];plug = "mouse" | 0 1 | 1:1: hint: deny entry 1 refuses every mouse
[[allow]];plug = "keyboard";vendor = 1 | 1 0 | 1:1: hint: no allow entry can match a mouse: A00 refuses every mouse + 1:1: hint: no allow entry can match a token: A00 refuses every token
"""


def rows(table):
    for row in table.strip().split("\n"):
        text, said, wanted = (part.strip() for part in row.split("|"))
        yield text.replace(";", "\n") + "\n", said, wanted


def checked(text, *words, name="site.toml"):
    """What the tool says of a rule file, and what the program says alone."""
    with room() as folder:
        (folder / name).write_bytes(text if isinstance(text, bytes) else text.encode())
        done = tool("check-rules", name, "--program", program(), *words, cwd=folder)
        (folder / "rules.toml").write_bytes((folder / name).read_bytes())
        alone = run([program(), "check"], cwd=folder)
        same(f"the status for {text!r}", done.status, alone.status)
        same(f"the report for {text!r}", done.out, alone.out)
        same(f"the front of the faults for {text!r}", done.err[:len(alone.err)], alone.err)
        return done, done.err[len(alone.err):], alone.err


def try_refused_rules_are_placed():
    for text, fault, wanted in rows(REFUSED):
        done, added, said = checked(text)
        same(f"the program's words for {text!r}", (done.status, said), (2, f"{fault}\n"))
        if not added.startswith(f"site.toml:{wanted}") or added.count("\n") != 1:
            raise Wrong(f"{text!r}: {added!r} isn't site.toml:{wanted}")


def try_odd_rules_are_hinted_at():
    for text, numbers, wanted in rows(HINTED):
        allow, deny = numbers.split()
        done, added, _ = checked(text)
        same(f"the program's words for {text!r}", (done.status, done.text), (0, f"allow {allow}\ndeny {deny}\n"))
        hints = [f"site.toml:{hint}" for hint in wanted.split(" + ") if hint]
        lines = added.splitlines()
        if len(lines) != len(hints) or not all(line.startswith(hint) for line, hint in zip(lines, hints)):
            raise Wrong(f"{text!r}: {lines} isn't {hints}")
        same(f"without hints for {text!r}", checked(text, "--quiet")[1], "")


def try_big_rules_are_placed():
    done, added, said = checked(" " * 65_537)
    same("too big", (done.status, said, added), (2, "rules too-big\n", "site.toml: the file has 65537 bytes, and may have 65536\n"))
    done, added, said = checked("[[allow]]\nvendor = 1\n\n" * 65)
    same("too many", (done.status, said), (2, "rules too-many allow\n"))
    has("too many", added, "site.toml:193:1: allow has 65 entries, and may have 64; this is the 65th")
    done, added, said = checked("[[deny]]\n# café\nvendor = 1\n".encode("latin-1"))
    same("no UTF-8", (done.status, said, added), (2, "rules syntax\n", "site.toml:2:6: byte e9 isn't UTF-8\n"))


def try_the_example_and_no_file():
    example = tool("check-rules", TOP / "examples/rules/rules.toml", "--program", program())
    same("the example", (example.status, example.text, example.err), (0, "allow 4\ndeny 3\n", ""))
    with room() as folder:
        done = tool("check-rules", cwd=folder, env={"KVM": str(program())})
        same("no file", (done.status, done.text), (0, "allow 0\ndeny 0\n"))
        same("no file", done.err, "rules.toml: hint: there is no such file; without one the fixed rules alone decide\n")
        for words, wanted in ((["."], ".: Is a directory"), (["--quit"], "unrecognized arguments: --quit"),
                              (["a", "b"], "unrecognized arguments: b"), (["--program", "no"], "no: no program is there, and --program names it")):
            done = tool("check-rules", *words, cwd=folder, env={} if "--program" in words else {"KVM": str(program())})
            same(f"{words}", (done.status, done.out), (1, b""))
            has(f"{words}", done.err, wanted)
        same("nothing is left behind", list(folder.iterdir()), [])


def try_places_are_those_of_the_text():
    """Documents made of known pieces: each key and entry is found at the line and column at which it was put."""
    random_one = random.Random(4)
    for number in range(500):
        text, wanted = made_document(random_one)
        found = toml_places.places(text)
        for path, place in wanted.items():
            same(f"the place of {path} in document {number}, {text!r}", found.get(path), place)
        rule_file.Rules(text.encode())


def made_document(random_one):
    text, wanted = "", {}

    def put(piece, path=None):
        nonlocal text
        if path is not None:
            wanted[path] = (text.count("\n") + 1, len(text) - (text.rfind("\n") + 1) + 1)
        text += piece

    values = ["1", "0x12", '"a"', '"a#]}\\""', "'\\'", "[1, 2]", '[ "]", # no\n 3 ]', "{x = 1, y = '}'}", '"""a\n"b" \\""""', "1979-05-27", "true", "'''\n''x'''"]
    for name in ("allow", "deny"):
        if random_one.random() < 0.3:
            put(f"{name} ", (name,))
            put("= [ ")
            for entry in range(random_one.randint(0, 3)):
                put(random_one.choice(["", "\n", " # ]\n\n  "]))
                put("{", (name, entry))
                put(" ")
                put(random_one.choice(["vendor", '"vendor"', "'vendor'"]), (name, entry, "vendor"))
                put(f" = {random_one.choice(values)}, ")
                put("plug", (name, entry, "plug"))
                put("=1}, ")
            put("]\n")
    for name in ("Allow", "Deny"):
        for entry in range(random_one.randint(0, 3)):
            put(random_one.choice(["", "\n", "# [[x]]\n", "  "]))
            put(f"[[ {name} ]]", (name, entry))
            put(random_one.choice(["\n", " # x\n"]))
            for key in ("a", "b-c", "d"):
                put(random_one.choice(["", "\t", "\n\n"]))
                put(key, (name, entry, key))
                put(f" = {random_one.choice(values)}\n")
    return text, wanted
