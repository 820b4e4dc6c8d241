#!/usr/bin/env python3
"""Tries what `sipd check --show` says of refused files, and what it warns of: `tests/mistakes.py PROGRAM [WORD ..]`, after `rt run` in
crates/sipd. Each mistake is one change of `examples/office.toml`; what has to be said is its line, as it stands in the changed file,
its table, its key, and a word of what would do; of a file that is taken, the warning. The words after the program come before the file, `check --show --config` where none are given.
It prints a line for each mistake that isn't told so, and ends with 1 where there is one."""

import os
import subprocess
import sys
import tempfile

OFFICE = os.path.join(os.path.dirname(os.path.abspath(__file__)), "..", "examples", "office.toml")
PROGRAM = sys.argv[1]
WORDS = sys.argv[2:] or ["check", "--show", "--config"]

# what is changed (the first of these texts), into what, and what has to be said; `@` is the line of what it was changed into
CHANGED = [
    ("port = 5060", "port = ", ["line @: ", "not TOML"]),
    ("port = 5060", "port = 5060\nport = 5061", ["line ", "not TOML"]),
    ("version = 2", "version = 3", ["line @: ", "version", "1 or 2"]),
    ("version = 2", "verson = 2", ["line @: ", "missing: version", "not known: verson"]),
    ("offset = 60", "offset = 6000", ["line @: ", "offset", "-720 to 840"]),
    ("offset = 60", 'offset = "60"', ["line @: ", "offset", "-720 to 840"]),
    ('realm = "office"', "", ["missing: realm"]),
    ('realm = "office"', 'relm = "office"', ["line @: ", "missing: realm", "not known: relm"]),
    ('realm = "office"', 'realm = ""', ["line @: ", "realm", "1 to 128"]),
    ('host = "127.0.0.1"', 'host = "a b"', ["line @: ", "host", "host name"]),
    ("port = 5060", "port = 0", ["line @: ", "port", "1 to 65535"]),
    ("port = 5060", 'port = "5060"', ["line @: ", "port", "1 to 65535"]),
    ('address = "127.0.0.1:5060"', 'address = "127.0.0.1"', ["line @: ", "address", "IP:PORT"]),
    ('address = "127.0.0.1:5060"', 'address = "sip.office.local:5060"', ["line @: ", "address", "IP:PORT"]),
    ('domains = ["office.local", "127.0.0.1"]', "domains = []", ["line @: ", "domains", "1 to 16"]),
    ('domains = ["office.local", "127.0.0.1"]', 'domains = "office.local"', ["line @: ", "domains", "list"]),
    ("port = 5060", "log = 1\nport = 5060", ["line @: ", "not known: log", "realm"]),
    ('name = "bob"', 'name = "alice"', ["[[user]] number 2: ", "name", "before"]),
    ('name = "bob"', 'name = "bob smith"', ["line @: ", "[[user]] number 2: ", "name", "1 to 64"]),
    ('name = "bob"', "name = 7", ["line @: ", "[[user]] number 2: ", "name", "1 to 64"]),
    ('a1 = "dbcb', 'a1 = "DBCB', ["line @: ", "[[user]] number 2: ", "a1", "lower case"]),
    ('a1 = "dbcb', 'a1 = "', ["[[user]] number 2: ", "a1", "32 hexadecimal"]),
    ('a1 = "dbcb', 'al = "dbcb', ["line @: ", "[[user]] number 2: ", "missing: a1", "not known: al"]),
    ('a1 = "dbcb', 'a1 = "$apr1$dbcb', ["line @: ", "[[user]] number 2: ", "a1", "32 hexadecimal"]),
    ('groups = ["staff"]', 'groups = "staff"', ["line @: ", "[[user]] number 1: ", "groups", "list"]),
    ('address = "127.0.0.1:5090"', 'address = "127.0.0.1:99999"', ["line @: ", "[[hop]] number 1: ", "address", "IP:PORT"]),
    ('name = "gateway"', 'nam = "gateway"', ["line @: ", "[[hop]] number 1: ", "missing: name", "not known: nam"]),
    ("port = 5070", 'port = "5070"', ["line @: ", "[[host_address]] number 1: ", "port", "1 to 65535"]),
    ('host = "desk.office.local"', 'host = "desk office"', ["line @: ", "[[host_address]] number 1: ", "host"]),
    ("id = 2", "id = 1000000", ["line @: ", "[[rule]] number 2: ", "id", "999999"]),
    ("id = 2", "id = 1", ["[[rule]] number 2: ", "id", "before"]),
    ("id = 2", "id = 2\nnote = 1", ["line ", "[[rule]] number 2: ", "not known: note", "verdict"]),
    ("id = 2", "id = 2\nfrom = 480", ["line ", "[[rule]] number 2: ", "from", "until"]),
    ("id = 2", "id = 2\nfrom = 480\nuntil = 480", ["line ", "[[rule]] number 2: ", "differ"]),
    ('op = "list"', 'opertion = "list"', ["line @: ", "[[rule]] number 2: ", "missing: op", "not known: opertion"]),
    ('op = "list"', 'op = "invite"', ["line @: ", "[[rule]] number 2: ", "op", "send METHOD"]),
    ('op = "send INVITE"', 'op = "send ACK"', ["line @: ", "[[rule]] number 5: ", "op", "send METHOD"]),
    ('who = "group staff"', 'who = "user zazu"', ["line @: ", "[[rule]] number 5: ", "who", "configured"]),
    ('who = "group staff"', 'who = "group staf"', ["line @: ", "[[rule]] number 5: ", "who", "[[user]]"]),
    ('who = "group staff"', 'who = "staff"', ["line @: ", "[[rule]] number 5: ", "who", "group NAME"]),
    ('target = "9*@office.local"', 'target = "9*"', ["line @: ", "[[rule]] number 5: ", "target", "PREFIX*@DOMAIN"]),
    ('target = "9*@office.local"', 'target = "sip:9*@office.local:5060"', ["line @: ", "[[rule]] number 5: ", "target"]),
    ('verdict = "via gateway"', 'verdict = "via gatway"', ["line @: ", "[[rule]] number 5: ", "verdict", "[[hop]]"]),
    ('verdict = "via gateway"', 'verdict = "gateway"', ["line @: ", "[[rule]] number 5: ", "verdict", "via HOP"]),
    ("until = 1080", "until = 1440", ["[[rule]] number 5: ", "1439"]),
    # one table, or a list by another name, for a list of tables: alone, and beside that list
    ("[[hop]]", "[hop]", ["line @: ", "hop", "in place of [hop] write [[hop]]"]),
    ("[[host_address]]", "[host_address]", ["line @: ", "in place of [host_address] write [[host_address]]"]),
    ("[[host_address]]", "[[address]]", ["line @: ", "in place of [[address]] write [[host_address]]"]),
    ("[[host_address]]", "[ address ]", ["line @: ", "in place of [address] write [[host_address]]"]),
    ("[[user]]", "[user]", ["not TOML", "line @: ", "in place of [user] write [[user]]"]),
    ("[[rule]]", "[rule]", ["not TOML", "line @: ", "in place of [rule] write [[rule]]"]),
    # files that are taken, and seldom meant
    ('host = "127.0.0.1"', 'host = "0.0.0.0"', ["warning: host is 0.0.0.0"]),
    ("send INVITE", "send invite", ["warning: rule 5 ", "capitals"]),
    ("send PUBLISH", "send Publish", ["warning: rule 3 ", "capitals"]),
    ("# a1_sha256", "a1_sha256", ["warning: some users have a1_sha256"]),
]


def first_line(text, part):
    """The number of the first line of a text that has the part's first line."""
    wanted = part.split("\n")[0]
    return next((at + 1 for at, line in enumerate(text.split("\n")) if line.startswith(wanted)), 0)


def told(folder, text):
    path = os.path.join(folder, "changed.toml")
    with open(path, "wb") as file:
        file.write(text if isinstance(text, bytes) else text.encode())
    done = subprocess.run([PROGRAM, *WORDS, path], stdin=subprocess.DEVNULL, capture_output=True, timeout=60)
    return done.stdout.decode() + done.stderr.decode()


def main():
    with open(OFFICE, encoding="utf-8") as file:
        office = file.read()
    cases = []
    for old, new, wanted in CHANGED:
        assert old in office, old
        text = office.replace(old, new, 1)
        number = office[: office.index(old)].count("\n") + 1
        cases.append((new, text, [part.replace("@", str(number)) if part == "line @: " else part for part in wanted]))
    moved = office.replace("port = 5060\n", "", 1) + "port = 5060\n"
    last = moved.rstrip("\n").count("\n") + 1
    cases.append(("port at the end", moved, ["missing: port", "above all tables", f"line {last}: ", "[[rule]]"]))
    cases.append(("an empty file", "", ["missing: version"]))
    head = office[: office.index("# A user")]
    cases.append(("no users", head, ["missing: user", "[[user]]"]))
    one = head + '[user]\nname = "a"\na1 = "11111111111111111111111111111111"\n'
    cases.append(("one table", one, [f"line {first_line(one, '[user]')}: ", "user", "[[user]]", "in place of [user]"]))
    many = office.replace('["office.local", "127.0.0.1"]', "[" + ", ".join(f'"d{n}"' for n in range(17)) + "]", 1)
    cases.append(("17 domains", many, [f"line {first_line(many, 'domains')}: ", "domains", "16"]))
    cases.append(("UTF-16", b"\xff\xfe" + office.encode("utf-16-le"), ["line 1: ", "UTF-16", "UTF-8"]))
    cases.append(("UTF-16, the other way round", b"\xfe\xff" + office.encode("utf-16-be"), ["line 1: ", "UTF-16", "UTF-8"]))
    latin = office.replace("# bob", "# J\u00f6rg", 1)
    place = latin.index("\u00f6")
    wanted = [f"line {latin[:place].count(chr(10)) + 1}: ", "not UTF-8", f"byte {place + 1} of the file"]
    cases.append(("Latin-1", latin.encode("latin-1"), wanted))
    wrong = 0
    with tempfile.TemporaryDirectory() as folder:
        for name, text, wanted in cases:
            said = told(folder, text)
            lacks = [part for part in wanted if part not in said]
            if lacks:
                wrong += 1
                print(f"{name!r}: lacks {lacks} in {said!r}")
    print(f"{len(cases)} mistakes, {wrong} not told")
    return 1 if wrong else 0


if __name__ == "__main__":
    sys.exit(main())
