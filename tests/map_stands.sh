#!/bin/sh
# Whether each name in the tables of docs/MAP.md stands where the page says: a room in crates.txt, a file, a function,
# constant or type in that file, a definition in its module of specs, a stored run, a test or a trial; and whether each function
# that decides stands in one row alone. Proves nothing and takes a second.
cd "$(dirname "$0")/.." || exit 2
exec python3 - <<'PY'
import os
import re
import sys

PAGE = "docs/MAP.md"
RUNS = "crates/test_server/data"
TABLES = {
    "Section": ["Section", "About", "Room", "Decided by", "File", "Definition"],
    "To change": ["To change", "Room", "Go to", "File", "Definition"],
    "Tried": ["Tried", "About", "Stored runs", "Tests and trials"],
}
LONGEST = 300
NAME = re.compile(r"`([^`]+)`")
TRIALS = re.compile(r"`([\w/.]+)`: ((?:`\w+`(?:, )?)+)")
DEFINITION = re.compile(r"`(\w+) (specs/\w+)`: ((?:`\w+`(?:, )?)+)")
ROOMS = {line.split(":")[0].strip() for line in open("crates.txt", encoding="utf-8")}
texts = {}


def text(path):
    if path not in texts:
        texts[path] = open(path, encoding="utf-8").read() if os.path.exists(path) else None
    return texts[path]


def cells(line):
    return [cell.strip() for cell in line.strip().strip("|").split("|")]


def blocks_of(code, owner):
    """The impl blocks of a type, each up to the brace that closes it at the front of a line."""
    return [m.group() for m in re.finditer(r"(?ms)^impl\b[^{]*?\b" + owner + r"\b[^{]*\{.*?^\}", code)]


def stands(code, name):
    """Whether a file has a function, constant or type of this name, or a method of this type."""
    owner, _, item = name.rpartition("::")
    if owner:
        return any(re.search(r"\bfn " + item + r"\b", block) for block in blocks_of(code, owner))
    return re.search(r"(?m)^(?:pub(?:\(\w+\))? )?(?:fn|const|struct|enum|trait) " + name + r"\b", code) is not None


def is_defined(module, name):
    return re.search(r"(?m)^(?:\w+ )?pub (?:record |data )?" + re.escape(name) + r"(?![\w-])", module) is not None


faults = count = 0


def need(number, good, what):
    global faults
    if not good:
        faults += 1
        print(f"{PAGE}:{number}: {what}")


def check(number, good, what):
    """The same of a name: that of a room, a file, a function or a definition."""
    global count
    count += 1
    need(number, good, what)


def code_of(place):
    """The code of a crate, or the text of a file."""
    if place not in ROOMS:
        return text(place) or ""
    found = [os.path.join(folder, name) for folder, _, names in os.walk(f"crates/{place}/src") for name in names]
    return "\n".join(text(path) for path in found if path.endswith(".rt"))


def check_trials(number, runs, trials):
    """Whether stored runs have files, and a crate or a file has the functions that try; a crate may have a row of that name."""
    for name in NAME.findall(runs):
        check(number, any(file.rpartition(".")[0] == name for file in os.listdir(RUNS)), f"{RUNS}: without {name}")
    found = TRIALS.findall(trials)
    need(number, "; ".join(f"`{of}`: {listed}" for of, listed in found) == trials, "a trial that isn't written as `CRATE`: `name`, or `tests/FILE`: `name`")
    need(number, runs or trials, "nothing that tries it")
    for of, listed in found:
        for name in NAME.findall(listed):
            is_row = of in ROOMS and f'"{name}"' in code_of(of)
            is_there = is_row or re.search(r"(?m)^(?:pub(?:\(\w+\))? )?(?:fn|def) " + name + r"\b", code_of(of))
            check(number, is_there, f"{of}: without {name}")


rows = {kind: 0 for kind in TABLES}
doors = {}
kind = None
for number, line in enumerate(open(PAGE, encoding="utf-8"), 1):
    if not line.startswith("|"):
        kind = None
        continue
    row = cells(line)
    if row[0] in TABLES:
        kind = row[0]
        need(number, row == TABLES[kind], "another header than " + " | ".join(TABLES[kind]))
        continue
    if kind is None or set(line.strip()) <= set("|-"):
        continue
    rows[kind] += 1
    if len(row) != len(TABLES[kind]):
        need(number, False, f"{len(row)} cells in place of {len(TABLES[kind])}")
        continue
    for cell in row:
        need(number, len(cell) <= LONGEST, f"a cell of {len(cell)} characters")
    of = dict(zip(TABLES[kind], row))
    if kind == "Tried":
        check_trials(number, of["Stored runs"], of["Tests and trials"])
        continue
    room, path = of["Room"].strip("`"), of["File"].strip("`")
    check(number, room in ROOMS, f"{room}: not in crates.txt")
    need(number, path.startswith(f"crates/{room}/src/"), f"{path}: not of {room}")
    code = text(path)
    check(number, code is not None, f"{path}: no such file")
    names = NAME.findall(of.get("Decided by") or of["Go to"])
    need(number, names, "no function or constant")
    for name in names:
        check(number, code is not None and stands(code, name), f"{path}: without {name}")
        first = doors.setdefault((path, name), number)
        need(number, first == number, f"{path}: {name} stands in line {first}, too")
    found = DEFINITION.findall(of["Definition"])
    whole = "; ".join(f"`{crate} {module}`: {listed}" for crate, module, listed in found)
    need(number, whole == of["Definition"], "a definition that isn't written as `CRATE specs/Module`: `name`")
    for crate, module, listed in found:
        path = f"crates/{crate}/{module}.antt"
        check(number, crate in ROOMS, f"{crate}: not in crates.txt")
        check(number, text(path) is not None, f"{path}: no such file")
        for name in NAME.findall(listed):
            check(number, text(path) is not None and is_defined(text(path), name), f"{path}: without {name}")
for kind, many in rows.items():
    need(0, many, f"no row under {kind}")
print(f"{count} names, {faults} faults")
sys.exit(1 if faults else 0)
PY
