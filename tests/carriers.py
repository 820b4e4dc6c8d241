#!/usr/bin/env python3
"""The table of carriers in docs/PROVED.md, made from the code: `tests/carriers.py` writes it between its two marks, and
`tests/carriers.py --check` says whether the page has the table of the code as it is. It proves nothing and takes a second.

A carrier is a function, a method or a trait with an `ensures` that others can name: what `lib.rt` passes on with `pub use`, or what
stands in a `pub mod`. A type that meets a trait with clauses is one, too. A function that takes nothing, or gives nothing and does
nothing, is a law or a worked example; the examples are counted, those of a module whose name says so. In place of more than forty
names stand their modules, each with its number."""

import os
import re
import sys
from collections import Counter

TOP = os.path.dirname(os.path.dirname(os.path.abspath(__file__)))
CRATES = os.path.join(TOP, "crates")
PAGE = os.path.join(TOP, "docs", "PROVED.md")
BEGIN, END = "<!-- carriers: tests/carriers.py -->", "<!-- end of carriers -->"
MOST = 40
ITEM = re.compile(r"(?:pub(?:\(\w+\))? )?(?:fn|trait|impl)\b")
CLAUSE = re.compile(r"(?m)^\s+ensures\b")


def modules_of(room):
    """The modules of a crate: for each its path, its text without comments, and whether others can name what it declares."""
    found = []

    def add(path, is_public):
        base = "/".join([CRATES, room, "src", *(path or ["lib"])])
        with open(base + ".rt" if os.path.exists(base + ".rt") else base + "/mod.rt", encoding="utf-8") as file:
            text = re.sub(r"(?m)^\s*//.*\n", "", file.read())
        found.append((path, text, is_public))
        for mark, name in re.findall(r"(?m)^(pub )?mod (\w+);", text):
            add(path + [name], is_public and mark != "")

    add([], True)
    return found


def items_of(text):
    """Functions, traits and impl blocks, each up to the brace that closes it at the front of a line."""
    rows = []
    for row in text.splitlines():
        if rows or ITEM.match(row):
            rows.append(row)
        if rows and (row[:1] == "}" or row[:1] not in (" ", "") and row.endswith("{}")):
            yield "\n".join(rows)
            rows = []


def passed_on(modules):
    """The names that a crate passes on of its own modules."""
    own, names = [path for path, _, _ in modules], set()
    for path, text, is_public in modules:
        text = re.sub(r"(?ms)^pub mod \w+ \{.*?^\}", "", text)
        for home, listed in re.findall(r"(?m)^pub use (\w+)::(\w+|\{[^}]*\});", text):
            if is_public and path + [home] in own:
                names.update(re.findall(r"\w+", listed))
    return names


def header(item):
    """What a block is of: the trait, if it meets one, and the type, without their parameters."""
    text = re.sub(r"\s+", " ", item.split("{")[0]).replace("->", "")
    while re.search(r"<[^<>]*>", text):
        text = re.sub(r"<[^<>]*>", "", text)
    found = re.match(r"(?:impl|pub trait) (?:([\w:]+) for )?(\w+)", text)
    return found.groups() if found else (None, None)


def is_law(function):
    front = function.partition(" ensures")[0]
    return "->" not in front and ("()" in front or function.endswith("{}"))


def methods(item):
    """The methods of a block that others can call, with an `ensures`."""
    form = re.compile(r"    fn (\w+)" if item.startswith("pub trait") else r"    pub fn (\w+)")
    parts = re.split(r"(?m)^(?=    (?:pub(?:\(\w+\))? )?fn )", item)[1:]
    return [form.match(part).group(1) for part in parts if form.match(part) and CLAUSE.search(part)]


def carriers(room, traits):
    """The calls, the laws and the worked examples of a crate, each with its module."""
    modules = modules_of(room)
    names = passed_on(modules)
    calls, laws, examples = [], [], []
    for path, text, is_public in modules:
        at = path[-1] if path else "lib"
        for item in items_of(text):
            function = re.match(r"pub fn (\w+)", item)
            trait, owner = (None, function.group(1)) if function else header(item)
            if not is_public and owner not in names:
                continue
            if trait:
                calls += [(at, f"{owner} as {trait}")] if trait in traits else []
            elif not function:
                calls += [(at, f"{owner}::{method}") for method in methods(item)]
            elif CLAUSE.search(item):
                kind = calls if not is_law(item) else examples if any("example" in part for part in path) else laws
                kind.append((at, f"{at}::{owner}" if kind is laws and is_public and "laws" not in at else owner))
    return calls, laws, examples


def listed(found):
    """Names in code marks, those of one type or module together; or, of many, modules and their numbers."""
    if len(found) > MOST:
        return ", ".join(f"`{at}` {count}" for at, count in sorted(Counter(at for at, _ in found).items()))
    owned = {}
    for owner, mark, name in (name.rpartition("::") for _, name in found):
        owned.setdefault(owner + mark, []).append(name)
    free = sorted(owned.pop("", []))
    groups = [owner + (names[0] if len(names) == 1 else f"{{{', '.join(sorted(names))}}}") for owner, names in sorted(owned.items())]
    return ", ".join(f"`{name}`" for name in free + groups)


def table():
    """The number of carriers, and the table, a row for each crate that has some."""
    rooms = sorted(room for room in os.listdir(CRATES) if os.path.exists(os.path.join(CRATES, room, "src", "lib.rt")))
    items = [item for room in rooms for _, text, _ in modules_of(room) for item in items_of(text)]
    traits = {header(item)[1] for item in items if item.startswith("pub trait") and methods(item)}
    rows, total = [], Counter()
    for room in rooms:
        calls, laws, examples = carriers(room, traits)
        total.update(calls=len(calls), laws=len(laws), examples=len(examples))
        if calls or laws or examples:
            rows.append(f"| `{room}` | {listed(calls)} | {listed(laws)} | {len(examples) or ''} |")
    count = f"{total['calls']} calls, {total['laws']} laws and {total['examples']} worked examples of {len(rows)} crates."
    return "\n".join([count, "", "| Crate | Calls | Laws | Examples |", "|---|---|---|---|", *rows])


def main():
    with open(PAGE, encoding="utf-8") as file:
        front, _, rest = file.read().partition(BEGIN)
    old, mark, back = rest.partition(END)
    if not mark:
        sys.exit(f"{PAGE}: without {BEGIN} and {END}")
    new = f"\n\n{table()}\n\n"
    if "--check" in sys.argv[1:]:
        for row in sorted(set(old.splitlines()) ^ set(new.splitlines())):
            print(f"{'only on the page' if row in old.splitlines() else 'only in the code'}: {row}")
        sys.exit(old != new)
    with open(PAGE, "w", encoding="utf-8") as file:
        file.write(f"{front}{BEGIN}{new}{END}{back}")


main()
