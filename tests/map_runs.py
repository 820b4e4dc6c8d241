#!/usr/bin/env python3
"""Whether a program has each function that docs/MAP.md leads to: `tests/map_runs.py [SIPD [TEST_SERVER]]`. tests/map_stands.sh says
that it stands in its file, this says that it is called: a program that is built without a proof has each function that it calls
as a symbol of its own, none inlined, and no other function.

What a row of a section or of a change names has to be in `sipd`; what a trial names in `test_server`, where it is of a crate. What isn't
there has its reason in WITHOUT. A program that isn't given is built, in two to five minutes each; `KEPT` names a folder where they are
kept, as those of tests/plant_edges.py, and which has to be emptied for a changed tree. It needs `nm`. No gate runs this. It ends with 1
where a function isn't there, or a reason is told of one that is."""

import contextlib
import os
import re
import subprocess
import sys
import tempfile

from double_edits import TOP, USES
from plant_edges import built, planted, toolchain, unchanged

PAGE = os.path.join(TOP, "docs", "MAP.md")
NAME = re.compile(r"`([^`]+)`")
TRIALS = re.compile(r"`(\w+)`: ((?:`\w+`(?:, )?)+)")
# The functions that no program calls, or `test_server` alone, and why the page names them all the same.
WITHOUT = {
    "sip_replay::recorded_laws::replay_prints_what_was_served": "a law of what two functions do, which nothing calls",
    "model_laws::headline::access_is_the_headline": "a law over histories, which nothing calls",
    r"sip_engine::(?:\w+::)*Engine(?:Drop|Model)?::is_same": "whether two servers go on alike is asked by tests alone yet",
    r"sip_location::(?:\w+::)*Locations(?:Model)?::is_same": "the same of their bindings",
    r"sip_digest::(?:\w+::)*Nonces(?:Model)?::is_same": "the same of their nonces",
    r"sip_dialog::(?:\w+::)*Dialogs(?:Model)?::is_same": "the same of their dialogs",
}


def rows():
    """The rows of the page's tables with their lines, each cell by its header."""
    header = None
    for number, line in enumerate(open(PAGE, encoding="utf-8"), 1):
        cells = [cell.strip() for cell in line.strip().strip("|").split("|")]
        if not line.startswith("|"):
            header = None
        elif header is None:
            header = cells
        elif not set(line.strip()) <= set("|-"):
            yield number, dict(zip(header, cells))


def text(path):
    with open(path, encoding="utf-8") as it:
        return it.read()


def symbol_of(room, path, name):
    """How the symbol of a function reads, and of a method: the type's module is another one than the file's where its methods stand
    apart, and a trait's name stands behind the type's. None where the name is of a constant or a type."""
    code, (owner, _, item) = text(os.path.join(TOP, path)), name.rpartition("::")
    if not owner:
        parts = [part for part in path.partition("/src/")[2][: -len(".rt")].split("/") if part not in ("lib", "main")]
        found = re.search(rf"(?m)^(?:pub(?:\(\w+\))? )?(?:const )?fn {item}\b", code)
        return "::".join((room, *parts, item)) if found else None
    traits = re.findall(rf"(?m)^impl\b[^{{]*?(\w+)(?:<[^{{]*?>)? for {owner}\b", code)
    return rf"{room}::(?:\w+::)*{owner}(?:{'|'.join(traits)})?::{item}"


def is_function(crate, name):
    """Whether a crate has a function of this name: a case may be a row of a table, which `tell_all` goes through."""
    folders = os.walk(os.path.join(TOP, "crates", crate, "src"))
    return any(re.search(rf"\bfn {name}\b", text(os.path.join(folder, file))) for folder, _, files in folders for file in files)


def wanted():
    """Each function that the page names: its line, its name, how its symbol reads, and which program has it."""
    for number, row in rows():
        for name in NAME.findall(row.get("Decided by") or row.get("Go to") or ""):
            room, path = row["Room"].strip("`"), row["File"].strip("`")
            symbol = symbol_of(room, path, name)
            if symbol:
                yield number, f"{room} {name}", symbol, "sipd"
        for crate, listed in TRIALS.findall(row.get("Tests and trials", "")):
            for name in NAME.findall(listed):
                if crate in USES:
                    tries = name if is_function(crate, name) else "tell_all"
                    yield number, f"{crate} {name}", rf"{crate}::(?:\w+::)*{tries}", "test_server"


def symbols(program):
    """The symbols of a program's functions by their last word, without what a generic function is made for."""
    found = {}
    for line in subprocess.run(["nm", program], capture_output=True, text=True, check=True).stdout.splitlines():
        if re.match(r"[0-9a-f]+ [tTwW] ", line):
            symbol = line.split(None, 2)[2].partition("::<")[0]
            found.setdefault(symbol.rpartition("::")[2], set()).add(symbol)
    return found or sys.exit(f"map_runs: {program} has no symbols")


@contextlib.contextmanager
def programs(given, names=("sipd", "test_server")):
    """Where programs are that are built without a proof: those that are given, or kept, or built for this once."""
    found = dict(zip(names, given))
    with tempfile.TemporaryDirectory(prefix="map_runs-") as folder:
        kept = os.path.abspath(os.environ["KEPT"]) if "KEPT" in os.environ else os.path.join(folder, "programs")
        os.makedirs(kept, exist_ok=True)
        for name in names:
            path = found.setdefault(name, os.path.join(kept, {"sipd": "unchanged"}.get(name, name)))
            if not os.path.exists(path):
                tree = os.path.join(folder, "tree")
                wrong = planted(unchanged(), tree, name) or built(toolchain(tempfile.mkdtemp(dir=folder)), tree, path, name)
                if wrong:
                    sys.exit(f"{name} isn't built: {wrong}")
        yield found


def main():
    with programs(sys.argv[1:]) as paths:
        has = {name: symbols(path) for name, path in paths.items()}
    count, faults, excused = 0, 0, set()
    for number, name, symbol, program in wanted():
        count += 1
        found = any(re.fullmatch(symbol, one) for one in has[program].get(re.search(r"\w+$", symbol)[0], ()))
        if symbol in WITHOUT and not found:
            excused.add(symbol)
        elif not found:
            faults += 1
            print(f"docs/MAP.md:{number}: {name}: not in {program}")
    for symbol in sorted(set(WITHOUT) - excused):
        faults += 1
        print(f"{symbol}: a reason why it isn't there is told, and it is, or the page doesn't name it")
    print(f"{count} functions, {len(excused)} of them in no program for a reason, {faults} faults")
    sys.exit(1 if faults else 0)


if __name__ == "__main__":
    main()
