#!/bin/sh
# Whether each must-fail edit can be made, also one that the gate leaves out (.edit.md), each double edit, and each body of tests/edges.list: each of its
# old texts stands exactly once in its file. Proves nothing and takes a second; run it at the top of the repository after `rt fmt`, or from anywhere.
cd "$(dirname "$0")/.." || exit 2
exec python3 - <<'PY'
import glob
import os
import sys
import tempfile

sys.dont_write_bytecode = True
sys.path.insert(0, "tests")
import double_edits

faults = 0
edits = sorted(glob.glob("crates/*/must-fail/*.edit") + glob.glob("crates/*/must-fail/*.edit.md"))
for edit in edits:
    crate = edit.split("/must-fail/")[0]
    text, olds, news = None, 0, 0
    for line in open(edit, encoding="utf-8").read().splitlines():
        word, _, rest = line.partition(": ")
        if word == "file":
            try:
                text = open(f"{crate}/{rest}", encoding="utf-8").read()
            except OSError:
                text = ""
        elif word == "old":
            olds += 1
            count = (text or "").count(rest)
            if count != 1:
                faults += 1
                print(f"{edit}: this stands {count} times: {rest.strip()}")
        elif word == "new":
            news += 1
    if text is None or olds == 0 or olds != news:
        faults += 1
        print(f"{edit}: no file, or not as many new texts as old ones")
double = [it for path in sorted(glob.glob("tests/double_edits/*.list")) for it in double_edits.edits_in(path)]
with tempfile.TemporaryDirectory() as room:
    for edit in double:
        wrong = double_edits.planted(edit, room)
        if wrong:
            faults += 1
            print(f"{edit.crate} {edit.name}: {wrong}")
bodies = double_edits.edits_in("tests/edges.list")
for body in bodies:
    for file, old, _ in body.changes:
        try:
            count = open(f"crates/{file}", encoding="utf-8").read().count("\n".join(old))
        except OSError:
            count = 0
        if count != 1:
            faults += 1
            print(f"edges {body.name}: this stands {count} times in {file}: {old[0].strip()}")
print(f"{len(edits)} edits, {len(double)} double edits, {len(bodies)} bodies of the edge, {faults} faults")
sys.exit(1 if faults else 0)
PY
