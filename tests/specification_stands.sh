#!/bin/sh
# Whether each place that docs/SPECIFICATION.md gives, (ROOM `specs/Module`, ..), is a file, and where names stand right
# before it, whether that file defines them. Proves nothing and takes a second.
cd "$(dirname "$0")/.." || exit 2
exec python3 - <<'PY'
import os
import re
import sys

PAGE = "docs/SPECIFICATION.md"
GROUP = re.compile(r"((?:`[^`]+`(?:, | and )?)*)(?:\*\*)? ?\(((?:sip|model|sipd)_\w+ `specs/[^)]*)\)")
PLACE = re.compile(r"((?:sip|model|sipd)_\w+) ((?:`specs/\w+`(?:, )?)+)")


def declared(room):
    """The code of a room: what it declares are types of its definitions, too."""
    found = []
    for at, _, names in os.walk(f"crates/{room}/src"):
        found += [open(f"{at}/{name}", encoding="utf-8").read() for name in names]
    return re.findall(r"(?m)^pub (?:struct|enum) (\w+)", "\n".join(found))


faults = count = 0
for number, line in enumerate(open(PAGE, encoding="utf-8"), 1):
    for names, places in GROUP.findall(line):
        code, types = "", []
        for room, modules in PLACE.findall(places):
            types += declared(room)
            for module in re.findall(r"specs/\w+", modules):
                path = f"crates/{room}/{module}.antt"
                count += 1
                if os.path.exists(path):
                    code += open(path, encoding="utf-8").read()
                else:
                    faults += 1
                    print(f"{PAGE}:{number}: {path}: no such file")
        for name in re.findall(r"`([^`]+)`", names):
            count += 1
            word = name.split()[0]
            if word not in types and not re.search(r"(?m)^\s*(?:\w+ )*" + re.escape(word) + r"(?![\w-])", code):
                faults += 1
                print(f"{PAGE}:{number}: {places}: without {name}")
print(f"{count} names and places, {faults} faults")
sys.exit(1 if faults else 0)
PY
