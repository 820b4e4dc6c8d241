#!/bin/sh
# Whether each import of this repository's specs and proofs names something that stands there: a module, and in it each
# name; and of the code's own types, one that is declared in that module. Proves nothing and takes a second; the gate finds
# the same only once the crates below are proved.
cd "$(dirname "$0")/.." || exit 2
exec python3 - <<'PY'
import glob
import os
import re
import sys

IMPORT = re.compile(r"\s*(?:pub )?(?:ghost )?use Rattle\.((?:sip|model|sipd|test)_\w+)\.(specs|proofs)\.([\w.\-]+?)(?:\.\{([^}]*)\}|\s+as\s[^;]*)?\s*;?\s*$")
# What the prover writes itself, from the code.
MADE = ("declared.", "contracts.")


# A crate that passes on the specs or the proofs of another one, under a short name.
PASSED = re.compile(r"(?m)^pub use Rattle\.((?:sip|model|sipd|test)_\w+)\.(?:specs|proofs)((?:\.\w+)*?)(?:\.(\w+)|\s+as\s+(\w+))$")


def text(path):
    return open(path, encoding="utf-8").read()


def passed_on(crate, kind):
    """What a crate passes on: by its short name, the crate that it is taken from, and under which path there."""
    path = f"crates/{crate}/{kind}/Lib.antt"
    found = PASSED.findall(text(path)) if os.path.exists(path) else []
    return {last or name: (low, (inner + "." + last if last else inner).lstrip(".")) for low, inner, last, name in found}


def home_of(crate, kind, path):
    """The crate where a path stands, and the path there."""
    first, _, rest = path.partition(".")
    if first not in passed_on(crate, kind):
        return crate, path
    low, inner = passed_on(crate, kind)[first]
    return home_of(low, kind, ".".join(part for part in (inner, rest) if part))


def names(crate, module, wanted):
    """Those names that the text of a module doesn't have."""
    there = text(module)
    return [n for n in wanted if not re.search(r"(?<![\w-])" + re.escape(n) + r"(?![\w-])", there)]


def fault_of(crate, kind, path, wanted):
    if path.startswith("declared."):
        module, _, kind_of = path[len("declared."):].partition(".")
        if module[0].isupper():
            module, kind_of = "*", module
        found = glob.glob(f"crates/{crate}/src/**/{module}.rt", recursive=True)
        item = kind_of.split(".")[0]
        if not found:
            return "no such module"
        if item and item != "TheConstants" and not any(re.search(r"(struct|enum|trait|type) " + item + r"\b", text(f)) for f in found):
            return "no such type"
        return None
    if path.startswith(MADE) or path.endswith(("Goals", "Given")):
        return None
    parts = path.split(".")
    module = f"crates/{crate}/{kind}/{'/'.join(parts)}.antt"
    if os.path.exists(module):
        missing = names(crate, module, wanted)
        return "without " + ", ".join(missing) if missing else None
    inner = f"crates/{crate}/{kind}/{'/'.join(parts[:-1])}.antt"
    if len(parts) > 1 and os.path.exists(inner):
        return None if not names(crate, inner, parts[-1:]) else "no such name"
    return None if os.path.isdir(module[: -len(".antt")]) else "no such module"


faults = count = 0
files = glob.glob("crates/*/src/**/*.rt", recursive=True)
for folder in ("specs", "proofs"):
    files += glob.glob(f"crates/*/{folder}/**/*.antt", recursive=True)
for file in sorted(files):
    for number, line in enumerate(text(file).splitlines(), 1):
        found = IMPORT.match(line)
        if not found:
            continue
        count += 1
        crate, kind, path, listed = found.groups()
        wanted = [n.strip().split(" as ")[0].strip() for n in (listed or "").split(",") if n.strip()]
        home, path = home_of(crate, kind, path)
        fault = fault_of(home, kind, path, wanted) if path else None
        if fault:
            faults += 1
            print(f"{file}:{number}: {crate}.{kind}.{path}: {fault}")
print(f"{count} imports, {faults} faults")
sys.exit(1 if faults else 0)
PY
