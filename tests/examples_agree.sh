#!/bin/sh
# Whether the configurations that the tests read are those of `examples/`, letter by letter. With the word
# `write` it writes them anew.
cd "$(dirname "$0")/.." || exit 2
exec python3 - "$@" <<'PY'
import re
import sys

TEXTS = "crates/test_parts/src/config_texts.rt"
wanted = "//! The configurations of `examples/`, copied by `tests/examples_agree.sh`.\n"
for name in ["sample", "office"]:
    text = open(f"examples/{name}.toml", encoding="utf-8").read()
    text = text.replace("\\", "\\\\").replace('"', '\\"')
    wanted += f"\n/// `examples/{name}.toml`.\npub const {name.upper()}: &str = \"{text}\";\n"
if sys.argv[1:] == ["write"]:
    open(TEXTS, "w", encoding="utf-8").write(wanted)
# `rt fmt` may put a long text on a line of its own.
written = re.sub(r'&str =\s+"', '&str = "', open(TEXTS, encoding="utf-8").read())
agrees = written == wanted
print("the examples agree" if agrees else f"{TEXTS} differs from examples/")
sys.exit(0 if agrees else 1)
PY
