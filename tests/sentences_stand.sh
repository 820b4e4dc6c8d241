#!/bin/sh
# Whether each sentence of seven pages that says "always", "never", "exactly" or "before" stands in the table at the end of
# docs/PROVED.md, or in the list behind it of what is no promise; whether each of these still fits a sentence; whether each
# clause, law and test that the table names is there, and each place that docs/PROMISES.md leads to; and whether each promise of
# PROVED is a line. Proves nothing.
cd "$(dirname "$0")/.." || exit 2
exec python3 - <<'PY'
import os
import re
import sys

PAGES = {"PROVED": "docs/PROVED.md", "SPECIFICATION": "docs/SPECIFICATION.md", "OPERATING": "docs/OPERATING.md",
    "CONFIGURATION": "docs/CONFIGURATION.md", "README": "README.md", "DECISIONS": "docs/DECISIONS.md", "DESIGN": "docs/DESIGN.md"}
PROMISES = "docs/PROMISES.md"
LONGEST = 300
OWN = "Sentences, and what carries them"
HEADER = ["Page", "Place", "Sentence", "Carried by"]
WORD = re.compile(r"(?i)\b(?:always|never|exactly|before)\b")
END = re.compile(r"(?<=[.?!])(?:\)|\*\*|\*|\")*\s+(?=[A-Z*`(\[>\"])")
CARRIERS = re.compile(r"`([\w/.]+)`: ((?:`[\w:]+`(?:, )?)+)")
ROOMS = {line.split(":")[0].strip() for line in open("crates.txt", encoding="utf-8")}
faults = names = 0
codes = {}


def fault(what):
    global faults
    faults += 1
    print(what)


def plain(text):
    """A text without the marks of its form."""
    return re.sub(r"\s+", " ", re.sub(r"[*`|]", lambda mark: " " if mark.group() == "|" else "", text)).strip()


def lines_of(path):
    """The lines of a page with their headings, without the code that it shows."""
    heading, shown = "", False
    for line in open(path, encoding="utf-8"):
        if line.startswith("```"):
            shown = not shown
        elif re.match(r"##? ", line) and not shown:
            heading = plain(line.lstrip("#"))
        if not shown and not line.startswith(("    ", "```")):
            yield heading, line.rstrip("\n")


def sentences(path):
    """The sentences with one of the words, and where each stands; a row of a table is one."""
    place = ""
    for heading, line in lines_of(path):
        if heading == OWN:
            continue
        if line.startswith("#"):
            place = plain(line.lstrip("#"))
        for part in [line] if line.startswith("|") else END.split(line):
            if not line.startswith("#") and WORD.search(part):
                yield place, plain(part)


def fits(words, sentence):
    """Whether a sentence has these words, `..` standing for others."""
    return re.search(".*?".join(map(re.escape, words.split(" .. "))), sentence) is not None


def code(room):
    if room not in codes:
        found = []
        for part in ("src", "specs"):
            for folder, _, files in os.walk(f"crates/{room}/{part}"):
                found += [open(os.path.join(folder, name), encoding="utf-8").read() for name in files if name.endswith((".rt", ".antt"))]
        codes[room] = "\n".join(found)
    return codes[room]


def blocks_of(text, owner):
    """The impl blocks and the trait of a type, each up to the brace that closes it at the front of a line."""
    return [m.group() for m in re.finditer(r"(?ms)^(?:pub(?:\(\w+\))? )?(?:impl|trait)\b[^{]*?\b" + owner + r"\b[^{]*\{.*?^\}", text)]


def stands(room, name):
    """Whether a crate has a function, law, type, clause, or definition or part of one, of this name, or a type this method."""
    owner, _, item = name.rpartition("::")
    if owner:
        return any(re.search(r"\bfn " + item + r"\b", block) for block in blocks_of(code(room), owner))
    forms = (r"\b(?:fn|struct|enum|trait|const|ghost) ", r"\bensures ", r"(?m)^(?:\w+ )?pub (?:record |data )?", r"(?m)^\s+pub ")
    return any(re.search(form + name + r"\b", code(room)) for form in forms)


def check(where, carriers):
    """Whether what carries a sentence is written as such, and is there."""
    global names
    found = CARRIERS.findall(carriers)
    if not found or "; ".join(f"`{of}`: {listed}" for of, listed in found) != carriers:
        fault(f"{where}: what carries it isn't written as `CRATE`: `name`, or `tests/FILE`: `trial`")
    for of, listed in found:
        for name in re.findall(r"`([\w:]+)`", listed):
            names += 1
            if of.startswith("tests/"):
                good = os.path.exists(of) and re.search(r"(?m)^def " + name + r"\(", open(of, encoding="utf-8").read())
            else:
                good = of in ROOMS and stands(of, name)
            if not good:
                fault(f"{where}: {of} is without {name}")


def told():
    """What the table and the list tell: the page, the place where it is told, the words, and what carries them in the table."""
    for heading, line in lines_of(PAGES["PROVED"]):
        if heading != OWN:
            continue
        cells = [cell.strip() for cell in line.strip("|").split("|")]
        if line.startswith("|") and cells != HEADER and not set(line) <= set("|-"):
            yield (*cells, *[""] * 4)[:4]
        item = re.match(r"- ([A-Z]+): (.*)", line)
        for words in re.findall(r'"([^"]+)"', item.group(2)) if item else []:
            yield item.group(1), None, words, None


entries = list(told())
fitting = [False] * len(entries)
count = 0
for page, path in PAGES.items():
    for place, sentence in sentences(path):
        count += 1
        here = [i for i, (of, at, words, _) in enumerate(entries) if of == page and at in (None, place) and fits(words, sentence)]
        for i in here:
            fitting[i] = True
        if not here:
            fault(f"{path}: {place}: neither in the table nor in the list: {sentence[:160]}")
for i, (page, place, words, carriers) in enumerate(entries):
    if not fitting[i]:
        fault(f"{PAGES['PROVED']}: no sentence of {page}, {place or 'anywhere'}: {words}")
    if not WORD.search(words):
        fault(f"{PAGES['PROVED']}: none of the four words: {words}")
    if carriers is not None:
        check(f"{PAGES['PROVED']}: {words}", carriers)


def anchors_of(path):
    """What a page can be entered by: its headings, as a browser writes them."""
    return {re.sub(r"[^\w -]", "", line.lstrip("# ").lower()).replace(" ", "-") for _, line in lines_of(path) if line.startswith("#")}


def check_promises():
    """Whether each promise says what carries it, and each of these is there: an entry of PROVED or OPERATING, or a trial."""
    global names
    said = open(PROMISES, encoding="utf-8").read()
    ends = dict(re.findall(r"(?m)^\[(\w+)\]: (\S+)$", said))
    rooms = {name for _, line in lines_of(PAGES["PROVED"]) if line.startswith("#### ") for name in re.findall(r"\w+", line)}
    for promise in re.findall(r"(?m)^- (.*(?:\n  .*)*)", said):
        links = re.findall(r"\[([\w]+)\](?:\[(\w+)\])?", promise)
        trials = re.findall(r"`(\w+\.py): (\w+)`", promise)
        names += len(links) + len(trials)
        if not links and not trials:
            fault(f"{PROMISES}: nothing carries it: {promise}")
        for name, end in links:
            page, _, anchor = ends.get(end or name, "#").partition("#")
            if not page or anchor not in anchors_of(f"docs/{page}") or end and name not in rooms:
                fault(f"{PROMISES}: {name} leads nowhere: {promise}")
        for test, trial in trials:
            if not re.search(r"(?m)^def " + trial + r"\(", open(f"tests/{test}", encoding="utf-8").read()):
                fault(f"{PROMISES}: {test} is without {trial}")


check_promises()
for _, line in lines_of(PAGES["PROVED"]):
    if len(line) > LONGEST and not line.startswith("|"):
        fault(f"{PAGES['PROVED']}: a line of {len(line)} characters: {line[:80]}")
print(f"{count} sentences, {names} names, {faults} faults")
sys.exit(1 if faults else 0)
PY
