#!/usr/bin/env python3
"""Whether something pins each definition of tests/double_edits: `tests/double_edits.py [--whole] [WORD ..]`, for all edits, or those
of a crate or of a name. Each turns what a definition means, in specs/ and in the body that is proved equal to it alike (and in an answer
of proofs/ that names the step), so that the body's contract can't refuse it: a law, a worked example or another clause has to. Each
edit names the function that does, of its own crate or of one of the crates of worked examples. That function alone is checked, over
the crate's text with the edit; with --whole the crate is proved with it, and where it is, its library is built, and that function
is checked over it. With --unedited what refuses them is checked over the text as it stands: each of these functions has to be proved.

It reads the libraries of READY, a tree of the same text in which `rt ci` or `rt lib` has run, this one where READY isn't set, and writes
none of them. KEPT names a folder where what is proved is kept for the next run. An edit takes 10 to 30 seconds, and one more with
--whole, where the first of a crate takes some minutes; no gate runs this. For each it prints REFUSED and what refuses it, PROVED
where nothing does, or BAD where it can't be made or tried, and it ends with 1 where one isn't refused."""

import os
import re
import shutil
import subprocess
import sys
import tempfile
import time
from functools import lru_cache

TOP = os.path.dirname(os.path.dirname(os.path.abspath(__file__)))
LISTS = os.path.join(TOP, "tests", "double_edits")
READY = os.path.abspath(os.environ.get("READY", TOP))
PARTS = ("src", "specs", "proofs")


def kit():
    """The folder of the kit, in which `rt doc` has its page."""
    page = subprocess.run(["rt", "doc"], capture_output=True, text=True, check=True).stdout.split()[0]
    folder = os.path.dirname(os.path.abspath(page))
    while not os.path.exists(os.path.join(folder, "bin", "rattle")):
        if folder == "/":
            sys.exit("double_edits: no bin/rattle above " + page)
        folder = os.path.dirname(folder)
    return folder


def uses():
    lines = (line.split("#")[0] for line in open(os.path.join(TOP, "crates.txt"), encoding="utf-8"))
    return {line.split(":")[0].split()[0]: line.split(":")[1].split() for line in lines if ":" in line}


KIT, USES = kit(), uses()


@lru_cache(None)
def below(crate):
    """The crates of the repository on which one stands, lowest first."""
    found = []
    for name in USES[crate]:
        if name in USES:
            found += [other for other in (*below(name), name) if other not in found]
    return tuple(found)


class Edit:
    """What is turned in a crate, what it means, and which function of which crate refuses it."""

    def __init__(self, crate, name):
        self.crate, self.name, self.means, self.pin, self.changes = crate, name, "", [], []


def edits_in(path):
    """The edits of a list: a line `edit:`, `means:`, `pin:`, and for each change `file:`, `old:`, `new:`; texts of several
    lines are several such lines. A line that begins with `#` is a remark."""
    crate, found, file, last = os.path.basename(path)[: -len(".list")], [], None, None
    for line in open(path, encoding="utf-8").read().split("\n"):
        word, _, text = line.partition(": ") if ": " in line else (line.rstrip(":"), "", "")
        if word == "edit":
            found.append(Edit(crate, text.strip()))
        elif word == "means":
            found[-1].means += text.strip() + " "
        elif word == "pin":
            found[-1].pin = text.split()
        elif word == "file":
            file, last = text.strip(), None
        elif word == "old":
            if last != "old":
                found[-1].changes.append((file, [], []))
            found[-1].changes[-1][1].append(text)
            last = "old"
        elif word == "new":
            found[-1].changes[-1][2].append(text)
            last = "new"
    return found


def planted(edit, room):
    """Makes a copy of a crate's text with an edit; what is wrong with the edit, if something is."""
    for part in PARTS:
        shutil.rmtree(os.path.join(room, part), ignore_errors=True)
        source = os.path.join(TOP, "crates", edit.crate, part)
        if os.path.isdir(source):
            shutil.copytree(source, os.path.join(room, part))
    for file, old, new in edit.changes:
        path, old, new = os.path.join(room, file), "\n".join(old), "\n".join(new)
        text = open(path, encoding="utf-8").read() if os.path.exists(path) else ""
        if text.count(old) != 1:
            return f"this stands {text.count(old)} times in {file}: {old.strip()[:80]}"
        open(path, "w", encoding="utf-8").write(text.replace(old, new))
    return None if edit.changes and len(edit.pin) == 2 else "it changes nothing, or nothing is said to refuse it"


def command(word, crate, named, libraries, sources):
    """The words that check or build a crate. `libraries` says where that of a crate is, if it isn't one of READY's, and `sources`
    where the text of one is that is read in place of its library."""
    at = {name: libraries.get(name, os.path.join(READY, "crates", name, "out", "rlib")) for name in below(crate)}
    words = [f"{KIT}/bin/rattle", word, "--crate-name", crate, "src/lib.rt", "--extern", f"std={KIT}/rlibs/std.rlib"]
    for name in named:
        if name in sources:
            words += ["--lib", f"{name}={sources[name]}/src/lib.rt"]
        elif name in USES:
            words += ["--extern", f"{name}={at[name]}/{name}.rlib"]
        else:
            words += ["--extern", f"{name}={KIT}/rlibs/{name}.rlib"]
    words += ["-L", f"dependency={KIT}/rlibs"]
    for name in at:
        if name not in sources:
            words += ["-L", "dependency=" + at[name]]
    words += ["--antt-project", f"{KIT}/rattle/logic/antt-project.json", "--logic-built", f"{KIT}/logic_built"]
    return [*words, "--links", crate + "=", "--jobs", "1"]


def run(words, room, flags):
    done = subprocess.run([*words, *flags], cwd=room, capture_output=True, text=True, check=False)
    return done.returncode, done.stdout + done.stderr


def refusing(said):
    """The functions that a check says aren't proved, with their clauses, or that a definition isn't; none where it gave no verdict."""
    found = []
    for function, rest in re.findall(r"(?m)^fn (\S+): (?:not proved|no proof)(.*)", said):
        clauses = re.findall(r"`returns-clause-(\w+)`", rest)
        found.append(function.partition("::")[2] + (f" ({', '.join(clauses)})" if clauses else ""))
    return found or (["a definition"] if "logic=not-proved" in said else [])


def judged(crate, status, said):
    """What a check says of an edit."""
    by = refusing(said)
    if status and by:
        return "REFUSED", f"by {crate}: " + "; ".join(by)
    return ("BAD", said.strip()[-400:]) if status else ("PROVED", f"and so is {crate}")


def by_text(crate, functions, edited, room, kept):
    """What a check says of functions of a crate, over the text of the edited one."""
    flags = ["--incremental", os.path.join(kept, f"{crate} of {edited}")]
    for function in functions:
        flags += ["--only", f"{crate}::{function}"]
    if crate == edited:
        return run(command("check", crate, USES[crate], {}, {}), room, flags)
    # (a library that rests on the text that is turned can't be used beside it, so its text is read, too)
    between = {name: os.path.join(TOP, "crates", name) for name in below(crate) if edited in below(name)}
    sources = {edited: room, **between}
    wanted = {*USES[crate], *(name for source in sources for name in USES[source])}
    named = [*(name for name in below(crate) if name in wanted or name in sources), *sorted(wanted.difference(USES))]
    return run(command("check", crate, named, {}, sources), os.path.join(TOP, "crates", crate), flags)


def tried_by_pin(edit, room, kept):
    """The function that pins it, over the text of its crate."""
    return judged(edit.pin[0], *by_text(edit.pin[0], edit.pin[1:], edit.crate, room, kept))


def tried_unedited(edits, kept):
    """What pins some edits, over the text of each crate as it stands; how many of these functions aren't proved."""
    pins, failed = {}, 0
    for edit in edits:
        pins.setdefault((edit.crate, edit.pin[0]), {})[edit.pin[1]] = True
    for (edited, crate), functions in pins.items():
        status, said = by_text(crate, functions, edited, os.path.join(TOP, "crates", edited), kept)
        failed += status != 0
        words = "; ".join(refusing(said)) or said.strip()[-400:]
        print(f"{crate} over {edited}: " + (words if status else f"{len(functions)} functions proved"), flush=True)
    return failed


def tried_whole(edit, room, kept):
    """The crate; and where it is proved, the function that pins it, over its library."""
    library = os.path.join(room, "library")
    os.makedirs(library, exist_ok=True)
    shutil.rmtree(f"{library}/{edit.crate}.rlib", ignore_errors=True)
    flags = ["--incremental", os.path.join(room, "kept"), "-o", f"{library}/{edit.crate}.rlib"]
    verdict, words = judged(edit.crate, *run(command("build", edit.crate, USES[edit.crate], {}, {}), room, flags))
    if verdict != "PROVED" or edit.pin[0] == edit.crate:
        return verdict, words
    crate, function = edit.pin
    flags = ["--incremental", os.path.join(kept, crate), "--only", f"{crate}::{function}"]
    words = command("check", crate, USES[crate], {edit.crate: library}, {})
    return judged(crate, *run(words, os.path.join(TOP, "crates", crate), flags))


def main():
    modes = {word for word in sys.argv[1:] if word.startswith("--")}
    wanted = [word for word in sys.argv[1:] if word not in modes]
    edits = [edit for name in sorted(os.listdir(LISTS)) if name.endswith(".list") for edit in edits_in(os.path.join(LISTS, name))]
    edits = [edit for edit in edits if not wanted or edit.crate in wanted or edit.name in wanted]
    kept = os.path.abspath(os.environ["KEPT"]) if "KEPT" in os.environ else tempfile.mkdtemp(prefix="double_edits-")
    failed = 0
    try:
        if "--unedited" in modes:
            failed, edits = tried_unedited(edits, kept), []
        for edit in edits:
            start, room = time.time(), os.path.join(kept, edit.crate)
            wrong = planted(edit, room)
            verdict, words = ("BAD", wrong) if wrong else (tried_whole if "--whole" in modes else tried_by_pin)(edit, room, kept)
            failed += verdict != "REFUSED"
            print(f"{edit.crate} {edit.name}: {verdict} {words} [{time.time() - start:.0f} s]", flush=True)
    finally:
        if "KEPT" not in os.environ:
            shutil.rmtree(kept)
    if edits:
        print(f"{len(edits)} double edits, {failed} not refused")
    sys.exit(1 if failed or not (edits or "--unedited" in modes) else 0)


if __name__ == "__main__":
    main()
