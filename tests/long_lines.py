#!/usr/bin/env python3
"""Lines of definitions and proofs (.antt) of more than 170 characters: how many each crate has, and with --break broken.

    tests/long_lines.py [--break] [CRATE ..]

A line is broken at the space where the fewest brackets are open, as far to the right as it may: before an arrow, an operator or an
argument, behind a comma or a semicolon. What is left goes on the next line, four columns deeper than the line began. No token
changes; whether the prover reads it so is what a check of the crate says.
"""
import glob
import os
import re
import sys

MOST = 170
# Where a line may end best: what stands before the next token, or is that token. A lower number is better at the same depth.
BEFORE = {"→": 0, "∙": 1, "×": 1, "⊎": 1, "++": 2, "∷": 3, "&&": 2, "||": 2, "≡": 3, "=": 9, "in": 0}
AFTER = {",": 1, ";": 0, "in": 0, "→": 1, "=": 2, ".": 3}
OPEN, CLOSE = "([{", ")]}"


def spaces_of(line, start):
    """Each place where the line may be cut, with the brackets that are open there and how well it is cut there."""
    depth, at, found, string = 0, 0, [], False
    binders = []
    while at < len(line):
        mark = line[at]
        if string:
            at += 2 if mark == "\\" else 1
            string = mark != '"' or line[at - 2 : at] == '\\"'
            continue
        if mark == '"':
            string = True
        elif mark in OPEN:
            depth += 1
        elif mark in CLOSE:
            depth -= 1
        elif mark == " " and at > start:
            if line.startswith("--", at + 1):
                return found
            word = line[at + 1 :].split(" ", 1)[0]
            last = line[:at].rsplit(" ", 1)[-1]
            worth = BEFORE.get(word, 5)
            worth = min(worth, AFTER.get(last, 5), AFTER.get(last[-1:], 5))
            # A binder's variables stay with their dot, and a clause's sign with what it says.
            if "λ" in last and not last.endswith(".") or word in ("=", ":", "as", "where", "of") or last in ("λ", "let", "use", "pub", "rewrite", ":"):
                worth = 20
            if not word:
                worth = 30
            found.append((at, depth, worth))
        at += 1
    return found


def broken(line):
    """The lines that a line becomes."""
    indent = len(line) - len(line.lstrip(" "))
    if line.lstrip().startswith("--"):
        return wrapped(line, indent)
    if re.match(r"\s*(pub )?use ", line):
        return shared(line)
    deeper, lines, left = " " * (indent + 4), [], line
    while len(left) > MOST:
        begins = len(left) - len(left.lstrip(" "))
        cuts = [it for it in spaces_of(left, begins) if it[0] <= MOST and it[0] > begins + 20 and it[2] < 20]
        if not cuts:
            break
        base = min(depth for _, depth, _ in cuts)
        # A cut that leaves next to nothing on the line is taken only where no other is as shallow.
        far = [it for it in cuts if it[0] >= MOST // 2] or cuts
        at = max(far, key=lambda it: (-5 * it[1] - it[2], it[0]))[0]
        lines.append(left[:at].rstrip())
        left = deeper + left[at:].lstrip()
    return [*lines, left]


def shared(line):
    """An import of many names as several of the same module."""
    found = re.fullmatch(r"(.*\.\{)([^}]*)\}", line)
    if not found:
        return [line]
    lines, names = [], found[2].split(", ")
    while names:
        some = [names.pop(0)]
        while names and len(found[1]) + len(", ".join([*some, names[0]])) < MOST:
            some.append(names.pop(0))
        lines.append(f"{found[1]}{', '.join(some)}}}")
    return lines


def wrapped(line, indent):
    head, words, lines = " " * indent + "--", line.lstrip()[2:].split(), []
    now = head
    for word in words:
        if len(now) + 1 + len(word) > MOST:
            lines.append(now)
            now = head
        now += " " + word
    return [*lines, now]


def main():
    os.chdir(os.path.join(os.path.dirname(os.path.abspath(__file__)), ".."))
    does = "--break" in sys.argv
    names = [it for it in sys.argv[1:] if not it.startswith("--")]
    counts = {}
    for path in sorted(glob.glob("crates/**/*.antt", recursive=True)):
        crate = path.split(os.sep)[1]
        if f"{os.sep}out{os.sep}" in path or names and crate not in names:
            continue
        lines = open(path, encoding="utf-8").read().split("\n")
        long = sum(len(it) > MOST for it in lines)
        if long and does:
            new = [part for it in lines for part in (broken(it) if len(it) > MOST else [it])]
            code = lambda rows: "".join("".join(it.split()) for it in rows if not re.match(r"\s*(--|(pub )?use )", it))
            assert code(new) == code(lines), path
            open(path, "w", encoding="utf-8").write("\n".join(new))
            long = sum(len(it) > MOST for it in new)
        counts[crate] = counts.get(crate, 0) + long
    for crate, long in sorted(counts.items(), key=lambda it: -it[1]):
        if long:
            print(f"{crate}: {long}")
    print(f"{sum(counts.values())} lines over {MOST} characters")


main()
