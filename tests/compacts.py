#!/usr/bin/env python3
"""Tries `sipd compact` on a recorded day: `tests/compacts.py PROGRAM [MOMENTS]`, after `rt run` in crates/sipd. The day is `bench/day.py`'s, of a
few phones that register and call. It is cut at so many moments (100 where none are named), with calls that ring, stand and end; at each the
record up to there is made shorter, and so is the last shorter one with what came since. Then the rest of the day is put behind the whole
record and behind each shorter one, all are replayed, and what they print of the rest has to be the same, byte for byte. Then what isn't made
shorter, and a process that is killed at any point: the old record stays as it was, and the new one is there whole or not at all. It takes
some minutes, says what a shorter record has of the whole one, and ends with 1 where something isn't so."""

import hashlib
import os
import random
import subprocess
import sys
import tempfile

TOP = os.path.join(os.path.dirname(os.path.abspath(__file__)), "..")
PROGRAM = os.path.abspath(sys.argv[1])
MOMENTS = int(sys.argv[2]) if len(sys.argv) > 2 else 100
DAY = ["--phones", "12", "--hours", "2", "--calls", "150", "--seed", "73"]
KILLS = 40
ENDLESS = 120  # seconds
faults = []


def check(is_so, what):
    if not is_so:
        faults.append(what)
        print(what)


def put(path, text):
    with open(path, "wb") as out:
        out.write(text)


def text_of(path):
    with open(path, "rb") as source:
        return source.read()


def compact(old, new, config="day.toml"):
    """The status, and what was complained about."""
    words = [PROGRAM, "compact", "--config", config, old, new]
    done = subprocess.run(words, stdin=subprocess.DEVNULL, capture_output=True, timeout=ENDLESS)
    check(done.stdout == b"", f"compact prints {done.stdout[:100]}")
    return done.returncode, done.stderr.decode()


def printed(text):
    """What a replay of a record prints."""
    put("replayed", text)
    words = [PROGRAM, "replay", "--record", "replayed"]
    done = subprocess.run(words, stdin=subprocess.DEVNULL, capture_output=True, timeout=ENDLESS)
    check(done.returncode == 0, f"a replay ends with {done.returncode}: {done.stderr[-200:]}")
    return done.stdout


def behind(front, rest):
    """What a replay prints of what stands behind a record."""
    first, whole = printed(front), printed(front + rest)
    check(whole.startswith(first), "a front of a record prints something else than the record does at first")
    return whole[len(first):]


def shorter(text, moment, of):
    """A record made shorter, if it is."""
    put("old", text)
    if os.path.exists("new"):
        os.unlink("new")
    status, said = compact("old", "new")
    check((status, said) == (0, ""), f"at moment {moment} {of} isn't made shorter: {status} {said}")
    check(text_of("old") == text, f"at moment {moment} {of} is changed")
    return text_of("new") if status == 0 else text


def try_moments(lines, start):
    """At each moment the day up to there is made shorter, and the last shorter one with what came since."""
    sizes, chain, last = [], b"".join(lines[:start]), start
    whole = printed(b"".join(lines))
    for place in range(1, MOMENTS + 1):
        cut = start + place * (len(lines) - start) // (MOMENTS + 1)
        front, rest = b"".join(lines[:cut]), b"".join(lines[cut:])
        new = shorter(front, place, "the day")
        chain = shorter(chain + b"".join(lines[last:cut]), place, "a shorter record")
        last = cut
        wanted = whole[len(printed(front)):]
        check(behind(new, rest) == wanted, f"at moment {place} a shorter record goes on otherwise")
        check(behind(chain, rest) == wanted, f"at moment {place} one of a shorter record goes on otherwise")
        sizes.append((len(front), len(new), len(chain)))
    for place in (0, MOMENTS // 2, MOMENTS - 1):
        print("of {} bytes {} stay, or {} where it was made shorter each time".format(*sizes[place]))


def try_refusals(text):
    """What isn't made shorter, and how that ends."""
    digest = hashlib.sha256(text_of("day.toml")).hexdigest().encode()
    put("other.toml", text_of("day.toml").replace(b"sip.day.example", b"sip.night.example"))
    put("whole", text)
    put("left", b"left  " + text[6:])
    put("broken", b"broken" + text[6:])
    put("damaged", text + b"no line\n" + text.splitlines(True)[-1])
    put("none", b"record of nothing\n")
    for old, new, config, status in (
        ("left", "a", "day.toml", 3), ("broken", "a", "day.toml", 3), ("damaged", "a", "day.toml", 3), ("none", "a", "day.toml", 3),
        ("whole", "a", "other.toml", 3), ("whole", "whole", "day.toml", 4), ("whole", "absent/a", "day.toml", 4), ("absent", "a", "day.toml", 4),
        ("whole", "a", "absent.toml", 4),
    ):
        got, said = compact(old, new, config)
        check(got == status and said.startswith("sipd: "), f"compact {old} {new} with {config} ends with {got}: {said}")
        check(not os.path.exists("a") and not os.path.exists("a.part"), f"compact {old} {new} with {config} leaves a file")
    check(text_of("whole") == text and digest in text.split(b"\n")[0], "a record is changed that isn't made shorter")


def try_kills(text):
    """However it is killed, the old record stays, and the new one is there whole or not at all."""
    put("old", text)
    if os.path.exists("new"):
        os.unlink("new")
    compact("old", "new")
    whole, chance, there = text_of("new"), random.Random(73), 0
    for _ in range(KILLS):
        os.unlink("new") if os.path.exists("new") else None
        process = subprocess.Popen([PROGRAM, "compact", "--config", "day.toml", "old", "new"], stdin=subprocess.DEVNULL, stderr=subprocess.DEVNULL)
        try:
            process.wait(chance.random() * 3)
        except subprocess.TimeoutExpired:
            process.kill()
            process.wait()
        check(text_of("old") == text, "a record is changed by one that was killed")
        if os.path.exists("new"):
            there += 1
            check(text_of("new") == whole, "a record has its name that isn't whole")
    print(f"killed {KILLS} times: {there} were whole by then, of the others none is there")


def main():
    with tempfile.TemporaryDirectory() as folder:
        subprocess.run([sys.executable, os.path.join(TOP, "bench", "day.py"), folder, *DAY], check=True)
        os.chdir(folder)
        lines = text_of("day.record").splitlines(True)
        start = next(place for place, line in enumerate(lines) if line.startswith(b"configuration ")) + 1
        middle = b"".join(lines[:start + (len(lines) - start) // 2])
        try_moments(lines, start)
        try_refusals(middle)
        try_kills(middle)
        os.chdir("/")
    print(f"{MOMENTS} moments, {len(faults)} faults")
    sys.exit(1 if faults else 0)


main()
