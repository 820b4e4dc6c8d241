#!/usr/bin/env python3
"""Tries the lines of a record that hold digests: `tests/seals.py PROGRAM`, after `rt run` in crates/sipd. Of a record that was made shorter bits
are turned, 1,500 at random places, and lines are changed, taken away and put elsewhere: each replay is refused, and says from which line on the
record disagrees, or which line is damaged. What a server writes has its digests, by Python's SHA-256; a record that is gone on from ends with
one, and one without any is replayed, which is said. It ends with 1 where something isn't so."""

import hashlib
import os
import random
import re
import subprocess
import sys
import tempfile

TOP = os.path.join(os.path.dirname(os.path.abspath(__file__)), "..")
sys.path.insert(0, os.path.dirname(os.path.abspath(__file__)))
PROGRAM = os.path.abspath(sys.argv[1])
FLIPS = 1500
SEAL = re.compile(rb"^sealed ([0-9a-f]{64})\n", re.M)
faults = []


def check(is_so, what):
    if not is_so:
        faults.append(what)
        print(what)


def text_of(path):
    with open(path, "rb") as source:
        return source.read()


def put(path, text):
    with open(path, "wb") as out:
        out.write(text)


def ran(*words):
    done = subprocess.run([PROGRAM, *words], stdin=subprocess.DEVNULL, capture_output=True, timeout=120)
    return done.returncode, done.stdout, done.stderr.decode()


def replayed(text):
    put("turned", text)
    return ran("replay", "--record", "turned")


def digest_of(text):
    """What a line behind these bytes holds: the mark counts as that of a whole record."""
    return hashlib.sha256(b"record " + text[7:]).hexdigest().encode()


def seals_of(text, what):
    """How many lines hold digests, each of which has to be the right one."""
    found = list(SEAL.finditer(text))
    for it in found:
        check(it[1] == digest_of(text[: it.start()]), f"{what}: a digest is that of other bytes")
    return len(found)


def try_flips(sealed):
    """A bit turned anywhere is told."""
    chance, told = random.Random(73), {"changed": 0, "damaged": 0}
    for _ in range(FLIPS):
        place, bit = chance.randrange(len(sealed)), chance.randrange(8)
        turned = bytearray(sealed)
        turned[place] ^= 1 << bit
        status, _, complaints = replayed(bytes(turned))
        # the LF in front of the last digest: that may become a part of the line before it
        check(status == 3 or place == len(sealed) - 73, f"bit {bit} of byte {place} is turned, and the replay ends with {status}: {complaints}")
        told["changed" if "was changed" in complaints else "damaged"] += 1
    print(f"{FLIPS} bits turned: {told['changed']} are told by a digest, {told['damaged']} by a line that is none")


def try_lines(sealed):
    """Lines that are taken away, put elsewhere, or given another value that is one."""
    lines = sealed.splitlines(True)
    first = 1 + next(place for place, line in enumerate(lines) if line.startswith(b"configuration "))
    for place in range(first, min(first + 20, len(lines) - 2)):
        status, _, complaints = replayed(b"".join(lines[:place] + lines[place + 1 :]))
        check((status, complaints) == (3, f"sipd: the record was changed: its line {len(lines) - 1} has the digest of other bytes\n"), f"line {place + 1} is taken away: {status} {complaints}")
    moved = lines[:first] + [lines[first + 1], lines[first]] + lines[first + 2 :]
    check(replayed(b"".join(moved))[0] == 3, "two lines are changed for one another")
    bare = sealed[: SEAL.search(sealed).start()]
    status, _, complaints = replayed(bare)
    check((status, complaints) == (0, "sipd: turned holds no digests: a change of it isn't told\n"), f"without digests: {status} {complaints}")
    whole = replayed(sealed)
    check(whole[0] == 0 and whole[2] == "", f"the whole record: {whole[0]} {whole[2]}")
    for size in (1, 30, 71):
        check(replayed(sealed[:-size])[0] == 0, f"{size} bytes are cut of the last digest")
    for mark in (b"broken ", b"left   "):
        check(replayed(mark + sealed[7:])[:2] == whole[:2], f"the mark {mark} changes the digest")


def main():
    with tempfile.TemporaryDirectory() as folder:
        words = ["--phones", "8", "--hours", "1", "--calls", "30", "--seed", "73"]
        subprocess.run([sys.executable, os.path.join(TOP, "bench", "day.py"), folder, *words], check=True)
        os.chdir(folder)
        status, _, complaints = ran("compact", "--config", "day.toml", "day.record", "short")
        check((status, complaints) == (0, ""), f"compact: {status} {complaints}")
        sealed = text_of("short")
        check(seals_of(sealed, "a shorter record") == 1 and sealed.endswith(b"\n"), "a shorter record doesn't end with its digest")
        try_lines(sealed)
        try_flips(sealed)
        os.chdir("/")
    print(f"{len(faults)} faults")
    sys.exit(1 if faults else 0)


main()
