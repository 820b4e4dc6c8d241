#!/usr/bin/env python3
"""Tries `sipd check --expect`: `tests/expectations.py PROGRAM`, after `rt run` in crates/sipd. Each line is held against
`examples/office.toml`: it holds, or a question is told that is decided otherwise, and `sipd decide` has to say the same of that question, or
it is refused. It prints a line for each that isn't so, and ends with 1 where there is one."""

import os
import re
import subprocess
import sys
import tempfile

OFFICE = os.path.join(os.path.dirname(os.path.abspath(__file__)), "..", "examples", "office.toml")
PROGRAM = sys.argv[1]

# a line, and what is told of it; nothing where it holds
LINES = [
    ("", None),
    ("# INVITE is a call", None),
    ("nobody any * never", None),
    ("nobody register * never", None),
    ("proven register self always bindings", None),
    ("proven list self always", None),
    ("proven PUBLISH self never", None),
    ("proven any @elsewhere.example never", None),
    ("  user bob   register alice@office.local never  ", None),
    ("proven INVITE alice@office.local always bindings", None),
    ("user alice INVITE 911@office.local always", None),
    ("proven MESSAGE bob@127.0.0.1 always bindings\r", None),
    ("user alice INVITE 9*@office.local 8:00-18:00 via gateway", "user alice INVITE 9*@office.local at 0:00: rule 6 allows: 404"),
    ("group staff INVITE 9*@office.local always via gateway", "user alice INVITE 9*@office.local at 0:00: rule 6 allows: 404"),
    ("user bob INVITE 9*@office.local never", "user bob INVITE 9*@office.local at 0:00: rule 6 allows: 404"),
    ("user bob INVITE 911@office.local 18:00-08:00", "user bob INVITE 911@office.local at 8:00: rule 6 allows: 404"),
    ("proven INVITE @office.local always bindings", "user alice INVITE *@office.local at 0:00: rule 6 allows: 404"),
    ("proven register alice@office.local never", "user alice register alice@office.local at 0:00: rule 1 allows: to the registrar"),
    ("anyone INVITE bob@office.local always", "nobody INVITE bob@office.local at 0:00: challenged, 407: rule 6"),
    ("proven any * always", "user alice * *@elsewhere.invalid at 0:00: no rule matches: denied, 403"),
    ("proven any self always", "user alice PUBLISH alice@office.local at 0:00: rule 3 denies: 403"),
]

# lines that are none, and a word of why
REFUSED = [
    ("interns INVITE 9*@office.local never", "who asks"),
    ("user zazu INVITE 9*@office.local never", "who asks"),
    ("group interns INVITE 9*@office.local never", "no user is in the group"),
    ("anyone REGISTER @office.local never", "what is asked"),
    ("anyone invite @office.local never", "capitals"),
    ("anyone INVITE 911 never", "a target"),
    ("anyone INVITE @office.local", "when"),
    ("anyone INVITE @office.local 8:00", "when"),
    ("anyone INVITE @office.local 8:00-8:00", "when"),
    ("anyone INVITE @office.local 8:00-24:00", "when"),
    ("anyone INVITE @office.local 8:0-9:00", "when"),
    ("anyone INVITE @office.local never via gateway", "behind"),
    ("anyone INVITE @office.local always allow", "behind"),
    ("anyone INVITE @office.local always via gatway", "hop"),
    ("anyone INVITE @elsewhere.invalid never", "elsewhere.invalid"),
]


def run(*words):
    done = subprocess.run([PROGRAM, *words], stdin=subprocess.DEVNULL, capture_output=True, timeout=60)
    return done.returncode, done.stdout.decode(), done.stderr.decode()


def held(folder, lines, more=()):
    path = os.path.join(folder, "expected")
    with open(path, "w", encoding="utf-8", newline="") as file:
        file.write("\n".join(lines))
    return run("check", "--config", OFFICE, *more, "--expect", path)


def decided(told):
    """What `decide` says first of a question that was told."""
    who, method, target, hour, minute = re.match(r"(nobody|user \S+) (\S+) (\S+) at (\d+):(\d\d): ", told).groups()
    user = [] if who == "nobody" else ["--user", who[5:]]
    return run("decide", "--config", OFFICE, *user, "--minute", str(60 * int(hour) + int(minute)), method, target)[1].partition("\n")[0] + "\n"


def main():
    wrong = []
    with tempfile.TemporaryDirectory() as folder:
        for line, wanted in LINES:
            status, printed, complaints = held(folder, [line])
            told = [text[8:] for text in printed.splitlines() if text.startswith("line 1: ")]
            if wanted is None and (status != 0 or told):
                wrong.append(f"{line!r} doesn't hold: {status} {printed!r} {complaints!r}")
            if wanted is not None and not (status == 2 and len(told) == 1 and told[0].startswith(wanted)):
                wrong.append(f"{line!r}: {status} {printed!r} {complaints!r}")
            if told and decided(told[0]) not in told[0] + "\n":
                wrong.append(f"{told[0]!r}: decide says {decided(told[0])!r}")
        for line, wanted in REFUSED:
            status, printed, complaints = held(folder, ["nobody any * never", line])
            if status != 1 or "line 2" not in complaints or wanted not in complaints:
                wrong.append(f"{line!r} isn't refused: {status} {printed!r} {complaints!r}")
        status, printed, complaints = held(folder, [line for line, _ in LINES])
        if status != 2 or printed.count("line ") != sum(wanted is not None for _, wanted in LINES):
            wrong.append(f"all lines together: {status} {printed!r} {complaints!r}")
        for more in (["--show"], ["--against", OFFICE]):
            status, printed, complaints = held(folder, [LINES[2][0], LINES[-1][0]], more)
            if status != 2 or "line 2: " not in printed:
                wrong.append(f"with {more}: {status} {printed!r} {complaints!r}")
    for line in wrong:
        print(line)
    print(f"{len(LINES) + len(REFUSED)} lines, {len(wrong)} not as they should be")
    return 1 if wrong else 0


if __name__ == "__main__":
    sys.exit(main())
