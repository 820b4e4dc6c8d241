#!/usr/bin/env python3
"""How long a server takes to go on from a record: `bench/measure_resume.py PROGRAM [EVENTS]`. The record has so many datagrams (100,000
if nothing is said): pairs of REGISTERs of 20 phones of two users, the second with the answer to the challenge of the first. It prints
the seconds, and the instructions of an event, counted over two lengths with callgrind where valgrind is there."""

import hashlib
import os
import re
import shutil
import subprocess
import sys
import tempfile
import time

sys.path.insert(0, os.path.join(os.path.dirname(os.path.abspath(__file__)), "..", "tests"))
from phone import PASSWORDS, free_port, md5, office  # noqa: E402

GAP = 50  # milliseconds between two datagrams
START = 1_795_638_000_000
PHONES = 20


def register(name, port, call, number, more=""):
    return (
        f"REGISTER sip:127.0.0.1 SIP/2.0\r\nVia: SIP/2.0/UDP 127.0.0.1:{port};branch=z9hG4bK{call}x{number};rport\r\nMax-Forwards: 70\r\n"
        f"From: <sip:{name}@127.0.0.1>;tag=f{call}\r\nTo: <sip:{name}@127.0.0.1>\r\nCall-ID: {call}\r\nCSeq: {number} REGISTER\r\n"
        f"Contact: <sip:{name}@127.0.0.1:{port}>;expires=60\r\n{more}Content-Length: 0\r\n\r\n"
    )


def answer(name, word):
    """The credential of a user for the nonce of a word (RFC 2617, MD5)."""
    nonce, uri = f"{word:032x}", "sip:127.0.0.1"
    digest = md5(f"{md5(f'{name}:office:{PASSWORDS[name]}')}:{nonce}:00000001:c:auth:{md5(f'REGISTER:{uri}')}")
    return f'Authorization: Digest username="{name}", realm="office", nonce="{nonce}", uri="{uri}", response="{digest}", algorithm=MD5, cnonce="c", qop=auth, nc=00000001\r\n'


def lines(events):
    for pair in range(events // 2):
        name, port, word, at = ("alice", "bob")[pair % 2], 20_000 + pair % PHONES, 2 * pair + 1, START + 2 * pair * GAP
        for number, more in ((1, ""), (2, answer(name, word))):
            text = register(name, port, f"c{pair % PHONES}", 2 * pair + number, more).replace("\r\n", r"\r\n")
            yield f"text {at + (number - 1) * GAP} 127.0.0.1:{port} {word + number - 1:032x} {text}\n"


def record(folder, config, events):
    path = os.path.join(folder, f"old_{events}")
    with open(config, "rb") as source, open(path, "w") as made:
        made.write(f"record {7:016x} 1 {hashlib.sha256(source.read()).hexdigest()}\n")
        made.writelines(lines(events))
    return path


def resumed(program, config, old, before=()):
    """Seconds, and the lines that were taken."""
    start = time.monotonic()
    done = subprocess.run(
        [*before, program, "serve", "--config", config, "--turns", "0", "--record", old + ".new", "--resume", old],
        stdin=subprocess.DEVNULL, capture_output=True, text=True,
    )
    took = time.monotonic() - start
    os.remove(old + ".new")
    return took, int(re.search(r"goes on behind (\d+) lines", done.stderr)[1])


def instructions(program, config, old, folder):
    out = os.path.join(folder, "counts")
    resumed(program, config, old, ["valgrind", "--tool=callgrind", f"--callgrind-out-file={out}", "--quiet"])
    with open(out) as counts:
        return int(next(line for line in counts if line.startswith("totals:") or line.startswith("summary:")).split()[1])


def main():
    program, events = sys.argv[1], int(sys.argv[2]) if len(sys.argv) > 2 else 100_000
    with tempfile.TemporaryDirectory() as folder:
        config = office(folder, free_port())
        old = record(folder, config, events)
        took, taken = resumed(program, config, old)
        assert taken == events, (taken, events)
        print(f"{events} events of {os.path.getsize(old) / 1e6:.0f} MB: {took:.1f} s")
        if shutil.which("valgrind"):
            few, many = (instructions(program, config, record(folder, config, count), folder) for count in (1000, 3000))
            print(f"{(many - few) // 2000} instructions an event")


if __name__ == "__main__":
    main()
