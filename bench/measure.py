#!/usr/bin/env python3
"""Counts what a REGISTER pair and the shapes of docs/HOSTILE.md cost in `sipd replay`: `bench/measure.py [PROGRAM]`, at
the top. What is done every day, over tables of any size, is counted by `bench/measure_replays.py`.

Counts are marginal: what a longer script costs more than a shorter one, for each event that it has more. Instructions are
callgrind's, allocations those of a preloaded counter. Nothing is timed, so nothing else that runs disturbs it.
"""

import os
import re
import subprocess
import sys
import tempfile
from concurrent.futures import ThreadPoolExecutor

import shapes

HERE = os.path.dirname(os.path.abspath(__file__))
PROGRAM = sys.argv[1] if len(sys.argv) > 1 else os.path.join(HERE, "..", "crates", "sipd", "out", "sipd")
CONFIG = os.path.join(HERE, "..", "examples", "sample.toml")


def run(words, script, **variables):
    with tempfile.TemporaryFile() as file:
        file.write(script.encode())
        file.seek(0)
        done = subprocess.run([*words, PROGRAM, "replay", "--config", CONFIG], stdin=file, stdout=subprocess.DEVNULL, stderr=subprocess.PIPE, env={**os.environ, **variables})
    if done.returncode != 0:
        sys.exit(f"status {done.returncode}: {done.stderr.decode()[-300:]}")
    return done.stderr.decode()


def instructions(script):
    said = run(["valgrind", "--tool=callgrind", "--callgrind-out-file=/dev/null"], script)
    return int(re.search(r"Collected : (\d+)", said)[1])


def allocations(script, counter, folder):
    with tempfile.NamedTemporaryFile("r", dir=folder) as file:
        run([], script, LD_PRELOAD=counter, COUNT_FILE=file.name)
        return int(file.read())


def cells_of(make, counter, folder):
    """The cells of a shape: as long as a message may be that is taken, and as a datagram may be."""
    before, cells = "time 1000\n", []
    for limit in (shapes.TAKEN, shapes.LONGEST):
        data = shapes.filled(make, limit)
        # what reading the script costs is taken off by a datagram of as many bytes that isn't SIP
        script, noise = before + shapes.event(2000, 1, data), before + shapes.event(2000, 1, "x" * len(data))
        cost = instructions(script) - instructions(noise)
        made = allocations(script, counter, folder) - allocations(noise, counter, folder)
        cells.append(f"{len(data):,} | {cost / len(data):,.1f} | {made:,}")
    return " | ".join(cells)


def main():
    with tempfile.TemporaryDirectory() as folder:
        counter = os.path.join(folder, "count.so")
        subprocess.run(["cc", "-O2", "-shared", "-fPIC", "-o", counter, os.path.join(HERE, "count_allocations.c"), "-ldl"], check=True)
        print("| What | Instructions | Allocations |\n|---|---|---|")
        apart = 40_000
        for name, make, few, many in [
            ("a 401, few nonces", shapes.challenges, 50, 150),
            ("a 401, 4,096 nonces", shapes.challenges, 4_200, 4_300),
            ("a pair, few nonces", shapes.pairs, 50, 150),
            ("a pair, 4,096 nonces", shapes.pairs, 4_200, 4_300),
        ]:
            short, long = make(few, apart), make(many, apart)
            each = (instructions(long) - instructions(short)) / (many - few)
            made = (allocations(long, counter, folder) - allocations(short, counter, folder)) / (many - few)
            print(f"| {name} | {each:,.0f} | {made:,.1f} |", flush=True)
        print("\n| Shape | Bytes | Instructions a byte | Allocations | Bytes | Instructions a byte | Allocations |\n|---|---|---|---|---|---|---|", flush=True)
        with ThreadPoolExecutor(3) as pool:
            rows = pool.map(lambda make: cells_of(make, counter, folder), shapes.SHAPES.values())
            for name, row in zip(shapes.SHAPES, rows):
                print(f"| {name} | {row} |", flush=True)


if __name__ == "__main__":
    main()
