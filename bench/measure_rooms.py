#!/usr/bin/env python3
"""Counts in which rooms the instructions of a REGISTER pair, a call and a forked call go: `bench/measure_rooms.py [PROGRAM]`,
at the top, after `rt run` in crates/sipd.

Counts are callgrind's, each instruction with the function that the compiler left it in, so that what was put into another
function is counted there. They are marginal, as those of `bench/measure_replays.py`, whose scripts these are.
"""

import collections
import os
import re
import subprocess
import sys
import tempfile
from concurrent.futures import ThreadPoolExecutor

import measure_replays as replays

WHATS = ["a pair", "a call to one phone", "a call forked to three"]
ALLOCATOR = re.compile(r"malloc|_int_free|free$|calloc|realloc|rattle_(de)?alloc|unlink_chunk|tcache")
BYTES = re.compile(r"__mem|memchr|memcmp|bcmp")


def room_of(function):
    """The room of a function, or what of the system's library it is."""
    name = re.sub(r"^.*?:(?=\w)(?!:)", "", function, count=1) if function.startswith(("???:", "/")) else function
    if ALLOCATOR.search(name) and "::" not in name:
        return "the allocator"
    if BYTES.match(name) or name.startswith("memchr::"):
        return "copying, filling and searching bytes"
    return name.split("::")[0] if "::" in name else "other"


def counted(what, times, folder):
    users, rules, _, _ = replays.TABLES["alone"]
    config = replays.replays.configuration(users, rules)
    with tempfile.NamedTemporaryFile(dir=folder) as file:
        words = ["valgrind", "--tool=callgrind", f"--callgrind-out-file={file.name}"]
        replays.run(replays.PROGRAM, words, replays.script_of(what, "alone", times), config, folder)
        said = subprocess.run(["callgrind_annotate", "--threshold=100", "--show-percs=no", file.name], capture_output=True, text=True).stdout
    rooms = collections.Counter()
    for line in said.splitlines():
        found = re.match(r"\s*([\d,]+)\s+(\S*?):(\S.*?)(?: \[.*)?$", line)
        if found:
            rooms[room_of(found[3])] += int(found[1].replace(",", ""))
    return rooms


def main():
    with tempfile.TemporaryDirectory() as folder, ThreadPoolExecutor(3) as pool:
        jobs = [(what, times) for what in WHATS for times in (replays.FEW, replays.MANY)]
        runs = list(pool.map(lambda job: counted(*job, folder), jobs))
    costs = [{room: (more[room] - less[room]) / (replays.MANY - replays.FEW) for room in more} for less, more in zip(runs[::2], runs[1::2])]
    print("| Room | A pair | A call | A forked call |\n|---|---|---|---|")
    print("| all | " + " | ".join(f"{sum(cost.values()):,.0f}" for cost in costs) + " |")
    for room in sorted({room for cost in costs for room in cost}, key=lambda room: -costs[1].get(room, 0)):
        cells = [cost.get(room, 0) for cost in costs]
        if max(cells) >= 300:
            print(f"| {f'`{room}`' if '_' in room else room} | " + " | ".join(f"{cell:,.0f}" for cell in cells) + " |")


if __name__ == "__main__":
    main()
