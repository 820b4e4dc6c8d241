#!/usr/bin/env python3
"""What a run of the gate would take on four processors, and where its longest chain is, by the seconds of docs/GATE.md.

    bench/gate_order.py [--jobs N] [--memory GB] [--start SECONDS] [--without-edits CRATE ..] [--show]

It goes by the order of `rt`: a proof begins once what it stands on is proved, those with the most lines behind them first, and
the edits of a crate where no proof can begin, behind one more proof of it. With `--jobs N`, as `.ci/run` asks for, N of them go
side by side, one processor each. Without it a task begins only where the memory that is counted for it is free (1 GB, 1 MB a line of
code, 0.2 MB a line of definitions and proofs, 0.08 MB a line of code below, and five times the libraries of the kit that are loaded,
2.5 GB at most), and those that fit pass one that waits. A crate that has no row counts as those together that have none. So it tells
what a cut would bring before anything is proved, and is some minutes off. Proves nothing.
"""
import argparse
import functools
import glob
import os
import re
import subprocess
import sys

os.chdir(os.path.join(os.path.dirname(os.path.abspath(__file__)), ".."))
LANES = 4
# How many times as fast a proof is by so many processors (an estimate).
FASTER = {1: 1, 2: 1.75, 3: 2.3, 4: 2.8}
# Where the kit's libraries are: beside the page that `rt doc` names.
KIT = os.path.join(os.path.dirname(subprocess.run(["rt", "doc"], capture_output=True, text=True).stdout.strip()), "rlibs")


def lines_of(crate, ending):
    files = glob.glob(f"crates/{crate}/**/*{ending}", recursive=True)
    return sum(open(it, "rb").read().count(b"\n") for it in files if "/out/" not in it)


def listed():
    found = {}
    for line in open("crates.txt", encoding="utf-8"):
        name, colon, deps = line.partition(":")
        if colon:
            found[name] = deps.split()
    return found


def seconds_of(crates):
    page = open("docs/GATE.md", encoding="utf-8").read()
    found = {name: int(number) for name, number in re.findall(r"\| `(\w+)` \| (\d+) (?=\|)", page)}
    rest = re.search(r"(?m)^\| (\d+) others, [^|]*\| (\d+) \|", page)
    each = int(rest[2]) / int(rest[1]) if rest else 60
    return {it: found.get(it, each) for it in crates}


class House:
    def __init__(self):
        self.lists = listed()
        self.crates = list(self.lists)
        self.seconds = seconds_of(self.crates)
        self.code = {it: lines_of(it, ".rt") for it in self.crates}
        self.proofs = {it: lines_of(it, ".antt") for it in self.crates}
        self.edits = {it: len(glob.glob(f"crates/{it}/must-fail/*.edit")) for it in self.crates}

    @functools.lru_cache(None)
    def below(self, crate):
        own = [it for it in self.lists[crate] if it in self.lists]
        return frozenset(own).union(*[self.below(it) for it in own])

    def memory(self, crate):
        kit = {it for one in [crate, *self.below(crate)] for it in self.lists[one] if it not in self.lists}
        files = [f"{KIT}/{it}.rlib/toolchain/checked.a" for it in kit]
        loaded = sum(os.path.getsize(it) for it in files if os.path.isfile(it))
        below = sum(self.code[it] for it in self.below(crate))
        return 1e9 + 1e6 * self.code[crate] + 2e5 * self.proofs[crate] + 8e4 * below + min(5 * loaded, 2.5e9)

    def chain(self):
        """When each crate could be proved at the soonest, and how long it may wait, with as many processors as may be."""
        begin, last = {}, {}
        for it in self.crates:
            begin[it] = max([begin[d] + self.seconds[d] for d in self.below(it)], default=0)
        end = max(begin[it] + self.seconds[it] for it in self.crates)
        for it in reversed(self.crates):
            above = [up for up in self.crates if it in self.below(up)]
            last[it] = min([last[up] for up in above], default=end) - self.seconds[it]
        return end, begin, {it: last[it] - begin[it] for it in self.crates}


def tasks_of(house):
    """What a task waits for, its lines, its memory and its seconds."""
    tasks = {}
    for it in house.crates:
        tasks[it, "proof"] = ([(d, "proof") for d in house.below(it)], house.code[it], house.memory(it), house.seconds[it])
        for number in range(house.edits[it]):
            tasks[it, "seed"] = ([(it, "proof")], 0, house.memory(it), 0.85 * house.seconds[it])
            tasks[it, f"edit {number}"] = ([(it, "seed")], house.code[it], house.memory(it), 13 + 0.06 * house.seconds[it])
    return tasks


def order(tasks, memory, start, fixed):
    """The tasks with their beginnings, ends and processors."""
    behind = {it: 0 for it in tasks}
    for key in reversed(list(tasks)):
        behind[key] += tasks[key][1]
        for it in tasks[key][0]:
            behind[it] = max(behind[it], behind[key])
    left = sorted(tasks, key=lambda it: (it[1] != "proof", -behind[it]))
    lanes, running, ended, now, told = fixed or LANES, {}, set(), start, []
    while left or running:
        ready = [it for it in left if all(below in ended for below in tasks[it][0])]
        for at, key in enumerate(ready):
            _, _, needs, seconds = tasks[key]
            room = memory - sum(it[1] for it in running.values())
            idle = lanes - sum(it[2] for it in running.values())
            if idle > 0 and (fixed or not running or needs <= room):
                left.remove(key)
                spare = 1 if fixed or key[1] != "proof" else min(LANES, idle // (len(ready) - at), 1 + int((room / needs - 1) / 0.6))
                jobs = max(1, spare)
                running[key] = now + seconds / FASTER[jobs], needs * (1 + 0.6 * (jobs - 1)), jobs, now
        now = min(it[0] for it in running.values())
        for key in [it for it in running if running[it][0] <= now]:
            end, _, jobs, begun = running.pop(key)
            ended.add(key)
            told.append((begun, end, jobs, key))
    return told


def main():
    words = argparse.ArgumentParser(description=__doc__, formatter_class=argparse.RawDescriptionHelpFormatter)
    words.add_argument("--jobs", type=int, default=0, metavar="N", help="so many side by side, whatever memory they may take")
    words.add_argument("--memory", type=float, default=19.1, help="what may be counted, in GB (default: %(default)s)")
    words.add_argument("--start", type=float, default=180, help="seconds before anything is proved (default: %(default)s)")
    words.add_argument("--without-edits", nargs="*", default=[], metavar="CRATE")
    words.add_argument("--show", action="store_true", help="each task with its minutes")
    asked = words.parse_args()
    house = House()
    for it in asked.without_edits:
        house.edits[it] = 0
    end, begin, slack = house.chain()
    tasks = tasks_of(house)
    told = order(tasks, asked.memory * 1e9, asked.start, asked.jobs)
    if asked.show:
        for begun, over, jobs, (crate, kind) in sorted(told, key=lambda it: it[1]):
            print(f"{begun / 60:6.1f} {over / 60:6.1f} {jobs} {crate} {kind}")
    print("longest chain:", " ".join(it for it in house.crates if slack[it] < 1), f"({end / 60:.1f} min on one processor each)")
    edits = sum(tasks[it][3] for it in tasks if it[1] != "proof")
    proofs = sum(tasks[it][3] for it in tasks if it[1] == "proof")
    print(f"processor minutes: {proofs / 60:.0f} of proofs and programs, {edits / 60:.0f} of edits")
    print(f"wall: {max(it[1] for it in told) / 60:.0f} min, and a minute for the programs")
    return 0


if __name__ == "__main__":
    sys.exit(main())
