#!/usr/bin/env python3
"""Counts what the shapes of `hostile.py` cost and hold in `sipd replay`: `bench/measure_hostile.py [PROGRAM [KIND..]]`, at
the top. KIND is `costs` or `held`; both without it.

Counts are marginal: what a replay with three of a thing costs more than with one, halved, behind the same set-up. What a
datagram costs is measured by its bytes, and what goes out of it, at once or by timers, by its packets: the goal is at most
BYTE instructions for each byte that came and PACKET for each packet, what reads the script and prints the packets taken in.
The last column tells the instructions for each byte that came or went out.
"""

import os
import re
import subprocess
import sys
import tempfile
from concurrent.futures import ThreadPoolExecutor

import hostile
import replays
from measure_replays import HERE, KINDS, PROGRAM, instructions, memory, run

FEW, MANY = 1, 3
BYTE, PACKET = 1_000, 20_000


def each(less, more):
    return (more - less) / (MANY - FEW)


def costs_of(shape, folder):
    """The bytes, the packets, the bytes of these, and the instructions of a shape."""
    config = replays.configuration()
    scripts = [hostile.script_of(shape, times) for times in (FEW, MANY)]
    # the line in front of a packet ends with its length
    sent = [[int(size) for size in re.findall(r"^packet .* (\d+)$", run(PROGRAM, [], script.text(), config, folder)[0], re.M)] for script in scripts]
    counts = [instructions(script.text(), config, folder) for script in scripts]
    return each(*(script.bytes for script in scripts)), each(*map(len, sent)), each(*map(sum, sent)), each(*counts)


def tell_costs(folder):
    print("| Shape | From | Bytes | Packets | Their bytes | Instructions | a byte | a packet | Of the goal | a byte of all |\n|---|---|---|---|---|---|---|---|---|---|", flush=True)
    with ThreadPoolExecutor(3) as pool:
        rows = pool.map(lambda shape: costs_of(shape, folder), hostile.COSTS.values())
        for (name, whose), shape, (size, packets, sent, cost) in zip(hostile.COSTS, hostile.COSTS.values(), rows):
            if packets != shape[3]:
                sys.exit(f"{name}: {packets} packets")
            share = cost / (BYTE * size + PACKET * packets)
            print(f"| {name} | {whose} | {size:,.0f} | {packets:,.0f} | {sent:,.0f} | {cost:,.0f} | {cost / size:,.0f} | {cost / packets:,.0f} | {share:,.2f} | {cost / (size + sent):,.0f} |", flush=True)


def held_of(make, count, folder, counter):
    most = []
    for times in (count, 2 * count):
        script = hostile.Hostile()
        make(script, times)
        most.append(memory(script.text(), replays.configuration(), folder, counter)[1])
    return (most[1] - most[0]) / count


def tell_held(folder, counter):
    """The most bytes that are held at once: what twice as many hold more, for each that is more."""
    print("| What | Bytes held |\n|---|---|", flush=True)
    for name, (make, count) in hostile.HELD.items():
        print(f"| {name} | {held_of(make, count, folder, counter):,.1f} |", flush=True)


def main():
    kinds = [kind for kind in KINDS if kind in ("costs", "held")] or ["costs", "held"]
    with tempfile.TemporaryDirectory() as folder:
        counter = os.path.join(folder, "count.so")
        subprocess.run(["cc", "-O2", "-shared", "-fPIC", "-o", counter, os.path.join(HERE, "count_allocations.c"), "-ldl"], check=True)
        if "costs" in kinds:
            tell_costs(folder)
        if "held" in kinds:
            tell_held(folder, counter)


if __name__ == "__main__":
    main()
