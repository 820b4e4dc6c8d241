#!/usr/bin/env python3
"""Counts what registrations, calls and denials cost over tables of any size: `bench/measure_replays.py [PROGRAM [KIND..]]`,
at the top.

Counts are marginal: what a replay with ten of a thing costs more than one with two of it behind the same set-up, for each
of the eight, so that neither the start nor the set-up is in them. Instructions are callgrind's, allocations and the bytes
held at once those of a preloaded counter. KIND is `costs`, `growth`, `memory` or `again`; all of them without it. Where
SHARES names another build of the program, in which the functions of timers and rules, of either kind, are kept apart, their
inclusive costs are told from that.
"""

import os
import re
import subprocess
import sys
import tempfile
from concurrent.futures import ThreadPoolExecutor

import replays

HERE = os.path.dirname(os.path.abspath(__file__))
PROGRAM = sys.argv[1] if len(sys.argv) > 1 else os.path.join(HERE, "..", "crates", "sipd", "out", "sipd")
KINDS = sys.argv[2:] or ["costs", "growth", "memory", "again"]
FEW, MANY = 2, 10
TIMERS = r"(List|Wheel)TimersTimers::(next|reserve|pop_due|cancel|add)\b"
RULES = r"(List|Indexed)RulesRules::decide"


def run(program, words, script, config, folder, **variables):
    with tempfile.NamedTemporaryFile("w", dir=folder) as file, tempfile.TemporaryFile() as given:
        file.write(config)
        file.flush()
        given.write(script.encode())
        given.seek(0)
        done = subprocess.run([*words, program, "replay", "--config", file.name], stdin=given, capture_output=True, env={**os.environ, **variables})
    if done.returncode != 0:
        sys.exit(f"status {done.returncode}: {done.stderr.decode()[-300:]}")
    return done.stdout.decode(), done.stderr.decode()


def instructions(script, config, folder):
    return int(re.search(r"Collected : (\d+)", run(PROGRAM, ["valgrind", "--tool=callgrind", "--callgrind-out-file=/dev/null"], script, config, folder)[1])[1])


def shares(script, config, folder):
    """The inclusive costs of the functions of timers and of rules, in the build that keeps them apart."""
    with tempfile.NamedTemporaryFile(dir=folder) as file:
        run(os.environ["SHARES"], ["valgrind", "--tool=callgrind", f"--callgrind-out-file={file.name}"], script, config, folder)
        said = subprocess.run(["callgrind_annotate", "--inclusive=yes", "--threshold=100", file.name], capture_output=True, text=True).stdout
    found = [0, 0]
    for line in said.splitlines():
        for place, name in enumerate((TIMERS, RULES)):
            if re.search(name, line):
                found[place] += int(re.match(r"\s*([\d,]+)", line)[1].replace(",", ""))
    return found


def memory(script, config, folder, counter):
    """How many allocations there are, and the most bytes that are held at once."""
    numbers = []
    with tempfile.TemporaryDirectory(dir=folder) as inner:
        paths = [os.path.join(inner, name) for name in ("count", "held")]
        run(PROGRAM, [], script, config, folder, LD_PRELOAD=counter, COUNT_FILE=paths[0], HELD_FILE=paths[1])
        for path in paths:
            with open(path) as file:
                numbers.append(int(file.read()))
    return numbers


# What is done, once, and what the server must then have sent: the first line's word, how many.
def contacts(count, port=replays.PHONE):
    return [f"sip:help@127.0.0.1:{port + place}" for place in range(count)]


DONE = {
    "a 401": (lambda s, i: s.register("help", contacts(1)), 1, {"401": 1}),
    "a pair": (lambda s, i: s.pair("help", contacts(1)), 1, {"401": 1, "200": 1}),
    "a denied OPTIONS": (lambda s, i: s.denied(f"d{i}"), 1, {"403": 1}),
    "a call to one phone": (lambda s, i: s.call(f"k{i}"), 1, {"INVITE": 1, "100": 1, "180": 1, "200": 2, "ACK": 1, "BYE": 1}),
    "a call forked to three": (lambda s, i: s.call(f"k{i}", 3), 3, {"INVITE": 3, "100": 1, "180": 3, "200": 2, "CANCEL": 2, "ACK": 3, "BYE": 1}),
}


def opened(script, count):
    """REGISTERs that were challenged a moment ago, each of which stays for 32 seconds."""
    for _ in range(count):
        script.register("help", contacts(1))


def bound(script, users, each=16):
    """Users with 16 addresses each, or fewer, of whom no request is open any more."""
    for place, user in enumerate(users):
        script.pair(user, [f"sip:{user}@127.0.0.1:{10000 + at}" for at in range(each)])
        if place % 32 == 31:
            script.time(33_000)


def talking(script, count):
    """Calls that were answered and haven't ended, of which no request is open any more."""
    for place in range(count):
        script.answer(200, f"t{place}", script.invite(f"t{place}"))
        if place % 64 == 63:
            script.time(33_000)


OTHERS = [f"user{place:03}" for place in range(255)]
MANY_USERS = ["help", *[f"user{place:04}" for place in range(4000)]]
# the tables: users, rules, what is set up, and whether what is done comes at one moment
TABLES = {
    "alone": (["help"], 4, lambda s: None, False),
    "100 open requests": (["help"], 4, lambda s: opened(s, 100), True),
    "1,000 open requests": (["help"], 4, lambda s: opened(s, 1000), True),
    "4,081 bindings": (["help", *OTHERS], 4, lambda s: bound(s, OTHERS), False),
    "1,024 rules": (["help"], 1024, lambda s: None, False),
    "4,090 dialogs": (["help"], 4, lambda s: talking(s, 4090), False),
    "4,001 users": (MANY_USERS, 4, lambda s: None, False),
}


def script_of(what, table, times):
    do, phones, _ = DONE[what]
    _, _, set_up, at_once = TABLES[table]
    script = replays.Script()
    script.pair("help", contacts(phones))
    script.time(80_000)
    set_up(script)
    if not at_once:
        script.time(80_000)
    for place in range(times):
        do(script, place)
        if not at_once:
            script.time(80_000)
    script.time(80_000)
    return script.text()


def firsts(said):
    """How many packets of each kind were sent, copies not counted."""
    count = {}
    for word, head in re.findall(r"^packet \S+ \S+ \S+ (first|again) \d+\n(\S+ \S+)", said, re.M):
        name = head.split()[1] if head.startswith("SIP/2.0 ") else head.split()[0]
        key = name if word == "first" else "again"
        count[key] = count.get(key, 0) + 1
    return count


def measured(what, table, folder, counter):
    users, rules, _, _ = TABLES[table]
    config = replays.configuration(users, rules)
    few, many = (script_of(what, table, times) for times in (FEW, MANY))
    less, more = (firsts(run(PROGRAM, [], script, config, folder)[0]) for script in (few, many))
    sent = {key: (more[key] - less.get(key, 0)) / (MANY - FEW) for key in more if more[key] != less.get(key, 0)}
    if sent != DONE[what][2]:
        sys.exit(f"{what}, {table}: sent {sent}")
    cost = (instructions(many, config, folder) - instructions(few, config, folder)) / (MANY - FEW)
    made = (memory(many, config, folder, counter)[0] - memory(few, config, folder, counter)[0]) / (MANY - FEW)
    apart = None
    if "SHARES" in os.environ:
        apart = [(long - short) / (MANY - FEW) for long, short in zip(shares(many, config, folder), shares(few, config, folder))]
    return cost, made, apart


def tell(tables, folder, counter):
    jobs = [(what, table) for table in tables for what in DONE]
    print("| What | Table | Instructions | of which timers | rules | Allocations |\n|---|---|---|---|---|---|", flush=True)
    with ThreadPoolExecutor(3) as pool:
        for (what, table), (cost, made, apart) in zip(jobs, pool.map(lambda job: measured(*job, folder, counter), jobs)):
            timers, rules = (f"{it:,.0f}" for it in apart) if apart else ("", "")
            print(f"| {what} | {table} | {cost:,.0f} | {timers} | {rules} | {made:,.1f} |", flush=True)


def answered(script, count):
    """REGISTERs that were proven and answered, each of which stays: pairs on one nonce, of which the challenge is over."""
    nonce = f"{script.register('help', contacts(1)):032x}"
    script.time(80_000)
    for place in range(count):
        script.register("help", contacts(1), (nonce, place + 1))


def rung(script, count):
    for place in range(count):
        script.answer(180, f"k{place}", script.invite(f"k{place}"))


# what is held, by what makes so many, how many, and how many things each makes
HELD = {
    "an open REGISTER that was challenged": (opened, 256, 1),
    "an open REGISTER that was answered 200": (answered, 256, 1),
    "an open call that rings": (rung, 256, 1),
    "a binding, of a user with 16": (lambda s, count: bound(s, OTHERS[:count]), 96, 16),
    "a user's only binding": (lambda s, count: bound(s, OTHERS[:count], 1), 127, 1),
    "a dialog": (talking, 1024, 1),
}


def tell_memory(folder, counter):
    """The most bytes that are held at once: what twice as many hold more, for each that is more."""
    print("| What | Bytes held |\n|---|---|", flush=True)
    for name, (make, count, each) in HELD.items():
        config = replays.configuration(["help", *OTHERS] if "binding" in name else ["help"])
        most = []
        for times in (count, 2 * count):
            script = replays.Script()
            script.pair("help", contacts(1))
            script.time(80_000)
            make(script, times)
            most.append(memory(script.text(), config, folder, counter)[1])
        print(f"| {name} | {(most[1] - most[0]) / count / each:,.0f} |", flush=True)


def repeated(length, others, times):
    """A challenged REGISTER that comes again, among others whose branches differ from its own in their last digits."""
    script = replays.Script()
    long = "b" * length

    def send(number):
        script.number += 1
        data = (
            "REGISTER sip:host.com SIP/2.0\r\n"
            f"Via: SIP/2.0/UDP 127.0.0.1:5082;branch=z9hG4bK{long}{number:04}\r\n"
            "Max-Forwards: 70\r\nFrom: <sip:help@host.com>;tag=a1\r\nTo: <sip:help@host.com>\r\n"
            f"Call-ID: r\r\nCSeq: 1 REGISTER\r\nContact: <sip:help@127.0.0.1:5082>\r\nContent-Length: 0\r\n\r\n"
        )
        script.lines.append(f"hex {script.now} 127.0.0.1:5082 {script.number:032x} {data.encode().hex()}\n")

    for number in range(others):
        send(number)
    for _ in range(times):
        send(others - 1)
    return script.text()


def tell_repeated(folder):
    print("| A REGISTER comes again, its branch | Open requests | Instructions | Open requests | Instructions |\n|---|---|---|---|---|", flush=True)
    config = replays.configuration()
    for length in (16, 2_000, 40_000):
        cells = []
        for others in (1, 1024 if length < 40_000 else 64):
            few, many = (instructions(repeated(length, others, times), config, folder) for times in (FEW, MANY))
            cells.append(f"{others:,} | {(many - few) / (MANY - FEW):,.0f}")
        print(f"| {length:,} bytes | {' | '.join(cells)} |", flush=True)


def main():
    with tempfile.TemporaryDirectory() as folder:
        counter = os.path.join(folder, "count.so")
        subprocess.run(["cc", "-O2", "-shared", "-fPIC", "-o", counter, os.path.join(HERE, "count_allocations.c"), "-ldl"], check=True)
        if "costs" in KINDS:
            tell(["alone", "100 open requests", "1,000 open requests", "1,024 rules"], folder, counter)
        if "memory" in KINDS:
            tell_memory(folder, counter)
        if "again" in KINDS:
            tell_repeated(folder)
        if "growth" in KINDS:
            tell(["4,081 bindings", "4,090 dialogs", "4,001 users"], folder, counter)


if __name__ == "__main__":
    main()
