#!/usr/bin/env python3
"""Counts what `sipd serve` costs over real sockets of this machine: `bench/measure_serve.py [PROGRAM] [--record] [--bare]`, at the top, after
`rt run` in crates/sipd; with `--record` the server records what it hears, and with `--bare` it has none of the variables that its unit
(contrib/sipd.service) starts it with. It takes six minutes: instructions of a REGISTER pair, a call and a forked call, the processor time of an idle
minute, and the memory that is resident at the start and with 1,000 bindings.

Instructions are callgrind's: of a run of some units, less those of a run as long without them, for each unit. In both as many were done
before, and have ended, as of a server that has served for a minute. The run goes on until what the units left open has ended, so that
the timers that fire afterwards are counted. Phones and configuration are those of `bench/measure_replays.py`.
"""

import os
import re
import signal
import sys
import tempfile
import threading
import time
from concurrent.futures import ThreadPoolExecutor

HERE = os.path.dirname(os.path.abspath(__file__))
sys.path.insert(0, os.path.join(HERE, "..", "tests"))

import replays
from phone import PROGRAM as BUILT
from phone import Phone, free_port, service_environment, started, tag_of, uri_in

RECORDS = "--record" in sys.argv
VARIABLES = {} if "--bare" in sys.argv else service_environment()
GIVEN = [word for word in sys.argv[1:] if word not in ("--record", "--bare")]
PROGRAM = GIVEN[0] if GIVEN else BUILT
UNITS = 20
OPEN = 34  # seconds until what was opened has ended
BINDINGS, TOGETHER = 1000, 450  # so many registrations fit into the table of open requests
COUNTED = ["valgrind", "--tool=callgrind", "--callgrind-out-file=/dev/null"]


def configured(folder, users=("help",)):
    port = free_port()
    path = os.path.join(folder, f"{port}.toml")
    with open(path, "w") as made:
        made.write(replays.configuration(users).replace("5060", str(port)))
    return path


def recorded(folder):
    """The words by which a server records, if it is to."""
    return ["--record", tempfile.mktemp(prefix="record_", dir=folder)] if RECORDS else []


def phone_of(user, port):
    return Phone(user, replays.key_of(user), ("127.0.0.1", port), "host.com", 30)


def stranger(port):
    return Phone("caller", "", ("127.0.0.1", port), "away.net", 30)


def call(caller, phones):
    """A call to all phones that are registered: each rings, the last one answers, the caller hangs up."""
    number, target = caller.mark(), "sip:help@host.com"
    caller.request("INVITE", target, target, number, 1, [caller.contact()])
    invites = [phone.hear() for phone in phones]
    for phone, invite in zip(phones, invites):
        assert invite.method == "INVITE", invite.start
        phone.answer(invite, 180, phone.mark())
        assert caller.hear().status == 180
    *others, last = list(zip(phones, invites))
    last[0].answer(last[1], 200, "b1", [last[0].contact()])
    taken = caller.hear()
    assert taken.status == 200, taken.start
    for phone, invite in others:
        cancel = phone.hear()
        assert cancel.method == "CANCEL", cancel.start
        phone.answer(cancel, 200, "c1")
        phone.answer(invite, 487, "c1")
        assert phone.hear().method == "ACK"
    route, remote, tag = taken.all("Record-Route")[0], uri_in(taken["Contact"]), tag_of(taken)
    for method, place in (("ACK", 1), ("BYE", 2)):
        caller.request(method, remote, target, number, place, [("Route", route)], tag)
        request = last[0].hear()
        assert request.method == method, request.start
    last[0].answer(request, 200)
    assert caller.hear().status == 200


def instructions(folder, phones, unit, done):
    """Of a run in which so many phones register, and a unit is done some times; and, where all of that has ended, as often again, if `done`."""
    server, port = started(PROGRAM, configured(folder), *recorded(folder), before=COUNTED, variables=VARIABLES)
    registered = [phone_of("help", port) for _ in range(phones)]
    for phone in registered:
        assert phone.register() == [401, 200]
    caller = stranger(port)
    for times in (UNITS, UNITS if done else 0):
        ends = time.monotonic() + 10 + OPEN
        for _ in range(times):
            unit(caller, registered)
        left = ends - time.monotonic()
        assert left > OPEN, "the units took too long"
        time.sleep(left)
    server.send_signal(signal.SIGTERM)
    said = server.communicate()[1].decode()
    return int(re.search(r"Collected : (\d+)", said)[1])


def pair(_caller, phones):
    assert phones[0].register() == [401, 200]


def resident(server):
    with open(f"/proc/{server.pid}/status") as it:
        return int(re.search(r"VmRSS:\s+(\d+) kB", it.read())[1])


def processor(server):
    """The processor time that it took so far, in ms."""
    with open(f"/proc/{server.pid}/schedstat") as it:
        return int(it.read().split()[0]) / 1e6


def idle(folder):
    server, _ = started(PROGRAM, configured(folder), *recorded(folder), variables=VARIABLES)
    time.sleep(1)
    before = processor(server)
    time.sleep(60)
    took = processor(server) - before
    server.kill()
    return took


def bindings(folder):
    users = [f"user{place}" for place in range(BINDINGS)]
    server, port = started(PROGRAM, configured(folder, ["help", *users]), *recorded(folder), variables=VARIABLES)
    # Its records are read on: they are more than a pipe holds, and a server whose output nobody reads waits.
    threading.Thread(target=server.stdout.read, daemon=True).start()
    time.sleep(1)
    before = resident(server)
    for place, user in enumerate(users, 1):
        assert phone_of(user, port).register() == [401, 200], user
        if place % TOGETHER == 0:
            time.sleep(OPEN)
    after = resident(server)
    server.kill()
    return before, after


def main():
    with tempfile.TemporaryDirectory() as folder, ThreadPoolExecutor() as pool:
        runs = {name: (pool.submit(instructions, folder, phones, unit, True), pool.submit(instructions, folder, phones, unit, False)) for name, phones, unit in [("a REGISTER pair", 1, pair), ("a call", 1, call), ("a call forked to three", 3, call)]}
        minute, held = pool.submit(idle, folder), pool.submit(bindings, folder)
        for name, (run, still) in runs.items():
            print(f"{name}: {(run.result() - still.result()) / UNITS:,.0f} instructions")
        print(f"an idle minute: {minute.result():.1f} ms of processor time")
        before, after = held.result()
        print(f"resident at the start, with {BINDINGS} users: {before:,} kB; with {BINDINGS} bindings {after:,} kB")


if __name__ == "__main__":
    main()
