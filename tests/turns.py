#!/usr/bin/env python3
"""Tries how a server that serves turns from one record of its folder to the next: `tests/turns.py PROGRAM`, after `rt run` in crates/sipd.
The office's midnight comes with the next minute, by the offset that its configuration states. A call stands, one rings and one is begun then:
each goes on; both records replay what was printed; the server starts again from the next one; and each of these calls has one row of all records. Where that can't be begun, the server goes on
in the one that it has. Then a server is killed at each call of the system that it makes for a turn, by strace, where that is there: each start
behind that finds every phone and every call. It takes some four minutes, and ends with 1 where something isn't so."""

import json
import os
import re
import shutil
import subprocess
import sys
import tempfile
import threading
import time

import phone
from phone import Phone, free_port, office, started, tag_of, uri_in
from served import audit_of, established, first_word, hung_up, killed, made_in, phones, replayed, rewritten, says

PROGRAM = os.path.abspath(sys.argv[1])
MINUTE, DAY = 60, 1440
TURNED = "is written from here on\n"


def midnight(seconds):
    """A moment at which a minute begins, so many seconds from now at least; and the minutes by which the office is ahead of UTC whose day begins
    then."""
    moment = int(time.time() + seconds) // MINUTE * MINUTE + MINUTE
    offset = -(moment // MINUTE) % DAY
    return moment, offset if offset <= 840 else offset - DAY


def office_at(folder, offset):
    config = office(folder, free_port())
    rewritten(config, lambda text: text.replace("offset = 60", f"offset = {offset}"))
    return config


def ringing(alice, bob):
    """A call that rings: its Call-ID, and the INVITE that came."""
    number, _ = alice.invite(bob.address)
    invite = bob.hear()
    bob.answer(invite, 180, "b2")
    rings = alice.hear()
    assert rings.status == 180, rings.start
    return number, invite


def taken_up(alice, bob, number, invite):
    """The same call answered."""
    bob.answer(invite, 200, "b2", [bob.contact()])
    taken = alice.hear()
    assert taken.status == 200, taken.start
    dialog = number, taken["Record-Route"], uri_in(taken["Contact"]), tag_of(taken)
    alice.request("ACK", dialog[2], bob.address, number, 2, [("Route", dialog[1])], dialog[3])
    assert bob.hear().method == "ACK"
    return dialog


def ends_sealed(path):
    with open(path) as record:
        return record.readlines()[-1].startswith("sealed ")


def told(*words):
    """What a command prints of records, line by line."""
    done = subprocess.run([PROGRAM, *words], stdin=subprocess.DEVNULL, capture_output=True, text=True, timeout=60)
    assert (done.returncode, done.stderr) == (0, ""), (words, done)
    return done.stdout.splitlines()


def one_history(records):
    """The four calls of the folder have a row each, with how they ended, also those that stood or rang where a record ended; and what such a call sent is
    drawn once."""
    rows = [json.loads(line) for line in told("calls", "--record", records, "--json")]
    assert [row["result"] for row in rows] == ["answered"] * 4 and all(row["ended_by"] == "caller" for row in rows), rows
    numbers = [row["number"] for row in rows]
    assert numbers == sorted(set(numbers)), numbers
    files = [os.path.join(records, name) for name in made_in(records, "record")]
    assert [json.loads(line) for line in told("calls", "--json", "--record", *files)] == rows
    drawn = told("ladder", str(numbers[1]), "--record", records)
    assert sum(" BYE " in line for line in drawn) == 2 and not any("again" in line for line in drawn), drawn
    assert told("phones", "--record", records) == told("phones", "--record", files[-1])


def turned(folder):
    """A call that stands and one that rings go on in the next record, and behind a start from that."""
    moment, offset = midnight(8)
    config, records = office_at(folder, offset), os.path.join(folder, "records")
    os.mkdir(records)
    server, port = started(PROGRAM, config, "--records", records)
    alice, bob = phones(port)
    assert alice.register() == [401, 200] and bob.register() == [401, 200]
    hung_up(alice, bob, established(alice, bob))
    standing = established(alice, bob)
    number, invite = ringing(alice, bob)
    said = says(server, TURNED, moment - time.time() + 10)
    first, second = (os.path.join(records, name) for name in made_in(records, "record"))
    assert said.endswith(f"sipd: {second} {TURNED}"), said
    assert first_word(first) == "left" and first_word(second) == "record" and ends_sealed(first)
    other = taken_up(alice, bob, number, invite)
    hung_up(alice, bob, other)
    last = established(alice, bob)
    printed, _ = killed(server)
    lines = printed.splitlines()
    status, before, complaints = replayed(first)
    assert (status, complaints) == (0, ""), (status, complaints)
    before = audit_of(before)
    assert before == lines[:len(before)] != [], (before, lines)
    status, after, complaints = replayed(second)
    assert (status, complaints) == (0, ""), (status, complaints)
    rest = lines[len(before):]
    assert rest != [] and audit_of(after)[-len(rest):] == rest, (audit_of(after), rest)
    server, _ = started(PROGRAM, config, "--records", records)
    hung_up(alice, bob, standing)
    hung_up(alice, bob, last)
    _, complaints = killed(server)
    assert complaints.startswith("sipd: goes on behind ") and "second" not in complaints, complaints
    assert len(made_in(records, "record")) == 3
    one_history(records)


def not_begun(folder):
    """Where the next record can't be begun, a line says so, and all that comes stands in the one that the server has."""
    moment, offset = midnight(5)
    config, records = office_at(folder, offset), os.path.join(folder, "kept")
    os.mkdir(records)
    server, port = started(PROGRAM, config, "--records", records)
    alice, bob = phones(port)
    assert alice.register() == [401, 200] and bob.register() == [401, 200]
    os.makedirs(os.path.join(records, "new.part", "full"))
    says(server, "no next record could be begun", moment - time.time() + 10)
    hung_up(alice, bob, established(alice, bob))
    printed, _ = killed(server)
    (name,) = made_in(records, "record")
    status, again, complaints = replayed(os.path.join(records, name))
    assert (status, complaints) == (0, "") and audit_of(again) == printed.splitlines() != [], complaints


CALLS = "openat,link,unlink,fsync,fdatasync,lseek"


def traced(out, *more):
    return "strace", "-f", "-qq", "-o", out, "-e", f"trace={CALLS}", *more


def calls_of(trace):
    """The calls of the system in a trace, by their names."""
    with open(trace) as lines:
        return re.findall(r"^\d+ +(\w+)\(", lines.read(), re.M)


def calls_of_a_turn(folder):
    """Which calls of the system a server makes that turns, each by its name and by how many of that name there were with it."""
    moment, offset = midnight(8)
    config, records, trace = office_at(folder, offset), os.path.join(folder, "traced"), os.path.join(folder, "trace")
    os.mkdir(records)
    server, port = started(PROGRAM, config, "--records", records, before=traced(trace))
    alice, bob = phones(port)
    assert alice.register() == [401, 200] and bob.register() == [401, 200]
    established(alice, bob)
    before = len(calls_of(trace))
    says(server, TURNED, moment - time.time() + 10)
    time.sleep(0.2)
    calls = calls_of(trace)
    subprocess.run(["pkill", "-KILL", "-P", str(server.pid)], check=False)
    killed(server)
    return [(name, calls[:place + 1].count(name)) for place, name in enumerate(calls) if place >= before]


def killed_while_turning(folder, place, call, moment, offset, found):
    """One server that is killed where it makes this call of the system; then another start."""
    try:
        records, (name, when) = os.path.join(folder, f"records{place}"), call
        os.mkdir(records)
        config = office_at(folder, offset)
        words = traced("/dev/null", "-e", f"inject={name}:signal=KILL:when={when}")
        server, port = started(PROGRAM, config, "--records", records, before=words)
        alice, bob = phones(port)
        assert alice.register() == [401, 200] and bob.register() == [401, 200]
        standing = established(alice, bob)
        server.wait(moment - time.time() + 15)
        there = len(made_in(records, "record"))
        server, _ = started(PROGRAM, config, "--records", records)
        hung_up(alice, bob, standing)
        hung_up(alice, bob, established(alice, bob))
        _, complaints = killed(server)
        assert "sipd: goes on behind " in complaints, complaints
        found.append((there, None))
    except Exception as fault:  # told by the thread that joins this one
        found.append((0, f"killed at {call}: {fault!r}"))


def kills(folder):
    if shutil.which("strace") is None:
        print("no strace here, so no server is killed while it turns")
        return
    calls = calls_of_a_turn(folder)
    assert {name for name, _ in calls} >= {"openat", "link", "unlink", "fsync"}, calls
    moment, offset = midnight(20)
    found = []
    threads = [threading.Thread(target=killed_while_turning, args=(folder, place, call, moment, offset, found)) for place, call in enumerate(calls)]
    for it in threads:
        it.start()
    for it in threads:
        it.join()
    wrong = [why for _, why in found if why]
    assert not wrong, wrong
    both = sum(there == 2 for there, _ in found)
    print(f"killed a server at each of {len(calls)} calls of the system while it turned: behind {both} of them the next record stood there")
    assert 0 < both < len(calls), both


def main():
    Phone.marks = iter(range(1, 1 << 30))
    with tempfile.TemporaryDirectory() as folder:
        for trial in (turned, not_begun, kills):
            try:
                trial(folder)
            finally:
                for it in phone.SERVERS:
                    it.kill()
            print(f"{trial.__name__}: as it should be")


main()
