#!/usr/bin/env python3
"""A day with real phones, recorded by `sipd serve --record` while tcpdump captures it: what `sipd calls`, `phones`, `now`, `trace` and `ladder`
print of the record is compared with the capture as tshark reads it: `tests/day.py PROGRAM`, as root.

It asks for tshark, tcpdump and baresip (baresip-core), and for linphonec (linphone-cli) and sipp (sip-tester), without which the trials that
need them are left out, as is said. Each phone stands at an address of its own, in a network namespace of its own, and is driven by what a
person types, as tests/day_phones.py says, and sipp by the scenarios of tests/day. `KEPT` names a folder that keeps record and captures. It
takes a minute, says each thing that it compared (tests/day_compared.py), ends with 1 where one fails, and no gate runs it."""

import contextlib
import csv
import io
import math
import os
import re
import shutil
import signal
import subprocess
import sys
import tempfile
import time

sys.dont_write_bytecode = True
import phone
from day_compared import compared, failures, say
from day_phones import SERVER, Baresip, Capture, Linphone, Place, Sipp, done, end_all, wired
from program import Server, ended, goes_apart, read, until, write

PASSWORDS = {**phone.PASSWORDS, "carol": "sesame", "dave": "dromedary", "erin": "eleven", "frank": "fortress"}
DENIED = '[[rule]]\nid = 20\nwho = "proven"\nop = "send INVITE"\ntarget = "vault@192.0.2.10"\nverdict = "deny"\n\n'


def unquoted(cell):
    """A cell of CSV without the quote that keeps it from being a formula: sipp's Call-IDs begin with `-`."""
    return cell[1:] if re.match("'[=+@\t\r-]", cell) else cell


class Day:
    """A server, its record, its capture, its phones, and moments at which nothing changed."""

    def __init__(self, folder):
        self.folder, self.moments, self.phones, self.slow = folder, [], {}, 0
        self.record, self.seen = os.path.join(folder, "day.record"), os.path.join(folder, "seen.pcap")
        self.capture = Capture(self.seen)
        self.carol, self.stray = Place(103), Place(200)
        self.stray.sends(1, b"nobody serves yet")
        self.server = Server(folder, office(folder), "--record", self.record)
        assert self.server.serves(), self.server.complaints()
        self.began, self.dropped = time.time(), drops()

    def quiet(self):
        """Waits over a moment: a whole second, and one in front of it and behind it."""
        moment = math.ceil(time.time() + 1)
        time.sleep(moment + 1 - time.time())
        self.moments.append(moment)

    def registers(self, user, last, kind):
        """A phone at an address of its own, once it is registered."""
        line = f" {user}@{SERVER} register 1 answer 200\n"
        before = self.server.printed().count(line)
        it = kind(self.folder, Place(last), user, PASSWORDS[user])
        assert until(lambda: self.server.printed().count(line) > before, 20), (user, self.server.printed())
        return it

    @contextlib.contextmanager
    def stopped(self):
        """A server that hears nothing for a while."""
        since = time.time()
        self.server.process.send_signal(signal.SIGSTOP)
        try:
            yield
        finally:
            self.server.process.send_signal(signal.SIGCONT)
            self.slow = max(self.slow, time.time() - since)

    def ends(self):
        self.ended, self.dropped = time.time(), drops() - self.dropped
        self.server.kill()
        self.stray.sends(1, b"OPTIONS sip:192.0.2.10 SIP/2.0\r\nCall-ID: late\r\nCSeq: 1 OPTIONS\r\n\r\n")
        say("the capture is whole", self.capture.ends() == 0, "the kernel dropped of it")

    def asks(self, command, *words):
        """The rows that a command prints of the record, as comma-separated values."""
        status, text, complaints = ended(command, "--csv", "--record", self.record, *words)
        assert (status, complaints) == (0, ""), (command, words, status, complaints)
        return [{name: unquoted(cell) for name, cell in row.items()} for row in csv.DictReader(io.StringIO(text, newline=""))]

    def traced(self, name, *words):
        path = os.path.join(self.folder, name)
        told = ended("trace", "--record", self.record, "--pcap", path, *words)
        assert told == (0, "", ""), told
        return path


def drops():
    """How many datagrams the kernel dropped of full sockets' buffers here."""
    names, values = (line.split() for line in read("/proc/net/snmp").decode().splitlines() if line.startswith("Udp: "))
    return int(dict(zip(names, values))["RcvbufErrors"])


def office(folder):
    """The office at the server's address, as OPERATING makes it, with further users, and an address that nobody may call."""
    text = done("sed", r"/^\[\[ho/,/^$/!s/127\.0\.0\.1/192.0.2.10/g", phone.OFFICE)
    config = write(os.path.join(folder, "office.toml"), text.replace("[[rule]]\nid = 3\n", DENIED + "[[rule]]\nid = 3\n").encode())
    for user, password in PASSWORDS.items():
        if user not in phone.PASSWORDS:
            status, table, complaints = ended("user", user, "--config", config, stdin=password.encode() + b"\n")
            assert status == 0, complaints
            write(config, read(config) + table.encode())
    return config


def registered(day):
    """Phones register by a challenge, one has a wrong password, and one is gone without a word."""
    Baresip(day.folder, Place(104), "dave", "wrong").says("401 unauthorized")
    for user, last, kind in (("alice", 101, Baresip), ("erin", 105, Baresip), ("frank", 106, Baresip), ("bob", 102, Linphone)):
        if kind is Baresip or shutil.which("linphonec"):
            day.phones[user] = day.registers(user, last, kind)
            day.quiet()
    day.phones["erin"].process.kill()


def denied(day):
    """A call that policy denies, one to nobody, and one to a user who isn't registered."""
    alice = day.phones["alice"]
    for user, status in (("vault", 403), ("nobody", 404), ("dave", 480)):
        alice.calls(user)
        alice.says(f"closed: {status}")
        time.sleep(0.3)


def unanswered(day):
    """A call to a phone that is gone is begun; nobody answers it."""
    day.phones["frank"].calls("erin")


def by_caller(day):
    """A call that is answered, held for a second, and hung up by the caller."""
    alice, bob = day.phones["alice"], day.phones["bob"]
    alice.calls("bob")
    bob.says(bob.CALLED)
    day.quiet()
    bob.answers()
    alice.says(alice.TALKS)
    day.quiet()
    alice.holds()
    alice.hangs_up()
    bob.says(bob.OVER)
    time.sleep(0.5)


def by_called(day):
    """One that is hung up by the called."""
    alice, bob = day.phones["alice"], day.phones["bob"]
    bob.calls("alice")
    alice.says(alice.CALLED)
    time.sleep(1)
    alice.answers()
    alice.says(alice.TALKS)
    day.quiet()
    alice.hangs_up()
    bob.says(bob.OVER)
    time.sleep(0.5)


def cancelled(day):
    """One that is cancelled while it rings."""
    alice, bob = day.phones["alice"], day.phones["bob"]
    alice.calls("bob")
    bob.says(bob.CALLED)
    day.quiet()
    alice.hangs_up()
    bob.says(bob.OVER)
    time.sleep(0.5)


def rejected(day):
    """One that a phone rejects."""
    alice, bob = day.phones["alice"], day.phones["bob"]
    bob.calls("alice")
    alice.says(alice.CALLED)
    time.sleep(1)
    alice.hangs_up()
    bob.says(bob.OVER)
    time.sleep(0.5)


def busy(day):
    """One to a phone that is busy."""
    called = Sipp(day.folder, day.carol, "busy", "carol")
    time.sleep(0.5)
    day.phones["alice"].calls("carol")
    day.phones["alice"].says("closed: 486")
    called.ends()


def forked(day):
    """One to a user with two phones, of which one takes it."""
    alice, frank = day.phones["alice"], day.phones["frank"]
    other = day.phones["frank too"] = day.registers("frank", 107, Baresip)
    alice.calls("frank")
    for it in (frank, other):
        it.says(it.CALLED)
    day.quiet()
    other.answers()
    alice.says(alice.TALKS)
    frank.says(frank.OVER)
    time.sleep(1)
    other.hangs_up()
    alice.says(alice.OVER)


def late(day):
    """One that a phone sends again, since the server is slow to hear it."""
    with day.stopped():
        day.phones["alice"].calls("nobody")
        time.sleep(0.6)
    day.phones["alice"].says("closed: 404")


def by_scenario(day):
    """One that sipp begins and hangs up, and one that it gives up at the challenge."""
    alice = day.phones["alice"]
    caller = Sipp(day.folder, day.carol, "call", "carol", PASSWORDS["carol"], "alice")
    alice.says(alice.CALLED)
    time.sleep(0.5)
    alice.answers()
    alice.says(alice.TALKS)
    caller.ends()
    alice.says(alice.OVER)
    Sipp(day.folder, day.carol, "unproven", "carol", target="alice").ends()


def for_a_minute(day):
    """A registration of a minute, by sipp."""
    Sipp(day.folder, day.carol, "register", "carol", PASSWORDS["carol"], expires=60).ends()
    day.quiet()


def given_up(day):
    """The call to the phone that is gone gets its answer."""
    frank = day.phones["frank"]
    frank.says("closed: 408", 45)


def standing(day):
    """One that stands when the day ends."""
    caller, bob = day.phones["frank too"], day.phones["bob"]
    caller.calls("bob")
    bob.says(bob.CALLED)
    time.sleep(1)
    bob.answers()
    caller.says(caller.TALKS)


def left(day):
    """A phone unregisters and leaves."""
    day.phones["alice"].leaves()
    day.quiet()


def strange(day):
    """What is no message comes, empty and in fragments, too; and more than the server's socket holds while it is stopped."""
    for data in (b"", b"\r\n\r\n", b"in fragments " * 300):
        day.stray.sends(1, data)
    with day.stopped():
        day.stray.sends(600, b"no message " * 90)
    time.sleep(1)


STEPS = (
    (registered, ()), (unanswered, ()), (for_a_minute, ("sipp",)), (denied, ()), (by_caller, ("linphonec",)), (by_called, ("linphonec",)), (busy, ("sipp",)),
    (cancelled, ("linphonec",)), (rejected, ("linphonec",)), (by_scenario, ("sipp",)), (given_up, ()), (forked, ()), (late, ()), (standing, ("linphonec",)), (left, ()),
    (strange, ()),
)  # fmt: skip


def lived(day):
    """Does what a day has; says which of it is left out."""
    for step, needed in STEPS:
        missing = [name for name in needed if not shutil.which(name)]
        what = " ".join(step.__doc__.split()).rstrip(".")
        if missing:
            print(f"left out: {what}, since {', '.join(missing)} isn't here", flush=True)
            continue
        try:
            step(day)
            say("done: " + what)
        except (AssertionError, KeyError, OSError, subprocess.SubprocessError) as fault:
            say("done: " + what, False, repr(fault))
    day.ends()


def main():
    if len(sys.argv) != 2 or os.geteuid():
        sys.exit("tests/day.py PROGRAM, as root")
    missing = [name for name in ("tshark", "tcpdump", "baresip") if not shutil.which(name)]
    if missing or not goes_apart():
        sys.exit(f"nothing is tried: {' and '.join(missing) or 'a network namespace'} can't be had here")
    signal.signal(signal.SIGTERM, lambda *_: sys.exit(1))
    folder = os.environ.get("KEPT") or tempfile.mkdtemp(prefix="day-")
    try:
        wired()
        day = Day(folder)
        lived(day)
        compared(day)
    finally:
        end_all()
        for server in Server.made:
            server.kill()
        if not os.environ.get("KEPT"):
            shutil.rmtree(folder, ignore_errors=True)
    sys.exit(1 if failures else 0)


if __name__ == "__main__":
    main()
