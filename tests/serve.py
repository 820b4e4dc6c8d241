#!/usr/bin/env python3
"""Tries `sipd serve` by real sockets of this machine: `tests/serve.py [PROGRAM]`, after `rt run` in crates/sipd. It takes a
minute, prints a line for each trial, and ends with 1 where one fails. It asks for no rights, and by how much this machine is late
it measures itself: a moment that it looks at may be later by that."""

import hashlib
import os
import re
import signal
import socket
import subprocess
import sys
import tempfile
import time

import phone
import serve_records
from phone import Phone, free_port, office, started, tag_of, uri_in
from served import (
    PROGRAM, audit_of, drawn, ended, established, goes_again, hears, hung_up, is_of_event, killed, phones, replayed, rewritten, says, stopped, without_receiving,
)  # fmt: skip

LONGEST = 60  # seconds that a trial may take


def call(folder):
    """Two phones register, call, answer and hang up, and the records are printed as they come."""
    server, port = started(PROGRAM, office(folder, free_port()))
    alice, bob = phones(port)
    assert alice.register() == [401, 200]
    challenge, registered = server.stdout.readline().decode(), server.stdout.readline().decode()
    found = re.fullmatch(r"(\d+) 1 REGISTER - alice@127\.0\.0\.1 register - challenge 401\n", challenge)
    assert found and abs(int(found[1]) - time.time() * 1000) < 5000, challenge
    assert re.fullmatch(r"\d+ 2 REGISTER alice alice@127\.0\.0\.1 register 1 answer 200\n", registered), registered
    assert bob.register() == [401, 200]
    number, _ = alice.invite(bob.address)
    invite = bob.hear()
    assert invite.method == "INVITE" and invite.uri == f"sip:bob@{bob.at}", invite.start
    assert len(invite.all("Via")) == 2 and invite["Record-Route"] == f"<sip:127.0.0.1:{port};lr>", invite.fields
    bob.answer(invite, 180, "b1")
    assert alice.hear().status == 180
    bob.answer(invite, 200, "b1", [bob.contact()])
    taken = alice.hear()
    assert taken.status == 200, taken.start
    route, remote, tag = taken["Record-Route"], uri_in(taken["Contact"]), tag_of(taken)
    alice.request("ACK", remote, bob.address, number, 2, [("Route", route)], tag)
    assert bob.hear().method == "ACK"
    alice.request("BYE", remote, bob.address, number, 3, [("Route", route)], tag)
    bye = bob.hear()
    assert bye.method == "BYE" and bye["Route"] == "", bye.fields
    bob.answer(bye, 200)
    over = alice.hear()
    assert over.status == 200 and over.method == "BYE", over.start
    printed, complaints = stopped(server)
    lines = [re.sub(r"^\d+ ", "", line) for line in printed.splitlines()]
    assert lines == [
        "3 REGISTER - bob@127.0.0.1 register - challenge 401",
        "4 REGISTER bob bob@127.0.0.1 register 1 answer 200",
        "5 INVITE - bob@127.0.0.1 send - challenge 407",
        "7 INVITE alice bob@127.0.0.1 send 7 sent 1",
    ], lines
    assert complaints == "", complaints


def timer_a(folder):
    """After 900 idle ms an INVITE that isn't answered goes again 500 ms (50 more or less) behind its first sending, ten times of ten."""
    server, port = started(PROGRAM, office(folder, free_port()))
    alice, bob = phones(port)
    assert bob.register() == [401, 200]
    seen = []
    while seen.count(True) < 10:
        time.sleep(0.9)
        seen.append(goes_again(server, alice, bob))
        assert seen.count(False) < 10, seen
    stopped(server)


def guarded_timer(folder):
    """Behind a datagram that is passed over, nothing is waited for: an INVITE that isn't answered goes again as soon."""
    server, port = started(PROGRAM, office(folder, free_port()), "--per-source", "2")
    alice, bob = phones(port, "127.0.0.2", "127.0.0.3")
    assert bob.register() == [401, 200]

    def flood():
        time.sleep(0.25)
        scanner.sendto(b"hello", alice.server)

    with socket.socket(socket.AF_INET, socket.SOCK_DGRAM) as scanner:
        scanner.bind(("127.0.0.4", 0))
        for _ in range(5):
            time.sleep(3)
            for _ in range(20):
                scanner.sendto(b"hello", alice.server)
            if goes_again(server, alice, bob, flood):
                break
        else:
            raise AssertionError("it never went again in time")
    stopped(server)


def another_address(folder):
    """A phone at another address is answered there, and hears there a request of 4,000 bytes whole."""
    server, port = started(PROGRAM, office(folder, free_port()))
    alice, bob = phones(port, "127.0.0.2", "127.0.0.3")
    assert bob.register() == [401, 200]
    number, subject = alice.mark(), ("Subject", "long " * 800)
    branch = alice.request("INVITE", bob.address, bob.address, number, 1, [subject])
    first = alice.hear()
    assert first.status == 407, first.start
    alice.acknowledge(first, bob.address, number, 1, branch)
    proof = alice.credential(first, "INVITE", bob.address)
    branch = alice.request("INVITE", bob.address, bob.address, number, 2, [subject, alice.contact(), proof])
    invite = bob.hear()
    assert invite.uri == f"sip:bob@{bob.at}" and invite["Subject"].split() == subject[1].split(), invite.start
    bob.answer(invite, 486, "b1")
    assert bob.hear().method == "ACK"
    refused = alice.hear()
    assert refused.status == 486, refused.start
    alice.acknowledge(refused, bob.address, number, 2, branch)
    printed, _ = stopped(server)
    assert " sent 1\n" in printed, printed


def failed_send(folder):
    """What the system refuses to send counts at once as a 503 (RFC 3261 16.9), of which the caller hears as a 500 (16.7)."""
    server, port = started(PROGRAM, office(folder, free_port()))
    alice, bob = phones(port)
    # Nothing may be sent to a broadcast address by a socket that didn't ask for it.
    bob.at = "255.255.255.255:9"
    assert bob.register() == [401, 200]
    before = time.monotonic()
    alice.invite(bob.address)
    over = alice.hear()
    assert over.status == 500 and time.monotonic() - before < 5, over.start
    stopped(server)


def failed_receive(folder):
    """A socket of which the system refuses to receive ends the server as by a fault of the device."""
    port = free_port()
    words, none = [PROGRAM, "serve", "--config", office(folder, port), "--turns", "3"], subprocess.DEVNULL
    try:
        server = subprocess.Popen(words, stdin=none, stdout=subprocess.PIPE, stderr=subprocess.PIPE, preexec_fn=without_receiving)
    except subprocess.SubprocessError as fault:
        raise AssertionError("no process here may be kept from receiving (seccomp), so that a fault of the socket can't be tried") from fault
    phone.SERVERS.append(server)
    printed, complaints = server.communicate(timeout=10)
    ends = server.returncode, printed.decode(), complaints.decode()
    assert ends == (4, f"sipd: serving 127.0.0.1:{port}\n", "sipd: device\n"), ends


def drawn_anew(folder):
    """Two starts draw other nonces and tags, with a record and without one."""
    config = office(folder, free_port())
    records = [("--record", os.path.join(folder, name)) for name in ("drawn", "drawn2")]
    starts = [drawn(*started(PROGRAM, config, *words)) for words in ((), (), *records)]
    assert all(nonce and tag for nonce, tag in starts), starts
    assert len({nonce for nonce, _ in starts}) == len({tag for _, tag in starts}) == len(starts), starts


def stop_and_continue(folder):
    """A stop and a continue of the process end nothing."""
    server, port = started(PROGRAM, office(folder, free_port()))
    alice, _ = phones(port)
    for pause in (0.05, 0.5, 1.5):
        server.send_signal(signal.SIGSTOP)
        time.sleep(pause)
        server.send_signal(signal.SIGCONT)
        time.sleep(0.2)
        assert server.poll() is None, server.stderr.read()
        assert alice.register() == [401, 200]
    stopped(server)


def turns(folder):
    """So many turns, and nothing else printed, also where it records."""
    port = free_port()
    config = office(folder, port)
    for count, *words in ((0,), (1,), (3,), (2, "--record", os.path.join(folder, "turns"))):
        wanted = (0, f"sipd: serving 127.0.0.1:{port}\nsipd: {count} turns\n", "")
        before = time.monotonic()
        assert ended("serve", "--config", config, "--turns", str(count), *words) == wanted
        passed = time.monotonic() - before
        assert count - 0.5 <= passed <= count + 5, passed


def bad_starts(folder):
    """A start that is refused: its status, its line, and nothing on standard output."""
    port = free_port()
    config = office(folder, port)
    missing = os.path.join(folder, "nowhere.toml")
    with socket.socket(socket.AF_INET, socket.SOCK_DGRAM) as taken:
        taken.bind(("127.0.0.1", port))
        assert ended("serve", "--config", config) == (4, "", "sipd: port taken\nsipd: device\n")
    foreign = os.path.join(folder, "foreign.toml")
    with open(config) as source, open(foreign, "w") as made:
        made.write(source.read().replace(f'address = "127.0.0.1:{port}"', f'address = "192.0.2.1:{port}"'))
    assert ended("serve", "--config", foreign) == (4, "", "sipd: no such address\nsipd: device\n")
    assert ended("serve", "--config", missing) == (4, "", "sipd: no file\nsipd: device\n")
    broken = os.path.join(folder, "broken.toml")
    with open(broken, "w") as made:
        made.write("version = ")
    assert ended("serve", "--config", broken) == (2, "", "sipd: configuration refused 2\n")
    alone = (["--resume", "a"], ["--record-fault", "end"], ["--keep", "30"], ["--sync", "each"], ["--record", "a", "--keep", "30"], ["--record", "a", "--sync", "minute"])
    both = (["--record", "a", "--records", "b"], ["--records", "b", "--resume", "a"], ["--record", "a", "--resume", "c", "--records", "b"])
    counts = (["--records", "b", "--keep", "36501"], ["--turns", "x"], ["--turns", "4294967296"], ["--turns=-1"], ["--turns", "1.5"], ["--turns", ""], ["--turns"], ["3"])
    for bad in (*counts, *alone, *both):
        status, printed, complaints = ended("serve", "--config", config, *bad)
        assert (status, printed) == (1, "") and complaints.startswith("error: "), (bad, status, printed, complaints)
    status, printed, complaints = ended("serve")
    assert (status, printed) == (1, "") and "--config <FILE>" in complaints, complaints


def closed_output(folder):
    """Where a line of the log can't be printed, it ends as by a fault of the device, and what was decided isn't sent."""
    server, port = started(PROGRAM, office(folder, free_port()))
    alice, _ = phones(port)
    server.stdout.close()
    alice.request("REGISTER", "sip:127.0.0.1", alice.address, "closed", 1, [alice.contact()])
    assert server.wait(10) == 4 and server.stderr.read() == b"sipd: output closed\nsipd: device\n"
    assert not hears(alice, 0.2)
    with open("/dev/full", "w") as full:
        server = subprocess.run([PROGRAM, "serve", "--config", office(folder, free_port())], stdin=subprocess.DEVNULL, stdout=full, stderr=subprocess.PIPE, timeout=10)
    assert (server.returncode, server.stderr) == (4, b"sipd: disk full\nsipd: device\n"), server


def small_stack(folder):
    """A stack that is too small is said at the start."""
    config = office(folder, free_port())
    done = subprocess.run(["prlimit", "--stack=400000", "--", PROGRAM, "serve", "--config", config, "--turns", "0"], stdin=subprocess.DEVNULL, capture_output=True, timeout=10)
    assert done.returncode == 5 and done.stdout == b"" and done.stderr.endswith(b"\nsipd: memory\n"), done


def guard(folder):
    """A scanner of 400 REGISTERs a second turns no phone away, and how many of its datagrams weren't heard is said, also where it records."""
    for words in ((), ("--record", os.path.join(folder, "guarded"))):
        turned_away(*started(PROGRAM, office(folder, free_port()), "--per-source", "20", *words))


def turned_away(server, port):
    """The scanner alone is."""
    alice, bob = phones(port)
    with socket.socket(socket.AF_INET, socket.SOCK_DGRAM) as scanner:
        scanner.bind(("127.0.0.2", 0))
        before = time.monotonic()
        for number in range(1200):
            at = "127.0.0.2:%d" % scanner.getsockname()[1]
            scanner.sendto(
                f"REGISTER sip:127.0.0.1 SIP/2.0\r\nVia: SIP/2.0/UDP {at};branch=z9hG4bKs{number}\r\nMax-Forwards: 70\r\nFrom: <sip:x@127.0.0.1>;tag=s\r\n"
                f"To: <sip:x@127.0.0.1>\r\nCall-ID: s{number}\r\nCSeq: 1 REGISTER\r\nContact: <sip:x@{at}>\r\nContent-Length: 0\r\n\r\n".encode(),
                alice.server,
            )
            time.sleep(0.0025)
            if number % 100 == 50:
                assert alice.register() == [401, 200] and bob.register() == [401, 200], number
    passed = time.monotonic() - before
    printed, complaints = killed(server)
    assert complaints.startswith("sipd: ") and "of 127.0.0.2" in complaints and "127.0.0.1" not in complaints, complaints
    scanned = [line for line in printed.splitlines() if " x@127.0.0.1 " in line]
    assert 40 <= len(scanned) <= 40 + 20 * (passed + 2), (len(scanned), passed)


def decided_now(folder):
    """`decide` without `--minute` asks at the present minute of the office's day, an hour ahead of UTC."""
    before = time.time()
    status, printed, complaints = ended("decide", "--config", office(folder, free_port()), "--user", "alice", "INVITE", "bob@127.0.0.1")
    minutes = {(int(moment) // 60 + 60) % 1440 for moment in (before, time.time())}
    found = re.search(r"(?m)^minute (\d+), ", printed)
    assert (status, complaints) == (0, "") and found and int(found[1]) in minutes, (status, printed, complaints)


def in_force(config, words):
    """What is said of a file that is in force, with the words on what changed."""
    return re.compile(rf"sipd: {re.escape(config)} is in force from datagram (\d+) on \({re.escape(words)}\)\n")


def comes_into_force(server, config, words):
    """Waits until a server says that of its file and nothing else, and gives the number of the datagram from which on."""
    said = says(server, " on (")
    while not said.endswith("\n"):
        said += says(server, "\n")
    found = in_force(config, words).fullmatch(said)
    assert found, said
    return int(found.group(1))


def changed(folder):
    """A configuration changes while people phone: who is new registers, who is gone isn't reached, and a standing call is hung up."""
    config = office(folder, free_port())
    server, port = started(PROGRAM, config, "--reload")
    alice, bob = phones(port)
    carol = Phone("carol", phone.md5("carol:office:tea"), ("127.0.0.1", port))
    assert alice.register() == [401, 200] and bob.register() == [401, 200]
    refused = carol.register()
    assert refused == [401, 401], refused
    dialog = established(alice, bob)
    bob_is = re.compile(r'\[\[user\]\]\nname = "bob"\na1 = "\w+"\n')
    carol_is = f'[[user]]\nname = "carol"\na1 = "{phone.md5("carol:office:tea")}"\n'
    rewritten(config, lambda text: bob_is.sub(carol_is, text))
    number = comes_into_force(server, config, "1 user more, 1 user fewer")
    assert carol.register() == [401, 200]
    refused = bob.register()
    assert refused == [401, 401], refused
    hung_up(alice, bob, dialog)
    alice.invite(bob.address)
    refused = alice.hear()
    assert refused.status == 404, refused.start
    assert carol.register() == [401, 200]
    printed, complaints = stopped(server)
    assert complaints == "", complaints
    lines = [re.sub(r"^\d+ \d+ ", "", line) for line in printed.splitlines()]
    assert lines.count("REGISTER carol carol@127.0.0.1 register 1 answer 200") == 2, lines
    numbers = [int(line.split()[1]) for line in printed.splitlines() if " REGISTER carol " in line or " REGISTER - carol@" in line]
    assert sorted(numbers) == numbers and [it for it in numbers if it < number] == numbers[:2] and numbers[2] == number, (number, printed)


def not_taken(folder):
    """What isn't taken is said once, and what was in force stays: another realm, a file that is no configuration, one that is gone, one
    that changes without end; what is taken behind that is. HUP ends the server, as each signal does."""
    config = office(folder, free_port())
    server, port = started(PROGRAM, config, "--reload", before=["env", "--default-signal=HUP"])
    alice, _ = phones(port)
    with open(config) as source:
        text = source.read()
    rewritten(config, lambda text: text.replace('realm = "office"', 'realm = "home"'))
    says(server, f"sipd: {config} isn't taken: realm can't change while the server runs; what was in force stays\n")
    rewritten(config, lambda text: "version = \n")
    said = says(server, "; what was in force stays\n")
    assert said.startswith(f"sipd: {config} isn't taken: "), said
    os.remove(config)
    says(server, "sipd: the configuration's file is gone; what was in force stays\n")
    for number in range(10):
        with open(config, "w") as made:
            made.write(text + f"# {number}\n")
        time.sleep(0.3)
    assert comes_into_force(server, config, "nothing differs") == 1
    assert alice.register() == [401, 200]
    time.sleep(2.5)
    _, complaints = stopped(server, by=signal.SIGHUP)
    assert complaints == "", complaints


def changed_record(folder):
    """A record whose configuration changed holds both files whole, each in front of what was taken under it; it is replayed whole, without
    either file, and is gone on from under either: who came by the change calls whom the record knows. What goes on from it holds all of it, and
    begins with the same file."""
    config, old, path, copy = office(folder, free_port()), *(os.path.join(folder, name) for name in ("before.toml", "changed", "changed_copy"))
    os.link(config, old)
    server, port = started(PROGRAM, config, "--reload", "--record", path)
    alice, _ = phones(port)
    carol = Phone("carol", phone.md5("carol:office:tea"), alice.server)
    assert alice.register() == [401, 200]
    rewritten(config, lambda text: text + f'\n[[user]]\nname = "carol"\na1 = "{carol.key}"\n')
    comes_into_force(server, config, "1 user more")
    assert carol.register() == [401, 200]
    printed, complaints = killed(server)
    assert complaints == "", complaints
    status, again, complaints = replayed(path)
    assert (status, complaints) == (0, ""), (status, complaints)
    assert audit_of(again) == printed.splitlines() and len(audit_of(again)) == 4, (audit_of(again), printed)
    assert all(data.decode() in again for data in (*alice.heard, *carol.heard))
    assert replayed(path, old) == (0, again, "") and replayed(path, config) == serve_records.OTHER
    with open(path, "rb") as made:
        whole = made.read()
    with open(copy, "wb") as made:
        made.write(whole)
    wanted, firsts = [], []
    for name in (old, config):
        with open(name, "rb") as source:
            text = source.read()
        firsts.append(len(wanted))
        wanted += [b"= " + line for line in text.splitlines()] + [b"configuration " + hashlib.sha256(text).hexdigest().encode()]
    lines = [line for line in whole.split(b"\n") if not line.startswith(b"sealed ")]
    held = [line for line in lines if line.startswith((b"= ", b"+ ", b"configuration "))]
    assert held == wanted and lines[1] == held[0] and lines[1 + firsts[1]].startswith((b"text ", b"time ")), held
    for by, record, who in ((config, path, 2), (old, copy, 1)):
        server, _ = started(PROGRAM, by, "--record", by + ".record", "--resume", record)
        if who == 2:
            hung_up(carol, alice, established(carol, alice))
        answers = [it.register() for it in (alice, carol)]
        assert [answer[-1] == 200 for answer in answers] == [True, who == 2], answers
        _, complaints = killed(server)
        assert re.fullmatch(f"sipd: goes on behind \\d+ lines of {record}\n", complaints), complaints
        status, on, complaints = replayed(by + ".record", old)
        assert (status, complaints) == (0, "") and on.startswith(again), (status, complaints, on)
        assert replayed(by + ".record", config) == serve_records.OTHER


def told_against(folder):
    """What a change from the last configuration of a record would do is told as from its file, also where the record was cut, and without one
    it isn't told; a pipe is a file's."""
    config, new, path, later, cut, bare, bad = (os.path.join(folder, "against_" + name) for name in ("config", "new", "first", "second", "cut", "bare", "bad"))
    os.rename(office(folder, free_port()), config)
    with open(config) as source:
        text = source.read()
    with open(new, "w") as made:
        made.write(text + f'\n[[user]]\nname = "carol"\na1 = "{phone.md5("carol:office:tea")}"\n')
    server, port = started(PROGRAM, config, "--record", path)
    alice, _ = phones(port)
    assert alice.register() == [401, 200]
    killed(server)

    def told(of, old):
        return ended("check", "--config", of, "--against", old)

    comes = (0, "user carol comes\na server that runs can take it\n", "")
    assert told(new, config) == told(new, path) == comes, (told(new, config), told(new, path))
    piped = subprocess.run([PROGRAM, "check", "--config", new, "--against", "/dev/stdin"], input=text.encode(), capture_output=True, timeout=20)
    assert (piped.returncode, piped.stdout.decode(), piped.stderr.decode()) == comes, piped
    server, _ = started(PROGRAM, new, "--record", later, "--resume", path)
    assert alice.register() == [401, 200]
    killed(server)
    assert told(new, later) == (0, "nothing differs\n", ""), told(new, later)
    assert told(config, later) == told(config, new), told(config, later)
    with open(later) as source:
        lines = source.readlines()
    first, last = (1 + place for place, line in enumerate(lines) if line.startswith("configuration "))
    for name, held in ((cut, [*lines[: last - 1], lines[last - 1][:20]]), (bare, filter(is_of_event, lines)), (bad, [*lines[:first], "hello\n", *lines[first:]])):
        with open(name, "w") as made:
            made.writelines(held)
    assert told(new, cut) == comes, told(new, cut)
    none = "sipd: of --against\nsipd: the record doesn't hold its configuration\n"
    assert told(new, bare) == (3, "", none), told(new, bare)
    assert told(new, bad) == (3, "", f"sipd: of --against\nsipd: script line {first + 1}\n"), told(new, bad)
    digest = hashlib.sha256(b"version =\n").hexdigest()
    with open(bad, "w") as made:
        made.writelines([lines[0], "= version =\n", f"configuration {digest}\n"])
    assert told(new, bad) == (2, "", "sipd: of --against\nsipd: configuration refused 2\n"), told(new, bad)


def status(folder):
    """How it is stands in the file that is named soon after the start, whole, and nothing beside it."""
    path = os.path.join(folder, "sipd.prom")
    server, _ = started(PROGRAM, office(folder, free_port()), "--status", path)
    end = time.monotonic() + 5
    while not os.path.exists(path):
        assert time.monotonic() < end, "no file comes"
        time.sleep(0.05)
    with open(path) as source:
        text = source.read()
    assert text.startswith("# HELP sipd_decisions_total ") and re.search(r"\nsipd_memory_bytes \d{6,}\n$", text), text
    assert not os.path.exists(path + ".part")
    assert stopped(server) == ("", "")


TRIALS = (
    call, another_address, turns, timer_a, guarded_timer, failed_send, failed_receive, drawn_anew, stop_and_continue, bad_starts, closed_output, *serve_records.TRIALS,
    small_stack, guard, status, decided_now, changed, not_taken, changed_record, told_against,
)


def too_long(*_):
    raise TimeoutError(f"it isn't over after {LONGEST} seconds")


def fault_of(trial, folder):
    """What fails of a trial, if something does. None of its servers is left."""
    signal.alarm(LONGEST)
    try:
        trial(folder)
        return None
    except Exception as fault:  # whatever a wrong program makes of a trial
        return fault
    finally:
        signal.alarm(0)
        for server in phone.SERVERS:
            server.kill()
            server.wait()
        phone.SERVERS.clear()


def main():
    signal.signal(signal.SIGALRM, too_long)
    signal.signal(signal.SIGTERM, lambda *_: sys.exit(1))
    failed = 0
    with tempfile.TemporaryDirectory() as folder:
        for trial in TRIALS:
            fault = fault_of(trial, folder)
            failed += fault is not None
            print(*(("ok:", trial.__doc__) if fault is None else ("FAILED:", trial.__doc__, repr(fault))), flush=True)
    sys.exit(1 if failed else 0)


if __name__ == "__main__":
    main()
