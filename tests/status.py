#!/usr/bin/env python3
"""Tries `sipd serve --status FILE` by real sockets of this machine: `tests/status.py [PROGRAM]`, after `rt run` in crates/sipd. What the file
says is held to what the phones did, line by line; who gave wrong passwords alone is told within a minute, and nobody else; and what can't be
written is said once, and changes nothing. Where fail2ban is, its filter is tried on the lines. It takes a minute and a half, and no gate runs it."""

import os
import re
import shutil
import subprocess
import sys
import tempfile
import time

import phone
from phone import Phone, free_port, office, started
from served import killed, phones, stopped

PROGRAM = os.path.abspath(sys.argv[1] if len(sys.argv) > 1 else phone.PROGRAM)
FILTER = os.path.join(phone.TOP, "contrib", "fail2ban", "filter.d", "sipd.conf")
KINDS = {
    "sipd_decisions_total": "counter",
    "sipd_wrong_credentials_total": "counter",
    "sipd_unheard_datagrams_total": "counter",
    "sipd_open_requests": "gauge",
    "sipd_dialogs": "gauge",
    "sipd_record_bytes": "gauge",
    "sipd_memory_bytes": "gauge",
}


def numbers_in(path):
    """The numbers of a file by their names, each of which has to have its two lines in front; and nothing else may stand there."""
    with open(path, encoding="ascii") as it:
        text = it.read()
    assert text.endswith("\n"), text
    found, told = {}, {}
    for line in text.splitlines():
        if line.startswith("# HELP "):
            name, said = line[7:].split(" ", 1)
            assert said.endswith(".") and name not in told, line
            told[name] = None
        elif line.startswith("# TYPE "):
            name, kind = line[7:].split(" ")
            assert told[name] is None and KINDS[name] == kind, line
            told[name] = kind
        else:
            parts = re.fullmatch(r"([a-z_]+)(\{outcome=\"(?:challenge|deny|sent|answer)\"\})? (\d+)", line)
            assert parts and told[parts[1]] and parts[1] + (parts[2] or "") not in found, line
            found[parts[1] + (parts[2] or "")] = int(parts[3])
    return found


def decided(numbers):
    return [numbers[f'sipd_decisions_total{{outcome="{word}"}}'] for word in ("challenge", "deny", "sent", "answer")]


def later(path, seconds=12):
    """The numbers of the next text that the file gets."""
    before, end = os.stat(path).st_ino, time.monotonic() + seconds
    while os.stat(path).st_ino == before:
        assert time.monotonic() < end, "the file stays as it was"
        time.sleep(0.1)
    return numbers_in(path)


def first(path, seconds=5):
    end = time.monotonic() + seconds
    while not os.path.exists(path):
        assert time.monotonic() < end, "no file comes"
        time.sleep(0.05)
    return numbers_in(path)


def wrong(name, port, ip):
    """A phone with an old password."""
    it = Phone(name, phone.md5(f"{name}:office:old"), ("127.0.0.1", port), ip=ip)
    it.again = False
    return it


def counts(folder):
    """What is decided is counted by what became of it, and so are wrong passwords; a new text comes every ten seconds."""
    path, recorded = os.path.join(folder, "sipd.prom"), os.path.join(folder, "day.record")
    server, port = started(PROGRAM, office(folder, free_port()), "--status", path, "--record", recorded)
    alice, bob = phones(port)
    assert decided(first(path)) == [0, 0, 0, 0]
    before = time.monotonic()
    assert alice.register() == [401, 200] and bob.register() == [401, 200]
    assert wrong("alice", port, "127.0.0.9").register() == [401, 401]
    numbers = later(path)
    assert decided(numbers) == [4, 0, 0, 2], numbers
    assert numbers["sipd_wrong_credentials_total"] == 1 and numbers["sipd_unheard_datagrams_total"] == 0, numbers
    assert numbers["sipd_open_requests"] == 6 and numbers["sipd_dialogs"] == 0, numbers
    assert 1000 < numbers["sipd_record_bytes"] <= os.stat(recorded).st_size and numbers["sipd_memory_bytes"] > 1 << 20, numbers
    later(path)
    assert 9 < time.monotonic() - before < 25, "not each ten seconds"
    assert not os.path.exists(path + ".part")
    printed, complaints = stopped(server)
    assert printed.count(" challenge ") == 4 and complaints == "", (printed, complaints)


def unheard(folder):
    """What isn't heard of a source is counted on, also behind the line that says it; without a record there is no number of its bytes."""
    path = os.path.join(folder, "sipd.prom")
    server, port = started(PROGRAM, office(folder, free_port()), "--status", path, "--per-source", "2")
    scanner = wrong("alice", port, "127.0.0.9")
    first(path)
    for _ in range(50):
        scanner.socket.sendto(b"hello", scanner.server)
    numbers = later(path)
    assert 40 <= numbers["sipd_unheard_datagrams_total"] <= 48 and "sipd_record_bytes" not in numbers, numbers
    assert later(path)["sipd_unheard_datagrams_total"] == numbers["sipd_unheard_datagrams_total"]
    killed(server)


def told(folder):
    """A source that gave three wrong passwords alone is told within a minute; one that gave two isn't, nor one that gave a right one, too, nor one
    that asked without a password."""
    path = os.path.join(folder, "sipd.prom")
    server, port = started(PROGRAM, office(folder, free_port()), "--status", path)
    alice, bob = phones(port, "127.0.0.2", "127.0.0.3")
    scanner, twice, mistyped = (wrong("bob", port, ip) for ip in ("127.0.0.4", "127.0.0.5", "127.0.0.2"))
    for number in range(3):
        assert scanner.register() == [401, 401] and mistyped.register() == [401, 401]
        assert number == 2 or twice.register() == [401, 401]
    assert alice.register() == [401, 200]
    for _ in range(4):
        bob.request("REGISTER", "sip:127.0.0.1", "sip:bob@127.0.0.1", bob.mark(), 1, [bob.contact()])
        assert bob.hear().status == 401
    time.sleep(62)
    _, complaints = killed(server)
    assert complaints == "sipd: 127.0.0.4 gave 3 wrong passwords for bob, none right\n", complaints
    return complaints


def refused(folder):
    """What can't be written is said once, and the server goes on; a named pipe in the place of the part isn't opened."""
    missing = os.path.join(folder, "nowhere", "sipd.prom")
    server, port = started(PROGRAM, office(folder, free_port()), "--status", missing)
    alice, _ = phones(port)
    time.sleep(11)
    assert alice.register() == [401, 200]
    _, complaints = killed(server)
    assert complaints == "sipd: the status can't be written; the server goes on\n", complaints
    piped = os.path.join(folder, "piped.prom")
    os.mkfifo(piped + ".part")
    server, port = started(PROGRAM, office(folder, free_port()), "--status", piped)
    alice, _ = phones(port)
    assert alice.register() == [401, 200] and not os.path.exists(piped)
    os.remove(piped + ".part")
    first(piped, 12)
    killed(server)


def filtered(folder, line):
    """fail2ban finds the source in the line, as the journal hands it on, and in no other line of the server."""
    if not shutil.which("fail2ban-regex"):
        return print("left out: fail2ban isn't here")
    path = os.path.join(folder, "lines")
    with open(path, "w") as it:
        for said in (line, "sipd: 12 datagrams weren't heard: 12 of 127.0.0.4\n", "sipd: serving 127.0.0.1:5060\n"):
            it.write(time.strftime("%b %d %H:%M:%S ") + "office sipd[7]: " + said)
    done = subprocess.run(["fail2ban-regex", path, FILTER], capture_output=True, text=True, check=True)
    assert "3 lines, 0 ignored, 1 matched, 2 missed" in done.stdout, done.stdout


def main():
    failed = []
    line = "sipd: 127.0.0.4 gave 3 wrong passwords for bob, none right\n"
    for trial in (counts, unheard, refused, told, filtered):
        with tempfile.TemporaryDirectory() as folder:
            try:
                trial(folder, line) if trial is filtered else trial(folder)
                print(f"ok: {trial.__name__}")
            except Exception as why:  # whatever a wrong program makes of a trial
                print(f"FAILED: {trial.__name__}: {why!r}")
                failed.append(trial)
            finally:
                for server in phone.SERVERS:
                    server.kill()
                    server.wait()
                phone.SERVERS.clear()
    return 1 if failed else 0


if __name__ == "__main__":
    sys.exit(main())
