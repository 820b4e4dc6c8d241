#!/usr/bin/env python3
"""Tries faults that running `sipd` once showed: around its record, its clock, its start, and the hand on it. `tests/faults.py
[PROGRAM]`, after `rt run` in crates/sipd. As root it goes into a network namespace of its own (`unshare -n -m`), where some of
the trials need to be; elsewhere it says which it leaves out. It takes one to two minutes, prints a line for each trial, `good` or `BAD`, and
last how many fell short, and ends with 1 where one did. It writes in a temporary folder alone."""

import concurrent.futures
import contextlib
import hashlib
import os
import re
import shlex
import shutil
import signal
import socket
import subprocess
import sys
import tempfile
import time

sys.dont_write_bytecode = True
import phone
import record_faults
from phone import free_port, md5, office
from program import (
    PROGRAM, Server, changed, ended, goes_apart, is_registered, messages, new, phones, read, recorded, serving, somebody, until, write,
)  # fmt: skip


# ---- the clock


def hours_behind(complaints):
    """By how many hours a clock is said to be behind."""
    found = re.search(r"the clock is (\d+) ms behind", complaints)
    return int(found[1]) / 3_600_000 if found else 0


def behind_its_record(folder, expect, hours):
    port = free_port()
    config = office(folder, port)
    old = recorded(folder, config, port)
    with open(old, "a", encoding="ascii") as record:
        record.write(f"time {int(time.time() * 1000) + hours * 3_600_000}\n")
    with serving(folder, config, "--record", new(folder), "--resume", old) as server:
        alice, scanner = phones(port, timeout=0.5)
        expect(abs(hours_behind(server.complaints()) - hours) < 0.02, f"it is told: {server.complaints()}")
        alice.request("INVITE", "sip:bob@127.0.0.1", "sip:bob@127.0.0.1", "copies", 1, [alice.contact()])
        time.sleep(4)
        copies = sum(message.status == 407 for message in messages(alice))
        expect(copies >= 4, f"an answer that nobody acknowledges goes {copies} times in 4 seconds")
        for number in range(1030):
            scanner.request("OPTIONS", "sip:x@127.0.0.1", "sip:x@127.0.0.1", f"full{number}", 1)
            if number % 50 == 49:
                time.sleep(0.05)
        time.sleep(40)
        messages(scanner)
        for number in range(50):
            scanner.request("REGISTER", "sip:127.0.0.1", f"sip:phone{number}@127.0.0.1", f"phone{number}", 1, [scanner.contact()])
        answers = [message.status for message in messages(scanner) if message["Call-ID"].startswith("phone")]
        expect(answers == [401] * 50, f"of 50 phones {answers.count(401)} are challenged, {answers.count(503)} get 503")


def an_hour_behind(folder, expect):
    """The clock is an hour behind the record: that is said, answers go again, and 40 seconds behind a full table 50 of 50 phones are answered."""
    behind_its_record(folder, expect, 1)


def a_day_behind(folder, expect):
    """The same with a day."""
    behind_its_record(folder, expect, 24)


# ---- the start


def hops_are_heard(folder, expect):
    """--per-source hears all of 40 INVITEs of a hop's address, and not all of another's; with --reload so it is of the hop that the file names then."""
    port = free_port()
    config, other = (changed(folder, port, ("127.0.0.1:5090", f"{ip}:5090")) for ip in ("127.0.0.9", "127.0.0.7"))

    def heard_of(ip, is_hop, when):
        it = somebody(port, ip, timeout=0.3)
        for number in range(40):
            it.request("INVITE", "sip:bob@127.0.0.1", "sip:bob@127.0.0.1", f"{number}of{ip}{when}", 1, [it.contact()])
        heard = {message["Call-ID"] for message in messages(it)}
        expect((len(heard) == 40) == is_hop, f"{len(heard)} of 40 of {ip} are heard {when}")

    with serving(folder, config, "--per-source", "10", "--reload") as server:
        heard_of("127.0.0.9", True, "before")
        heard_of("127.0.0.8", False, "before")
        os.replace(other, config)
        told = until(lambda: re.search(f"{config} is in force from datagram [0-9]+ on .hop changed.\n", server.complaints()), 10)
        expect(told, f"that the hop changed isn't told: {server.complaints()}")
        heard_of("127.0.0.7", True, "then")
        heard_of("127.0.0.9", False, "then")


def small_stack(folder, expect):
    """Under a small stack a server says so and doesn't start (5), and no command is ended by a fault of the processor."""
    config = office(folder, free_port())
    script = read(os.path.join(phone.TOP, "examples", "call.script"))
    for size in (128, 256, 400):
        limited = ["sh", "-c", f'ulimit -s {size}; exec "$@"', "sh"]
        status, _, complaints = ended("serve", "--config", config, "--turns", "0", before=limited)
        expect(status == 5 and "stack" in complaints, f"serve with {size} kB: status {status} {complaints}")
        for words in (["check", "--config", config], ["check", "--show", "--config", config], ["replay"]):
            status, _, complaints = ended(*words, stdin=script, before=limited)
            expect(status == 0 or status == 5 and complaints, f"{words[0]} with {size} kB: status {status} {complaints}")


def causes(folder, expect):
    """Six causes of `sipd: device`, each told in a line of its own in front of it."""
    port = free_port()
    config, secret = office(folder, port), office(folder, port + 1)
    os.chmod(folder, 0o711)
    os.chmod(secret, 0)
    there = shutil.copy(PROGRAM, os.path.join(folder, "sipd"))
    nobody = {"user": 65534, "group": 65534} if os.geteuid() == 0 else {}
    foreign = changed(folder, port, (f'address = "127.0.0.1:{port}"', f'address = "192.0.2.1:{port}"'))
    reader, writer = os.pipe()
    os.close(reader)
    with socket.socket(socket.AF_INET, socket.SOCK_DGRAM) as taken, open("/dev/full", "wb") as full:
        taken.bind(("127.0.0.1", port))
        for cause, (status, _, complaints) in {
            "port": ended("serve", "--config", config),
            "address": ended("serve", "--config", foreign),
            "no.* file|isn't there": ended("check", "--config", os.path.join(folder, "nowhere.toml")),
            "right|may not|permi": ended("check", "--config", secret, program=there, **nobody),
            "full": ended("check", "--config", config, stdout=full),
            "closed": ended("check", "--config", config, stdout=writer),
        }.items():
            lines = complaints.splitlines()
            expect(status == 4 and lines and lines[-1] == "sipd: device", f"{cause}: {status} {complaints}")
            expect(len(lines) == 2 and re.search(cause, lines[0]), f"{cause}: {complaints}")
    os.close(writer)


# ---- the hand on it


def fed_without_end(words, most):
    """A call whose input gives bytes for as long as it reads, 64 MiB at most: its status, its complaints, and how many bytes it took."""
    reader, writer = os.pipe()
    call, taken = subprocess.Popen([PROGRAM, *words], stdin=reader, stdout=subprocess.DEVNULL, stderr=subprocess.PIPE), 0
    os.close(reader)
    with contextlib.suppress(BrokenPipeError):
        while taken < most:
            taken += os.write(writer, b"#" * 65536)
    try:
        _, complaints = call.communicate(timeout=20)
    finally:
        call.kill()
        os.close(writer)
    return call.returncode, complaints.decode(), taken


def long_configurations(folder, expect):
    """A file of over 16 MiB, or one without end, is no configuration of any command, and no more is read of it than that."""
    most = 16 * 2**20
    said = f"sipd: configuration refused: it has more than {most} bytes\n"
    config = office(folder, free_port())
    long = write(new(folder), read(config).ljust(most + 1, b"#"))
    for words in (
        ["serve", "--turns", "1", "--config"],
        ["check", "--config"],
        ["check", "--show", "--config"],
        ["check", "--config", config, "--against"],
        ["check", "--config", config, "--expect"],
        ["user", "carol", "--config"],
        ["decide", "register", "alice@office.local", "--config"],
        ["report", "--config"],
        ["replay", "--config"],
    ):
        status, printed, complaints = ended(*words, long)
        expect((status, printed) == (2, "") and complaints.endswith(said), f"{words}: {status} {printed} {complaints}")
        status, complaints, taken = fed_without_end([*words, "/dev/stdin"], 4 * most)
        expect(status == 2 and complaints.endswith(said), f"{words}, without end: {status} {complaints}")
        expect(taken <= most + 2**20, f"{words}: {taken} bytes were read")


def ignored_options(folder, expect):
    """An option that would be taken and ignored is a usage error (1)."""
    config, none = office(folder, free_port()), os.path.join(folder, "nowhere")
    serve = ["serve", "--config", config, "--turns", "0"]
    for words in (
        [*serve, "--record-fault", "end"],
        [*serve, "--resume", none],
        [*serve, "--resume", none, "--records", folder],
        [*serve, "--record", none, "--records", folder],
    ):
        status, printed, complaints = ended(*words)
        expect((status, printed) == (1, "") and complaints.startswith("error: "), f"{words}: {status} {printed} {complaints}")
    for words in (["replay", "--config", config, "--record", none], ["replay", "--record", none]):
        status, printed, complaints = ended(*words)
        expect((status, printed) == (4, "") and complaints.endswith("sipd: device\n"), f"{words}: {status} {printed} {complaints}")


def long_password(folder, expect):
    """A password of 1,024 bytes is taken whole, a longer one is refused."""
    password = b"p" * 1024
    for end in (b"", b"\n", b"\r\n"):
        status, printed, complaints = ended("user", "carol", "--realm", "office", stdin=password + end)
        expect(status == 0 and hashlib.md5(b"carol:office:" + password).hexdigest() in printed, f"1,024 bytes: {status} {printed} {complaints}")
        for more in (b"p", b"p" * 5000):
            status, printed, complaints = ended("user", "carol", "--realm", "office", stdin=password + more + end)
            expect((status, printed) == (1, "") and complaints.startswith("sipd: "), f"{1024 + len(more)} bytes: {status} {printed} {complaints}")


def with_sha256(folder, *names):
    """The configuration with an a1_sha256 of each of these users."""
    keys = {"alice": 'a1 = "f315b3aa262bab81c2bbaf33f0aab9f1"', "bob": 'a1 = "dbcb57862a26e3282c5eb6a2e424c0ab"'}
    return changed(folder, free_port(), *((keys[name], f'{keys[name]}\na1_sha256 = "{"7" * 64}"') for name in names))


def user_of_a_file(folder, expect):
    """user --config: its realm, no name that it has, a SHA-256 digest exactly where the others have one; without it MD5 alone, or both by a word."""
    md5_digest, sha256_digest = (make(b"carol:office:secret").hexdigest() for make in (hashlib.md5, hashlib.sha256))
    none, both = with_sha256(folder), with_sha256(folder, "alice", "bob")
    for words, has_sha256 in (
        (["--config", none], False),
        (["--config", both], True),
        (["--config", both, "--realm", "office"], True),
        (["--realm", "office"], False),
        (["--realm", "office", "--sha256"], True),
    ):
        status, printed, complaints = ended("user", "carol", *words, stdin=b"secret\n")
        expect(status == 0 and md5_digest in printed, f"{words}: {status} {printed} {complaints}")
        expect((f'a1_sha256 = "{sha256_digest}"' in printed) == ("a1_sha256" in printed) == has_sha256, f"{words}: {printed}")
    for words in (["alice", "--config", none], ["carol", "--config", none, "--realm", "other"], ["carol", "--config", none, "--sha256"], ["carol"]):
        status, printed, complaints = ended("user", *words, stdin=b"secret\n")
        expect((status, printed) == (1, "") and complaints, f"{words}: {status} {printed} {complaints}")


def uneven_digests(folder, expect):
    """check, with and without --show, warns where some users have an a1_sha256 and others don't, and only there."""
    for names in ((), ("alice",), ("bob",), ("alice", "bob")):
        config = with_sha256(folder, *names)
        for show in ([], ["--show"]):
            status, printed, complaints = ended("check", "--config", config, *show)
            warned = any("a1_sha256" in line for line in (printed + complaints).splitlines())
            expect(status == 0 and warned == (len(names) == 1), f"{names} {show}: {status}, warned {warned}")


def decides_before_policy(folder, expect):
    """decide says 416 of a `sips:` target and 400 of a `sip:` one that is no URI, and refuses a method in small letters by the one in capitals, or takes it for that."""
    asked = ["decide", "--config", office(folder, free_port()), "--user", "alice"]
    for target in ("sips:bob@127.0.0.1", "SIPS:bob@127.0.0.1", "sips:bob@elsewhere.example"):
        _, printed, complaints = ended(*asked, "INVITE", target)
        expect("416" in printed + complaints and not re.search("allow|den(y|ies)", printed), f"{target}: {printed} {complaints}")
    for method, target, answer in (("INVITE", "sips:@127.0.0.1", "416"), ("INVITE", "SIP:@127.0.0.1", "400"), ("register", "sip:@127.0.0.1", "400")):
        status, printed, complaints = ended(*asked, method, target)
        expect(status == 0 and printed.startswith(f"{answer} before any rule"), f"{method} {target}: {status} {printed} {complaints}")
    for target in ("bob@", "bob", "sip:bob bob@127.0.0.1"):
        status, printed, complaints = ended(*asked, "INVITE", target)
        expect(status == 1 and not printed, f"{target}: {status} {printed} {complaints}")
    for method in ("invite", "Invite"):
        _, printed, complaints = ended(*asked, method, "bob@127.0.0.1")
        expect("INVITE" in printed + complaints, f"{method}: {printed} {complaints}")
    for method in ("INVITE", "register", "list"):
        status, printed, complaints = ended(*asked, method, "alice@127.0.0.1")
        expect(status == 0 and "allow" in printed, f"{method}: {status} {printed} {complaints}")


def fed_slowly(words, parts, complaints):
    """A call whose input comes in parts, 1.2 seconds apart, and which complains there: what it prints, and its status."""
    call = subprocess.Popen([PROGRAM, *words], stdin=subprocess.PIPE, stdout=subprocess.PIPE, stderr=complaints)
    try:
        for number, part in enumerate(parts):
            time.sleep(1.2 if number else 0)
            call.stdin.write(part)
            call.stdin.flush()
        return call.communicate(timeout=20)[0], call.returncode
    finally:
        call.kill()


def held_up(words, complaints):
    """A call that is stopped twice, for 1.2 seconds, while it reads, and which complains there: what it prints, and its status."""
    call = subprocess.Popen([PROGRAM, *words], stdin=subprocess.DEVNULL, stdout=subprocess.PIPE, stderr=complaints)
    try:
        for _ in range(2):
            time.sleep(0.05)
            call.send_signal(signal.SIGSTOP)
            time.sleep(1.2)
            call.send_signal(signal.SIGCONT)
        return call.communicate(timeout=20)[0], call.returncode
    finally:
        call.kill()


def both_ways(folder, expect, what, call):
    """What a call says on a terminal, line by line: how far it is, and what else. In a file it says the latter alone, and prints the same."""
    terminal, behind = os.openpty()
    given = call(behind)
    os.close(behind)
    said, silent = b"", new(folder)
    with contextlib.suppress(OSError):
        while more := os.read(terminal, 65536):
            said += more
    os.close(terminal)
    with open(silent, "wb") as file:
        expect(given[1] == 0 and call(file) == given, f"{what}: status {given[1]}, or in a file it prints something else")
    far = [line for line in said.decode().splitlines() if line.endswith(" bytes are read")]
    rest = [line for line in said.decode().splitlines() if line not in far]
    names = re.compile(re.escape(folder) + r"/new_\d+")
    there = [names.sub("FILE", line) for line in read(silent).decode().splitlines()]
    expect([names.sub("FILE", line) for line in rest] == there, f"{what}: on a terminal it says {rest}, in a file {there}")
    return far, rest


SEAL = 72  # bytes of a line with a digest


def third_of(data, times):
    return times * len(data) // 3


def fed(folder, expect, words, what, data):
    """What a call says of an input that comes in three parts: how much was read of it when the second part and the third had come."""
    parts = [data[: len(data) // 3], data[len(data) // 3 : 2 * len(data) // 3], data[2 * len(data) // 3 :]]
    far, rest = both_ways(folder, expect, what, lambda complaints: fed_slowly(words(), parts, complaints))
    found = [re.fullmatch(f"sipd: {what}: (\\d+) bytes are read", line) for line in far]
    counts = [int(line[1]) for line in found if line]
    # a script is taken part by part, and a record line by line, of which those with digests aren't counted
    exact, second, whole = b"\nsealed " not in data, third_of(data, 2), len(data)
    within = len(counts) == len(far) == 2 and third_of(data, 1) < counts[0] <= second and second - SEAL < counts[1] <= whole
    expect(within and (not exact or counts == [second, whole]), f"{what}: on a terminal {far}")
    return rest


def read_long(folder, expect, words, what, long):
    """What a call says of a file that is long enough to be stopped in: how much was read of how much."""
    size, start = os.path.getsize(long), time.monotonic()
    far, rest = both_ways(folder, expect, what, lambda complaints: held_up(words(shutil.copy(long, new(folder))), complaints))
    # a start writes a digest behind what it goes on from
    found = [re.fullmatch(rf"sipd: {re.escape(folder)}/new_\d+: (\d+) of (?:{size}|{size + SEAL}) bytes are read", line) for line in far]
    counts = [int(line[1]) for line in found if line]
    expect(0 < len(counts) == len(far) < time.monotonic() - start, f"{what}: on a terminal {far}")
    expect(counts == sorted(counts) and all(0 < count <= size + SEAL for count in counts), f"{what}: on a terminal {far}")
    return rest


def says_how_far_it_is(folder, expect):
    """What takes long to read says on standard error how far it is, once a second, where that is a terminal, and nothing of it elsewhere: a script,
    a record that comes through the input, one that is replayed, and one that is gone on from."""
    port = free_port()
    config = office(folder, port)
    record = recorded(folder, config, port)
    script = os.path.join(phone.TOP, "crates", "test_server", "data", "call_to_help.script")
    long = write(new(folder), read(record) + f"time {int(time.time() * 1000)}\n".encode() * 500_000)

    def serve(old):
        return ["serve", "--config", config, "--record", new(folder), "--resume", old, "--turns", "0"]

    expect(fed(folder, expect, lambda: ["replay"], "the script", read(script)) == [], "a replay says more")
    expect(read_long(folder, expect, lambda path: ["replay", "--record", path], "a record", long) == [], "a replay of a record says more")
    for rest in (
        fed(folder, expect, lambda: serve("-"), "the record that comes", read(record)),
        read_long(folder, expect, serve, "a record that is gone on from", long),
    ):
        expect(len(rest) == 1 and rest[0].startswith("sipd: goes on behind "), f"a start says {rest}")


def seldom_meant(folder, expect):
    """check --show warns of a host 0.0.0.0 and of a method in small letters."""
    for old, text, word in (('host = "127.0.0.1"', 'host = "0.0.0.0"', "0.0.0.0"), ("send INVITE", "send invite", "rule 5")):
        _, printed, _ = ended("check", "--show", "--config", changed(folder, free_port(), (old, text)))
        warned = [line for line in printed.splitlines() if line.startswith("warning: ")]
        expect(len(warned) == 1 and word in warned[0], f"{text}: {warned}")


def wrong_files(folder, expect):
    """check --show names a file in UTF-16, the place of a byte that isn't UTF-8, and the line of [user] in place of [[user]]."""
    text = read(phone.OFFICE).decode()
    head, tail = text[:1000].encode(), text[1000:].encode()
    line = text.splitlines().index("[[user]]") + 1
    for name, data, wanted in (
        ("UTF-16, little end first", text.encode("utf-16"), ["UTF-16"]),
        ("UTF-16, big end first", b"\xfe\xff" + text.encode("utf-16-be"), ["UTF-16"]),
        ("a byte that begins nothing", head + b"\xff" + tail, ["UTF-8", "100[01]"]),
        ("a character that is cut", head + b"\xe2\x82", ["UTF-8", "100[01]"]),
        ("[user]", text.replace("[[user]]", "[user]", 1).encode(), [rf"line {line}\b", r"\[\[user\]\]"]),
    ):
        path = write(new(folder), data)
        status, printed, complaints = ended("check", "--show", "--config", path)
        expect(status == 2 and re.fullmatch(r"sipd: configuration refused \d\n", complaints), f"{name}: {status} {complaints}")
        expect(all(re.search(word, printed) for word in wanted), f"{name}: {printed}")


# ---- the files around it


def unit(folder, expect):
    """The unit removes and overwrites no record, says how much stack is needed, starts again after every signal, and its reload fails where
    a file is refused, or can't be taken."""
    text = read(os.path.join(phone.TOP, "contrib", "sipd.service")).decode()
    stated = dict(line.split("=", 1) for line in text.splitlines() if re.match(r"\w+=", line))
    expect(not re.search(r"^Exec.*\b(mv|rm|cp|truncate|install)\b", text, re.M), "it moves or removes files")
    expect("--records " in stated["ExecStart"], f"it starts {stated['ExecStart']}")
    expect(stated.get("Restart") == "always", f"Restart={stated.get('Restart')}")
    expect("LimitSTACK" in stated, "it says nothing of the stack")
    reloads(folder, expect, stated["ExecReload"])


def reloads(folder, expect, command):
    """What the reload of the unit says of files, beside the records of two starts, the later one with another user."""
    port = free_port()
    config, records = office(folder, port), new(folder)
    os.mkdir(records)
    text = read(config)
    carol = text + f'\n[[user]]\nname = "carol"\na1 = "{md5("carol:office:tea")}"\n'.encode()
    for started in (text, carol):
        write(config, started)
        with serving(folder, config, "--records", records):
            alice, _ = phones(port)
            expect(is_registered(alice), "it doesn't serve")
            # the later record is newer by a second, whatever the shell compares
            time.sleep(1.2)
    words = shlex.split(command.replace("$$", "$"))
    for there, here in (("/var/lib/sipd/records", records), ("/usr/local/bin/sipd", PROGRAM), ("/etc/sipd.toml", config)):
        expect(there in words[-1], f"it doesn't name {there}")
        words[-1] = words[-1].replace(there, here)
    for name, data, wanted in (
        ("the file in force", carol, (0, b"nothing differs\n", b"")),
        ("a good file", text, (0, b"user carol goes: .*\na server that runs can take it\n", b"")),
        ("a refused one", carol.replace(b"via gateway", b"via nobody"), (2, b"", b"line [0-9]+: .*no \\[\\[hop\\]\\] has this name\nsipd: configuration refused 6\n")),
        ("one with another realm", carol.replace(b'realm = "office"', b'realm = "home"'), (3, b"realm differs: .*\n.*\n", b"sipd: a server that runs can't take it\n")),
    ):
        write(config, data)
        done = subprocess.run(words, stdin=subprocess.DEVNULL, capture_output=True, timeout=20)
        good = done.returncode == wanted[0] and re.fullmatch(wanted[1], done.stdout) and re.fullmatch(wanted[2], done.stderr)
        expect(good, f"{name}: {done.returncode} {done.stdout.decode()} {done.stderr.decode()}")


def address_everywhere(folder, expect):
    """The `sed` of OPERATING gives the server its address and leaves the gateway another."""
    text = read(os.path.join(phone.TOP, "docs", "OPERATING.md")).decode()
    found = re.search(r"^ {4}(sed .* examples/office\.toml > office\.toml)$", text, re.M)
    assert found, "it has none"
    there = os.path.join(folder, "moved")
    shutil.copytree(os.path.join(phone.TOP, "examples"), os.path.join(there, "examples"))
    subprocess.run(["sh", "-c", found[1]], check=True, cwd=there)
    _, printed, _ = ended("check", "--show", "--config", os.path.join(there, "office.toml"))
    for line in ("host         192.0.2.10", "address      192.0.2.10:5060", "domain       192.0.2.10"):
        expect(line in printed.splitlines(), f"no {line}")
    gateway = "hop          gateway at "
    expect(gateway in printed and f"{gateway}192.0.2.10:" not in printed, "the gateway is at the server's own address")


TRIALS = (
    *record_faults.TRIALS, hops_are_heard, small_stack, causes, long_configurations, ignored_options, long_password, user_of_a_file, uneven_digests,
    decides_before_policy, says_how_far_it_is, seldom_meant, wrong_files, unit, address_everywhere,
)  # fmt: skip
# each waits for 45 seconds, so they are done beside the others
LONG = (an_hour_behind, a_day_behind)


def faults_of(trial, folder):
    """What doesn't hold."""
    faults = []

    def expect(holds, what):
        if not holds:
            faults.append(" ".join(what.split())[:300])

    try:
        trial(folder, expect)
    except (AssertionError, OSError, ValueError, LookupError, subprocess.SubprocessError) as fault:
        faults.append(f"it broke off: {fault!r}"[:300])
    return faults


def tell(trial, faults):
    """Prints a trial's line; whether it fell short."""
    print(f"BAD  {trial.__doc__} It didn't: {'; '.join(faults)}" if faults else f"good {trial.__doc__}", flush=True)
    return bool(faults)


def main():
    left_out = () if goes_apart() else record_faults.NEED_ROOT
    for trial in left_out:
        print("left out, as it isn't root in a namespace of its own:", trial.__doc__, flush=True)
    with tempfile.TemporaryDirectory() as folder, concurrent.futures.ThreadPoolExecutor() as beside:
        waiting = [(trial, beside.submit(faults_of, trial, folder)) for trial in LONG]
        bad = sum(tell(trial, faults_of(trial, folder)) for trial in TRIALS if trial not in left_out)
        bad += sum(tell(trial, found.result()) for trial, found in waiting)
        for server in Server.made:
            server.kill()
    print(f"{len(TRIALS) + len(LONG) - len(left_out)} trials, {bad} fall short, {len(left_out)} left out")
    return 1 if bad else 0


if __name__ == "__main__":
    sys.exit(main())
