"""Trials of tests/faults.py: faults around the record of a server, and whether what it recorded, printed and sent is the same."""

import contextlib
import hashlib
import os
import re
import socket
import struct
import time

import phone
from phone import free_port, office
from program import (
    PROGRAM, Server, address, contents, ended, is_registered, messages, new, next_status, packets, packets_to, phones, read, recorded,
    running_first, serving, small_disk, somebody, two_hops, write,
)  # fmt: skip

FAR = "10.9.0.2"  # an address that is there only while a trial wants it


# ---- the record


def port_0(folder, expect, *words):
    port = free_port()
    config, record = office(folder, port), new(folder)
    with serving(folder, config, "--record", record, *words) as server, socket.socket(socket.AF_INET, socket.SOCK_RAW, socket.IPPROTO_UDP) as raw:
        alice, _ = phones(port)
        expect(is_registered(alice), "it doesn't serve")
        raw.sendto(struct.pack(">HHHH", 0, port, 9, 0) + b"x", ("127.0.0.1", 0))
        expect(is_registered(alice), "the next datagram isn't answered")
        expect(server.serves(), "it has ended")
        expect(server.complaints() == "", server.complaints())
        held = read(record)
        expect(held.startswith(b"record "), f"the record is {held[:6]}")
        expect(held.count(b"\ntext ") == 4, f"it has {held.count(b'text ')} of 4 datagrams")


def port_0_goes_on(folder, expect):
    """A datagram from port 0 leaves the record whole, and the next one is answered and recorded."""
    port_0(folder, expect)


def port_0_ends(folder, expect):
    """The same with --record-fault end."""
    port_0(folder, expect, "--record-fault", "end")


def not_taken_again(folder, expect, config, old, alice):
    """A server was ended that went on from a record and recorded nothing: no other goes on from that record, and says so."""
    with serving(folder, config, "--record", new(folder), "--resume", old) as server:
        expect("isn't resumed" in server.complaints(), f"another start: {server.complaints()}")
        expect(is_registered(alice), "the other start doesn't serve")


def full_while_taken(folder, expect):
    """A disk is full while an older record is taken: the new one gets no name, that is said, the server goes on, and no other goes on from the older one."""
    port = free_port()
    config = office(folder, port)
    old = recorded(folder, config, port, times=40)
    alice, _ = phones(port)
    with small_disk(folder, 24) as disk:
        with serving(folder, config, "--record", disk + "/new", "--resume", old) as server:
            expect(is_registered(alice), "it doesn't serve")
            expect(not os.path.exists(disk + "/new"), "the new record has its name")
            expect(re.search("record.*written", server.complaints()), f"not told: {server.complaints()}")
    not_taken_again(folder, expect, config, old, alice)


def full_while_taken_ends(folder, expect):
    """The same with --record-fault end: it ends (4), and another start goes on from the older record."""
    port = free_port()
    config = office(folder, port)
    old = recorded(folder, config, port, times=40)
    with small_disk(folder, 24) as disk:
        server = Server(folder, config, "--record", disk + "/new", "--resume", old, "--record-fault", "end")
        status = server.kill()
        expect(status == 4, f"status {status}")
        expect(not os.path.exists(disk + "/new"), "the new record has its name")
        expect("record" in server.complaints(), f"not told: {server.complaints()}")
    with serving(folder, config, "--record", new(folder), "--resume", old) as server:
        expect("goes on behind" in server.complaints(), f"another start: {server.complaints()}")


def full_at_the_start(folder, expect):
    """A disk is full at the start: the server says so and goes on, or ends (4), by the word of --record-fault."""
    port = free_port()
    config = office(folder, port)
    alice, _ = phones(port)
    with small_disk(folder, 8) as disk:
        write(disk + "/filling", b"x" * 8192)
        with serving(folder, config, "--record", disk + "/new") as server:
            expect(server.serves() and is_registered(alice), f"it doesn't serve: {server.complaints()}")
            expect("record" in server.complaints(), "not told")
        with contextlib.suppress(OSError):
            os.remove(disk + "/new")
        server = Server(folder, config, "--record", disk + "/new", "--record-fault", "end")
        status = server.kill()
        expect(status == 4 and "record" in server.complaints(), f"status {status}: {server.complaints()}")


def full_in_service(folder, expect):
    """A disk is full in service: that is said once, the record is `broken`, the server goes on, and a start from it says that its writing failed."""
    port = free_port()
    config = office(folder, port)
    alice, _ = phones(port)
    with small_disk(folder, 16) as disk:
        with serving(folder, config, "--record", disk + "/new") as server:
            expect(all(is_registered(alice) for _ in range(20)), "it doesn't answer")
            expect(server.complaints().count("\n") == 1 and "record" in server.complaints(), f"told: {server.complaints()}")
            expect(read(disk + "/new").startswith(b"broken "), f"the record is {read(disk + '/new')[:6]}")
        with serving(folder, config, "--record", new(folder), "--resume", disk + "/new") as server:
            expect(re.search(r"isn't resumed: .*(writ|fail)", server.complaints()), f"another start: {server.complaints()}")


def full_and_ends(folder, expect):
    """The same with --record-fault end: the server ends (4), its record isn't `broken`, holds all that was answered, and is gone on from."""
    port = free_port()
    config = office(folder, port)
    alice, _ = phones(port, timeout=1)
    with small_disk(folder, 16) as disk:
        server = Server(folder, config, "--record", disk + "/new", "--record-fault", "end")
        answers = 0
        while server.serves() and answers < 100:
            answers += 2 * is_registered(alice)
        status = server.kill()
        expect(status == 4 and "record" in server.complaints(), f"status {status}: {server.complaints()}")
        held = read(disk + "/new")
        expect(held.startswith(b"record "), f"the record is {held[:6]}")
        expect(held.count(b"\ntext ") >= answers > 0, f"{answers} answers, {held.count(b'text ')} datagrams in the record")
        with serving(folder, config, "--record", new(folder), "--resume", disk + "/new") as server:
            expect("goes on behind" in server.complaints(), f"another start: {server.complaints()}")


def damaged_or_cut(folder, expect):
    """A record whose last line is damaged isn't gone on from, one whose last event was cut is, wherever that was."""
    port = free_port()
    config = office(folder, port)
    good = read(recorded(folder, config, port))
    good = good[: good.rindex(b"\n") + 1]
    line = good.count(b"\n") + 1
    older = b"hex 1893456000000 127.0.0.1:5062 0123456789abcdef0123456789abcdef 0d0a\n"
    last = b"text 1893456000000 127.0.0.1:5062 0123456789abcdef0123456789abcdef OK\\r\\n\\c3\\7f\n"
    empty = b"datagram 1893456000000 127.0.0.1:5062 0123456789abcdef0123456789abcdef\n.\n"
    ends = [(True, older[:cut]) for cut in (0, 1, 3, 4, 10, 17, 18, 20, 27, 28, 32, 33, 36, 65, 66, 67, 68, len(older) - 1)]
    ends += [(True, last[:cut]) for cut in (1, 4, 5, 18, 19, 28, 33, 34, 66, *range(67, len(last)))]
    ends += [(True, empty[:cut]) for cut in (1, 5, 9, 30, len(empty) - 3, len(empty) - 2, len(empty) - 1)]
    ends += [(True, b"time 18"), (True, b"fault 1893456000000 7/")]
    ends += [(False, end) for end in (b"hello", b"hello\n", b"tim\n", b"time  1", b"time 18x", b"time 018", b"\0" * 40, b"hex 18 localhost", b"text 18 localhost")]
    ends += [(False, last[:-1] + end) for end in (b"\\2", b"\\5", b"\\C", b"\\g", b"\\20", b"\\0d", b"\r", b"\xc3", b"\t\n")]
    ends += [(False, end) for end in (older[:-1] + b"g", empty[:-3] + b"g\n.\n", empty[:-1] + b"x", empty[:-2] + b"x", empty[:-2] + b"x\n", empty[:-2] + b"x\n" + last + empty)]
    for is_cut, end in ends:
        old = write(new(folder), good + end)
        with serving(folder, config, "--record", new(folder), "--resume", old) as server:
            said = "goes on behind" if is_cut else f"isn't resumed: its line {line} "
            expect(said in server.complaints(), f"{end} is told: {server.complaints()}")


def configuration_damaged_or_cut(folder, expect):
    """A record of which a byte of a configuration was changed is damaged from that one's first line on, for replay and for check --against; one
    that was cut in its second configuration is replayed up to that, one that was cut in its first isn't."""
    port = free_port()
    config, record = office(folder, port), new(folder)
    old = recorded(folder, config, port)
    with open(config, "a", encoding="ascii") as more:
        more.write(f'\n[[user]]\nname = "carol"\na1 = "{"1" * 32}"\n')
    with serving(folder, config, "--record", record, "--resume", old) as server:
        assert server.serves(), server.complaints()
    good = read(record)
    lines, (status, whole, _) = good.splitlines(keepends=True), ended("replay", "--record", record)
    firsts = [place for place, line in enumerate(lines) if line.startswith(b"= ") and not lines[place - 1].startswith(b"= ")]
    expect(status == 0 and len(firsts) == 2, f"status {status}, {len(firsts)} configurations")
    for first in firsts:
        start = len(b"".join(lines[:first]))
        for place in range(start, good.index(b"\nconfiguration ", start) + 79, 397):
            damaged = write(new(folder), good[:place] + bytes([good[place] ^ 1]) + good[place + 1 :])
            for words in (["replay", "--record", damaged], ["check", "--config", config, "--against", damaged]):
                status, _, complaints = ended(*words)
                expect(status == 3 and complaints.endswith(f"sipd: script line {first + 1}\n"), f"{words[0]}, byte {place}: {status} {complaints}")
            if place == start:
                continue
            status, printed, complaints = ended("replay", "--record", write(new(folder), good[:place]))
            said = re.sub(r"sipd: .* holds no digests: a change of it isn't told\n", "", complaints)
            wanted = (0, "") if first > firsts[0] else (3, f"sipd: script line {first + 1}\n")
            expect((status, said) == wanted and whole.startswith(printed), f"cut at byte {place}: {status} {complaints}")


def starts_anew(folder, config, old, why):
    """The record of a start that isn't to go on from an older one, and says why."""
    made = new(folder)
    with serving(folder, config, "--record", made, "--resume", old) as server:
        assert server.serves() and f"isn't resumed: {why};" in server.complaints(), f"{why}: {server.complaints()}"
    return made


def holds_what_its_head_names(folder, expect):
    """A record has the digest of the configuration that it begins with, also behind one that was cut in its own; one whose first line has another
    digest isn't gone on from, nor replayed, nor compared; nor is one whose byte behind the first line begins nothing."""
    port = free_port()
    config = office(folder, port)
    other = write(new(folder), read(config) + b"\n# another\n")
    good = read(recorded(folder, config, port))
    head, behind = good.index(b"\n") + 1, good.index(b"\nconfiguration ")
    for by in (config, other):
        made = starts_anew(folder, by, write(new(folder), good[: (head + behind) // 2]), "it was cut in its first configuration")
        expect(hashlib.sha256(read(by)).hexdigest().encode() in read(made).splitlines()[0], "it has another digest than its configuration")
        status, _, complaints = ended("replay", "--record", made, "--config", by)
        expect((status, complaints) == (0, ""), f"the replay: {status} {complaints}")
    digit = head - 10
    turned = write(new(folder), good[:digit] + (b"1" if good[digit : digit + 1] == b"0" else b"0") + good[digit + 1 :])
    begun = write(new(folder), good[:head] + b"<" + good[head + 1 :])
    for old, line, why in ((turned, 1, "its line 1 has another digest than its first configuration"), (begun, 2, "its line 2 begins no event and no configuration")):
        starts_anew(folder, config, old, why)
        for words in (["replay", "--record", old], ["check", "--config", config, "--against", old]):
            status, printed, complaints = ended(*words)
            expect((status, printed) == (3, "") and complaints.endswith(f"sipd: script line {line}\n"), f"{words[0]}, line {line}: {status} {complaints}")


def pipe_to_go_on_from(folder, expect):
    """A named pipe isn't gone on from by its name: it is told at once, and no record is made."""
    config, pipe, made = office(folder, free_port()), new(folder), new(folder)
    os.mkfifo(pipe)
    status, printed, complaints = ended("serve", "--config", config, "--record", made, "--resume", pipe, "--turns", "1")
    expect((status, printed) == (4, "") and "--resume -" in complaints, f"{status} {printed} {complaints}")
    expect(not os.path.exists(made), "a record was made")


def kept(data):
    """What nothing may change: all of a record but its first word, and a digest behind it, all of another file."""
    return re.sub(rb"\nsealed [0-9a-f]{64}\n\Z", b"\n", data)[7:] if re.match(rb"(record|broken|left  ) [0-9a-f]{16} ", data) else data


def records_folder(folder, expect):
    """--records: each start has a file named by its time, beside its configuration; the newest is gone on from; nothing is lost, also where a user was added."""
    port = free_port()
    config, records = office(folder, port), os.path.join(folder, "records")
    alice, _ = phones(port)
    os.mkdir(records)
    write(records + "/zz_note", b"of somebody's\n")
    before, made = contents(records), []
    for start in range(4):
        with serving(folder, config, "--records", records) as server:
            assert server.serves(), server.complaints()
            expect(start == 0 or "goes on behind" in server.complaints(), f"start {start}: {server.complaints()}")
            expect(is_registered(alice), "it doesn't serve")
        after = contents(records)
        named = [path for path, data in after.items() if path not in before and kept(data) != data]
        assert len(named) == 1, list(after)
        expect(re.search(r"\d{8}", re.sub("[-:T_]", "", os.path.basename(named[0]))), f"{named[0]} names no time")
        expect(made == [] or named[0] > made[-1], "a later name stands before an earlier one")
        expect(read(config) in after.values(), "the configuration isn't beside it")
        expect(all(kept(after.get(path, b"")) == kept(data) for path, data in before.items()), "a file was changed")
        before, made = after, [*made, named[0]]
    words = [before[path][:7] for path in made]
    expect(words == [b"left   "] * 3 + [b"record "], f"first words {words}")
    with open(config, "a", encoding="ascii") as more:
        more.write(f'\n[[user]]\nname = "carol"\na1 = "{"1" * 32}"\n')
    with serving(folder, config, "--records", records) as server:
        expect(server.serves() and "goes on behind" in server.complaints(), f"a user was added: {server.complaints()}")
        after = contents(records)
        expect(all(kept(after.get(path, b"")) == kept(data) for path, data in before.items()), "a file was changed where a user was added")
        expect(read(config) in after.values(), "the new configuration isn't beside it")


def newest_of_a_folder(folder, expect):
    """--records goes on from no older record where the newest is broken or was removed under its server, and says so; a part that a start left is no record."""
    port = free_port()
    config, records = office(folder, port), os.path.join(folder, "removed")
    alice, _ = phones(port)
    os.mkdir(records)
    for start, said in enumerate((None, "goes on behind", "goes on behind", "isn't resumed", "isn't resumed")):
        before = contents(records)
        with serving(folder, config, "--records", records) as server:
            assert server.serves(), server.complaints()
            expect(said is None or said in server.complaints(), f"start {start}: {server.complaints()}")
            expect(is_registered(alice), "it doesn't serve")
            made = [path for path, data in contents(records).items() if path not in before and kept(data) != data]
            assert len(made) == 1, made
            if start == 2:
                os.remove(made[0])
        if start == 0:
            write(made[0] + ".part", read(made[0])[:300])
        if start == 3:
            write(made[0], read(made[0]).replace(b"record ", b"broken ", 1))


def left(folder, expect):
    """No second server goes on from a record: a credential that was used since doesn't count twice, a binding that was taken away isn't back."""
    port = free_port()
    config, first, second, uri = office(folder, port), new(folder), new(folder), "sip:127.0.0.1"
    alice, bob = phones(port)
    gone = [("Contact", "*"), ("Expires", "0")]
    with serving(folder, config, "--record", first):
        expect(is_registered(alice), "it doesn't serve")
        alice.request("REGISTER", uri, alice.address, "gone", 1, gone)
        proof = alice.credential(alice.hear(), "REGISTER", uri)
    with serving(folder, config, "--record", second, "--resume", first):
        alice.request("REGISTER", uri, alice.address, "gone", 2, [*gone, proof])
        expect(next_status(alice) == 200, "alice can't unregister")
        expect(read(first).startswith(b"left   "), f"the older record is {read(first)[:6]}")
        os.remove(second)
    with serving(folder, config, "--record", new(folder), "--resume", first) as server:
        expect("isn't resumed" in server.complaints(), f"another start: {server.complaints()}")
        bob.invite(alice.address)
        expect(next_status(bob) == 480, "the binding is back")
        alice.request("REGISTER", uri, alice.address, "gone", 3, [*gone, proof])
        statuses = [message.status for message in messages(alice)]
        expect(401 in statuses and 200 not in statuses, f"the credential counts twice: {statuses}")


def taken_away(folder, expect, take):
    port = free_port()
    config, record = office(folder, port), new(folder)
    with serving(folder, config, "--record", record) as server:
        alice, _ = phones(port)
        expect(is_registered(alice), "it doesn't serve")
        take(record)
        expect(is_registered(alice), "it doesn't answer")
        expect(server.complains("record"), "nothing is said")
        expect(is_registered(alice), "it doesn't answer then")
        expect(server.complaints().count("\n") == 1, f"told: {server.complaints()}")
    return record


def removed(folder, expect):
    """The record is removed under the server: that is said, once."""
    taken_away(folder, expect, os.remove)


def replaced(folder, expect):
    """The same where it is renamed, and another file has its name, as logrotate does."""

    def rotate(record):
        os.rename(record, record + ".1")
        write(record, b"")

    record = taken_away(folder, expect, rotate)
    expect(read(record) == b"", "it wrote into another's file")


def cut_under_it(folder, expect):
    """The record is copied and cut, as copytruncate does: that is said, once, and no hole stands in it."""
    record = taken_away(folder, expect, lambda path: os.truncate(path, 0))
    expect(b"\0" not in read(record), "it has a hole")


# ---- what is recorded, printed and sent


def tie(folder, expect):
    """Whether two of the requests came in one millisecond, so that both are due in one, and the packet of one can't be sent then."""
    port, record = free_port(), new(folder)
    it = somebody(port, timeout=0.3)
    config = two_hops(folder, port, FAR, it.at)
    with serving(folder, config, "--record", record):
        with address(FAR):
            for number in range(10):
                for name in ("far", "near"):
                    it.request("MESSAGE", f"sip:{name}@office.local", f"sip:{name}@office.local", f"{name}{number}", 1)
                time.sleep(0.01)
        time.sleep(0.75)
    sent = packets(it)
    code, printed, complaints = ended("replay", "--config", config, "--record", record)
    assert code == 0, complaints
    replayed = packets_to(it.at, printed.encode())
    expect(len(sent) >= 30, f"{len(sent)} of 30 packets were sent")
    expect(sorted(sent) == sorted(replayed), f"{len(sent)} packets were sent, {len(replayed)} are replayed")
    expect(sorted(sent) != sorted(replayed) or sent == replayed, "they are replayed in another order")
    moments = re.findall(rb"^text (\d+) ", read(record), re.M)
    return len(set(moments)) < len(moments)


def replays_what_it_served(folder, expect):
    """Where a packet can't be sent at a moment at which another is due, the replay of the record gives what was sent, in its order."""
    expect(any(tie(folder, expect) for _ in range(5)), "no two requests came in one millisecond")


def due_is_recorded(folder, expect):
    """What falls due stands in the record before it goes: each of 20 servers is killed when its answer comes again."""
    waiting, lacking = [], 0
    with running_first():
        for number in range(20):
            port, record = free_port(), new(folder)
            it = somebody(port)
            server = Server(folder, office(folder, port), "--record", record)
            it.request("INVITE", "sip:bob@127.0.0.1", "sip:bob@127.0.0.1", f"due{number}", 1, [it.contact()])
            it.hear()
            waiting.append((it, server, record, int(re.findall(rb"^text (\d+) ", read(record), re.M)[-1])))
            if number % 5 == 4:
                lacking += sum(not is_told(*those) for those in waiting)
                waiting = []
    expect(lacking == 0, f"{lacking} of 20 records don't tell of it")


def is_told(it, server, record, at):
    """Whether a record tells of a moment 500 ms behind another, when a server was killed with the packet of that."""
    it.socket.recv(65536)
    server.kill()
    return any(int(moment) >= at + 500 for moment in re.findall(rb"^(?:text|time) (\d+)\b.*\n", read(record), re.M))


def each_line_is_printed(folder, expect):
    """Each decision that was answered has a line in the log, though each of 60 servers is killed when its answer comes; another goes on from it."""
    port = free_port()
    config, old, log = office(folder, port), [], ""
    scanner = somebody(port)
    with running_first():
        for number in range(60):
            record = new(folder)
            server = Server(folder, config, "--record", record, *old)
            scanner.request("REGISTER", "sip:127.0.0.1", f"sip:user{number}@127.0.0.1", f"stop{number}", 1, [scanner.contact()])
            scanner.hear()
            server.kill()
            log, old = log + server.printed(), ["--resume", record]
    with serving(folder, config, "--record", new(folder), *old) as server:
        log += server.printed()
    named = {}
    for number, name in re.findall(r"^\d+ (\d+) REGISTER - (user\d+)@127\.0\.0\.1 register - challenge 401$", log, re.M):
        named.setdefault(name, set()).add(number)
    missing = [number for number in range(60) if f"user{number}" not in named]
    expect(not missing, f"{len(missing)} of 60 lines are missing")
    expect(all(len(those) == 1 for those in named.values()), "a line came again with another number")


def printed_before_it_is_sent(folder, expect):
    """Where a decision's line can't be printed, its answer isn't sent; the next start prints the line."""
    port = free_port()
    config, record = office(folder, port), new(folder)
    server, _ = phone.started(PROGRAM, config, "--record", record)
    scanner = somebody(port, timeout=1)
    server.stdout.close()
    scanner.request("REGISTER", "sip:127.0.0.1", "sip:unsaid@127.0.0.1", "unsaid", 1, [scanner.contact()])
    expect(not messages(scanner), "the answer was sent")
    complaints = server.stderr.read().decode()
    expect(server.wait(10) == 4 and complaints.endswith("sipd: device\n"), complaints)
    with serving(folder, config, "--record", new(folder), "--resume", record) as server:
        expect("goes on behind" in server.complaints(), server.complaints())
        expect("unsaid@127.0.0.1" in server.printed(), "the next start doesn't print the line")


TRIALS = (
    port_0_goes_on, port_0_ends, full_while_taken, full_while_taken_ends, full_at_the_start, full_in_service, full_and_ends, damaged_or_cut,
    configuration_damaged_or_cut, holds_what_its_head_names, pipe_to_go_on_from, records_folder, newest_of_a_folder, left, removed, replaced, cut_under_it, replays_what_it_served,
    due_is_recorded, each_line_is_printed, printed_before_it_is_sent,
)  # fmt: skip
NEED_ROOT = (*TRIALS[:7], replays_what_it_served)
