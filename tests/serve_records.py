"""Trials of tests/serve.py: what is recorded, replayed and gone on from."""

import hashlib
import os
import re
import shutil
import subprocess
import time

import phone
from phone import Phone, free_port, office, started
from served import (
    PROGRAM, Lateness, audit_of, ended, established, first_word, goes_again, hung_up, killed, made_in, marked, phones, replayed, rewritten,
    until, without_configurations, without_putting,
)  # fmt: skip

OTHER = (3, "", "sipd: the record was made with another configuration\n")
NO_DIGESTS = "sipd: {} holds no digests: a change of it isn't told\n"


def record(folder):
    """What was recorded is replayed without its file: the lines of the log byte for byte, and each packet that a phone heard. So it is with
    the file; another one is refused. A record of before is replayed with its file alone."""
    config, path = office(folder, free_port()), os.path.join(folder, "day")
    server, port = started(PROGRAM, config, "--record", path)
    alice, bob = phones(port)
    heard = []
    for it in (alice, bob):
        it.heard = heard
    assert alice.register() == [401, 200] and bob.register() == [401, 200]
    hung_up(alice, bob, established(alice, bob))
    alice.socket.sendto(b"", alice.server)
    alice.socket.sendto(b"\r\n\r\n", alice.server)
    number, _ = alice.invite("sip:carol@127.0.0.1")
    refused = alice.hear()
    assert refused.status >= 400, refused.start
    time.sleep(0.6)
    printed, complaints = killed(server)
    assert complaints == "", complaints
    assert os.stat(path).st_mode & 0o777 == 0o600
    status, again, complaints = replayed(path)
    assert (status, complaints) == (0, ""), (status, complaints)
    assert audit_of(again) == printed.splitlines() != [], (audit_of(again), printed)
    assert len(heard) > 10 and all(data.decode() in again for data in heard)
    bare, other = without_configurations(folder, path), os.path.join(folder, "another.toml")
    with open(config) as source, open(other, "w") as made:
        made.write(source.read() + "\n# another\n")
    assert replayed(path, config) == (0, again, "") and replayed(bare, config) == (0, again, NO_DIGESTS.format(bare))
    assert replayed(path, other) == replayed(bare, other) == OTHER
    assert replayed(bare) == (3, "", "sipd: an older record: name its file with --config\nsipd: the record doesn't hold its configuration\n")


def restart(folder):
    """Killed and started again under a standing call, and again from a record whose last line is cut: nothing is lost."""
    port = free_port()
    config = office(folder, port)
    first, second, third = (os.path.join(folder, name) for name in ("first", "second", "third"))
    server, port = started(PROGRAM, config, "--record", first)
    alice, bob = phones(port)
    assert alice.register() == [401, 200] and bob.register() == [401, 200]
    dialog = established(alice, bob)
    before, _ = killed(server)
    server, _ = started(PROGRAM, config, "--record", second, "--resume", first)
    hung_up(alice, bob, dialog)
    other = established(alice, bob)
    printed, complaints = killed(server)
    assert re.fullmatch(r"sipd: goes on behind \d+ lines of .*/first\n", complaints), complaints
    last, following = int(before.splitlines()[-1].split(" ")[1]), int(printed.split(" ")[1])
    assert following > last, (before, printed)
    with open(second, "rb+") as whole:
        whole.seek(0, os.SEEK_END)
        whole.truncate(whole.tell() - 3)
    server, _ = started(PROGRAM, config, "--record", third, "--resume", second)
    hung_up(alice, bob, other)
    _, complaints = killed(server)
    assert complaints.startswith("sipd: goes on behind "), complaints
    status, again, complaints = replayed(third)
    assert (status, complaints) == (0, ""), complaints
    assert audit_of(again)[: len((before + printed).splitlines())] == (before + printed).splitlines()


def restart_with_another(folder):
    """A restart under another configuration: a standing call is hung up, who is gone isn't reached, who is new registers; a record of before
    is gone on from with its own file; and so is what either made."""
    config = office(folder, free_port())
    first, second, third, fourth = (os.path.join(folder, "with_" + name) for name in ("first", "second", "third", "fourth"))
    server, port = started(PROGRAM, config, "--record", first)
    alice, bob = phones(port)
    carol = Phone("carol", phone.md5("carol:office:tea"), ("127.0.0.1", port))
    assert alice.register() == [401, 200] and bob.register() == [401, 200]
    dialog = established(alice, bob)
    killed(server)
    with open(config) as source:
        before = source.read()
    bare = without_configurations(folder, first)
    bob_is = re.compile(r'\[\[user\]\]\nname = "bob"\na1 = "\w+"\n')
    carol_is = f'[[user]]\nname = "carol"\na1 = "{phone.md5("carol:office:tea")}"\n'
    rewritten(config, lambda text: bob_is.sub(carol_is, text))
    server, _ = started(PROGRAM, config, "--record", second, "--resume", first)
    assert carol.register() == [401, 200]
    hung_up(alice, bob, dialog)
    alice.invite(bob.address)
    refused = alice.hear()
    assert refused.status == 404, refused.start
    _, complaints = killed(server)
    assert complaints.startswith("sipd: goes on behind "), complaints
    server, _ = started(PROGRAM, config, "--record", third, "--resume", second)
    other = established(alice, carol)
    hung_up(alice, carol, other)
    _, complaints = killed(server)
    assert complaints.startswith("sipd: goes on behind "), complaints
    rewritten(config, lambda text: before)
    server, _ = started(PROGRAM, config, "--record", fourth, "--resume", bare)
    hung_up(alice, bob, dialog)
    _, complaints = killed(server)
    assert complaints.startswith("sipd: goes on behind "), complaints
    with open(fourth) as made:
        assert sum(line.startswith("configuration ") for line in made) == 2


def standby(folder):
    """A second server reads the record of the first one as it grows, and goes on where that ended, in the middle of a line; it serves within
    a second (and what the machine was late) behind the end of what it reads."""
    config = office(folder, free_port())
    first, second = (os.path.join(folder, "standby_" + name) for name in ("first", "second"))
    server, port = started(PROGRAM, config, "--record", first)
    alice, bob = phones(port)

    def has_come():
        return os.path.exists(second + ".part") and os.stat(second + ".part").st_size > os.stat(first).st_size - 200

    with subprocess.Popen(["tail", "-c", "+1", "-f", first], stdout=subprocess.PIPE) as tail:
        try:
            words = [PROGRAM, "serve", "--config", config, "--record", second, "--resume", "-"]
            waiting = subprocess.Popen(words, stdin=tail.stdout, stdout=subprocess.PIPE, stderr=subprocess.PIPE)
            phone.SERVERS.append(waiting)
            tail.stdout.close()
            assert alice.register() == [401, 200] and bob.register() == [401, 200]
            dialog = established(alice, bob)
            assert until(lambda: waiting.poll() is not None or has_come()) and waiting.poll() is None and not os.path.exists(second)
            killed(server)
            with open(first, "a") as cut:
                cut.write("time 18")
            time.sleep(1.5)
            with Lateness(waiting) as late:
                before = time.monotonic()
                tail.kill()
                line = waiting.stdout.readline().decode()
                passed = time.monotonic() - before
        finally:
            tail.kill()
    assert line == f"sipd: serving 127.0.0.1:{port}\n", line
    assert passed < 1 + late.most, (passed, late.most)
    hung_up(alice, bob, dialog)
    _, complaints = killed(waiting)
    assert re.fullmatch(r"sipd: goes on behind \d+ lines of standard input\n", complaints), complaints
    assert first_word(first) == "record"


def no_count_twice(folder):
    """What proved a user before a restart proves nobody behind it."""
    config = office(folder, free_port())
    first, second = os.path.join(folder, "counts"), os.path.join(folder, "counts2")
    server, port = started(PROGRAM, config, "--record", first)
    alice, _ = phones(port)
    uri, call_id = "sip:127.0.0.1", alice.mark()
    alice.request("REGISTER", uri, alice.address, call_id, 1, [alice.contact()])
    proof = alice.credential(alice.hear(), "REGISTER", uri)
    alice.request("REGISTER", uri, alice.address, call_id, 2, [alice.contact(), proof])
    assert alice.hear().status == 200
    killed(server)
    server, _ = started(PROGRAM, config, "--record", second, "--resume", first)
    alice.request("REGISTER", uri, alice.address, call_id, 3, [alice.contact(), proof])
    refused = alice.hear()
    assert refused.status == 401, refused.start
    killed(server)


def not_resumed(folder):
    """A record of another configuration, none, one that is damaged and one that isn't there: a line says so, and the server starts anew."""
    config = office(folder, free_port())
    good = os.path.join(folder, "good")
    server, port = started(PROGRAM, config, "--record", good)
    alice, _ = phones(port)
    assert alice.register() == [401, 200]
    killed(server)
    with open(good) as source:
        lines = source.readlines()
    other, home, damaged, turned, missing = (os.path.join(folder, name) for name in ("other.toml", "home.toml", "damaged", "turned", "nowhere"))
    with open(config) as source:
        text = source.read()
    with open(other, "w") as made:
        made.write(text + "\n# another\n")
    with open(home, "w") as made:
        made.write(text.replace('realm = "office"', 'realm = "home"'))
    bare = without_configurations(folder, good)
    first = 1 + next(place for place, line in enumerate(lines) if line.startswith("configuration "))
    with open(damaged, "w") as made:
        made.writelines([*lines[: first + 1], "hello\n", *lines[first + 1 :]])
    with open(turned, "w") as made:
        made.writelines([lines[0], lines[1].replace("= ", "= #", 1), *lines[2:]])
    broken, left = (marked(folder, good, word) for word in (b"broken ", b"left   "))
    for number, (by, old, why) in enumerate((
        (other, bare, "it was made with another configuration"),
        (home, good, "its configuration at line 2 has another realm"),
        (config, config, "it is no record"),
        (config, damaged, f"its line {first + 2} begins no event and no configuration"),
        (config, turned, "its line 2 begins no event and no configuration"),
        (config, missing, None),
        (config, folder, None),
        (config, os.devnull, "it is no record"),
        (config, broken, "its writing failed: it lacks events"),
        (config, left, "another start went on from it"),
    )):
        server, _ = started(PROGRAM, by, "--record", os.path.join(folder, f"anew{number}"), "--resume", old)
        _, complaints = killed(server)
        wanted = f"sipd: {old} isn't resumed: {why}; bindings, dialogs, open calls and nonces are lost: phones are found again when they register\n"
        if not why:
            wanted = f"sipd: starts anew, since {old} isn't there or can't be read; what it holds, if anything, is lost: phones are found when they register\n"
        assert complaints == wanted, complaints
    _, whole, _ = replayed(good)
    assert replayed(left) == (0, whole, "")
    assert replayed(broken) == (0, whole, f"sipd: the writing of {broken} failed: it lacks what came behind\n")
    there = ended("serve", "--config", config, "--record", good)
    assert there == (4, "", "sipd: the record can't be made: its file is there already, or its folder isn't, or may not be written, or has no hard links\n"), there
    assert replayed(config) == (3, "", "sipd: no record\n")
    for record, line in ((damaged, first + 2), (turned, 2)):
        status, printed, complaints = replayed(record)
        assert (status, complaints) == (3, f"sipd: script line {line}\n") and whole.startswith(printed), (status, complaints)


def full_device(folder):
    """A record that can't be written any more: said once, and the server goes on; or it ends, by a word of the option, and is gone on from."""
    config = office(folder, free_port())
    room = 1100 + os.stat(config).st_size + 2 * open(config).read().count("\n")
    limited = ["env", "--ignore-signal=XFSZ", "prlimit", f"--fsize={room}", "--"]
    small, other = os.path.join(folder, "small"), os.path.join(folder, "small2")
    server, port = started(PROGRAM, config, "--record", small, before=limited)
    alice, bob = phones(port)
    assert alice.register() == [401, 200] and bob.register() == [401, 200]
    _, complaints = killed(server)
    assert complaints == "sipd: the record can't be written; nothing more is recorded\n", complaints
    assert first_word(small) == "broken"
    status, _, complaints = replayed(small)
    assert (status, complaints) == (0, f"sipd: the writing of {small} failed: it lacks what came behind\n"), (status, complaints)
    server, _ = started(PROGRAM, config, "--record", other, "--record-fault", "end", before=limited)
    for _ in range(3):
        alice.request("REGISTER", "sip:127.0.0.1", alice.address, alice.mark(), 1, [alice.contact()])
    assert server.wait(10) == 4
    assert server.stderr.read() == b"sipd: the record can't be written\n"
    assert first_word(other) == "record"
    server, _ = started(PROGRAM, config, "--record", os.path.join(folder, "behind"), "--resume", other)
    _, complaints = killed(server)
    assert complaints.startswith("sipd: goes on behind "), complaints
    assert first_word(other) == "left"


def full_start(folder):
    """A disk that is full at the start: by the word of the option it ends, with nothing made and the older record as it was, or goes on without a record."""
    config = office(folder, free_port())
    old, new, anew = (os.path.join(folder, name) for name in ("full_old", "full_new", "full_anew"))
    server, port = started(PROGRAM, config, "--record", old)
    alice, bob = phones(port)
    assert alice.register() == [401, 200] and bob.register() == [401, 200]
    killed(server)
    unwritten = "sipd: the record can't be written; nothing is recorded\n"
    for size in (20, 1000):
        limited = ["env", "--ignore-signal=XFSZ", "prlimit", f"--fsize={size}", "--", PROGRAM]
        done = subprocess.run([*limited, "serve", "--config", config, "--record", new, "--resume", old, "--record-fault", "end"], stdin=subprocess.DEVNULL, capture_output=True, timeout=10)
        assert (done.returncode, done.stdout, done.stderr) == (4, b"", b"sipd: the record can't be written\n"), done
        assert first_word(old) == "record" and not os.path.exists(new) and not os.path.exists(new + ".part")
    limited = limited[:-1]
    server, port = started(PROGRAM, config, "--record", new, "--resume", old, before=limited)
    alice.invite(bob.address)
    assert bob.hear().method == "INVITE"
    _, complaints = killed(server)
    assert re.fullmatch(r"sipd: goes on behind \d+ lines of .*/full_old\n" + unwritten, complaints), complaints
    assert first_word(old) == "left" and not os.path.exists(new) and not os.path.exists(new + ".part")
    server, _ = started(PROGRAM, config, "--record", anew, before=["env", "--ignore-signal=XFSZ", "prlimit", "--fsize=20", "--"])
    _, complaints = killed(server)
    assert complaints == unwritten and not os.path.exists(anew), complaints


def lost_record(folder):
    """A record whose file is taken away, changed for another or cut under the server is a fault of the record, and said."""
    config = office(folder, free_port())
    lost = "sipd: the record's file was taken away or cut"

    def cut(path):
        os.truncate(path, 0)

    def moved(path):
        os.rename(path, path + ".moved")

    for number, harm in enumerate((os.remove, moved, cut)):
        path = os.path.join(folder, f"lost{number}")
        server, port = started(PROGRAM, config, "--record", path)
        time.sleep(2.5)
        harm(path)
        time.sleep(2.5)
        assert server.poll() is None
        _, complaints = killed(server)
        assert complaints == lost + "; nothing more is recorded\n", complaints
        if harm == moved:
            assert first_word(path + ".moved") == "broken"
        path += "end"
        server, port = started(PROGRAM, config, "--record", path, "--record-fault", "end")
        harm(path)
        assert server.wait(10) == 4
        assert server.stderr.read().decode() == f"{lost}\nsipd: the record can't be written\n"


def folder_of_records(folder):
    """Each start has a file of its own in the folder, beside its configuration, and goes on from the newest one where it can."""
    config, records = office(folder, free_port()), os.path.join(folder, "records")
    assert ended("serve", "--config", config, "--records", records) == (4, "", "sipd: the record can't be made: its file is there already, or its folder isn't, or may not be written, or has no hard links\n")
    os.mkdir(records)
    with open(os.path.join(records, "9999999999999.record.old"), "w"):
        pass
    server, port = started(PROGRAM, config, "--records", records)
    alice, bob = phones(port)
    assert alice.register() == [401, 200] and bob.register() == [401, 200]
    dialog = established(alice, bob)
    _, complaints = killed(server)
    (first,), (copy,) = made_in(records, "record"), made_in(records, "toml")
    assert sorted(os.listdir(records)) == sorted([first, copy, "9999999999999.record.old"])
    yet = f"sipd: starts anew, since no record stands beside {os.path.join(records, first)} yet; phones are found when they register\n"
    assert complaints == yet, complaints
    assert re.fullmatch(r"\d{13}\.record", first) and copy == first.replace("record", "toml"), (first, copy)
    assert abs(int(first.split(".")[0]) - time.time() * 1000) < 60000
    with open(config, "rb") as one, open(os.path.join(records, copy), "rb") as other:
        assert one.read() == other.read()
    assert all(os.stat(os.path.join(records, name)).st_mode & 0o777 == 0o600 for name in (first, copy))
    # a record of tomorrow: the next one is newer, whatever the clock says
    later = os.path.join(records, "1%013d.record" % 0)
    os.rename(os.path.join(records, first), later)
    server, _ = started(PROGRAM, config, "--records", records)
    hung_up(alice, bob, dialog)
    _, complaints = killed(server)
    assert re.fullmatch(f"sipd: goes on behind \\d+ lines of {later}\n", complaints), complaints
    newest = os.path.join(records, "1%013d.record" % 1)
    assert first_word(later) == "left" and first_word(newest) == "record"
    # an older record isn't gone on from, where the newest one can't be
    os.remove(newest)
    server, _ = started(PROGRAM, config, "--records", records)
    _, complaints = killed(server)
    assert complaints.startswith(f"sipd: {later} isn't resumed: another start went on from it;"), complaints


def clock_behind(folder):
    """A record whose last moment is ahead of the clock: the server says by how much, goes on from that moment, and time passes."""
    config = office(folder, free_port())
    path, ahead = os.path.join(folder, "clock"), os.path.join(folder, "ahead")
    server, port = started(PROGRAM, config, "--record", path)
    alice, bob = phones(port)
    assert alice.register() == [401, 200] and bob.register() == [401, 200]
    killed(server)
    day = 86_400_000
    with open(path) as source, open(ahead, "w") as made:
        for line in source:
            words = line.rstrip("\n").split(" ")
            if words[0] != "record" and len(words) > 1 and words[1].isdigit():
                words[1] = str(int(words[1]) + day)
            made.write(" ".join(words) + "\n")
    server, _ = started(PROGRAM, config, "--record", os.path.join(folder, "behind_clock"), "--resume", ahead)
    assert any(goes_again(server, alice, bob) for _ in range(10))
    printed, complaints = killed(server)
    found = re.fullmatch(r"sipd: goes on behind \d+ lines of .*/ahead\nsipd: the clock is (\d+) ms behind the record; moments go on from the record's last one\n", complaints)
    assert found and day - 60_000 < int(found[1]) <= day, complaints
    assert int(printed.splitlines()[-1].split(" ")[0]) > time.time() * 1000 + day - 60_000, printed


def changed_bytes(folder):
    """A byte of a record that was changed in front of one of its digests: the record is neither replayed nor gone on from, and the line of that digest
    is told. A start closes the record that it goes on from with one."""
    config, first, second, turned = office(folder, free_port()), *(os.path.join(folder, "sealed_" + name) for name in ("first", "second", "turned"))
    server, port = started(PROGRAM, config, "--record", first)
    alice, _ = phones(port)
    assert alice.register() == [401, 200]
    killed(server)
    server, _ = started(PROGRAM, config, "--record", second, "--resume", first)
    killed(server)
    for path in (first, second):
        with open(path, "rb") as source:
            held = source.read()
        for found in re.finditer(rb"^sealed (\w{64})\n", held, re.M):
            assert found[1].decode() == hashlib.sha256(b"record " + held[7 : found.start()]).hexdigest(), path
        assert held.startswith(b"left   ") == (path == first) and held.splitlines()[-1].startswith(b"sealed "), held[-200:]
    with open(second) as source:
        assert source.readlines()[1] == f"follows sealed_first {sealed_as(first)}\n"
    with open(first, "rb") as source:
        held = bytearray(b"record " + source.read()[7:])
    assert [replayed(path)[::2] for path in (first, second)] == [(0, "")] * 2, "a record with digests isn't replayed"
    place = held.rindex(b"Call-ID: ") + len("Call-ID: ")
    held[place] = ord("x") if held[place] != ord("x") else ord("y")
    with open(turned, "wb") as made:
        made.write(held)
    line = held.count(b"\n")
    status, _, complaints = replayed(turned)
    assert (status, complaints) == (3, f"sipd: the record was changed: its line {line} has the digest of other bytes\n"), (status, complaints)
    server, _ = started(PROGRAM, config, "--record", turned + "_on", "--resume", turned)
    _, complaints = killed(server)
    assert complaints.startswith(f"sipd: {turned} isn't resumed: it was changed, its line {line} has the digest of other bytes;"), complaints


def made_shorter(folder):
    """What no longer matters of a record isn't in that of the next start: of who registered again two hours later the last time alone, and who calls
    them reaches them."""
    config, day, hour, new = office(folder, free_port()), *(os.path.join(folder, "shorter_" + name) for name in ("day", "hour", "new"))
    server, port = started(PROGRAM, config, "--record", day)
    alice, bob = phones(port)
    for _ in range(3):
        assert alice.register() == [401, 200]
    assert bob.register() == [401, 200]
    killed(server)
    count = 0
    with open(day) as source, open(hour, "w") as made:
        for line in source:
            words = line.split(" ")
            count += words[0] == "text"
            if words[0] in ("text", "time") and count <= 4:
                words[1] = str(int(words[1]) - 7_200_000) + "\n" * words[1].endswith("\n")
            made.write(" ".join(words))
    server, _ = started(PROGRAM, config, "--record", new, "--resume", hour)
    hung_up(bob, alice, established(bob, alice))
    _, complaints = killed(server)
    assert re.fullmatch(r"sipd: goes on behind \d+ lines of .*/shorter_hour\n", complaints), complaints
    with open(new) as made:
        lines = made.read().splitlines()
    first, omitted = int(lines[0].split(" ")[2]), sum(int(line.split(" ")[1]) for line in lines if line.startswith("omitted "))
    before = next(place for place, line in enumerate(lines) if line.startswith("sealed "))
    kept = sum(line.startswith("text ") for line in lines[:before])
    assert first + omitted + kept == count + 1 and kept < count, (first, omitted, kept, count)
    assert os.stat(new).st_size > 0 and replayed(new)[::2] == (0, ""), replayed(new)


def kept_days(folder):
    """With --keep a start removes the records of its folder all of whose events are older than so many days, with the copies of their configurations; none
    that holds a younger event, and nothing else. What can't be removed is said."""
    config, records = office(folder, free_port()), os.path.join(folder, "kept")
    os.mkdir(records)
    day, now = 86_400_000, int(time.time() * 1000)
    numbers = {age: now - age * day for age in (50, 40, 31, 29)}
    for name in (*(f"{numbers[age]}.{kind}" for age in (40, 31, 29) for kind in ("record", "toml")), f"{numbers[50]}.toml", "a.record", f"{numbers[50]}.record.old"):
        with open(os.path.join(records, name), "w"):
            pass
    before = sorted(os.listdir(records))
    for days, gone in (("0", ()), ("60", ()), ("30", (40, 50))):
        server, _ = started(PROGRAM, config, "--records", records, "--keep", days)
        _, complaints = killed(server)
        assert "removed" not in complaints, complaints
        wanted = [name for name in before if not name.endswith((".record", ".toml")) or int("0" + re.sub(r"\D", "", name)) not in [numbers[age] for age in gone]]
        made = [name for name in sorted(os.listdir(records)) if name not in before]
        assert sorted(set(os.listdir(records)) - set(made)) == wanted, (days, os.listdir(records), wanted)
        assert len(made) == {"0": 2, "60": 4, "30": 6}[days], made
    os.makedirs(os.path.join(records, "1.record", "held"))
    server, port = started(PROGRAM, config, "--records", records, "--keep", "30")
    alice, _ = phones(port)
    assert alice.register() == [401, 200]
    _, complaints = killed(server)
    assert complaints.endswith(f"sipd: records of {records} that are older than 30 days can't be removed\n"), complaints


def put_on_disk(folder):
    """With --sync each and --sync second what is recorded is put on the disk: where the system refuses that, it is a fault of the record. With --sync
    never the system isn't asked."""
    for word in ("each", "second", "never", None):
        path, port = os.path.join(folder, f"put_{word}"), free_port()
        words = [PROGRAM, "serve", "--config", office(folder, port), "--record", path, "--record-fault", "end", *(["--sync", word] if word else [])]
        try:
            server = subprocess.Popen(words, stdin=subprocess.DEVNULL, stdout=subprocess.PIPE, stderr=subprocess.PIPE, preexec_fn=without_putting)
        except subprocess.SubprocessError as fault:
            raise AssertionError("no system call may be refused to a process here (seccomp), so that a fault of the disk can't be tried") from fault
        phone.SERVERS.append(server)
        if word in ("each", "second"):
            _, complaints = server.communicate(timeout=10)
            assert server.returncode == 4 and complaints.endswith(b"sipd: the record can't be written\n"), (word, server.returncode, complaints)
        else:
            assert server.stdout.readline().startswith(b"sipd: serving ")
            alice, _ = phones(port)
            assert alice.register() == [401, 200]
            time.sleep(1.5)
            assert server.poll() is None, server.communicate()
            killed(server)
    server, port = started(PROGRAM, office(folder, free_port()), "--record", os.path.join(folder, "put_all"), "--sync", "each")
    alice, bob = phones(port)
    assert alice.register() == [401, 200] and bob.register() == [401, 200]
    hung_up(alice, bob, established(alice, bob))
    assert killed(server)[1] == ""


def sealed_as(path):
    """The digest in the last line of a record."""
    with open(path) as held:
        found = re.fullmatch(r"sealed (\w{64})\n", held.readlines()[-1])
    return found and found[1]


def followed(folder):
    """A folder of records replayed is each of them replayed, one behind the other. Each says which one it follows, and with which digest: one that was
    changed, is missing or has another name is told, behind all that is printed; the oldest may be away."""
    config, whole = office(folder, free_port()), os.path.join(folder, "followed")
    os.mkdir(whole)
    dialog = alice = bob = None
    for start in range(4):
        server, port = started(PROGRAM, config, "--records", whole)
        if start == 0:
            alice, bob = phones(port)
            assert alice.register() == [401, 200] and bob.register() == [401, 200]
            dialog = established(alice, bob)
        if start == 2:
            hung_up(alice, bob, dialog)
        killed(server)
    names = made_in(whole, "record")
    paths = [os.path.join(whole, name) for name in names]
    for place, path in enumerate(paths):
        with open(path) as held:
            second = held.readlines()[1]
        follows = re.fullmatch(r"follows (\S+) (\w{64})\n", second)
        assert (follows and follows.groups()) == (None if place == 0 else (names[place - 1], sealed_as(paths[place - 1]))), second
    each = [replayed(path) for path in paths]
    assert all(one[0] == 0 and one[2] == "" for one in each), each
    assert replayed(whole) == (0, "".join(one[1] for one in each), "")
    ends = "sipd: a record is missing, or was changed\n"

    def tried(name, change):
        other = os.path.join(folder, "followed_" + name)
        shutil.copytree(whole, other)
        change(other)
        status, printed, complaints = replayed(other)
        return status, printed, complaints.replace(f"sipd: {other}: ", "")

    def turned(other):
        with open(os.path.join(other, names[1]), "rb+") as held:
            text = held.read()
            held.seek(text.index(b"Call-ID: ") + len("Call-ID: "))
            held.write(b"x" if text[held.tell() : held.tell() + 1] != b"x" else b"y")

    def added(other):
        with open(os.path.join(other, names[1]), "a") as held:
            held.write(f"time {int(time.time() * 1000)}\n")

    def renamed(other):
        os.rename(os.path.join(other, names[1]), os.path.join(other, "9999999999999.record"))

    def removed(place):
        return lambda other: os.remove(os.path.join(other, names[place]))

    status, _, complaints = tried("turned", turned)
    assert status == 3 and re.fullmatch(rf"{names[1]} was changed: its line \d+ has the digest of other bytes\n{names[2]} follows {names[1]}, which was changed\n{ends}", complaints), complaints
    status, _, complaints = tried("added", added)
    assert (status, complaints) == (3, f"{names[2]} follows {names[1]}, which was changed\n{ends}"), complaints
    status, printed, complaints = tried("removed", removed(1))
    assert (status, printed, complaints) == (3, "".join(each[place][1] for place in (0, 2, 3)), f"{names[2]} follows {names[1]}, which isn't there\n{ends}"), complaints
    status, _, complaints = tried("renamed", renamed)
    assert (status, complaints) == (3, f"{names[2]} follows {names[1]}, which isn't there\n9999999999999.record follows {names[0]}, which doesn't stand next to it\n{ends}"), complaints
    assert tried("oldest", removed(0)) == (0, "".join(one[1] for one in each[1:]), "")


TRIALS = (
    record, restart, restart_with_another, standby, no_count_twice, not_resumed, full_device, full_start, lost_record, folder_of_records, clock_behind, changed_bytes,
    made_shorter, kept_days, put_on_disk, followed,
)  # fmt: skip
