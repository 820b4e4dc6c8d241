#!/usr/bin/env python3
"""Tries what `sipd check --config NEW --against OLD` says, and its status: `tests/changes.py PROGRAM`, after `rt run` in crates/sipd.
OLD is `examples/office.toml`, NEW that with some texts in place of others, and then the other way round. What is said of which change
is docs/CONFIGURATION.md's. Then a day on which such changes come while people phone, by real sockets: its record is replayed, and gone on
from. And a file with as many users and rules as there can be, which is taken while a phone sends. It takes two minutes, prints a line
for each change that isn't told so, or does something else, and ends with 1 where there is one."""

import concurrent.futures
import os
import re
import subprocess
import sys
import tempfile
import threading
import time

import phone
import serve
import served

OFFICE = os.path.join(os.path.dirname(os.path.abspath(__file__)), "..", "examples", "office.toml")
PROGRAM = os.path.abspath(sys.argv[1])
CAN = "a server that runs can take it"
CANNOT = "a server that runs can't take it"
ANEW = "differs: a server that runs can't take it, and a restart with it begins anew"
GOES = "goes: calls to it get 404, and its phones stay registered until their intervals are over"
AGAIN = "is for other requests now, and older lines of the log mean the one before"
STAND = "in calls that stand, requests to it get 481"
CAROL = '[[user]]\nname = "carol"\na1 = "11111111111111111111111111111111"\ngroups = ["sales"]\n\n'
BEHIND_USERS = "# A hop:"
RULE_7_ALLOWS = 'target = "@127.0.0.1"\nverdict = "allow"'
RULE_7_DENIES = 'target = "@127.0.0.1"\nverdict = "deny"'
ENDLESS = 60  # seconds
APART = 0.9  # seconds between two files, of which a server that looks once a second never sees one twice
MOST_USERS, MOST_RULES = 4096, 1024
RULE_5 = "group staff, send INVITE, 9*@office.local, from 8:00 until 18:00: via gateway"
BY_GATEWAY = "group staff, send INVITE, 9*@office.local, from 8:00 until 18:00: via trunk"
FROM_NINE = "group staff, send INVITE, 9*@office.local, from 9:00 until 18:00: via gateway"
RULE_4 = "proven, send SUBSCRIBE, self: deny"
RULE_3 = "proven, send PUBLISH, self: deny"

# what is changed, what is said of it, whether a server that runs can take it, and what is said of the change back
CASES = [
    ([("# A small office", "# An office")], ["nothing differs"], True, ["nothing differs"]),
    ([("offset = 60", "offset = 120")], ["offset 60 before, 120 now", CAN], True, ["offset 120 before, 60 now", CAN]),
    ([('realm = "office"', 'realm = "Office"')], [f"realm {ANEW}", CANNOT], False, [f"realm {ANEW}", CANNOT]),
    ([('host = "127.0.0.1"', 'host = "127.0.0.2"'), ("port = 5060", "port = 5070")], [f"host {ANEW}", f"port {ANEW}", CANNOT], False, None),
    ([('["office.local", "127.0.0.1"]', '["127.0.0.1", "office.local"]')], [f"domains {ANEW}", CANNOT], False, None),
    ([('"127.0.0.1:5060"', '"0.0.0.0:5060"')], [f"address {ANEW}", CANNOT], False, None),
    (
        [('"127.0.0.1:5060"', '"127.0.0.1:5062"')],
        [f"port of address 5060 before, 5062 now: {CANNOT}", CANNOT],
        False,
        [f"port of address 5062 before, 5060 now: {CANNOT}", CANNOT],
    ),
    ([("# A hop:", CAROL + "# A hop:")], ["user carol comes", CAN], True, [f"user carol {GOES}", CAN]),
    ([('a1 = "dbcb', 'a1 = "0bcb')], ["user bob has another a1", CAN], True, ["user bob has another a1", CAN]),
    ([("# a1_sha256", "a1_sha256")], ["user alice has another a1_sha256", CAN], True, ["user alice has another a1_sha256", CAN]),
    (
        [('groups = ["staff"]', 'groups = ["staff", "sales"]')],
        ["user alice joins group sales", CAN],
        True,
        ["user alice leaves group sales", CAN],
    ),
    (
        [('name = "gateway"', 'name = "trunk"'), ("via gateway", "via trunk")],
        ["hop trunk comes at 127.0.0.1:5090", "hop gateway goes from 127.0.0.1:5090", f"rule 5 before: {RULE_5}", f"rule 5 now: {BY_GATEWAY}", CAN],
        True,
        None,
    ),
    (
        [('address = "127.0.0.1:5090"', 'address = "127.0.0.1:5092"')],
        ["hop gateway moves from 127.0.0.1:5090 to 127.0.0.1:5092", CAN],
        True,
        ["hop gateway moves from 127.0.0.1:5092 to 127.0.0.1:5090", CAN],
    ),
    (
        [('address = "127.0.0.1:5091"', 'address = "127.0.0.1:5093"')],
        [f"host_address desk.office.local:5070 moves from 127.0.0.1:5091 to 127.0.0.1:5093: {STAND}", CAN],
        True,
        None,
    ),
    (
        [("port = 5070", "port = 5071")],
        ["host_address desk.office.local:5071 comes at 127.0.0.1:5091", f"host_address desk.office.local:5070 goes from 127.0.0.1:5091: {STAND}", CAN],
        True,
        None,
    ),
    ([("from = 480", "from = 540")], [f"rule 5 before: {RULE_5}", f"rule 5 now: {FROM_NINE}", CAN], True, None),
    (
        [("id = 3", "id = 30")],
        [f"rule 30 comes behind rule 2: {RULE_3}", f"rule 3 goes: {RULE_3}", CAN],
        True,
        [f"rule 3 comes behind rule 2: {RULE_3}", f"rule 30 goes: {RULE_3}", CAN],
    ),
    (
        [("id = 3", "id = 40"), ("id = 4\n", "id = 3\n"), ("id = 40", "id = 4")],
        [
            f"rule 4 before: {RULE_4}",
            f"rule 4 now: {RULE_3}",
            f"warning: rule 4 {AGAIN}",
            f"rule 3 before: {RULE_3}",
            f"rule 3 now: {RULE_4}",
            f"warning: rule 3 {AGAIN}",
            "rules in another order: 1 2 4 3 5 6 7 8 9",
            CAN,
        ],
        True,
        None,
    ),
]


def ended(*words, pass_fds=()):
    done = subprocess.run([PROGRAM, "check", *words], stdin=subprocess.DEVNULL, capture_output=True, timeout=60, pass_fds=pass_fds)
    return done.returncode, done.stdout.decode().splitlines(), done.stderr.decode().splitlines()


class Tally:
    """What was tried, how much of it was said otherwise, and the folder of the files that are compared."""

    def __init__(self, folder):
        self.folder, self.tried, self.wrong = folder, 0, 0

    def expect(self, name, found, wanted):
        self.tried += 1
        if found != wanted:
            self.wrong += 1
            print(f"{name}: {found} in place of {wanted}")

    def written(self, name, text):
        path = os.path.join(self.folder, name)
        with open(path, "w", encoding="utf-8") as file:
            file.write(text)
        return path


def changed(office, changes):
    """The office with some texts in place of others."""
    text = office
    for before, now in changes:
        assert before in text, before
        text = text.replace(before, now, 1)
    return text


def try_changes(tally, office, old):
    """Each change, and the change back."""
    complaints = {True: [], False: [f"sipd: {CANNOT}"]}
    for changes, said, taken, said_back in CASES:
        new = tally.written("new.toml", changed(office, changes))
        tally.expect(changes, ended("--config", new, "--against", old), (0 if taken else 3, said, complaints[taken]))
        if said_back is not None:
            tally.expect(f"{changes} back", ended("--config", old, "--against", new), (0 if taken else 3, said_back, complaints[taken]))


def try_refusals(tally, office, old):
    """A file that is refused, or isn't there, on either side; and with --show."""
    bad = tally.written("bad.toml", office.replace("via gateway", "via nobody", 1))
    none = os.path.join(tally.folder, "nowhere.toml")
    refused = "sipd: configuration refused 6"
    status, said, complaints = ended("--config", bad, "--against", old)
    is_told = any("[[hop]]" in line for line in complaints[:-1])
    tally.expect("NEW is refused", (status, said, is_told, complaints[-1]), (2, [], True, refused))
    tally.expect("OLD is refused", ended("--config", old, "--against", bad), (2, [], ["sipd: of --against", refused]))
    tally.expect("no OLD", ended("--config", old, "--against", none), (4, [], ["sipd: of --against", "sipd: no file", "sipd: device"]))
    read, write = os.pipe()
    os.write(write, office.encode())
    os.close(write)
    tally.expect("OLD is a pipe", ended("--config", old, "--against", f"/dev/fd/{read}", pass_fds=(read,)), (0, ["nothing differs"], []))
    os.close(read)
    status, said, _ = ended("--show", "--config", bad, "--against", old)
    tally.expect("NEW is refused, with --show", (status, any("[[hop]]" in line for line in said)), (2, True))
    status, said, _ = ended("--show", "--config", old, "--against", old)
    tally.expect("with --show", (status, said[0], said[-1]), (0, "realm        office", "nothing differs"))


class Day:
    """A server that records and whose configuration changes, and those who phone."""

    def __init__(self, tally):
        self.tally, self.record = tally, os.path.join(tally.folder, "day")
        self.config = phone.office(tally.folder, phone.free_port())
        self.server, port = phone.started(PROGRAM, self.config, "--reload", "--record", self.record)
        # what it prints is read as it comes: where nobody reads, the server waits
        self.log = []
        self.reader = threading.Thread(target=self.drain, daemon=True)
        self.reader.start()
        self.alice, self.bob = served.phones(port)
        self.carol, self.dave = (phone.Phone(name, phone.md5(f"{name}:office:tea"), self.alice.server) for name in ("carol", "dave"))
        self.carol.again = self.dave.again = False
        self.phones = (self.alice, self.bob, self.carol, self.dave)

    def drain(self):
        for line in self.server.stdout:
            self.log.append(line.decode())

    def killed(self):
        """Ends the server; gives its log, and its complaints that weren't waited for."""
        self.server.kill()
        self.reader.join()
        self.server.wait()
        return "".join(self.log), self.server.stderr.read().decode()

    def text(self):
        with open(self.config, encoding="utf-8") as file:
            return file.read()

    def under(self, before, now, words):
        """The file with a text in place of another one, once it is in force, which says in these words what changed."""
        served.rewritten(self.config, lambda text: changed(text, [(before, now)]))
        serve.comes_into_force(self.server, self.config, words)

    def expect(self, name, found, wanted):
        self.tally.expect(name, found, wanted)

    def registers(self, name, it, proven):
        self.expect(f"{it.name} registers, {name}", it.register(), [401, 200] if proven else [401, 401])

    def logs(self, name, wanted):
        """Whether this becomes the last line of the log, behind its moment and its number."""
        line = re.compile(rf"\d+ \d+ {re.escape(wanted)}\n")
        self.expect(f"the log, {name}", served.until(lambda: self.log and line.fullmatch(self.log[-1]), 5), True)

    def is_called(self, name, status, who=None):
        """What becomes of a call of alice's to who isn't reached, bob if it isn't said."""
        target = (who or self.bob).address
        call, branch = self.alice.invite(target)
        refused = self.alice.hear()
        self.expect(f"alice calls {target}, {name}", refused.status, status)
        self.alice.acknowledge(refused, target, call, 2, branch)

    def talk(self, caller, callee):
        """A call that is established and hung up."""
        served.hung_up(caller, callee, served.established(caller, callee))


def user_block(it):
    return CAROL.replace("carol", it.name).replace("1" * 32, it.key)


def live_day(day):
    """Users come and go, a password, a rule and the time of day change, files come in pieces, without end and not at all, and a call stands
    over all of it."""
    day.registers("at first", day.alice, True)
    day.registers("at first", day.bob, True)
    day.registers("unknown", day.carol, False)
    stands = served.established(day.alice, day.bob)
    carol_comes(day)
    password_changes(day)
    rule_turns_behind_its_challenge(day)
    half_written(day)
    dave_goes(day)
    changes_without_end(day)
    gone_and_another_realm(day)
    day.under('name = "bob"', 'name = "bert"', "1 user more, 1 user fewer")
    day.is_called("who is gone", 404)
    served.hung_up(day.alice, day.bob, stands)


def carol_comes(day):
    """Who is new registers and calls."""
    day.under(BEHIND_USERS, user_block(day.carol) + BEHIND_USERS, "1 user more")
    day.registers("known", day.carol, True)
    day.talk(day.carol, day.alice)


def password_changes(day):
    """Another password counts from the next REGISTER on, and so does the old one when it is back."""
    day.under('a1 = "dbcb', 'a1 = "0bcb', "1 user changed")
    day.registers("with another password", day.bob, False)
    day.under('a1 = "0bcb', 'a1 = "dbcb', "1 user changed")
    day.registers("with his password", day.bob, True)


def challenged(day):
    """An INVITE of alice's to bob without a credential, which is challenged: its Call-ID, and the challenge."""
    call, target = day.alice.mark(), day.bob.address
    branch = day.alice.request("INVITE", target, target, call, 1, [day.alice.contact()])
    challenge = day.alice.hear()
    day.expect("an INVITE without a credential", challenge.status, 407)
    day.alice.acknowledge(challenge, target, call, 1, branch)
    return call, challenge


def answers(day, call, challenge):
    """The same INVITE with the right answer to that challenge; gives its branch."""
    target = day.bob.address
    return day.alice.request("INVITE", target, target, call, 2, [day.alice.contact(), day.alice.credential(challenge, "INVITE", target)])


def rule_turns_behind_its_challenge(day):
    """A rule is turned between a challenge and its answer: the answer is judged by the rule as it is when it comes, both ways."""
    alice, bob = day.alice, day.bob
    call, challenge = challenged(day)
    day.under(RULE_7_ALLOWS, RULE_7_DENIES, "rule 7 changed")
    branch = answers(day, call, challenge)
    refused = alice.hear()
    day.expect("challenged where a rule allowed it, answered where it denies it", (refused.status, refused["Warning"]), (403, '399 127.0.0.1 "policy rule 7"'))
    alice.acknowledge(refused, bob.address, call, 2, branch)
    day.logs("of the rule that denies it", "INVITE alice bob@127.0.0.1 send 7 deny")
    day.is_called("where a rule denies it", 403)
    call, challenge = challenged(day)
    day.under(RULE_7_DENIES, RULE_7_ALLOWS, "rule 7 changed")
    branch = answers(day, call, challenge)
    invite = bob.hear()
    day.expect("challenged where a rule denied it, answered where it allows it", (invite.method, invite.uri), ("INVITE", f"sip:bob@{bob.at}"))
    day.logs("of the rule that allows it", "INVITE alice bob@127.0.0.1 send 7 sent 1")
    bob.answer(invite, 486, "b1")
    day.expect("bob hears", bob.hear().method, "ACK")
    refused = alice.hear()
    day.expect("bob answers", refused.status, 486)
    alice.acknowledge(refused, bob.address, call, 2, branch)


def half_written(day):
    """A file is written in its place, piece by piece, while people register and phone: none of its fronts comes into force, though nearly
    each is a configuration, and the whole of it does."""
    whole = changed(day.text(), [(BEHIND_USERS, user_block(day.dave) + BEHIND_USERS)])
    pieces = re.split(r"(?=\[\[)", whole)
    fronts = ["".join(pieces[:count]) for count in range(1, len(pieces))]
    accepted = [ended("--config", day.tally.written("front.toml", front))[0] == 0 for front in fronts]
    day.expect("which fronts are configurations", (len(fronts), accepted), (15, [False] + [True] * 14))
    slowest, last = 0, time.monotonic()
    with open(day.config, "w", encoding="utf-8") as made:
        for number, piece in enumerate(pieces):
            made.write(piece)
            made.flush()
            slowest, last = max(slowest, time.monotonic() - last), time.monotonic()
            if number == 4:
                day.registers("while the file is half written", day.bob, True)
            if number == 7:
                stands = served.established(day.carol, day.alice)
            if number == 10:
                served.hung_up(day.carol, day.alice, stands)
            time.sleep(0.2)
    day.expect("this machine writes a piece in time", slowest < APART, True)
    # this is all that it says of it
    serve.comes_into_force(day.server, day.config, "1 user more")


def dave_goes(day):
    """Who goes proves nothing any more and isn't called, and his standing call ends with his own BYE."""
    day.registers("known", day.dave, True)
    day.talk(day.bob, day.dave)
    stands = served.established(day.dave, day.alice)
    day.under(user_block(day.dave), "", "1 user fewer")
    day.registers("gone", day.dave, False)
    day.is_called("who is gone", 404, day.dave)
    served.hung_up(day.dave, day.alice, stands)


def changes_without_end(day):
    """The file is another one each nine tenths of a second, for a minute, beside calls, of which one stands over each change: none of these
    files comes into force, but one that stood for a second, since this machine was late, and the last one does."""
    text, calls, moments = day.text(), 0, []

    def put(content):
        before = time.monotonic()
        served.rewritten(day.config, lambda _: content)
        moments.append((before, time.monotonic()))

    stands = served.established(day.alice, day.bob)
    over = time.monotonic() + ENDLESS
    while time.monotonic() < over:
        following = time.monotonic() + APART
        put(f"{text}# {len(moments)}\n")
        other = served.established(day.carol, day.alice)
        served.hung_up(day.alice, day.bob, stands)
        while time.monotonic() < following - 0.1:
            day.talk(day.bob, day.carol)
            calls += 1
            time.sleep(0.15)
        stands = served.established(day.alice, day.bob)
        served.hung_up(day.carol, day.alice, other)
        calls += 2
        time.sleep(max(0, following - time.monotonic()))
    put(changed(text, [("offset = 60", "offset = 120")]))
    *others, last = served.says(day.server, " on (offset changed)\n").splitlines(keepends=True)
    # by a clock of milliseconds
    late = sum(behind - before > 0.998 for (before, _), (_, behind) in zip(moments, moments[1:]))
    nothing = serve.in_force(day.config, "nothing differs")
    day.expect("said of an endless change", (len(others) <= late, [line for line in others if not nothing.fullmatch(line)]), (True, []))
    day.expect("said of the last one", serve.in_force(day.config, "offset changed").fullmatch(last) is not None, True)
    day.expect("some files and calls of a minute", (len(moments) > ENDLESS / 2, calls > ENDLESS), (True, True))
    served.hung_up(day.alice, day.bob, stands)


def gone_and_another_realm(day):
    """The file is gone for a while, and another realm stands in it: that is said, and what was in force stays."""
    text = day.text()
    for name, change, said in (
        ("where the file is gone", lambda: os.remove(day.config), "the configuration's file is gone; what was in force stays\n"),
        (
            "where the realm is another",
            lambda: day.tally.written(day.config, text.replace('realm = "office"', 'realm = "home"')),
            f"{day.config} isn't taken: realm can't change while the server runs; what was in force stays\n",
        ),
    ):
        change()
        day.expect(f"said {name}", served.says(day.server, "\n"), f"sipd: {said}")
        day.registers(name, day.carol, True)
        day.talk(day.carol, day.bob)
    day.tally.written(day.config, text)


def packets_of(printed):
    """The packets that a replay prints, each with its address."""
    found, place = set(), 0
    while place < len(printed):
        end = printed.index("\n", place)
        words, place = printed[place:end].split(" "), end + 1
        if words[0] == "packet":
            length = int(words[5])
            found.add((words[2], printed[place : place + length]))
            place += length + 1
    return found


def try_day(tally):
    """The day's record is replayed without its file, byte for byte what was logged and all that was heard; and is gone on from."""
    day = Day(tally)
    live_day(day)
    printed, complaints = day.killed()
    tally.expect("complaints of the day", complaints, "")
    status, again, complaints = served.replayed(day.record)
    tally.expect("the day again", (status, complaints, served.audit_of(again)), (0, "", printed.splitlines()))
    packets = packets_of(again)
    heard = [(it.at, data.decode()) for it in day.phones for data in it.heard]
    tally.expect("heard and not replayed", [one for one in heard if one not in packets], [])
    server, _ = phone.started(PROGRAM, day.config, "--record", day.record + "_on", "--resume", day.record)
    day.talk(day.carol, day.alice)
    _, complaints = served.killed(server)
    tally.expect("the next start", re.fullmatch(f"sipd: goes on behind \\d+ lines of {day.record}\n", complaints) is not None, True)


def greatest(office, count):
    """The office with so many users, and, behind its own rules, as many as there can be."""
    users = "".join(f'[[user]]\nname = "user{number}"\na1 = "{phone.md5(str(number))}"\n\n' for number in range(2, count))
    rules = "".join(
        f'\n[[rule]]\nid = {1000 + number}\nwho = "user user{number}"\nop = "send INFO"\ntarget = "user{number}@office.local"\nverdict = "deny"\n'
        for number in range(9, MOST_RULES)
    )
    return changed(office, [(BEHIND_USERS, users + BEHIND_USERS)]) + rules


def try_greatest(tally):
    """A file with as many users and rules as there can be comes into force while a phone sends: each request is answered. It gives the
    greatest number of seconds that one waited for its answer."""
    config = phone.office(tally.folder, phone.free_port())
    with open(config, encoding="utf-8") as file:
        office = file.read()
    tally.written(config, greatest(office, MOST_USERS - 1))
    server, port = phone.started(PROGRAM, config, "--reload")
    alice, _ = served.phones(port)
    tally.expect("one of the most users registers", alice.register(), [401, 200])
    slowest, statuses = 0, []
    served.rewritten(config, lambda _: greatest(office, MOST_USERS))
    with concurrent.futures.ThreadPoolExecutor() as beside:
        taken = beside.submit(serve.comes_into_force, server, config, "1 user more")
        while not taken.done():
            before = time.monotonic()
            alice.request("REGISTER", "sip:127.0.0.1", alice.address, alice.mark(), 1, [alice.contact()])
            statuses.append(alice.hear().status)
            slowest = max(slowest, time.monotonic() - before)
            time.sleep(0.01)
        taken.result()
    printed, complaints = served.killed(server)
    tally.expect("answered while the most users and rules are taken", set(statuses), {401})
    tally.expect("logged and complained of", (len(printed.splitlines()), complaints), (2 + len(statuses), ""))
    return slowest


def main():
    with open(OFFICE, encoding="utf-8") as file:
        office = file.read()
    with tempfile.TemporaryDirectory() as folder:
        tally = Tally(folder)
        old = tally.written("old.toml", office)
        try_changes(tally, office, old)
        try_refusals(tally, office, old)
        try:
            try_day(tally)
            try_greatest(tally)
        finally:
            for server in phone.SERVERS:
                server.kill()
    print(f"{tally.tried} changes, {tally.wrong} not told")
    return 1 if tally.wrong else 0


if __name__ == "__main__":
    sys.exit(main())
