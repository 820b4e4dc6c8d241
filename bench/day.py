#!/usr/bin/env python3
"""A recorded day of an office: `bench/day.py FOLDER [--phones N] [--hours H] [--calls C] [--seed S]` writes FOLDER/day.toml and FOLDER/day.record,
what `sipd serve --record` would have written of so many phones, each of which registers again every 600 seconds and is bound for 1,200, and
of so many calls, most of them between 8:00 and 18:00.

It is a record as a start or `sipd replay --record` takes one: its first line, the configuration, and a line for each event, the datagrams as
`serve` writes them. A phone asks with the nonce that it has, which is older than 300 seconds by then, is told that it is stale, and answers the new
one. A call is an INVITE that is challenged, its ACK, the INVITE with the answer, a 180 and a 200 of the phone, ACK, and after the talk a
BYE of either side and its 200; some ring until they are cancelled, some are declined, and one of two hundred stands for hours, refreshed every
900 seconds. `time` lines stand where a timer fired that ends a transaction (nobody is slow enough here for something to go again), and where
a second passed in which nothing was heard.

Datagrams are numbered as the server numbers them, so that the branches of its own requests, which the phones' answers bear, are known here.
"""

import argparse
import hashlib
import heapq
import os
import random

from phones import DESK_SDP, YEALINK
from replays import md5

REALM, DOMAIN, HOST, PORT = "day", "day.example", "sip.day.example", 5060
WORD, FIRST, MIDNIGHT = 0x2F6B1D, 1, 1_795_647_600_000
AGAIN, BOUND = 600_000, 1200
AGENT = [line for line in YEALINK if not line.startswith("Allow-Events")]


def text_of(data):
    """A datagram's bytes as a line `text` has them (docs/SCRIPTS.md)."""
    named = {13: "\\r", 10: "\\n", 92: "\\\\"}
    return "".join(named.get(byte) or (chr(byte) if 32 <= byte < 127 else f"\\{byte:02x}") for byte in data)


def key_of(user):
    return md5(f"{user}:{REALM}:secret of {user}")


def configuration(users):
    text = [f'version = 1\nrealm = "{REALM}"\nhost = "{HOST}"\nport = {PORT}\naddress = "127.0.0.1:{PORT}"\ndomains = ["{DOMAIN}"]\n']
    text += [f'[[user]]\nname = "{user}"\na1 = "{key_of(user)}"\n' for user in users]
    for place, (op, target) in enumerate((("register", "self"), ("list", "self"), ("send *", f"@{DOMAIN}"))):
        text.append(f'[[rule]]\nid = {place + 1}\nwho = "proven"\nop = "{op}"\ntarget = "{target}"\nverdict = "allow"\n')
    return "\n".join(text)


class Day:
    """What is recorded, in order: what is to come stands in a heap, and so do the moments at which the server has something due."""

    def __init__(self, out, start, end, seed):
        self.out, self.now, self.end, self.random = out, start, end, random.Random(seed)
        self.number, self.coming, self.due, self.order, self.turn = FIRST - 1, [], [], 0, start
        self.bytes, self.kinds = 0, {}

    def write(self, kind, line):
        self.out.write(line)
        self.bytes += len(line)
        self.kinds[kind] = self.kinds.get(kind, 0) + 1

    def after(self, wait, do):
        """Lets something be done in so many milliseconds."""
        self.order += 1
        heapq.heappush(self.coming, (self.now + wait, self.order, do))

    def falls_due(self, wait):
        heapq.heappush(self.due, self.now + wait)

    def idle(self, until):
        """Seconds in which nothing is heard, and what falls due, up to a moment."""
        while True:
            next_due = self.due[0] if self.due else until + 1
            moment = min(self.turn + 1000, next_due)
            if moment > until:
                return
            if next_due <= moment:
                while self.due and self.due[0] <= moment:
                    heapq.heappop(self.due)
                self.write("time", f"time {moment}\n")
            self.write("time", f"time {moment}\n")
            self.turn = moment

    def hears(self, phone, *lines, body=()):
        """A datagram of a phone comes; its number, and the word of its nonce."""
        self.number += 1
        word = self.random.getrandbits(128)
        length = sum(len(line) + 2 for line in body)
        more = ["Content-Type: application/sdp"] if body else []
        data = "".join(f"{line}\r\n" for line in (*lines, *more, f"Content-Length: {length}", "", *body)).encode()
        self.write("datagram", f"text {self.now} {phone.place} {word:032x} {text_of(data)}\n")
        self.turn = self.now
        return self.number, f"{word:032x}"

    def run(self):
        while self.coming and self.coming[0][0] < self.end:
            at, _, do = heapq.heappop(self.coming)
            self.idle(at)
            self.now = at
            do()
        self.idle(self.end)


class Phone:
    def __init__(self, day, index):
        self.day, self.user, self.place = day, f"p{index:04}", f"10.20.{index // 250}.{index % 250 + 1}:5060"
        self.contact, self.address = f"<sip:{self.user}@{self.place}>", f"<sip:{self.user}@{DOMAIN}>"
        self.nonce, self.count, self.sequence, self.tag = f"{index:032x}", 0, 0, 0

    def credential(self, method, uri):
        self.count += 1
        answer = md5(f"{key_of(self.user)}:{self.nonce}:{self.count:08x}:0a4f113b:auth:" + md5(f"{method}:{uri}"))
        name = "Authorization" if method == "REGISTER" else "Proxy-Authorization"
        return (
            f'{name}: Digest username="{self.user}", realm="{REALM}", nonce="{self.nonce}", uri="{uri}", response="{answer}", '
            f'algorithm=MD5, cnonce="0a4f113b", qop=auth, nc={self.count:08x}'
        )

    def challenged(self, word):
        self.nonce, self.count = word, 0

    def via(self, mark):
        return f"SIP/2.0/UDP {self.place};branch=z9hG4bK{self.user}{mark};rport"

    def register(self):
        self.day.after(AGAIN + self.day.random.randint(-2000, 2000), self.register)
        self.challenged(self.send_register()[1])
        self.day.after(self.day.random.randint(15, 60), self.send_register)

    def send_register(self):
        self.sequence += 1
        uri = f"sip:{DOMAIN}"
        self.day.falls_due(32_000)
        return self.day.hears(
            self, f"REGISTER {uri} SIP/2.0", f"Via: {self.via(f'r{self.sequence}')}", "Max-Forwards: 70", f"From: {self.address};tag=r{self.user}",
            f"To: {self.address}", f"Call-ID: r{self.user}@{self.place}", f"CSeq: {self.sequence} REGISTER", f"Contact: {self.contact}",
            self.credential("REGISTER", uri), f"Expires: {BOUND}", *AGENT,
        )


class Call:
    """A call of one phone to another. `fate` is how it ends: `talk`, `cancel` or `decline`."""

    marks = 0

    def __init__(self, day, caller, callee, fate, talk):
        Call.marks += 1
        self.day, self.caller, self.callee, self.fate, self.talk, self.mark = day, caller, callee, fate, talk, Call.marks
        self.id, self.uri, self.sequence = f"c{self.mark}@{caller.place}", f"sip:{callee.user}@{DOMAIN}", {caller: 1, callee: 0}
        self.ended = False

    def soon(self, do, least=15, most=60):
        self.day.after(self.day.random.randint(least, most), do)

    def named(self, phone, tagged=True):
        """From and To of a request of a phone in the call."""
        other = self.callee if phone is self.caller else self.caller
        tags = {self.caller: f";tag=a{self.mark}", self.callee: f";tag=b{self.mark}"}
        return [f"From: {phone.address}{tags[phone]}", f"To: {other.address}{tags[other] if tagged else ''}", f"Call-ID: {self.id}"]

    def outside(self, method, branch, *more, body=(), tag=""):
        return self.day.hears(
            self.caller, f"{method} {self.uri} SIP/2.0", f"Via: {self.caller.via(branch)}", "Max-Forwards: 70", f"From: {self.caller.address};tag=a{self.mark}",
            f"To: {self.callee.address}{tag}", f"Call-ID: {self.id}", f"CSeq: {self.sequence[self.caller]} {method}", *more, *AGENT, body=body,
        )

    def begin(self):
        number, word = self.outside("INVITE", f"i{self.mark}x1", f"Contact: {self.caller.contact}", body=DESK_SDP)
        self.soon(lambda: self.acknowledge(number, word))

    def acknowledge(self, number, word):
        self.outside("ACK", f"i{self.mark}x1", tag=f";tag={WORD:016x}.{number}")
        self.day.falls_due(5_000)
        self.caller.challenged(word)
        self.sequence[self.caller] += 1
        self.soon(self.invite, 1, 5)

    def invite(self):
        credential = self.caller.credential("INVITE", self.uri)
        self.number, _ = self.outside("INVITE", f"i{self.mark}x2", f"Contact: {self.caller.contact}", credential, body=DESK_SDP)
        self.soon(lambda: self.answer(180), 30, 300)
        if self.fate == "cancel":
            self.day.after(self.day.random.randint(15_000, 40_000), self.cancel)
        else:
            self.day.after(self.day.random.randint(2_000, 20_000), self.accept if self.fate == "talk" else self.decline)

    def answer(self, code, method="INVITE", body=()):
        branch = f"z9hG4bK{WORD:016x}.{self.number}.1"
        learnt = method == "INVITE" and code < 300
        return self.day.hears(
            self.callee, f"SIP/2.0 {code} X", f"Via: SIP/2.0/UDP {HOST}:{PORT};branch={branch}",
            *([] if method == "CANCEL" else [f"Via: {self.caller.via(f'i{self.mark}x2')}=5060;received={self.caller.place.split(':')[0]}"]),
            *([f"Record-Route: <sip:{HOST}:{PORT};lr>"] if learnt else []), *self.named(self.caller), f"CSeq: {self.sequence[self.caller]} {method}",
            *([f"Contact: {self.callee.contact}"] if learnt else []), *AGENT, body=body,
        )

    def decline(self):
        self.answer(486)
        self.day.falls_due(32_000)
        self.soon(lambda: (self.outside("ACK", f"i{self.mark}x2", tag=f";tag=b{self.mark}"), self.day.falls_due(5_000)))
        self.ended = True

    def cancel(self):
        self.outside("CANCEL", f"i{self.mark}x2")
        self.day.falls_due(32_000)
        self.soon(lambda: self.answer(200, "CANCEL"))
        self.soon(lambda: self.answer(487), 61, 90)
        self.day.after(91, lambda: self.day.falls_due(32_000))
        self.day.after(120, lambda: (self.outside("ACK", f"i{self.mark}x2", tag=f";tag=b{self.mark}"), self.day.falls_due(5_000)))
        self.ended = True

    def accept(self):
        self.answer(200, body=DESK_SDP)
        self.day.falls_due(32_000)
        self.soon(lambda: self.within(self.caller, "ACK"))
        self.refresh_until = self.day.now + self.talk
        if self.talk > 900_000:
            self.day.after(900_000, self.refresh)
        self.day.after(self.talk, self.hang_up)

    def within(self, phone, method, body=()):
        """A request in the dialog."""
        other = self.callee if phone is self.caller else self.caller
        if method != "ACK":
            self.sequence[phone] += 1
        mark = f"d{self.mark}x{self.sequence[phone]}{method}"
        number, _ = self.day.hears(
            phone, f"{method} sip:{other.user}@{other.place} SIP/2.0", f"Via: {phone.via(mark)}", f"Route: <sip:{HOST}:{PORT};lr>", "Max-Forwards: 70",
            *self.named(phone), f"CSeq: {self.sequence[phone]} {method}", *([f"Contact: {phone.contact}"] if method == "UPDATE" else []), *AGENT, body=body,
        )
        if method != "ACK":
            self.soon(lambda: self.answer_within(phone, other, method, number, mark, self.sequence[phone]))

    def answer_within(self, phone, other, method, number, mark, sequence):
        self.day.hears(
            other, "SIP/2.0 200 X", f"Via: SIP/2.0/UDP {HOST}:{PORT};branch=z9hG4bK{WORD:016x}.{number}.1",
            f"Via: {phone.via(mark)}=5060;received={phone.place.split(':')[0]}", *self.named(phone), f"CSeq: {sequence} {method}",
            *([f"Contact: {other.contact}"] if method == "UPDATE" else []), *AGENT,
        )
        self.day.falls_due(5_000)
        self.day.falls_due(32_000)

    def refresh(self):
        if not self.ended and self.day.now + 5000 < self.refresh_until:
            self.within(self.caller, "UPDATE")
            self.day.after(900_000, self.refresh)

    def hang_up(self):
        self.ended = True
        self.within(self.day.random.choice((self.caller, self.callee)), "BYE")


def moment_of_call(random, hours):
    """Most are in the hours of an office, if the day has them."""
    if hours > 18 and random.random() < 0.9:
        return int(random.triangular(8, 18, 11) * 3_600_000)
    return int(random.random() * hours * 3_600_000)


def plan(day, phones, calls, hours):
    for phone in phones:
        day.after(day.random.randint(0, AGAIN - 1), phone.register)
    made = []
    for place in range(calls):
        caller, callee = day.random.sample(phones, 2)
        fate = day.random.choices(("talk", "cancel", "decline"), (80, 12, 8))[0]
        talk = day.random.randint(3, 9) * 3_600_000 if place % 200 == 199 else int(min(day.random.expovariate(1 / 150_000), 7_200_000)) + 3000
        made.append(Call(day, caller, callee, fate, talk))
        day.after(max(moment_of_call(day.random, hours), AGAIN + 5000), made[-1].begin)
    return made


def main():
    words = argparse.ArgumentParser(description=__doc__.split("\n")[0])
    words.add_argument("folder")
    for name, default in (("phones", 1000), ("hours", 24), ("calls", 6000), ("seed", 1)):
        words.add_argument(f"--{name}", type=int, default=default)
    asked = words.parse_args()
    os.makedirs(asked.folder, exist_ok=True)
    users = [f"p{index:04}" for index in range(asked.phones)]
    config = configuration(users).encode()
    with open(os.path.join(asked.folder, "day.toml"), "wb") as out:
        out.write(config)
    digest = hashlib.sha256(config).hexdigest()
    with open(os.path.join(asked.folder, "day.record"), "w") as out:
        out.write(f"record {WORD:016x} {FIRST} {digest}\n" + "".join(f"= {line}\n" for line in config.decode().splitlines()) + f"configuration {digest}\n")
        day = Day(out, MIDNIGHT, MIDNIGHT + asked.hours * 3_600_000, asked.seed)
        phones = [Phone(day, index) for index in range(asked.phones)]
        calls = plan(day, phones, asked.calls, asked.hours)
        day.run()
    standing = sum(1 for call in calls if hasattr(call, "refresh_until") and not call.ended)
    print(f"{day.kinds.get('datagram', 0)} datagrams, {day.kinds.get('time', 0)} lines of time, {day.bytes} bytes; {len(phones)} phones, {standing} calls stand at the end")


if __name__ == "__main__":
    main()
