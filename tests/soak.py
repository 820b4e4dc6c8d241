#!/usr/bin/env python3
"""Serves random requests while an address comes and goes, and kills the server every second or so, each time followed by one that
goes on from its record. What phones heard in the end has to be what the last record replays, in its order; and what was printed,
the lines of its log: `tests/soak.py [PROGRAM [SECONDS [SEED]]]`, after `rt run` in crates/sipd, as root. Half a minute."""

import os
import random
import re
import shutil
import socket
import subprocess
import sys
import tempfile
import time

sys.dont_write_bytecode = True
import phone
from program import Server, contents, ended, goes_apart, packets_to, two_hops

SECONDS = float(sys.argv[2]) if len(sys.argv) > 2 else 30
SEED = int(sys.argv[3]) if len(sys.argv) > 3 else time.time_ns() % 10_000
PORT, AT, FAR = 5060, "127.0.0.1:5090", "10.9.0.2"
USERS = ("far", "near", "near", "alice", "nobody")
METHODS = ("INVITE", "INVITE", "MESSAGE", "OPTIONS", "INFO", "REGISTER")
chance = random.Random(SEED)


def message(start, fields):
    return "\r\n".join([start, *(f"{name}: {value}" for name, value in fields), "Content-Length: 0", "", ""]).encode()


def request(method, user, number, more=(), to_tag=""):
    """A request; an ACK and a CANCEL belong to the INVITE of their number."""
    uri = "sip:office.local" if method == "REGISTER" else f"sip:{user}@office.local"
    fields = [
        ("Via", f"SIP/2.0/UDP {AT};branch=z9hG4bK{number}"),
        ("Max-Forwards", "70"),
        ("From", f"<sip:x@office.local>;tag=f{number}"),
        ("To", f"<sip:{user}@office.local>{to_tag}"),
        ("Call-ID", f"call{number}"),
        ("CSeq", f"1 {method}"),
    ]
    return message(f"{method} {uri} SIP/2.0", [*fields, *more])


def answer(asked, status):
    copied = [(name, value) for name, value in asked.fields if name in ("Via", "Record-Route", "From", "Call-ID", "CSeq")]
    contact = [("Contact", f"<sip:near@{AT}>")] if status < 300 else []
    return message(f"SIP/2.0 {status} X", [*copied, ("To", asked["To"] + ";tag=b1"), *contact])


class Phones:
    """All phones of one address: what they heard, and what they are yet to send, with when."""

    def __init__(self):
        self.socket = socket.socket(socket.AF_INET, socket.SOCK_DGRAM)
        self.socket.setsockopt(socket.SOL_SOCKET, socket.SO_RCVBUF, 8 << 20)
        self.socket.bind(("127.0.0.1", 5090))
        self.socket.setblocking(False)
        self.heard, self.waiting, self.count, self.invites = [], [], 0, []

    def send(self, data):
        self.socket.sendto(data, ("127.0.0.1", PORT))

    def ask(self):
        """Sends a new request, now and then twice."""
        self.count += 1
        method, user = chance.choice(METHODS), chance.choice(USERS)
        more = [("Contact", f"<sip:x@{AT}>")] if method == "INVITE" else []
        if method == "REGISTER":
            user, place = "alice", chance.choice((AT, FAR + ":5090"))
            more = [("Contact", f"<sip:alice@{place}>"), ("Expires", chance.choice((0, 60, 600)))]
        if method == "INVITE":
            self.invites = [*self.invites[-20:], (user, self.count)]
        for _ in range(1 + (chance.random() < 0.2)):
            self.send(request(method, user, self.count, more))

    def send_what_is_due(self):
        now = time.monotonic()
        due = [data for at, data in self.waiting if at <= now]
        self.waiting = [(at, data) for at, data in self.waiting if at > now]
        for data in due:
            self.send(data)

    def act(self):
        """What comes to their minds at once."""
        self.send_what_is_due()
        if chance.random() < 0.5:
            for _ in range(chance.choice((1, 2, 2, 3))):
                self.ask()
        if self.invites and chance.random() < 0.15:
            self.send(request("CANCEL", *chance.choice(self.invites)))
        if chance.random() < 0.04:
            self.send(chance.choice((b"", chance.randbytes(60))))

    def hear(self):
        while True:
            try:
                data = self.socket.recv(65536)
            except BlockingIOError:
                return
            self.heard.append(data)
            self.react(phone.Message(data))

    def react(self, heard):
        """Acknowledges a refusal or doesn't; answers a request or doesn't."""
        later = time.monotonic() + chance.random()
        if heard.status is None and heard.method != "ACK" and chance.random() < 0.7:
            if heard.method == "INVITE" and chance.random() < 0.4:
                self.waiting.append((later - 0.3, answer(heard, 180)))
            self.waiting.append((later, answer(heard, chance.choice((200, 200, 302, 404, 486, 503)))))
        if heard.status is not None and heard.status >= 300 and heard.method == "INVITE" and chance.random() < 0.6:
            user, number = re.search(r"sip:(\w+)@", heard["To"])[1], heard["Call-ID"].removeprefix("call")
            self.waiting.append((later - 0.7, request("ACK", user, number, to_tag=phone.tag_of(heard))))


def start(folder, config, records, kills):
    server = Server(folder, config, "--records", records)
    assert server.serves() and ("goes on behind" in server.complaints() or kills == 0), server.complaints()
    return server


def soak(folder, config, records, phones):
    """Serves, and kills; the servers that there were."""
    servers, end = [start(folder, config, records, 0)], time.monotonic() + SECONDS
    next_kill, next_change, is_there = 0, 0, False
    while time.monotonic() < end:
        phones.act()
        time.sleep(chance.choice((0, 0.001, 0.01, 0.03)))
        phones.hear()
        if time.monotonic() > next_change:
            is_there, next_change = not is_there, time.monotonic() + chance.uniform(0.1, 0.7)
            subprocess.run(["ip", "address", "add" if is_there else "del", FAR + "/32", "dev", "lo"], check=True)
        if time.monotonic() > next_kill:
            servers[-1].kill()
            servers.append(start(folder, config, records, len(servers)))
            next_kill = time.monotonic() + chance.uniform(0.2, 2.5)
    servers[-1].kill()
    time.sleep(0.1)
    phones.hear()
    return servers


def out_of_order(heard, replayed):
    """How much was heard that isn't replayed behind what was heard before it."""
    place, lacking = 0, 0
    for data in heard:
        try:
            place = replayed.index(data, place) + 1
        except ValueError:
            lacking += 1
    return lacking


def faults_of(folder):
    config, records, phones = two_hops(folder, PORT, FAR, AT), os.path.join(folder, "records"), Phones()
    os.mkdir(records)
    servers = soak(folder, config, records, phones)
    last = max(path for path in contents(records) if path.endswith(".record"))
    status, printed, complaints = ended("replay", "--config", config, "--record", last)
    replayed = packets_to(AT, printed.encode())
    logged = {line.removeprefix("audit ") for line in printed.splitlines() if line.startswith("audit ")}
    lines = {line for server in servers for line in server.printed().splitlines() if not line.startswith("sipd: ")}
    said = [server.complaints() for server in servers]
    print(f"seed {SEED}: {len(servers)} starts, {phones.count} requests, {len(phones.heard)} packets, {len(lines)} decisions")
    return {
        "packets that aren't replayed in their order": out_of_order(phones.heard, replayed),
        "decisions that have no line": len(logged - lines),
        "lines of no decision": len(lines - logged),
        "other complaints": sum(text.count("\n") > 1 for text in said) + len(complaints.splitlines()) + (status != 0),
    }


def main():
    if not goes_apart():
        print("left out: it isn't root in a namespace of its own")
        return 0
    folder = tempfile.mkdtemp()
    faults = faults_of(folder)
    for what, count in faults.items():
        print(f"{'BAD ' if count else 'good'} {count} {what}")
    if any(faults.values()):
        print("what was recorded and printed stays in", folder)
        return 1
    shutil.rmtree(folder)
    return 0


if __name__ == "__main__":
    sys.exit(main())
