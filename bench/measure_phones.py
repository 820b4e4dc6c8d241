#!/usr/bin/env python3
"""Counts what a registration, a call and a forked call cost as real phones write them, beside Kamailio's instructions on the same forms:
`bench/measure_phones.py [PROGRAM] [--replay] [--bare]`, at the top, after `rt run` in crates/sipd. It takes some twenty minutes, `--replay` one.

They go through `sipd serve` over sockets of this machine, as Kamailio's did: instructions are callgrind's, of a run of some units, less
those of a run as long without them, for each unit, until what they left open has ended; in both as many were done before, and have
ended, as of a server that has served for a minute. The server has the variables that its
unit (contrib/sipd.service) starts it with, with `--bare` none of them. With `--replay` they are what
a replay with ten of a thing costs more than one with two of it, for each of the eight, in which the script is read, too. Kamailio's
numbers are those of 5.6.3 on messages of the same forms; there are none for a forked call in compact names or with parameters.
"""

import os
import re
import select
import signal
import socket
import sys
import tempfile
import time
from concurrent.futures import ThreadPoolExecutor

HERE = os.path.dirname(os.path.abspath(__file__))
sys.path.insert(0, os.path.join(HERE, "..", "tests"))
IN_REPLAY, IS_BARE = "--replay" in sys.argv, "--bare" in sys.argv
sys.argv = [word for word in sys.argv if word not in ("--replay", "--bare")]

import measure_replays
import phones
from phone import SERVERS, service_environment, started

FEW, MANY = 2, 10
UNITS, OPEN = 16, 34  # how often over sockets, and the seconds until what was opened has ended
QUIET, LATE = 0.1, 10  # seconds without a packet, behind which all is held to have come; and in which the first one has to
COUNTED = ["valgrind", "--tool=callgrind", "--callgrind-out-file=/dev/null"]
# Kamailio's instructions: a pair, a call, a forked call.
KAMAILIO = {
    "plain": (126_879, 284_792, 477_789),
    "baresip": (138_196, 298_759, 496_738),
    "linphone": (139_882, 293_942, 494_423),
    "a desk phone of Yealink's form": (144_436, 296_766, 495_273),
    "a desk phone of Cisco's form": (156_604, 313_592, 517_302),
    "compact names": (141_293, 280_488, None),
    "three Vias, two Record-Routes": (None, 367_681, 613_325),
    "quoted names, URIs with parameters": (None, 308_428, None),
}
# What is done, for how many phones, and what the server must then have sent for each.
DONE = {
    "pair": (lambda s, i: s.pair("help", s.contacts(1)), 1, {"401": 1, "200": 1}),
    "call": (lambda s, i: s.call(f"k{i}"), 1, {"INVITE": 1, "100": 1, "180": 1, "200": 2, "ACK": 1, "BYE": 1}),
    "fork": (lambda s, i: s.call(f"k{i}", 3), 3, {"INVITE": 3, "100": 1, "180": 3, "200": 2, "CANCEL": 2, "ACK": 3, "BYE": 1}),
}


class SentScript(phones.PhoneScript):
    """A script whose datagrams are sent as they are written, between addresses of one host that no other run has."""

    def __init__(self, form, host):
        super().__init__(form)
        self.host, self.branch, self.nonce, self.sent = host, None, None, {}
        self.sockets = {port: self.bound(port) for port in (5070, *(phones.PHONE + place for place in range(3)))}

    def bound(self, port):
        it = socket.socket(socket.AF_INET, socket.SOCK_DGRAM)
        it.bind((self.host, port))
        return it

    def here(self, text):
        """The text with this run's host, and with the word by which this server begins its branches."""
        text = text.replace("127.0.0.1", self.host)
        return text.replace("z9hG4bK" + "0" * 16, self.branch) if self.branch else text

    def message(self, source, start, lines, body=()):
        number = super().message(source, start, lines, body)
        text = "\r\n".join(line[1:] if line.startswith("..") else line for line in self.lines.pop().split("\n")[1:-2])
        self.sockets[int(source.split(":")[1])].sendto(self.here(text + "\r\n").encode(), (self.host, 5060))
        # The answer to a CANCEL goes no further.
        self.hear(QUIET if " 200 " in start and "CANCEL" in text else LATE)
        return number

    def hear(self, patience):
        """All that comes, until nothing does."""
        while ready := select.select(list(self.sockets.values()), [], [], patience)[0]:
            patience = QUIET
            for each in ready:
                self.see(each.recv(65536).decode())

    def see(self, text):
        word = text.split(" ", 2)[1] if text.startswith("SIP/2.0") else text.split(" ", 1)[0]
        self.sent[word] = self.sent.get(word, 0) + 1
        if found := re.search(r'nonce="([^"]*)"', text):
            self.nonce = found[1]
        if found := re.match(r"INVITE [^\n]*\nVia: [^\n]*branch=(z9hG4bK\w+)\.", text):
            self.branch = found[1]

    def pair(self, user, contacts):
        self.register(user, contacts)
        self.register(user, contacts, (self.nonce, 1))


def script_of(form, what, times):
    do, count, _ = DONE[what]
    script = phones.PhoneScript(phones.FORMS[form])
    script.pair("help", script.contacts(count))
    script.time(80_000)
    for place in range(times):
        do(script, place)
        script.time(80_000)
    return script.text()


def replayed(form, what, folder, _place):
    """What one costs in replay."""
    config = phones.replays.configuration()
    few, many = (script_of(form, what, times) for times in (FEW, MANY))
    less, more = (measure_replays.firsts(measure_replays.run(measure_replays.PROGRAM, [], script, config, folder)[0]) for script in (few, many))
    sent = {key: (more[key] - less.get(key, 0)) / (MANY - FEW) for key in more if more[key] != less.get(key, 0)}
    if sent != DONE[what][2]:
        sys.exit(f"{form}, {what}: sent {sent}")
    return (measure_replays.instructions(many, config, folder) - measure_replays.instructions(few, config, folder)) / (MANY - FEW)


def run_of(form, what, folder, host, units):
    """The instructions of a run over sockets in which so many are done, and nothing is sent again: where the machine is late, once more."""
    for _ in range(3):
        cost, sent = tried(form, what, folder, host, units)
        if not units or sent == DONE[what][2]:
            return cost
    raise RuntimeError(f"{form}, {what}: sent {sent}")


def tried(form, what, folder, host, units):
    """The instructions of such a run, and what was sent for each."""
    path = os.path.join(folder, f"{host}.toml")
    with open(path, "w", encoding="utf-8") as made:
        made.write(phones.replays.configuration().replace("127.0.0.1", host))
    server, _ = started(measure_replays.PROGRAM, path, before=COUNTED, host=host, variables={} if IS_BARE else service_environment())
    do, count, wanted = DONE[what]
    script = SentScript(phones.FORMS[form], host)
    lasts = UNITS * (sum(wanted.values()) + 2) * 2 * QUIET + LATE + OPEN
    ends = time.monotonic() + lasts
    script.pair("help", script.contacts(count))
    for place in range(UNITS):
        do(script, f"w{place}")
    time.sleep(max(ends - time.monotonic(), OPEN))
    ends = time.monotonic() + lasts
    script.sent.clear()
    for place in range(units):
        do(script, place)
    sent = {word: number / units for word, number in script.sent.items()}
    for each in script.sockets.values():
        each.close()
    left = ends - time.monotonic()
    if left < OPEN:
        sent = "too late"
    time.sleep(max(left, OPEN))
    server.send_signal(signal.SIGTERM)
    return int(re.search(r"Collected : (\d+)", server.communicate()[1].decode())[1]), sent


def served(form, what, folder, place):
    """What one costs through `serve`."""
    with ThreadPoolExecutor(2) as pool:
        done, still = (pool.submit(run_of, form, what, folder, f"127.0.{place + 1}.{which}", units) for which, units in ((1, UNITS), (2, 0)))
        return (done.result() - still.result()) / UNITS


def cell(cost, beside):
    return f"{cost:,.0f} | {beside:,} | {100 * cost / beside:.0f} %" if beside else f"{cost:,.0f} | - | "


def main():
    jobs = [(form, what) for form in phones.FORMS for what in DONE]
    count = replayed if IN_REPLAY else served
    with tempfile.TemporaryDirectory() as folder, ThreadPoolExecutor(int(os.environ.get("JOBS", "3"))) as pool:
        try:
            costs = dict(zip(jobs, pool.map(lambda place: count(*jobs[place], folder, place), range(len(jobs)))))
        finally:
            for server in SERVERS:
                server.kill()
    print("| The same messages on both, instructions | " + " | ".join(f"{what} | Kamailio | " for what in DONE) + "|\n" + "|---" * 10 + "|")
    for form in phones.FORMS:
        cells = (cell(costs[form, what], KAMAILIO[form][place]) for place, what in enumerate(DONE))
        print(f"| {form} | {' | '.join(cells)} |")


if __name__ == "__main__":
    main()
