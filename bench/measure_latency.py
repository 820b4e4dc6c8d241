#!/usr/bin/env python3
"""How long `sipd serve` takes to answer over a socket of this machine, and how much processor time an answer takes, beside a
bare echo of the same datagrams by a C program: `bench/measure_latency.py [PROGRAM]`, at the top, after `rt run` in
crates/sipd. It takes some seconds, and a machine that does nothing else.

Each request is sent once the answer to the one before is there, by a C program (`round_trips.c`), some hundred to a server, to
several servers in turn. Processor time is what the kernel says that the process had (`/proc/PID/schedstat`), with all that
the kernel did in its calls.
"""

import os
import signal
import socket
import statistics
import subprocess
import sys
import tempfile

HERE = os.path.dirname(os.path.abspath(__file__))
sys.path.insert(0, os.path.join(HERE, "..", "tests"))

from measure_serve import configured
from phone import PROGRAM as BUILT
from phone import started

PROGRAM = sys.argv[1] if len(sys.argv) > 1 else BUILT
EACH, SERVERS = 500, 8  # below 1,024, so that there is room for each request


def request(method, branch, extra=""):
    # with rport, since the port of the asking socket isn't known here
    return (
        f"{method} sip:{'host.com' if method == 'REGISTER' else 'vault@host.com'} SIP/2.0\r\n"
        f"Via: SIP/2.0/UDP 127.0.0.1:5070;branch=z9hG4bK{branch};rport\r\nMax-Forwards: 70\r\n"
        f"From: <sip:help@host.com>;tag=a1\r\nTo: <sip:{'help' if method == 'REGISTER' else 'vault'}@host.com>\r\n"
        f"Call-ID: c1\r\nCSeq: 1 {method}\r\n{extra}Content-Length: 0\r\n\r\n"
    )


CONTACT = "Contact: <sip:help@127.0.0.1:5070>\r\n"
# what is asked, and the status of its answer
ASKED = {
    "a denied OPTIONS": (request("OPTIONS", "########"), b"403"),
    "a REGISTER that is challenged": (request("REGISTER", "########", CONTACT), b"401"),
    "the same REGISTER again and again": (request("REGISTER", "same", CONTACT), b"401"),
}


def processor(pid):
    """The processor time that it took so far, in nanoseconds."""
    with open(f"/proc/{pid}/schedstat") as it:
        return int(it.read().split()[0])


def asked(tool, port, datagram, count):
    return [int(line) for line in subprocess.run([tool, "ask", str(port), str(count)], input=datagram.encode(), stdout=subprocess.PIPE, check=True).stdout.split()]


def status(port, datagram):
    with socket.socket(socket.AF_INET, socket.SOCK_DGRAM) as it:
        it.settimeout(5)
        it.sendto(datagram.replace("########", "").replace("z9hG4bK", "z9hG4bKfirst").encode(), ("127.0.0.1", port))
        return it.recv(65507).split(b" ")[1]


def of_server(tool, folder, datagram, wanted):
    server, port = started(PROGRAM, configured(folder))
    assert status(port, datagram) == wanted, datagram
    before = processor(server.pid)
    times = asked(tool, port, datagram, EACH)
    spent = processor(server.pid) - before
    server.send_signal(signal.SIGTERM)
    server.communicate()
    return times, spent


def of_echo(tool, _folder, datagram, _wanted):
    echo = subprocess.Popen([tool, "echo"], stdout=subprocess.PIPE)
    port = int(echo.stdout.readline())
    before = processor(echo.pid)
    times = asked(tool, port, datagram, EACH)
    spent = processor(echo.pid) - before
    echo.kill()
    echo.communicate()
    return times, spent


def row(name, tool, folder, asked_for):
    cells = []
    for serves in (of_server, of_echo):
        runs = [serves(tool, folder, *asked_for) for _ in range(SERVERS)]
        times = sorted(time for run, _ in runs for time in run)
        spent = statistics.median(spent / EACH for _, spent in runs)
        cells += [times[len(times) // 2], times[len(times) * 99 // 100], spent]
    print(f"| {name} | " + " | ".join(f"{cell / 1000:.1f}" for cell in cells) + " |", flush=True)


def main():
    with tempfile.TemporaryDirectory() as folder:
        tool = os.path.join(folder, "round_trips")
        subprocess.run(["cc", "-O2", "-o", tool, os.path.join(HERE, "round_trips.c")], check=True)
        print("| Microseconds | half answered in | 99 of 100 | processor | echo: half | 99 of 100 | processor |\n|---|---|---|---|---|---|---|")
        for name, asked_for in ASKED.items():
            row(name, tool, folder, asked_for)


if __name__ == "__main__":
    main()
