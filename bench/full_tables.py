#!/usr/bin/env python3
"""Fills the two tables that keep rows after a request has ended, and says whether `sipd replay` answers as it must:
`bench/full_tables.py [PROGRAM]`, at the top; `bench/full_tables.py script NAME` prints a script, `print NAME` its answers.

`nonce_rows_full`: 4,097 challenges, so that the first one's nonce is known no more, and the second one's is.
`dialogs_full`: 4,096 calls that are answered, and one more, whose 200 goes up and whose dialog isn't known.

The answers are put together here, from the text of each datagram; nothing of them was printed by the server.
"""

import os
import subprocess
import sys
import tempfile

import shapes

HERE = os.path.dirname(os.path.abspath(__file__))
BATCHES, EACH = 4, 1024  # as many as may be open, four times
APART = 32_000  # by then each of a batch has ended


class Run:
    """A script, and what must be printed of it. Datagrams are counted from 1."""

    def __init__(self):
        self.number, self.script, self.printed = 0, [], []

    def comes(self, at, port, *lines):
        """A datagram comes from this port; its number is also its word."""
        self.number += 1
        data = text(*lines).encode()
        self.script.append(f"hex {at} 127.0.0.1:{port} {self.number:032x} {data.hex()}\n")
        return self.number

    def goes(self, at, port, ticket, *lines):
        """A packet must go out."""
        data = text(*lines)
        self.printed.append(f"packet {at} 127.0.0.1:{port} {ticket} first {len(data)}\n{data}\n")

    def recorded(self, at, line):
        self.printed.append(f"audit {at} {line}\n")


def text(*lines):
    return "".join(line + "\r\n" for line in lines) + "\r\n"


def digest_credential(name, a1, word, count):
    nonce, nc = f"{word:032x}", f"{count:08x}"
    answer = shapes.md5(f"{a1}:{nonce}:{nc}:0a4f113b:auth:" + shapes.md5("REGISTER:sip:host.com"))
    return (
        f'Authorization: Digest username="{name}", realm="{shapes.REALM}", nonce="{nonce}", uri="sip:host.com", '
        f'response="{answer}", qop=auth, nc={nc}, cnonce="0a4f113b"'
    )


def challenge(word, stale):
    return f'WWW-Authenticate: Digest realm="{shapes.REALM}", nonce="{word:032x}", algorithm=MD5, qop="auth"' + (", stale=true" if stale else "")


def register(run, at, user, port, branch, sequence, contact, credential, answer, listed=()):
    """A REGISTER comes; `answer` is 200, or 401, or 401 with stale."""
    same = [
        f"Via: SIP/2.0/UDP 127.0.0.1:{port};branch=z9hG4bK{branch}",
        f"From: <sip:{user}@host.com>;tag=a1",
        f"To: <sip:{user}@host.com>",
        "Call-ID: c1@127.0.0.1",
        f"CSeq: {sequence} REGISTER",
    ]
    number = run.comes(
        at, port, "REGISTER sip:host.com SIP/2.0", same[0], "Max-Forwards: 70", *same[1:], f"Contact: {contact}",
        *([credential] if credential else []), "Content-Length: 0",
    )
    same[2] += f";tag=0000000000000000.{number}"
    if answer == "200":
        run.goes(at, port, f"{number}/0", "SIP/2.0 200 OK", *same, *(f"Contact: {line}" for line in listed), "Content-Length: 0")
        run.recorded(at, f"{number} REGISTER {user} {user}@host.com register 1 answer 200")
    else:
        run.goes(at, port, f"{number}/0", "SIP/2.0 401 Unauthorized", *same, challenge(number, answer != "401"), "Content-Length: 0")
        run.recorded(at, f"{number} REGISTER - {user}@host.com register - challenge 401")


def nonce_rows_full():
    run, contact = Run(), "<sip:Mufasa@127.0.0.1:5062>"
    moments = [APART * batch for batch in range(BATCHES) for _ in range(EACH)] + [APART * BATCHES]
    for place, at in enumerate(moments):
        register(run, at, "Mufasa", 5062, f"reg{place}", 1, contact, None, "401")
    later = APART * BATCHES + 1
    known, gone = (digest_credential("Mufasa", shapes.A1, word, 1) for word in (2, 1))
    register(run, later, "Mufasa", 5062, "known", 2, contact, known, "200", [contact + ";expires=3600"])
    register(run, later, "Mufasa", 5062, "gone", 3, contact, gone, "401 stale")
    return run


OWN_VIA = "Via: SIP/2.0/UDP sip.host.com:5060;branch=z9hG4bK0000000000000000"
OWN_ROUTE = "<sip:sip.host.com:5060;lr>"
PHONE, CALLER = 5082, 5070


def dialog_lines(place, method, sequence, tag):
    return [
        "From: <sip:x@away.net>;tag=f1", f"To: <sip:help@host.com>{tag}", f"Call-ID: k{place}", f"CSeq: {sequence} {method}",
    ]


def call(run, at, place):
    """A call comes, goes to the phone, which answers it at once, and the answer goes up."""
    via = f"Via: SIP/2.0/UDP pc.host.com:{CALLER};branch=z9hG4bKinv{place};rport"
    back = via + f"={CALLER};received=127.0.0.1"
    same, own_contact = dialog_lines(place, "INVITE", 7, ""), f"Contact: <sip:x@127.0.0.1:{CALLER}>"
    number = run.comes(at, CALLER, "INVITE sip:help@host.com SIP/2.0", via, "Max-Forwards: 70", *same, own_contact, "Content-Length: 0")
    run.goes(at, CALLER, f"{number}/0", "SIP/2.0 100 Trying", back, *same, "Content-Length: 0")
    front = [f"INVITE sip:help@127.0.0.1:{PHONE} SIP/2.0", f"{OWN_VIA}.{number}.1", f"Record-Route: {OWN_ROUTE}"]
    run.goes(at, PHONE, f"{number}/1", *front, back, "Max-Forwards: 69", *same, own_contact, "Content-Length: 0")
    run.recorded(at, f"{number} INVITE - help@host.com send 4 sent 1")
    answer = [back, f"Record-Route: {OWN_ROUTE}", *dialog_lines(place, "INVITE", 7, ";tag=t1"), f"Contact: <sip:help@127.0.0.1:{PHONE}>", "Content-Length: 0"]
    run.comes(at, PHONE, "SIP/2.0 200 OK", f"{OWN_VIA}.{number}.1", *answer)
    run.goes(at, CALLER, f"{number}/0", "SIP/2.0 200 OK", *answer)


def bye(run, at, place, is_known):
    """A BYE in a call's dialog comes; it goes on where the dialog is known, else it is answered 481."""
    via, same = f"Via: SIP/2.0/UDP 127.0.0.1:{CALLER};branch=z9hG4bKbye{place};rport", dialog_lines(place, "BYE", 8, ";tag=t1")
    back = via + f"={CALLER};received=127.0.0.1"
    target = f"BYE sip:help@127.0.0.1:{PHONE} SIP/2.0"
    number = run.comes(at, CALLER, target, via, "Max-Forwards: 70", *same, f"Route: {OWN_ROUTE}", "Content-Length: 0")
    if is_known:
        run.goes(at, PHONE, f"{number}/1", target, f"{OWN_VIA}.{number}.1", back, "Max-Forwards: 69", *same, "Content-Length: 0")
    else:
        run.goes(at, CALLER, f"{number}/0", "SIP/2.0 481 Call/Transaction Does Not Exist", back, *same, "Content-Length: 0")


def dialogs_full():
    run, first = Run(), 100_000
    gone, contact = (f"<sip:help@127.0.0.1:{port}>" for port in (5080, PHONE))
    register(run, 1000, "help", PHONE, "h1", 1, gone + ";expires=60", None, "401")
    credentials = [digest_credential("help", "2" * 32, 1, count) for count in (1, 2)]
    register(run, 2000, "help", PHONE, "h2", 2, gone + ";expires=60", credentials[0], "200", [gone + ";expires=60"])
    register(run, 3000, "help", PHONE, "h3", 3, contact, credentials[1], "200", [gone + ";expires=59", contact + ";expires=3600"])
    moments = [first + APART * batch for batch in range(BATCHES) for _ in range(EACH)] + [first + APART * BATCHES]
    for place, at in enumerate(moments):
        call(run, at, place)
    bye(run, moments[-1], len(moments) - 1, False)
    bye(run, moments[-1], 0, True)
    return run


RUNS = {"nonce_rows_full": nonce_rows_full, "dialogs_full": dialogs_full}


def difference(wanted, got):
    """The first line that differs, if one does."""
    wanted, got = (part.split(b"\n") for part in (wanted, got))
    for place in range(max(len(wanted), len(got))):
        lines = [part[place] if place < len(part) else None for part in (wanted, got)]
        if lines[0] != lines[1]:
            return f"line {place + 1} is {lines[1]} in place of {lines[0]}"
    return None


def plays(program, name):
    """Whether the program answers as it must."""
    run = RUNS[name]()
    with tempfile.TemporaryFile() as file:
        file.write("".join(run.script).encode())
        file.seek(0)
        done = subprocess.run([program, "replay"], stdin=file, capture_output=True)
    wrong = f"status {done.returncode}" if done.returncode else difference("".join(run.printed).encode(), done.stdout)
    print(f"{name}: {run.number} datagrams, " + (wrong or "answered as they must be"), flush=True)
    return wrong is None


def main(words):
    if len(words) == 2 and words[0] in ("script", "print"):
        run = RUNS[words[1]]()
        sys.stdout.buffer.write("".join(run.script if words[0] == "script" else run.printed).encode())
        return 0
    program = words[0] if words else os.path.join(HERE, "..", "crates", "sipd", "out", "sipd")
    return 0 if all([plays(program, name) for name in RUNS]) else 1


if __name__ == "__main__":
    sys.exit(main(sys.argv[1:]))
