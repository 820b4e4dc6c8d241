"""What the trials of `tests/serve.py` share: the program, phones, how late this machine is, and what is read of records and lines."""

import ctypes
import errno
import os
import re
import select
import signal
import struct
import subprocess
import sys
import threading
import time

import phone
from phone import Phone, office, tag_of, uri_in

PROGRAM = sys.argv[1] if len(sys.argv) > 1 else phone.PROGRAM


def waited(process):
    """How many seconds a process was ready to run and had no processor, where the kernel tells that."""
    try:
        with open(f"/proc/{process}/schedstat") as it:
            return int(it.read().split()[1]) / 1e9
    except (OSError, IndexError, ValueError):
        return 0


class Lateness:
    """By how many seconds at most this machine was late, for a server and for who looks at it, while it was asked for: as long as they
    had no processor, and as much as it woke a sleeper too late."""

    def __init__(self, server):
        self.processes = (server.pid, os.getpid())

    def __enter__(self):
        self.most, self.over = 0, threading.Event()
        self.before = sum(map(waited, self.processes))
        self.sleeper = threading.Thread(target=self.sleep, daemon=True)
        self.sleeper.start()
        return self

    def sleep(self):
        while not self.over.is_set():
            before = time.monotonic()
            time.sleep(0.01)
            self.most = max(self.most, time.monotonic() - before - 0.01)

    def __exit__(self, *_):
        self.over.set()
        self.sleeper.join()
        self.most += sum(map(waited, self.processes)) - self.before


def ended(*words):
    done = subprocess.run([PROGRAM, *words], stdin=subprocess.DEVNULL, capture_output=True, timeout=20)
    return done.returncode, done.stdout.decode(), done.stderr.decode()


def without_receiving():
    """Lets the kernel refuse each `recvfrom` of this process and of what it becomes."""
    refusing({"x86_64": 45, "aarch64": 207}[os.uname().machine])


def without_putting():
    """The same of `fdatasync`."""
    refusing({"x86_64": 75, "aarch64": 83}[os.uname().machine])


def refusing(number):
    """Lets the kernel refuse each system call of this number, by a filter of system calls (seccomp)."""
    steps = ((0x20, 0, 0, 0), (0x15, 0, 1, number), (0x06, 0, 0, 0x50000 | errno.EIO), (0x06, 0, 0, 0x7FFF0000))
    filtered = ctypes.create_string_buffer(b"".join(struct.pack("HBBI", *step) for step in steps))
    program = ctypes.create_string_buffer(struct.pack("HP", len(steps), ctypes.addressof(filtered)))
    for words in ((38, 1, 0), (22, 2, ctypes.addressof(program))):
        if ctypes.CDLL(None).prctl(*map(ctypes.c_ulong, (*words, 0, 0))) != 0:
            raise OSError("this kernel takes no such filter")


def stopped(server, by=signal.SIGTERM):
    """Ends a server by a signal; gives what it printed beside its first line, and its complaints."""
    server.send_signal(by)
    rest, complaints = server.communicate(timeout=10)
    assert server.returncode == -by, (server.returncode, complaints)
    return rest.decode(), complaints.decode()


def hears(it, seconds):
    """Whether a phone hears something within so many seconds."""
    before = it.socket.gettimeout()
    it.socket.settimeout(seconds)
    try:
        it.hear()
        return True
    except TimeoutError:
        return False
    finally:
        it.socket.settimeout(before)


def phones(port, *ips):
    """Two phones. What comes to one again, as where this machine is slow, it passes over."""
    made = []
    for (name, password), ip in zip(phone.PASSWORDS.items(), ips or ("127.0.0.1", "127.0.0.1")):
        made.append(Phone(name, phone.md5(f"{name}:office:{password}"), ("127.0.0.1", port), ip=ip))
        made[-1].again = False
    return made


def goes_again(server, alice, bob, meanwhile=lambda: None):
    """Whether an INVITE that isn't answered goes again 500 ms (50 more or less, and what the machine was late) behind its first sending.
    It has to on a machine that wasn't late at all; on one that was, and perhaps by more than was seen, it is to be tried again."""
    bob.again = True
    number, branch = alice.invite(bob.address)
    with Lateness(server) as late:
        first, then = bob.hear(), time.monotonic()
        meanwhile()
        second, now = bob.hear(), time.monotonic()
    assert first.start == second.start and first.fields == second.fields
    bob.answer(second, 486, "b1")
    while bob.hear().method != "ACK":
        pass
    refused = alice.hear()
    assert refused.status == 486, refused.start
    alice.acknowledge(refused, bob.address, number, 2, branch)
    bob.again = False
    gap = now - then
    if 0.45 - late.most <= gap <= 0.55 + late.most:
        return True
    assert late.most > 0.005, (gap, late.most)
    return False


def drawn(server, port):
    """What a server drew for the first challenge of a phone: its nonce, and its tag."""
    alice, _ = phones(port)
    alice.request("REGISTER", "sip:127.0.0.1", alice.address, "drawn", 1, [alice.contact()])
    refused = alice.hear()
    killed(server)
    return re.search(r'nonce="([^"]*)"', refused["WWW-Authenticate"])[1], tag_of(refused)


def established(alice, bob):
    """A call that stands: its Call-ID, and what its caller knows of it."""
    number, _ = alice.invite(bob.address)
    invite = bob.hear()
    bob.answer(invite, 200, "b1", [bob.contact()])
    taken = alice.hear()
    assert taken.status == 200, taken.start
    dialog = number, taken["Record-Route"], uri_in(taken["Contact"]), tag_of(taken)
    alice.request("ACK", dialog[2], bob.address, number, 2, [("Route", dialog[1])], dialog[3])
    assert bob.hear().method == "ACK"
    return dialog


def hung_up(alice, bob, dialog):
    number, route, remote, tag = dialog
    alice.request("BYE", remote, bob.address, number, 3, [("Route", route)], tag)
    bye = bob.hear()
    assert bye.method == "BYE", bye.start
    bob.answer(bye, 200)
    over = alice.hear()
    assert over.status == 200 and over.method == "BYE", over.start


def killed(server):
    """Ends a server by a signal that it can't see; gives what it printed beside its first line, and its complaints."""
    server.kill()
    rest, complaints = server.communicate(timeout=10)
    return rest.decode(), complaints.decode()


def replayed(record, config=None):
    """A record replayed with the configurations that it holds; a file that is named beside it has to be the one with which it began."""
    return ended("replay", *([] if config is None else ["--config", config]), "--record", record)


def is_of_event(line):
    return not line.startswith(("= ", "+ ", "configuration ", "sealed ", "follows "))


def without_configurations(folder, record):
    """A copy of a record without the lines of its configurations and digests, as a server of before wrote it."""
    bare = os.path.join(folder, os.path.basename(record) + "_bare")
    with open(record) as source, open(bare, "w") as made:
        made.writelines(line for line in source if is_of_event(line))
    return bare


def audit_of(printed):
    return [line[len("audit "):] for line in printed.splitlines() if line.startswith("audit ")]


def marked(folder, path, word):
    """A copy of a record whose first line begins otherwise."""
    made = os.path.join(folder, "marked" + word.decode().strip())
    with open(path, "rb") as source, open(made, "wb") as copy:
        copy.write(word + source.read()[len(word):])
    return made


def first_word(path):
    with open(path, "rb") as record:
        return record.read(7).decode().strip()


def made_in(folder, kind):
    """The files of this kind that starts made in a folder of records."""
    return sorted(name for name in os.listdir(folder) if re.fullmatch(r"\d+\." + kind, name))


def says(server, wanted, seconds=10):
    """Waits until a server complains of this."""
    said, until = b"", time.monotonic() + seconds
    while wanted.encode() not in said:
        ready, _, _ = select.select([server.stderr], [], [], max(0, until - time.monotonic()))
        assert ready, (wanted, said)
        said += os.read(server.stderr.fileno(), 65536)
    return said.decode()


def until(holds, seconds=20):
    """Whether something holds within so many seconds."""
    end = time.monotonic() + seconds
    while not holds():
        if time.monotonic() > end:
            return False
        time.sleep(0.05)
    return True


def rewritten(config, change):
    """Writes a file anew, in the place of the old one."""
    with open(config) as source:
        text = change(source.read())
    with open(config + ".new", "w") as made:
        made.write(text)
    os.rename(config + ".new", config)
