"""The program under trial, for tests/faults.py and tests/soak.py: calls that end, servers whose output stands in files, and who phones these."""

import contextlib
import itertools
import os
import re
import socket
import subprocess
import sys
import time

import phone
from phone import Phone, md5

PROGRAM = os.path.abspath(sys.argv[1] if len(sys.argv) > 1 else phone.PROGRAM)
APART = "SIPD_APART"
numbers = itertools.count(1)


def read(path):
    with open(path, "rb") as file:
        return file.read()


def write(path, data):
    with open(path, "wb") as file:
        file.write(data)
    return path


def new(folder):
    """The path of a file that isn't there yet."""
    return os.path.join(folder, f"new_{next(numbers)}")


def contents(folder):
    """The files of a folder."""
    paths = (os.path.join(folder, name) for name in sorted(os.listdir(folder)))
    return {path: read(path) for path in paths if os.path.isfile(path)}


def changed(folder, port, *changes):
    """The configuration of examples/office.toml at a port, with some texts in place of others."""
    text = read(phone.OFFICE).decode().replace("5060", str(port))
    for old, text_for_it in changes:
        assert old in text, old
        text = text.replace(old, text_for_it, 1)
    return write(new(folder), text.encode())


TWO_HOPS = """version = 1
realm = "office"
host = "127.0.0.1"
port = {port}
address = "127.0.0.1:{port}"
domains = ["office.local"]
[[user]]
name = "alice"
a1 = "f315b3aa262bab81c2bbaf33f0aab9f1"
[[hop]]
name = "far"
address = "{far}:5090"
[[hop]]
name = "near"
address = "{near}"
[[rule]]
id = 1
who = "anyone"
op = "send *"
target = "far@office.local"
verdict = "via far"
[[rule]]
id = 2
who = "anyone"
op = "send *"
target = "near@office.local"
verdict = "via near"
[[rule]]
id = 3
who = "anyone"
op = "register"
target = "*"
verdict = "allow"
[[rule]]
id = 4
who = "anyone"
op = "send *"
target = "alice@office.local"
verdict = "allow"
"""


def two_hops(folder, port, far, near):
    """A configuration by which anybody may send to two hops, far@office.local and near@office.local, and register and call alice@office.local."""
    return write(new(folder), TWO_HOPS.format(port=port, far=far, near=near).encode())


def ended(*words, stdin=b"", before=(), program=PROGRAM, **how):
    """The status of a call that ends by itself, what it printed, and its complaints."""
    how = {"stdout": subprocess.PIPE, "stderr": subprocess.PIPE, **how}
    done = subprocess.run([*before, program, *words], input=stdin, timeout=60, **how)
    return done.returncode, (done.stdout or b"").decode(), (done.stderr or b"").decode()


def until(holds, seconds):
    """Whether something holds within so many seconds."""
    end = time.monotonic() + seconds
    while not holds():
        if time.monotonic() > end:
            return False
        time.sleep(0.005)
    return True


class Server:
    """`sipd serve`; it serves, or has ended."""

    made = []

    def __init__(self, folder, config, *words):
        self.name = new(folder)
        with open(self.name + ".out", "wb") as out, open(self.name + ".err", "wb") as err:
            words = [PROGRAM, "serve", "--config", config, *words]
            self.process = subprocess.Popen(words, stdin=subprocess.DEVNULL, stdout=out, stderr=err)
        Server.made.append(self)
        assert until(lambda: "sipd: serving" in self.printed() or not self.serves(), 10), "it neither serves nor ends"

    def printed(self):
        return read(self.name + ".out").decode()

    def complaints(self):
        return read(self.name + ".err").decode()

    def complains(self, words):
        """Whether it complains so, at once or within three seconds."""
        return until(lambda: re.search(words, self.complaints()), 3)

    def serves(self):
        return self.process.poll() is None

    def kill(self):
        """Ends it by a signal that it can't see; gives its status, 0 or more where it had ended itself."""
        self.process.kill()
        return self.process.wait()


def packets_to(at, printed):
    """The packets to an address that a replay prints."""
    packets = []
    while printed:
        line, _, printed = printed.partition(b"\n")
        words = line.split(b" ")
        if words[0] == b"packet":
            length = int(words[5])
            if words[2] == at.encode():
                packets.append(printed[:length])
            printed = printed[length + 1 :]
    return packets


@contextlib.contextmanager
def serving(folder, config, *words):
    server = Server(folder, config, *words)
    try:
        yield server
    finally:
        server.kill()


@contextlib.contextmanager
def small_disk(folder, kilobytes):
    """A folder that holds so much."""
    path = new(folder)
    os.mkdir(path)
    subprocess.run(["mount", "-t", "tmpfs", "-o", f"size={kilobytes}k", "tmpfs", path], check=True)
    try:
        yield path
    finally:
        subprocess.run(["umount", "-l", path], check=True)


@contextlib.contextmanager
def running_first():
    """Where that is allowed, who hears a packet here runs before a server that sent it goes on: they have one processor, and a server that
    is started here has no part in being first."""
    processors = os.sched_getaffinity(0)
    with contextlib.suppress(OSError):
        os.sched_setaffinity(0, {max(processors)})
        os.sched_setscheduler(0, os.SCHED_FIFO | os.SCHED_RESET_ON_FORK, os.sched_param(1))
    try:
        yield
    finally:
        os.sched_setscheduler(0, os.SCHED_OTHER, os.sched_param(0))
        os.sched_setaffinity(0, processors)


def goes_apart():
    """Begins the script anew in a network namespace, and with mounts, of its own, where that is allowed; whether it is there."""
    if APART in os.environ:
        subprocess.run(["ip", "link", "set", "lo", "up"], check=True)
        return True
    apart = ["unshare", "-n", "-m"]
    if os.geteuid() == 0 and subprocess.run([*apart, "true"], stderr=subprocess.DEVNULL).returncode == 0:
        os.environ[APART] = "yes"
        os.execvp("unshare", [*apart, sys.executable, *sys.argv])
    return False


@contextlib.contextmanager
def address(ip):
    """An address of this namespace's, which can't be sent to behind."""
    subprocess.run(["ip", "address", "add", ip + "/32", "dev", "lo"], check=True)
    try:
        yield
    finally:
        subprocess.run(["ip", "address", "del", ip + "/32", "dev", "lo"], check=True)


def phones(port, timeout=3):
    return [Phone(name, md5(f"{name}:office:{password}"), ("127.0.0.1", port), timeout=timeout) for name, password in phone.PASSWORDS.items()]


def somebody(port, ip="127.0.0.1", timeout=3):
    """Who has no password, at an address."""
    it = Phone("x", "", ("127.0.0.1", port), timeout=timeout)
    it.socket.close()
    it.socket = socket.socket(socket.AF_INET, socket.SOCK_DGRAM)
    it.socket.bind((ip, 0))
    it.socket.settimeout(timeout)
    it.at = "%s:%d" % it.socket.getsockname()
    return it


def packets(it):
    """What comes until nothing comes any more."""
    heard = []
    with contextlib.suppress(OSError):
        while True:
            heard.append(it.socket.recv(65536))
    return heard


def messages(it):
    return [phone.Message(packet) for packet in packets(it)]


def next_status(it):
    """The status of the next answer, or None where none comes."""
    try:
        return it.hear().status
    except OSError:
        return None


def is_registered(it):
    """Whether a phone registers now."""
    try:
        return it.register() == [401, 200]
    except OSError:
        return False


def recorded(folder, config, port, times=1):
    """A record of a server at which alice registered, and which was killed then."""
    record = new(folder)
    with serving(folder, config, "--record", record):
        alice, _ = phones(port)
        assert all(is_registered(alice) for _ in range(times)), "it doesn't serve"
    return record
