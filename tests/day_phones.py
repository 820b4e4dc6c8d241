"""Real phones for tests/day.py: baresip, linphonec and sipp, each at an address of its own, driven by what a person types."""

import contextlib
import os
import pty
import re
import signal
import subprocess
import sys
import time

from program import until, write

SERVER, PORT, WIRE = "192.0.2.10", 5060, "net0"
SCENARIOS = os.path.join(os.path.dirname(os.path.abspath(__file__)), "day")
# Without a sound card: what is played is what is recorded, and what rings is heard nowhere.
BARESIP = """poll_method epoll
call_local_timeout 120
audio_player aubridge,a
audio_source aubridge,a
audio_alert aubridge,b
module_path /usr/lib/baresip/modules
module stdio.so
module g711.so
module aubridge.so
module_tmp uuid.so
module_tmp account.so
module_app menu.so
"""
LINPHONE = """[sip]
sip_port=5060
sip_tcp_port=0
sip_tls_port=0
[net]
mtu=1300
"""
STARTED = []  # processes


def begun(words, **how):
    it = subprocess.Popen(words, **how)
    STARTED.append(it)
    return it


def end_all():
    """Ends what was begun, without a word to anybody."""
    for it in reversed(STARTED):
        if it.poll() is None:
            it.kill()
        it.wait()
    STARTED.clear()


def done(*words):
    """What a command says that has to end well."""
    it = subprocess.run(words, stdin=subprocess.DEVNULL, capture_output=True, text=True, timeout=60, check=False)
    assert it.returncode == 0, (words, it.stdout[-300:], it.stderr[-300:])
    return it.stdout


def wired():
    """The server's network, in this namespace."""
    done("ip", "link", "add", WIRE, "address", "02:00:00:00:00:10", "type", "bridge")
    done("ip", "address", "add", f"{SERVER}/24", "dev", WIRE)
    done("ip", "link", "set", WIRE, "up")


class Place:
    """A machine on the server's network: a network namespace of its own."""

    def __init__(self, last):
        self.ip = f"192.0.2.{last}"
        self.holder = begun(["unshare", "-n", "sleep", "infinity"])
        own = os.readlink("/proc/self/ns/net")
        assert until(lambda: os.readlink(f"/proc/{self.holder.pid}/ns/net") != own, 10), "no namespace"
        done("ip", "link", "add", f"wire{last}", "type", "veth", "peer", "name", "eth0", "netns", str(self.holder.pid))
        done("ip", "link", "set", f"wire{last}", "master", WIRE, "up")
        for words in ("address add {}/24 dev eth0", "link set lo up", "link set eth0 up", "route add default via " + SERVER):
            done(*self.at("ip", *words.format(self.ip).split(" ")))

    def at(self, *words):
        """The words that begin a command there."""
        return ["nsenter", "-t", str(self.holder.pid), "-n", *words]

    def sends(self, count, data):
        """Sends a datagram so many times to the server's port."""
        text = "import socket, sys; it = socket.socket(socket.AF_INET, socket.SOCK_DGRAM); [it.sendto({!r}, ({!r}, {})) for _ in range({})]"
        done(*self.at(sys.executable, "-c", text.format(data, SERVER, PORT, count)))


class Terminal:
    """A phone at a place, at a terminal of its own."""

    def __init__(self, place, words, **how):
        self.place, self.said, self.seen = place, "", 0
        self.end, side = pty.openpty()
        os.set_blocking(self.end, False)
        self.process = begun(place.at(*words), stdin=side, stdout=side, stderr=side, start_new_session=True, **how)
        os.close(side)

    def types(self, text):
        os.write(self.end, text.encode())

    def hears(self, pattern):
        with contextlib.suppress(OSError):
            while data := os.read(self.end, 65536):
                self.said += data.decode(errors="replace")
        found = re.search(pattern, self.said[self.seen :], re.IGNORECASE)
        self.seen += found.end() if found else 0
        return found is not None

    def says(self, pattern, seconds=20):
        """Waits until it says something behind what it was last waited for."""
        assert until(lambda: self.hears(pattern), seconds), (type(self).__name__, pattern, self.said[self.seen :][-1500:])


class Baresip(Terminal):
    CALLED, TALKS, OVER = "incoming call", "call established", "session closed|terminated"

    def __init__(self, folder, place, user, password):
        home = os.path.join(folder, f"{user}_{place.ip}")
        os.mkdir(home)
        write(os.path.join(home, "config"), f"sip_listen {place.ip}:{PORT}\n{BARESIP}".encode())
        write(os.path.join(home, "accounts"), f"<sip:{user}@{SERVER}>;auth_pass={password};regint=600\n".encode())
        super().__init__(place, ["baresip", "-f", home], env={**os.environ, "HOME": home})

    def calls(self, user):
        self.types("d")
        time.sleep(0.3)
        self.types(f"sip:{user}@{SERVER}\n")

    def answers(self):
        self.types("a")

    def hangs_up(self):
        self.types("b")

    def holds(self):
        """Holds the call, and goes on with it."""
        for key in "xX":
            self.types(key)
            time.sleep(1)

    def leaves(self):
        """Unregisters, and ends."""
        self.types("q")
        self.process.wait(20)


class Linphone(Terminal):
    CALLED, TALKS, OVER = "incoming call", "connected", " ended| error|terminated|declined"

    def __init__(self, folder, place, user, password):
        home = os.path.join(folder, user)
        os.makedirs(os.path.join(home, ".local", "share", "linphone"))
        config = write(os.path.join(home, "linphonerc"), LINPHONE.encode())
        super().__init__(place, ["linphonec", "-c", config], env={**os.environ, "HOME": home, "TERM": "dumb"}, cwd=home)
        self.says("linphonec>", 60)
        self.types(f"register sip:{user}@{SERVER} sip:{SERVER};transport=udp {password}\n")

    def calls(self, user):
        self.types(f"call sip:{user}@{SERVER}\n")

    def answers(self):
        self.types("answer\n")

    def hangs_up(self):
        self.types("terminate\n")


class Sipp:
    """A scenario of tests/day that sipp plays once."""

    def __init__(self, folder, place, name, user, password="", target="nobody", expires=60):
        self.name, self.errors = name, os.path.join(folder, f"sipp_{name}")
        words = ["sipp", f"{SERVER}:{PORT}", "-sf", os.path.join(SCENARIOS, name + ".xml"), "-i", place.ip, "-p", str(PORT), "-m", "1", "-nostdin"]
        words += ["-s", user, "-au", user, "-ap", password, "-auth_uri", SERVER if name == "register" else f"{target}@{SERVER}"]
        words += ["-cid_str", "-%u-%p@%s"]  # a Call-ID that begins as an option does, as linphonec makes some
        words += ["-key", "target", target, "-key", "expires", str(expires), "-timeout", "60", "-trace_err", "-error_file", self.errors]
        self.process = begun(place.at(*words), stdin=subprocess.DEVNULL, stdout=subprocess.DEVNULL, stderr=subprocess.DEVNULL, cwd=folder)

    def ends(self):
        """Waits until it was played, as it stands there."""
        status = self.process.wait(70)
        assert status == 0, (self.name, status, os.path.exists(self.errors) and open(self.errors, encoding="utf-8").read()[-1500:])


class Capture:
    """What the kernel sees of the server's wire, written by tcpdump."""

    def __init__(self, path):
        self.path = path
        words = ["tcpdump", "-i", WIRE, "-p", "-U", "--immediate-mode", "-s", "2000", "-B", "16384", "-Z", "root", "-w", path, "ip and host " + SERVER]
        self.process = begun(words, stdin=subprocess.DEVNULL, stdout=subprocess.DEVNULL, stderr=subprocess.PIPE, text=True)
        assert "listening" in self.process.stderr.readline(), "no capture"

    def ends(self):
        """Ends it; gives how many packets the kernel dropped in front of it."""
        time.sleep(0.3)
        self.process.send_signal(signal.SIGINT)
        return int(re.search(r"(\d+) packets? dropped by kernel", self.process.communicate(timeout=10)[1])[1])
