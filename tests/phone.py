"""A user agent of a few lines over a UDP socket of this machine, for tests and counts of `sipd serve`. It shares nothing with
the server: requests are written and read here, and challenges answered by MD5 (RFC 2617)."""

import hashlib
import itertools
import os
import re
import socket
import subprocess

TOP = os.path.join(os.path.dirname(os.path.abspath(__file__)), "..")
PROGRAM = os.path.join(TOP, "crates", "sipd", "out", "sipd")
OFFICE = os.path.join(TOP, "examples", "office.toml")
PASSWORDS = {"alice": "wonderland", "bob": "builder"}  # of examples/office.toml
SERVERS = []  # that were started


def free_port():
    with socket.socket(socket.AF_INET, socket.SOCK_DGRAM) as it:
        it.bind(("127.0.0.1", 0))
        return it.getsockname()[1]


def office(folder, port):
    """The configuration of examples/office.toml at that port, in a file of the folder."""
    path = os.path.join(folder, f"office_{port}.toml")
    with open(OFFICE) as source, open(path, "w") as made:
        made.write(source.read().replace("5060", str(port)))
    return path


def service_environment():
    """The variables that the unit starts the server with."""
    with open(os.path.join(TOP, "contrib", "sipd.service")) as unit:
        return dict(re.findall(r"^Environment=(\w+)=(.*)$", unit.read(), re.M))


def started(program, config, *words, before=(), host="127.0.0.1", variables={}):
    """`sipd serve`, once it says where it serves, and the port."""
    it = subprocess.Popen([*before, program, "serve", "--config", config, *words], stdin=subprocess.DEVNULL, stdout=subprocess.PIPE, stderr=subprocess.PIPE, env={**os.environ, **variables})
    SERVERS.append(it)
    line = it.stdout.readline().decode()
    found = re.fullmatch(rf"sipd: serving {re.escape(host)}:(\d+)\n", line)
    if not found:
        it.kill()
    assert found, (line, it.stderr.read())
    return it, int(found[1])


class Message:
    def __init__(self, data):
        head, self.body = data.split(b"\r\n\r\n", 1)
        self.start, *fields = head.decode().split("\r\n")
        self.fields = [tuple(field.split(": ", 1)) for field in fields]
        first = self.start.split(" ")
        self.status = int(first[1]) if first[0] == "SIP/2.0" else None
        self.method = first[0] if self.status is None else self["CSeq"].split(" ")[1]
        self.uri = first[1] if self.status is None else None

    def all(self, name):
        return [value for named, value in self.fields if named == name]

    def __getitem__(self, name):
        values = self.all(name)
        return values[0] if values else ""


def md5(text):
    return hashlib.md5(text.encode()).hexdigest()


class Phone:
    """A phone of a user whose key, MD5 of name:realm:password, it knows. It hears a datagram that comes again where `again` says so."""

    marks = itertools.count(1)
    again = True

    def __init__(self, name, key, server, domain="127.0.0.1", timeout=5, ip="127.0.0.1"):
        self.name, self.key, self.server, self.domain = name, key, server, domain
        self.socket = socket.socket(socket.AF_INET, socket.SOCK_DGRAM)
        self.socket.bind((ip, 0))
        self.socket.settimeout(timeout)
        self.at = "%s:%d" % self.socket.getsockname()
        self.address = f"sip:{name}@{domain}"
        self.heard = []

    def mark(self):
        return f"{self.name}{next(Phone.marks)}x{os.getpid()}"

    def send(self, start, fields, to=None):
        lines = [start, *(f"{name}: {value}" for name, value in fields), "Content-Length: 0", "", ""]
        self.socket.sendto("\r\n".join(lines).encode(), to or self.server)

    def hear(self):
        """The next message that isn't a 100."""
        while True:
            data, self.source = self.socket.recvfrom(65536)
            if data in self.heard and not self.again:
                continue
            self.heard.append(data)
            message = Message(data)
            if message.status != 100:
                return message

    def request(self, method, uri, target, call, number, extra=(), to_tag="", branch=None):
        """Sends a request; gives its branch, by which an ACK that isn't a new request goes."""
        branch = branch or "z9hG4bK" + self.mark()
        self.send(f"{method} {uri} SIP/2.0", [
            ("Via", f"SIP/2.0/UDP {self.at};branch={branch};rport"),
            ("Max-Forwards", "70"),
            ("From", f"<{self.address}>;tag={call}f"),
            ("To", f"<{target}>{to_tag}"),
            ("Call-ID", call),
            ("CSeq", f"{number} {method}"),
            *extra,
        ])
        return branch

    def credential(self, challenged, method, uri):
        """The answer to the challenge by MD5 among those of a message."""
        name, answer = ("WWW-Authenticate", "Authorization") if challenged.status == 401 else ("Proxy-Authenticate", "Proxy-Authorization")
        by_md5 = next(value for value in challenged.all(name) if "algorithm=MD5" in value or "algorithm" not in value)
        realm, nonce = (re.search(rf'{word}="([^"]*)"', by_md5)[1] for word in ("realm", "nonce"))
        cnonce = self.mark()
        digest = md5(f"{self.key}:{nonce}:00000001:{cnonce}:auth:{md5(f'{method}:{uri}')}")
        return answer, f'Digest username="{self.name}", realm="{realm}", nonce="{nonce}", uri="{uri}", response="{digest}", algorithm=MD5, cnonce="{cnonce}", qop=auth, nc=00000001'

    def contact(self):
        return "Contact", f"<sip:{self.name}@{self.at}>"

    def register(self):
        """Registers; gives the two statuses."""
        call, uri = self.mark(), f"sip:{self.domain}"
        self.request("REGISTER", uri, self.address, call, 1, [self.contact()])
        first = self.hear()
        if first.status != 401:
            return [first.status]
        self.request("REGISTER", uri, self.address, call, 2, [self.contact(), self.credential(first, "REGISTER", uri)])
        return [first.status, self.hear().status]

    def invite(self, target):
        """Calls, and answers the challenge; gives the Call-ID and the branch."""
        call = self.mark()
        branch = self.request("INVITE", target, target, call, 1, [self.contact()])
        first = self.hear()
        assert first.status == 407, first.start
        self.acknowledge(first, target, call, 1, branch)
        return call, self.request("INVITE", target, target, call, 2, [self.contact(), self.credential(first, "INVITE", target)])

    def acknowledge(self, refusal, target, call, number, branch):
        """The ACK of a 300 to 699."""
        self.request("ACK", target, target, call, number, to_tag=tag_of(refusal), branch=branch)

    def answer(self, request, status, tag="", extra=()):
        copied = [(name, value) for name, value in request.fields if name in ("Via", "Record-Route", "From", "Call-ID", "CSeq")]
        self.send(f"SIP/2.0 {status} X", [*copied, ("To", request["To"] + (f";tag={tag}" if tag else "")), *extra], self.source)


def tag_of(message):
    found = re.search(r";tag=[^;]*", message["To"])
    return found[0] if found else ""


def uri_in(text):
    return re.search(r"<([^>]*)>", text)[1]
