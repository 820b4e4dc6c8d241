"""Scripts for `sipd replay` of what registrars and proxies do every day, over tables of any size, with the
configurations that they need.

A script is made by a `Script`, which numbers its datagrams as the replay does, so that the branches of the server's own
packets are known before it runs: that of the K-th target of datagram D is `z9hG4bK0000000000000000.D.K`.
"""

import hashlib

REALM = "testrealm@host.com"
CALLER, PHONE = "127.0.0.1:5070", 5082
NONCE_COUNT = "0a4f113b"


def md5(text):
    return hashlib.md5(text.encode()).hexdigest()


def response(key, nonce, count, method, uri):
    """The response of a credential (RFC 2617 3.2.2) whose key is the digest of user, realm and password."""
    return md5(f"{key}:{nonce}:{count:08x}:{NONCE_COUNT}:auth:" + md5(f"{method}:{uri}"))


def key_of(user):
    """The key of a user in the configurations below."""
    return "2" * 32 if user == "help" else md5(f"{user}:{REALM}:secret")


def credential(user, nonce, count, uri="sip:host.com", method="REGISTER"):
    return (
        f'Authorization: Digest username="{user}", realm="{REALM}", nonce="{nonce}", uri="{uri}", '
        f'response="{response(key_of(user), nonce, count, method, uri)}", qop=auth, nc={count:08x}, cnonce="{NONCE_COUNT}"'
    )


def configuration(users=("help",), rules=4):
    """A configuration with these users and so many rules, the last of which decide about all that is sent."""
    text = [f'version = 1\nrealm = "{REALM}"\nhost = "sip.host.com"\nport = 5060\naddress = "127.0.0.1:5060"\ndomains = ["host.com"]\n']
    for user in users:
        text.append(f'[[user]]\nname = "{user}"\na1 = "{key_of(user)}"\n')
    fillers = [("anyone", "send MESSAGE", f"nobody{place:04}@host.com", "deny") for place in range(rules - 4)]
    last = [
        ("proven", "register", "self", "allow"),
        ("proven", "list", "self", "allow"),
        ("anyone", "send *", "vault@host.com", "deny"),
        ("anyone", "send *", "help@host.com", "allow"),
    ]
    for place, (who, op, target, verdict) in enumerate(fillers + last):
        text.append(f'[[rule]]\nid = {place + 1}\nwho = "{who}"\nop = "{op}"\ntarget = "{target}"\nverdict = "{verdict}"\n')
    return "\n".join(text)


class Script:
    """A script that grows by events, and how many datagrams it has."""

    def __init__(self, now=1000):
        self.lines, self.number, self.now = [], 0, now

    def text(self):
        return "".join(self.lines)

    def datagram(self, source, *lines):
        """Adds a datagram without a body at the present moment; the word of its nonce is its number."""
        self.number += 1
        head = f"datagram {self.now} {source} {self.number:032x}\n"
        self.lines.append(head + "".join(f"{line}\n" for line in lines) + "Content-Length: 0\n\n.\n")
        return self.number

    def time(self, after):
        """Lets so many milliseconds pass."""
        self.now += after
        self.lines.append(f"time {self.now}\n")

    # a phone

    def register(self, user, contacts, credit=None, again=None):
        """A REGISTER, with a credential if `credit` gives the nonce and its count; `again` is the number that one before
        it had, to send that once more."""
        at = again or self.number + 1
        more = [credential(user, *credit)] if credit else []
        return self.datagram(
            f"127.0.0.1:{PHONE}",
            "REGISTER sip:host.com SIP/2.0",
            f"Via: SIP/2.0/UDP 127.0.0.1:{PHONE};branch=z9hG4bKr{at}",
            "Max-Forwards: 70",
            f"From: <sip:{user}@host.com>;tag=a1",
            f"To: <sip:{user}@host.com>",
            f"Call-ID: r-{user}",
            f"CSeq: {at} REGISTER",
            *[f"Contact: <{contact}>" for contact in contacts],
            *more,
        )

    def pair(self, user, contacts):
        """A REGISTER that is challenged, and the one that answers the challenge."""
        nonce = f"{self.register(user, contacts):032x}"
        self.register(user, contacts, (nonce, 1))

    # a caller

    def from_caller(self, method, target, call, tag="", number=7, more=()):
        at = self.number + 1
        return self.datagram(
            CALLER,
            f"{method} {target} SIP/2.0",
            f"Via: SIP/2.0/UDP pc.host.com:5070;branch=z9hG4bKc{at};rport",
            "Max-Forwards: 70",
            "From: <sip:x@away.net>;tag=f1",
            f"To: <sip:{'vault' if 'vault' in target else 'help'}@host.com>{tag}",
            f"Call-ID: {call}",
            f"CSeq: {number} {method}",
            *more,
        )

    def invite(self, call):
        return self.from_caller("INVITE", "sip:help@host.com", call, more=["Contact: <sip:x@127.0.0.1:5070>"])

    def answer(self, code, call, request, phone=1, method="INVITE", number=7):
        """The answer of a phone to what the datagram `request` made the server send it."""
        learnt = method == "INVITE" and code < 300
        return self.datagram(
            f"127.0.0.1:{PHONE + phone - 1}",
            f"SIP/2.0 {code} X",
            f"Via: SIP/2.0/UDP sip.host.com:5060;branch=z9hG4bK0000000000000000.{request}.{phone}",
            *([] if method == "CANCEL" else [f"Via: SIP/2.0/UDP pc.host.com:5070;branch=z9hG4bKc{request};rport=5070;received=127.0.0.1"]),
            *(["Record-Route: <sip:sip.host.com:5060;lr>"] if learnt else []),
            "From: <sip:x@away.net>;tag=f1",
            f"To: <sip:help@host.com>;tag=t{phone}",
            f"Call-ID: {call}",
            f"CSeq: {number} {method}",
            *([f"Contact: <sip:help@127.0.0.1:{PHONE + phone - 1}>"] if learnt else []),
        )

    def in_dialog(self, method, call, phone, number):
        return self.from_caller(
            method, f"sip:help@127.0.0.1:{PHONE + phone - 1}", call, f";tag=t{phone}", number, ["Route: <sip:sip.host.com:5060;lr>"]
        )

    def call(self, call, phones=1):
        """INVITE, a 180 of each phone, the 200 of the last, for each other the 200 to its CANCEL and its 487; then ACK,
        BYE and its 200."""
        request = self.invite(call)
        for phone in range(1, phones + 1):
            self.answer(180, call, request, phone)
        self.answer(200, call, request, phones)
        for phone in range(1, phones):
            self.answer(200, call, request, phone, "CANCEL")
            self.answer(487, call, request, phone)
        self.in_dialog("ACK", call, phones, 7)
        bye = self.in_dialog("BYE", call, phones, 8)
        # a request in a dialog has one target
        self.answer_bye(call, bye, phones)

    def answer_bye(self, call, request, phone):
        self.datagram(
            f"127.0.0.1:{PHONE + phone - 1}",
            "SIP/2.0 200 X",
            f"Via: SIP/2.0/UDP sip.host.com:5060;branch=z9hG4bK0000000000000000.{request}.1",
            f"Via: SIP/2.0/UDP pc.host.com:5070;branch=z9hG4bKc{request};rport=5070;received=127.0.0.1",
            "From: <sip:x@away.net>;tag=f1",
            f"To: <sip:help@host.com>;tag=t{phone}",
            f"Call-ID: {call}",
            "CSeq: 8 BYE",
        )

    def denied(self, call):
        """An OPTIONS that a rule denies."""
        self.from_caller("OPTIONS", "sip:vault@host.com", call)


def check_credentials():
    """The responses of the worked scripts of `crates/test_server`."""
    first = f"{1:032x}"
    assert response("2" * 32, first, 1, "REGISTER", "sip:host.com") == "85d4d673c58c2ed45136af95f6d881d3"
    assert response("2" * 32, first, 2, "REGISTER", "sip:host.com") == "38d1a33114e16be1e04485c1f629fdd2"
    assert response("939e7578ed9e3c518a452acee763bce9", first, 1, "REGISTER", "sip:host.com") == "bd9454039b0b6bed147dae94f4738ec0"


check_credentials()
