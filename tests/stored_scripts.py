#!/usr/bin/env python3
"""Makes the stored runs `damaged_datagrams_*` and `size_limits` of crates/test_server/data, those of a record, and those of its calls, as captures, diagrams, a drawing and a page, too, by rules of its own.

Says whether the stored files are what it makes; with the word `write` writes them; with `script NAME` or `print NAME`
prints the script of a run, or what `sipd replay` must print of it, whole, so that a difference can be looked at.

What is answered is told here from the grammar of messages (RFC 3261 25.1 within this project's limits), the table of checks
and the sample configuration, in a few lines each that share nothing with the server. They know only what damage to the
three datagrams below can bring about: no folded line, no dialog, no credential, no binding.

A record is the two REGISTERs of Mufasa, of which the second answers the challenge of the first: with no configuration, as an older record, in
lines `hex`; or in lines `text`, with the one of `check_sample.toml`, behind them a datagram of bytes that have escapes there, or with that and,
between them, one in which Mufasa has another key, or with a line that stands for three datagrams between them, and, behind that, one that is
none, or with the digests of what stands in front of them, or of something else. Others change a rule: that which stands first
for help, the one that allowed the challenge of a REGISTER, or the one by which a call went to a hop, which goes with it. Lines are those of
docs/SCRIPTS.md, credentials RFC 2617's; which rule decides stands beside each datagram, as docs/SCRIPTS.md lists the rules, and what goes on
to the hop is made by the words of docs/SPECIFICATION.md on a request that is sent on.
"""

import hashlib
import os
import re
import struct
import sys
from xml.etree import ElementTree

DATA = os.path.join(os.path.dirname(os.path.abspath(__file__)), "..", "crates", "test_server", "data")
WORD = f"{1:032x}"
SOURCE = ("127.0.0.1", 5070)
APART = 40_000  # more than any request of these stays open
COPIES = [500, 1500] + list(range(3500, 32_000, 4000))  # when a 300 to 699 to an INVITE goes again, in ms
DROPPED = b"\0\tcaf\xc3\xa9 \\ \x7f\xff\r\n"  # no message
OMITTED, NO_LINE = "omitted 3\n", "no line\n"  # of a record that was made shorter
MARKS = [0, 13, 10, ord(","), ord('"')]


def lines(*texts):
    return "".join(text + "\r\n" for text in texts).encode() + b"\r\n"


REGISTER = lines(
    "REGISTER sip:host.com SIP/2.0",
    "Via: SIP/2.0/UDP 127.0.0.1:5062;branch=z9hG4bKreg1",
    "Max-Forwards: 70",
    "From: <sip:Mufasa@host.com>;tag=a1",
    "To: <sip:Mufasa@host.com>",
    "Call-ID: c1@127.0.0.1",
    "CSeq: 1 REGISTER",
    "Contact: <sip:Mufasa@127.0.0.1:5062>",
    "Content-Length: 0",
)
INVITE = lines(
    "INVITE sip:help@host.com SIP/2.0",
    "Via: SIP/2.0/UDP pc.host.com:5070;branch=z9hG4bKinv1;rport",
    "Max-Forwards: 70",
    "From: <sip:x@away.net>;tag=f1",
    "To: <sip:help@host.com>",
    "Call-ID: k1",
    "CSeq: 7 INVITE",
    "Contact: <sip:x@127.0.0.1:5070>",
    "Content-Length: 0",
)
SENT_INVITE = lines(
    "INVITE sip:help@127.0.0.1:5082 SIP/2.0",
    "Via: SIP/2.0/UDP sip.host.com:5060;branch=z9hG4bK0000000000000000.4.1",
    "Record-Route: <sip:sip.host.com:5060;lr>",
    "Via: SIP/2.0/UDP pc.host.com:5070;branch=z9hG4bKinv1;rport=5070;received=127.0.0.1",
    "Max-Forwards: 69",
    "From: <sip:x@away.net>;tag=f1",
    "To: <sip:help@host.com>",
    "Call-ID: k1",
    "CSeq: 7 INVITE",
    "Contact: <sip:x@127.0.0.1:5070>",
    "Content-Length: 0",
)
DAMAGED = {"damaged_datagrams_register": REGISTER, "damaged_datagrams_invite": INVITE, "damaged_datagrams_sent_invite": SENT_INVITE}

# ---- reading

TOKEN = r"[A-Za-z0-9\-.!%*_+`'~]+"
HOST = r"[A-Za-z0-9\-._]+"
ESCAPED = r"%[0-9A-Fa-f]{2}"
USER = rf"(?:[A-Za-z0-9\-_.!~*'()&=+$,;?/]|{ESCAPED})+"
PASSWORD = rf"(?:[A-Za-z0-9\-_.!~*'()&=+$,]|{ESCAPED})*"
PIECE = rf"(?:[A-Za-z0-9\-_.!~*'()\[\]/:&+$]|{ESCAPED})+"
QUOTED = r'"(?:[^"\\]|\\.)*"'
URI = re.compile(rf"(?i:sips?):(?:(?P<user>{USER})(?::{PASSWORD})?@)?(?P<host>{HOST})(?::(?P<port>\d+))?(?:;{PIECE}(?:={PIECE})?)*")
OTHER_URI = re.compile(r'[A-Za-z][A-Za-z0-9+\-.]*:[!-~]+')
PARAMETERS = re.compile(rf"(?:\s*;\s*{TOKEN}(?:\s*=\s*(?:{TOKEN}|{HOST}|{QUOTED}))?)*")
VIA = re.compile(rf"SIP/2\.0/{TOKEN}[ \t]+(?P<host>{HOST})(?::(?P<port>\d+))?(?P<parameters>.*)")
LISTS = ["Via", "Route", "Record-Route", "Contact", "Require", "Proxy-Require"]


class Unreadable(Exception):
    """It says no message."""


def head_lines(datagram):
    """The lines up to the empty one."""
    while datagram.startswith(b"\r\n"):
        datagram = datagram[2:]
    found = []
    while True:
        end = re.search(rb"[\r\n]", datagram)
        if end is None or datagram[end.start() : end.start() + 2] != b"\r\n":
            raise Unreadable
        line, datagram = datagram[: end.start()], datagram[end.start() + 2 :]
        if not line:
            return found, datagram
        found.append(line.decode("latin-1"))


def items(value):
    """The items of a list, cut at the commas outside quoted text and angle brackets."""
    found, rest = [""], value
    while rest:
        taken = re.match(r"<[^>]*>" if rest[0] == "<" else QUOTED if rest[0] == '"' else r"[^<\"]", rest)
        if taken is None:
            raise Unreadable
        if rest[0] == ",":
            found.append("")
        else:
            found[-1] += taken[0]
        rest = rest[taken.end() :]
    found = [item.strip(" \t") for item in found]
    if not all(found):
        raise Unreadable
    return found


def read(datagram):
    """The start line's three parts, and the fields as names and values."""
    if len(datagram) > 65_507:
        raise Unreadable
    head, body = head_lines(datagram)
    start = re.fullmatch(rf"({TOKEN}) ([!-~]+) ((?i:sip)/\d+\.\d+)", head[0]) if head else None
    if start is None:
        raise Unreadable
    fields, length = [], None
    for line in head[1:]:
        field = re.fullmatch(rf"({TOKEN})[ \t]*:(.*)", line, re.DOTALL)
        if field is None or re.search(r"[\x00-\x08\x0a-\x1f\x7f]", field[2]):
            raise Unreadable
        name, value = field[1], field[2].strip(" \t")
        if name == "Content-Length":
            if length is not None or not re.fullmatch(r"\d+", value):
                raise Unreadable
            length = int(value)
        else:
            fields += [(name, item) for item in (items(value) if name in LISTS else [value])]
    if len(fields) > 256:
        raise Unreadable
    written = head[0] + "\r\n" + "".join(f"{name}: {value}\r\n" for name, value in fields)
    kept = min(len(body), length)
    if len(written) + len(f"Content-Length: {kept}\r\n\r\n") + kept > 49_152:
        raise Unreadable
    assert len(body) >= length, "no body is short here"
    return start.groups(), fields


def values(fields, name):
    return [value for field, value in fields if field == name]


def uri_of(text):
    found = URI.fullmatch(text)
    return found if found and (found["port"] is None or 0 < int(found["port"]) < 65_536) else None


def address_of(text):
    """The URI of a From, To, Contact or Record-Route, and whether it is `sip` or `sips`; None where it is malformed."""
    bracketed = re.fullmatch(rf"(?:{QUOTED}|(?:{TOKEN}[ \t]*)*)\s*<\s*([^>]*?)\s*>(.*)", text)
    if bracketed:
        inside, rest = bracketed.groups()
    else:
        inside, cut, rest = text.partition(";")
        inside, rest = inside.strip(" \t"), cut + rest
        if re.search(r"[?,]", inside):
            return None
    if not PARAMETERS.fullmatch(rest) or re.search(r";\s*tag\s*(;|$)", rest):
        return None
    if re.match(r"(?i)sips?:", inside):
        return uri_of(inside)
    return OTHER_URI.fullmatch(inside) if not re.search(r'["<>]', inside) else None


def via_of(text):
    found = VIA.fullmatch(text)
    if not found or not PARAMETERS.fullmatch(found["parameters"]) or (found["port"] and not 0 < int(found["port"]) < 65_536):
        return None
    parameters = [part.strip(" \t").partition("=") for part in found["parameters"].split(";")[1:]]
    named = {name.strip(" \t").lower(): value.strip(" \t") for name, _, value in reversed(parameters)}
    return None if named.get("branch") == "" else (found["host"], int(found["port"] or 5060), named)


# ---- what a request is answered

REASONS = {
    100: "Trying", 200: "OK", 400: "Bad Request", 401: "Unauthorized", 403: "Forbidden", 404: "Not Found", 407: "Proxy Authentication Required", 416: "Unsupported URI Scheme",
    480: "Temporarily Unavailable", 481: "Call/Transaction Does Not Exist", 482: "Loop Detected", 483: "Too Many Hops", 503: "Service Unavailable",
}
USERS = ["Mufasa", "alice", "help"]
REALM = "testrealm@host.com"


def challenge(word):
    return f'Digest realm="{REALM}", nonce="{word}", algorithm=MD5, qop="auth"'


def is_malformed(method, uri, fields):
    """Whether the first row of the table of checks applies."""
    one = {name: values(fields, name) for name in ["From", "To", "Call-ID", "CSeq"]}
    if any(len(found) != 1 for found in one.values()):
        return True
    sequence = re.fullmatch(rf"(\d+)[ \t]+({TOKEN})", one["CSeq"][0])
    hops = values(fields, "Max-Forwards")
    contacts = [address_of(value) for value in values(fields, "Contact")]
    return (
        address_of(one["From"][0]) is None
        or address_of(one["To"][0]) is None
        or one["Call-ID"][0] == ""
        or sequence is None
        or int(sequence[1]) >= 2**31
        or sequence[2] != method
        or len(hops) > 1
        or any(not re.fullmatch(r"\d+", hop) or int(hop) > 255 for hop in hops)
        or (uri.lower().startswith("sip:") and uri_of(uri) is None)
        or any(via_of(value) is None for value in values(fields, "Via"))
        or any("<" not in value or address_of(value) is None for value in values(fields, "Record-Route"))
        or None in contacts
        or (method == "REGISTER" and any(not re.match(r"(?i)sips?:", found[0]) for found in contacts))
        or (method == "REGISTER" and not re.match(r"(?i)sips?:", address_of(one["To"][0])[0]))
    )


def ruling(method, uri, fields):
    """The user and the host of the target, the operation, the rule, and the answer's status with its field."""
    target = address_of(values(fields, "To")[0]) if method == "REGISTER" else uri_of(uri)
    user = re.sub("%(..)", lambda digits: chr(int(digits[1], 16)), target["user"] or "")
    host = target["host"].lower()
    own = host == "host.com"
    denial = ("0", 403, ("Warning", '399 sip.host.com "policy rule 0"'))
    if method == "REGISTER":
        # a rule on the own address asks who it is; no other rule is on registering
        return user, host, "register", *(("-", 401, ("WWW-Authenticate", challenge(WORD))) if own and user in USERS else denial)
    if own and user == "vault":
        return user, host, "send", "3", 403, ("Warning", '399 sip.host.com "policy rule 3"')
    if own and user == "help":
        # nobody has a binding here
        return user, host, "send", "4", 480, None
    return user, host, "send", *(("-", 407, ("Proxy-Authenticate", challenge(WORD))) if own else denial)


def judged(method, uri, version, fields):
    """The status, the field that goes with it, and what is recorded."""
    if is_malformed(method, uri, fields):
        return 400, None, None
    if version.upper() != "SIP/2.0":
        return 505, None, None
    if not uri.lower().startswith("sip:"):
        return 416, None, None
    if method != "REGISTER" and values(fields, "Max-Forwards") == ["0"]:
        return 483, None, None
    if any(via_of(value)[:2] == ("sip.host.com", 5060) for value in values(fields, "Via")):
        return 482, None, None
    user, host, operation, rule, status, more = ruling(method, uri, fields)
    outcome = "deny" if status == 403 else f"challenge {status}" if status in (401, 407) else f"answer {status}"
    named = re.sub(r"[^A-Za-z0-9\-_.+]", lambda byte: f"%{ord(byte[0]):02X}", user)
    return status, more, f"{method} - {named}@{host} {operation} {rule} {outcome}"


def received(via):
    """The top Via as it is answered, and the port that the answer goes to."""
    host, port, named = via_of(via)
    assert "received" not in named, "no top Via of these has it"
    asked = "rport" in named
    via = re.sub(r";rport(?=;|$)", f";rport={SOURCE[1]}", via)
    if asked or host != SOURCE[0]:
        via += f";received={SOURCE[0]}"
    return via, SOURCE[1] if asked else port


def response(status, more, fields, number):
    vias = values(fields, "Via")
    top, port = received(vias[0])
    text = f"SIP/2.0 {status} {REASONS[status]}\r\nVia: {top}\r\n" + "".join(f"Via: {via}\r\n" for via in vias[1:])
    for name in ["From", "To", "Call-ID", "CSeq"]:
        for value in values(fields, name)[:1]:
            tag = f";tag={0:016x}.{number}" if name == "To" and status != 100 and address_of(value) is not None else ""
            text += f"{name}: {value}{tag}\r\n"
    return (text + (f"{more[0]}: {more[1]}\r\n" if more else "") + "Content-Length: 0\r\n\r\n"), port


def packet(at, port, ticket, mark, text):
    return f"packet {at} {SOURCE[0]}:{port} {ticket} {mark} {len(text)}\n{text}\n"


def printed(events):
    """What is printed of datagrams, each at a moment and all far enough apart, that meet a server without bindings."""
    text = ""
    for number, (at, datagram) in enumerate(events, 1):
        if not datagram:
            continue
        try:
            (method, uri, version), fields = read(datagram)
        except Unreadable:
            continue
        vias = values(fields, "Via")
        top = via_of(vias[0]) if vias else None
        if top is None or not top[2].get("branch", "").startswith("z9hG4bK"):
            continue
        status, more, record = judged(method, uri, version, fields)
        answer, port = response(status, more, fields, number)
        text += packet(at, port, f"{number}/0", "first", answer)
        if record:
            text += f"audit {at} {number} {record}\n"
        # the last one isn't followed by an event, before which its copies would go
        if method == "INVITE" and number < len(events):
            text += "".join(packet(at + wait, port, f"{number}/0", "again", answer) for wait in COPIES)
    return text


# ---- the runs


def damages(datagram):
    """Its proper prefixes, and it with each byte replaced by each mark."""
    for length in range(len(datagram)):
        yield datagram[:length]
    for place in range(len(datagram)):
        for mark in MARKS:
            yield datagram[:place] + bytes([mark]) + datagram[place + 1 :]


def events_of(datagrams):
    return [(APART * number, datagram) for number, datagram in enumerate(datagrams, 1)]


def hex_script(events):
    head = f"{SOURCE[0]}:{SOURCE[1]} {WORD}"
    return "".join(f"hex {at} {head} {datagram.hex()}\n" if datagram else f"datagram {at} {head}\n.\n" for at, datagram in events)


def with_lines(datagram, more):
    """The datagram with more lines in front of Content-Length."""
    return datagram.replace(b"Content-Length", more + b"Content-Length")


def sized():
    """Datagrams on both sides of each limit: 256 fields, a datagram's bytes, and those of a message's written form."""
    seven = len(REGISTER.replace(b"Content-Length: 0\r\n", b"").split(b"\r\n")) - 3
    few, many = (with_lines(REGISTER, b"X: y\r\n" * (count - seven)) for count in (256, 257))
    # empty lines in front aren't part of the message, nor are bytes behind its length
    behind = [b"x\r\n", b"xx\r\n"]
    longest = [b"\r\n" * ((65_507 - len(REGISTER + behind[0])) // 2) + REGISTER + more for more in behind]
    room = 49_152 - len(with_lines(REGISTER, b"X: \r\n"))
    written = [with_lines(REGISTER, b"X: " + b"y" * count + b"\r\n") for count in (room, room + 1)]
    assert [len(datagram) for datagram in [*longest, *written]] == [65_507, 65_508, 49_152, 49_153]
    return [few, many, *longest, *written]


def is_sayable(datagram):
    """Whether lines can say it: it is lines that end with CRLF."""
    return datagram.endswith(b"\r\n") and b"\r" not in datagram.replace(b"\r\n", b"") and b"\n" not in datagram.replace(b"\r\n", b"")


def line_script(events):
    text = ""
    for at, datagram in events:
        if is_sayable(datagram):
            said = datagram.decode().replace("\r\n", "\n")
            text += f"datagram {at} {SOURCE[0]}:{SOURCE[1]} {WORD}\n{said}.\n"
        else:
            text += hex_script([(at, datagram)])
    return text


# ---- records


def md5(text):
    return hashlib.md5(text.encode()).hexdigest()


def word_of(number):
    return f"{number:032x}"


def credential(key, method, uri, count=1, user="Mufasa"):
    """A user's answer by a key to the challenge of the first datagram, by its count: the first such, the second, .."""
    nonce, cnonce, times = word_of(1), "0a4f113b", f"{count:08x}"
    digest = md5(f"{key}:{nonce}:{times}:{cnonce}:auth:{md5(f'{method}:{uri}')}")
    return f'Digest username="{user}", realm="{REALM}", nonce="{nonce}", uri="{uri}", response="{digest}", qop=auth, nc={times}, cnonce="{cnonce}"\r\n'.encode()


def proving(key, number=2):
    """The REGISTER of a number that answers the challenge of the first one by a user's key."""
    later = REGISTER.replace(b"z9hG4bKreg1", f"z9hG4bKreg{number}".encode()).replace(b"CSeq: 1 ", f"CSeq: {number} ".encode())
    return with_lines(later, b"Authorization: " + credential(key, "REGISTER", "sip:host.com", number - 1))


def sha256(text):
    return hashlib.sha256(text.encode()).hexdigest()


def first_line(digest):
    return f"record {0:016x} 1 {digest}\n"


def held(text):
    """The lines by which a record holds a configuration whose last line has its end."""
    return "".join(f"= {line}\n" for line in text.removesuffix("\n").split("\n")) + f"configuration {sha256(text)}\n"


def escaped(datagram):
    """Its bytes as a line `text` has them."""
    letters = {13: "\\r", 10: "\\n", 92: "\\\\"}
    return "".join(letters.get(byte) or (chr(byte) if 32 <= byte <= 126 else f"\\{byte:02x}") for byte in datagram)


def recorded(number, datagram, port=5062, at=None, ip="127.0.0.1"):
    return f"text {at or 1000 * number} {ip}:{port} {word_of(number)} {escaped(datagram)}\n"


def recorded_before(number, datagram):
    """The line of an older record."""
    return f"hex {1000 * number} 127.0.0.1:5062 {word_of(number)} {datagram.hex()}\n"


def answered(number, datagram, status, more, record, at=None):
    """The answer to a datagram, and its line of the log."""
    at = at or 1000 * number
    (method, _, _), fields = read(datagram)
    answer, port = response(status, more, fields, number)
    return packet(at, port, f"{number}/0", "first", answer) + f"audit {at} {number} {method} {record}\n"


def challenged(number, datagram):
    return answered(number, datagram, 401, ("WWW-Authenticate", challenge(word_of(number))), "- Mufasa@host.com register - challenge 401")


def denied(number, datagram, rule, record):
    return answered(number, datagram, 403, ("Warning", f'399 sip.host.com "policy rule {rule}"'), f"{record} {rule} deny")


def registered(number, datagram):
    return answered(number, datagram, 200, ("Contact", "<sip:Mufasa@127.0.0.1:5062>;expires=3600"), "Mufasa Mufasa@host.com register 1 answer 200")


def rules_of(configuration):
    """Its text in front of the rules, and each rule's."""
    head, *rules = configuration.split("[[rule]]\n")
    return head, ["[[rule]]\n" + rule for rule in rules]


def of_turned_rules(sample):
    """Each of three MESSAGEs to help under another configuration: rule 4, which allows it, is the first for help, then rule 3, which is for
    help, too, and denies it, and then rule 4 again, which was put in front of rule 3."""
    head, (one, two, three, four, *others) = rules_of(sample)
    three = three.replace("vault@", "help@")
    record, output = "", ""
    for number, (rule, rules) in enumerate(((4, None), (3, [three, four]), (4, [four, three])), 1):
        message = INVITE.replace(b"INVITE", b"MESSAGE").replace(b"Contact: <sip:x@127.0.0.1:5070>\r\n", b"")
        message = message.replace(b"z9hG4bKinv1", f"z9hG4bKmsg{number}".encode()).replace(b"Call-ID: k1", f"Call-ID: k{number}".encode())
        record += held("".join([head, one, two, *rules, *others]) if rules else sample) + recorded(number, message, SOURCE[1])
        if rule == 3:
            output += denied(number, message, 3, "- help@host.com send")
        else:
            # help has no phone
            output += answered(number, message, 480, None, "- help@host.com send 4 answer 480")
    return record, output


def of_a_rule_turned_behind_its_challenge(sample, key):
    """A REGISTER that rule 1 allows is challenged, and answered once that denies it, and once more when it allows it again."""
    head, (one, *others) = rules_of(sample)
    turned = "".join([head, one.replace("allow", "deny"), *others])
    datagrams = [REGISTER, proving(key, 2), proving(key, 3)]
    record = "".join(held(text) + recorded(number, datagram) for number, (text, datagram) in enumerate(zip((sample, turned, sample), datagrams), 1))
    return record, challenged(1, REGISTER) + denied(2, datagrams[1], 1, "Mufasa Mufasa@host.com register") + registered(3, datagrams[2])


def sent_to_hop(number, datagram):
    """What goes on to a hop of an INVITE: its Request-URI, the way that it came, one hop less, and no credential."""
    (method, uri, version), fields = read(datagram)
    top, *vias = values(fields, "Via")
    text = f"{method} {uri} {version}\r\nVia: SIP/2.0/UDP sip.host.com:5060;branch=z9hG4bK{0:016x}.{number}.1\r\nRecord-Route: <sip:sip.host.com:5060;lr>\r\n"
    text += "".join(f"Via: {via}\r\n" for via in [received(top)[0], *vias])
    for name, value in fields:
        if name not in ("Via", "Proxy-Authorization"):
            text += f"{name}: {int(value) - 1 if name == 'Max-Forwards' else value}\r\n"
    return text + "Content-Length: 0\r\n\r\n"


def of_a_gone_hop(sample, key):
    """A call that rule 5 sent to the hop gw, and that nobody answers, goes there again once neither the rule nor the hop is there any more; the
    next one meets rule 6, by which 911 is nobody. Timer A goes 500 and 1,500 ms behind the first sending."""
    call = INVITE.replace(b"help@", b"911@")
    ack = call.replace(b"INVITE", b"ACK").replace(b"To: <sip:911@host.com>", b"To: <sip:911@host.com>;tag=0000000000000000.1")

    def proven(number, count):
        later = call.replace(b"z9hG4bKinv1", f"z9hG4bKinv{number}".encode()).replace(b"Call-ID: k1", f"Call-ID: k{number}".encode())
        return with_lines(later, b"Proxy-Authorization: " + credential(key, "INVITE", "sip:911@host.com", count))

    head, (one, two, three, four, _, six) = rules_of(sample)
    without = "".join([head.replace('[[hop]]\nname = "gw"\naddress = "127.0.0.1:5090"\n', ""), one, two, three, four, six])
    assert "gw" not in without
    sent, following = proven(3, 1), proven(4, 2)
    # the ACK of the challenge, which ends its copies, is the second datagram
    record = held(sample) + recorded(1, call, SOURCE[1]) + recorded(2, ack, SOURCE[1], 1200) + recorded(3, sent, SOURCE[1])
    record += held(without) + "time 3500\ntime 4500\n" + recorded(4, following, SOURCE[1], 6000)
    trying, port = response(100, None, read(sent)[1], 3)
    goes_on = sent_to_hop(3, sent)
    output = answered(1, call, 407, ("Proxy-Authenticate", challenge(word_of(1))), "- 911@host.com send - challenge 407")
    output += packet(3000, port, "3/0", "first", trying) + packet(3000, 5090, "3/1", "first", goes_on)
    output += "audit 3000 3 INVITE Mufasa 911@host.com send 5 sent 1\n"
    output += "".join(packet(at, 5090, "3/1", "again", goes_on) for at in (3500, 4500))
    return record, output + answered(4, following, 404, None, "Mufasa 911@host.com send 6 answer 404", 6000)


def sealed(text):
    """What was written of a record, and the digest of that behind it."""
    return text + f"sealed {sha256(text)}\n"


# ---- the calls of a day

# What happens, and what a row says of it. help registers. x calls help, who answers after eight seconds, talks for 51 and hangs up; x calls
# vault, which rule 3 denies; x calls help, who is busy after two seconds; x calls alice, for whom rule 6 wants a proof; the clock is an hour
# ahead from then on; x calls help, and nobody has answered when the record ends; Mufasa calls alice, who has no phone.
DAY_HEAD = "number 1970 UTC{} caller   called        rule  result    ring talk    ended\n"
DAY_ROWS = {
    3: "3      01-01 00:00:03 -        help          4     answered  8    0:51    callee\n",
    6: "6      01-01 00:01:10 -        vault         3     denied    0            \n",
    7: "7      01-01 00:01:20 -        help          4     busy      2            \n",
    9: "9      01-01 00:01:30 -        alice         -     unproven  0            \n",
    10: "10     01-01 01:01:35 -        help          4     open                   \n",
    11: "11     01-01 01:01:37 Mufasa   alice         6     480       0            \n",
}
DAY_NAMES = "number,start,caller,from,called,rule,result,ring_ms,talk_ms,ended_by,call_id\r\n"
DAY_LINES = {
    3: "3,1970-01-01T00:00:03+00:00,,127.0.0.1:5070,help@host.com,4,answered,8000,51000,callee,k1\r\n",
    6: "6,1970-01-01T00:01:10+00:00,,127.0.0.1:5070,vault@host.com,3,denied,0,,,k2\r\n",
    7: "7,1970-01-01T00:01:20+00:00,,127.0.0.1:5070,help@host.com,4,busy,2000,,,k3\r\n",
    9: "9,1970-01-01T00:01:30+00:00,,127.0.0.1:5070,alice@host.com,,unproven,0,,,k4\r\n",
    10: "10,1970-01-01T01:01:35+01:00,,127.0.0.1:5070,help@host.com,4,open,,,,k5\r\n",
    11: "11,1970-01-01T01:01:37+01:00,Mufasa,127.0.0.1:5070,alice@host.com,6,480,0,,,k6\r\n",
}
DAY_OBJECTS = {
    7: '{"number":7,"start":"1970-01-01T00:01:20+00:00","caller":null,"from":"127.0.0.1:5070","called":"help@host.com","rule":"4","result":"busy",'
    '"ring_ms":2000,"talk_ms":null,"ended_by":null,"call_id":"k3"}\n',
    10: '{"number":10,"start":"1970-01-01T01:01:35+01:00","caller":null,"from":"127.0.0.1:5070","called":"help@host.com","rule":"4","result":"open",'
    '"ring_ms":null,"talk_ms":null,"ended_by":null,"call_id":"k5"}\n',
}


def calling(number, whom):
    """x's INVITE of a number to a user."""
    call = INVITE.replace(b"help@", whom + b"@").replace(b"z9hG4bKinv1", f"z9hG4bKinv{number}".encode())
    return call.replace(b"Call-ID: k1", f"Call-ID: k{number}".encode())


def answering(number, call, status):
    """What help's phone answers to the INVITE of a call, which the datagram of a number brought."""
    return lines(
        f"SIP/2.0 {status}",
        f"Via: SIP/2.0/UDP sip.host.com:5060;branch=z9hG4bK{0:016x}.{number}.1",
        f"Via: SIP/2.0/UDP pc.host.com:5070;branch=z9hG4bKinv{call};rport=5070;received=127.0.0.1",
        "Record-Route: <sip:sip.host.com:5060;lr>",
        "From: <sip:x@away.net>;tag=f1",
        "To: <sip:help@host.com>;tag=t1",
        f"Call-ID: k{call}",
        "CSeq: 7 INVITE",
        "Contact: <sip:help@127.0.0.1:5082>",
        "Content-Length: 0",
    )


def of_a_day(sample, key):
    """The record of such a day."""
    phone = REGISTER.replace(b"Mufasa", b"help").replace(b"5062", b"5082")
    again = phone.replace(b"z9hG4bKreg1", b"z9hG4bKreg2").replace(b"CSeq: 1 ", b"CSeq: 2 ")
    proven = with_lines(again, b"Authorization: " + credential("2" * 32, "REGISTER", "sip:host.com", 1, "help"))
    bye = lines(
        "BYE sip:x@127.0.0.1:5070 SIP/2.0",
        "Via: SIP/2.0/UDP 127.0.0.1:5082;branch=z9hG4bKbye1",
        "Route: <sip:sip.host.com:5060;lr>",
        "Max-Forwards: 70",
        "From: <sip:help@host.com>;tag=t1",
        "To: <sip:x@away.net>;tag=f1",
        "Call-ID: k1",
        "CSeq: 1 BYE",
        "Content-Length: 0",
    )
    mufasas = with_lines(calling(6, b"alice"), b"Proxy-Authorization: " + credential(key, "INVITE", "sip:alice@host.com", 2))
    ahead = sample.replace("version = 1\n", "version = 2\noffset = 60\n", 1)
    assert ahead != sample
    before = held(sample) + recorded(1, phone, 5082) + recorded(2, proven, 5082)
    first = recorded(3, calling(1, b"help"), 5070) + recorded(4, answering(3, 1, "200 OK"), 5082, 11_000) + recorded(5, bye, 5082, 62_000)
    others = recorded(6, calling(2, b"vault"), 5070, 70_000) + recorded(7, calling(3, b"help"), 5070, 80_000)
    others += recorded(8, answering(7, 3, "486 Busy Here"), 5082, 82_000) + recorded(9, calling(4, b"alice"), 5070, 90_000)
    others += held(ahead) + recorded(10, calling(5, b"help"), 5070, 95_000) + recorded(11, mufasas, 5070, 97_000)
    return before + first, others


def of_calls(head, sample, key):
    """The runs of `calls`, `phones` and `now`, by the names of their files."""
    front, others = of_a_day(sample, key)
    utc, ahead = DAY_HEAD.format("+00:00"), DAY_HEAD.format("+01:00")
    shown = "".join(DAY_ROWS[number] for number in (3, 6, 7))
    late = "".join(DAY_ROWS[number] for number in (10, 11))
    table = utc + shown + ahead + late + "calls: 5, answered: 1, talked: 0:51\n"
    one = utc + DAY_ROWS[3] + "calls: 1, answered: 1, talked: 0:51\n"
    damaged = head + front
    changed = sealed(head + front) + sealed("another" + others)[len("another") :]
    shorter = sealed(head + front + OMITTED)
    for name, words, record, output, why in (
        ("calls_of_a_day", "", head + front + others, table, None),
        # an end in the middle of an event's line is none of a day that is over
        ("calls_of_a_day_so_far", "", damaged + others[:40], one, None),
        ("calls_of_a_damaged_day", "", damaged + "x\n" + others, one, f"sipd: script line {damaged.count(chr(10)) + 1}\n"),
        # all that stands in front of the wrong digest is told, too
        (
            "calls_of_a_changed_day",
            "",
            changed,
            table,
            f"sipd: the record was changed: its line {changed.count(chr(10))} has the digest of other bytes\n",
        ),
        # lines that stand for others, and those of digests, count as one each
        ("calls_of_a_damaged_shorter_day", "", shorter + "x\n", one, f"sipd: script line {shorter.count(chr(10)) + 1}\n"),
        ("calls_for_programs", "--csv --challenged", None, DAY_NAMES + "".join(DAY_LINES.values()), None),
        ("calls_by_choice", "--json --target help --since 1970-01-01T00:01", None, "".join(DAY_OBJECTS.values()), None),
        ("calls_of_a_user", "--user Mufasa --from 127.0.0.1", None, ahead + DAY_ROWS[11] + "calls: 1, answered: 0, talked: 0:00\n", None),
        ("calls_before_the_first", "--until 1970-01-01T00:00:03", None, "calls: 0, answered: 0, talked: 0:00\n", None),
    ):
        file = "calls_of_a_day" if record is None else name
        yield f"{name}.args", "\n".join(["calls", "--record", f"{file}.record", *words.split(), ""])
        if record is not None:
            yield f"{file}.record", record
        yield f"{name}.out", output
        if why is not None:
            yield f"{name}.err", why
            yield f"{name}.status", "3\n"
    # help's binding lives for an hour from second 2 on; the answered call is talked from second 11 on; the last one rings from 01:01:35 on
    phone = "registered   contact                     left    since          from\n"
    call = "number since          caller       called               rule  state   for\n"
    # A request stays open for 32 seconds (64 * T1, RFC 3261 17) behind its final answer. At second 62 the BYE comes, which nobody answers, so that it
    # is answered with 408 at second 94, and the dialog stands; it and those of seconds 70, 80, 90, 95 and 97 are open at the end.
    tables = "open requests: {} of 1024; dialogs: 1 of 4096\n".format
    for name, words, output in (
        (
            "phones_at_a_minute",
            "phones --at 1970-01-01T00:01",
            "1970-01-01 00:01:00 UTC+00:00\n" + phone + "help         sip:help@127.0.0.1:5082     59:02   01-01 00:00:02 127.0.0.1:5082\n",
        ),
        ("phones_when_it_is_over", "phones --at 1970-01-01T02:00:02", "1970-01-01 02:00:02 UTC+01:00\n" + phone),
        (
            "now_at_a_minute",
            "now --at 1970-01-01T00:01",
            "1970-01-01 00:01:00 UTC+00:00\n" + call + "3      01-01 00:00:11 -            help                 4     talks   0:49\n" + tables(0),
        ),
        (
            "now_at_the_end",
            "now",
            "1970-01-01 01:01:37 UTC+01:00\n" + call + "10     01-01 01:01:35 -            help                 4     rings   0:02\n" + tables(6),
        ),
        (
            "now_by_a_later_clock",
            "now --at 1970-01-01T01:01:36",
            "1970-01-01 01:01:36 UTC+01:00\n" + call + "10     01-01 01:01:35 -            help                 4     rings   0:01\n" + tables(5),
        ),
        (
            "phones_as_values",
            "phones --csv --at 1970-01-01T00:01",
            "registered,contact,left,since,from\r\n"
            "help@host.com,sip:help@127.0.0.1:5082,3542,1970-01-01T00:00:02+00:00,127.0.0.1:5082\r\n",
        ),
        (
            "phones_for_programs",
            "phones --json --at 1970-01-01T00:01",
            '{"registered":"help@host.com","contact":"sip:help@127.0.0.1:5082","left":3542,"since":"1970-01-01T00:00:02+00:00",'
            '"from":"127.0.0.1:5082"}\n',
        ),
        (
            "now_as_values",
            "now --csv",
            "number,since,caller,from,called,rule,state,for_ms,call_id\r\n"
            "10,1970-01-01T01:01:35+01:00,,127.0.0.1:5070,help@host.com,4,rings,2000,k5\r\n",
        ),
        (
            "now_for_programs",
            "now --json --at 1970-01-01T00:01",
            '{"number":3,"since":"1970-01-01T00:00:11+00:00","caller":null,"from":"127.0.0.1:5070","called":"help@host.com","rule":"4",'
            '"state":"talks","for_ms":49000,"call_id":"k1"}\n',
        ),
    ):
        command, *options = words.split()
        yield f"{name}.args", "\n".join([command, "--record", "calls_of_a_day.record", *options, ""])
        yield f"{name}.out", output
    # at the moment of the last event in front of the damage no call stands
    yield "now_of_a_damaged_day.args", "now\n--record\ncalls_of_a_damaged_day.record\n--at\n1970-01-01T00:02\n"
    yield "now_of_a_damaged_day.out", "1970-01-01 00:01:02 UTC+00:00\n" + call + tables(1)
    yield "now_of_a_damaged_day.err", f"sipd: script line {damaged.count(chr(10)) + 1}\n"
    yield "now_of_a_damaged_day.status", "3\n"
    # the second of these doesn't say that it follows the first: all of each is told, in one table
    yield "calls_of_two_records.args", "calls\n--record\ncalls_of_two_records.record\ncalls_of_a_day.record\n"
    yield "calls_of_two_records.record", head.replace("record ", "left   ", 1) + front
    yield "calls_of_two_records.out", utc + DAY_ROWS[3] + shown + ahead + late + "calls: 6, answered: 2, talked: 1:42\n"
    # and here it does: a call stands where the first one ends, and has one row; what came in front of that isn't told again
    followed = sealed(head + front[: front.rindex("text 62000 ")])
    following = f"follows calls_of_a_followed_day.record {followed[-65:-1]}\n"
    yield "calls_of_a_followed_day.args", "calls\n--record\ncalls_of_a_followed_day.record\ncalls_of_a_following_day.record\n"
    yield "calls_of_a_followed_day.record", followed.replace("record ", "left   ", 1)
    yield "calls_of_a_following_day.record", head + following + front + others
    yield "calls_of_a_followed_day.out", table
    # alone it follows nothing that is told: all of it is
    yield "calls_of_a_following_day.args", "calls\n--record\ncalls_of_a_following_day.record\n"
    yield "calls_of_a_following_day.out", table
    yield from of_a_page(followed[-65:-1], sha256(sample))
    yield "calls_since_no_time.args", "calls\n--record\ncalls_of_a_day.record\n--since\nyesterday\n"
    yield "calls_since_no_time.err", "sipd: no time: yesterday: it is a date, as 2026-10-14, or with a time of day, as 2026-10-14T06:30\n"
    yield "calls_since_no_time.status", "1\n"


# ---- the addresses of a day

# What happens. 192.0.2.7 is asked for a credential as Mufasa, proves it, comes back with it later, when its nonce was used so often, and proves it
# again. 192.0.2.9 has an old password of alice's. 198.51.100.5 asks as 100, as 101 and, with a password, as 102, who are no users, so that no rule
# would let even who is proven do that, and no credential is asked for; and for vault, which rule 3 denies.
# From 203.0.113.1 something comes that is no message. The clock is an hour ahead from second 10 on.
SOURCES_HEAD = "address         heard    asked  proven wrong names first          last\n"
SOURCES_NAMES = "address,heard,asked,proven,wrong,names,first,last\r\n"


def registering(number, user, answer=b""):
    """A user's REGISTER of a number, with credentials or without."""
    datagram = REGISTER.replace(b"Mufasa", user.encode()).replace(b"z9hG4bKreg1", f"z9hG4bKreg{number}".encode())
    return with_lines(datagram.replace(b"CSeq: 1 ", f"CSeq: {number} ".encode()), b"Authorization: " + answer if answer else b"")


def of_sources(head, sample, key):
    """The runs of `sources`, by the names of their files."""
    ahead = sample.replace("version = 1\n", "version = 2\noffset = 60\n", 1)
    right, again = (credential(key, "REGISTER", "sip:host.com", count) for count in (1, 2))
    old, guess = (credential("3" * 32, "REGISTER", "sip:host.com", 1, user) for user in ("alice", "102"))
    record = head + held(sample)
    for number, ip, datagram in (
        (1, "192.0.2.7", registering(1, "Mufasa")),
        (2, "192.0.2.7", registering(2, "Mufasa", right)),
        (3, "192.0.2.9", registering(3, "alice")),
        (4, "192.0.2.9", registering(4, "alice", old)),
        (5, "192.0.2.9", registering(5, "alice", old)),
        (6, "198.51.100.5", registering(6, "100")),
        (7, "198.51.100.5", registering(7, "101")),
        (8, "198.51.100.5", calling(8, b"vault")),
        (9, "198.51.100.5", registering(9, "102", guess)),
        (10, "192.0.2.7", registering(10, "Mufasa", right)),
        (11, "192.0.2.7", registering(11, "Mufasa", again)),
        (12, "203.0.113.1", DROPPED),
    ):
        record += held(ahead) if number == 10 else ""
        record += recorded(number, datagram, ip=ip)
    yield "sources_of_a_day.record", record
    damaged = (head + of_a_day(sample, key)[0]).count("\n") + 1
    for name, words, output, why, status in (
        (
            "sources_of_a_day",
            "sources_of_a_day",
            "1970-01-01 01:00:12 UTC+01:00\n" + SOURCES_HEAD
            + "192.0.2.9       3        3      0      2     1     01-01 00:00:03 01-01 00:00:05\n"
            + "192.0.2.7       4        2      2      0     1     01-01 00:00:01 01-01 01:00:11\n"
            + "198.51.100.5    4        0      0      0     3     01-01 00:00:06 01-01 00:00:09\n"
            + "203.0.113.1     1        0      0      0     0     01-01 01:00:12 01-01 01:00:12\n",
            None,
            0,
        ),
        (
            "sources_of_some_seconds",
            "sources_of_a_day --since 1970-01-01T00:00:05 --until 1970-01-01T00:00:09",
            "1970-01-01 01:00:12 UTC+01:00\n" + SOURCES_HEAD
            + "192.0.2.9       1        1      0      1     1     01-01 00:00:05 01-01 00:00:05\n"
            + "198.51.100.5    3        0      0      0     2     01-01 00:00:06 01-01 00:00:08\n",
            None,
            0,
        ),
        (
            "sources_for_programs",
            "sources_of_a_day --json --from 192.0.2.7",
            '{"address":"192.0.2.7","heard":4,"asked":2,"proven":2,"wrong":0,"names":1,"first":"1970-01-01T00:00:01+00:00",'
            '"last":"1970-01-01T01:00:11+01:00"}\n',
            None,
            0,
        ),
        # the names of the columns stand once
        (
            "sources_of_two_records",
            "calls_of_a_day sources_of_a_day --csv --since 1970-01-01T00:00:12",
            SOURCES_NAMES
            + "127.0.0.1,7,1,1,0,1,1970-01-01T00:01:02+00:00,1970-01-01T01:01:37+01:00\r\n"
            + "192.0.2.7,2,1,1,0,1,1970-01-01T01:00:10+01:00,1970-01-01T01:00:11+01:00\r\n"
            + "203.0.113.1,1,0,0,0,0,1970-01-01T01:00:12+01:00,1970-01-01T01:00:12+01:00\r\n",
            None,
            0,
        ),
        (
            "sources_of_a_damaged_day",
            "calls_of_a_damaged_day",
            "1970-01-01 00:01:02 UTC+00:00\n" + SOURCES_HEAD + "127.0.0.1       5        1      1      0     1     01-01 00:00:01 01-01 00:01:02\n",
            f"sipd: script line {damaged}\n",
            3,
        ),
        ("sources_of_no_address", "sources_of_a_day --from phone", None, "sipd: no address: phone: it is four numbers with dots, as 192.0.2.7\n", 1),
    ):
        files = [f"{word}.record" for word in words.split(" --")[0].split()]
        yield f"{name}.args", "\n".join(["sources", "--record", *files, *words.split()[len(files) :], ""])
        if output is not None:
            yield f"{name}.out", output
        if why is not None:
            yield f"{name}.err", why
            yield f"{name}.status", f"{status}\n"


# ---- the page of two days

# The first ends while the call of the second 3 stands; the second goes on from it, and has of it what came by then. Each line of the log is one of both.
PAGE_BEGIN = """\
<!DOCTYPE html>
<html lang="en">
<head>
<meta charset="utf-8">
<meta http-equiv="Content-Security-Policy" content="default-src 'none'; style-src 'unsafe-inline'">
<title>Recorded days</title>
<style>
body { font: 14px/1.45 sans-serif; margin: 2em auto; max-width: 82em; padding: 0 1em; color: #1f2328; }
h2 { border-bottom: 1px solid #888; margin-top: 2em; word-break: break-all; }
table { border-collapse: collapse; font-size: 13px; }
th, td { border: 1px solid #d0d7de; padding: 0.2em 0.6em; text-align: left; }
td.n { text-align: right; }
pre, code { font-size: 12px; }
pre { white-space: pre-wrap; word-break: break-all; }
.allow, .via { background: #d8f0d8; }
.deny { background: #f4d0d0; }
.challenge { background: #f8f0c8; }
.nobody { background: #e0e0e0; }
p.allow, p.deny { padding: 0.6em 1em; font-weight: bold; }
svg { max-width: 100%; height: auto; }
svg text { font-size: 11px; fill: #57606a; }
svg text.end { text-anchor: end; }
svg path { fill: none; stroke: #d0d7de; }
svg path.live { stroke: #0969da; stroke-width: 1.5; }
</style>
</head>
<body>
<h1>Recorded days</h1>
"""
PAGE_LOG = """\
1000 1 REGISTER - help@host.com register - challenge 401
2000 2 REGISTER help help@host.com register 1 answer 200
3000 3 INVITE - help@host.com send 4 sent 1
70000 6 INVITE - vault@host.com send 3 deny
80000 7 INVITE - help@host.com send 4 sent 1
90000 9 INVITE - alice@host.com send - challenge 407
95000 10 INVITE - help@host.com send 4 sent 1
97000 11 INVITE Mufasa alice@host.com send 6 answer 480
"""
PAGE_SOURCES = {
    "calls_of_a_followed_day": "127.0.0.1,4,1,1,0,1,1970-01-01T00:00:01+00:00,1970-01-01T00:00:11+00:00",
    "calls_of_a_following_day": "127.0.0.1,11,2,2,0,2,1970-01-01T00:00:01+00:00,1970-01-01T01:01:37+01:00",
}
# who may call whom by check_sample.toml, under headings of a section
PAGE_POLICY = """\
<h3>INVITE, offset 0
</h3>
<pre>A rule&#39;s number, 0 for none, and what comes of it: + goes to the registrar or to
the bindings, &gt; goes by a hop, - is denied, ? is asked for a proof, ! is allowed
and reaches nobody; behind / for the asker&#39;s own address. U*@H are all that begin
so, but those that have a line of their own or a longer beginning.
</pre>
<h4>0:00-24:00</h4>
<table>
<tr><th>nobody</th><th>Mufasa</th><th>alice</th><th>asks for</th></tr>
<tr><td class="challenge">6?</td><td class="allow">6+</td><td class="allow">6+</td><td> Mufasa@host.com alice@host.com</td></tr>
<tr><td class="allow">4+</td><td class="allow">4+</td><td class="allow">4+</td><td> help@host.com</td></tr>
<tr><td class="challenge">6?</td><td class="nobody">6!</td><td class="nobody">6!</td><td> *@host.com</td></tr>
<tr><td class="deny">3-</td><td class="deny">3-</td><td class="deny">3-</td><td> vault@host.com</td></tr>
<tr><td class="challenge">5?</td><td class="via">5&gt;gw</td><td class="nobody">6!</td><td> 9*@host.com</td></tr>
<tr><td class="deny">0-</td><td class="deny">0-</td><td class="deny">0-</td><td> any other host</td></tr>
</table>
<pre>
as Mufasa ask: Mufasa, of staff
as alice ask: alice help
</pre>
"""


def page_table(name, names, lines, numbers):
    """A table of lines of CSV, in which some columns are of numbers."""
    rows = [[f'<td class="n">{cell}</td>' if at in numbers and cell else f"<td>{cell}</td>" for at, cell in enumerate(line.rstrip().split(","))] for line in lines]
    head = "".join(f"<th>{column}</th>" for column in names)
    return f"<h3>{name}</h3>\n<table>\n<tr>{head}</tr>\n" + "".join(f"<tr>{''.join(row)}</tr>\n" for row in rows) + "</table>\n"


def page_section(name, seal, digest, denials, offset):
    """What the page says of one of them, which is too short for a picture."""
    facts = {"SHA-256 up to its last seal": seal, "SHA-256 of the configuration with which it begins": digest}
    return (
        f"<h2>{name}.record</h2>\n<table>\n"
        + "".join(f"<tr><th>{what}</th><td><code>{value}</code></td></tr>\n" for what, value in facts.items())
        + "</table>\n<h3>Addresses of record with a live binding</h3>\n"
        + "<p>The record is too short for a picture: it is looked at every five minutes.</p>\n"
        + page_table("Denied, by rule (0: none matched)", ["rule", "denied"], denials, [1])
        + page_table("Addresses from which datagrams came", SOURCES_NAMES.rstrip().split(","), [PAGE_SOURCES[name]], range(1, 6))
        + PAGE_POLICY.replace("offset 0\n", f"offset {offset}\n", 1)
    )


def of_a_page(seal, digest):
    """The run of `page`, by the digests of the first day's end and of the configuration with which both begin."""
    names = [*DAY_NAMES.split(",")[:7], "ring, ms", "talk, ms", "ended by", "Call-ID"]
    calls = [line for number, line in DAY_LINES.items() if number != 9]
    yield "page_of_a_followed_day.args", "page\n--record\ncalls_of_a_followed_day.record\ncalls_of_a_following_day.record\n--log\npage_of_a_followed_day.log\n"
    yield "page_of_a_followed_day.log", PAGE_LOG
    yield "page_of_a_followed_day.out", (
        PAGE_BEGIN
        + f'<p class="allow">The log comes out of the records again, byte for byte. Lines: {PAGE_LOG.count(chr(10))}</p>\n'
        + page_table("Calls", names, calls, [0, 7, 8])
        + page_section("calls_of_a_followed_day", seal, digest, [], 0)
        + page_section("calls_of_a_following_day", "none: its end is not sealed", digest, ["3,1"], 60)
        + "</body>\n</html>\n"
    )


# ---- what came and went


def captured(at, source, to, datagram):
    """A datagram in a capture: a packet's head, IP (RFC 791) with its checksum (RFC 1071), UDP (RFC 768) without one."""
    total = 28 + len(datagram)
    ip = struct.pack(">BBHHHBBH4s4s", 0x45, 0, total, 0, 0x4000, 64, 17, 0, bytes([127, 0, 0, 1]), bytes([127, 0, 0, 1]))
    number = sum(struct.unpack(">10H", ip))
    while number >> 16:
        number = (number & 0xFFFF) + (number >> 16)
    ip = ip[:10] + struct.pack(">H", number ^ 0xFFFF) + ip[12:]
    return struct.pack("<IIII", at // 1000, at % 1000 * 1000, total, total) + ip + struct.pack(">HHHH", source, to, 8 + len(datagram), 0) + datagram


def without_secrets(datagram):
    """The same with an x for each byte of a credential's values; none of these has a body."""

    def hide(value):
        return b"=" + value[1] + b"x" * len(value[2])

    def field(line):
        return line[1] + re.sub(rb'=("?)([^",\r]*)', hide, line[2])

    return re.sub(rb"(?m)^(Authorization:)(.*)$", field, datagram)


def of_traces(key):
    """The runs of `trace`, by the names of their files: the two REGISTERs of Mufasa with their answers, and what is no message; the two alone, as
    those of the number of the second, without secrets; a file that is there."""
    second = proving(key)
    answers = (401, ("WWW-Authenticate", challenge(word_of(1)))), (200, ("Contact", "<sip:Mufasa@127.0.0.1:5062>;expires=3600"))
    packets = []
    for number, (datagram, (status, more)) in enumerate(zip((REGISTER, second), answers), 1):
        answer, port = response(status, more, read(datagram)[1], number)
        packets += [(1000 * number, 5062, 5060, datagram), (1000 * number, 5060, port, answer.encode())]
    head = struct.pack("<IHHIIII", 0xA1B2C3D4, 2, 4, 0, 0, 262_144, 101)
    record = ["--record", "replay_of_a_whole_record.record", "--pcap"]
    for name, words, output in (
        ("trace_of_a_record", ["trace", *record, "-"], [*packets, (3000, 5062, 5060, DROPPED)]),
        ("trace_of_a_number", ["trace", "2", *record, "-", "--hide"], [(*place, without_secrets(datagram)) for *place, datagram in packets]),
    ):
        yield f"{name}.args", "\n".join([*words, ""]).encode()
        yield f"{name}.out", head + b"".join(captured(*one) for one in output)
    yield "trace_over_a_file.args", "\n".join(["trace", *record, "check_sample.toml", ""]).encode()
    yield "trace_over_a_file.err", b"sipd: check_sample.toml is there, and isn't written over\nsipd: device\n"
    yield "trace_over_a_file.status", b"4\n"


def drawn(row, others=1):
    """A row of a diagram of so many lines more than two: what was decided or happened, or an arrow in one of its gaps, with a word in the middle."""
    if isinstance(row, str):
        return " " * 12 + "│" + " " * 29 + f"│ {row:28}│\n"
    after, gap, rightward, word = row
    left = (25 - len(word)) // 2
    arrow = "─" * left + f" {word} " + "─" * (25 - len(word) - left)
    arrow = "─" + arrow + "▶" if rightward else "◀" + arrow + "─"
    gaps = [" " * 29] * (1 + others)
    gaps[gap] = arrow
    time = f"{after // 1000}.{after % 1000:03}"
    return f"{time:>8}    │" + "│".join(gaps) + "│\n"


def drawing(title, addresses, names, rows):
    """The drawing of the rows of a diagram. Places are 230 apart, the first 230 left of the server, which is at 360; rows are 26 apart."""
    look = read_look()
    columns = [130, *(360 + 230 * place for place in range(1, len(addresses)))]
    width, height = 240 + 230 * len(addresses), 100 + 26 * len(rows)
    parts = [f'<svg xmlns="http://www.w3.org/2000/svg" width="{width}" height="{height}']
    parts += [look, f'<text x="8" y="20" class="title">{title}</text>\n']
    for at, name, address in zip([360, *columns], ["sipd", *names], ["", *addresses]):
        parts.append(f'<text x="{at}" y="50" class="name">{name}</text><text x="{at}" y="66" class="place">{address}</text>')
        parts.append(f'<path class="line" d="M{at} 74V{height}"/>\n')
    for row, it in enumerate(rows):
        place = f'transform="translate(0 {100 + 26 * row})"'
        if isinstance(it, str):
            kind = "note done" if it.startswith("rule") else "note"
            parts.append(f'<g class="{kind}" {place}><rect x="210" y="-14" width="300" height="20" rx="4"/><text x="360" y="0">{it}</text></g>\n')
            continue
        after, gap, rightward, word = it
        left, right = (130, 360) if gap == 0 else (360, 590)
        kind = {"1": "trying", "4": "refused"}.get(word[0], "request")
        path = f"M{left} 0H{right - 2}m-8 -4l8 4l-8 4z" if rightward else f"M{right} 0H{left + 2}m8 -4l-8 4l8 4z"
        parts.append(f'<g class="{kind}" {place}><text x="8" y="4" class="time">{after // 1000}.{after % 1000:03} s</text>')
        parts.append(f'<path d="{path}"/><text x="{245 + 230 * gap}" y="-5">{word}</text></g>\n')
    text = "".join([*parts, "</svg>\n"])
    assert len(ElementTree.fromstring(text).findall("{http://www.w3.org/2000/svg}g")) == len(rows)
    return text


def read_look():
    """How a drawing looks is nothing to be known by another rule: it is what the definition has."""
    path = os.path.join(DATA, "..", "..", "sipd_ladder_picture", "specs", "Picture.antt")
    with open(path, encoding="utf-8") as file:
        text = file.read()
    literals = re.findall(r'codes "((?:[^"\\]|\\.)*)"', text[text.index("look =\n") : text.index("-- how wide")])
    return "".join(literals).replace("\\n", "\n").replace('\\"', '"')


def of_a_short_request(head, sample):
    """A MESSAGE of whose five bytes three came has a row in front of its 400, which has the reason that RFC 3261 21.4.1 has."""
    short = INVITE.replace(b"INVITE", b"MESSAGE").replace(b"Content-Length: 0", b"Content-Length: 5") + b"abc"
    yield "ladder_of_a_short_request.record", head + held(sample) + recorded(1, short, port=5070)
    rows = [(0, 0, True, "MESSAGE"), (0, 0, False, "400 Bad Request (MESSAG")]
    diagram = "call k1, 1970-01-01 00:00:01.000 (UTC+00:00)\n\n" + " " * 40 + "sipd\n" + " " * 5 + "127.0.0.1:5070\n"
    yield "ladder_of_a_short_request.args", "ladder\nk1\n--record\nladder_of_a_short_request.record\n"
    yield "ladder_of_a_short_request.out", diagram + "".join(drawn(row, 0) for row in rows)


def of_ladders():
    """The runs of `ladder`: x calls help, who is busy. INVITE goes again 500 and 1,500 ms behind its first sending, the 486, which isn't taken, 500,
    1,500, 3,500, 7,500 and 11,500 ms behind its."""
    rows = [(0, 0, True, "INVITE"), "rule 4: sent 1", (0, 0, False, "100 Trying"), (0, 1, True, "INVITE")]
    for after in (500, 1500):
        rows += ["timer", (after, 1, True, "INVITE again")]
    rows += [(2000, 1, False, "486 Busy Here"), (2000, 1, True, "ACK"), (2000, 0, False, "486 Busy Here")]
    for after in (2500, 3500, 5500, 9500, 13_500):
        rows += ["timer", (after, 0, False, "486 Busy Here again")]
    head = "call k3, 1970-01-01 00:01:20.000 (UTC+00:00)\n\n"
    title = head.strip()
    head += " " * 40 + "sipd" + " " * 26 + "help\n" + " " * 5 + "127.0.0.1:5070" + " " * 46 + "127.0.0.1:5082\n"
    diagram = head + "".join(map(drawn, rows))
    yield "ladder_as_a_drawing.args", "ladder\n7\n--svg\n--record\ncalls_of_a_day.record\n"
    yield "ladder_as_a_drawing.out", drawing(title, ["127.0.0.1:5070", "127.0.0.1:5082"], ["", "help"], rows)
    for name, whom in (("ladder_of_a_number", "7"), ("ladder_of_a_call", "k3")):
        yield f"{name}.args", f"ladder\n{whom}\n--record\ncalls_of_a_day.record\n"
        yield f"{name}.out", diagram
    # the number of a response is none of the log's
    yield "ladder_of_nothing.args", "ladder\n8\n--record\ncalls_of_a_day.record\n"
    yield "ladder_of_nothing.err", "sipd: nothing of the call 8\n"
    yield "ladder_of_nothing.status", "1\n"


def of_records():
    """The runs of records, by the names of their files."""
    with open(os.path.join(DATA, "check_sample.toml"), encoding="ascii") as file:
        sample = file.read()
    key = md5(f"Mufasa:{REALM}:Circle Of Life")
    other = sample.replace(key, "3" * 32)
    assert other != sample
    datagrams = [REGISTER, proving(key)]
    first, second = (recorded(number, datagram) for number, datagram in enumerate(datagrams, 1))
    older = "".join(recorded_before(number, datagram) for number, datagram in enumerate(datagrams, 1))
    dropped = recorded(3, DROPPED)
    head, refused, taken = first_line(sha256(sample)), challenged(1, REGISTER), registered(2, datagrams[1])
    named = "replay --config check_sample.toml --record"
    closed = sealed(sealed(head + held(sample)) + first + second)
    otherwise = sealed(head + held(sample)) + sealed("another" + first)[len("another") :]
    for name, call, record, output in (
        ("replay_of_a_record", named, head + older, refused + taken),
        ("replay_of_another_configuration", named, first_line("0" * 64) + older, None),
        ("replay_of_a_whole_record", "replay --record", head + held(sample) + first + second + dropped, refused + taken),
        ("replay_of_a_shorter_record", "replay --record", head + held(sample) + first + OMITTED + recorded(5, datagrams[1]), refused + registered(5, datagrams[1])),
        ("replay_of_a_damaged_shorter_record", "replay --record", head + held(sample) + first + OMITTED + NO_LINE + second, refused),
        ("replay_of_a_sealed_record", "replay --record", closed, refused + taken),
        ("replay_of_an_otherwise_sealed_record", "replay --record", otherwise + second, refused),
        # by the other key the credential proves nobody
        ("replay_of_a_changed_record", "replay --record", head + held(sample) + first + held(other) + second, refused + challenged(2, datagrams[1])),
        *(
            (name, "replay --record", head + record, output)
            for name, (record, output) in (
                ("replay_of_turned_rules", of_turned_rules(sample)),
                ("replay_of_a_rule_turned_behind_its_challenge", of_a_rule_turned_behind_its_challenge(sample, key)),
                ("replay_of_a_gone_hop", of_a_gone_hop(sample, key)),
            )
        ),
    ):
        yield f"{name}.args", "\n".join([*call.split(" "), f"{name}.record", ""])
        yield f"{name}.record", record
        if output is not None:
            yield f"{name}.out", output
            if name not in ("replay_of_a_damaged_shorter_record", "replay_of_a_sealed_record", "replay_of_an_otherwise_sealed_record"):
                yield f"{name}.err", f"sipd: {name}.record holds no digests: a change of it isn't told\n"
    yield "replay_of_an_otherwise_sealed_record.err", f"sipd: the record was changed: its line {otherwise.count(chr(10))} has the digest of other bytes\n"
    yield "replay_of_an_otherwise_sealed_record.status", "3\n"
    yield "replay_of_a_damaged_shorter_record.err", f"sipd: script line {(head + held(sample) + first + OMITTED + NO_LINE).count(chr(10))}\n"
    yield "replay_of_a_damaged_shorter_record.status", "3\n"
    yield from of_calls(head, sample, key)
    yield from of_sources(head, sample, key)
    yield from of_ladders()
    yield from of_a_short_request(head, sample)
    yield "check_against_a_record.args", "check\n--config\ncheck_sample.toml\n--against\nreplay_of_a_changed_record.record\n"
    yield "check_against_a_record.out", "user Mufasa has another a1\na server that runs can take it\n"


def made():
    """Each file by its name, and its bytes."""
    files = {name: text.encode() for name, text in of_records()}
    files.update(of_traces(md5(f"Mufasa:{REALM}:Circle Of Life")))
    for name, datagram in DAMAGED.items():
        output = printed(events_of(damages(datagram)))
        files[f"{name}.args"] = b"replay\n"
        files[f"{name}.damage"] = datagram
        files[f"{name}.md5"] = hashlib.md5(output.encode("latin-1")).hexdigest().encode() + b"\n"
    events = events_of(sized())
    files["size_limits.args"] = b"replay\n"
    files["size_limits.script"] = line_script(events).encode("latin-1")
    files["size_limits.out"] = printed(events).encode("latin-1")
    return files


def main(words):
    if len(words) == 2 and words[0] in ("script", "print"):
        events = events_of(damages(DAMAGED[words[1]])) if words[1] in DAMAGED else events_of(sized())
        text = hex_script(events) if words[0] == "script" else printed(events)
        sys.stdout.buffer.write(text.encode("latin-1"))
        return 0
    faults = 0
    for name, wanted in made().items():
        path = os.path.join(DATA, name)
        if words == ["write"]:
            with open(path, "wb") as file:
                file.write(wanted)
        elif not os.path.exists(path) or open(path, "rb").read() != wanted:
            faults += 1
            print(f"{name} isn't what is made here")
    print(f"{faults} faults")
    return 1 if faults else 0


if __name__ == "__main__":
    sys.exit(main(sys.argv[1:]))
