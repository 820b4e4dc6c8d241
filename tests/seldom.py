"""A script for `sipd replay`, with the sample configuration, of what the standard allows and phones seldom write, or shouldn't: URIs
with parameters, headers, passwords and addresses in brackets, folded lines, names in other cases, quoted and many parameters, fields in
another order, Routes of other proxies, strict routing, ACKs and responses that find nothing. tests/functions_run.py runs it, so that
what reads these forms runs. What the server makes of them is proved, so its output isn't kept."""

import os
import sys

sys.path.insert(0, os.path.join(os.path.dirname(os.path.abspath(__file__)), "..", "bench"))
from replays import NONCE_COUNT, REALM, response  # noqa: E402

KEYS = {"help": "2" * 32, "Mufasa": "939e7578ed9e3c518a452acee763bce9"}
PHONE, CALLER, PHONE_URI = "127.0.0.1:5082", "127.0.0.1:5070", "sip:help@127.0.0.1:5082"
PLAIN, OWN_ROUTE = "<sip:help@host.com>", "<sip:sip.host.com:5060;lr>"
FAR_ROUTE = '"x" <sip:127.0.0.1:5082;lr;x=1>'
# Two URIs that are equal, with ten parameters and five headers each.
LONG = "sip:help:pw%21@[2001:db8::1]:5082;b=2;A=%31;lr;c;d=4;e=5;f=6;g=7;h=8;i=9;j=10?Subject=x%20y&to=z&a=1&b=2&c=3"
TURNED = "sip:help:pw%21@[2001:DB8::1]:5082;A=1;b=2;lr;c;d=4;e=5;f=6;g=7;h=8;i=9;j=10?to=z&subject=x%20y&a=1&c=3&b=2"


def credential(user, nonce, count, uri="sip:host.com", method="REGISTER"):
    digest = response(KEYS[user], f"{nonce:032x}", count, method, uri)
    values = {"username": user, "realm": REALM, "nonce": f"{nonce:032x}", "uri": uri, "response": digest, "cnonce": NONCE_COUNT}
    return "Digest " + ", ".join([f'{name}="{value}"' for name, value in values.items()] + ["qop=auth", f"nc={count:08x}"])


def many(count, turned, begin="sip:help@127.0.0.1:5082"):
    """A URI with so many parameters and headers, in one order or the other."""
    places = range(count)[:: -1 if turned else 1]
    return ";".join([begin, *(f"p{place}=v%4{place % 10}" for place in places)]) + "?" + "&".join(f"h{place}=v" for place in places)


class Script:
    """A script that grows by datagrams, one a second; the word of a nonce is its datagram's number."""

    def __init__(self):
        self.lines, self.number, self.now = [], 0, 1000

    def datagram(self, source, *lines):
        self.number, self.now = self.number + 1, self.now + 1000
        self.lines += [f"datagram {self.now} {source} {self.number:032x}", *lines, "Content-Length: 0", "", "."]
        return self.number

    def bytes(self, source, data):
        self.number, self.now = self.number + 1, self.now + 1000
        self.lines.append(f"hex {self.now} {source} {self.number:032x} {data.hex()}")

    def time(self, after):
        self.now += after
        self.lines.append(f"time {self.now}")

    def text(self):
        return "".join(f"{line}\n" for line in self.lines)

    def register(self, contacts, *more, uri="sip:host.com", to=PLAIN, sender=PLAIN + ";tag=a1", number=None):
        at = self.number + 1
        fixed = [f"REGISTER {uri} SIP/2.0", f"Via: SIP/2.0/UDP {PHONE};branch=z9hG4bKr{at}", "Max-Forwards: 70", f"From: {sender}", f"To: {to}"]
        named = ["Call-ID: s", f"CSeq: {number or at} REGISTER", *(f"Contact: {contact}" for contact in contacts)]
        return self.datagram(PHONE, *fixed, *named, *more)

    def proven(self, contacts, nonce, count, *more, credit="sip:host.com", **how):
        """A REGISTER that answers a challenge, by a credential for a URI."""
        return self.register(contacts, f"Authorization: {credential('help', nonce, count, credit)}", *more, **how)

    def request(self, method, uri, call, *more, number=7, to=PLAIN, sender="<sip:x@away.net>;tag=f1", via=None, hops=("Max-Forwards: 70",)):
        via = via or f"SIP/2.0/UDP pc.host.com:5070;branch=z9hG4bKc{self.number + 1};rport"
        fixed = [f"{method} {uri} SIP/2.0", f"Via: {via}", *hops, f"From: {sender}", f"To: {to}"]
        return self.datagram(CALLER, *fixed, f"Call-ID: {call}", f"CSeq: {number} {method}", *more)

    def answer(self, status, request, call, *more, branch=1, source=PHONE, method="INVITE", number=7, to=PLAIN + ";tag=t1", via=None):
        via = via or f"SIP/2.0/UDP pc.host.com:5070;branch=z9hG4bKc{request};rport=5070;received=127.0.0.1"
        own = f"Via: SIP/2.0/UDP sip.host.com:5060;branch=z9hG4bK0000000000000000.{request}.{branch}"
        named = ["From: <sip:x@away.net>;tag=f1", f"To: {to}", f"Call-ID: {call}", f"CSeq: {number} {method}"]
        return self.datagram(source, f"SIP/2.0 {status} X", own, f"Via: {via}", *named, *more)


def registrations(it):
    """REGISTERs: of each form of a Contact, of credentials in any form, and for URIs that are equal to those of their credentials or not."""
    nonce = it.register([f"<{PHONE_URI}>"])
    digest = response(KEYS["help"], f"{nonce:032x}", 1, "REGISTER", "sip:host.com")
    unknown = ", ".join(f"x{place}=y" for place in range(9))
    it.register(
        [
            f"<{LONG}>;q=0.5;expires=600",
            '"A \\"b\\" c" <sip:help@127.0.0.1:5083;transport=udp;method=INVITE>',
            '<sip:help@127.0.0.1:5084;maddr=127.0.0.1>;x="a,b\\"";y',
            "<sip:help@127.0.0.1:5085;transport=tcp>",
            "<sip:help@127.0.0.1:5086?subject=x>",
        ],
        'Authorization: digest Username = "he\\lp",',
        f' REALM="{REALM}" , nonce="{nonce:032x}",',
        f'\turi="sip:host.com",response="{digest}", QOP="auth", nc=00000001, cnonce="{NONCE_COUNT}", opaque="a\\"b", {unknown}',
        "Subject: a",
        "  folded",
        "\tline",
        *("EXPIRES: 3600", "sUPPORTED: x", "eVENT: y", "ALLOW: INVITE", "MIN-EXPIRES: 5", "cALL-INFO: <http://x>"),
        *("mime-version: 1.0", "Reply-to: <sip:a@b>", "Organization: x", "UsEr-agent: q"),
    )
    it.proven([f"<{TURNED}>", "<sip:help@127.0.0.1:5083;method=INVITE;transport=UDP>", "<sip:help@127.0.0.1:5086?Subject=x>"], nonce, 2)
    it.proven([f"<{TURNED}>", f"<{TURNED}>"], nonce, 3)
    it.proven([f"<{LONG}>"], nonce, 4, uri="sip:host.COM;A=1", credit="sip:HOST.com;a=1")
    strange = {"to": '"H" <sip:help:x@host.com;a=b>', "sender": 'sip:help@host.com;tag=9;tag2="x"'}
    it.proven([f"<{LONG}>"], nonce, 5, uri="sip:host.com;a=1", credit="sip:host.com;a=1", **strange)
    it.proven(["<tel:+1>"], nonce, 6)
    it.proven(["*"], nonce, 7, "Expires: 0")
    it.proven([f"<{many(20, False)}>"], nonce, 8)
    it.proven([f"<{many(20, True)}>"], nonce, 9)
    it.proven([f"<{many(20, True)}>, <{TURNED}>"], nonce, 10, number=3)
    for to in ("<sip:host.com>", "<tel:+1>"):
        it.register([f"<{LONG}>"], to=to)
    asked = [("sip:host.com;transport=udp?a=b&c=d", "sip:host.com;Transport=UDP?c=d&a=b"), ("sip:host.com;transport=udp", "sip:host.com")]
    for uri, credit in asked + [(many(count, False, "sip:host.com"), many(count, True, "sip:host.com")) for count in (20, 300)]:
        nonce = it.register([f"<{PHONE_URI}>"], uri=uri)
        it.proven([f"<{PHONE_URI}>"], nonce, 1, uri=uri, credit=credit)
    nonce = it.register(["*"], to="<sip:help@HOST.com>")
    it.proven(["*"], nonce, 1, "Expires: 0")
    last = ["<sip:help@127.0.0.1:5083;transport=udp>", "<sip:help@127.0.0.1:5084;method=INVITE?subject=x>", "<sip:help@pc.host.com>"]
    it.proven([f'<{PHONE_URI}>, "b" {last[0]}', *last[1:]], nonce, 2)


def calls(it):
    """Calls whose addresses and Routes have names, parameters and other proxies, and whose fields stand in another order."""
    contact, route = f'Contact: "H" <{PHONE_URI};transport=udp;a=b>', 'Route: "me" <sip:sip.host.com:5060;lr;x=1>, <sip:127.0.0.1:5082;lr;x=1>'
    named, to = {"sender": '"X y" <sip:x:pw@away.net;a=1>;tag=f1;b="c"', "hops": ()}, PLAIN + ";tag=t1"
    at = it.request("INVITE", "sip:help@host.com", "i1", "Subject: a", " b", 'Contact: "X" <sip:x@127.0.0.1:5070;transport=udp>;z', **named)
    it.answer(180, at, "i1", 'Record-Route: "me" <sip:sip.host.com:5060;lr;x=1>, <sip:127.0.0.1:5099;lr;y=2>', contact)
    routes = ["Record-Route: <sip:127.0.0.1:5082;lr;x=1>", f'Record-Route: "me" <sip:sip.host.com:5060;lr;x=1>, {OWN_ROUTE}']
    it.answer(200, at, "i1", *routes, contact, to='"H" <sip:help@host.com;q=1>;x;tag=t1')
    it.request("ACK", f"{PHONE_URI};transport=udp;a=b", "i1", route, to=to)
    strictly = f'Route: <sip:127.0.0.1:5082;lr>, "H" <{PHONE_URI};transport=udp;a=b>'
    it.request("BYE", "sip:sip.host.com:5060;lr", "i1", strictly, number=8, to=to)
    top = "SIP/2.0/UDP pc.host.com:5070;received={};branch=z9hG4bKi2;rport={};x=\"a;b\""
    more = ["Route: <sip:sip.host.com:5060;lr>", "Contact: <sip:x@127.0.0.1:5070>"]
    via = top.format("9.9.9.9", 17).replace("SIP/2.0/UDP", "SIP / 2.0 / UDP")
    at = it.request("INVITE", "sip:help:pw@host.com:5060;a=1?x=y", "i2", *more, via=via + " ,\tSIP/2.0/UDP a.b;branch=z9hG4bKi22")
    for _ in range(2):
        it.answer(486, at, "i2", via=top.format("127.0.0.1", 5070))
    # an ACK with the branch of the INVITE that it acknowledges, which a 2xx's may not have
    via = "SIP/2.0/UDP pc.host.com:5070;branch=z9hG4bKi3;rport"
    at = it.request("INVITE", "sip:help@host.com", "i3", *more, via=via)
    for status in (180, 200):
        it.answer(status, at, "i3", f"Record-Route: {OWN_ROUTE}", f"Contact: <{PHONE_URI}>", via=f"{via}=5070;received=127.0.0.1")
    it.request("ACK", PHONE_URI, "i3", f"Route: {OWN_ROUTE}", to=to, via=via)
    it.request("ACK", PHONE_URI, "i9", to=to, via=via)
    it.request("ACK", "tel:+1", "i3", to=to, via=via, sender="sip:x@away.net>")
    at = it.request("INVITE", "sip:help@host.com", "i4", f"Route: {OWN_ROUTE}, <sip:127.0.0.1:5060;lr>")
    for sender in ("sip:x@away.net>", "<sip:x@away.net>;tag=f1"):
        it.request("CANCEL", "sip:help@host.com", "i4", via=f"SIP/2.0/UDP pc.host.com:5070;branch=z9hG4bKc{at};rport", sender=sender)


def in_another_order(it):
    """A call whose Vias aren't on top, and requests in it with Routes of other proxies, and strictly routed."""
    to, phone, far = PLAIN + ";tag=t1", f"{PHONE_URI};a=b", f"Route: {OWN_ROUTE}, {FAR_ROUTE}"
    branch, rest = f"z9hG4bKc{it.number + 1}", ["Call-ID: i5", "CSeq: 7 INVITE"]
    sender, contact = "From: <sip:x@away.net>;tag=f1", "Contact: <sip:x@127.0.0.1:5070>"
    via = f"v: SIP/2.0/UDP pc.host.com:5070;branch={branch};rport"
    at = it.datagram(CALLER, "INVITE sip:help@host.com SIP/2.0", "Max-Forwards: 70", sender, via, f"To: {PLAIN}", *rest, contact)
    for status, host, more in ((180, "sip.host.com", []), (200, "SIP.host.com", [f"Contact: <{phone}>", f"Record-Route: {OWN_ROUTE}"])):
        own = f"Via: SIP/2.0/UDP {host}:5060;rport;branch=z9hG4bK0000000000000000.{at}.1"
        it.datagram(PHONE, f"SIP/2.0 {status} X", sender, own, f"{via}=5070;received=127.0.0.1", f"To: {to}", *rest, *more)
    it.answer(180, at, "i5", branch=2, source="127.0.0.1:5083", to=PLAIN + ";tag=t2")
    at = it.request("INVITE", phone, "i5", far, "X-Other: y", number=9, to=to)
    it.answer(100, at, "i5", number=9)
    it.request("CANCEL", phone, "i5", number=9, to=to, via=f"SIP/2.0/UDP pc.host.com:5070;branch=z9hG4bKc{at};rport")
    it.answer(487, at, "i5", number=9)
    for number, route in enumerate((f"{OWN_ROUTE}, <sip:sip.host.com;lr>", f'{OWN_ROUTE}, "m" <sip:sip.host.com;lr;x=y>'), 10):
        it.request("OPTIONS", phone, "i5", f"Route: {route}", number=number, to=to)
    for number, method in ((7, "ACK"), (12, "INVITE")):
        routes = [f"Route: {OWN_ROUTE}", f"Route: {FAR_ROUTE}, <{phone}>"]
        it.request(method, "sip:sip.host.com:5060;lr", "i5", *routes, number=number, to=to)
    it.request("INVITE", phone, "i5", f"Route: {FAR_ROUTE}", number=13, to=to)


def other_requests(it):
    """Requests for URIs of each kind, a call by a hop, and an answer to a request that is no INVITE."""
    wrong = 'Proxy-Authorization: Digest username="he\\lp", realm="testrealm@host.com", nonce="x", uri="sip:a;b@c", response="q"'
    for at, uri in enumerate(("sip:help%40@host.com;a=1", "sips:help@host.com;a=1?b=c", "sip:host.com", "tel:+1")):
        it.request("OPTIONS", uri, f"o{at}")
    it.request("MESSAGE", "sip:alice:x@host.com;a=1?b=c", "o4", wrong)
    uri, credit = "sip:911:pw@HOST.com:5060;a=1?b=c", "sip:911:pw@host.com:5060;a=1?b=c"
    nonce = it.request("INVITE", uri, "h1")
    it.request("INVITE", uri, "h1", f"Proxy-Authorization: {credential('Mufasa', nonce, 1, credit, 'INVITE')}", number=8)
    it.bytes(CALLER, b"OPTIONS sip:help@host.com SIP/2.0\r\nVia: SIP/2.0/UDP pc.host.com:5070;branch=z9hG4bKo\r\nSubject: a\r\n cut")
    at = it.request("MESSAGE", "sip:help@host.com", "o5")
    it.answer(100, at, "o5", method="MESSAGE")
    it.answer(200, at, "o5", method="MESSAGE", branch=2, source="127.0.0.1:5083")


def script():
    it = Script()
    registrations(it)
    calls(it)
    other_requests(it)
    in_another_order(it)
    it.time(80_000)
    return it.text()
