"""Scripts for `sipd replay` of requests that are made to cost as they are sent on: with what their phones answer, and with
the timers that follow. `shapes.py` has the datagrams that are answered by the server itself.

A shape is what is set up, once, and what is done after it, as often as is asked. `COSTS` are counted in instructions, `HELD`
in the bytes that the server has at once.
"""

import replays
import shapes

OWN = "sip:sip.host.com:5060;lr"
DIGITS = "0123456789abcdefghijklmnopqrstuvwxyz"
# the longest message of these shapes: as it is sent on, with a Via and a Record-Route of this server's, it may have 49,152
# bytes
LONG = 47_250


def parameters(size):
    """As many parameters of different names, none of them `lr`, as fit into so many bytes, in no order."""
    names = [a for a in DIGITS] + [a + b for a in DIGITS for b in DIGITS] + [a + b + c for a in DIGITS for b in DIGITS for c in DIGITS]
    names.remove("lr")
    count = 0
    while count < len(names) and size >= len(names[count]) + 1:
        size -= len(names[count]) + 1
        count += 1
    # the factor is a prime above any count, so that each name comes once
    return "".join(";" + names[104_729 * place % count] for place in range(count))


class Hostile(replays.Script):
    """A script that counts the bytes of its datagrams."""

    def __init__(self):
        super().__init__()
        self.bytes = 0

    def datagram(self, source, *lines):
        self.bytes += len("".join(f"{line}\r\n" for line in lines)) + len("Content-Length: 0\r\n\r\n")
        return super().datagram(source, *lines)

    def request(self, method, call, target="sip:help@host.com", to="<sip:help@host.com>", via="", person="<sip:x@away.net>", number=7, more=()):
        """A request of a caller, each place of which may be long."""
        return self.datagram(
            replays.CALLER,
            f"{method} {target} SIP/2.0",
            f"Via: SIP/2.0/UDP 127.0.0.1:5070;branch=z9hG4bKh{self.number + 1}{via}",
            "Max-Forwards: 70",
            f"From: {person};tag=f1",
            f"To: {to}",
            f"Call-ID: {call}",
            f"CSeq: {number} {method}",
            *(["Contact: <sip:x@127.0.0.1:5070>"] if method == "INVITE" else []),
            *more,
        )

    def answered(self, code, call, request, tag, phone=1, more=()):
        """What a phone answers to an INVITE."""
        return self.datagram(
            f"127.0.0.1:{replays.PHONE + phone - 1}",
            f"SIP/2.0 {code} X",
            f"Via: SIP/2.0/UDP sip.host.com:5060;branch=z9hG4bK0000000000000000.{request}.{phone}",
            f"Via: SIP/2.0/UDP 127.0.0.1:5070;branch=z9hG4bKh{request}",
            "Record-Route: <sip:sip.host.com:5060;lr>",
            "From: <sip:x@away.net>;tag=f1",
            f"To: <sip:help@host.com>;tag={tag}",
            f"Call-ID: {call}",
            "CSeq: 7 INVITE",
            f"Contact: <sip:help@127.0.0.1:{replays.PHONE + phone - 1}>",
            *more,
        )

    def bound(self, contacts, lines=()):
        """A REGISTER of `help` that is answered by the nonce of the first one."""
        self.proven += 1
        return self.datagram(
            f"127.0.0.1:{replays.PHONE}",
            "REGISTER sip:host.com SIP/2.0",
            f"Via: SIP/2.0/UDP 127.0.0.1:{replays.PHONE};branch=z9hG4bKr{self.number + 1}",
            "Max-Forwards: 70",
            "From: <sip:help@host.com>;tag=a1",
            "To: <sip:help@host.com>",
            *(lines or ["Call-ID: r"]),
            f"CSeq: {self.number + 1} REGISTER",
            *[f"Contact: {contact}" for contact in contacts],
            replays.credential("help", self.nonce, self.proven),
        )

    def challenge(self):
        """A REGISTER that is challenged, by whose nonce others are answered for five minutes."""
        self.nonce, self.proven = f"{self.register('help', []):032x}", 0

    def phones(self, count):
        """So many phones of `help`, and no request open."""
        self.pair("help", [f"sip:help@127.0.0.1:{replays.PHONE + place}" for place in range(count)])
        self.time(80_000)


def filled(script, make, limit=LONG):
    """Adds a datagram of so many bytes: `make` adds it with the parameters that fill it."""
    probe = Hostile()
    probe.number = script.number
    make(probe, "")
    return make(script, parameters(limit - probe.bytes))


# ---- requests with long parameters


def in_target(script, method, call, target="sip:help@host.com"):
    return filled(script, lambda s, text: s.request(method, call, target=target + text))


def in_route(script, method, call):
    return filled(script, lambda s, text: s.request(method, call, more=[f"Route: <{OWN}{text}>"]))


def strictly(script, method, call):
    return filled(script, lambda s, text: s.request(method, call, target=OWN + text, more=["Route: <sip:help@host.com>"]))


def strictly_in_both(script, method, call):
    half = parameters(23_000)
    return script.request(method, call, target=OWN + half, more=[f"Route: <sip:vault@host.com{half}>"])


def in_from(script, method, call):
    return filled(script, lambda s, text: s.request(method, call, person=f"<sip:x@away.net{text}>"))


def in_via(script, method, call):
    return filled(script, lambda s, text: s.request(method, call, via=text))


def in_record_route(script, method, call):
    return filled(script, lambda s, text: s.request(method, call, more=[f"Record-Route: <sip:away.net;lr{text}>"]))


def in_dialog(script, method, number):
    """A request of a dialog, whose Request-URI is long."""
    way = ["Route: <sip:sip.host.com:5060;lr>"]
    to, target = "<sip:help@host.com>;tag=t", f"sip:help@127.0.0.1:{replays.PHONE}"
    return filled(script, lambda s, text: s.request(method, "k", target=target + text, to=to, number=number, more=way))


# ---- what phones answer


def unacknowledged(script, place):
    """A call that the phone answers, and to which no ACK comes: its 200 goes again as often as it may."""
    request = in_from(script, "INVITE", f"k{place}")
    script.answered(180, f"k{place}", request, "t")
    for again in range(11):
        script.answered(200, f"k{place}", request, "t")
        script.time(500 if again < 1 else 1_000 if again < 2 else 2_000 if again < 3 else 4_000)


def talking(script):
    """A call that was answered, and whose INVITE isn't open any more."""
    script.phones(1)
    script.answered(200, "k", script.request("INVITE", "k"), "t")
    script.time(80_000)


def tagged(script, make, codes):
    """An INVITE that is open, and the answers of these codes that it got."""
    script.phones(1)
    request = make(script, "INVITE", "k")
    for place, code in enumerate(codes):
        script.answered(code, "k", request, f"s{place}")
    return request


# ---- contacts of about 500 bytes


def uri(end, order=1, body=None):
    """The URI of a contact; `end` is what it doesn't have in common with others."""
    names = [f";{a}{b}=00" for a in DIGITS[:8] for b in DIGITS[:10]][:76]
    return f"sip:help@127.0.0.1:{replays.PHONE}" + (body or "".join(names[::order])) + f";zz={end}"


def registered(script, contacts):
    """A phone with these contacts, none of whose requests is open any more; then a nonce for others."""
    script.challenge()
    script.bound(contacts)
    script.time(80_000)
    script.challenge()


def alike(count, make, more=""):
    return [f"<{make(place)}>{more}" for place in range(count)]


def sixteen(make):
    return lambda s: registered(s, alike(16, make))


def plain(place):
    return f"sip:help@127.0.0.1:{replays.PHONE + place}"


# ---- the shapes


def fields(count):
    return ["a:b"] * count


def silent_invites(count, make):
    """An INVITE to so many phones that don't answer, until all is over: it goes seven times to each, a 100 once and a 408
    eleven times."""
    return (lambda s: s.phones(count), lambda s, given, place: make(s, "INVITE", f"k{place}"), 80_000, 7 * count + 12)


def silent_messages(count, make):
    """The same of a MESSAGE, which goes eleven times to each, and a 408 once."""
    return (lambda s: s.phones(count), lambda s, given, place: make(s, "MESSAGE", f"k{place}"), 80_000, 11 * count + 1)


def sent(count, method, make, packets):
    """A request to so many phones, only sent."""
    return (lambda s: s.phones(count), lambda s, given, place: make(s, method, f"k{place}"), 0, packets)


def to_bindings(set_up, contacts):
    """A REGISTER of a proven user with these contacts."""
    return (set_up, lambda s, given, place: s.bound(contacts), 40_000, 1)


def answers(make, codes, code):
    """An answer that has another To tag each time, to an INVITE that is open."""
    return (lambda s: tagged(s, make, codes), lambda s, given, place: s.answered(code, "k", given, f"t{place}"), 0, 1)


def short(script, method, call):
    return script.request(method, call)


def of_fields(script, method, call):
    return script.request(method, call, more=fields(233))


def of_call_id(script, method, call):
    """One whose answers needn't have its Call-ID."""
    return script.request(method, call * 46_000)


def of_record_routes(script, method, call):
    return script.request(method, call, more=["Record-Route: <sip:away.net;lr>"] * 240)


def to_vault(script, method, call):
    return in_target(script, method, call, "sip:vault@host.com")


# Each by its name and who can send it: what is set up, what is done, how long is waited behind it, and how many packets go
# out of it.
COSTS = {
    ("MESSAGE by strict routing to 16 silent phones, the Request-URI long", "anyone"): silent_messages(16, strictly),
    ("MESSAGE to 16 silent phones, a first Route of this server's long", "anyone"): silent_messages(16, in_route),
    ("MESSAGE to 16 silent phones, the Request-URI long", "anyone"): silent_messages(16, in_target),
    ("INVITE to 16 silent phones, the Request-URI long", "anyone"): silent_invites(16, in_target),
    # INVITE and 100, 180, eleven times 200
    ("INVITE that is answered and gets no ACK, From's URI long", "anyone"): (lambda s: s.phones(1), lambda s, given, place: unacknowledged(s, place), 80_000, 14),
    ("200 with another To tag, the INVITE's From long", "a phone"): answers(in_from, [200], 200),
    ("200 with another To tag, the INVITE's Record-Route long", "a phone"): answers(in_record_route, [200], 200),
    ("180 with another To tag, the INVITE with 240 Record-Routes", "a phone"): answers(of_record_routes, [], 180),
    ("180 with another To tag, the INVITE's Call-ID long", "a phone"): answers(of_call_id, [], 180),
    ("180 with another To tag", "a phone"): answers(short, [], 180),
    ("the same, 4,096 dialogs known", "a phone"): answers(short, [180] * 4_096, 180),
    ("INVITE to a silent phone, the Request-URI long", "anyone"): silent_invites(1, in_target),
    ("INVITE to a silent phone, a first Route of this server's long", "anyone"): silent_invites(1, in_route),
    ("INVITE to a phone, the Request-URI long, only sent", "anyone"): sent(1, "INVITE", in_target, 2),
    ("INVITE to a silent phone, its Via long", "anyone"): silent_invites(1, in_via),
    ("ACK in a dialog, the Request-URI long", "a party"): (talking, lambda s, given, place: in_dialog(s, "ACK", 7), 0, 1),
    # eleven times, and a 408
    ("INFO in a dialog to a silent phone, the Request-URI long", "a party"): (talking, lambda s, given, place: in_dialog(s, "INFO", 8 + place), 80_000, 12),
    ("OPTIONS that is denied, the Request-URI long", "anyone"): sent(1, "OPTIONS", to_vault, 1),
    ("OPTIONS that is denied, by strict routing, both URIs long", "anyone"): sent(1, "OPTIONS", strictly_in_both, 1),
    ("REGISTER of 16 contacts, the 16 bindings differ in the last of 77 parameters", "a user"): to_bindings(
        sixteen(lambda place: uri(f"b{place}")), alike(16, lambda place: uri(f"c{place}"))
    ),
    ("the same, the parameters in the other order", "a user"): to_bindings(
        sixteen(lambda place: uri(f"b{place}")), alike(16, lambda place: uri(f"c{place}", -1))
    ),
    ("the same, one long value", "a user"): to_bindings(
        sixteen(lambda place: uri(f"b{place}", body=";a=" + "0" * 450)), alike(16, lambda place: uri(f"c{place}", body=";a=" + "0" * 450))
    ),
    ("the same, escapes", "a user"): to_bindings(
        sixteen(lambda place: uri(f"b{place}", body=";a=" + "%41" * 150)), alike(16, lambda place: uri(f"c{place}", body=";a=" + "%61" * 150))
    ),
    ("90 contacts with expires=0, as the first", "a user"): to_bindings(
        sixteen(lambda place: uri(f"b{place}")), alike(90, lambda place: uri(f"c{place}"), ";expires=0")
    ),
    ("240 plain contacts with expires=0", "a user"): to_bindings(sixteen(plain), alike(240, lambda place: plain(100 + place), ";expires=0")),
    ("REGISTER of 240 plain contacts, too many", "a user"): to_bindings(sixteen(plain), alike(240, lambda place: plain(100 + place))),
    ("REGISTER of 16 plain contacts, which are bound", "a user"): to_bindings(sixteen(plain), alike(16, plain)),
    ("INVITE to 16 silent phones", "anyone"): silent_invites(16, short),
    ("MESSAGE to 16 silent phones", "anyone"): silent_messages(16, short),
    ("INVITE of 240 fields to 16 silent phones", "anyone"): silent_invites(16, of_fields),
    ("INVITE to 16 phones, only sent", "anyone"): sent(16, "INVITE", short, 17),
    ("INVITE to a silent phone", "anyone"): silent_invites(1, short),
}


def script_of(shape, times):
    """The script of a shape that is done so often."""
    set_up, do, wait, _ = shape
    script = Hostile()
    given = set_up(script)
    for place in range(times):
        do(script, given, place)
        if wait:
            script.time(wait)
    return script


# ---- what is held


def dialogs_of_one_call(script, count):
    """Answers that make dialogs known, each of a Call-ID of 46,000 bytes."""
    script.phones(1)
    request = script.request("INVITE", "k" * 46_000)
    for place in range(count):
        script.answered(180, "k", request, f"t{place}")


def calls(script, count):
    """Calls of a Call-ID of 46,000 bytes that were answered, of which no request is open any more."""
    script.phones(1)
    for place in range(count):
        call = f"{place:04}" + "k" * 45_996
        script.answered(200, call, script.request("INVITE", call), "t")
        script.time(80_000)


def bindings(script, count):
    """Sixteen bindings of one REGISTER, whose Call-ID has so many bytes."""
    script.challenge()
    script.bound(alike(16, plain), ["Call-ID: " + "k" * count])
    script.time(80_000)


def short_parameters(place):
    """The URI of a contact of at most 512 bytes with as many parameters as it has room for."""
    front = f"{plain(place)};zz={place}"
    return front + parameters(511 - len(front))


def parametered(script, count):
    """So many bindings, each of a contact with many parameters."""
    script.challenge()
    script.bound(alike(count, short_parameters))
    script.time(80_000)


def refused(script, count, tag, more):
    """Calls of which 15 phones answered 401 with this To tag and these fields, and the 16th is silent."""
    script.phones(16)
    for place in range(count):
        request = script.request("INVITE", f"k{place}")
        for phone in range(1, 16):
            script.answered(401, f"k{place}", request, tag, phone, more)


def many_fields(script, count):
    script.phones(1)
    for place in range(count):
        of_fields(script, "INVITE", f"k{place}")


def open_calls(script, count):
    script.phones(1)
    for place in range(count):
        in_target(script, "INVITE", f"k{place}")


# Each by its name: what makes so many, and how many.
HELD = {
    "a dialog that a 180 of a phone makes, the INVITE's Call-ID of 46,000 bytes": (dialogs_of_one_call, 32),
    "a call that was answered, its Call-ID of 46,000 bytes, once its INVITE isn't open": (calls, 4),
    "a byte of the Call-ID of a REGISTER of 16 contacts": (bindings, 20_000),
    "a contact of 511 bytes with 170 parameters that is bound": (parametered, 8),
    "an open call of which 15 phones answered 401 with 47,000 bytes in a challenge": (
        lambda s, count: refused(s, count, "t", [f'WWW-Authenticate: Digest realm="{"r" * 46_500}", nonce="n"']), 2
    ),
    "the same, 47,000 bytes in To": (lambda s, count: refused(s, count, "t" * 46_500, []), 2),
    "an open INVITE of 47,250 bytes": (open_calls, 8),
    "an open INVITE of 240 short fields": (many_fields, 32),
}
