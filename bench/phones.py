"""Scripts for `sipd replay` of a registration, a call and a forked call as real phones write them: which fields they send, how they write
addresses and contacts, and the bodies of their calls.

baresip 1.0.0 and linphonec 5.1.65 after what they sent; the desk phones after the forms that their makers' phones are known for (a
display name, a contact with `transport=udp` and quoted parameters behind its bracket, fifteen to twenty fields that a server doesn't
know, a session description of 955 bytes). Of what stays the same in all of them (addresses, tags, numbers) only the forms differ, so
a row is to be compared with the plain one.
"""

from dataclasses import dataclass

import replays

CALLER, PHONE = "127.0.0.1:5070", replays.PHONE
INSTANCE = '+sip.instance="<urn:uuid:7b8472c5-3661-0089-8574-4483b048c110>"'
COMPACT = {"Via": "v", "From": "f", "To": "t", "Call-ID": "i", "Contact": "m", "Content-Length": "l", "Content-Type": "c", "Supported": "k"}


def sdp(*lines):
    return [f"{line}" for line in ("v=0", "o=- 46414608 1389173970 IN IP4 127.0.0.1", "s=-", "c=IN IP4 127.0.0.1", "t=0 0", *lines)]


def filled(lines, length):
    """A session description of exactly so many bytes: its last line is made as long as is left."""
    left = length - sum(len(line) + 2 for line in lines) - len("a=x-filler:") - 2
    assert left >= 0, left
    return [*lines, "a=x-filler:" + "x" * left]


BARESIP_SDP = sdp(
    "a=tool:baresip 1.0.0", "m=audio 9402 RTP/AVP 0 101", "a=rtpmap:0 PCMU/8000", "a=rtpmap:101 telephone-event/8000", "a=fmtp:101 0-15",
    "a=sendrecv", "a=label:1", "a=rtcp-rsize", "a=ssrc:1013000570 cname:sip:help@host.com", "a=minptime:20", "a=ptime:20",
)
LINPHONE_SDP = sdp(
    "a=rtcp-xr:rcvr-rtt=all:10000 stat-summary=loss,dup,jitt,TTL voip-metrics", "m=audio 9430 RTP/AVP 96 97 98 0 8 18 99 100 101",
    "a=rtpmap:96 opus/48000/2", "a=fmtp:96 useinbandfec=1", "a=rtpmap:97 speex/16000", "a=fmtp:97 vbr=on", "a=rtpmap:98 speex/8000",
    "a=fmtp:98 vbr=on", "a=fmtp:18 annexb=yes", "a=rtpmap:99 telephone-event/48000", "a=rtpmap:100 telephone-event/16000",
    "a=rtpmap:101 telephone-event/8000", "a=rtcp-fb:* trr-int 1000", "a=rtcp-fb:* ccm tmmbr",
)
DESK_SDP = filled(sdp(
    "m=audio 11780 RTP/AVP 9 0 8 18 101", "a=rtpmap:9 G722/8000", "a=rtpmap:0 PCMU/8000", "a=rtpmap:8 PCMA/8000", "a=rtpmap:18 G729/8000",
    "a=fmtp:18 annexb=no", "a=rtpmap:101 telephone-event/8000", "a=fmtp:101 0-15", "a=ptime:20", "a=sendrecv",
), 955)
YEALINK = [
    "User-Agent: Yealink SIP-T46S 66.85.0.5", "Allow: INVITE, INFO, PRACK, ACK, BYE, CANCEL, OPTIONS, NOTIFY, REGISTER, SUBSCRIBE, REFER, PUBLISH, UPDATE, MESSAGE",
    "Allow-Events: talk,hold,conference,refer,check-sync",
]
CISCO = [
    "User-Agent: Cisco-CP8841/12.5.1", "Date: Thu, 26 Nov 2026 10:00:00 GMT", "Session-ID: 3c6c3f7a00105000a000547c69a1b2c3;remote=00000000000000000000000000000000",
    "Allow: ACK,BYE,CANCEL,INVITE,NOTIFY,OPTIONS,REFER,REGISTER,UPDATE,SUBSCRIBE,INFO", "Supported: replaces,join,sdp-anat,norefersub,resource-priority,extended-refer",
    "Allow-Events: kpml,dialog,presence", 'Remote-Party-ID: "Help Desk" <sip:help@host.com>;party=calling;id-type=subscriber;privacy=off;screen=yes',
    "Call-Info: <urn:x-cisco-remotecc:callinfo>;orientation=from;security=NotAuthenticated", "Accept: application/sdp", "Content-Disposition: session;handling=optional",
    "Recv-Info: conference", "Recv-Info: x-cisco-conference", "Mime-Version: 1.0", "Accept-Language: en",
]


@dataclass(frozen=True)
class Form:
    """How a phone writes."""

    display: str = ""
    bare_to: bool = False
    uri_parameters: str = ""
    transport: str = ""
    behind_contact: str = ""
    contact_expires: str = ""
    expires_field: str = ""
    of_register: tuple = ()
    of_request: tuple = ()
    of_answer: tuple = ()
    offer: tuple = ()
    compact: bool = False
    vias: tuple = ()
    record_routes: tuple = ()

    def address(self, user, host, tag="", is_to=False):
        tag = f";tag={tag}" if tag else ""
        if is_to and self.bare_to:
            return f"sip:{user}@{host}{tag}"
        return f"{self.display}<sip:{user}@{host}{self.uri_parameters}>{tag}"

    def contact(self, user, place, registers=False):
        return f"<sip:{user}@{place}{self.transport}>{self.behind_contact}{self.contact_expires if registers else ''}"

    def named(self, line):
        name, colon, value = line.partition(":")
        return COMPACT.get(name, name) + colon + value if self.compact else line


FORMS = {
    "plain": Form(),
    "baresip": Form(
        contact_expires=";expires=3600",
        of_register=("User-Agent: baresip v1.0.0 (x86_64/linux)", "Allow: INVITE,ACK,BYE,CANCEL,OPTIONS,NOTIFY,SUBSCRIBE,INFO,MESSAGE,REFER"),
        of_request=("User-Agent: baresip v1.0.0 (x86_64/linux)", "Allow: INVITE,ACK,BYE,CANCEL,OPTIONS,NOTIFY,SUBSCRIBE,INFO,MESSAGE,REFER", "Supported:"),
        of_answer=("Server: baresip v1.0.0 (x86_64/linux)", "Allow: INVITE,ACK,BYE,CANCEL,OPTIONS,NOTIFY,SUBSCRIBE,INFO,MESSAGE,REFER"),
        offer=tuple(BARESIP_SDP),
    ),
    "linphone": Form(
        bare_to=True, transport=";transport=udp", behind_contact=f";{INSTANCE}", expires_field="3600",
        of_register=("Supported: replaces, outbound, gruu", "Accept: application/sdp", "Accept: text/plain", "Accept: application/vnd.gsma.rcs-ft-http+xml", "User-Agent: Linphonec/5.1.65"),
        of_request=("Supported: replaces, outbound, gruu", "Allow: INVITE, ACK, CANCEL, OPTIONS, BYE, REFER, NOTIFY, MESSAGE, SUBSCRIBE, INFO, PRACK, UPDATE", "User-Agent: Linphonec/5.1.65"),
        of_answer=("User-Agent: Linphonec/5.1.65", "Supported: replaces, outbound, gruu"),
        offer=tuple(LINPHONE_SDP),
    ),
    "a desk phone of Yealink's form": Form(
        display='"Help Desk" ', behind_contact=f';reg-id=1;{INSTANCE}', expires_field="3600",
        of_register=tuple(YEALINK), of_request=(*YEALINK, "Supported: replaces"), of_answer=("User-Agent: Yealink SIP-T46S 66.85.0.5", YEALINK[1], "Supported: replaces"),
        offer=tuple(DESK_SDP),
    ),
    "a desk phone of Cisco's form": Form(
        display='"Help Desk" ', transport=";transport=udp",
        behind_contact=f';{INSTANCE};+u.sip!devicename.ccm.cisco.com="SEP547C69A1B2C3";+u.sip!model.ccm.cisco.com="683"', expires_field="3600",
        of_register=tuple(CISCO), of_request=tuple(CISCO), of_answer=tuple(CISCO[:9]),
        offer=tuple(DESK_SDP),
    ),
    "compact names": Form(
        compact=True, of_register=("Supported: replaces",), of_request=("Supported: replaces",), of_answer=("Supported: replaces",), offer=tuple(BARESIP_SDP),
    ),
    "three Vias, two Record-Routes": Form(
        vias=("SIP/2.0/UDP edge.away.net:5060;branch=z9hG4bKe77.1;received=192.0.2.7", "SIP/2.0/UDP inner.away.net:5060;branch=z9hG4bKi31.4;received=10.1.0.9;rport=5060"),
        record_routes=("<sip:edge.away.net;lr>", "<sip:inner.away.net;lr>"),
        of_request=("User-Agent: away/1.0", "Supported: replaces"), of_answer=("Server: away/1.0",), offer=tuple(BARESIP_SDP),
    ),
    "quoted names, URIs with parameters": Form(
        display='"Desk, \\"front\\"" ', uri_parameters=";user=phone", of_request=("User-Agent: away/1.0",), of_answer=("Server: away/1.0",), offer=tuple(BARESIP_SDP),
    ),
}


class PhoneScript(replays.Script):
    """A script whose phones write in a form."""

    def __init__(self, form, now=1000):
        super().__init__(now)
        self.form = form

    def message(self, source, start, lines, body=()):
        self.number += 1
        length = sum(len(line) + 2 for line in body)
        more = ["Content-Type: application/sdp"] if body else []
        lines = [start, *(self.form.named(line) for line in (*lines, *more, f"Content-Length: {length}")), "", *body]
        dotted = ("." + line if line.startswith(".") else line for line in lines)
        self.lines.append(f"datagram {self.now} {source} {self.number:032x}\n" + "".join(f"{line}\n" for line in dotted) + ".\n")
        return self.number

    def register(self, user, contacts, credit=None, again=None):
        at = again or self.number + 1
        form = self.form
        more = [f"Expires: {form.expires_field}"] if form.expires_field else []
        if credit:
            more.append(replays.credential(user, *credit))
        return self.message(f"127.0.0.1:{PHONE}", "REGISTER sip:host.com SIP/2.0", [
            f"Via: SIP/2.0/UDP 127.0.0.1:{PHONE};branch=z9hG4bKr{at};rport", "Max-Forwards: 70", f"From: {form.address(user, 'host.com', 'a1')}",
            f"To: {form.address(user, 'host.com', is_to=True)}", f"Call-ID: r-{user}", f"CSeq: {at} REGISTER",
            *[f"Contact: {form.contact(user, place, registers=True)}" for place in contacts], *form.of_register, *more,
        ])

    def from_caller(self, method, target, call, tag="", number=7, more=(), body=()):
        at, form = self.number + 1, self.form
        return self.message(CALLER, f"{method} {target} SIP/2.0", [
            f"Via: SIP/2.0/UDP pc.host.com:5070;branch=z9hG4bKc{at};rport", *[f"Via: {via}" for via in form.vias], "Max-Forwards: 70",
            f"From: {form.address('x', 'away.net', 'f1')}", f"To: {form.address('help', 'host.com', tag, is_to=True)}", f"Call-ID: {call}", f"CSeq: {number} {method}", *more, *form.of_request,
        ], body)

    def invite(self, call):
        routes = [f"Record-Route: {route}" for route in self.form.record_routes]
        return self.from_caller("INVITE", "sip:help@host.com", call, more=[*routes, f"Contact: {self.form.contact('x', '127.0.0.1:5070')}"], body=self.form.offer)

    def answer_lines(self, request, phone, call, method, number):
        form = self.form
        return [
            f"Via: SIP/2.0/UDP sip.host.com:5060;branch=z9hG4bK0000000000000000.{request}.{phone}",
            *([] if method == "CANCEL" else [f"Via: SIP/2.0/UDP pc.host.com:5070;branch=z9hG4bKc{request};rport=5070;received=127.0.0.1", *[f"Via: {via}" for via in form.vias]]),
            f"From: {form.address('x', 'away.net', 'f1')}", f"To: {form.address('help', 'host.com', f't{phone}', is_to=True)}", f"Call-ID: {call}", f"CSeq: {number} {method}",
        ]

    def answer(self, code, call, request, phone=1, method="INVITE", number=7):
        learnt = method == "INVITE" and code < 300
        lines = self.answer_lines(request, phone, call, method, number)
        if learnt:
            routes = ["<sip:sip.host.com:5060;lr>", *self.form.record_routes]
            lines += [*[f"Record-Route: {route}" for route in routes], f"Contact: {self.form.contact('help', f'127.0.0.1:{PHONE + phone - 1}')}"]
        body = self.form.offer if learnt and code == 200 else ()
        return self.message(f"127.0.0.1:{PHONE + phone - 1}", f"SIP/2.0 {code} X", [*lines, *self.form.of_answer], body)

    def in_dialog(self, method, call, phone, number):
        return self.from_caller(method, f"sip:help@127.0.0.1:{PHONE + phone - 1}", call, f"t{phone}", number, ["Route: <sip:sip.host.com:5060;lr>"])

    def answer_bye(self, call, request, phone):
        lines = self.answer_lines(request, 1, call, "BYE", 8)
        lines = [line.replace(";tag=t1", f";tag=t{phone}") if line.startswith("To") else line for line in lines]
        self.message(f"127.0.0.1:{PHONE + phone - 1}", "SIP/2.0 200 X", [*lines, *self.form.of_answer])

    def contacts(self, count):
        return [f"127.0.0.1:{PHONE + place}" for place in range(count)]
