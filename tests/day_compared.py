"""What tests/day.py compares: what is printed of a record with the capture of the same day, as tshark reads it."""

import collections
import datetime
import math
import re
from xml.etree import ElementTree

from day_phones import PORT, SERVER, done
from program import ended, read

AT = f"{SERVER}:{PORT}"
RESULTS = {407: "unproven", 403: "denied", 408: "no answer", 486: "busy", 487: "cancelled", 600: "busy"}
CROSSED = 0.01  # seconds
SECRET = re.compile(rb"(?i)(proxy-)?authorization *:")
HIDDEN = re.compile(rb"(?i)(proxy-)?authorization *: *digest( *[a-z_-]+=\"?x*\"?,?)+ *")
FIELDS = {
    "frame": "frame.number", "at": "frame.time_epoch", "source": "ip.src", "source_port": "udp.srcport", "target": "ip.dst", "target_port": "udp.dstport", "data": "udp.payload",
    "method": "sip.Method", "status": "sip.Status-Code", "call": "sip.Call-ID", "number": "sip.CSeq.seq", "of": "sip.CSeq.method",
    "from_tag": "sip.from.tag", "to_tag": "sip.to.tag", "to_user": "sip.to.user", "branch": "sip.Via.branch", "contacts": "sip.Contact",
    "user": "sip.auth.username", "response": "sip.auth.digest.response", "uri_user": "sip.r-uri.user", "uri_host": "sip.r-uri.host",
}  # fmt: skip
SVG = "{http://www.w3.org/2000/svg}"
failures = []


def say(what, well=True, told=""):
    print(f"{'ok' if well else 'FAILED'}: {what}{'' if well else f': {told}'[:3000]}", flush=True)
    if not well:
        failures.append(what)


class Packet:
    """A datagram of a capture, by what tshark says of it."""

    def __init__(self, values):
        self.__dict__.update(values)
        self.source, self.target = f"{self.source}:{self.source_port}", f"{self.target}:{self.target_port}"
        self.at, self.data, self.comes = float(self.at), bytes.fromhex(self.data.replace(":", "")), self.target == AT
        self.status, self.branch = int(self.status or 0), self.branch.split("|")[0]
        self.user, self.response = self.user.strip('"'), self.response.strip('"')
        self.same = self.source, self.target, self.data

    def bindings(self):
        """The contacts of a 200 to a REGISTER, with their seconds."""
        return {found[1]: int(found[2]) for found in re.finditer(r"<([^>]*)>[^,|]*?;expires=(\d+)", self.contacts)}


def packets_in(path):
    """The datagrams to and from the server's port, in their order."""
    words = [word for name in FIELDS.values() for word in ("-e", name)]
    text = done("tshark", "-n", "-r", path, "-Y", f"udp.port == {PORT} and !icmp", "-T", "fields", "-E", "aggregator=|", *words)
    return [Packet(dict(zip(FIELDS, line.split("\t")))) for line in text.splitlines()]


def counted(path, without=()):
    """How many of each method and status tshark counts, but for some packets."""
    chosen = f",!(frame.number in {{{', '.join(packet.frame for packet in without)}}})" if without else ""
    text = done("tshark", "-n", "-q", "-r", path, "-z", "sip,stat" + chosen)
    return sorted((name, int(count)) for name, count in re.findall(r"^\s+(\S.*?)\s*:\s*(\d+) Packets", text, re.M))


def matched(told, seen):
    """The pairs of both, where what comes from one address stands in one order; and what was seen alone, and told alone."""
    waiting = collections.defaultdict(collections.deque)
    for packet in seen:
        waiting[packet.source].append(packet)
    pairs, alone, missing = [], [], []
    for packet in told:
        rest = waiting[packet.source]
        if not any(packet.same == other.same for other in rest):
            missing.append(vars(packet))
            continue
        while rest[0].same != packet.same:
            alone.append(rest.popleft())
        pairs.append((packet, rest.popleft()))
    return pairs, [*alone, *(packet for rest in waiting.values() for packet in rest)], missing


def compared_packets(day):
    """(1) The trace and the capture have the same packets. Gives those of the trace, those of the capture that the server heard and sent, and
    those that it didn't hear."""
    told, seen = packets_in(day.trace), packets_in(day.seen)
    pairs, alone, missing = matched(told, seen)
    say(f"each of {len(told)} packets of the trace was seen, with its bytes and addresses, in the order of its sender", not missing, missing)
    unsaid = [vars(packet) for packet in alone if not packet.comes]
    say("each packet that the server was seen to send is in the trace", not unsaid, unsaid)
    unheard = [packet for packet in alone if packet.comes]
    compared_unheard(day, unheard)
    compared_order(day, seen, pairs)
    return told, [theirs for _, theirs in pairs], unheard


def compared_order(day, seen, pairs):
    """What the trace has in front of a packet that was sent had come by then. What two phones send at once may be seen in another order than
    the server's socket has it, since the kernel takes each on a processor of its own. And the moments are the same."""
    places = {id(packet): place for place, packet in enumerate(seen)}
    heard, last, crossed, early = -1, 0, 0, []
    for ours, theirs in pairs:
        if ours.comes:
            crossed, last, heard = max(crossed, last - theirs.at), max(last, theirs.at), max(heard, places[id(theirs)])
        elif places[id(theirs)] < heard:
            early.append(vars(ours))
    say("what it sent was seen behind what it had heard by then", not early, early)
    say(f"what came from several phones was seen in the order of the trace, but for {crossed * 1000:.3f} ms", crossed < CROSSED)
    late = max((abs(ours.at - theirs.at) for ours, theirs in pairs), default=math.inf)
    told = f"moments of trace and capture are {late * 1000:.0f} ms apart at most, where the server stood still for {day.slow * 1000:.0f} ms"
    say(told, late < 1 + day.slow)


def compared_unheard(day, unheard):
    """What came and isn't in the trace is told, with its reason."""
    before = [packet for packet in unheard if packet.at < day.began]
    behind = [packet for packet in unheard if packet.at > day.ended]
    dropped = len(unheard) - len(before) - len(behind)
    for packets, why in ((before, "before it served"), (behind, "when it served no more"), (unheard, "in all")):
        sources = collections.Counter(packet.source for packet in packets)
        print(f"told: not heard {why}: {len(packets)}, {', '.join(f'{count} from {source}' for source, count in sources.items())}")
    say(f"each other packet to its port is in the trace, but for {dropped} that the kernel dropped", dropped == day.dropped and before and behind, (dropped, day.dropped))


def compared_statistics(day, unheard):
    """(2) tshark reads the trace, and counts the same in both, but for what wasn't heard."""
    for what, words in (("is malformed", ("-Y", "_ws.malformed")), ("has a wrong checksum", ("-o", "ip.check_checksum:TRUE", "-Y", "ip.checksum.status == 0"))):
        bad = done("tshark", "-n", "-r", day.trace, *words)
        say(f"no packet of the trace {what}", bad == "", bad)
    ours, theirs = counted(day.trace), counted(day.seen, [packet for packet in unheard if packet.call])
    say(f"tshark counts the same methods and statuses in both: {', '.join(f'{name} {count}' for name, count in ours)}", ours == theirs != [], (ours, theirs))


class Dialed:
    """An INVITE outside a dialog, and what became of it, by a capture."""

    def __init__(self, number, invite, behind):
        self.number, self.invite, self.call = number, invite, invite.call
        of_call = [packet for packet in behind if packet.call == invite.call]
        answers = (it for it in of_call if not it.comes and it.status >= 200 and (it.of, it.branch, it.target) == ("INVITE", invite.branch, invite.source))
        self.final = next(answers, None)
        self.sent = any(it.method == "INVITE" and not it.comes and it.number == invite.number for it in of_call)
        self.bye = self.bye_in(of_call) if self.final and self.final.status < 300 else None

    def bye_in(self, of_call):
        tags = {self.invite.from_tag, self.final.to_tag}
        byes = [it for it in of_call if it.method == "BYE" and it.at > self.final.at and {it.from_tag, it.to_tag} == tags]
        on = {(it.number, it.from_tag) for it in byes if not it.comes}
        return next((it for it in byes if it.comes and (it.number, it.from_tag) in on), None)

    def result(self):
        if not self.final:
            return "open"
        status = self.final.status
        if status < 300:
            return "answered"
        if status in (403, 407) and self.sent:
            return str(status)
        return RESULTS.get(status, str(status))

    def words(self):
        """What stands in a row: the datagram's number, the Call-ID, who called from where, whom, the result, and who ended it."""
        invite, result = self.invite, self.result()
        by = "" if not self.bye else "caller" if self.bye.from_tag == invite.from_tag else "callee"
        return [str(self.number), self.call, "" if result == "unproven" else invite.user, invite.source, f"{invite.uri_user}@{invite.uri_host}", result, by]

    def lengths(self):
        """How long it rang and was talked, in seconds."""
        ring = self.final.at - self.invite.at if self.final else None
        return ring, self.bye.at - self.final.at if self.bye else None

    def state(self, moment):
        """How it stood at a moment, and since when; nothing, where it didn't stand."""
        if self.invite.at > moment or not self.sent:
            return None
        if not self.final or self.final.at > moment:
            return "rings", self.invite.at
        talks = self.final.status < 300 and not (self.bye and self.bye.at <= moment)
        return ("talks", self.final.at) if talks else None


def dialed_in(seen):
    """The calls of what the server heard and sent, each by its first datagram, whose number is its place among those that came."""
    firsts, number = {}, 0
    for place, packet in enumerate(seen):
        number += packet.comes
        if packet.comes and packet.method == "INVITE" and not packet.to_tag:
            firsts.setdefault((packet.source, packet.call, packet.number, packet.branch), Dialed(number, packet, seen[place:]))
    return list(firsts.values())


def off(said, moment):
    """How far a moment is from the second that is said, in seconds."""
    return max(0, abs(datetime.datetime.fromisoformat(said).timestamp() + 0.5 - moment) - 0.5)


def apart(row, call):
    """How far start, ring and talk of a row are from those of the capture, in seconds."""
    for ours, theirs in zip((row["ring_ms"], row["talk_ms"]), call.lengths()):
        yield 0 if ours == "" and theirs is None else math.inf if ours == "" or theirs is None else abs(int(ours) / 1000 - theirs)
    yield off(row["start"], call.invite.at)


def compared_calls(day, dialed):
    """(3) Each INVITE outside a dialog has a row, as it went."""
    rows = day.asks("calls", "--challenged")
    ours = [[row[name] for name in ("number", "call_id", "caller", "from", "called", "result", "ended_by")] for row in rows]
    theirs = [call.words() for call in dialed]
    say(f"each INVITE outside a dialog has one row: {', '.join(words[5] for words in ours)}", ours == theirs != [], (ours, theirs))
    late = max((max(apart(row, call)) for row, call in zip(rows, dialed)), default=math.inf)
    say(f"start, ring and talk of rows and capture are {late * 1000:.0f} ms apart at most", late <= 1, rows)
    proven = [row["number"] for row in rows if row["result"] != "unproven"]
    say("without --challenged those that were asked for a credential are left out", [row["number"] for row in day.asks("calls")] == proven)
    answered = sum(row["result"] == "answered" for row in rows)
    status, table, _ = ended("calls", "--record", day.record)
    say("the table counts them", status == 0 and f"\ncalls: {len(proven)}, answered: {answered}, talked: " in table, table)


def bound_at(seen, moment):
    """Who was registered at a moment, by the 200s of REGISTER: the address, the contact and from where, with its end and its last 200."""
    bound = {}
    for packet in seen:
        if packet.of == "REGISTER" and packet.status == 200 and packet.at <= moment:
            ends = {uri: packet.at + seconds for uri, seconds in packet.bindings().items()}
            bound[packet.to_user] = {(f"{packet.to_user}@{SERVER}", uri, packet.target): (end, packet.at) for uri, end in ends.items() if end > moment}
    return {binding: of for of_user in bound.values() for binding, of in of_user.items()}


def are_bound(rows, bound, moment, within):
    """Whether rows of `sipd phones` are these, with the last REGISTER within a second, and what is left within so many: a 200 has the next whole
    second, a row the one before."""
    ours = {(row["registered"], row["contact"], row["from"]): row for row in rows}
    if len(rows) != len(ours) or ours.keys() != bound.keys():
        return False
    return all(abs(int(row["left"]) + 1 - (bound[it][0] - moment)) <= within and off(row["since"], bound[it][1]) <= 1 for it, row in ours.items())


def do_stand(rows, stood, moment, within):
    """Whether rows of `sipd now` are these calls, each as long as it has stood so, within so many seconds."""
    if [(row["call_id"], row["state"]) for row in rows] != [(call, state) for call, (state, _) in stood]:
        return False
    return all(abs(int(row["for_ms"]) / 1000 - (moment - since)) <= within for row, (_, (_, since)) in zip(rows, stood))


def compared_moments(day, seen, dialed):
    """(4) Who was registered, and which calls stood, at each moment, and at the record's end."""
    end = math.ceil(day.ended)
    for moment in (*day.moments, day.ended, end + 1, end + 90, end + 4000):
        clock = datetime.datetime.fromtimestamp(moment + 3600, datetime.timezone.utc).strftime("%Y-%m-%dT%H:%M:%S")
        words, within = ((), 2.1) if moment is day.ended else (("--at", clock), 1.1)  # a record ends with its last second
        phones, calls, bound = day.asks("phones", *words), day.asks("now", *words), bound_at(seen, moment)
        stood = [(call.call, call.state(moment)) for call in dialed if call.state(moment)]
        well = are_bound(phones, bound, moment, within) and do_stand(calls, stood, moment, within)
        told = f"at {clock} {len(phones)} contacts were registered, calls: {', '.join(row['state'] for row in calls) or 'none'}"
        say(told, well, (phones, bound, calls, stood))


def rung(row):
    """The seconds of an arrow, its method or status, and whether that is said to be again."""
    label = re.search(r"─ ([^─]+) ─", row)[1]
    return float(row.split()[0]), label.split(" ")[0], label.endswith(" again")


def rungs_of(packets):
    """The same of the packets of a call."""
    for place, packet in enumerate(packets):
        again = any(packet.same == earlier.same for earlier in packets[:place])
        yield round(packet.at - packets[0].at, 3), packet.method or str(packet.status), again


def drawn(text):
    """The arrows of a drawing, as a reader of XML has them."""
    for row in ElementTree.fromstring(text).iter(f"{SVG}g"):
        if "note" not in row.get("class").split():
            time, label = (it.text for it in row.iter(f"{SVG}text"))
            yield float(time.removesuffix(" s")), label.split(" ")[0], label.endswith(" again")


def compared_ladders(day, told, seen):
    """(5) The ladder of each call has an arrow for each packet, at the moment that the trace says, and so has its drawing."""
    counts = collections.Counter(packet.call for packet in seen if packet.call)
    arrows = again = 0
    for call, count in counts.items():
        status, text, complaints = ended("ladder", "--record", day.record, "--", call)
        ours = [rung(line) for line in text.splitlines() if "▶" in line or "◀" in line]
        theirs = list(rungs_of([packet for packet in told if packet.call == call]))
        arrows, again = arrows + len(ours), again + sum(it[2] for it in ours)
        if (status, complaints, len(ours)) != (0, "", count) or ours != theirs:
            say("a ladder has an arrow for each packet of its call", False, (call, status, complaints, count, ours, theirs))
        status, text, complaints = ended("ladder", "--svg", "--record", day.record, "--", call)
        if (status, complaints) != (0, "") or list(drawn(text)) != theirs:
            say("so has its drawing", False, (call, status, complaints, text))
    say(f"the ladders of {len(counts)} Call-IDs have {arrows} arrows, {again} of them again, one for each packet", arrows == sum(counts.values()) > 0)


def is_hidden(ours, theirs):
    """Whether a packet is as it was, but for its credentials and its body."""
    (head, _, body), (plain, _, _) = (data.partition(b"\r\n\r\n") for data in (ours.data, theirs.data))
    lines, names = head.split(b"\r\n"), plain.split(b"\r\n")
    kept = [left == right or SECRET.match(right) and HIDDEN.fullmatch(left) for left, right in zip(lines, names)]
    same = len(lines) == len(names) and len(ours.data) == len(theirs.data) and (ours.at, *ours.same[:2]) == (theirs.at, *theirs.same[:2])
    return same and all(kept) and not body.strip(b"x\r\n")


def compared_hidden(day, told):
    """With --hide no digest response and no body stands in the trace; all else does."""
    path = day.traced("hidden.pcap", "--hide")
    hidden, data = packets_in(path), read(path)
    responses = {packet.response.encode() for packet in told if packet.response}
    bodies = {line for packet in told for line in packet.data.partition(b"\r\n\r\n")[2].split(b"\r\n") if packet.call and len(line) > 7}
    shown = [it for it in (*responses, *bodies) if it in data]
    say(f"none of {len(responses)} digest responses and {len(bodies)} lines of bodies is in the hidden trace", responses and bodies and not shown, shown)
    other = [vars(ours) for ours, theirs in zip(hidden, told) if not is_hidden(ours, theirs)]
    say("and all else of it is as it was", not other and len(hidden) == len(told), other)


def compared_call(day, told):
    """The trace of one call, by its number and by its Call-ID, has the packets of that."""
    row = day.asks("calls")[0]
    theirs = [packet.same for packet in told if packet.call == row["call_id"]]
    ours = [[packet.same for packet in packets_in(day.traced(f"by_{name}.pcap", "--", row[name]))] for name in ("number", "call_id")]
    say(f"the trace of a call has the {len(theirs)} packets of its Call-ID", ours == [theirs, theirs] and theirs != [])


def compared(day):
    day.trace = day.traced("trace.pcap")
    told, seen, unheard = compared_packets(day)
    compared_statistics(day, unheard)
    dialed = dialed_in(seen)
    compared_calls(day, dialed)
    compared_moments(day, seen, dialed)
    compared_ladders(day, told, seen)
    compared_hidden(day, told)
    compared_call(day, told)


