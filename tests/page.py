#!/usr/bin/env python3
"""The page of a recorded day: phones register, call and are denied at a `sipd serve --record`, and `sipd page` makes one file of HTML of it:
`tests/page.py PROGRAM`.

The page is read by Python's own reader of HTML: it has to say that the log comes out of the record, and hold both of its digests, a row for each
row of `sipd calls` and `sipd sources`, the denials and the bindings over the time, and no tag that a phone, the log or the name of a file would
have; its headings are those of the page, of the record and of its sections. A log of which a byte is another has its line named, of a damaged
record nothing is printed, and records that follow one another are one history, as a folder of them is. What a spreadsheet would take for a formula
stands behind a quote in CSV. Where chromium is there it shows the page, by itself, without asking anybody for anything, and the picture has its
line there; `KEPT` names a folder that keeps page and picture. It says each thing that it tried, ends with 1 where one fails, and no gate runs it."""

import csv
import hashlib
import html.parser
import io
import os
import shutil
import struct
import subprocess
import sys
import tempfile
import urllib.parse
import zlib

sys.dont_write_bytecode = True
import phone
from program import Server, changed, ended, phones, read, somebody, until, write
from served import established, hung_up

TAGS = "<script>alert(1)</script>&\"'"
# a Call-ID of the same kind (RFC 3261 25.1: word)
CALL_ID = "<script>alert(1)</script>\"'@x"
# what a spreadsheet takes for the beginning of a formula; and Call-IDs and users that begin so
FORMULA = ("=", "+", "-", "@", "\t", "\r")
FORMULAS = {"=1+1": "=1+1", "+4930": "+4930", "-1": "-1", "@x": "900"}
HEADINGS = ("h1", "h2", "h3", "h4")
OF_CONFIGURATION = "SHA-256 of the configuration with which it begins"
failures = []


def say(what, holds, but=""):
    print(f"{what}: {'as it has to be' if holds else 'NOT SO ' + str(but)}")
    if not holds:
        failures.append(what)


class Reader(html.parser.HTMLParser):
    """The tables of a page under their headings, these with their levels, its tags, its texts, and the paragraphs of a class."""

    def __init__(self, text):
        super().__init__(convert_charrefs=True)
        self.tables, self.tags, self.attributes, self.paragraphs, self.heading = {}, {}, [], {}, ""
        self.within, self.text, self.blocks, self.headings = [], "", [], []
        self.feed(text)
        self.close()

    def handle_starttag(self, tag, attrs):
        self.tags[tag] = self.tags.get(tag, 0) + 1
        self.attributes += attrs
        self.within.append((tag, dict(attrs).get("class")))
        if tag in (*HEADINGS, "p", "td", "th", "pre"):
            self.text = ""
        if tag == "tr":
            self.tables.setdefault(self.heading, []).append([])

    def handle_data(self, data):
        self.text += data

    def handle_endtag(self, tag):
        while self.within and self.within[-1][0] != tag:
            self.within.pop()
        kind = self.within.pop()[1] if self.within else None
        if tag in HEADINGS:
            self.heading = self.text
            self.headings.append((tag, self.text))
        if tag == "p":
            self.paragraphs.setdefault(kind, []).append(self.text)
        if tag == "pre":
            self.blocks.append(self.text)
        if tag in ("td", "th"):
            self.tables[self.heading][-1].append(self.text)


def day(folder):
    """The record, the log and the configuration of a day: two phones register, one calls the other; a stranger asks by a name that is a tag, and
    is denied calls that have tags wherever a phone may write a text, or begin as formulas do."""
    port = phone.free_port()
    record, config = os.path.join(folder, "day <b>.record"), changed(folder, port)
    server = Server(folder, config, "--record", record)
    alice, bob = phones(port)
    assert alice.register() == [401, 200] and bob.register() == [401, 200]
    hung_up(alice, bob, established(alice, bob))
    stranger = somebody(port)
    stranger.again = False
    for user in ("carol", urllib.parse.quote(TAGS, safe="")):
        stranger.request("REGISTER", "sip:127.0.0.1", f"sip:{user}@127.0.0.1", stranger.mark(), 1, [("Contact", f"<sip:x@{stranger.at}>")])
        assert stranger.hear().status == 401
    for call, user in {CALL_ID: "900", **FORMULAS}.items():
        stranger.send(f"INVITE sip:{user}@elsewhere.example SIP/2.0", [
            ("Via", f"SIP/2.0/UDP {stranger.at};branch=z9hG4bK{stranger.mark()};rport"),
            ("Max-Forwards", "70"),
            ("From", "\"<script>alert(2)</script>&'\" <sip:x@127.0.0.1>;tag=f"),
            ("To", f"<sip:{user}@elsewhere.example>"),
            ("Call-ID", call),
            ("CSeq", "1 INVITE"),
            ("Contact", f"<sip:x@{stranger.at}>"),
            ("User-Agent", TAGS),
            ("Subject", TAGS),
        ])
        assert stranger.hear().status == 403
    server.kill()
    log = write(os.path.join(folder, "day.log"), server.printed().encode())
    return record, log, config, server


def lasting(folder, record):
    """The same record, whose time goes on for two hours."""
    lines = read(record)
    last = max(int(line.split()[1]) for line in lines.split(b"\n") if line.startswith((b"text ", b"datagram ")) and line.split()[1].isdigit())
    return write(os.path.join(folder, "long.record"), lines + b"".join(b"time %d\n" % (last + minutes * 60_000) for minutes in (20, 61, 120)))


def values(command, *records):
    """The lines of a command's CSV."""
    status, text, complaints = ended(command, "--csv", "--record", *records)
    assert (status, complaints) == (0, ""), complaints
    return list(csv.reader(io.StringIO(text, newline="")))


def rows(command, *records):
    """The same without the quote in front of what would be a formula."""
    return [[cell[1:] if cell.startswith("'") and cell[1:].startswith(FORMULA) else cell for cell in line] for line in values(command, *records)]


def no_formula(record):
    """No cell of CSV begins as a formula, and what would stands behind a quote."""
    for command in ("calls", "sources", "phones", "now"):
        cells = [cell for line in values(command, record) for cell in line]
        say(f"no cell of {command} --csv is a formula", cells and not any(cell.startswith(FORMULA) for cell in cells), cells)
    cells = [cell for line in values("calls", record) for cell in line]
    # a user's = stands as %3D, as in the log
    wanted = ["'" + call for call in FORMULAS] + [f"'{user}@elsewhere.example" for user in FORMULAS.values() if user[0] in "+-"]
    say("what would be one stands behind a quote", not {*wanted} - {*cells}, {*wanted} - {*cells})


def compared(folder, record, log, config):
    """The page of a day, held against what other commands print of it."""
    status, text, complaints = ended("page", "--record", record, "--log", log)
    say("the page is printed", (status, complaints) == (0, ""), (status, complaints))
    kept = write(os.path.join(folder, "day.html"), text.encode())
    page = Reader(text)
    lines = read(log).decode().splitlines()
    count = sum(not line.startswith("sipd: ") for line in lines)
    say("the log comes out of the record again", page.paragraphs.get("allow") == [f"The log comes out of the records again, byte for byte. Lines: {count}"], page.paragraphs)
    for command, heading in (("calls", "Calls"), ("sources", "Addresses from which datagrams came")):
        wanted, found = rows(command, record)[1:], page.tables.get(heading, [])[1:]
        say(f"the rows of {command}", bool(wanted) and found == wanted, (found, wanted))
    denied = sum(line.endswith(" deny") for line in lines)
    found = page.tables["Denied, by rule (0: none matched)"][1:]
    say("the denials", denied > 0 and sum(int(row[1]) for row in found) == denied, (found, denied))
    facts = [["SHA-256 up to its last seal", "none: its end is not sealed"], [OF_CONFIGURATION, hashlib.sha256(read(config)).hexdigest()]]
    say("the file by its name, and its digests", page.tables.get(record) == facts, page.tables.get(record))
    above = [heading for heading in page.headings if heading[0] < "h3"]
    say("a heading of the page, and one of the record", above == [("h1", "Recorded days"), ("h2", record)], page.headings)
    policy = [tag for tag, text in page.headings if text.startswith("INVITE, offset ")]
    say("the policy is a section of it", policy == ["h3"], page.headings)
    say("no script, no link, no picture from elsewhere", not {"script", "link", "img", "iframe", "object", "a"} & {*page.tags}, page.tags)
    say("nothing that is loaded", not any(name in ("src", "href", "onload", "onclick") for name, _ in page.attributes), page.attributes)
    say("nothing may be loaded", any(name == "content" and value == "default-src 'none'; style-src 'unsafe-inline'" for name, value in page.attributes))
    say("no tag of a phone's", "<script" not in text and "<b>" not in text)
    return kept


def differs(folder, record, log):
    """A log of which one byte is another, one that lacks its last line, and none."""
    lines = read(log).splitlines(keepends=True)
    own = [number for number, line in enumerate(lines) if not line.startswith(b"sipd: ")]
    other = list(lines)
    other[own[1]] = lines[own[1]].replace(b" REGISTER ", b" <b> ", 1)
    for name, text, number in (("another byte", b"".join(other), 2), ("no last line", b"".join(lines[:-1]), len(own))):
        printed = ended("page", "--record", record, "--log", write(os.path.join(folder, "other.log"), text))[1]
        page = Reader(printed)
        say(f"a log with {name}", page.paragraphs.get("deny") == [f"The log does not come out of the records again. The first line that differs: {number}"], page.paragraphs)
        said = [line.decode().rstrip("\n") for line in (text.splitlines(keepends=True)[own[number - 1] :] or [b"(no line)"])[:1] + [lines[own[number - 1]]]]
        say("and both of its texts, without a tag", page.blocks[:2] == said and "<b>" not in printed, (page.blocks[:2], said))
    page = Reader(ended("page", "--record", record)[1])
    say("without a log", "No log was held against the records." in page.paragraphs.get(None, []), page.paragraphs)


def damaged(folder, record):
    path = write(os.path.join(folder, "damaged.record"), read(record) + b"nothing\nthat says an event\n")
    status, text, complaints = ended("page", "--record", path)
    say("of a damaged record nothing", (status, text) == (3, "") and "sipd: script line " in complaints, (status, text[:80], complaints))


def audits(record):
    return [line.removeprefix("audit ") for line in ended("replay", "--record", record)[1].splitlines() if line.startswith("audit ")]


def followed(folder):
    """Two records, of which the second goes on from the first, are one history: a call has one row, and a line of the log is one, by their names and
    by their folder."""
    data = os.path.join(os.path.dirname(os.path.abspath(__file__)), "..", "crates", "test_server", "data")
    days = os.path.join(folder, "days")
    os.makedirs(days)
    records = [os.path.join(days, f"{number}.record") for number in (1, 2)]
    first, second = (read(os.path.join(data, f"calls_of_a_{day}_day.record")) for day in ("followed", "following"))
    write(records[0], first)
    write(records[1], second.replace(b"follows calls_of_a_followed_day.record", b"follows 1.record", 1))
    old, new = map(audits, records)
    log = write(os.path.join(folder, "days.log"), "".join(f"{line}\n" for line in [*old, *(line for line in new if line not in old)]).encode())
    for what, names in (("two records", records), ("their folder", [days])):
        status, text, _ = ended("page", "--record", *names, "--log", log)
        page = Reader(text)
        say(f"the log of {what} comes out of them", status == 0 and "allow" in page.paragraphs and "deny" not in page.paragraphs, page.paragraphs)
        say(f"the rows of calls of {what}", page.tables.get("Calls", [])[1:] == rows("calls", *records)[1:], page.tables.get("Calls"))
        say(f"a section for each of {what}", [heading for heading in page.tables if heading in records] == records, [*page.tables])
        sealed = [page.tables.get(path, [[]])[0][1:] for path in records]
        say(f"the digest of the sealed end of {what}", sealed == [[first.split()[-1].decode()], ["none: its end is not sealed"]], sealed)


def drawn(folder, record):
    """The bindings over two hours: two addresses at first, and none behind an hour."""
    status, text, _ = ended("page", "--record", record)
    path = text.partition('class="live" d="')[2].partition('"')[0]
    say("the picture goes up and down", status == 0 and path.startswith("M40 180H40V20H") and path.endswith("V180H940"), path)
    return write(os.path.join(folder, "long.html"), text.encode())


def nearest(left, up, corner):
    """The one of three neighbours of a byte that is nearest to what they let expect (PNG 9.4)."""
    return min((left, up, corner), key=lambda one: abs(left + up - corner - one))


# how a line of a PNG is told: what is to be added to its bytes, by their neighbours (PNG 9.2)
ADDED = [None, lambda left, up, corner: left, lambda left, up, corner: up, lambda left, up, corner: (left + up) // 2, nearest]


def blue(path):
    """How many points of a PNG are as blue as the line of the page's picture, and nothing else there. It reads what chromium writes: eight bits a
    colour, and not interlaced."""
    data, at, packed = read(path), 8, b""
    while at < len(data):
        length, kind = struct.unpack(">I4s", data[at : at + 8])
        if kind == b"IHDR":
            width, height, bits, colours, _, _, laced = struct.unpack(">IIBBBBB", data[at + 8 : at + 21])
        if kind == b"IDAT":
            packed += data[at + 8 : at + 8 + length]
        at += length + 12
    assert (bits, laced) == (8, 0) and colours in (2, 6), (bits, colours, laced)
    step, raw, found = {2: 3, 6: 4}[colours], zlib.decompress(packed), 0
    size = width * step
    above = bytes(size)
    for begin in range(0, height * (size + 1), size + 1):
        added, line = ADDED[raw[begin]], bytearray(raw[begin + 1 : begin + 1 + size])
        for i in range(size) if added else ():
            left, corner = (line[i - step], above[i - step]) if i >= step else (0, 0)
            line[i] = (line[i] + added(left, above[i], corner)) & 255
        found += sum(line[i + 2] - line[i] > 100 for i in range(0, size, step))
        above = line
    return found


def shown(page, picture):
    """The page in a browser, without the net."""
    browser = shutil.which("chromium") or shutil.which("chromium-browser")
    if not browser:
        print("left out, since there is no chromium: the page in a browser")
        return
    words = ["--headless", "--no-sandbox", "--disable-gpu", "--enable-logging=stderr", "--window-size=1100,1400", f"--screenshot={picture}", f"file://{page}"]
    done = subprocess.run([browser, *words], capture_output=True, text=True, timeout=120, check=False)
    say("the page in a browser", os.path.exists(picture) and "CONSOLE" not in done.stderr, done.stderr[-400:])
    say("the line of its picture there", os.path.exists(picture) and blue(picture) > 1000)


def main():
    with tempfile.TemporaryDirectory() as made:
        folder = os.environ.get("KEPT") or made
        os.makedirs(folder, exist_ok=True)
        record, log, config, server = day(made)
        assert until(lambda: not server.serves(), 5)
        compared(folder, record, log, config)
        no_formula(record)
        differs(made, record, log)
        damaged(made, record)
        followed(made)
        shown(drawn(folder, lasting(made, record)), os.path.join(folder, "page.png"))
    sys.exit(1 if failures else 0)


if __name__ == "__main__":
    main()
