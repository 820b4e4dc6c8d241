#!/usr/bin/env python3
"""Counts how often what a REGISTER, an INVITE, a 200 and a BYE say is read in `sipd replay`: `bench/count_readings.py [PROGRAM]`, at
the top.

The aim is that each message's top Via, its four core fields and each of its URIs are read once. Calls are counted by breakpoints
(tests/ran.py) in a program that is built without a proof, in which no function is put into its callers; one that isn't given is built
as tests/map_runs.py does, in some minutes, or is that of the folder `KEPT`. What a message makes the server read is what a script that
ends behind it calls more than one that ends in front of it; timers that fire later aren't in it. Behind the table stands which
functions have a URI of the message read, and how often. It ends with 1 where there is a reader of URIs that it doesn't know.
"""

import collections
import os
import subprocess
import sys
import tempfile

import replays

sys.path.insert(0, os.path.join(os.path.dirname(os.path.abspath(__file__)), "..", "tests"))
from map_runs import programs  # noqa: E402
from ran import Counted  # noqa: E402

# The readers of a URI, none of which calls another. Each begins with BEGIN, which nothing else calls.
URI_READERS, BEGIN = ("parse_uri", "plain_at", "plain_of", "plain_host_port", "plain_uri_at"), "behind_sip"
READERS = {"`via_of`": ("via_of",), "`core_of`": ("core_of",), "a URI: " + ", ".join(f"`{name}`" for name in URI_READERS): URI_READERS}
# How many of these a message has to be read.
MESSAGES = {
    # Request-URI, From, To, Contact, and the URI of a credential
    "a REGISTER, answered 200": (1, 1, 5),
    "the same, once more": (1, 1, 5),
    # Request-URI, From, To, Contact, and three bindings
    "an INVITE to three phones": (1, 1, 7),
    # To, of which the tag is asked, Contact, Record-Route
    "its 200": (1, 1, 3),
    # Request-URI, From, To, Route
    "the BYE": (1, 1, 4),
}


def parts():
    """Scripts of which each has more than the one before it, and what that is."""
    script = replays.Script()
    first, *others = (f"sip:help@127.0.0.1:{replays.PHONE + place}" for place in range(3))
    nonce = f"{script.register('help', [first]):032x}"
    yield script.text(), None
    for count, name in ((1, "a REGISTER, answered 200"), (2, "the same, once more")):
        script.time(80_000)
        yield script.text(), None
        script.register("help", [first], (nonce, count))
        yield script.text(), name
    script.time(80_000)
    script.pair("help", others)
    script.time(80_000)
    yield script.text(), None
    request = script.invite("k")
    yield script.text(), "an INVITE to three phones"
    script.answer(200, "k", request)
    yield script.text(), "its 200"
    script.in_dialog("ACK", "k", 1, 7)
    yield script.text(), None
    script.in_dialog("BYE", "k", 1, 8)
    yield script.text(), "the BYE"


def last_word(symbol):
    """The name of a function, without its path and what it is made for."""
    return symbol.partition("::<")[0].rpartition("::")[2]


def calls(program, script, folder):
    """How often a reader is called, by its caller's name and its own."""
    names, counts = {BEGIN, *(name for some in READERS.values() for name in some)}, collections.Counter()
    counted = Counted(program, lambda symbol: symbol.startswith("sip_") and last_word(symbol) in names)
    with tempfile.NamedTemporaryFile("w", dir=folder) as config, tempfile.TemporaryFile() as given:
        config.write(replays.configuration())
        config.flush()
        given.write(script.encode())
        given.seek(0)
        status = counted.run(["sipd", "replay", "--config", config.name], stdin=given, stdout=subprocess.DEVNULL)
    if status != 0:
        sys.exit(f"status {status}")
    for (caller, symbol), count in counted.calls.items():
        counts[last_word(caller), last_word(symbol)] += count
    return counts


def called(counts, names):
    return sum(count for (_, name), count in counts.items() if name in names)


def main():
    with tempfile.TemporaryDirectory() as folder, programs(sys.argv[1:2], ["sipd"]) as paths:
        told, before = {}, collections.Counter()
        for script, name in parts():
            now = calls(paths["sipd"], script, folder)
            told[name], before = now - before, now
    del told[None]
    print("| What is read | " + " | ".join(f"{message} | aim" for message in MESSAGES) + " |\n|---|" + "---|---|" * len(MESSAGES))
    for place, (what, names) in enumerate(READERS.items()):
        print(f"| {what} | " + " | ".join(f"{called(told[message], names)} | {aims[place]}" for message, aims in MESSAGES.items()) + " |")
    for message in MESSAGES:
        who = collections.Counter({by: count for (by, name), count in told[message].items() if name in URI_READERS})
        print(f"{message}: " + ", ".join(f"`{by}` {count}" for by, count in who.most_common()))
    if called(before, [BEGIN]) != called(before, URI_READERS):
        sys.exit(f"URIs are begun {called(before, [BEGIN])} times, and those that read them are called {called(before, URI_READERS)} times")


if __name__ == "__main__":
    main()
