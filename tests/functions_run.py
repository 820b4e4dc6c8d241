#!/usr/bin/env python3
"""Whether each function on a message's way runs: `tests/functions_run.py [SIPD [TEST_SERVER]]`. It does what is stored, each run of
crates/test_server/data and each script of examples/ by `sipd`, with the script of tests/seldom.py, and what `test_server` tries, and
prints by room the functions that no run came to, of the rooms in which a datagram is heard, read, judged, answered and recorded: from
sip_text up to sip_engine and sip_loop, and sip_guard. It serves over a socket, too, with a limit, a record and a file that changes.

It looks at programs that are built without a proof, as tests/map_runs.py does, in which no function is put into its callers; what no
program calls isn't in them. What never runs has its reason in WITHOUT, in words that stand at the function; where they don't, that is
said, for the next change of the room. It ends with 1 where a function without a reason didn't run, or one with a reason did. A run that
doesn't end as it is stored ends it. It takes five minutes, and the builds some minutes each; no gate runs it. It
needs `nm`, and Linux on x86-64."""

import glob
import os
import re
import socket
import sys
import tempfile
import threading
from functools import lru_cache
from itertools import chain, count

import phone
import seldom
from double_edits import TOP, USES, below
from map_runs import programs, text
from ran import Watched

DATA, EXAMPLES = os.path.join(TOP, "crates", "test_server", "data"), os.path.join(TOP, "examples")
ROOMS = [room for room in USES if room in (*below("sip_loop"), "sip_loop", "sip_guard", "sip_timers_wheel", "sip_policy_index")]
# What turns want of memory into a room's own error, as its name says: that is asked of no run.
WANT_OF_MEMORY = re.compile(r"From(AllocError|AllocFailed)::from$")
# Why functions that no run comes to are there all the same, in words that stand at them.
REASONS = {
    # no run makes two keys whose hashes of 64 bits are equal
    "only where two have one digest": [
        "sip_dialog::rows::search",
        "sip_location::binding_table::join",
        "sip_transaction_table::numbered_rows::NumberedRows::scan",
    ],
    # bench/full_tables.py fills the table of dialogs
    "only where as many rows stand as may be known": ["sip_dialog::rows::DialogRows::forget"],
    "only where half the table is full of sources": ["sip_guard::sources::Sources::forget_earlier"],
    # a value that is made is taken apart, but where memory is wanting in between
    "dropped only for want of memory": [
        "sip_verdict::registering::Registering::drop",
        "sip_dialog_updates::dialog_update::DialogUpdate::drop",
        "sip_uas::judged_request::JudgedRequest::drop",
    ],
    "of a request that is answered here, of which no step asks it": [
        "sip_state::kept_request::put_unread",
        "sip_state::kept_request::unread_names",
        "sip_state::kept_request::unread_routes",
        "sip_state::names::names_in",
    ],
    "no deadline comes to it: the room above ends the side where it stands": [
        "sip_context::deadlines::pass_side",
        "sip_context::events::expire_side",
    ],
    "no response that is made as a view has further fields": [
        "sip_message_fields::view_field::ViewField::of_field",
        "sip_message_fields::view_name::ViewName::of_field_name",
    ],
    "no step asks for a field of such a name": ["sip_message_fields::view_name::ViewName::of_other"],
    "no response is kept so": ["sip_message_form::kept_start::put_status"],
    "no request is kept so": ["sip_message_form::kept_text::put_request"],
    "no step asks it of what is no URI": ["sip_targets::request_uri::nobody"],
    # by tests/refuse_each.sh, after which the bindings have to be the same
    "only tests ask for it, where a step was refused its memory": [
        "sip_location::binding::BindingRef::aor",
        "sip_location::binding::BindingRef::call_id",
    ],
    # tests/serve.py has it
    "only where a packet can't be sent, over a socket and without a record": ["sip_journal::no_journal::NoJournalJournal::failed"],
}
WITHOUT = {symbol: reason for reason, some in REASONS.items() for symbol in some}


@lru_cache(None)
def code_of(room):
    """The texts of a room's modules."""
    return [text(path) for path in sorted(glob.glob(os.path.join(TOP, "crates", room, "src", "**", "*.rt"), recursive=True))]


@lru_cache(None)
def written(room):
    """The names of the functions that a room's text has."""
    return {name for code in code_of(room) for name in re.findall(r"\bfn (\w+)", code)}


@lru_cache(None)
def name_of(symbol):
    """A function's name without what it is made for; None of what isn't asked for: of another room, a closure, what no text has, as what
    drops the parts of a value or what a trait gives, and what is made of want of memory."""
    name = symbol.partition("::<")[0]
    room, _, last = name.partition("::")[0], *name.rpartition("::")[1:]
    if room not in ROOMS or "+" in name or "::fn::" in name or last not in written(room) or WANT_OF_MEMORY.search(name):
        return None
    return name


def read(path):
    """What a file says; nothing, where there is none."""
    if not os.path.exists(path):
        return b""
    with open(path, "rb") as file:
        return file.read()


def stored():
    """The runs that are stored: the words, the folder, what is given and what is printed, and the status."""
    for name in sorted(file[: -len(".args")] for file in os.listdir(DATA) if file.endswith(".args")):
        path = os.path.join(DATA, name)
        # what a damaged datagram makes of itself, `test_server` knows
        if not os.path.exists(path + ".damage"):
            given = path + (".script" if os.path.exists(path + ".script") else ".input")
            printed = None if os.path.exists(path + ".md5") else path + ".out"
            words = read(path + ".args").decode().splitlines()
            yield ["sipd", *words], DATA, read(given), printed, int(read(path + ".status") or 0)
    for name in sorted(file for file in os.listdir(EXAMPLES) if file.endswith(".script")):
        path = os.path.join(EXAMPLES, name)
        yield ["sipd", "replay"], EXAMPLES, read(path), path.replace(".script", ".out"), 0
    yield ["sipd", "replay"], EXAMPLES, seldom.script().encode(), None, 0


def tried():
    """What `test_server` tries: all that the gate compares, and the steps of a script."""
    crate, script = os.path.join(TOP, "crates", "test_server"), os.path.join(DATA, "registered")
    yield ["test_server"], DATA, b"", os.path.join(crate, "stdout"), 0
    yield ["test_server", "refusals"], DATA, read(script + ".script"), script + ".out", 0


def knock(port, config, is_over):
    """Sends a server what it is to hear, and changes its configuration: a rule's verdict, and then the realm, which may not change."""
    request = ["OPTIONS sip:x@office.local SIP/2.0", "Via: SIP/2.0/UDP 127.0.0.1:9;branch=z9hG4bK{0}", "Max-Forwards: 70", "From: <sip:a@b>;tag=1"]
    request += ["To: <sip:x@office.local>", "Call-ID: {0}", "CSeq: 1 OPTIONS", "Content-Length: 0", "", ""]
    text = read(config)
    changes = {60: text.replace(b'"deny"', b'"allow"', 1), 120: text.replace(b'realm = "', b'realm = "another ', 1)}
    sockets = [socket.socket(socket.AF_INET, socket.SOCK_DGRAM) for _ in range(3)]
    for place, it in enumerate(sockets, 1):
        # of the first address, as of a hop's, all is heard
        it.bind((f"127.0.0.{place}", 0))
    for number in count():
        if number in changes:
            with open(config, "wb") as file:
                file.write(changes[number])
        data = "\r\n".join(request).format(number) if number % 20 > 2 else ""
        sockets[number % 3].sendto(data.encode(), ("127.0.0.1", port))
        if is_over.wait(0.05):
            break
    for it in sockets:
        it.close()


def served(folder):
    """What `sipd serve` does over a socket, with a record, and what is done with that: it is replayed and gone on from."""
    port, is_over = phone.free_port(), threading.Event()
    config, record = phone.office(folder, port), os.path.join(folder, "record")
    serve = ["sipd", "serve", "--config", config, "--per-source", "2", "--status", os.path.join(folder, "status")]
    beside = threading.Thread(target=knock, args=(port, config, is_over), daemon=True)
    beside.start()
    yield [*serve, "--record", record, "--reload", "--turns", "240"], folder, b"", None, 0
    is_over.set()
    beside.join()
    phone.office(folder, port)
    yield ["sipd", "replay", "--record", record], folder, b"", None, 0
    yield [*serve, "--resume", record, "--record", record + "2", "--turns", "1"], folder, b"", None, 0


def ran_of(path, runs):
    """The functions of a program, and those to which one of these runs comes."""
    program = Watched(path, lambda symbol: name_of(symbol) is not None)
    functions = dict(program.left)
    for words, folder, given, wanted, status in runs:
        with tempfile.TemporaryFile() as script, tempfile.TemporaryFile() as printed, open(os.devnull, "wb") as told:
            script.write(given)
            script.seek(0)
            ended = program.run(words, cwd=folder, stdin=script, stdout=printed, stderr=told)
            printed.seek(0)
            if ended != status or wanted is not None and printed.read() != read(wanted):
                sys.exit(f"functions_run: {' '.join(words)}: not what is stored, status {ended}")
    places = (functions, functions.keys() - program.left.keys())
    return [{name_of(symbol) for place in some for symbol in functions[place]} for some in places]


def above(lines, at):
    """The comment in front of a line."""
    first = at
    while first > 0 and re.match(r" *(//|#\[)", lines[first - 1]):
        first -= 1
    return [line for line in lines[first:at] if "//" in line]


def said_at(symbol):
    """What comments say at the functions of a room that have this name: in front of them, in them, and in front of their block."""
    said, name = [], symbol.rpartition("::")[2]
    for code in code_of(symbol.partition("::")[0]):
        lines = code.splitlines()
        for at, line in enumerate(lines):
            if found := re.match(rf"( *)(?:pub(?:\(\w+\))? )?(?:const )?fn {name}\b", line):
                block = max((other for other in range(at) if re.match(r"(pub )?(impl|trait)\b", lines[other])), default=0) if found[1] else 0
                end = next((other for other in range(at, len(lines)) if lines[other] == found[1] + "}"), at)
                said += above(lines, block) + above(lines, at) + [line for line in lines[at:end] if "//" in line]
    return " ".join(re.sub(r".*?//[/!]?", "", line).strip() for line in said)


def main():
    with programs(sys.argv[1:]) as paths, tempfile.TemporaryDirectory() as folder:
        told = [ran_of(paths["sipd"], chain(stored(), served(folder))), ran_of(paths["test_server"], tried())]
    functions, ran = (set.union(*some) for some in zip(*told))
    wrong = 0
    for room in ROOMS:
        own = {symbol for symbol in functions if symbol.partition("::")[0] == room}
        left = sorted(own - ran - set(WITHOUT))
        wrong += len(left)
        if left:
            print(f"{room}: {len(left)} of {len(own)} never run")
            print("".join(f"    {symbol}\n" for symbol in left), end="")
    for symbol in WITHOUT:
        if symbol in ran or symbol not in functions:
            wrong += 1
            print(f"{symbol}: a reason why it never runs is told, and it {'does' if symbol in ran else 'is in no program'}")
    for reason, some in REASONS.items():
        unsaid = [symbol for symbol in some if reason not in said_at(symbol)]
        if unsaid:
            print(f"to be said at {', '.join(unsaid)}: {reason}")
    print(f"{len(functions)} functions, {len(functions - ran)} never run, {len(set(WITHOUT) - ran)} of them for a reason, {wrong} faults")
    sys.exit(1 if wrong else 0)


if __name__ == "__main__":
    main()
