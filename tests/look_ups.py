#!/usr/bin/env python3
"""Whether who looks for one of thirty things finds one door in docs/MAP.md: `tests/look_ups.py`. It proves nothing and takes no
second.

A look-up is what is looked for, the words that a reader would search for, and the function to which the page has to lead. Its
words have to stand together in the first columns of one row alone: section and subject, or what is to be changed; each whole, and one
in small letters in any case. That row has to name the function. What has several answers (Timer C is set, is set anew, and passes) has
a line for each. It ends with 1 where a look-up finds no row, several, or another function."""

import os
import re
import sys

PAGE = os.path.join(os.path.dirname(os.path.dirname(os.path.abspath(__file__))), "docs", "MAP.md")
FIRST = ("Section", "About", "To change")
DOORS = ("Decided by", "Go to")
LOOK_UPS = [
    ("Timer A is set first", ["Timer A", "first set"], "new_branch"),
    ("Timer A passes, and is set again", ["Timer A", "pass"], "branch_next"),
    ("Timer C is set", ["Timer C", "is sent"], "invite_part"),
    ("Timer C is set anew", ["Timer C", "anew"], "invite_heard"),
    ("Timer C passes", ["Timer C", "passes"], "expire_heard"),
    ("how long Timer C is", ["Timer C", "185,000 ms"], "TIMER_C"),
    ("a 503 becomes a 500", ["503", "becomes", "500"], "going_up"),
    ("a nonce's age", ["nonce", "lives"], "LIFE"),
    ("Record-Route is written", ["Record-Route", "says", "put in"], "put_record_route"),
    ("a CANCEL's 200", ["CANCEL", "200"], "cancel_at"),
    ("an audit line is made", ["audit line", "says"], "line_of"),
    ("an audit line is printed", ["audit line", "printed"], "print_records"),
    ("want of memory in a step", ["step", "refuses"], "StepError"),
    ("want of memory while it serves", ["memory", "serves"], "exit_of_serve"),
    ("a record of events is written", ["written", "event", "record"], "text_front"),
    ("a Via gets received and rport", ["Via", "received", "rport"], "received_top"),
    ("forking", ["forking"], "branches_to"),
    ("the best response", ["which response", "the best"], "better"),
    ("when the best response goes up", ["when", "the best"], "best_upward"),
    ("a Digest is checked", ["Digest", "wrong"], "Nonces::check"),
    ("which request a CANCEL matches", ["a CANCEL names"], "find_named"),
    ("100 Trying", ["100", "Trying"], "is_tried"),
    ("481 for want of a dialog", ["481", "dialog"], "request_within"),
    ("481 to a CANCEL", ["481", "CANCEL"], "find_named"),
    ("the key of 17.2.3", ["17.2.3", "branch", "sent-by"], "TransactionKey::of_request"),
    ("the request that 17.2.3 finds", ["17.2.3", "open request"], "TransactionTable::find"),
    ("an expired binding is called no more", ["binding", "expired"], "LiveBindings::next"),
    ("a 403's Warning", ["Warning", "403"], "denial_warning"),
    ("16 bindings", ["16", "bindings"], "MOST"),
    ("the wait before a turn", ["waits", "before", "turn"], "Guard::wait_until_due"),
    ("the socket is opened", ["socket"], "UdpLink::bind"),
    ("further 2xx of a branch", ["further", "2xx", "branch"], "further"),
    ("a host without DNS", ["DNS"], "Hops::address_of"),
    ("mistakes in a file", ["file", "refused", "said"], "read_or_tell"),
    ("a limit for each source", ["source", "how much"], "Limit::of_rate"),
    ("a signal, and the end", ["signal"], "do_turns"),
    ("482", ["482", "Via"], "UncheckedRequest::own_via"),
    ("how a response is written on", ["response", "written"], "put_start_line"),
    ("OPTIONS to the server itself", ["OPTIONS"], "Operation::of_request"),
]


def rows():
    """The rows with a door: the line, what stands in the first columns, and the functions."""
    header = None
    for number, line in enumerate(open(PAGE, encoding="utf-8"), 1):
        cells = [cell.strip() for cell in line.strip().strip("|").split("|")]
        if not line.startswith("|"):
            header = None
        elif header is None:
            header = cells
        elif not set(line.strip()) <= set("|-"):
            row = dict(zip(header, cells))
            doors = [name for door in DOORS for name in re.findall(r"`([^`]+)`", row.get(door, ""))]
            if doors:
                yield number, " | ".join(row[column] for column in FIRST if column in row), doors


def has(text, word):
    case = re.IGNORECASE if word.islower() else 0
    return re.search(rf"(?<![\w.-]){re.escape(word)}(?![\w-]|\.\d)", text, case) is not None


def main():
    page, faults = list(rows()), 0
    for what, words, function in LOOK_UPS:
        found = [(number, doors) for number, text, doors in page if all(has(text, word) for word in words)]
        if len(found) != 1:
            faults += 1
            print(f"{what}: {', '.join(words)}: in {len(found)} rows{''.join(f', line {number}' for number, _ in found)}")
        elif function not in found[0][1]:
            faults += 1
            print(f"docs/MAP.md:{found[0][0]}: {what}: without {function}")
    print(f"{len(LOOK_UPS)} look-ups, {faults} faults")
    sys.exit(1 if faults else 0)


if __name__ == "__main__":
    main()
