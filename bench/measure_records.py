#!/usr/bin/env python3
"""How small a record stays, and how long a start behind one takes: `bench/measure_records.py PROGRAM [PHONES]`, after `rt run` in crates/sipd.
`bench/day.py` makes the record of so many phones (1,000 where nothing is said) that register every 600 seconds, of two hours, which is about
what one file of a folder holds, and of a whole day; each without calls and with some. It prints the bytes of each, those of the shorter record
that `sipd compact` makes of it, for each phone, and for each call that stands at its end of what came more than five minutes before, and the processor's seconds and the resident
memory of `compact` and of a start behind either. It takes some minutes."""

import os
import re
import subprocess
import sys
import tempfile
import time

HERE = os.path.dirname(os.path.abspath(__file__))
PROGRAM = os.path.abspath(sys.argv[1])
PHONES = int(sys.argv[2]) if len(sys.argv) > 2 else 1000


def run(*words):
    """What a call of the program takes: the clock's seconds, the processor's, and the resident megabytes at most."""
    before = time.monotonic()
    process = subprocess.Popen([PROGRAM, *words], stdin=subprocess.DEVNULL, stdout=subprocess.PIPE, stderr=subprocess.STDOUT)
    said = process.stdout.read()
    _, status, used = os.wait4(process.pid, 0)
    assert status == 0, said[-300:]
    return time.monotonic() - before, used.ru_utime + used.ru_stime, used.ru_maxrss / 1000


def older_bytes(path):
    """How many bytes of a record are of events that came more than five minutes before the last one: what is kept of phones and of calls."""
    with open(path, "rb") as record:
        events = [(int(line.split(b" ", 2)[1]), len(line)) for line in record if line.startswith((b"text ", b"hex ", b"time "))]
    last = max(at for at, _ in events)
    return sum(size for at, size in events if at < last - 300_000)


def measured(folder, hours, calls):
    where = os.path.join(folder, f"{hours}_{calls}")
    os.mkdir(where)
    words = ["--phones", str(PHONES), "--hours", str(hours), "--calls", str(calls), "--seed", "73"]
    said = subprocess.run([sys.executable, os.path.join(HERE, "day.py"), where, *words], check=True, capture_output=True, text=True).stdout
    config, old, new = (os.path.join(where, name) for name in ("day.toml", "day.record", "shorter"))
    made = run("compact", "--config", config, old, new)
    size, stand = os.stat(new).st_size, int(re.search(r"(\d+) calls stand", said)[1])
    print(f"{PHONES} phones, {hours} hours, {calls} calls, of which {stand} stand: {os.stat(old).st_size:,} bytes, shorter {size:,}")
    for what, seconds in (
        ("compact", made),
        ("a start behind the shorter one", run("serve", "--config", config, "--turns", "0", "--record", new + ".next", "--resume", new)),
        ("a start behind the whole one", run("serve", "--config", config, "--turns", "0", "--record", old + ".next", "--resume", old)),
    ):
        print("  {}: {:.2f} s, of the processor {:.2f} s, {:.0f} MB resident at most".format(what, *seconds))
    return size, older_bytes(new), stand


def main():
    with tempfile.TemporaryDirectory() as folder:
        for hours, calls in ((2, 3000), (24, 2000)):
            size, alone, _ = measured(folder, hours, 0)
            _, older, stand = measured(folder, hours, calls)
            print(f"  for each phone {size / PHONES:,.0f} bytes, for each call that stands {(older - alone) / max(stand, 1):,.0f}")


main()
