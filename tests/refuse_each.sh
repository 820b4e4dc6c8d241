#!/bin/sh
# Refuses each allocation of the steps of six stored runs in turn, one in each run, until none is left. The step that meets
# the refusal must answer NoMemory and leave the moment, what is due and the bindings as they were, and the same step given
# again must answer as it does with ample memory, so that what is printed in the end is the stored output.
# `tests/refuse_each.sh [PROGRAM [NAME..]]`, after `rt run` in crates/test_server; takes ten seconds.
cd "$(dirname "$0")/.." || exit 2
exec python3 - "$@" <<'PY'
import os
import subprocess
import sys
import tempfile

PROGRAM = os.path.abspath(sys.argv[1] if len(sys.argv) > 1 else "crates/test_server/out/test_server")
RUNS = sys.argv[2:] or ["registered", "star_and_old_cseq", "call_to_help", "two_answers", "dialog_targets", "cancel"]
DATA = "crates/test_server/data"


def stored(name, kind):
    with open(f"{DATA}/{name}.{kind}", "rb") as file:
        return file.read()


def played(library, folder, name, number):
    """What is printed and complained of with this allocation refused, how many were asked for, and how many refused."""
    told = os.path.join(folder, "told")
    variables = {**os.environ, "LD_PRELOAD": library, "REFUSE": str(number), "REFUSE_FILE": told}
    with open(f"{DATA}/{name}.script", "rb") as script:
        done = subprocess.run([PROGRAM, "refusals"], stdin=script, capture_output=True, env=variables, timeout=60)
    with open(told, encoding="ascii") as file:
        counted, refused = map(int, file.read().split())
    return done, counted, refused


def fault_of(done, wanted, refused):
    """What is wrong with a run in which so many allocations were refused."""
    if done.returncode == 1:
        return "a refused step changed something"
    if done.returncode != 0:
        return f"status {done.returncode}"
    if f"\nrefused {refused}\n".encode() not in done.stderr:
        return "a refused step didn't answer NoMemory"
    return None if done.stdout == wanted else "another output"


def sweep(library, folder, name):
    """Refuses each allocation of a run's steps; how many faults there were."""
    wanted, number, all_refused, faults = stored(name, "out"), 0, 0, 0
    while True:
        number += 1
        done, counted, refused = played(library, folder, name, number)
        all_refused += refused
        fault = fault_of(done, wanted, refused)
        if fault:
            faults += 1
            print(f"{name}: allocation {number}: {fault}", flush=True)
        if refused == 0 or faults > 9:
            break
    steps = done.stderr.count(b"step\n")
    print(f"{name}: {steps} steps, {counted} allocations, {all_refused} refused, {faults} faults", flush=True)
    return faults


with tempfile.TemporaryDirectory() as folder:
    library = os.path.join(folder, "refuse.so")
    subprocess.run(["cc", "-O2", "-shared", "-fPIC", "-o", library, "tests/refuse_steps.c", "-ldl"], check=True)
    faults = sum(sweep(library, folder, name) for name in RUNS)
print(f"{faults} faults")
sys.exit(1 if faults else 0)
PY
