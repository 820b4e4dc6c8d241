"""Which functions of a program its runs come to, for tests/functions_run.py, and how often they are called, for bench/count_readings.py.
A breakpoint is set at the first instruction of each that is watched; where calls aren't counted it is taken away where a run comes to it,
so that a run takes hardly longer than without. It asks ptrace, so it is for Linux on x86-64, and for programs that have one thread."""

import bisect
import collections
import ctypes
import os
import re
import signal
import subprocess

TRACEME, PEEKUSER, POKEUSER, CONT, STEP, SETOPTIONS = 0, 3, 6, 7, 9, 0x4200
EXITKILL = 1 << 20
NEXT_INSTRUCTION, STACK = 16 * 8, 19 * 8
BREAKPOINT = b"\xcc"
LIBC = ctypes.CDLL(None, use_errno=True)
LIBC.ptrace.restype = ctypes.c_long
LIBC.ptrace.argtypes = [ctypes.c_long, ctypes.c_long, ctypes.c_ulong, ctypes.c_ulong]


def ptrace(request, process, address=0, data=0):
    ctypes.set_errno(0)
    answer = LIBC.ptrace(request, process, address, data)
    if answer == -1 and ctypes.get_errno():
        raise OSError(ctypes.get_errno(), os.strerror(ctypes.get_errno()))
    return answer


def symbols(program):
    """The functions of a program, each with where it begins."""
    for line in subprocess.run(["nm", program], capture_output=True, text=True, check=True).stdout.splitlines():
        if found := re.match(r"([0-9a-f]+) [tTwW] (.*)", line):
            yield int(found[1], 16), found[2]


class Watched:
    """A program, and those of its functions that no run has come to yet, by where they begin."""

    def __init__(self, path, is_watched):
        self.path, self.left = os.path.abspath(path), {}
        self.symbols = sorted(symbols(path))
        for place, name in self.symbols:
            if is_watched(name):
                self.left.setdefault(place, []).append(name)
        with open(path, "rb") as file:
            # a program that may stand anywhere is a shared object
            self.moves = file.read(18)[16] == 3

    def begin_of(self, process):
        """Where the program stands in the memory of a process."""
        if not self.moves:
            return 0
        with open(f"/proc/{process}/maps", encoding="utf-8") as maps:
            for line in maps:
                place, _, offset, *_, path = line.split()
                if path == self.path and int(offset, 16) == 0:
                    return int(place.split("-")[0], 16)
        raise OSError(f"{self.path}: not in the memory of its process")

    def meets(self, place, _behind):
        """A run comes to a function, called by what stands in front of a place; whether it is watched further."""
        self.left.pop(place)
        return False

    def run(self, words, **how):
        """The status of a run with these words, its name first."""
        it = subprocess.Popen(words, executable=self.path, preexec_fn=lambda: ptrace(TRACEME, 0), **how)
        os.waitpid(it.pid, 0)
        ptrace(SETOPTIONS, it.pid, 0, EXITKILL)
        begin, firsts, heard = self.begin_of(it.pid), {}, 0
        memory = os.open(f"/proc/{it.pid}/mem", os.O_RDWR)
        for place in self.left:
            firsts[place] = os.pread(memory, 1, begin + place)
            os.pwrite(memory, BREAKPOINT, begin + place)
        while True:
            ptrace(CONT, it.pid, 0, heard)
            _, status = os.waitpid(it.pid, 0)
            if not os.WIFSTOPPED(status):
                break
            heard, place = os.WSTOPSIG(status), ptrace(PEEKUSER, it.pid, NEXT_INSTRUCTION) - 1 - begin
            if heard != signal.SIGTRAP or place not in firsts:
                continue
            heard, behind = 0, int.from_bytes(os.pread(memory, 8, ptrace(PEEKUSER, it.pid, STACK)), "little") - begin
            os.pwrite(memory, firsts[place], begin + place)
            ptrace(POKEUSER, it.pid, NEXT_INSTRUCTION, begin + place)
            if self.meets(place, behind):
                ptrace(STEP, it.pid)
                os.waitpid(it.pid, 0)
                os.pwrite(memory, BREAKPOINT, begin + place)
        os.close(memory)
        it.returncode = os.waitstatus_to_exitcode(status)
        return it.returncode


class Counted(Watched):
    """The same, and how often a function that is watched was called, by its caller's symbol and its own."""

    def __init__(self, path, is_watched):
        super().__init__(path, is_watched)
        self.calls = collections.Counter()

    def meets(self, place, behind):
        caller = self.symbols[bisect.bisect(self.symbols, (behind,)) - 1][1]
        self.calls[caller, self.left[place][0]] += 1
        return True
