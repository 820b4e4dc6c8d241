#!/usr/bin/env python3
"""Tries the Debian package of contrib/make_deb.sh as who installs it: `tests/package.py --proof FILE`, with what .ci/run printed when it
built crates/sipd/out/sipd, or `tests/package.py --unproved PROGRAM`, with any program and verdicts that are made up, in clones of its own.

It asks for root, Debian's debootstrap, dpkg-dev, lintian and systemd-container, and a folder with a Debian, which debootstrap makes from
the network in two minutes, or which `BASE` names. What is left out for want of one of these is said. Nothing is installed here: the
package goes into a copy of that folder, once by `dpkg --root`, and once in a container whose systemd runs the unit. It says each thing that
it tried, takes some minutes, ends with 1 where one fails, and no gate runs it."""

import contextlib
import ctypes
import hashlib
import os
import re
import shutil
import subprocess
import sys
import tempfile
import time

import phone
from phone import Phone
from served import established, hung_up

TOP = os.path.realpath(phone.TOP)
HERE = "192.0.2.10"  # of docs/OPERATING.md
MAINTAINER = "Telephones <phones@company.net>"
MADE_UP = "logic=proved functions=0 sum=made-up"
# What a removal leaves by apt's, dpkg's, systemd's and passwd's own ways, and no file of the package's.
NO_TRACE = r"/(var/(log|cache|lib/(apt|dpkg|systemd|dbus))|run|tmp|packages|etc/(passwd|group|shadow|gshadow|subuid|subgid)-|etc/machine-id|etc/\.pwd\.lock|root|dev)(/|$)"
# Seconds until the unit's `--per-source 10` hears twenty datagrams of an address again: both phones stand at one, and a quick machine
# brings them to send that many.
ALLOWED_AGAIN = 2
failures = []


def say(what, well=True, told=""):
    print(f"{'ok' if well else 'FAILED'}: {what}{'' if well else f': {told}'}", flush=True)
    if not well:
        failures.append(what)


def ran(*words, **how):
    """What a command does: its status, and all that it says."""
    done = subprocess.run(words, stdin=subprocess.DEVNULL, stdout=subprocess.PIPE, stderr=subprocess.STDOUT, text=True, check=False, **how)
    return done.returncode, done.stdout


def done(*words, **how):
    status, told = ran(*words, **how)
    assert status == 0, (words, told)
    return told.strip()


def read(path):
    with open(path, "rb") as it:
        return it.read()


def write(path, text, mode=0o644):
    os.makedirs(os.path.dirname(path), exist_ok=True)
    with open(path, "w", encoding="utf-8") as it:
        it.write(text)
    os.chmod(path, mode)
    return path


def until(holds, seconds=60):
    end = time.monotonic() + seconds
    while not holds():
        if time.monotonic() > end:
            return False
        time.sleep(0.1)
    return True


class Clone:
    """A clone of this tree, as it is committed, with the program under trial where the gate leaves it."""

    def __init__(self, folder, program):
        self.folder, self.program = folder, os.path.join(folder, "crates", "sipd", "out", "sipd")
        done("git", "clone", "-q", TOP, folder)
        os.makedirs(os.path.dirname(self.program))
        shutil.copyfile(program, self.program)
        os.chmod(self.program, 0o755)

    def git(self, *words, **how):
        return done("git", "-C", self.folder, "-c", "user.name=t", "-c", "user.email=t@company.net", *words, **how)

    def commit(self, when):
        """A further commit, at a moment, with what was changed."""
        self.git("commit", "-qa", "--allow-empty", "-m", "later", env={**os.environ, "GIT_COMMITTER_DATE": when, "GIT_AUTHOR_DATE": when})

    def crates(self):
        return [line.split(":")[0] for line in read(os.path.join(self.folder, "crates.txt")).decode().splitlines() if ":" in line.partition("#")[0]]

    def made_up(self):
        """What a gate would have printed that built this program of this commit."""
        lines = [line for name in self.crates() for line in (f"== {name}", MADE_UP, f"rt: {name} proved")]
        lines += ["rt: ok; handles allowed: none; made up", "gate: commit " + self.git("rev-parse", "HEAD"), "gate: kit made up"]
        lines += ["gate: program " + hashlib.sha256(read(self.program)).hexdigest(), f"{len(lines)} passed, 0 failed", ""]
        return "\n".join(lines)

    def make(self, proof, *words):
        """Whether the package is made, and what is said."""
        to = os.path.join(self.folder, "deb")
        shutil.rmtree(to, ignore_errors=True)
        status, told = ran(os.path.join(self.folder, "contrib", "make_deb.sh"), "--proof", proof, "--maintainer", MAINTAINER, *words)
        return status == 0, told

    def package(self):
        folder = os.path.join(self.folder, "deb")
        return next(os.path.join(folder, name) for name in os.listdir(folder) if name.endswith(".deb"))


def tried_refusals(clone, proof, room):
    """What isn't the gate's over this very program and tree is no proof of it."""
    text, head = read(proof).decode(), clone.git("rev-parse", "HEAD")
    lines = text.splitlines(True)
    last = lines[-1]
    for what, other in {
        "of a gate that was cut": "".join(lines[: len(lines) // 2]),
        "of a gate that failed": text.replace(last, last.replace(" 0 failed", " 1 failed")),
        "of some crates alone": text.replace(last, last.rstrip() + " (sipd and the crates below alone: not the gate)\n"),
        "of a gate without its line ok": re.sub(r"(?m)^rt: ok;.*\n", "", text),
        "without a crate": re.sub(r"(?m)^rt: sip_text (proved|is kept.*)\n", "", text),
        "of another program": re.sub(r"(?m)^gate: program .*", "gate: program " + "0" * 64, text),
        "without a program": re.sub(r"(?m)^gate: program .*\n", "", text),
        "of a commit that isn't here": re.sub(r"(?m)^gate: commit .*", "gate: commit " + "0" * 40, text),
        "of a tree with changes": re.sub(r"(?m)^gate: commit .*", "gate: commit none, since there are changes beside " + head, text),
    }.items():
        well, told = clone.make(write(os.path.join(room, "another"), other))
        say(f"a proof {what} is refused: {told.strip()[:110]}", not well and told.startswith("make_deb: "), told)
    for what, path in {"a crate": "crates/sip_text/src/lib.rt", "the page of the unit": "contrib/sipd.service"}.items():
        with open(os.path.join(clone.folder, path), "a", encoding="utf-8") as it:
            it.write("\n")
        well, told = clone.make(proof)
        say(f"a tree in which {what} has a change is refused: {told.strip()}", not well, told)
        clone.git("commit", "-qam", "change")
        well, told = clone.make(proof)
        say(f"one in which that is committed is {'refused' if 'crates' in path else 'packed by the same proof'}", well == ("crates" not in path), told)
        clone.git("reset", "-q", "--hard", head)


def tried_bytes(clone, other, proof):
    """Two clones make the same bytes, and say what they are."""
    for one in (clone, other):
        well, told = one.make(proof)
        say(f"the package is made: {os.path.basename(told.strip())}", well, told)
    first, second = clone.package(), other.package()
    size, alike = os.path.getsize(first), read(first) == read(second)
    say(f"two clones give the same {size} bytes", alike and os.path.basename(first) == os.path.basename(second))
    status, told = ran("sha256sum", "-c", "SHA256SUMS", cwd=os.path.dirname(first))
    say("SHA256SUMS holds", status == 0, told)
    with tempfile.TemporaryDirectory() as room:
        done("dpkg-deb", "-x", first, room)
        say("the program in it is the one that was proved", read(os.path.join(room, "usr/bin/sipd")) == read(clone.program))
        said = read(os.path.join(room, "usr/share/doc/sipd/PROOF")).decode()
    say("PROOF in it is the one beside it", said.encode() == read(os.path.join(os.path.dirname(first), "PROOF")))
    told = set(re.findall(r"(?m)^(\w+): (?:logic=proved |kept: )", said))
    whole = "\nkit " in said and clone.git("rev-parse", "HEAD") in said
    say(f"PROOF has the verdicts of all {len(told)} crates, the commit and the kit", whole and told == set(clone.crates()))
    owners = {line.split()[1] for line in done("dpkg-deb", "-c", first).splitlines()}
    say("all in it is root's", owners == {"root/root"}, owners)


def tried_lintian(clone, proof):
    if not shutil.which("lintian"):
        return print("left out: lintian isn't here")
    told = ran("lintian", "--allow-root", clone.package())[1]
    say(f"lintian has no error: {len(re.findall('(?m)^W:', told))} warnings", not re.search(r"(?m)^E:", told), told)
    print("".join(f"    {line}\n" for line in told.splitlines()), end="")
    done(os.path.join(clone.folder, "contrib", "make_deb.sh"), "--proof", proof, "--to", os.path.join(clone.folder, "deb", "nobody"))
    nobody = os.path.join(clone.folder, "deb", "nobody", os.path.basename(clone.package()))
    errors = re.findall(r"(?m)^E: sipd: (.*)", ran("lintian", "--allow-root", nobody)[1])
    return say(f"without a maintainer it asks for one, and for nothing else: {errors}", errors and all(re.match("bogus-mail-host|root-in-contact", it) for it in errors), errors)


def based(room):
    """A folder with a Debian."""
    if "BASE" in os.environ:
        return os.path.abspath(os.environ["BASE"])
    base = os.path.join(room, "base")
    done("debootstrap", "--variant=minbase", "--include=adduser,systemd,systemd-sysv,dbus,init-system-helpers,sudo", "bookworm", base)
    return base


def goes_apart():
    """A network of this process's own, and of all that it starts, in which this machine has the address of the page."""
    assert ctypes.CDLL(None, use_errno=True).unshare(0x40000000) == 0, os.strerror(ctypes.get_errno())
    done("ip", "link", "set", "lo", "up")
    done("ip", "address", "add", HERE + "/32", "dev", "lo")


@contextlib.contextmanager
def copied(base, room, name):
    """A copy of that folder, of which what is written lies elsewhere."""
    paths = [os.path.join(room, name, part) for part in ("new", "work", "root")]
    for path in paths:
        os.makedirs(path)
    done("mount", "-t", "overlay", "overlay", "-o", f"lowerdir={base},upperdir={paths[0]},workdir={paths[1]}", paths[2])
    try:
        yield paths[2]
    finally:
        done("umount", "-l", paths[2])


def traces(root):
    """The files below a root of which a purge may leave none more."""
    return {path for path in done("find", root, "-xdev", "-printf", "/%P\n").splitlines() if not re.match(NO_TRACE, path)}


def named(root):
    """Which files of /etc have the word sipd."""
    return set(ran("grep", "-rlw", "--exclude=*-", "sipd", os.path.join(root, "etc"))[1].splitlines())


def tried_by_hand(root, package):
    """Installed where OPERATING's commands for a service made its user, its configuration and its records."""
    done("chroot", root, "useradd", "--system", "--no-create-home", "--shell", "/usr/sbin/nologin", "sipd")
    done("chroot", root, "install", "-d", "-m", "700", "-o", "sipd", "-g", "sipd", "/var/lib/sipd/records")
    write(f"{root}/etc/sipd.toml", "version = 2\n", 0o640)
    before = done("chroot", root, "id", "sipd")
    status, told = ran("dpkg", f"--root={root}", "-i", package)
    owner = done("chroot", root, "stat", "-c", "%U %a", "/var/lib/sipd/records")
    stays = done("chroot", root, "id", "sipd") == before and owner == "sipd 700" and read(f"{root}/etc/sipd.toml") == b"version = 2\n"
    say("where it was set up by hand it installs, and user, configuration and records stay", status == 0 and stays, told)
    done("dpkg", f"--root={root}", "--purge", "sipd")


def tried_root(root, package):
    """Installed into a folder, and purged."""
    before = traces(root), named(root)
    status, told = ran("dpkg", f"--root={root}", "-i", package)
    say("dpkg --root installs it", status == 0, told)
    status, told = ran("chroot", root, "sipd", "check", "--config", "/usr/share/doc/sipd/examples/office.toml")
    say("there the program checks the example", status == 0 and "ok: 2 users" in told, told)
    users = read(f"{root}/etc/passwd").decode()
    say("the user sipd is there, without a home or a shell", bool(re.search(r"(?m)^sipd:x:\d+:\d+::/nonexistent:/usr/sbin/nologin$", users)))
    say("the unit is enabled", os.path.islink(f"{root}/etc/systemd/system/multi-user.target.wants/sipd.service"))
    say("no configuration is in force", not os.path.exists(f"{root}/etc/sipd.toml"))
    checked = ran("chroot", root, "systemd-analyze", "--man=no", "verify", "/usr/lib/systemd/system/sipd.service")
    say("systemd-analyze finds nothing in the unit", checked[0] == 0 and "sipd.service" not in checked[1], checked[1])
    status, told = ran("dpkg", f"--root={root}", "--purge", "sipd")
    say("it purges", status == 0, told)
    after = traces(root), named(root)
    say("a purge leaves no file, and no name in /etc", after == before, (sorted(after[0] ^ before[0])[:9], after[1] ^ before[1]))


class Container:
    """A container with a systemd of its own, on this machine's network."""

    def __init__(self, root, packages):
        words = ["systemd-nspawn", "-q", "-D", root, "--boot", "--register=no", "--keep-unit", "--console=pipe", "--kill-signal=SIGRTMIN+3"]
        self.root = root
        self.process = subprocess.Popen([*words, f"--bind-ro={packages}:/packages"], stdin=subprocess.DEVNULL, stdout=subprocess.DEVNULL, stderr=subprocess.PIPE)
        self.leader = None
        self.runs = until(lambda: self.process.poll() is not None or self.is_booted(), 60) and self.process.poll() is None

    def is_booted(self):
        children = ran("pgrep", "-P", str(self.process.pid))[1].split()
        self.leader = children[0] if children else None
        return bool(children) and re.match("running|degraded", self.ran("systemctl", "is-system-running")[1]) is not None

    def ran(self, *words):
        return ran("nsenter", "-t", self.leader, "-m", "-u", "-i", "-p", "-r", "-w", *words)

    def done(self, *words):
        status, told = self.ran(*words)
        assert status == 0, (words, told)
        return told.strip()

    def shows(self, what):
        return self.done("systemctl", "show", "-P", what, "sipd.service")

    def journal(self):
        return self.ran("journalctl", "-u", "sipd", "-o", "cat", "--no-pager")[1]

    def serves(self, times=1):
        """Whether it served so many times, and does now."""
        return until(lambda: self.journal().count("sipd: serving ") >= times and self.shows("ActiveState") == "active")

    def end(self):
        self.process.terminate()
        try:
            self.process.wait(30)
        except subprocess.TimeoutExpired:
            self.process.kill()
            self.process.wait()


def walk(reader, number=0):
    """The commands of a reader's first hour in docs/OPERATING.md, of the block of that number."""
    hour = read(os.path.join(TOP, "docs", "OPERATING.md")).decode().partition("## The first hour")[2].partition("\n## ")[0]
    blocks = re.findall(r"(?m)(?:^    .+\n)+", hour.partition(f"**{reader}.**")[2].partition("\n**")[0])
    return [line.strip() for line in blocks[number].splitlines()]


def walked(inside, commands):
    """What these commands print in the container, as they stand; those that follow a log are ended."""
    told = ""
    for command in commands:
        words = ["timeout", "3"] if " -f " in command else []
        status, said = inside.ran(*words, "sh", "-c", f"cd /root/walk; {command}")
        say(f"$ {command}", status in (0, 124), said)
        told += said
    return told


def begun(inside):
    """Installed, configured and started as OPERATING says."""
    inside.done("mkdir", "/root/walk")
    inside.done("cp", "/packages/1.deb", "/root/walk/sipd_1_amd64.deb")
    first = walk("Who runs it")
    walked(inside, first[:1])
    states = inside.ran("systemctl", "is-enabled", "sipd")[1].strip(), inside.shows("ActiveState")
    say("it is enabled, and doesn't run without a configuration", states == ("enabled", "inactive"), states)
    say("with one it serves", f"sipd: serving {HERE}:5060" in walked(inside, first[1:]) and inside.serves(), inside.journal())
    process = inside.shows("MainPID")
    say("as the user sipd", inside.done("stat", "-c", "%U", f"/proc/{process}") == "sipd")
    modes = inside.done("sh", "-c", "stat -c '%a %U' /var/lib/sipd/records /var/lib/sipd/records/*.record").splitlines()
    say("its folder and its record are its own alone", modes == ["700 sipd", "600 sipd"], modes)
    return process


def added(inside):
    """What the other readers do in their first hour."""
    told = walked(inside, walk("Who runs it", 1))
    say("carol's table is told", "user carol comes" in told, told)
    say("and comes into force", until(lambda: "is in force from datagram" in inside.journal(), 10), inside.journal())
    told = walked(inside, walk("Who answers for it"))
    say("the policy is told", "as alice ask: alice" in told and "rule 7 allows" in told, told)
    told = walked(inside, walk("Who answers for it", 1))
    lines = re.findall(r"(?m)^\d+ \d+ \w+ .*", inside.journal())
    say(f"the record prints each of the log's {len(lines)} lines", all(f"audit {line}\n" in told for line in lines), told)
    told = walked(inside, walk("Who connects a gateway"))
    wanted = "rule 5 allows: to the hop gateway, 192.0.2.20:5060", "rule 6 allows: 404", "hop gateway moves from 127.0.0.1:5090 to 192.0.2.20:5060"
    say("the gateway is reached as rule 5 says", all(it in told for it in wanted) and "a server that runs can take it" in told, told)
    say("and comes into force", until(lambda: inside.journal().count("is in force from datagram") == 2, 10), inside.journal())


def upgraded(inside, alice, bob, process):
    """Upgraded under a standing call, which is hung up behind it."""
    dialog = established(alice, bob)
    say("two phones register, and a call stands")
    since = time.monotonic()
    inside.done("dpkg", "-i", "/packages/2.deb")
    say(f"it is upgraded in {time.monotonic() - since:.1f} s, and serves again", inside.serves(2), inside.journal())
    goes_on = re.search(r"sipd: goes on behind \d+ lines of ", inside.journal())
    say("as another process, which goes on from the record", bool(goes_on) and inside.shows("MainPID") != process, inside.journal())
    hung_up(alice, bob, dialog)
    say("the standing call is hung up through it")
    hung_up(alice, bob, established(alice, bob))
    say("and a phone that registered before is called and answers")


def started_again(inside, alice, bob):
    """Ended by a signal that systemd takes for an orderly end, under a standing call."""
    dialog, process, before = established(alice, bob), inside.shows("MainPID"), inside.journal()
    inside.done("systemctl", "kill", "-s", "HUP", "sipd")
    serves = inside.serves(before.count("sipd: serving ") + 1)
    say("HUP ends it, and it is started again, as another process", serves and inside.shows("MainPID") not in ("0", process), inside.journal()[-500:])
    told = inside.journal()[len(before) :]
    say("which goes on from the record", bool(re.search(r"sipd: goes on behind \d+ lines of /var/lib/sipd/records/", told)), told)
    hung_up(alice, bob, dialog)
    hung_up(alice, bob, established(alice, bob))
    say("the standing call is hung up through it, and another one made")


def reloaded(inside, alice, bob):
    """Reloads that fail say what is wrong, and leave what serves as it was."""
    dialog, process, path = established(alice, bob), inside.shows("MainPID"), f"{inside.root}/etc/sipd.toml"
    good = read(path).decode()
    for what, bad, wanted in (
        ("that is refused", good.replace("via gateway", "via nobody", 1), (r"line \d+: .*no \[\[hop\]\] has this name", "sipd: configuration refused 6")),
        ("of another realm", re.sub(r'(?m)^realm = ".*"$', 'realm = "home"', good), ("realm differs: ", "sipd: a server that runs can't take it")),
    ):
        write(path, bad, 0o644)
        before = len(inside.journal())
        status, told = inside.ran("systemctl", "reload", "sipd")
        says = until(lambda: all(re.search(f"(?m)^{words}", inside.journal()[before:]) for words in wanted), 10)
        say(f"a reload of a file {what} fails, and says what is wrong", bad != good and status != 0 and says, (status, told, inside.journal()[before:]))
        states = inside.shows("MainPID"), inside.shows("ActiveState"), inside.shows("SubState")
        say("and leaves the service as it was", states == (process, "active", "running"), states)
    write(path, good, 0o644)
    time.sleep(ALLOWED_AGAIN)
    hung_up(alice, bob, dialog)
    hung_up(alice, bob, established(alice, bob))
    say("a call that stood meanwhile is hung up, and another one made")


def kept_back(inside, alice, bob):
    """An upgrade that can't be restarted leaves what serves."""
    process, good = inside.shows("MainPID"), read(f"{inside.root}/etc/sipd.toml").decode()
    say("a reload is a look that finds nothing", inside.ran("systemctl", "reload", "sipd")[0] == 0 and "nothing differs" in inside.journal(), inside.journal()[-300:])
    write(f"{inside.root}/etc/sipd.toml", good.replace("version = 2", "version = 9"), 0o644)
    told = inside.done("dpkg", "-i", "/packages/3.deb")
    say("an upgrade under a configuration that is refused says so, and restarts nothing", "not restarted" in told and inside.shows("MainPID") == process, told)
    time.sleep(ALLOWED_AGAIN)
    hung_up(alice, bob, established(alice, bob))
    say("and calls go on")
    write(f"{inside.root}/etc/sipd.toml", good, 0o644)


def removed(inside, before):
    """Removed and purged."""
    inside.done("dpkg", "-r", "sipd")
    left = [os.path.exists(inside.root + path) for path in ("/etc/sipd.toml", "/var/lib/sipd/records", "/usr/bin/sipd")]
    runs = inside.ran("systemctl", "is-active", "sipd")[1].strip()
    say("a removal stops it, and leaves configuration and records", left == [True, True, False] and runs != "active", (left, runs))
    inside.done("dpkg", "--purge", "sipd")
    inside.done("rm", "-r", "/root/walk")
    after = traces(inside.root), named(inside.root)
    say("a purge leaves no file, and no name in /etc", after == before, (sorted(after[0] ^ before[0])[:9], after[1] ^ before[1]))
    say("and no user", inside.ran("getent", "passwd", "sipd")[0] != 0 and inside.ran("getent", "group", "sipd")[0] != 0)


def tried_container(root, packages):
    inside = Container(root, packages)
    try:
        if not inside.runs:
            return print("left out: no systemd runs in a container here:", inside.process.stderr.read1(300))
        before = traces(root), named(root)
        process = begun(inside)
        alice, bob = (Phone(name, phone.md5(f"{name}:office:{word}"), (HERE, 5060), HERE, 30, HERE) for name, word in phone.PASSWORDS.items())
        assert alice.register() == [401, 200] and bob.register() == [401, 200]
        added(inside)
        upgraded(inside, alice, bob, process)
        started_again(inside, alice, bob)
        reloaded(inside, alice, bob)
        kept_back(inside, alice, bob)
        return removed(inside, before)
    finally:
        inside.end()


def versions(clone, proof, room):
    """A folder with three versions, each of a later commit."""
    packages = os.path.join(room, "packages")
    os.makedirs(packages)
    for number in (1, 2, 3):
        if number > 1:
            clone.commit(f"2030-01-0{number}T00:00:00Z")
        well, told = clone.make(proof)
        assert well, told
        shutil.copyfile(clone.package(), os.path.join(packages, f"{number}.deb"))
    return packages


def main():
    if len(sys.argv) != 3 or sys.argv[1] not in ("--proof", "--unproved") or os.geteuid():
        sys.exit("tests/package.py --proof FILE, or --unproved PROGRAM, as root")
    unproved, named_file = sys.argv[1] == "--unproved", os.path.abspath(sys.argv[2])
    program = named_file if unproved else phone.PROGRAM
    with tempfile.TemporaryDirectory(prefix="package-", dir=os.environ.get("TMPDIR", "/var/tmp")) as room:
        os.chmod(room, 0o755)
        clone, other = (Clone(os.path.join(room, name), program) for name in ("first", "second"))
        proof = write(os.path.join(room, "proof"), clone.made_up()) if unproved else named_file
        tried_refusals(clone, proof, room)
        tried_bytes(clone, other, proof)
        tried_lintian(clone, proof)
        if not shutil.which("debootstrap") and "BASE" not in os.environ:
            print("left out: nothing is installed, since debootstrap isn't here")
        else:
            base, packages = based(room), versions(clone, proof, room)
            with copied(base, room, "by_hand") as root:
                tried_by_hand(root, os.path.join(packages, "1.deb"))
            with copied(base, room, "folder") as root:
                tried_root(root, os.path.join(packages, "1.deb"))
            goes_apart()
            with copied(base, room, "container") as root:
                tried_container(root, packages)
    sys.exit(1 if failures else 0)


if __name__ == "__main__":
    main()
