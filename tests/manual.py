#!/usr/bin/env python3
"""Whether contrib's man pages and completion say what the program says of itself: `tests/manual.py [PROGRAM]`, after `rt run` in
crates/sipd. Commands, their options and their values are held to `sipd help`, the keys of sipd.toml(5) and its refusals to docs/CONFIGURATION.md,
the exit statuses to docs/OPERATING.md; the completion is asked in a shell, and the pages are set by `man`. It takes some seconds, ends
with 1 where one differs, and no gate runs it."""

import os
import re
import subprocess
import sys
import tempfile

import phone

PROGRAM = os.path.abspath(sys.argv[1] if len(sys.argv) > 1 else phone.PROGRAM)
CONTRIB = os.path.join(phone.TOP, "contrib")
MANUAL, FORMAT = (os.path.join(CONTRIB, "man", name) for name in ("sipd.1", "sipd.toml.5"))
COMPLETION = os.path.join(CONTRIB, "sipd.bash-completion")
OFFICE = os.path.realpath(phone.OFFICE)
failures = []


def say(what, well, told=""):
    print(f"{'ok' if well else 'FAILED'}: {what}{'' if well else f': {told}'}")
    if not well:
        failures.append(what)


def text(*path):
    with open(os.path.join(*path), encoding="utf-8") as it:
        return it.read()


def said(*words):
    """What a command prints, which has to end well."""
    return subprocess.run(words, stdin=subprocess.DEVNULL, capture_output=True, text=True, check=True).stdout


def sections(page, mark):
    """The sections of a page of roff, by their titles without quotes."""
    parts = re.split(rf"(?m)^\.{mark} (.+)$", page)
    return {title.strip('"'): part for title, part in zip(parts[1::2], parts[2::2])}


def plain(roff):
    return re.sub(r"\\f.|\"", "", roff).replace("\\-", "-")


def tags(part):
    """What the tags of a section's list are: each with its words, a name and a value."""
    return [plain(line).split()[1:] for line in re.findall(r"(?m)^\.TP\n(.+)$", part)]


def helped(command):
    """The options of a command with the names of their values, by its help, and its words."""
    page = said(PROGRAM, "help", command)
    options = re.findall(r"(?m)^ +(?:-\w, )?(--[\w-]+)(?: <(\w+)>)?", page)
    words = re.findall(r"[<\[]([A-Z]+)[>\]]", page.partition("Usage:")[2].partition("\n")[0].replace("[OPTIONS]", ""))
    values = {value for _, value in options}
    return dict(options), [word for word in words if word not in values]


def completed(*words):
    """What the completion offers behind some words, the last of which is begun."""
    ask = 'source "$0"; COMP_WORDS=("$@"); COMP_CWORD=$(($# - 1)); _sipd; printf "%s\\n" "${COMPREPLY[@]}"'
    return said("bash", "-c", ask, COMPLETION, "sipd", *words).split()


def tried_commands():
    manual = sections(sections(text(MANUAL), "SH")["COMMANDS"], "SS")
    listed = re.findall(r"(?m)^  (\w+) ", said(PROGRAM, "help").partition("Commands:")[2].partition("Options:")[0])
    say("sipd(1) has the commands of `sipd help`", sorted(manual) == sorted(listed), (sorted(manual), sorted(listed)))
    offered = [word for word in completed("") if not word.startswith("-")]
    say("the completion has them", sorted(offered) == sorted(listed), offered)
    for command in (it for it in listed if it != "help"):
        options, words = helped(command)
        options.pop("--help")
        told = {tag[0]: "".join(tag[1:]) for tag in tags(manual.get(command, ""))}
        say(f"sipd(1) has the options of {command}", told == options, (told, options))
        first = re.match(r"\n\.I (.*)\n", manual.get(command, ""))
        say(f"and its words {words}", (first[1].split() if first else []) == words, first and first[1])
        offered = [word for word in completed(command, "--") if word != "--help"]
        say(f"the completion has the options of {command}", sorted(offered) == sorted(options), offered)


def tried_values():
    for words, wanted in {
        ("serve", "--record-fault", ""): ["go-on", "end"],
        ("serve", "--sync", ""): ["each", "second", "never"],
        ("help", "ma"): ["matrix"],
        ("decide", "--expect", "a"): ["allow"],
        ("report", "--config", OFFICE, "--user", "b"): ["bob"],
        ("check", "--config", OFFICE[:-3]): [OFFICE],
        ("decide", "--config", OFFICE, "IN"): ["INVITE"],
        ("serve", "--turns", ""): [],
    }.items():
        say(f"the completion of {' '.join(words[:-1])} {words[-1] or '..'}", completed(*words) == wanted, completed(*words))


def keys_of_page():
    """The keys by their table, as docs/CONFIGURATION.md has them."""
    keys, title = {}, None
    for line in text(phone.TOP, "docs", "CONFIGURATION.md").splitlines():
        if line.startswith("## "):
            title = re.search(r"\[\[\w+\]\]|Keys before all tables|Refusals|$", line)[0].upper()
        cells = [cell.strip() for cell in line.strip("|").split("|")]
        if title and line.startswith("|") and re.match(r"`\w+`|\d+$", cells[0]):
            keys.setdefault(title, []).extend(re.findall(r"\w+", cells[0]))
    return keys


def tried_keys():
    parts = {title.upper(): part for title, part in sections(text(FORMAT), "SH").items()}
    for title, keys in keys_of_page().items():
        told = [word.strip(",") for tag in tags(parts.get(title, "")) for word in tag if word != ","]
        say(f"sipd.toml(5) has of {title} what CONFIGURATION has", sorted(told) == sorted(keys), (told, keys))
    example = re.search(r"(?s)\.EX\n(.*?)\.EE", parts["EXAMPLE"])[1]
    with tempfile.NamedTemporaryFile("w", suffix=".toml") as file:
        file.write(example)
        file.flush()
        say("its example is a configuration", said(PROGRAM, "check", "--config", file.name).startswith("ok: 1 users, 2 rules"))


def tried_version():
    """The program tells the last change that whoever runs it is told of, and the kit that README names."""
    date = re.search(r"(?m)^## ([\d-]+)", text(phone.TOP, "CHANGELOG.md"))[1]
    kit = re.search(r"`rt version` says `([^`]+)`", text(phone.TOP, "README.md"))[1]
    told = said(PROGRAM, "--version").strip()
    say("--version tells the head of CHANGELOG, and the kit", told == f"sipd {date}, {kit}", told)


def tried_ends():
    """Each command's help has an example that the completion knows, the exit statuses and a page."""
    for command in completed(""):
        if not command.startswith("-") and command != "help":
            page = said(PROGRAM, "help", command)
            whole = re.search(rf"(?m)^Example: .*\bsipd {command} .+\nEnds .+\nMore: .+\Z", page.rstrip())
            named = re.findall(r"docs/\w+\.md", page)
            say(f"the help of {command} has an example, its ends and a page", bool(whole) and all(os.path.exists(os.path.join(phone.TOP, it)) for it in named), page)


def tried_statuses():
    told = [tag[0] for tag in tags(sections(text(MANUAL), "SH")["EXIT STATUS"])]
    ends = text(phone.TOP, "docs", "OPERATING.md").partition("## When it ends")[2].partition("`sipd: device` has")[0]
    listed = sorted(set(re.findall(r"(?m)^\| (\d) \|", ends)))
    say("sipd(1) has the exit statuses of OPERATING", told == listed, (told, listed))


def tried_setting():
    how = {**os.environ, "LC_ALL": "C.UTF-8", "MANROFFSEQ": "", "MANWIDTH": "80"}
    for page in (MANUAL, FORMAT):
        try:
            done = subprocess.run(["man", "--warnings", "-E", "UTF-8", "-l", page], capture_output=True, text=True, env=how, check=False)
        except FileNotFoundError:
            print(f"left out: {os.path.basename(page)} isn't set, since there is no man here")
            continue
        say(f"man sets {os.path.basename(page)} without a warning", done.returncode == 0 and len(done.stdout) > 2000 and not done.stderr, done.stderr[:200])


def main():
    tried_commands()
    tried_values()
    tried_keys()
    tried_version()
    tried_ends()
    tried_statuses()
    tried_setting()
    sys.exit(1 if failures else 0)


if __name__ == "__main__":
    main()
