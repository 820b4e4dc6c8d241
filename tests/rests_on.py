#!/usr/bin/env python3
"""How much has to be read to know what a definition, or the clauses of a public function, say: `tests/rests_on.py [--list] [--more] WHAT ..`,
where WHAT is `CRATE specs/Module: name` or the name of a function, as `serve` or `sip_loop::serve`. It follows each name to its
definition in specs/, to its struct, enum, trait or constant in src/, and on from there, by the `use` lines of each file and by what a
crate passes on. It prints by crate how many these are and how many lines they have, without blank lines and comments, and the lines of
comments beside them; --list prints each with its place; with --more each WHAT counts only what none before it does. It proves
nothing and takes a second.

A definition goes from its signature to the next top-level declaration or comment block, and its comments are the block right before
it and those within. A type with an `impl Model` is its value alone, which is all that a clause sees of it. A trait, which a clause
names through `L.heard`, is whole. What is the kit's, std's or the language's counts as one name, and isn't followed. It ends with 1
where a name can't be followed: a name that nothing imports, declares or binds."""

import glob
import os
import re
import sys
from collections import Counter
from functools import lru_cache

TOP = os.path.dirname(os.path.dirname(os.path.abspath(__file__)))
NAME = r"[^\W\d][\w'-]*"
DOTTED = re.compile(rf"(?<![\w.'-]){NAME}(?:\.[\w'-]+)*")
STRING = re.compile(r'"(?:\\.|[^"\\])*"')
LABEL = re.compile(rf"([{{;]\s*)«?{NAME}»?\s*=(?=\s)")
FRONT = r"(?:abbrev |unfoldable )?(?:pub )?"
DECLARED = re.compile(rf"{FRONT}(record |data )?(\S+)(?: .*)? :(?: |$)|{FRONT}(record|data) (\S+)")
ELSE = ("--", "use ", "pub use ", "pub mod ", "infix")
CLAUSE = re.compile(r"(?ms)(?:ensures|requires|ghost)\*?(?: \w+)?:? ?\{.*?\}(?=;?\n|;?\Z)")
KEYWORDS = set("abbrev unfoldable pub record data where let in if then else do rw tt absurd cc λ Type Unit ⊥".split())
KEYWORDS |= set("ensures requires ghost".split())
MAKERS = set("true false zero suc inl inr".split())
PRELUDE = set("String Option Some None Result Ok Err Box Vec Drop Copy Clone Sized".split())
PRIMITIVE = set("u8 u16 u32 u64 u128 i64 usize bool str char Self".split())


def read(path):
    with open(os.path.join(TOP, path), encoding="utf-8") as file:
        return file.read()


def exists(path):
    return os.path.isfile(os.path.join(TOP, path))


class Item:
    """A definition: where it stands, its code without comments, and how many lines each of both has."""

    def __init__(self, path, line, name, kind, rows):
        self.path, self.line, self.name, self.kind = path, line, name, kind
        self.crate = path.split("/")[1]
        mark = "--" if path.endswith(".antt") else "//"
        said = [row for row in rows if row.strip() and not row.strip().startswith("#[")]
        code = [row for row in said if not row.strip().startswith(mark)]
        self.lines, self.comments = len(code), len(said) - len(code)
        self.code = LABEL.sub(r"\1", STRING.sub(" ", "\n".join(code)))


# ---- definitions


class Module:
    """A file of definitions: what it imports, and what it defines."""

    def __init__(self, path):
        self.path, self.items, self.imports, text = path, {}, {}, read(path)
        add_imports(self.imports, text)
        rows = text.splitlines()
        starts = [at for at, row in enumerate(rows) if begins(row)]
        for at in starts:
            self.add(rows, at)

    def add(self, rows, at):
        end = at + 1
        while end < len(rows) and not begins(rows[end]) and not rows[end].startswith(ELSE):
            end += 1
        front = at
        while front and rows[front - 1].startswith(("--", "infix")) and not rows[front - 1].startswith("-- ----"):
            front -= 1
        found = DECLARED.match(rows[at])
        kind = (found.group(1) or found.group(3) or "def").strip()
        name = (found.group(4) or found.group(2)).rstrip(":")
        rows = [row for row in rows[front:end] if not row.startswith("infix")]
        item = self.items[name] = Item(self.path, at + 1, name, kind, rows)
        if kind == "data":
            for maker in re.findall(rf"(?m)^  ({NAME}) :", item.code):
                self.items.setdefault(maker, item)


def begins(row):
    """Whether a declaration begins in a line: an equation has a `=` in front of a `:`, or no `:`."""
    is_text = bool(row) and row[0] != " " and not row.startswith(ELSE)
    return is_text and bool(DECLARED.match(row)) and " = " not in row.split(" : ")[0]


def add_imports(imports, text):
    """The paths of what the `use` lines of specs name, in a file of specs or of code."""
    for path, listed, alias in re.findall(r"(?m)^\s*(?:ghost )?use ([\w.'-]+?)(?:\.\{([^}]*)\}| as (\w+))?;?$", text):
        if listed:
            for one in re.split(r",\s*", listed):
                name, _, other = one.strip().partition(" as ")
                imports[other or name] = tuple(path.split(".")) + (name,)
        else:
            imports[alias or path.split(".")[-1]] = tuple(path.split("."))


module = lru_cache(None)(Module)


@lru_cache(None)
def passed_on(crate):
    """What a crate passes on of others' specs, by its short name."""
    path = f"crates/{crate}/specs/Lib.antt"
    found = re.findall(r"(?m)^pub use Rattle\.([\w.]+?)(?: as (\w+))?$", read(path)) if exists(path) else []
    return {alias or low.split(".")[-1]: tuple(low.split(".")) for low, alias in found}


@lru_cache(None)
def at_path(path):
    """What stands under a full path: an item, a module, the name of something that isn't followed, or None."""
    if path[0] != "Rattle" or not os.path.isdir(os.path.join(TOP, "crates", path[1])):
        return path[-1]
    crate, rest = path[1], path[3:]
    if rest and rest[0] in passed_on(crate):
        return at_path(("Rattle",) + passed_on(crate)[rest[0]] + rest[1:])
    if rest and rest[0] == "contracts":
        return path[-1]
    if rest and rest[0] == "declared":
        return declared(crate, rest[1:])
    for end in range(len(rest), 0, -1):
        file = f"crates/{crate}/{path[2]}/{'/'.join(rest[:end])}.antt"
        if exists(file):
            return module(file).items.get(rest[end]) if end < len(rest) else module(file)
    return None


def declared(crate, rest):
    """A type or a constant of the code, as the prover names it for specs."""
    place = next((at for at, one in enumerate(rest) if one[0].isupper()), None)
    if place is None:
        return None
    name = rest[-1] if rest[place] == "TheConstants" else rest[place]
    path = f"crates/{crate}/src/{'/'.join(rest[:place]) or 'lib'}.rt"
    return exists(path) and code(path).items.get(name) or find_in_code(crate, name)


# ---- code


class Code:
    """A file of code: what it imports, and what it declares."""

    def __init__(self, path):
        self.path, self.crate, self.items, self.imports, self.ghost = path, path.split("/")[1], {}, {}, {}
        self.text = read(path)
        add_imports(self.ghost, "\n".join(row for row in self.text.splitlines() if "ghost use" in row))
        for path_of, listed in re.findall(r"(?m)^ *(?:pub )?use ([\w:]+?)(?:::(\w+|\{[^}]*\}))?;", self.text):
            for one in re.findall(r"(\w+)(?: as (\w+))?", listed):
                self.imports[one[1] or one[0]] = (path_of.split("::")[0], one[0])
        self.rows = self.text.splitlines()
        for at, row in enumerate(self.rows):
            found = re.match(r"(?:pub(?:\(crate\))? )?(struct|enum|trait|const|type) (\w+)", row)
            if found:
                self.add(at, *found.groups())

    def add(self, at, kind, name):
        end = at
        while kind != "const" and not re.match(r"\}|.*[;}]$" if end == at else r"\}|\);", self.rows[end]):
            end += 1
        front = at
        while front and self.rows[front - 1].startswith(("///", "#[")):
            front -= 1
        value = [] if kind == "trait" else self.value_of(name)
        item = self.items[name] = Item(self.path, at + 1, name, kind, self.rows[front:end + 1])
        if value:
            comments = item.comments
            item = self.items[name] = Item(self.path, at + 1, name, "value", value)
            item.comments += comments

    def value_of(self, name):
        """The lines that say what the value of a type with an `impl Model` is."""
        block = re.search(rf"(?ms)^impl(?:<[^{{]*?>)? Model for {name}\b.*?^\}}", self.text)
        found = re.search(r"(?ms)^    ghost Value = \{.*?\};$", block.group()) if block else None
        return found.group().splitlines() if found else []


code = lru_cache(None)(Code)


@lru_cache(None)
def files_of(crate):
    paths = glob.glob(os.path.join(TOP, "crates", crate, "src", "**", "*.rt"), recursive=True)
    return [code(os.path.relpath(path, TOP)) for path in sorted(paths)]


@lru_cache(None)
def find_in_code(crate, name):
    """A type of a crate, or one that it passes on."""
    if not os.path.isdir(os.path.join(TOP, "crates", crate)):
        return name
    for file in files_of(crate):
        if name in file.items:
            return file.items[name]
    for file in files_of(crate):
        home, real = file.imports.get(name, ("crate", name))
        if file.path.endswith("lib.rt") and home not in ("crate", "self") and not exists(f"crates/{crate}/src/{home}.rt"):
            return find_in_code(home, real)
    return None


def in_code(file, name):
    """What a name of the code means in a file."""
    if name in file.items:
        return file.items[name]
    home, real = file.imports.get(name, (None, name))
    if home is None:
        return name if name in PRELUDE else None
    return find_in_code(file.crate if home in ("crate", "super", "self") else home, real)


# ---- what a definition names


def bound_in(text):
    """The names that a piece of a definition binds itself, but for those of patterns."""
    names = set()
    for many in re.findall(rf"[({{,]\s*((?:{NAME}\s+)*{NAME})\s*:(?![:])", text):
        names.update(many.split())
    for many in re.findall(r"λ\s+([\w\s'-]+?)\.(?=\s)", text):
        names.update(many.split())
    names.update(re.findall(rf"\blet\s+({NAME})\b", text))
    for many in re.findall(r"\blet \(([\w, ]+)\)", text):
        names.update(many.replace(",", " ").split())
    names.update(re.findall(rf"({NAME}) ←", text))
    names.update(re.findall(rf"(?m)^\s+(?:pub )?({NAME}) :(?=\s|$)", text))
    return names


def clauses(item):
    """The signature of a definition, and each of its equations, apart; a record or a data type whole."""
    if item.kind != "def":
        return [item.code]
    rows, parts = item.code.splitlines(), []
    for row in rows:
        if not parts or not row.startswith(" "):
            parts.append(row)
        else:
            parts[-1] += "\n" + row
    return parts


def patterns(part):
    """The left sides of an equation, and of those of its local definitions."""
    found = [re.split(r"\s=(?:\s|$)", part, maxsplit=1)[0]]
    for name in re.findall(rf"(?m)^ +({NAME}) :(?=\s)", part):
        found += re.findall(rf"(?m)^ +({name}(?: [^=\n]*)?) =(?=\s|$)", part)
    return found


def names_in_spec(item):
    """What the names of a definition of specs are: pairs of a name and what it means, None where nothing says that."""
    here = module(item.path)
    for count, part in enumerate(clauses(item)):
        bound = bound_in(part) | {item.name}
        if count and item.kind == "def":
            for pattern in patterns(part):
                unknown = lambda one: one not in here.imports and one not in here.items
                bound.update(one for one in re.findall(NAME, pattern) if (not one[0].isupper() or unknown(one)) and one not in MAKERS)
                bound.update(re.findall(rf"\{{\s*({NAME})\}}", pattern))
        yield from meanings(part, bound, here.imports, lambda name: here.items.get(name))


def meanings(text, bound, imports, otherwise):
    """What each free name of a text means, by what is imported, and else by what is told."""
    for dotted in sorted(set(DOTTED.findall(text))):
        first, *rest = dotted.split(".")
        if first in bound or first in KEYWORDS or first == "_":
            continue
        if first not in imports:
            yield dotted, otherwise(first)
            continue
        meant = at_path(imports[first])
        if isinstance(meant, Module):
            meant = meant.items.get(rest[0]) if rest else None
        elif rest and imports[first][-1] == "TheVariants":
            meant = at_path(imports[first] + tuple(rest))
        yield dotted, meant
    yield from operators(text, imports, otherwise)


def operators(text, imports, otherwise):
    """What is imported or defined of a name that isn't a word."""
    words = set(re.sub(r"[(){};,]", " ", text).split()) | set(re.findall(r"\[\]", text))
    words |= {">>="} if "do" in words else set()
    for name, path in imports.items():
        if not re.fullmatch(NAME, name) and all(part in words for part in name.split("◌") if part):
            yield name, at_path(path)
    if ">>=" in words and "◌>>=◌" not in imports:
        yield "◌>>=◌", otherwise("◌>>=◌")


def generics_in(text):
    """The types that a declaration leaves open, each with the first trait that it has to meet, if there is one."""
    front = re.split(r"[({;]", text, maxsplit=1)[0]
    return dict(re.findall(r"[<,]\s*(\w+)(?:: (\w+)[^,>]*)?(?=[,>])", front))


def names_in_code(item):
    """The same of a type of the code, or of a trait with its clauses."""
    file = code(item.path)
    text = item.code
    if item.kind == "value":
        block = re.search(rf"impl(.*?) Model for {item.name}\b", file.text).group(1)
        yield from meanings(text, {"Value"} | set(generics_in(block)), file.ghost, lambda name: in_code(file, name))
        return
    if item.kind == "trait":
        yield from names_in_clauses(text, file, generics_in(text))
        return
    kept = "\n".join(re.findall(r"(?m)^ *ghost (\w+: .*)$", text))
    yield from meanings(kept, set(re.findall(r"(\w+):", text)), file.ghost, lambda name: in_code(file, name))
    if item.kind == "enum":
        text = re.sub(r"(?m)^ {4}\w+", "", text.split("{", 1)[1])
    free = set(re.findall(r"(?<!:)\b[A-Z]\w*", re.sub(r"ghost .*", "", text))) - {item.name} - PRIMITIVE - set(generics_in(text))
    for name in sorted(free):
        yield name, in_code(file, name)


def names_in_clauses(text, file, generics):
    """What the clauses of a function, or of a trait's functions, name, and the types of the parameters that they speak of."""
    told = "\n".join(CLAUSE.findall(text))
    members = set(re.findall(r"ghost (\w+):", text))
    labels = set(re.findall(r"(?:ensures\*?|requires) (\w+) \{", text))
    untold = CLAUSE.sub("", text)
    _, *pairs = re.split(r"(?:^|[\s(,<])(\w+): ", re.sub(r"-> [^\n;]*", "", untold))
    parameters = dict(zip(pairs[::2], pairs[1::2]))
    bound = bound_in(told) | members | labels | set(parameters) | {"result", "self", "Self", "old", "new"} | set(generics)
    yield from meanings(told, bound, file.ghost, lambda name: in_code(file, name))
    words = {one.split(".")[0] for one in DOTTED.findall(told)}
    types = [kind for name, kind in parameters.items() if name in words]
    types += re.findall(r"-> ([^\n]+)", untold) if "result" in words else []
    types += [generics[one] for one in words if generics.get(one)]
    for name in sorted(set(re.findall(r"(?<!:)\b[A-Z]\w*", " ".join(types))) - PRIMITIVE - set(generics) - {"Self"}):
        yield name, in_code(file, name)


def names_of(item):
    """What the names of any definition are."""
    if item.path.endswith(".antt"):
        return names_in_spec(item)
    if item.kind == "fn":
        return names_in_clauses(item.code, code(item.path), generics_in(item.code))
    return names_in_code(item)


# ---- what rests on what


def functions(name):
    """The public functions of a name, `CRATE::name`, `Type::name` or `name` alone, with their clauses."""
    *homes, last = name.split("::")
    for crate in sorted(os.listdir(os.path.join(TOP, "crates"))):
        for file in files_of(crate):
            for found in re.finditer(rf"(?m)^( *)pub fn {last}\b", file.text):
                at = file.text.count("\n", 0, found.start())
                body = re.compile(r"^ *\{\}?$|[^{]*\) (->[^{]*)?\{")
                end = next(n for n in range(at, len(file.rows)) if body.search(file.rows[n]))
                item = Item(file.path, at + 1, last, "fn", file.rows[at:end])
                owner = re.findall(r"(?m)^impl[^{]*?\b(\w+)(?:<.*>)? \{$", file.text[:found.start()])
                mine = {crate} | ({owner[-1]} if found.group(1) and owner else set())
                if set(homes) <= mine and (homes or not found.group(1)) and re.search(r"(?m)^ *ensures", item.code):
                    yield item


def roots(what):
    """The definition, or the function, that is asked about."""
    found = re.fullmatch(r"(\w+) specs/(\w+): (\S+)", what)
    if not found:
        return list(functions(what))
    item = at_path(("Rattle", found.group(1), "specs", found.group(2), found.group(3)))
    return [item] if isinstance(item, Item) else []


def rests_on(root):
    """All that an item rests on, itself with it; the names that aren't followed; and those that can't be."""
    items, outside, lost, waiting = {root: None}, set(), [], [root]
    while waiting:
        item = waiting.pop()
        for name, meant in names_of(item):
            if isinstance(meant, str):
                outside.add(meant)
            elif meant is None:
                lost.append((item, name))
            elif isinstance(meant, Item) and meant not in items:
                items[meant] = item
                waiting.append(meant)
    return items, outside, lost


def tell(what, listed, told):
    """Prints what one of them rests on, beside what was told; whether each name could be followed."""
    found = roots(what)
    if len(found) != 1:
        print(f"{what}: {len(found)} of that name" + "".join(f"\n  {item.path}:{item.line}" for item in found))
        return False
    items, outside, lost = rests_on(found[0])
    count, lines, comments = Counter(), Counter(), Counter()
    items = [item for item in items if item not in told]
    told.update(items)
    for item in items:
        count[item.crate] += 1
        lines[item.crate] += item.lines
        comments[item.crate] += item.comments
    code_lines = sum(one.lines for one in items if one.path.endswith(".rt"))
    total = f"{len(items)} definitions, {sum(lines.values())} lines, {code_lines} of them of src"
    print(f"{what}: {total}, and {sum(comments.values())} of comments")
    for crate in sorted(count, key=lambda name: (-lines[name], name)):
        print(f"  {crate:24} {count[crate]:4} definitions {lines[crate]:5} lines {comments[crate]:5} of comments")
        for item in sorted((one for one in items if one.crate == crate), key=lambda one: (one.path, one.line)) if listed else ():
            print(f"    {item.path}:{item.line}: {item.name}: {item.lines} lines")
    print(f"  {len(outside)} names of std, the kit and the language, not followed" + (": " + " ".join(sorted(outside)) if listed else ""))
    print(f"  {len(lost)} names not resolved" + "".join(f"\n    {item.path}:{item.line}: {item.name}: {name}" for item, name in lost))
    return not lost


def main(words):
    listed, more, wanted = "--list" in words, "--more" in words, [word for word in words if not word.startswith("--")]
    told = set()
    if not wanted:
        print(__doc__)
        return 2
    return 0 if all([tell(what, listed, told if more else set()) for what in wanted]) else 1


if __name__ == "__main__":
    sys.exit(main(sys.argv[1:]))
