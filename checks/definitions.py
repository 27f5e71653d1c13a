#!/usr/bin/env python3
"""Lists every definition on which the contract of `run` rests, as `crate/specs/File name`.

    checks/definitions.py                            print the list
    checks/definitions.py --check docs/HEADLINE.md   compare it with the tables of a document

It starts at the contract in crates/dns_canon/src/command.rt and follows names through `ghost use` and `use` lines into specs/. It
stops at the kit's modules, at `proofs`, and at `specs.declared`, which the checker generates from Rust types. A row of a table
counts if its first cell has names in backquotes and its second is `crate/specs/File`.
"""
import os
import re
import sys

CRATES = os.path.join(os.path.dirname(os.path.abspath(__file__)), "..", "crates")
WORD = r"[^\W\d][\w']*"
USE = re.compile(r"^(?:ghost )?use ([\w.]+)\.\{([^}]*)\};?$", re.M)
START = re.compile(r"(?:(?:abbrev|unfoldable|opaque|pub)\s+)*(data |record |)\s*([^\s:(]+)\s")


def read(path):
    with open(path, encoding="utf-8") as file:
        return file.read()


def imports(text):
    """For each name of each `use` line, the module and the name there."""
    names = {}
    for module, inside in USE.findall(text):
        for entry in inside.split(","):
            there, _, here = entry.strip().partition(" as ")
            names[here.strip() or there] = (module, there)
    return names


class File:
    """A file of specs/: its imports, the lines of its definitions, and the constructors of its data types."""

    def __init__(self, path):
        text = re.sub(r"(^|\s)--.*", r"\1", read(path), flags=re.M)
        self.imports, self.bodies, self.constructors = imports(text), {}, {}
        name, kind = None, ""
        for line in text.splitlines():
            if re.match(r"(?:pub )?(?:use|mod|infix\w*)\s", line):
                name = None
            elif re.match(r"(?:abbrev|unfoldable|opaque|pub|data|record)\s", line):
                kind, name = START.match(line + " ").groups()
                self.bodies[name] = [line]
            elif name and line:
                self.bodies[name].append(line)
                made = re.match(rf"  (?:pub )?({WORD}) :", line)
                if kind == "data " and made:
                    self.constructors[made.group(1)] = name


FILES = {}


def resolve(module, name):
    """The definition that a name of a module is, or None if the module is no file of specs/."""
    parts = module.split(".")
    if parts[0] != "Rattle" or len(parts) < 4 or parts[2] != "specs" or parts[3] == "declared":
        return None
    place, path = f"{parts[1]}/specs/{parts[3]}", os.path.join(CRATES, parts[1], "specs", parts[3] + ".antt")
    if place not in FILES:
        if not os.path.exists(path):
            return None
        FILES[place] = File(path)
    file = FILES[place]
    name = parts[4] if len(parts) > 4 else file.constructors.get(name, name)
    if name in file.bodies:
        return place, name
    return resolve(*file.imports[name]) if name in file.imports else None


def used(text):
    """The names in a piece of a definition, without those that it binds, labels of records and projections."""
    bound = set(re.findall(rf"({WORD}) ←", text))
    for names in re.findall(r"[({]([\w' ]+):", text) + re.findall(r"λ ([^.]*)\.", text):
        bound.update(re.findall(WORD, names))
    text = re.sub(rf"(record {{|;|^) ?({WORD}) = ", r"\1 ", text, flags=re.M)
    text = re.sub(rf"^  (?:pub )?({WORD}) :", "  ", text, flags=re.M)
    text = re.sub(rf'"[^"]*"|(?<=[\w\]⟧])\.{WORD}', " ", text)
    bind = {"◌>>=◌"} if ">>=" in text or re.search(r"\bdo\b", text) else set()
    return set(re.findall(WORD, text)) - bound | bind


def uses_of(place, name):
    """The definitions that a definition cites, equation by equation, without the names that an equation's left side binds."""
    file, found = FILES[place], set()
    pieces = re.split(r"\n(?=[^\s})\]])", "\n".join(file.bodies[name]))
    for number, piece in enumerate(pieces):
        left, _, right = piece.partition(" =") if number else ("", "", piece)
        bound = {word for word in re.findall(WORD, left) if word[0].islower()}
        for word in (used(left) | used(right)) - bound:
            word = file.constructors.get(word, word)
            if word in file.bodies:
                found.add((place, word))
            elif word in file.imports:
                found.add(resolve(*file.imports[word]))
    return found - {None, (place, name)}


def definitions():
    text = read(os.path.join(CRATES, "dns_canon", "src", "command.rt"))
    contract = re.sub(r"//.*", "", re.search(r"^pub fn run<.*?(ensures.*?)^\{", text, re.M | re.S).group(1))
    names, found = imports(text), set()
    todo = {resolve(*names[word]) for word in used(contract) if word in names} - {None}
    while todo:
        item = todo.pop()
        found.add(item)
        todo |= uses_of(*item) - found
    return found


def listed(path):
    found = set()
    for line in read(path).splitlines():
        cells = [cell.strip() for cell in line.split("|")[1:]]
        if len(cells) > 2 and re.fullmatch(r"\w+/specs/\w+", cells[1]):
            found.update((cells[1], name) for name in re.findall(r"`([^`]+)`", cells[0]))
    return found


def main(words):
    if words and (len(words) != 2 or words[0] != "--check"):
        print(__doc__, file=sys.stderr)
        return 2
    found = definitions()
    if not words:
        print("\n".join(f"{place} {name}" for place, name in sorted(found)))
        return 0
    table = listed(words[1])
    for place, name in sorted(found - table):
        print(f"not in {words[1]}: {place} {name}")
    for place, name in sorted(table - found):
        print(f"not below `run`: {place} {name}")
    return int(found != table)


sys.exit(main(sys.argv[1:]))
