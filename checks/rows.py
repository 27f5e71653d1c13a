#!/usr/bin/env python3
"""Says for each worked row which test has it: a row of a program that answers cases, a test function, or a law. A row without one has `no
test`, and then the status is 1. The argument is a file with a row a line, as JSON. README.md says more."""
import argparse
import json
import re
import sys
from pathlib import Path

CRATES = Path(__file__).resolve().parent.parent / "crates"

# Comments, texts, octets in quotes, and words, numbers and signs of a source. A lifetime is a sign and a word.
TOKENS = re.compile(
    r"""(?P<comment>//[^\n]*|/\*.*?\*/)|b?r(?P<hashes>\#*)"(?P<raw>.*?)"(?P=hashes)|b?"(?P<text>(?:\\.|[^"\\])*)"|b?'(?:\\[^']*|[^'\\])'"""
    r"""|(?P<word>\w+)|(?P<sign>[^\w\s])""",
    re.DOTALL,
)
ITEM_STARTS = {"pub", "fn", "const", "static", "struct", "enum", "type", "trait", "impl", "use", "mod", "ghost", "extern", "unsafe", "macro_rules"}

# The library whose call has a command, of those by which cases of dns_row_tests begin.
LIBRARY_OF = {"zone": "zone", "normal": "normal", "hash": "denial", "covers": "denial", "signed": "denial", "keytags": "denial"}


class Item:
    """A function, constant or other item at the top of a source: its words, and its texts."""

    def __init__(self):
        self.name = ""
        self.words, self.texts = [], []

    @property
    def is_function(self):
        return "fn" in self.words

    @property
    def is_test(self):
        return self.is_function and "test" in self.words[: self.words.index("fn")]

    @property
    def is_law(self):
        return self.is_function and not self.is_test and "ensures" in self.words


def items_of(source):
    """The items of a source. Each begins at the start of a line, by its attribute or its first word."""
    items, depth, only_attributes = [Item()], 0, True
    for token in TOKENS.finditer(source):
        if token["comment"] is not None:
            continue
        is_start = depth == 0 and (token.start() == 0 or source[token.start() - 1] == "\n")
        if is_start and (token["sign"] == "#" or token["word"] in ITEM_STARTS):
            if not only_attributes:
                items.append(Item())
            only_attributes = token["sign"] == "#"
        item = items[-1]
        text = token["text"] if token["text"] is not None else token["raw"]
        if text is not None:
            item.texts.append(text)
        elif token["word"] is not None:
            if item.words and item.words[-1] in ("fn", "const", "static", "struct", "enum", "type", "trait", "mod") and not item.name:
                item.name = token["word"]
            item.words.append(token["word"])
        elif token["sign"] is not None and token["sign"] in "([{":
            depth += 1
        elif token["sign"] is not None and token["sign"] in ")]}":
            depth -= 1
    return items


class Crate:
    """The sources of a crate of tests, or one source."""

    def __init__(self, name, paths):
        self.name = name
        self.modules = {path.stem: items_of(path.read_text()) for path in paths}

    def reached(self, module, test):
        """A test function, and the items of the crate that it uses, or that these use."""
        found, left = [], [(module, test)]
        while left:
            place, item = left.pop()
            if item in found:
                continue
            found.append(item)
            uses = {word for it in self.modules[place] if "use" in it.words[:2] for word in it.words}
            for other, items in self.modules.items():
                shown = set(item.words) if other == place else set(item.words) & uses if other in uses else set()
                left += [(other, it) for it in items if it.name in shown and not it.is_test]
        return found

    def having(self, row):
        """The tests and laws of a row: they have its name, or a test has a text that begins with it."""
        plain = row.replace("-", "_")
        for module, items in self.modules.items():
            for item in items:
                place = f"{self.name}::{module}::{item.name}"
                if item.is_law and item.name == plain:
                    yield f"law {place}"
                if item.is_test:
                    reached = self.reached(module, item)
                    words = {word for it in reached for word in it.words} | {text for it in reached for text in it.texts}
                    if item.name == plain or any(names(text, row, words) for it in reached for text in it.texts):
                        yield f"test {place}"


def names(text, row, words):
    """Whether a text begins with the name of a row. A value of it may be put in its place, as in `fault-at-{call}`, and must be a word or a
    text of the test."""
    if re.match(rf"{re.escape(row)}(?![\w-])", text):
        return True
    start, _, rest = text.partition("{")
    if not re.fullmatch(r"[a-z0-9]+(?:-[a-z0-9]+)*-", start) or not row.startswith(start):
        return False
    end = re.match(r"\w*\}([\w-]*)", rest)
    value = row[len(start) : len(row) - len(end[1])] if end and row.endswith(end[1]) else ""
    return value in words


class Answered:
    """A case of a program that answers cases, and what it must print: a library, a kind, a name and fields, with a space between two."""

    def __init__(self, crate, line):
        self.crate = crate
        self.library, self.kind, self.name, *self.fields = line.split(" ")
        self.printed = []

    def field(self, number):
        """A field, with what is written for line feeds, carriage returns, tabs and spaces."""
        written = {"n": "\n", "r": "\r", "t": "\t", "s": " "}
        field = self.fields[number] if number < len(self.fields) else ""
        return re.sub(r"\\(.)", lambda found: written[found[1]], field)

    def is_named(self, row):
        """Whether it has the name of a row, and is of the library that has the row's command."""
        words = row.get("words", [""])
        return self.name == row["name"] and self.library == LIBRARY_OF.get(words[0] if words else "", "canon")

    def has(self, row):
        """Whether it asks what the row of its name asks, and the same must come. A text that is made by a rule, and the output to it, are not
        compared."""
        words = row["words"]
        status = re.search(r", (\d+)(?:, flushed)?$", self.printed[0])
        note = next((line[len("note: ") :] for line in self.printed[1:2] if line.startswith("note: ")), "")
        if not status or (int(status[1]), note) != (row["status"], row.get("notes", "")):
            return False
        if self.kind not in ("answer", "twice", "pair"):
            return True
        if self.kind == "pair":
            asked, text = ["same"], self.field(0) + "\n" + self.field(1)
        else:
            asked, text = [] if self.field(0) == "-" else self.field(0).split(","), self.field(1)
        output = [line for line in self.printed[1:] if not line.startswith(("note: ", "again: "))]
        if self.kind == "pair":
            output = output[: len(row["output"].splitlines())]
        return (asked, text, output) == (words, row["input"], row["output"].splitlines())

    def __str__(self):
        return f"row {self.library} {self.kind} {self.name} of {self.crate}"


def answered(folder):
    """The cases of a program, each with the lines that come for it."""
    lines = (folder / "stdin").read_text().splitlines()
    cases = [Answered(folder.name, line) for line in lines if not line.startswith("#") and line.count(" ") >= 2]
    case, left = None, iter(cases)
    following = next(left, None)
    for line in (folder / "stdout").read_text().splitlines():
        if following and line.startswith(f"{following.name}: "):
            case, following = following, next(left, None)
        if case:
            case.printed.append(line)
    return [case for case in cases if case.printed]


def main():
    options = argparse.ArgumentParser()
    options.add_argument("rows", type=Path, help="a file with a row a line, as JSON")
    rows = [json.loads(line) for line in options.parse_args().rows.read_text().splitlines() if line]
    cases = [case for path in sorted(CRATES.glob("*/stdin")) for case in answered(path.parent)]
    crates = [Crate(folder.name, sorted((folder / "src").glob("*.rt"))) for folder in sorted(CRATES.glob("*_tests"))]
    crates.append(Crate("nelgvasti", [CRATES / "nelgvasti" / "src" / "tests.rt"]))
    missing = ended = 0
    for row in rows:
        named = [case for case in cases if "words" in row and case.is_named(row)]
        found = [str(case) for case in named if case.has(row)]
        found = found or [it for crate in crates for it in crate.having(row["name"])]
        if not found and "until" in row:
            ended += 1
            found = [f"holds no longer: until '{row['until']}'"]
        missing += not found
        others = "".join(f"; the {case} asks for another thing, or must print another" for case in named)
        print(f"{row['name']}: {'; '.join(found) or 'no test' + others}")
    print(f"{len(rows)} rows, {len(rows) - missing - ended} with a test, {ended} that hold no longer, {missing} without a test")
    return 1 if missing else 0


sys.exit(main())
