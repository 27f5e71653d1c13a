#!/usr/bin/env python3
"""Compares what ../include/nelgvasti.h declares with the sources of the library: the version, the numbers of the answers and of the formats, the fields and layouts
of the structures, and the parameters of the calls. It needs gcc, and no built library. README.md says more."""
import re
import subprocess
import sys
from pathlib import Path

ROOT = Path(__file__).resolve().parent.parent
HEADER = ROOT / "include" / "nelgvasti.h"
SOURCES = ROOT / "crates" / "nelgvasti" / "src"

# Numbers in Rattle and in C, and how many octets they have on x86-64, to which they are aligned.
NUMBERS = {
    "u8": ("uint8_t", 1), "u16": ("uint16_t", 2), "u32": ("uint32_t", 4), "u64": ("uint64_t", 8), "usize": ("size_t", 8),
    "i8": ("int8_t", 1), "i16": ("int16_t", 2), "i32": ("int32_t", 4), "i64": ("int64_t", 8), "isize": ("ptrdiff_t", 8),
}

# What the name of the length of a slice adds to the name of the slice: an array that is read, of octets or of numbers, or written.
LENGTHS = {"const uint8_t *": "_length", "const size_t *": "_count", "uint8_t *": "_capacity"}


def without_comments(text):
    return re.sub(r"/\*.*?\*/|//[^\n]*", " ", text, flags=re.DOTALL)


def in_one_line(text):
    return re.sub(r"\s*\*\s*", " *", " ".join(text.split()))


class Header:
    """What the header declares."""

    def __init__(self, text):
        text = without_comments(text)
        parts = [re.search(rf"#define NELGVASTI_VERSION_{part} (\d+)", text) for part in ("MAJOR", "MINOR", "PATCH")]
        major, minor, patch = (int(part[1]) for part in parts)
        self.version = major * 65536 + minor * 256 + patch
        self.answers = {name: int(number) for name, number in re.findall(r"\bNELGVASTI_(\w+) = (\d+)", text)}
        self.structures = {name: self.fields(body) for name, body in re.findall(r"\bstruct (\w+) \{(.*?)\};", text, re.DOTALL)}
        functions = re.findall(r"^(\w+) (nelgvasti_\w+)\((.*?)\);", text, re.DOTALL | re.MULTILINE)
        self.calls = {name: (answer, self.parameters(given)) for answer, name, given in functions}

    @staticmethod
    def fields(body):
        """Fields as name, type, and how many there are in an array (None: no array)."""
        found = [re.fullmatch(r"(\w+) (\w+)(?:\[(\d+)\])?", in_one_line(field)) for field in body.split(";")[:-1]]
        return [(field[2], field[1], field[3] and int(field[3])) for field in found]

    @staticmethod
    def parameters(given):
        """Parameters as name and type."""
        given = [in_one_line(parameter) for parameter in given.split(",")]
        split = [re.fullmatch(r"(.*?)(\w+)", parameter) for parameter in given if parameter != "void"]
        return [(parameter[2], parameter[1].strip()) for parameter in split]


class Library:
    """What the sources of the library export, as C has it."""

    def __init__(self, folder):
        sources = {path.name: without_comments(path.read_text()) for path in folder.glob("*.rt") if path.name != "tests.rt"}
        self.version = self.constants(sources["version.rt"])["VERSION"]
        self.answers = self.constants(sources["answers.rt"]) | self.constants(sources["formats.rt"])
        text = "\n".join(sources.values())
        structures = re.findall(r"#\[repr\(C\)\]\s*(?:#\[[^\n]*\]\s*)*pub struct (\w+) \{(.*?)\}", text, re.DOTALL)
        self.structures = {name: self.fields(body) for name, body in structures}
        functions = re.findall(r'#\[unsafe\(no_mangle\)\]\s*pub extern "C" fn (\w+)\((.*?)\)\s*->\s*(\w+)', text, re.DOTALL)
        self.calls = {name: (answer, given) for name, given, answer in functions}

    @staticmethod
    def constants(text):
        found = re.findall(r"\bpub const (\w+): u32 = (\w+);", text)
        return {name: int(number.replace("_", ""), 0) for name, number in found}

    @staticmethod
    def fields(body):
        fields = re.findall(r"\bpub (\w+): (?:(\w+)|\[(\w+); (\d+)\]),", body)
        return [(name, NUMBERS[kind or item][0], count and int(count) or None) for name, kind, item, count in fields]

    def call(self, name, structure_names):
        """What a call answers, and its parameters as name and type. A slice is a pointer and a length; what gives memory has no octets, and is
        no parameter in C."""

        def in_c(kind):
            return NUMBERS[kind][0] if kind in NUMBERS else f"struct {structure_names.get(kind, kind)}"

        answer, given = self.calls[name]
        parameters = []
        for parameter in filter(None, (" ".join(it.split()) for it in given.split(","))):
            own, kind = parameter.split(": ")
            pointer = re.fullmatch(r"&(mut )?(\[)?(\w+)\]?", kind)
            if kind == "Global":
                continue
            if not pointer:
                parameters.append((own, in_c(kind)))
                continue
            is_written, is_slice, item = pointer.groups()
            pointed = ("" if is_written else "const ") + in_c(item) + " *"
            parameters.append((own, pointed))
            if is_slice:
                parameters.append((own + LENGTHS.get(pointed, "_length"), "size_t"))
        return in_c(answer), parameters


def layout(fields):
    """The offset of each field of a structure in the order of C, the size of each, and the size and alignment of the whole."""
    size_of = dict(NUMBERS.values())
    end, alignment, placed = 0, 1, []
    for name, kind, count in fields:
        one = size_of[kind]
        end = -(-end // one) * one
        placed.append((name, end, one * (count or 1)))
        end += one * (count or 1)
        alignment = max(alignment, one)
    return placed, -(-end // alignment) * alignment, alignment


def wrong_layouts(structures):
    """What gcc says of the structures that are not laid out as the library has them, by name."""
    asserted = []
    for name, fields in structures.items():
        placed, size, alignment = layout(fields)
        facts = [(f"sizeof(struct {name})", size), (f"_Alignof(struct {name})", alignment)]
        for field, offset, length in placed:
            facts.append((f"offsetof(struct {name}, {field})", offset))
            facts.append((f"sizeof(((struct {name} *)0)->{field})", length))
        asserted += [f'_Static_assert({fact} == {number}, "{name}: {fact} is not {number}");' for fact, number in facts]
    text = "\n".join(["#include <nelgvasti.h>", *asserted, ""])
    words = ["gcc", "-std=c11", "-fsyntax-only", f"-I{HEADER.parent}", "-x", "c", "-"]
    ran = subprocess.run(words, input=text, capture_output=True, text=True)
    wrong = {}
    for name, fact in re.findall(r'static assertion failed: "(\w+): (.*?)"', ran.stderr):
        wrong.setdefault(name, []).append(fact)
    if ran.returncode and not wrong:
        sys.exit(ran.stderr)
    return wrong


def differing(kind, declared, exported):
    """Lines on names that one of both lacks, or that have other values."""
    for name in declared.keys() | exported.keys():
        if name not in exported:
            yield f"{kind} {name}: not in the library"
        elif name not in declared:
            yield f"{kind} {name}: not in the header"
        elif declared[name] != exported[name]:
            yield f"{kind} {name}: {declared[name]} in the header, {exported[name]} in the library"


def difference(declared, exported):
    """How two lists of parameters differ: in their types, or in the order of the names that both have. None if they do not."""
    kinds, wanted = [kind for _, kind in declared], [kind for _, kind in exported]
    if kinds != wanted:
        return f"({', '.join(kinds)}) in the header, ({', '.join(wanted)}) in the library"
    theirs, ours = {name for name, _ in declared}, {name for name, _ in exported}
    order, wanted = [name for name, _ in declared if name in ours], [name for name, _ in exported if name in theirs]
    if order != wanted:
        return f"{', '.join(order)} in the header, {', '.join(wanted)} in the library"
    return None


def main():
    header = Header(HEADER.read_text())
    library = Library(SOURCES)

    # A structure of the library has the name of that with the same fields in the header.
    by_fields = {tuple(name for name, _, _ in fields): own for own, fields in header.structures.items()}
    names = {own: by_fields.get(tuple(name for name, _, _ in fields), own) for own, fields in library.structures.items()}
    exported = {names[own]: fields for own, fields in library.structures.items()}

    lines = list(differing("version", {"number": header.version}, {"number": library.version}))
    lines += differing("answer", header.answers, library.answers)
    wrong = list(differing("struct", header.structures, exported))
    both = {name: exported[name] for name in header.structures.keys() & exported.keys()}
    if not wrong:
        wrong = [f"struct {name}: {'; '.join(facts)}" for name, facts in wrong_layouts(both).items()]
    lines += wrong
    calls = {name: library.call(name, names) for name in library.calls}
    lines += differing("call", {name: it[0] for name, it in header.calls.items()}, {name: it[0] for name, it in calls.items()})
    for name in header.calls.keys() & calls.keys():
        how = difference(header.calls[name][1], calls[name][1])
        lines += [f"call {name}: {how}"] * (how is not None)
    for line in sorted(lines):
        print(line)
    pairs = (header.answers, library.answers), (header.structures, exported), (header.calls, calls)
    count = 1 + sum(len(declared.keys() | ours.keys()) for declared, ours in pairs)
    print(f"{count} declarations, {count - len({line.split(':')[0] for line in lines})} alike")
    return 1 if lines else 0


sys.exit(main())
