#!/usr/bin/env python3
"""Runs `dnslines` on all samples and on many lines, cut in several ways, and with memory and a device that fail.

The normal form of each sample is what `dnscanon normal` writes for it, and its digest is what hashlib gives for the lines of the sample,
which other software made. It needs both programs built, and GNU parallel."""
import argparse
import hashlib
import os
import random
import subprocess
import sys
import tempfile
from pathlib import Path

sys.dont_write_bytecode = True

import samples
from report import Report

LINES = str(samples.ROOT / "crates" / "dnslines" / "out" / "dnslines")
CANON = str(samples.ROOT / "crates" / "dnscanon" / "out" / "dnscanon")
BAD = [b"", b"x", b"0", b"1234", b"0x00", b"123481800000000100000000", b"00 " * 9]


def answers(word, text):
    ran = subprocess.run([LINES, word], input=text, capture_output=True)
    return ran.stdout if (ran.returncode, ran.stderr) == (0, b"") else None


def answer_of_canon(line):
    """What `dnscanon normal` prints for a line, or notes of it."""
    ran = subprocess.run([CANON, "normal"], input=line, capture_output=True)
    return ran.stdout if ran.returncode == 0 else b"! " + ran.stderr


def owner_of(key):
    """The octets of the owner whose key these are."""
    labels = [bytes(octet - 1 if octet <= 65 else octet for octet in label) for label in key[1:].split(b"\0")[1:]]
    return b"".join(bytes([len(label)]) + label for label in reversed(labels)) + b"\0"


def canonical(text):
    """The canonical octets of records, a line each, from lines that are sorted as octets; of lines that are equal but for the TTL the first."""
    found, before = b"", None
    for line in sorted(text.splitlines()):
        fields = line.split(b" ")
        if fields[:3] != before:
            key, numbers, data, ttl = (bytes.fromhex(field.decode()) for field in fields)
            octets = owner_of(key) + numbers[2:] + numbers[:2] + ttl + len(data).to_bytes(2, "big") + data
            found += octets.hex().encode() + b"\n"
        before = fields[:3]
    return found


def check_samples(report, names):
    text = b"".join(samples.text(name).strip() + b"\n" for name in names)
    forms = b"".join(answer_of_canon(samples.text(name)) for name in names)
    report.add("normal forms of the samples", f"{len(names)} lines", answers("normal", text) == forms)
    digests = b"".join(
        hashlib.sha384(b"".join(bytes.fromhex(line.decode()) for line in samples.lines(name).split())).hexdigest().encode() + b"\n"
        for name in names
    )
    report.add("digests of the samples", f"{len(names)} lines", answers("digest", text) == digests)
    # Sorted, the lines of a message's records are in canonical order: without alike ones but the first, their octets are what `canon` prints.
    report.add("records of the samples", f"{len(names)} lines", all(canonical(answers("records", samples.text(name))) == samples.lines(name) for name in names))
    report.add("normal forms of normal forms", f"{len(names)} lines", answers("normal", forms) == forms)


def check_refusals(report):
    for line in BAD + [b"0" * 131_074, b"00" * 12 + b" " * 131_048, b"00" * 12 + b" " * 131_049]:
        name = f"the line {line[:24]!r} of {len(line)} octets"
        report.add(name, "as dnscanon normal", answers("normal", line + b"\n") == answer_of_canon(line))


def mixed(names, count):
    """Lines of samples and bad ones, in no order."""
    chance = random.Random(8976)
    lines = [samples.text(name).strip() for name in names] + BAD
    return b"".join(chance.choice(lines) + chance.choice([b"\n", b"\n", b"\r\n"]) for _ in range(count))


def check_parts(report, text, word):
    whole = answers(word, text)
    lines = text.splitlines(keepends=True)
    if word != "records":
        report.add(f"{word} of {len(lines)} lines", f"{whole.count(10)} answers", whole.count(10) == len(lines))
    for count in (2, 3, 7, 50):
        size = -(-len(lines) // count)
        parts = [b"".join(lines[at : at + size]) for at in range(0, len(lines), size)]
        report.add(f"{word} in {len(parts)} parts", "joined", b"".join(answers(word, part) for part in parts) == whole)
    with tempfile.NamedTemporaryFile() as file:
        file.write(text)
        file.flush()
        for block in ("100k", "1M"):
            command = ["parallel", "--pipe", "--keep-order", "--jobs", "4", "--block", block, LINES, word]
            ran = subprocess.run(command, stdin=open(file.name, "rb"), stdout=subprocess.PIPE, stderr=subprocess.DEVNULL)
            report.add(f"{word} by parallel in blocks of {block}", "four processes", ran.stdout == whole)
        for size in ("-l 1000", "-C 77777", "-n l/7", "-n l/64"):
            with tempfile.TemporaryDirectory() as folder:
                subprocess.run(["split", *size.split(), file.name, f"{folder}/part."], check=True)
                parts = sorted(Path(folder).iterdir())
                report.add(f"{word} of {len(parts)} parts by split {size}", "joined", b"".join(answers(word, part.read_bytes()) for part in parts) == whole)


def check_devices(report, text):
    with open("/dev/full", "wb") as full:
        ran = subprocess.run([LINES, "normal"], input=text, stdout=full, stderr=subprocess.PIPE)
    report.add("standard output that is full", f"status {ran.returncode}", (ran.returncode, ran.stderr) == (7, b"write fault\n"))
    folder = os.open("/", os.O_RDONLY)
    ran = subprocess.run([LINES, "normal"], stdin=folder, capture_output=True)
    report.add("a folder as standard input", f"status {ran.returncode}", (ran.returncode, ran.stdout, ran.stderr) == (6, b"", b"read fault\n"))


def main():
    options = argparse.ArgumentParser()
    options.add_argument("--lines", type=int, default=20_000, help="how many lines of samples are cut into parts")
    options.add_argument("--text", type=Path, help="a file whose lines are cut in their place")
    chosen = options.parse_args()
    report = Report()
    names = sorted(path.stem for path in (samples.ROOT / "samples").glob("*.hex"))
    check_samples(report, names)
    check_refusals(report)
    for word in ("normal", "digest", "records"):
        check_parts(report, chosen.text.read_bytes() if chosen.text else mixed(names, chosen.lines), word)
    check_devices(report, b"00" * 12 + b"\n")
    sys.exit(report.end())


main()
