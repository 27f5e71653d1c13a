#!/usr/bin/env python3
"""Measures `dnscanon hash` beside a plain C loop over SHA-1, `ldns-nsec3-hash` and `knsec3hash`, for a name of three labels.

The instructions are those that callgrind counts, less those of a run without iterations; the milliseconds are the best of several
runs. If the hashes of two programs differ, that is said, and nothing is measured."""
import argparse
import base64
import math
import re
import shutil
import subprocess
import tempfile
import time
from pathlib import Path

HERE = Path(__file__).resolve().parent
PROGRAM = HERE.parent / "crates" / "dnscanon" / "out" / "dnscanon"
OWNER = b"\x01a\x07example\x03org\0"
SALTS = ["-", "aabbccdd", "ab" * 255]
ITERATIONS = [500, 65_535]


def commands(plain, salt, iterations):
    """Each program's words, for the same hash."""
    none = salt == "-"
    return {
        "dnscanon": [str(PROGRAM), "hash", "a.example.org.", salt, str(iterations)],
        "C": [plain, OWNER.hex(), "" if none else salt, str(iterations)],
        "ldns": ["ldns-nsec3-hash", "-a", "1", "-t", str(iterations), *([] if none else ["-s", salt]), "a.example.org."],
        "Knot": ["knsec3hash", salt, "1", str(iterations), "a.example.org."],
    }


def hash_of(program, command):
    """The octets of the hash that a program prints, or nothing if it refuses."""
    done = subprocess.run(command, capture_output=True, text=True)
    word = (done.stdout.split() or [""])[0].rstrip(".").lower()
    if done.returncode or not word:
        return None
    return bytes.fromhex(word) if program == "C" else base64.b32hexdecode(word.upper())


def instructions(command):
    with tempfile.TemporaryDirectory() as folder:
        counted = ["valgrind", "--tool=callgrind", f"--callgrind-out-file={folder}/out", *command]
        done = subprocess.run(counted, stdout=subprocess.DEVNULL, stderr=subprocess.PIPE, text=True)
    return int(re.search(r"Collected : (\d+)", done.stderr).group(1))


def milliseconds(command, runs):
    best = math.inf
    for _ in range(runs):
        start = time.perf_counter()
        subprocess.run(command, stdout=subprocess.DEVNULL, stderr=subprocess.DEVNULL)
        best = min(best, time.perf_counter() - start)
    return best * 1000


def main():
    options = argparse.ArgumentParser()
    options.add_argument("--runs", type=int, default=20)
    runs = options.parse_args().runs
    with tempfile.TemporaryDirectory() as folder:
        plain = str(Path(folder) / "nsec3_hash")
        subprocess.run(["gcc", "-O2", "-o", plain, HERE / "nsec3_hash.c"], check=True)
        print("| octets of salt | iterations | thousands of instructions: `dnscanon hash` | C | ratio | ms: `dnscanon hash` | C | ldns | Knot |")
        print("|---|---|---|---|---|---|---|---|---|")
        for salt in SALTS:
            size = 0 if salt == "-" else len(salt) // 2
            base = {program: instructions(commands(plain, salt, 0)[program]) for program in ("dnscanon", "C")}
            for iterations in ITERATIONS:
                words = commands(plain, salt, iterations)
                wanted = hash_of("C", words["C"])
                times = {}
                for program, command in words.items():
                    if program in ("ldns", "Knot") and not shutil.which(command[0]):
                        times[program] = "not installed"
                    elif (given := hash_of(program, command)) is None:
                        times[program] = "refused"
                    elif given != wanted:
                        times[program] = "differs"
                    else:
                        times[program] = f"{milliseconds(command, runs):.1f}"
                counts = [instructions(words[program]) - base[program] for program in ("dnscanon", "C")]
                cells = [f"{count // 1000:,}" for count in counts] + [f"{counts[0] / counts[1]:.2f}", *times.values()]
                print(f"| {size} | {iterations:,} | {' | '.join(cells)} |")


main()
