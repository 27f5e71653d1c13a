#!/usr/bin/env python3
"""Measures how many canonical lists of one message a second a C program gets from the C library and from ldns, in one process each. It
needs the C library built (`make -C c`), gcc, valgrind, and ldns with its headers. What both list is compared first."""
import argparse
import subprocess
import tempfile
import time
from pathlib import Path

TOP = Path(__file__).resolve().parent.parent
SAMPLES = ["address", "compressed-apex", "edns-apex-over-tcp", "signed-zone"]


def built(folder):
    own = folder / "own"
    other = folder / "ldns"
    source = str(TOP / "bench" / "calls.c")
    common = ["gcc", "-std=gnu11", "-O2", "-Wall", source, "-o"]
    subprocess.run([*common, own, f"-I{TOP / 'include'}", TOP / "c" / "out" / "libnelgvasti.a"], check=True)
    subprocess.run([*common, other, "-DWITH_LDNS", "-lldns"], check=True)
    return [str(own), str(other)]


def instructions(program, text, times):
    words = ["valgrind", "--tool=callgrind", "--callgrind-out-file=/dev/null", program, str(times)]
    ended = subprocess.run(words, input=text, stderr=subprocess.PIPE, stdout=subprocess.DEVNULL, check=True)
    return int(next(line.split()[-1] for line in ended.stderr.decode().splitlines() if "Collected" in line))


def a_second(program, text, runs):
    times = 1
    while True:
        start = time.perf_counter()
        subprocess.run([program, str(times)], input=text, check=True)
        spent = time.perf_counter() - start
        if spent > 0.5:
            break
        times *= 2
    best = spent
    for _ in range(runs - 1):
        start = time.perf_counter()
        subprocess.run([program, str(times)], input=text, check=True)
        best = min(best, time.perf_counter() - start)
    return times / best


def main():
    parser = argparse.ArgumentParser(description=__doc__)
    parser.add_argument("--runs", type=int, default=10)
    runs = parser.parse_args().runs
    with tempfile.TemporaryDirectory() as name:
        programs = built(Path(name))
        for sample in SAMPLES:
            text = (TOP / "samples" / f"{sample}.hex").read_bytes()
            wanted = (TOP / "samples" / f"{sample}.lines").read_bytes().replace(b"\n", b"") + b"\n"
            lists = [subprocess.run([program, "0"], input=text, stdout=subprocess.PIPE, check=True).stdout for program in programs]
            assert lists == [wanted, wanted], f"{sample}: the lists differ"
            counted = [(instructions(program, text, 101) - instructions(program, text, 1)) // 100 for program in programs]
            rates = [a_second(program, text, runs) for program in programs]
            print(f"{sample}: {len(text) // 2} octets, messages a second: library {rates[0]:,.0f}, ldns {rates[1]:,.0f}; instructions: library {counted[0]:,}, ldns {counted[1]:,}")


main()
