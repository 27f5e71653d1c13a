#!/usr/bin/env python3
"""Measures `dnscanon zone` beside ldns, and `sha384sum` on the same input, for zones of 64 KiB to 4 MiB of text.

Milliseconds are the best of several runs, and the memory is the most that one run held. If the texts of the two programs
differ, that is said, and nothing is measured."""
import argparse
import math
import os
import struct
import subprocess
import tempfile
import time
from pathlib import Path

HERE = Path(__file__).resolve().parent
PROGRAM = HERE.parent / "crates" / "dnscanon" / "out" / "dnscanon"
SIZES = [65_536, 262_144, 1_048_576, 4_194_304]


def name(text):
    return b"".join(bytes([len(label)]) + label.encode() for label in text.split(".") if label) + b"\0"


def record(owner, rtype, data):
    return owner + struct.pack(">HHIH", rtype, 1, 3600, len(data)) + data


def records():
    """The SOA and the servers of the zone `example.`, and then addresses of hosts, in no order, for ever."""
    apex = name("example.")
    yield record(apex, 6, name("ns1.example.") + name("admin.example.") + struct.pack(">IIIII", 2026112900, 1800, 900, 604800, 86400))
    for server in ("ns1.example.", "ns2.example."):
        yield record(apex, 2, name(server))
    host = 0
    while True:
        host = (host * 69_069 + 12_345) % 2**24
        yield record(name(f"Host{host}.dept{host % 97}.Example."), 1, struct.pack(">I", 0x0A000000 + host))


def zone(size):
    """Lines of messages of at most 16 KiB, of at most this many octets in all, and how many records they have."""
    lines, room, source, count = [], size, records(), 0
    pending = next(source)
    while True:
        body, held = b"", 0
        while len(body) + len(pending) <= 16_000 and 2 * (12 + len(body) + len(pending)) + 1 <= room:
            body, held, pending = body + pending, held + 1, next(source)
        if not held:
            return "".join(lines), count
        line = (struct.pack(">HHHHHH", 0, 0x8400, 0, held, 0, 0) + body).hex() + "\n"
        lines.append(line)
        room, count = room - len(line), count + held


def output(command, path):
    with open(path, "rb") as text:
        return subprocess.run(command, stdin=text, stdout=subprocess.PIPE, check=True).stdout


def best(command, path, runs):
    """The fewest milliseconds of some runs, and the most mebibytes that one held."""
    least, most = math.inf, 0
    for _ in range(runs):
        with open(path, "rb") as text:
            start = time.perf_counter()
            child = subprocess.Popen(command, stdin=text, stdout=subprocess.DEVNULL)
            _, _, usage = os.wait4(child.pid, 0)
            least = min(least, time.perf_counter() - start)
            most = max(most, usage.ru_maxrss)
    return f"{least * 1000:.1f}", f"{most / 1024:.0f}"


def main():
    options = argparse.ArgumentParser()
    options.add_argument("--runs", type=int, default=20)
    runs = options.parse_args().runs
    with tempfile.TemporaryDirectory() as folder:
        ldns = Path(folder) / "zone_with_ldns"
        subprocess.run(["gcc", "-O2", "-o", ldns, HERE / "zone_with_ldns.c", "-lldns"], check=True)
        own = [str(PROGRAM), "zone", "example."]
        print("| octets of text | records | ms: `dnscanon zone` | ldns | `sha384sum` | MiB: `dnscanon zone` | ldns |")
        print("|---|---|---|---|---|---|---|")
        for size in SIZES:
            text, count = zone(size)
            path, stream = Path(folder) / "zone.hex", Path(folder) / "stream"
            path.write_text(text)
            stream.write_bytes(output([str(ldns), "stream"], path))
            if output(own, path) != output([str(ldns)], path):
                print(f"| {len(text):,} | {count:,} | differs |")
                continue
            mine, held = best(own, path, runs)
            other, others = best([str(ldns)], path, runs)
            digest, _ = best(["sha384sum"], stream, runs)
            print(f"| {len(text):,} | {count:,} | {mine} | {other} | {digest} | {held} | {others} |")


main()
