#!/usr/bin/env python3
"""Measures `dnslines` over many replies: the instructions for each, beside those of `dnscanon canon` alone; how long the lines take on
1, 2 and 4 processors, beside ldns and dnspython; and the memory for a thousand lines and for a million.

One process, two and four take turns. A round counts only if the host of a virtual machine left the processors alone during it.

The replies are made, of some 200 octets each: a name, two to four addresses, a server with its address, and an OPT. Digests that
differ from those of ldns or dnspython are named, and nothing is measured then."""
import argparse
import os
import statistics
import struct
import subprocess
import tempfile
import time
from pathlib import Path

HERE = Path(__file__).resolve().parent
LINES = HERE.parent / "crates" / "dnslines" / "out" / "dnslines"
CANON = HERE.parent / "crates" / "dnscanon" / "out" / "dnscanon"


def name(text):
    return b"".join(bytes([len(label)]) + label.encode() for label in text.split(".") if label) + b"\0"


def reply(number):
    """A reply with compressed owners, of some 200 octets."""
    host = (number * 69_069 + 12_345) % 2**20
    question = name(f"Host{host}.dept{host % 97}.Example.org.") + struct.pack(">HH", 1, 1)
    owner, zone = b"\xc0\x0c", struct.pack(">H", 0xC000 | 12 + 1 + len(f"Host{host}") + 1 + len(f"dept{host % 97}"))
    answers = b"".join(owner + struct.pack(">HHIHI", 1, 1, 300, 4, 0x0A000000 + host + i) for i in range(2 + host % 3))
    server = b"\x03ns1" + zone
    authority = zone + struct.pack(">HHIH", 2, 1, 3600, len(server)) + server
    additional = server + struct.pack(">HHIHI", 1, 1, 3600, 4, 0xC0000201) + b"\0" + struct.pack(">HHIH", 41, 1232, 0, 28)
    additional += struct.pack(">HH", 10, 24) + bytes(range(24))
    counts = struct.pack(">HHHHHH", number % 65_536, 0x8180, 1, 2 + host % 3, 1, 2)
    return counts + question + answers + authority + additional


def replies(count, path):
    with open(path, "w") as text:
        for number in range(count):
            text.write(reply(number).hex() + "\n")


def run(command, path):
    """Seconds, and the most mebibytes that the process held."""
    with open(path, "rb") as text:
        start = time.perf_counter()
        child = subprocess.Popen(command, stdin=text, stdout=subprocess.DEVNULL)
        _, _, usage = os.wait4(child.pid, 0)
        return time.perf_counter() - start, usage.ru_maxrss / 1024


def stolen():
    """The processor seconds that the host of a virtual machine took since its start (`steal` in proc(5))."""
    with open("/proc/stat") as text:
        return int(text.readline().split()[8]) / os.sysconf("SC_CLK_TCK")


def undisturbed(command, processes):
    """Seconds, or None if the host took more than a fiftieth of the processors' time."""
    before = stolen()
    seconds = run(command, os.devnull)[0]
    return seconds if stolen() - before <= seconds * processes / 50 else None


def rounds_of(word, divided, count, most):
    """For each round that counts, the seconds with each number of processes; and how many rounds were left out."""
    counted, left_out = [], 0
    while len(counted) < count and left_out < most:
        seconds = [undisturbed(over_parts([str(LINES), word], parts), len(parts)) for parts in divided]
        if None in seconds:
            left_out += 1
        else:
            counted.append(seconds)
        for parts in divided[1:]:
            if not are_joined(parts, divided[0][0]):
                raise SystemExit(f"{len(parts)} processes wrote something else than one")
    return counted, left_out


def instructions(command, path):
    with open(path, "rb") as text, tempfile.NamedTemporaryFile() as out:
        told = subprocess.run(["valgrind", "--tool=callgrind", f"--callgrind-out-file={out.name}", *command], stdin=text,
                              stdout=subprocess.DEVNULL, stderr=subprocess.PIPE, check=True).stderr.decode()
    return int(next(line for line in told.splitlines() if "Collected" in line).split(":")[1].replace(",", ""))


def for_each_line(command, few, many, lines):
    """Instructions for a line, without those of the start."""
    return (instructions(command, many) - instructions(command, few)) / lines


def canon_of_each(folder, numbers):
    """Instructions of `dnscanon canon` for a reply, without those for a message of twelve octets."""
    total = 0
    for number in numbers:
        path = folder / "one"
        path.write_text(reply(number).hex() + "\n")
        total += instructions([str(CANON), "canon"], path)
    path.write_text("0" * 24 + "\n")
    return total / len(numbers) - instructions([str(CANON), "canon"], path)


def parts_of(path, count):
    """The lines of the file in that many files of about the same size."""
    subprocess.run(["split", "-n", f"l/{count}", path, f"{path}.of{count}."], check=True)
    return sorted(map(str, path.parent.glob(f"{path.name}.of{count}.??")))


def over_parts(command, parts):
    """The command over each part, with its output in a file beside the part: as many processes as parts, under parallel if there are several."""
    each = f"{' '.join(command)} < {{}} > {{}}.out"
    if len(parts) == 1:
        return ["sh", "-c", each.format(parts[0], parts[0])]
    return ["parallel", "--jobs", str(len(parts)), each, ":::", *parts]


def are_joined(parts, whole):
    """Whether the outputs of the parts are one after another that of the whole."""
    outputs = " ".join(f"{part}.out" for part in parts)
    return subprocess.run(f"cat {outputs} | cmp - {whole}.out", shell=True).returncode == 0


def output(command, path):
    with open(path, "rb") as text:
        return subprocess.run(command, stdin=text, stdout=subprocess.PIPE, check=True).stdout


def main():
    options = argparse.ArgumentParser()
    options.add_argument("--lines", type=int, default=1_000_000)
    options.add_argument("--runs", type=int, default=5)
    chosen = options.parse_args()
    with tempfile.TemporaryDirectory() as text_folder:
        folder = Path(text_folder)
        ldns = folder / "lines_with_ldns"
        subprocess.run(["gcc", "-O2", "-o", ldns, HERE / "lines_with_ldns.c", "-lldns"], check=True)
        python = ["/usr/bin/python3", str(HERE / "lines_with_dnspython.py")]
        few, many, thousand, hundred_thousand, million = (folder / part for part in ("few", "many", "thousand", "hundred_thousand", "million"))
        replies(1, few)
        replies(chosen.lines, many)
        replies(1_000, thousand)
        own = [str(LINES), "digest"]
        ours = output(own, thousand)
        for other in ([str(ldns)], python):
            if output(other, thousand) != ours:
                raise SystemExit(f"the digests of {other[-1]} differ")
        octets = sum(len(reply(number)) for number in range(1_000)) / 1_000
        print(f"{octets:.0f} octets a reply")
        canon = canon_of_each(folder, range(0, 100_000, 1_000))
        replies(1_001, thousand)
        replies(100_001, hundred_thousand)
        print(f"instructions for a reply: canon {canon:.0f}", end="")
        for word in ("normal", "digest"):
            each = for_each_line([str(LINES), word], few, hundred_thousand, 100_000)
            print(f", {word} {each:.0f} ({each / canon:.2f} of canon)", end="")
        print()
        print("| program | processes | seconds | messages a second | to one process |\n|---|---|---|---|---|")
        divided = [[str(many)], parts_of(many, 2), parts_of(many, 4)]
        for word in ("normal", "digest"):
            counted, left_out = rounds_of(word, divided, chosen.runs, 10 * chosen.runs)
            if not counted:
                raise SystemExit("the host took processors in each round")
            for at, parts in enumerate(divided):
                seconds = statistics.median(each[at] for each in counted)
                gains = sorted(each[0] / each[at] for each in counted)
                print(f"| `dnslines {word}` | {len(parts)} | {seconds:.2f} | {chosen.lines / seconds:,.0f} | "
                      f"{statistics.median(gains):.2f} ({gains[0]:.2f} to {gains[-1]:.2f}) |")
            print(f"{len(counted)} rounds, and {left_out} left out")
        for said, command, path, lines in (("ldns", [str(ldns)], hundred_thousand, 100_001), ("dnspython", python, thousand, 1_001)):
            seconds, held = min(run(command, path) for _ in range(chosen.runs))
            print(f"| {said} | 1 | {seconds:.2f} | {lines / seconds:,.0f} | {held:.0f} MiB |")
        replies(1_000_000, million)
        for word in ("normal", "digest"):
            print(f"memory of {word}: {run([str(LINES), word], thousand)[1]:.1f} MiB for a thousand lines, "
                  f"{run([str(LINES), word], million)[1]:.1f} MiB for a million")


main()
