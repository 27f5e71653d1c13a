#!/usr/bin/env python3
"""Normalises each sample, and has dnspython read the normal form: it must have the lines of the sample, and be its own normal form.

It needs the program built, and dnspython."""
import struct
import subprocess
import sys

import dns.name
import dns.rdata
import samples

PROGRAM = str(samples.ROOT / "crates" / "dnscanon" / "out" / "dnscanon")
# The types whose names are in lowercase in canonical form.
LOWERCASED = {2, 5, 6, 12, 15, 17, 33, 39, 46}


def normal(text):
    ended = subprocess.run([PROGRAM, "normal"], input=text, stdout=subprocess.PIPE)
    return ended.stdout if ended.returncode == 0 else None


def lines_by_dnspython(message):
    """The canonical lines of the answers, in their order; an error if the message has anything else."""
    ident, flags, questions, answers, authorities, additional = struct.unpack(">HHHHHH", message[:12])
    assert (ident, flags, questions, authorities, additional) == (0, 0, 0, 0, 0)
    lines, at = [], 12
    for _ in range(answers):
        owner, used = dns.name.from_wire(message, at)
        at += used
        rtype, rclass, ttl, size = struct.unpack(">HHIH", message[at : at + 10])
        data = dns.rdata.from_wire(rclass, rtype, message, at + 10, size)
        octets = data.to_digestable() if rtype in LOWERCASED else data.to_wire()
        at += 10 + size
        before = owner.to_digestable() + struct.pack(">HHIH", rtype, rclass, ttl, len(octets))
        lines.append((before + octets).hex().encode() + b"\n")
    assert at == len(message)
    return b"".join(lines)


def main():
    wrong = 0
    names = sorted(path.stem for path in (samples.ROOT / "samples").glob("*.hex"))
    for name in names:
        form = normal(samples.text(name))
        holds = form is not None and normal(form) == form and lines_by_dnspython(bytes.fromhex(form.decode())) == samples.lines(name)
        if not holds:
            wrong += 1
            print(f"{name}: NOT OK")
    print(f"{len(names)} normal forms, {len(names) - wrong} ok")
    sys.exit(wrong > 0)


main()
