#!/usr/bin/python3
"""The canonical lines of one message's records, as dnspython reads and writes them, in the order of dnscanon, alike ones once."""
import itertools
import struct
import sys

import dns.name
import dns.rdata
import dns.rdatatype


def records(octets):
    counts = struct.unpack(">HHHH", octets[4:12])
    at = 12
    for _ in range(counts[0]):
        at += dns.name.from_wire(octets, at)[1] + 4
    for _ in range(sum(counts[1:])):
        owner, size = dns.name.from_wire(octets, at)
        at += size
        rtype, rclass, ttl, size = struct.unpack(">HHIH", octets[at : at + 10])
        at += 10
        if rtype != dns.rdatatype.OPT:
            data = dns.rdata.from_wire(rclass, rtype, octets, at, size).to_digestable()
            yield owner, rclass, rtype, data, ttl
        at += size


def key(found):
    owner, rclass, rtype, data, ttl = found
    return [label.lower() for label in reversed(owner.labels)], rclass, rtype, data, ttl


def lines_of(octets):
    """The canonical octets of each record, in order."""
    for _, alike in itertools.groupby(sorted(records(octets), key=key), lambda found: key(found)[:-1]):
        owner, rclass, rtype, data, ttl = next(alike)
        yield owner.to_digestable() + struct.pack(">HHIH", rtype, rclass, ttl, len(data)) + data


def main():
    for line in lines_of(bytes.fromhex(sys.stdin.read().strip())):
        print(line.hex())


if __name__ == "__main__":
    main()
