#!/usr/bin/env python3
"""Writes the messages that are measured, each as one line of hexadecimal, into the folder that is named."""
import itertools
import random
import struct
import sys
from pathlib import Path

LIMIT = 65_535


def labels(text):
    return b"".join(bytes([len(label)]) + label for label in text.encode().split(b".") if label)


def name(text):
    return labels(text) + b"\0"


def pointer(place):
    return struct.pack(">H", 0xC000 | place)


def record(owner, rtype, data, ttl=3600):
    return owner + struct.pack(">HHIH", rtype, 1, ttl, len(data)) + data


def message(question, records):
    """A message of a question and as many of the records as there is room for."""
    head = name(question) + struct.pack(">HH", 1, 1)
    body, count = b"", 0
    for item in records:
        if 12 + len(head) + len(body) + len(item) > LIMIT:
            break
        body += item
        count += 1
    return struct.pack(">HHHHHH", 0, 0x8400, 1, count, 0, 0) + head + body


def some_octets(seed, count):
    return random.Random(seed).randbytes(count)


def in_some_case(draw, text):
    """The text with each letter in a case that is drawn."""
    return "".join(draw.choice((letter.lower(), letter.upper())) for letter in text)


def signature_data(covered, algorithm, labels_count, zone, octets):
    """The data of an RRSIG record (RFC 4034 section 3.1)."""
    return struct.pack(">HBBIIIH", covered, algorithm, labels_count, 3600, 1_800_000_000, 1_700_000_000, 4711) + name(zone) + octets


def small_reply():
    """An alias, its address, a server with its address, and an OPT."""
    alias = record(pointer(12), 5, labels("Web") + pointer(16))
    address = record(labels("web") + pointer(16), 1, bytes([192, 0, 2, 1]), 300)
    server = record(pointer(16), 2, labels("ns1") + pointer(16))
    glue = record(labels("ns1") + pointer(16), 1, bytes([192, 0, 2, 53]))
    option = b"\0" + struct.pack(">HHIH", 41, 1232, 0, 0)
    body = name("www.Example.org") + struct.pack(">HH", 1, 1) + alias + address + server + glue + option
    return struct.pack(">6H", 0x1234, 0x8580, 1, 2, 1, 2) + body


def delegation():
    """Thirteen servers of a domain, and two addresses of each."""
    servers = [f"{letter}.gtld-Servers.net" for letter in "mlkjihgfedcba"]
    names = b"".join(record(pointer(20), 2, name(server)) for server in servers)
    kinds = [(server, rtype, size) for server in servers for rtype, size in ((1, 4), (28, 16))]
    addresses = b"".join(record(name(server), rtype, some_octets(server + str(rtype), size)) for server, rtype, size in kinds)
    body = name("Example.com") + struct.pack(">HH", 1, 1) + names + addresses
    return struct.pack(">6H", 0x1234, 0x8100, 1, 0, 13, 26) + body


def mixed(draw, zone):
    """One record after another, of types by turns."""
    number = 0
    while True:
        host = labels(f"Host{draw.randrange(1000)}") + zone
        yield record(host, 1, draw.randbytes(4))
        yield record(host, 28, draw.randbytes(16))
        yield record(zone, 15, struct.pack(">H", draw.randrange(50)) + labels(f"Mail{draw.randrange(100)}") + zone)
        yield record(labels(f"Text{number}") + zone, 16, bytes([20]) + draw.randbytes(20))
        yield record(labels(f"alias{draw.randrange(10**5)}") + zone, 5, host)
        service = struct.pack(">3H", draw.randrange(9), 5, 5060)
        yield record(labels("_sip._tcp") + zone, 33, service + name(f"Sip{draw.randrange(99)}.Example.org"))
        yield record(labels(f"sub{draw.randrange(500)}") + zone, 2, labels(f"NS{draw.randrange(9)}") + zone)
        yield record(labels(f"sub{draw.randrange(500)}") + zone, 43, struct.pack(">HBB", draw.randrange(65536), 13, 2) + draw.randbytes(32))
        yield record(labels(f"{draw.randrange(256)}") + zone, 12, host)
        number += 1


def medium():
    return message("Example.org", itertools.islice(mixed(random.Random(5), pointer(12)), 90))


def mixed_types():
    return message("Example.org", mixed(random.Random(6), pointer(12)))


def addresses_sorted():
    zone = pointer(12)
    return message("Example.org", (record(labels(f"host-{i:06}") + zone, 1, struct.pack(">I", i)) for i in range(4000)))


def addresses():
    draw = random.Random(1)
    zone = pointer(12)
    return message("Example.org", (record(labels(f"host-{draw.randrange(10**6)}") + zone, 1, draw.randbytes(4)) for _ in range(4000)))


def exchanges():
    draw = random.Random(2)
    zone = pointer(12)
    return message("Example.org", (record(zone, 15, struct.pack(">H", draw.randrange(100)) + labels(f"Mail{draw.randrange(10**4)}") + zone) for _ in range(4000)))


def one_text():
    room = LIMIT - 12 - len(name("example.org")) - 4 - 12
    strings = b""
    while len(strings) + 1 < room:
        size = min(255, room - len(strings) - 1)
        strings += bytes([size]) + some_octets(len(strings), size)
    return message("example.org", [record(pointer(12), 16, strings)])


def long_suffix():
    suffix = ".".join(["Abcdefghijklmnopqrstuvwxyz-0123456789-abcdefghijklmnopqrst"] * 4)
    draw = random.Random(3)
    order = list(range(2900))
    draw.shuffle(order)
    return message(suffix, (record(labels(f"{i:04}") + pointer(12), 1, draw.randbytes(4)) for i in order))


def signed_zone():
    draw = random.Random(4)
    zone = "zone.example"

    def signature(covered):
        return signature_data(covered, 13, 3, zone, draw.randbytes(64))

    def records():
        for i in range(1000):
            owner = labels(f"Host{i:03}") + pointer(12)
            yield record(owner, 1, draw.randbytes(4))
            yield record(owner, 46, signature(1))
            yield record(owner, 28, draw.randbytes(16))
            yield record(owner, 46, signature(28))
            yield record(owner, 47, name(f"Host{i + 1:03}.{zone}") + bytes.fromhex("0006400000080003"))
            yield record(owner, 46, signature(47))

    return message(zone, records())


def signed_reply():
    """A denial with hashed names, as a signer of a zone sends it."""
    draw = random.Random(7)
    zone = "Zone.example"
    hashes = "0123456789abcdefghijklmnopqrstuv"

    def signature(covered):
        return record(pointer(12), 46, signature_data(covered, 13, 2, zone, draw.randbytes(64)))

    soa = record(pointer(12), 6, labels("NS1") + pointer(12) + labels("Host-Master") + pointer(12) + draw.randbytes(20))
    records = [soa, signature(6)]
    for _ in range(3):
        owner = "".join(draw.choice(hashes) for _ in range(32))
        data = bytes.fromhex("0100000004") + draw.randbytes(4) + bytes([20]) + draw.randbytes(20) + bytes.fromhex("0006400000000002")
        records += [record(labels(owner) + pointer(12), 50, data), signature(50)]
    return message(zone, records)


def hashed_zone():
    """Addresses of a zone, hashed names, keys, digests of keys, and their signatures."""
    draw = random.Random(8)
    zone = "zone.example"

    def signature(covered):
        return signature_data(covered, 8, 3, zone, draw.randbytes(128))

    def records():
        yield record(pointer(12), 48, bytes.fromhex("01010308") + draw.randbytes(132))
        while True:
            owner = labels(f"Host{draw.randrange(10**4)}") + pointer(12)
            hashed = labels("".join(draw.choice("0123456789abcdefghijklmnopqrstuv") for _ in range(32))) + pointer(12)
            yield record(owner, 1, draw.randbytes(4))
            yield record(owner, 46, signature(1))
            yield record(owner, 43, bytes.fromhex("12340802") + draw.randbytes(32))
            yield record(owner, 46, signature(43))
            yield record(hashed, 50, bytes.fromhex("0100000000") + bytes([20]) + draw.randbytes(20) + bytes.fromhex("0006400000000002"))
            yield record(hashed, 46, signature(50))

    return message(zone, records())


def suffix_copies():
    """Addresses whose owners end in one long suffix, each with a copy of its own, in a case that is drawn."""
    suffix = ".".join(["Abcdefghijklmnopqrstuvwxyz-0123456789-abcdefghijklmnopqrst"] * 4)
    draw = random.Random(9)
    owners = (name(f"{draw.randrange(10**4):04}." + in_some_case(draw, suffix)) for _ in range(400))
    return message("example", (record(owner, 1, draw.randbytes(4)) for owner in owners))


def many_labels():
    """Names of up to 127 labels: stems, each record's owner a label before the owner before it; then owners with a label before one of
    those."""
    draw = random.Random(10)
    at = 12 + len(name("x")) + 4
    places, records, depth = [], [], 1
    for _ in range(3600):
        base = pointer(12) if depth == 1 else pointer(places[-1]) if at < 16_000 else pointer(draw.choice(places))
        if at < 16_000:
            places.append(at)
            depth = depth % 125 + 1
        records.append(record(labels(draw.choice("abcXYZ")) + base, 1, draw.randbytes(4)))
        at += len(records[-1])
    return message("x", records)


def duplicates():
    return message("example.org", [record(pointer(12), 1, bytes([192, 0, 2, 1]))] * 4100)


def rp_data():
    """Records of one owner with two names each, which end in copies of one long suffix in a case that is drawn."""
    draw = random.Random(11)
    suffix = ".".join(["Abcdefghijklmnopqrstuvwxyz-0123456789-abcdefghijklmnopqrst"] * 4)
    start = 12 + len(name("example")) + 4
    copies = [record(name(in_some_case(draw, suffix)), 1, draw.randbytes(4)) for _ in range(60)]
    places = [start + sum(map(len, copies[:i])) for i in range(len(copies))]

    def records():
        yield from copies
        while True:
            text = labels(f"t{draw.randrange(1000)}") + pointer(draw.choice(places))
            yield record(pointer(12), 17, pointer(draw.choice(places)) + text)

    return message("example", records())


def chain():
    """Data of 8,000 pointers, each to the one before it, and records whose owners lead to the last."""
    first = 12 + len(name("a.example")) + 4 + 12
    steps = b"".join(pointer(12 if i == 0 else first + 2 * (i - 1)) for i in range(8000))
    last = pointer(first + 2 * 7999)
    return message("a.example", [record(pointer(12), 65280, steps)] + [record(last, 1, struct.pack(">I", i)) for i in range(100)])


def full_of(rtype, names):
    """The longest chain of pointers that can be reached, and as many records as 64 KB hold, whose owners and names lead to its end."""
    steps = b"".join(pointer(23 + (2 * i - 1 if i else 0)) for i in range(8180))
    end = pointer(24 + 2 * 8179)
    first = record(b"\0", 65280, b"\0" + steps)
    each = record(end, rtype, end * names)
    records = [first] + [each] * ((65535 - 12 - len(first)) // len(each))
    return struct.pack(">6H", 0x1234, 0x8180, 0, len(records), 0, 0) + b"".join(records)


def main():
    folder = Path(sys.argv[1])
    folder.mkdir(parents=True, exist_ok=True)
    made = {
        "header": bytes(12),
        "small-reply": small_reply(),
        "delegation": delegation(),
        "medium": medium(),
        "addresses": addresses(),
        "addresses-sorted": addresses_sorted(),
        "mixed-types": mixed_types(),
        "exchanges": exchanges(),
        "one-text": one_text(),
        "signed-reply": signed_reply(),
        "signed-zone": signed_zone(),
        "hashed-zone": hashed_zone(),
        "long-suffix": long_suffix(),
        "suffix-copies": suffix_copies(),
        "many-labels": many_labels(),
        "duplicates": duplicates(),
        "rp-data": rp_data(),
        "chain": chain(),
        "full-of-chains": full_of(2, 1),
        "rp-chain": full_of(17, 2),
    }
    for title, octets in made.items():
        (folder / f"{title}.hex").write_text(octets.hex() + "\n")


main()
