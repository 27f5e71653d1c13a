#!/usr/bin/env python3
"""Compares `keytags`, `covers` and `signed` on each sample with what dnspython computes from the same records. Each signature whose key is
in one of the samples is verified over the octets that `signed` writes.

It needs the program built, dnspython and cryptography. Names for `covers` are the owners of each sample, names below and beside them, the
name of its question, the names above that and their wildcards, and a few others. Key tags are also compared with those that the programs
printed which made the keys."""
import subprocess
import sys

import dns.dnssec
import dns.name
import dns.rdata
import dns.rdataclass
import dns.rdataset
import dns.rdatatype
import dns.rrset
import samples
from cryptography.exceptions import InvalidSignature
from cryptography.hazmat.primitives.asymmetric.utils import encode_dss_signature

PROGRAM = str(samples.ROOT / "crates" / "dnscanon" / "out" / "dnscanon")
OTHERS = ["", "a.", "example.", "zzz.example.org.", "*.example.org."]
# Algorithm and tag of each key in canonical order: as ldns-keygen, dnssec-keygen and dnssec-revoke name the files of their keys, and as
# Debian's dns-root-data says of the root's.
PRINTED = {
    "keys-of-ldns-keygen": [(1, 26906), (5, 7377), (8, 10066), (13, 3122), (15, 53810)],
    "keys-of-dnssec-keygen": [(5, 6156), (8, 42159), (15, 58759), (13, 57237)],
    "keys-of-the-root": [(8, 20326), (8, 38696)],
}


def run(words, text):
    ended = subprocess.run([PROGRAM, *words], input=text, stdout=subprocess.PIPE, stderr=subprocess.PIPE)
    return ended.stdout.decode() if ended.returncode == 0 else ended.stderr.decode()


def records(lines):
    """The records of a message in canonical order, by its lines: owner, type, class, TTL and data."""
    for line in lines.splitlines():
        octets = bytes.fromhex(line.decode())
        owner, used = dns.name.from_wire(octets, 0)
        rtype, rclass = int.from_bytes(octets[used : used + 2]), int.from_bytes(octets[used + 2 : used + 4])
        ttl, size = int.from_bytes(octets[used + 4 : used + 8]), int.from_bytes(octets[used + 8 : used + 10])
        yield owner, rtype, rclass, ttl, dns.rdata.from_wire(rclass, rtype, octets, used + 10, size)


def tags(held):
    """A line for each key: its tag, or a hyphen for algorithm 1."""
    keys = [data for _, rtype, _, _, data in held if rtype == dns.rdatatype.DNSKEY]
    return "".join(f"{'-' if key.algorithm == 1 else dns.dnssec.key_id(key)}\n" for key in keys)


def tags_of(printed):
    return "".join(f"{'-' if algorithm == 1 else tag}\n" for algorithm, tag in printed)


def is_between(owner, name, after):
    return owner < name < after if owner < after else owner < name or name < after


def coverage(owner, name, after):
    return "matches" if owner == name else "covers" if is_between(owner, name, after) else "no"


def hashed(owner, data, name):
    """The word for an NSEC3 record, by the texts of hashes, whose order is that of the hashes."""
    label = owner.labels[0].decode("latin-1").upper()
    is_hash = len(label) == 32 and set(label) <= set("0123456789ABCDEFGHIJKLMNOPQRSTUV")
    if data.algorithm != 1 or data.iterations > 500 or not is_hash or len(data.next) != 20:
        return "unknown"
    text = dns.dnssec.nsec3_hash(name, data.salt.hex() or None, data.iterations, 1)
    after = data.to_text().split()[4].upper()
    return coverage(label, text, after)


def coverages(held, name):
    lines = []
    for owner, rtype, _, _, data in held:
        if rtype == dns.rdatatype.NSEC:
            lines.append(f"nsec {coverage(owner, name, data.next)}\n")
        elif rtype == dns.rdatatype.NSEC3:
            lines.append(f"nsec3 {hashed(owner, data, name)}\n")
    return "".join(lines)


def signed(held, number):
    """The octets that the signature of this number is over, in digits, or the line of the refusal."""
    signatures = [(owner, rclass, data) for owner, rtype, rclass, _, data in held if rtype == dns.rdatatype.RRSIG]
    if number >= len(signatures):
        return "no signature\n"
    owner, rclass, signature = signatures[number]
    if signature.labels > len(owner) - 1:
        return "too many labels\n"
    datas = [data for other, rtype, found, _, data in held if (other, rtype, found) == (owner, signature.type_covered, rclass)]
    if not datas:
        head = signature.to_wire(origin=signature.signer)[:18] + signature.signer.to_digestable()
        return head.hex() + "\n"
    rrset = dns.rrset.from_rdata_list(owner, signature.original_ttl, datas)
    return dns.dnssec._make_rrsig_signature_data(rrset, signature).hex() + "\n"


def encoded(signature):
    """The signature as the library takes it: of ECDSA two numbers in DER (RFC 6605 section 4)."""
    if signature.algorithm not in (13, 14):
        return signature.signature
    half = len(signature.signature) // 2
    return encode_dss_signature(int.from_bytes(signature.signature[:half]), int.from_bytes(signature.signature[half:]))


def keys_of(names):
    """The keys in the samples, by owner, algorithm and tag."""
    keys = {}
    for name in names:
        for owner, rtype, _, _, data in records(samples.lines(name)):
            if rtype == dns.rdatatype.DNSKEY:
                keys.setdefault((owner, data.algorithm, dns.dnssec.key_id(data)), []).append(data)
    return keys


def is_good(keys, signature, octets):
    """Whether the signature is good over the octets by one of the keys."""
    for key in keys:
        try:
            dns.dnssec._validate_signature(encoded(signature), octets, key, dns.dnssec._make_hash(signature.algorithm))
            return True
        except InvalidSignature:
            pass
    return False


def names_above(name):
    """The name, each name above it, and the wildcards of these."""
    above = [dns.name.Name(name.labels[count:]) for count in range(len(name))]
    return above + [dns.name.Name((b"*",) + other.labels) for other in above if len(other.to_wire()) < 250]


def names_for(held, message):
    names = {dns.name.from_text(text) if text else dns.name.root for text in OTHERS}
    if message[4:6] != b"\0\0":
        names.update(names_above(dns.name.from_wire(message, 12)[0]))
    for owner, _, _, _, _ in held:
        names.add(owner)
        if len(owner) < 100 and len(owner.to_wire()) < 250:
            names.add(dns.name.Name((b"0",) + owner.labels))
            names.add(dns.name.Name((b"zz",) + owner.labels[1:]) if len(owner) > 1 else owner)
    return sorted(names)


def word_of(name):
    return "" if name == dns.name.root else name.to_text()


def main():
    count, wrong, good, bad, wild = 0, 0, 0, 0, 0
    paths = sorted((samples.ROOT / "samples").glob("*.hex"))
    keys = keys_of(path.stem for path in paths)
    for path in paths:
        held, text = list(records(samples.lines(path.stem))), samples.text(path.stem)
        cases = [(["keytags"], tags(held))]
        if path.stem in PRINTED:
            cases.append((["keytags"], tags_of(PRINTED[path.stem])))
        if {dns.rdatatype.NSEC, dns.rdatatype.NSEC3} & {rtype for _, rtype, _, _, _ in held}:
            cases += [(["covers", word_of(name)], coverages(held, name)) for name in names_for(held, samples.message(path.stem))]
        signatures = [(owner, data) for owner, rtype, _, _, data in held if rtype == dns.rdatatype.RRSIG]
        cases += [(["signed", str(number)], signed(held, number)) for number in range(len(signatures) + 1)]
        for words, wanted in cases:
            count += 1
            given = run(words, text)
            if given != wanted:
                wrong += 1
                print(f"{path.stem}, {' '.join(words)}: NOT OK\n  {given[:200]}  {wanted[:200]}")
        for number, (owner, signature) in enumerate(signatures):
            known = keys.get((signature.signer, signature.algorithm, signature.key_tag))
            if not known:
                continue
            if is_good(known, signature, bytes.fromhex(run(["signed", str(number)], text))):
                good, wild = good + 1, wild + (signature.labels < len(owner) - 1 and owner.labels[0] != b"*")
            else:
                bad += 1
                print(f"{path.stem}, signature {number}: NOT GOOD")
    print(f"{count} outputs, {count - wrong} ok; {good + bad} signatures with a key, {good} good, {wild} of them of wildcards")
    sys.exit(wrong + bad > 0)


if __name__ == "__main__":
    main()
