#!/usr/bin/python3
"""The digest of the canonical octets of each message's records, by dnspython: one message a line, one digest a line."""
import hashlib
import sys

from with_dnspython import lines_of


def main():
    for line in sys.stdin:
        print(hashlib.sha384(b"".join(lines_of(bytes.fromhex(line.strip())))).hexdigest())


main()
