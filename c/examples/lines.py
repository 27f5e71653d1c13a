#!/usr/bin/env python3
"""Prints with the library what `dnscanon` prints: `lines.py canon`, `same`, `normal`, `keytags`, `zone APEX` and `hash NAME SALT N`. Messages
come as lines of hexadecimal digits on standard input. Names on the command line have no escapes."""

import base64
import sys

import nelgvasti


def name_of(text):
    labels = [label.encode() for label in text.split(".") if label]
    return b"".join(bytes([len(label)]) + label for label in labels) + b"\0"


def tags(message):
    for octets in nelgvasti.canonical(message):
        end = 0
        while octets[end]:
            end += 1 + octets[end]
        if octets[end + 1 : end + 3] == b"\0\x30":
            try:
                yield str(nelgvasti.key_tag(octets[end + 11 :]))
            except nelgvasti.UsageError:
                yield "-"


def printed(words):
    if words[0] == "hash":
        salt = b"" if words[2] == "-" else bytes.fromhex(words[2])
        digits = base64.b32encode(nelgvasti.nsec3_hash(name_of(words[1]), salt, int(words[3]))).decode()
        return [digits.translate(str.maketrans("ABCDEFGHIJKLMNOPQRSTUVWXYZ234567", "0123456789abcdefghijklmnopqrstuv"))]
    messages = [bytes.fromhex(line) for line in sys.stdin.read().splitlines()]
    message = messages[0] if messages else b""
    if words[0] == "canon":
        return [octets.hex() for octets in nelgvasti.canonical(message)]
    if words[0] == "same":
        return ["same" if nelgvasti.same(message, messages[1] if len(messages) > 1 else b"") else "different"]
    if words[0] == "normal":
        return [nelgvasti.normal(message).hex()]
    if words[0] == "keytags":
        return tags(message)
    records, octets, digest = nelgvasti.zone_digest(messages, name_of(words[1]))
    return [f"records {records} octets {octets}", f"digest {digest.hex()}"]


try:
    sys.stdout.write("".join(line + "\n" for line in printed(sys.argv[1:])))
except nelgvasti.MessageError as error:
    print("short", error.message, file=sys.stderr) if error.section is None else print("item", error.message, error.section, error.index, file=sys.stderr)
    sys.exit(error.answer)
except nelgvasti.Error as error:
    sys.exit(error.answer)
