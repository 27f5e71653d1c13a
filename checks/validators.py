#!/usr/bin/env python3
"""Compares what the words of `covers` prove with what delv and drill make of the same answers.

NSD serves the two signed zones of the samples. Each claim below goes with each denial that NSD gave, so that most do not fit; delv must
accept exactly those that the words prove by the rules of RFC 4035 section 5.4, RFC 5155 section 8 and RFC 6840 section 4. drill checks the
answers as NSD gave them. Hashes are compared with those of nsec3hash (BIND) and ldns-nsec3-hash. It needs the program built, dnspython,
cryptography, and these programs of others: on Debian nsd, bind9, bind9-dnsutils and ldnsutils."""
import socket
import subprocess
import sys
import tempfile
import threading
import time
from pathlib import Path

sys.dont_write_bytecode = True

import denial
import dns.exception
import dns.flags
import dns.message
import dns.name
import dns.query
import dns.rcode
import dns.rdatatype
import dns.rrset
import samples
from dns.rdatatype import CNAME, DNAME, DNSKEY, DS, MX, NS, NSEC, NSEC3, RRSIG, SOA
from report import Report

HERE, NSD, RELAY = "127.0.0.1", 15481, 15482
APEX, WILD = dns.name.from_text("example."), dns.name.from_text("w.example.")
ZONES = ["signed-zone", "signed-zone-with-hashed-names"]
# What NSD is asked. The first four are of names that are not there, then come types that are not there, and a wildcard.
ASKED = ["ml A", "a.c.x.w A", "n.ai A", "zy MX", "ns1 MX", "y.w A", "b DS", "a.z.w AAAA", "a.z.w MX"]
# What is claimed: that there is no such name, or no such type, or that the MX of the wildcard *.w.example holds.
CLAIMS = {
    "name": ["ml A", "a.c.x.w A", "n.ai A", "zy MX", "ns1 MX", "y.w A", "c.w A", "x.y.w A", "p.xx A", "x.b A"],
    "type": ["ml A", "ns1 MX", "ns1 A", "y.w A", "w MX", "b DS", "a DS", "a.z.w AAAA", "a.z.w MX", "x.w A", "x.b A"],
    "wildcard": ["a.z.w MX", "x.w MX", "x.y.w MX", "b.z.w MX", "y.w MX", "zz.w MX"],
}

# Names and parameters of hashes.
NAMES = ["", "example.", "A.ExAmPlE.", "*.w.example.", "a\\.b\\032c.example."]
PARAMETERS = [("-", 0), ("-", 1), ("aabbccdd", 12), ("ab" * 255, 500)]

CONFIGURATION = f"""
server:
  ip-address: {HERE}@{NSD}
  server-count: 1
  username: ""
  chroot: ""
  database: ""
  zonesdir: "FOLDER"
  pidfile: "FOLDER/pid"
  xfrdfile: "FOLDER/xfrd"
  zonelistfile: "FOLDER/list"
  logfile: "FOLDER/log"
remote-control:
  control-enable: no
zone:
  name: "{APEX}"
  zonefile: "zone"
"""


class Message:
    """A message, its records in canonical order, and what `covers` says of names."""

    def __init__(self, message):
        self.text = message.to_wire().hex().encode()
        self.held = list(denial.records(denial.run(["canon"], self.text).encode()))
        self.denials = [(owner, data) for owner, rtype, _, _, data in self.held if rtype in (NSEC, NSEC3)]
        self.hashed = any(data.rdtype == NSEC3 for _, data in self.denials)

    def found(self, word, name):
        """The records of which `covers` says this word for the name, except those above a cut that the name is below."""
        lines = denial.run(["covers", denial.word_of(name)], self.text).splitlines()
        assert len(lines) == len(self.denials)
        pairs = [pair for pair, line in zip(self.denials, lines) if line.split()[1] == word]
        return [(owner, data) for owner, data in pairs if self.hashed or not (name != owner and name.is_subdomain(owner) and is_cut(data))]


def types_of(data):
    bits = [(window * 256 + at * 8, octet) for window, octets in data.windows for at, octet in enumerate(octets)]
    return {first + bit for first, octet in bits for bit in range(8) if octet & 128 >> bit}


def is_cut(data):
    types = types_of(data)
    return DNAME in types or (NS in types and SOA not in types)


def lacks(data, rtype):
    types = types_of(data)
    return not {rtype, CNAME} & types and ((SOA not in types) if rtype == DS else (NS not in types or SOA in types))


def shared(name, other):
    """The longest name that both are below."""
    return dns.name.Name(name.labels[len(name) - name.fullcompare(other)[2] :])


def star(name):
    return dns.name.Name((b"*",) + name.labels)


def gaps(message, name):
    """The closest enclosers that the records prove of a name that is not there, each with whether names below the name are there."""
    if not message.hashed:
        for owner, data in message.found("covers", name):
            yield max(shared(name, owner), shared(name, data.next), key=len), data.next.is_subdomain(name)
        return
    for count in range(1, len(name)):
        encloser, closer = (dns.name.Name(name.labels[at:]) for at in (count, count - 1))
        at_encloser = message.found("matches", encloser)
        if at_encloser:
            if not any(is_cut(data) for _, data in at_encloser) and message.found("covers", closer):
                yield encloser, False
            return


def is_proved(message, kind, name, rtype):
    found = list(gaps(message, name))
    if kind == "name":
        return any(not below and message.found("covers", star(encloser)) for encloser, below in found)
    if kind == "wildcard" and message.hashed:
        return bool(message.found("covers", dns.name.Name(name.labels[-len(WILD) - 1 :])))
    if kind == "wildcard":
        return any(encloser == WILD and not below for encloser, below in found)
    at_name = message.found("matches", name)
    at_stars = [pair for encloser, below in found if not below for pair in message.found("matches", star(encloser))]
    return any(below for _, below in found) or any(lacks(data, rtype) for _, data in at_name + at_stars)


class Server:
    """NSD, which serves one zone of the samples, and a thread that answers one question with a message, and passes others on to NSD."""

    def __init__(self, sample, folder):
        self.folder, self.held, self.given = folder, list(denial.records(samples.lines(sample))), None
        self.keys = [data for _, rtype, _, _, data in self.held if rtype == DNSKEY]
        lines = [f"{owner} {ttl} IN {dns.rdatatype.to_text(rtype)} {data.to_text()}\n" for owner, rtype, _, ttl, data in self.held]
        (folder / "zone").write_text("".join(sorted(lines, key=lambda line: " SOA " not in line)))
        (folder / "keys").write_text("".join(f"{APEX} IN DNSKEY {key.to_text()}\n" for key in self.keys))
        anchors = [key.to_text(chunksize=0).split() for key in self.keys]
        lines = [f'"{APEX}" static-key {" ".join(words[:3])} "{words[3]}";\n' for words in anchors]
        (folder / "anchors").write_text(f"trust-anchors {{\n{''.join(lines)}}};\n")
        (folder / "nsd.conf").write_text(CONFIGURATION.replace("FOLDER", str(folder)))

    def __enter__(self):
        self.nsd = subprocess.Popen(["nsd", "-d", "-c", self.folder / "nsd.conf"], stderr=subprocess.DEVNULL)
        self.socket = socket.socket(socket.AF_INET, socket.SOCK_DGRAM)
        self.socket.bind((HERE, RELAY))
        self.socket.settimeout(0.1)
        self.is_open, self.thread = True, threading.Thread(target=self.relay)
        self.thread.start()
        for _ in range(100):
            try:
                self.ask(APEX, SOA)
                return self
            except (OSError, dns.exception.Timeout):
                time.sleep(0.1)
        self.__exit__()
        raise OSError("NSD does not answer")

    def __exit__(self, *_):
        self.is_open = False
        self.thread.join()
        self.socket.close()
        self.nsd.terminate()
        self.nsd.wait()

    def ask(self, name, rtype):
        return dns.query.udp(dns.message.make_query(name, rtype, want_dnssec=True), HERE, 5, NSD)

    def relay(self):
        while self.is_open:
            try:
                octets, sender = self.socket.recvfrom(65535)
            except socket.timeout:
                continue
            question = dns.message.from_wire(octets).question[0]
            given = self.given
            if given and (question.name, question.rdtype) == (given.question[0].name, given.question[0].rdtype):
                answer = given.to_wire()
            else:
                answer = self.ask(question.name, question.rdtype).to_wire()
            self.socket.sendto(octets[:2] + answer[2:], sender)

    def judged(self, program, name, rtype, port):
        """Whether the program accepts the answer to the question."""
        rtype = dns.rdatatype.to_text(rtype)
        if program == "delv":
            words = ["delv", f"@{HERE}", "-p", str(port), "-a", self.folder / "anchors", f"+root={APEX}", str(name), rtype]
            return "fully validated" in subprocess.run(words, capture_output=True, text=True).stdout
        words = ["drill", "-D", "-k", self.folder / "keys", "-p", str(port), str(name), f"@{HERE}", rtype]
        told = subprocess.run(words, capture_output=True, text=True).stdout
        return "; Existence denied for" in told or "; VALIDATED by" in told


def question_of(text):
    name, rtype = text.split()
    return dns.name.from_text(name, APEX), dns.rdatatype.from_text(rtype)


def claimed(server, kind, name, rtype, denied):
    """An answer that claims this, with the denial of another answer."""
    message = dns.message.make_response(dns.message.make_query(name, rtype, want_dnssec=True))
    message.flags |= dns.flags.AA
    message.set_rcode(dns.rcode.NXDOMAIN if kind == "name" else dns.rcode.NOERROR)
    held = [record for record in server.held if record[0] == APEX and SOA in (record[1], record[1] == RRSIG and record[4].type_covered)]
    held += [record for record in denied.held if {NSEC, NSEC3} & {record[1], record[1] == RRSIG and record[4].type_covered}]
    message.authority = [dns.rrset.from_rdata(owner, ttl, data) for owner, _, _, ttl, data in held]
    if kind == "wildcard":
        held = [record for record in server.held if record[0] == star(WILD) and MX in (record[1], record[1] == RRSIG and record[4].type_covered)]
        message.answer = [dns.rrset.from_rdata(name, ttl, data) for _, _, _, ttl, data in held]
    return message


def signatures(server, message):
    """How many signatures there are, and how many are good over the octets that `signed` writes."""
    held = [data for _, rtype, _, _, data in message.held if rtype == RRSIG]
    octets = [bytes.fromhex(denial.run(["signed", str(number)], message.text)) for number in range(len(held))]
    return len(held), sum(denial.is_good(server.keys, data, over) for data, over in zip(held, octets))


def kind_of(message):
    return "name" if message.rcode() == dns.rcode.NXDOMAIN else "wildcard" if message.answer else "type"


def check(report, server, sample):
    denials = []
    for text in ASKED:
        name, rtype = question_of(text)
        answer = server.ask(name, rtype)
        message = Message(answer)
        denials.append(message)
        count, good = signatures(server, message)
        by_others = [server.judged(program, name, rtype, NSD) for program in ("delv", "drill")]
        came = f"{count} signatures, {good} good; proved: {is_proved(message, kind_of(answer), name, rtype)}; by delv, drill: {by_others}"
        report.add(f"{sample}, {text}", came, count == good and "False" not in came)
    for kind, texts in CLAIMS.items():
        proved, differ = 0, []
        for text in texts:
            name, rtype = question_of(text)
            for asked, denied in zip(ASKED, denials):
                server.given = claimed(server, kind, name, rtype, denied)
                is_held = is_proved(Message(server.given), kind, name, rtype)
                proved += is_held
                if is_held != server.judged("delv", name, rtype, RELAY):
                    differ.append(f"{text} by the denial of {asked}")
        report.add(f"{sample}, claims of kind {kind}", f"{len(texts) * len(denials)}, {proved} proved; delv differs: {differ}", not differ)


def check_hashes(report):
    differ = []
    for name in NAMES:
        for salt, count in PARAMETERS:
            given = denial.run(["hash", name, salt, str(count)], b"")
            by_bind = subprocess.run(["nsec3hash", salt, "1", str(count), name or "."], capture_output=True, text=True).stdout
            salted = [] if salt == "-" else ["-s", salt]
            by_ldns = subprocess.run(["ldns-nsec3-hash", "-t", str(count), *salted, name or "."], capture_output=True, text=True).stdout
            if not given.strip() == by_bind.split()[0].lower() == by_ldns.strip().rstrip("."):
                differ.append((name, salt[:8], count))
    report.add("hashes by BIND and ldns", f"{len(NAMES) * len(PARAMETERS)}, differ: {differ}", not differ)


def main():
    report = Report()
    check_hashes(report)
    for sample in ZONES:
        with tempfile.TemporaryDirectory() as folder, Server(sample, Path(folder)) as server:
            check(report, server, sample)
    sys.exit(report.end())


if __name__ == "__main__":
    main()
