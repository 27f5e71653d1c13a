"""What is given to the library and to the program, and what must come of it: from samples/, README.md and docs/FORMATS.md."""

import hashlib
from pathlib import Path

HERE = Path(__file__).resolve().parent
ROOT = HERE.parent


def text(name):
    return (ROOT / "samples" / f"{name}.hex").read_bytes()


def message(name):
    return bytes.fromhex(text(name).decode())


def lines(name):
    return (ROOT / "samples" / f"{name}.lines").read_bytes()


def data_of(line):
    """The digits of the data in the line of a record: they come after the owner and ten octets."""
    octets = bytes.fromhex(line.decode())
    end = 0
    while octets[end]:
        end += 1 + octets[end]
    return octets[end + 11 :].hex().encode()


# README.md says that these two messages carry the same records.
TWO_ALIKE = text("edns-resolver-alias") + text("edns-resolver-alias-with-cookie")

# What docs/FORMATS.md says of 1 and 4 generated records, and README.md of 1,000. The message of one has a header of 12 octets
# and its record of 29.
MADE_1 = b"records 1 octets 29 message 41\n"
MADE_4 = b"records 4 octets 135 message 112\n"
MADE_1000 = b"records 1000 octets 35113 message 19257\n"


# A thousand equal records, and their one line.
RECORD_ALIKE = b"016100000100010000003c0004c0000201"
THOUSAND_ALIKE = b"12348180000003e800000000" + 1000 * RECORD_ALIKE
THOUSAND_LINE = RECORD_ALIKE + b"\n"


def zone_text(name, apex):
    """What `zone` prints for a sample that is a whole zone, by its lines: those of ZONEMD records at the apex, and of the signatures
    over these, are left out."""
    octets = [bytes.fromhex(line.decode()) for line in lines(name).splitlines()]
    rest = [(line, line[len(apex) :]) for line in octets]
    of_digest = [line for line, after in rest if line.startswith(apex) and (after[:2] == b"\0\x3f" or after[:2] == b"\0\x2e" and after[10:12] == b"\0\x3f")]
    held = [line for line in octets if line not in of_digest]
    stream = b"".join(held)
    return f"records {len(held)} octets {len(stream)}\ndigest {hashlib.sha384(stream).hexdigest()}\n".encode()


# A reply with an alias, an address and an OPT, and its normal form.
REPLY = (
    b"12348180000100020000000103777777076578616d706c65036f72670000010001c00c0005000100000e10000603776562c010c02d0001000100000e10"
    b"0004c000020100002904d0000000000000"
)
REPLY_NORMAL = (
    b"00000000000000020000000003776562076578616d706c65036f7267000001000100000e100004c000020103777777c0100005000100000e100002c00c\n"
)
# The canonical octets of the reply's two records, by hand, give its digest.
REPLY_RECORDS = bytes.fromhex(
    "03776562076578616d706c65036f7267000001000100000e100004c0000201"
    "03777777076578616d706c65036f7267000005000100000e10001103776562076578616d706c65036f726700"
)
REPLY_DIGEST = hashlib.sha384(REPLY_RECORDS).hexdigest().encode() + b"\n"
REPLY_LINES = (
    b"00006f7267006578616d706c6500777777 00010005 03776562076578616d706c65036f726700 00000e10\n"
    b"00006f7267006578616d706c6500776562 00010001 c0000201 00000e10\n"
)

# The hash of `example.` in RFC 5155 appendix A, an NSEC record from `a.` to `c.`, a key whose tag RFC 4034 appendix B gives, and a
# wildcard's signature with its record and the octets that it is over (RFC 4034 section 3.1.8.1).
HASHED = b"0p9mhaveqvm6t7vbl5lop2u3t2rp3tom\n"
DENIAL = b"123481800000000100000000016100002f000100000e100006016300000140"
SIGNED = (
    b"1234818000000002000000000161016200002e000100000e1000160001080100000e1000000002000000010003014200ff"
    b"0141016200000100010000000a0004c0000201"
)
SIGNED_OCTETS = b"0001080100000e1000000002000000010003016200012a0162000001000100000e100004c0000201\n"
KEY = b"1234818000000001000000000161000030000100000000000601000305aabb"

# The zone that docs/FORMATS.md takes the digest of.
ZONE = text("signed-zone-with-hashed-names")
ZONE_TEXT = zone_text("signed-zone-with-hashed-names", b"\x07example\0")


def long_message():
    """The text of a message of 600 addresses whose owners are one name of 255 octets, and its lines, as docs/FORMATS.md
    describes them. They are more octets than the program writes at once, and than a pipe holds."""
    owner = b"".join(bytes([size]) + b"a" * size for size in (63, 63, 63, 61)) + b"\0"
    fixed_fields = bytes.fromhex("0001 0001 0000003c 0004")
    addresses = [bytes([192, 0, number // 256, number % 256]) for number in range(600)]
    header = bytes.fromhex("0000 8400 0000 0258 0000 0000")
    # The first record has the owner in full, and the others a pointer to octet 12.
    records = owner + fixed_fields + addresses[0] + b"".join(b"\xc0\x0c" + fixed_fields + address for address in addresses[1:])
    lines = b"".join((owner + fixed_fields + address).hex().encode() + b"\n" for address in addresses)
    return (header + records).hex().encode(), lines


def largest_message():
    """The text of a message of 4,079 RP records that differ in class, and its lines. The owner and both names of each are one name of
    255 octets, to which pointers of two octets lead, so that these lines are the most that was found for a message."""
    name = b"".join(bytes([size]) + b"a" * size for size in (63, 63, 63, 61)) + b"\0"
    classes = [number.to_bytes(2, "big") for number in range(4079)]
    header = bytes.fromhex("0000 8400 0001 0fef 0000 0000")
    question = name + bytes.fromhex("0011 0001")
    records = b"".join(b"\xc0\x0c\0\x11" + number + bytes.fromhex("0000003c 0004 c00c c00c") for number in classes)
    lines = b"".join((name + b"\0\x11" + number + bytes.fromhex("0000003c 01fe") + 2 * name).hex().encode() + b"\n" for number in classes)
    return (header + question + records).hex().encode(), lines
