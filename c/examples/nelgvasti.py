"""The library for Python, over the shared object: octets in, octets out, and errors as exceptions.

>>> import nelgvasti
>>> nelgvasti.nsec3_hash(b"\\7example\\0", bytes.fromhex("aabbccdd"), 12).hex()
'065368abeed7ec6e9feba96b8c8bc3e8b791f716'

The shared object is found as `libnelgvasti.so.0`, or where the variable NELGVASTI says."""

import ctypes
import os

_library = ctypes.CDLL(os.environ.get("NELGVASTI", "libnelgvasti.so.0"))


class Error(Exception):
    """A call wrote nothing. `answer` is its number, as in the header."""

    answer = None


class MessageError(Error, ValueError):
    """A message is refused: `message` is its number; `section` and `index` are those of the item that can't be read, or None if it has fewer
    than 12 octets."""


class UsageError(Error, ValueError):
    """An argument is not what the call takes."""


class NoSoaError(Error, ValueError):
    """The messages have no SOA record of the apex."""


class TooLargeError(Error, ValueError):
    """The normal form has more than 65,535 octets."""


class _ItemPosition(ctypes.Structure):
    _fields_ = [(name, ctypes.c_uint32) for name in ("message", "section", "index")]


class _Digest(ctypes.Structure):
    _fields_ = [("records", ctypes.c_uint64), ("octets", ctypes.c_uint64), ("digest", ctypes.c_uint8 * 48)]


# The formats of RDATA that a call goes by: those of `dnscanon`, and those of the types of RFC 4034 section 6.2 too, as signers have them.
USUAL, LISTED = 0, 1

_OCTETS = (ctypes.c_char_p, ctypes.c_size_t)
_SIZE = ctypes.POINTER(ctypes.c_size_t)
_POSITION = ctypes.POINTER(_ItemPosition)


def _call(name, *types):
    function = getattr(_library, "nelgvasti_" + name)
    function.argtypes, function.restype = types, ctypes.c_uint32
    return function


_canonical_size = _call("canonical_size_by", ctypes.c_uint32, *_OCTETS, _SIZE, _SIZE, _POSITION)
_canonical = _call("canonical_by", ctypes.c_uint32, *_OCTETS, *_OCTETS, _SIZE, _POSITION)
_same = _call("same", *_OCTETS, *_OCTETS, ctypes.POINTER(ctypes.c_uint32), _POSITION)
_normal = _call("normal", *_OCTETS, *_OCTETS, _SIZE, _POSITION)
_zone_digest = _call("zone_digest_by", ctypes.c_uint32, *_OCTETS, _SIZE, ctypes.c_size_t, *_OCTETS, ctypes.POINTER(_Digest), _POSITION)
_nsec3_hash = _call("nsec3_hash", *_OCTETS, *_OCTETS, ctypes.c_uint16, ctypes.c_char_p)
_key_tag = _call("key_tag", *_OCTETS, ctypes.POINTER(ctypes.c_uint16))
version = _call("version")


def _check(answer, position=None):
    if answer == 0:
        return
    if answer == 8:
        raise MemoryError
    kinds = {1: MessageError, 2: MessageError, 5: UsageError, 10: NoSoaError, 11: TooLargeError}
    error = kinds.get(answer, Error)(f"answer {answer}")
    error.answer = answer
    if position is not None:
        error.message = position.message
        error.section, error.index = (position.section, position.index) if answer == 2 else (None, None)
    raise error


def _records(octets):
    """The records that come one after the other."""
    found, at = [], 0
    while at < len(octets):
        end = at
        while octets[end]:
            end += 1 + octets[end]
        end += 11 + int.from_bytes(octets[end + 9 : end + 11], "big")
        found.append(octets[at:end])
        at = end
    return found


def canonical(message, formats=USUAL):
    """The canonical octets of each record of a message other than OPT, in canonical order."""
    octets, records, position = ctypes.c_size_t(), ctypes.c_size_t(), _ItemPosition()
    _check(_canonical_size(formats, message, len(message), octets, records, position), position)
    out = ctypes.create_string_buffer(max(octets.value, 1))
    _check(_canonical(formats, message, len(message), out, octets.value, octets, position), position)
    return _records(out.raw[: octets.value])


def same(first, second):
    """Whether two messages carry the same records other than OPT."""
    answer, position = ctypes.c_uint32(), _ItemPosition()
    _check(_same(first, len(first), second, len(second), answer, position), position)
    return answer.value == 1


def normal(message):
    """The normal form of a message."""
    out, length, position = ctypes.create_string_buffer(65535), ctypes.c_size_t(), _ItemPosition()
    _check(_normal(message, len(message), out, len(out), length, position), position)
    return out.raw[: length.value]


def zone_digest(messages, apex, formats=USUAL):
    """How many records are in the zone of an apex, a name in wire format, how many octets they have, and their digest."""
    lengths = (ctypes.c_size_t * max(len(messages), 1))(*map(len, messages))
    octets, digest, position = b"".join(messages), _Digest(), _ItemPosition()
    _check(_zone_digest(formats, octets, len(octets), lengths, len(messages), apex, len(apex), digest, position), position)
    return digest.records, digest.octets, bytes(digest.digest)


def nsec3_hash(name, salt, iterations):
    """The hash of a name in wire format for NSEC3."""
    out = ctypes.create_string_buffer(20)
    _check(_nsec3_hash(name, len(name), salt, len(salt), iterations, out))
    return out.raw


def key_tag(rdata):
    """The tag of a key by the data of its DNSKEY record."""
    tag = ctypes.c_uint16()
    _check(_key_tag(rdata, len(rdata), tag))
    return tag.value
