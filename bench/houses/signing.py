"""One-time signatures of RFC 8554 (LMOTS_SHA256_N32_W4), holders made from names, and envelopes."""

import functools
import hashlib
import struct
from collections import namedtuple

MOST_AMOUNT = 2**63 - 1
CHAINS = 67
SIGNATURE_TYPE = 3


def digest(data):
    return hashlib.sha256(data).digest()


def number(value, size):
    return value.to_bytes(size, "big")


def name_field(name):
    return number(len(name), 1) + name.encode()


def digit(text, place):
    """The group of four bits at that place, the high half of each byte first."""
    return text[place // 2] >> 4 if place % 2 == 0 else text[place // 2] & 15


class Keys(namedtuple("Keys", "seed ident")):
    """The one-time keys of a seed and an ident. What they give is kept, as many houses share names."""

    def secret(self, q, place):
        return digest(self.ident + number(q, 4) + number(place, 2) + b"\xff" + self.seed)

    @functools.lru_cache(maxsize=65536)
    def public(self, q):
        ends = (chain(self.ident, q, place, 0, 15, self.secret(q, place)) for place in range(CHAINS))
        return hash_of_ends(self.ident, q, ends)

    @functools.lru_cache(maxsize=4096)
    def sign(self, q, message):
        randomizer = self.secret(q, 0xFFFD)
        digits = digits_of(self.ident, q, randomizer, message)
        values = (
            chain(self.ident, q, place, 0, digit(digits, place), self.secret(q, place))
            for place in range(CHAINS)
        )
        return number(SIGNATURE_TYPE, 4) + randomizer + b"".join(values)


def chain(ident, q, place, first, last, value):
    stem = ident + number(q, 4) + number(place, 2)
    for step in range(first, last):
        value = digest(stem + number(step, 1) + value)
    return value


def hash_of_ends(ident, q, ends):
    return digest(ident + number(q, 4) + number(0x8080, 2) + b"".join(ends))


def digits_of(ident, q, randomizer, message):
    """The message's digest with its checksum."""
    hashed = digest(ident + number(q, 4) + number(0x8181, 2) + randomizer + message)
    checksum = sum(15 - digit(hashed, place) for place in range(64))
    return hashed + number(checksum << 4, 2)


def is_valid(ident, q, public, message, signature):
    if signature[:4] != number(SIGNATURE_TYPE, 4):
        return False
    digits = digits_of(ident, q, signature[4:36], message)
    ends = (
        chain(ident, q, place, digit(digits, place), 15, signature[36 + 32 * place : 68 + 32 * place])
        for place in range(CHAINS)
    )
    return public == hash_of_ends(ident, q, ends)


Envelope = namedtuple("Envelope", "ring q signature message")
Said = namedtuple("Said", "account q")


class Holder:
    """A holder of keys, made from a name; `kept` are the texts that it signed, by key number."""

    def __init__(self, name, is_honest, size, kind):
        self.name, self.is_honest, self.size, self.kind = name, is_honest, size, kind
        seed = digest(b"CCDSEED1" + name.encode())
        ident = digest(b"CCDIDENT" + name.encode())[:16]
        self.keys = Keys(seed, ident)
        publics = b"".join(self.keys.public(q) for q in range(size))
        self.ring = b"CCDRING1" + ident + number(size, 2) + publics
        self.account = digest(self.ring)
        self.kept = []

    def envelope(self, q, message):
        return Envelope(self.ring, q, self.keys.sign(q, message), message)


@functools.lru_cache(maxsize=4096)
def check(envelope):
    """What an envelope says and no fault, or nothing and its fault. Its ring is a holder's."""
    (size,) = struct.unpack(">H", envelope.ring[24:26])
    if envelope.q >= size:
        return None, f"3 KeyOutside {envelope.q} {size}"
    ident, at = envelope.ring[8:24], 26 + 32 * envelope.q
    public = envelope.ring[at : at + 32]
    if not is_valid(ident, envelope.q, public, envelope.message, envelope.signature):
        return None, "4 BadSignature"
    return Said(digest(envelope.ring), envelope.q), None


def flipped(envelope):
    """The envelope with the lowest bit of its last signature byte changed."""
    signature = envelope.signature
    return envelope._replace(signature=signature[:-1] + bytes([signature[-1] ^ 1]))
