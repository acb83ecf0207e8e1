"""The check sums of logs (docs/FORMATS.md), computed without the product."""
import hashlib
import struct

MOST = 2**64 - 1


def turned(word: int, places: int) -> int:
    """A word of 64 bits with these turned to the left."""
    return (word << places | word >> (64 - places)) & MOST


def mixed(a: int, b: int, c: int, d: int) -> tuple[int, int, int, int]:
    """The state of SipHash behind one round."""
    a, c = (a + b) & MOST, (c + d) & MOST
    b, d = turned(b, 13) ^ a, turned(d, 16) ^ c
    a = (turned(a, 32) + d) & MOST
    c = (c + b) & MOST
    return a, turned(b, 17) ^ c, turned(c, 32), turned(d, 21) ^ a


def siphash(octets: bytes) -> int:
    """SipHash-1-3 of bytes with both keys 0: one round for each eight bytes, the low one first, and three at the end."""
    a, b, c, d = (int.from_bytes(it) for it in (b"somepseu", b"dorandom", b"lygenera", b"tedbytes"))
    whole = len(octets) // 8 * 8
    words = struct.unpack(f"<{whole // 8}Q", octets[:whole])
    for word in (*words, (len(octets) & 255) << 56 | int.from_bytes(octets[whole:], "little")):
        a, b, c, d = mixed(a, b, c, d ^ word)
        a ^= word
    c ^= 255
    for _ in range(3):
        a, b, c, d = mixed(a, b, c, d)
    return a ^ b ^ c ^ d


def check_sum(version: int, number: int, octets: bytes) -> bytes:
    """What vouches in a log of a version for the head, number 0, or for the body of a record."""
    given = struct.pack(">Q", number) + octets
    return hashlib.sha256(given).digest()[:8] if version == 1 else struct.pack(">Q", siphash(given))
