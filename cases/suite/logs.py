"""Logs and records of nodes as bytes (docs/FORMATS.md), read and written without the product."""
import hashlib
import struct
from typing import NamedTuple

from suite.said import said_of
from suite.sums import check_sum

HEAD = 46
KINDS = ("ph", "sw", "pr")
SUBMIT, TICK, TAKE, STOP, START, DROP, PRICE = range(7)
# The taking of a packet with an advice.
ADVISED = 8
# Another fee and another copay.
TERMS = 9
# Another cap of a switch.
CAP = 11
# What stands before a call of which something was noted.
NOTED = 7


class Sent(NamedTuple):
    """A packet, and the node that it is for."""

    to: str
    octets: bytes


class Call(NamedTuple):
    """A call that a node accepted: its kind, the bytes behind that, and what it sent. Of a TAKE `sender` and `octets` are the packet, of an
    ADVISED too, and `advice` is the advice. What was noted of it: when it was made, in milliseconds, or 0, and what its caller calls it, or nothing.
    """

    kind: int
    rest: bytes
    sent: tuple[Sent, ...]
    sender: str = ""
    octets: bytes = b""
    time: int = 0
    reference: bytes = b""
    advice: bytes = b""


class Log(NamedTuple):
    """The head of a log, and its calls."""

    head: bytes
    calls: tuple[Call, ...]

    @property
    def node(self) -> str:
        return node_name(self.head[3:6])


def node_name(octets: bytes) -> str:
    kind, number = struct.unpack(">BH", octets)
    return f"{KINDS[kind]}{number}"


def node_octets(name: str) -> bytes:
    return struct.pack(">BH", KINDS.index(name[:2]), int(name[2:]))


def headed(version: int, node: str, digested: bytes) -> bytes:
    """The head of a log of a version, with the digest of these bytes."""
    body = node_octets(node) + hashlib.sha256(digested).digest()
    return b"PL" + bytes([version]) + body + check_sum(version, 0, body)


def head_of(node: str, settings: bytes) -> bytes:
    """The head of a log, that is a log of no calls: of version 2, with the digest of what the settings say."""
    return headed(2, node, said_of(settings))


def head_of_file(node: str, settings: bytes) -> bytes:
    """The same of version 1, with the digest of the settings' bytes."""
    return headed(1, node, settings)


def text(octets: bytes) -> bytes:
    return struct.pack(">Q", len(octets)) + octets


def read_text(octets: bytes, at: int) -> tuple[bytes, int]:
    """The text at a place, and the place behind it."""
    size = struct.unpack(">Q", octets[at : at + 8])[0]
    return octets[at + 8 : at + 8 + size], at + 8 + size


def noted(time: int, reference: bytes) -> bytes:
    """What stands before a call in a record's body, where something was noted of it."""
    return struct.pack(">BQ", NOTED, time) + text(reference) if time or reference else b""


def read_call(body: bytes) -> Call:
    """The call of a record's body."""
    time, reference = 0, b""
    if body[0] == NOTED:
        time = struct.unpack(">Q", body[1:9])[0]
        reference, at = read_text(body, 9)
        body = body[at:]
    kind, at, sender, octets, advice = body[0], 1, "", b"", b""
    if kind in (TAKE, ADVISED):
        sender, at = node_name(body[1:4]), 4
    if kind in (SUBMIT, TAKE, DROP, PRICE, ADVISED):
        octets, at = read_text(body, at)
    if kind == ADVISED:
        advice, at = read_text(body, at)
    if kind == PRICE:
        at += 4
    if kind == TERMS:
        at += 8
    rest, count, sent = body[1:at], struct.unpack(">Q", body[at : at + 8])[0], []
    at += 8
    for _ in range(count):
        to = node_name(body[at : at + 3])
        packet, at = read_text(body, at + 3)
        sent.append(Sent(to, packet))
    return Call(kind, rest, tuple(sent), sender, octets, time, reference, advice)


def read_log(octets: bytes) -> Log:
    """A log that is whole."""
    calls, at = [], HEAD
    while at < len(octets):
        size = struct.unpack(">Q", octets[at : at + 8])[0]
        calls.append(read_call(octets[at + 16 : at + 16 + size]))
        at += 24 + size
    return Log(octets[:HEAD], tuple(calls))


def write_log(log: Log) -> bytes:
    """The bytes of a log, each record as the version of its head has it."""
    parts = [log.head]
    for number, call in enumerate(log.calls, 1):
        body = noted(call.time, call.reference) + bytes([call.kind]) + call.rest + struct.pack(">Q", len(call.sent))
        body += b"".join(node_octets(to) + text(packet) for to, packet in call.sent)
        size = struct.pack(">Q", len(body))
        parts += [size, bytes(it ^ 255 for it in size), body, check_sum(log.head[2], number, body)]
    return b"".join(parts)


def taking(sender: str, octets: bytes, sent: tuple[Sent, ...]) -> Call:
    """The taking of a packet."""
    return Call(TAKE, node_octets(sender) + text(octets), sent, sender, octets)


def advised(call: Call, advice: bytes) -> Call:
    """The taking of a packet with another advice."""
    rest = node_octets(call.sender) + text(call.octets) + text(advice)
    return call._replace(rest=rest, advice=advice)


class Exchange(NamedTuple):
    """A request that is kept, and the answer to it."""

    pharmacy: int
    number: int
    request: bytes
    answer: bytes


def read_book(octets: bytes) -> list[Exchange]:
    """The rows of a book at rest."""
    products, count = struct.unpack(">II", octets[21:29])
    at, rows = 29, []
    for _ in range(products):
        at += 1 + octets[at] + 4
    for _ in range(count):
        pharmacy, number, size = struct.unpack(">HQI", octets[at : at + 14])
        request, at = octets[at + 14 : at + 14 + size], at + 14 + size
        size = struct.unpack(">I", octets[at : at + 4])[0]
        rows.append(Exchange(pharmacy, number, request, octets[at + 4 : at + 4 + size]))
        at += 4 + size
    return rows


def envelope(answer: bool, pharmacy: int, number: int, payload: bytes) -> bytes:
    """The envelope of a request or an answer."""
    return struct.pack(">2sBBHQI", b"PS", 1, 2 if answer else 1, pharmacy, number, len(payload)) + payload
