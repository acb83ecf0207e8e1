"""A pharmacy's system at the end of a line: it knows the Telecommunication Standard D.0, frames of 0x02 and 0x03, and nothing else.

It makes billings and reversals as such systems do, with the segments that they send, and reads every answer strictly: what is not an answer of
the standard to the request that was sent is an Unreadable. It sends again, byte for byte, what it hears nothing of. Nothing here is taken from
the program that it calls."""

from __future__ import annotations

import re
import socket
import ssl
import time
from typing import NamedTuple

FIELD, GROUP, SEGMENT = b"\x1c", b"\x1d", b"\x1e"
START, END = b"\x02", b"\x03"
RESPONSE_HEADER = 31
# 112-AN: what may be said of a billing, and of a reversal.
STATUSES = {b"B1": b"PDRCQFB", b"B2": b"ARS"}
# 111-AM: segments that a response may have before its transactions, and in them.
SHARED, OWN = (b"20", b"25", b"29"), (b"21", b"22", b"23", b"24", b"26", b"28")
OVERPUNCH = {digit: (value % 10, value // 10) for value, digit in enumerate("{ABCDEFGHI}JKLMNOPQR")}
# Without a word so long, a system takes a line for dead.
SILENT_SECONDS = 30.0


class Unreadable(Exception):
    """An answer that no system of a pharmacy can parse."""


class Ruling(NamedTuple):
    """What is said of a transaction."""

    status: bytes
    authorization: bytes
    codes: tuple[bytes, ...]
    paid_cents: int | None


class Answer(NamedTuple):
    """A response: its header status (501-F1), and what it says of each transaction."""

    status: bytes
    rulings: tuple[Ruling, ...]

    @property
    def is_late(self) -> bool:
        """Whether it says that a system or its line does not work just now, so that the claim is to be sent again (92, 95)."""
        return all(set(it.codes) & {b"92", b"95"} for it in self.rulings)


class Store(NamedTuple):
    """Who sends: 202-B2, 201-B1, and to whom: 101-A1, 104-A4."""

    qualifier: bytes = b"01"
    provider: bytes = b"1234567893"
    bin_number: bytes = b"610455"
    processor_control_number: bytes = b"A1"

    def header(self, code: bytes, count: int, day: bytes = b"20240115") -> bytes:
        """The 56 bytes of a request's header."""
        front = self.bin_number + b"D0" + code + self.processor_control_number.ljust(10) + b"%d" % count
        return front + self.qualifier.ljust(2) + self.provider.ljust(15) + day + b"PHARMSYS01"


def segment(name: bytes, *fields: tuple[bytes, bytes]) -> bytes:
    return SEGMENT + FIELD + b"AM" + name + b"".join(FIELD + field + value for field, value in fields)


def amount(cents: int) -> bytes:
    """Dollars and cents with the sign in the last digit."""
    digits = str(abs(cents)).rjust(1, "0")
    return (digits[:-1] + ("{ABCDEFGHI" if cents >= 0 else "}JKLMNOPQR")[int(digits[-1])]).encode()


def billing(store: Store, prescription: int, fill: int = 0, quantity: int = 30000) -> bytes:
    """A billing with insurance, patient, claim, prescriber and pricing, as a counter sends it."""
    shared = segment(b"04", (b"C2", b"987654321"), (b"C1", b"GROUP1"), (b"C3", b"01"), (b"C6", b"1"))
    shared += segment(b"01", (b"C4", b"19610412"), (b"C5", b"1"), (b"CA", b"JOSEPH"), (b"CB", b"SMITH"))
    claim = segment(
        b"07", (b"EM", b"1"), (b"D2", b"%d" % prescription), (b"E1", b"03"), (b"D7", b"00093721410"), (b"E7", b"%d" % quantity),
        (b"D3", b"%d" % fill), (b"D5", b"30"), (b"D6", b"1"), (b"D8", b"0"), (b"DE", b"20240114"), (b"DF", b"5"), (b"DJ", b"1"),
        (b"28", b"EA"),
    )  # fmt: skip
    prescriber = segment(b"03", (b"EZ", b"01"), (b"DB", b"1987654321"), (b"DR", b"WRIGHT"))
    pricing = segment(
        b"11",
        (b"D9", amount(6000)),
        (b"DC", amount(200)),
        (b"DQ", amount(7500)),
        (b"DU", amount(6200)),
        (b"DN", b"01"),
    )
    return store.header(b"B1", 1) + shared + GROUP + claim + prescriber + pricing


def reversal(store: Store, prescription: int, fill: int = 0) -> bytes:
    named = (
        (b"EM", b"1"),
        (b"D2", b"%d" % prescription),
        (b"E1", b"03"),
        (b"D7", b"00093721410"),
        (b"D3", b"%d" % fill),
    )
    return store.header(b"B2", 1) + segment(b"04", (b"C2", b"987654321")) + GROUP + segment(b"07", *named)


def cents_of(value: bytes) -> int:
    """An amount, strictly."""
    text = value.decode("ascii")
    if not re.fullmatch(r"[0-9]{0,7}[{A-I}J-R]", text):
        raise Unreadable(f"{value!r} is no amount")
    digit, is_negative = OVERPUNCH[text[-1]]
    return (int(text[:-1] or "0") * 10 + digit) * (-1 if is_negative else 1)


def segments_of(text: bytes, allowed: tuple[bytes, ...]) -> dict[bytes, list[tuple[bytes, bytes]]]:
    """The segments of a part of a response, and their fields in order."""
    found: dict[bytes, list[tuple[bytes, bytes]]] = {}
    if text and not text.startswith(SEGMENT):
        raise Unreadable(f"a part does not begin with a segment: {text!r}")
    for one in text.split(SEGMENT)[1:]:
        parts = one.split(FIELD)
        if parts[0] or len(parts) < 2 or parts[1][:2] != b"AM" or parts[1][2:] not in allowed or parts[1][2:] in found:
            raise Unreadable(f"a segment that is none: {one!r}")
        fields = [(it[:2], it[2:]) for it in parts[2:]]
        for name, value in fields:
            if not re.fullmatch(rb"[0-9A-Z]{2}", name) or not re.fullmatch(rb"[\x20-\x7e]+", value):
                raise Unreadable(f"a field that is none: {name + value!r}")
        found[parts[1][2:]] = fields
    return found


def read(request: bytes, response: bytes) -> Answer:
    """The answer to a request; Unreadable where it is none."""
    if len(response) < RESPONSE_HEADER or response[:2] != b"D0":
        raise Unreadable(f"no header of a response: {response!r}")
    code, count, status = response[2:4], response[4:5], response[5:6]
    if (
        code != request[8:10]
        or count != request[20:21]
        or status not in (b"A", b"R")
        or response[6:31] != request[21:46]
    ):
        raise Unreadable(f"the header is not that of this request: {response!r}")
    shared, *groups = response[RESPONSE_HEADER:].split(GROUP)
    segments_of(shared, SHARED)
    if len(groups) != int(count):
        raise Unreadable(f"{len(groups)} transactions are answered, and {count.decode()} were sent")
    asked = request[56:].split(GROUP)[1:]
    return Answer(status, tuple(_ruling(code, status, *pair) for pair in zip(asked, groups)))


def _ruling(code: bytes, header: bytes, asked: bytes, group: bytes) -> Ruling:
    found = segments_of(group, OWN)
    fields = found.get(b"21", [])
    status = [value for name, value in fields if name == b"AN"]
    if len(status) != 1 or status[0] not in [bytes([it]) for it in STATUSES[code]]:
        raise Unreadable(f"no response status: {group!r}")
    if header == b"R" and status != [b"R"]:
        raise Unreadable("the header rejects, and a transaction does not")
    codes = tuple(value for name, value in fields if name == b"FB")
    said = [value for name, value in fields if name == b"FA"]
    authorization = next((value for name, value in fields if name == b"F3"), b"")
    if status == [b"R"]:
        if (
            said != [b"%d" % len(codes)]
            or not 1 <= len(codes) <= 5
            or not all(re.fullmatch(rb"[0-9A-Z]{2,3}", it) for it in codes)
        ):
            raise Unreadable(f"reject codes that are none: {group!r}")
        return Ruling(b"R", b"", codes, None)
    number = [value for name, value in found.get(b"22", []) if name == b"D2"]
    if codes or not authorization or number != [re.search(rb"\x1cD2([0-9]+)", asked)[1]]:  # type: ignore[index]
        raise Unreadable(f"another claim is answered: {group!r}")
    paid = [value for name, value in found.get(b"23", []) if name == b"F9"]
    if status[0] in (b"P", b"D") and len(paid) != 1:
        raise Unreadable(f"no amount is paid: {group!r}")
    return Ruling(status[0], authorization, (), cents_of(paid[0]) if paid else None)


class Line:
    """A line to a processor, which is dialled again where it breaks."""

    def __init__(self, host: str, port: int, tls: ssl.SSLContext | None = None) -> None:
        self._at, self._tls = (host, port), tls
        self._socket: socket.socket | None = None
        self._came = b""
        # Answers that were read, and lines that broke before there was one.
        self.read, self.broken = 0, 0

    def close(self) -> None:
        if self._socket is not None:
            self._socket.close()
        self._socket, self._came = None, b""

    def once(self, request: bytes) -> Answer | None:
        """The answer to a request; None where the line breaks, or nothing comes."""
        response = self.sent(request)
        return None if response is None else read(request, response)

    def sent(self, request: bytes) -> bytes | None:
        """The response to a request, as it comes."""
        try:
            if self._socket is None:
                plain = socket.create_connection(self._at, timeout=SILENT_SECONDS)
                self._socket = self._tls.wrap_socket(plain, server_hostname=self._at[0]) if self._tls else plain
            self._socket.settimeout(SILENT_SECONDS)
            self._socket.sendall(START + request + END)
            response = self._frame()
        except OSError:
            self.broken += 1
            self.close()
            return None
        self.read += 1
        return response

    def ask(self, request: bytes, until: float) -> Answer | None:
        """The answer to a request, which is sent again where nothing is heard of it; None where that is so for too long."""
        while time.monotonic() < until:
            answer = self.once(request)
            if answer is not None:
                return answer
            time.sleep(0.2)
        return None

    def _frame(self) -> bytes:
        assert self._socket is not None
        while END not in self._came:
            more = self._socket.recv(65536)
            if not more:
                raise ConnectionResetError
            self._came += more
        frame, _, self._came = self._came.partition(END)
        if frame[:1] != START or self._came:
            raise Unreadable(f"no frame: {frame!r}")
        return frame[1:]
