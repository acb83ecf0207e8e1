"""Messages of the standard (NCPDP D.0) as far as a front has to know them itself: whose a request is and which fills it is about, what an
answer rules, and the answers and reversals that the front makes of its own. What a message comes to is for nodes to judge.

Nothing here refuses: of a message that is not framed as one it finds what there is, and a caller gets an answer that its system can read.
"""

from __future__ import annotations

import re
import time
from collections.abc import Iterable, Iterator
from typing import NamedTuple

REQUEST_HEADER, RESPONSE_HEADER = 56, 31
VERSION = b"D0"
BILLING, REVERSAL = b"B1", b"B2"
# The response statuses (112-AN) that an answer of a payer has.
PAID, DUPLICATE, APPROVED, REJECTED = b"P", b"D", b"A", b"R"
# The segments and fields that are looked at (a segment by its two digits, 111-AM).
CLAIM, STATUS = b"07", b"21"
MOST_TRANSACTIONS = 4
# What a payer that has taken a payment back says: approved, or of one that it took back before also duplicate of approved.
TAKEN_BACK = (APPROVED, b"S")
# Of a claim that is paid, what its reversal names, in the order in which a reversal has it.
_NAMED = (b"EM", b"D2", b"D3", b"E1", b"D7")
# Texts among these, whose spaces at the end do not count.
_TEXTS = (b"EM", b"E1", b"D7")
_SEPARATORS = re.compile(rb"[\x1c-\x1e]")
_CODE = re.compile(rb"[0-9A-Z]{2}")
_PRESCRIPTION = re.compile(rb"[0-9]{1,12}")
_FILL = re.compile(rb"[0-9]{1,2}")


class Touch(NamedTuple):
    """What the transaction at a place, from 0, is about: a prescription at a payer, and one of its fills, or any where a reversal names none."""

    place: int
    prescription: str
    fill: int | None


class Ruling(NamedTuple):
    """What an answer says of a transaction: its response status (112-AN), its authorization (503-F3), and its reject codes (511-FB)."""

    status: bytes
    authorization: bytes
    codes: tuple[bytes, ...]


def parts_of(message: bytes, header: int) -> list[bytes]:
    """What stands behind the header: the segments that all transactions share, and those of each transaction."""
    return message[header:].split(b"\x1d")


def fields_of(part: bytes) -> Iterator[tuple[bytes, bytes, bytes]]:
    """The fields of a part: segment, field and value. The first of a segment is its own name (111-AM)."""
    for text in part.split(b"\x1e")[1:]:
        fields = text.split(b"\x1c")[1:] or [b""]
        segment = fields[0][2:] if fields[0][:2] == b"AM" else b""
        for field in fields:
            yield segment, field[:2], field[2:]


def values_of(part: bytes, segment: bytes, field: bytes) -> list[bytes]:
    """The values of a field in all segments of its kind; empty ones do not count."""
    return [value for in_, name, value in fields_of(part) if in_ == segment and name == field and value]


def code_of(message: bytes) -> bytes:
    """The transaction code (103-A3)."""
    return message[8:10]


def count_of(message: bytes) -> int:
    """How many transactions a request says that it has (109-A9); one where it says nothing that can be."""
    digit = message[20:21]
    return int(digit) if digit in (b"1", b"2", b"3", b"4") else 1


def provider_of(message: bytes) -> tuple[bytes, bytes]:
    """The service provider of a request: its qualifier (202-B2) and its ID (201-B1)."""
    return message[21:23], message[23:38]


def date_of(message: bytes) -> bytes:
    """The date of service (401-D1)."""
    return message[38:46]


def touches_of(message: bytes) -> list[Touch]:
    """What each transaction of a billing or a reversal is about. One whose fields name no fill is about none: a payer rejects it."""
    if message[6:8] != VERSION or code_of(message) not in (BILLING, REVERSAL):
        return []
    found = []
    for place, part in enumerate(parts_of(message, REQUEST_HEADER)[1:]):
        prescription = values_of(part, CLAIM, b"D2")
        fill = values_of(part, CLAIM, b"D3")
        if len(prescription) != 1 or not _PRESCRIPTION.fullmatch(prescription[0]):
            continue
        if len(fill) == 1 and _FILL.fullmatch(fill[0]):
            found.append(Touch(place, prescription_at(message, int(prescription[0])), int(fill[0])))
        elif not fill and code_of(message) == REVERSAL:
            found.append(Touch(place, prescription_at(message, int(prescription[0])), None))
    return found


def prescription_at(message: bytes, number: int) -> str:
    """A prescription at the payer of a message: the BIN number, the number of the prescription, and the PCN, so that what begins with the
    first two is one prescription at all payers of the BIN number."""
    return f"{message[:6].decode('latin-1')}{number:012}{message[10:20].decode('latin-1')}"


def all_of_bin(prescription: str) -> str:
    """What the names of a prescription at all payers of its BIN number begin with."""
    return prescription[:18]


def rulings_of(answer: bytes) -> list[Ruling]:
    """What an answer says of each transaction."""
    found = []
    for part in parts_of(answer, RESPONSE_HEADER)[1:]:
        status = values_of(part, STATUS, b"AN") or [b""]
        authorization = values_of(part, STATUS, b"F3") or [b""]
        found.append(Ruling(status[0], authorization[0], tuple(values_of(part, STATUS, b"FB"))))
    return found


def header_of(message: bytes, status: bytes) -> bytes:
    """The header of the answer to a request, of whatever bytes this is: what it does not have is filled, so that the header is one."""
    code, provider, date = code_of(message), message[21:38], date_of(message)
    if not _CODE.fullmatch(code):
        code = BILLING
    if len(provider) < 17 or _SEPARATORS.search(provider):
        provider = b" " * 17
    if len(date) < 8 or not date.isdigit():
        date = time.strftime("%Y%m%d").encode()
    return VERSION + code + b"%d" % count_of(message) + status + provider + date


def rejection(message: bytes, codes: Iterable[bytes]) -> bytes:
    """The answer by which a whole request is rejected: header status R (501-F1), and for each transaction the response status R, with the
    code of its place; of more transactions than codes the last one counts."""
    several = list(codes)
    groups = [several[min(place, len(several) - 1)] for place in range(count_of(message))]
    return header_of(message, REJECTED) + b"".join(map(_rejected, groups))


def _rejected(code: bytes) -> bytes:
    return b"\x1d\x1e\x1cAM21\x1cANR\x1cFA1\x1cFB" + code


def rejection_of_others(message: bytes, groups: dict[int, bytes], code: bytes) -> bytes:
    """The answer that rejects the transactions of a request but for those of these places, which have been answered so before."""
    if not groups:
        return rejection(message, (code,))
    several = (b"\x1d" + groups[it] if it in groups else _rejected(code) for it in range(count_of(message)))
    return header_of(message, APPROVED) + b"".join(several)


def answer_again(message: bytes, groups: list[bytes]) -> bytes:
    """An answer to a request, whose transactions have been answered so before."""
    return header_of(message, APPROVED) + b"".join(b"\x1d" + group for group in groups)


def reversal_of(billing: bytes, places: Iterable[int]) -> bytes:
    """The reversal of some transactions of a billing, by their places from 0: the same header, and of each what names its claim."""
    parts = parts_of(billing, REQUEST_HEADER)
    made = []
    for place in places:
        fields = [(field, _first_of(parts[1 + place], field)) for field in _NAMED]
        made.append(b"\x1d\x1e\x1cAM07" + b"".join(b"\x1c" + field + value for field, value in fields if value))
    head = billing[:8] + REVERSAL + billing[10:20] + b"%d" % len(made) + billing[21:REQUEST_HEADER]
    return head + b"".join(made)


def _first_of(part: bytes, field: bytes) -> bytes:
    """The value of a field of a claim that was paid, which has one."""
    values = values_of(part, CLAIM, field)
    if field in _TEXTS:
        values = [value.rstrip(b" ") for value in values]
    return next(filter(None, values), b"")


def with_provider(message: bytes, at: int, qualifier: bytes, provider: bytes) -> bytes:
    """A message with another service provider; `at` is where its header has it."""
    return message[:at] + qualifier + provider + message[at + 17 :]


def of_request(message: bytes, qualifier: bytes, provider: bytes) -> bytes:
    return with_provider(message, 21, qualifier, provider)


def of_answer(answer: bytes, qualifier: bytes, provider: bytes) -> bytes:
    return with_provider(answer, 6, qualifier, provider)
