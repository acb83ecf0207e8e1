"""What the profile (docs/FORMATS.md) cannot judge: refused by name, and in the standard's form by a reject code, before it is entered, since a
payer would pay it as if it were a simple, primary claim. docs/FRONT.md has the table."""

from __future__ import annotations

import re
from typing import NamedTuple

from .standard import BILLING, REQUEST_HEADER, REVERSAL, VERSION, code_of, count_of, fields_of, parts_of

# Where none of these stands, nothing of the kind does.
_SUSPECT = re.compile(rb"\x1c(?:C8|D6|HD|AM(?:05|10))")
# Codes of transactions that enter no node, by the name of their refusal; all others are CodeNotCarried.
_CODES = {b"B3": "RebillNotCarried", b"E1": "EligibilityNotCarried"}
NOT_PROCESSED = b"85"
# 308-C8 that says nothing of another payer, or that there is none.
_NO_OTHER_COVERAGE = (b"", b"1")
# 339-6C: the other payer is named by its BIN number.
_BY_BIN = b"03"
# Why a transaction is not taken: the name, the field that says so, and the reject code.
Why = tuple[str, str, bytes]
PAID_HERE, NOT_NAMED = "OtherPayerPaid", "OtherPayerNotNamed"


class Refusal(NamedTuple):
    """Why a request is not taken: the name, the field that says so, and the reject code of each transaction (511-FB)."""

    name: str
    field: str
    codes: tuple[bytes, ...]


class Secondary(NamedTuple):
    """A transaction that says that another payer comes first: its place, from 0; why it is refused where that payer is the one to which it goes; and
    why where nobody knows which one that is: None where each is named by the BIN number of another."""

    place: int
    paid_here: Why
    unknown: Why | None


def not_carried(message: bytes) -> Refusal | None:
    """Why a request is refused, whatever was billed before; None where it may be judged."""
    if message[6:8] != VERSION:
        return None
    if code_of(message) not in (BILLING, REVERSAL):
        name = _CODES.get(code_of(message), "CodeNotCarried")
        return Refusal(name, "103-A3", (b"1S",)) if len(message) >= REQUEST_HEADER else None
    if code_of(message) != BILLING or not _SUSPECT.search(message, REQUEST_HEADER):
        return None
    shared, *parts = parts_of(message, REQUEST_HEADER)
    found = [_kind_of(shared) or _kind_of(part) for part in parts]
    first = next(filter(None, found), None)
    if first is None:
        return None
    codes = tuple(it[2] if it else NOT_PROCESSED for it in found)
    return Refusal(first[0], first[1], codes)


def _kind_of(part: bytes) -> Why | None:
    """What of a transaction is not carried: name, field and reject code."""
    for segment, field, value in fields_of(part):
        value = value.strip()
        if segment == b"10":
            return "CompoundNotCarried", "111-AM", b"PF"
        if field == b"D6" and value.lstrip(b"0") == b"2":
            return "CompoundNotCarried", "406-D6", b"20"
        if field == b"HD" and value:
            return "PartialFillNotCarried", "343-HD", b"RK" if value in (b"P", b"C") else b"HD"
    return None


def secondaries(message: bytes) -> list[Secondary]:
    """The transactions of a billing that say that another payer comes first. Each payer sees what was billed to it alone, so these are judged as
    others, where that other payer is known not to be the one to which they go."""
    if code_of(message) != BILLING or not _SUSPECT.search(message, REQUEST_HEADER):
        return []
    shared, *parts = parts_of(message, REQUEST_HEADER)
    found = (_secondary(place, message[:6], shared + part) for place, part in enumerate(parts))
    return [it for it in found if it is not None]


def _secondary(place: int, own_bin: bytes, part: bytes) -> Secondary | None:
    has_segment, has_code, qualifier = False, False, b""
    named: list[tuple[bytes, bytes]] = []
    for segment, field, value in fields_of(part):
        value = value.strip()
        has_code |= field == b"C8" and value.lstrip(b"0") not in _NO_OTHER_COVERAGE
        has_segment |= segment == b"05"
        if field == b"6C":
            qualifier = value
        if field == b"7C" and value:
            named.append((qualifier, value))
    if not has_segment and not has_code:
        return None
    paid_here = (PAID_HERE, "308-C8", b"13") if has_code else (PAID_HERE, "111-AM", b"PE")
    return Secondary(place, paid_here, _unknown(has_segment, named, own_bin))


def _unknown(has_segment: bool, named: list[tuple[bytes, bytes]], own_bin: bytes) -> Why | None:
    """Why it is not known that the other payers, by their kinds of ID and IDs, are others; None where it is."""
    if not has_segment:
        return NOT_NAMED, "111-AM", b"PE"
    if any(kind == _BY_BIN and it.lstrip(b"0") == own_bin.lstrip(b"0") for kind, it in named):
        return PAID_HERE, "340-7C", b"7C"
    if any(kind != _BY_BIN for kind, _ in named):
        return NOT_NAMED, "339-6C", b"6C"
    return None if named and all(it.isdigit() for _, it in named) else (NOT_NAMED, "340-7C", b"7C")


def refusal_of(place: int, why: Why, message: bytes) -> Refusal:
    """The refusal of a message for one of its transactions."""
    name, field, code = why
    return Refusal(name, field, tuple(code if it == place else NOT_PROCESSED for it in range(count_of(message))))
