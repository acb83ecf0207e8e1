"""What the front itself answers in the standard's form, and by which reject code (511-FB): docs/FRONT.md has the table."""

from __future__ import annotations

from collections.abc import Sequence

from .profile import NOT_PROCESSED
from .standard import REQUEST_HEADER, VERSION, count_of, date_of, parts_of, rejection

SYNTAX = b"R8"
UNAVAILABLE = b"92"
# By the name of the refusal (problems.py); what is not here is not processed (85).
CODES = {
    "Unreadable": SYNTAX, "Frame": SYNTAX, "TooLong": SYNTAX, "Version": b"1R", "CodeNotCarried": b"1S", "RebillNotCarried": b"1S",
    "EligibilityNotCarried": b"1S", "NotOwnProvider": b"05", "NoSuchPharmacy": b"05", "NotAllowed": b"05", "NoToken": b"05",
    "Down": UNAVAILABLE, "Busy": UNAVAILABLE, "JournalFull": UNAVAILABLE, "WouldBeFull": UNAVAILABLE, "NoReply": UNAVAILABLE,
    "NotKept": UNAVAILABLE, "FrontBusy": UNAVAILABLE, "NotReady": UNAVAILABLE, "SettingsChanged": UNAVAILABLE, "Fault": b"99",
}  # fmt: skip


def rejected(message: bytes, name: str, codes: Sequence[bytes] = ()) -> bytes:
    """The answer to a request that is refused under a name; of a refusal that has codes of its own, for each transaction, these."""
    if not codes and name == "Unreadable":
        codes = (syntax_code(message),)
    return rejection(message, codes or (CODES.get(name, NOT_PROCESSED),))


def syntax_code(message: bytes) -> bytes:
    """What is wrong with a request that is not framed as one, as near as the standard has a code for it."""
    if len(message) < REQUEST_HEADER:
        return SYNTAX
    if message[6:8] != VERSION:
        return b"1R"
    if not message[:6].isdigit():
        return b"01"
    if message[20:21] not in (b"1", b"2", b"3", b"4"):
        return b"A9"
    if not date_of(message).isdigit():
        return b"15"
    if len(parts_of(message, REQUEST_HEADER)) - 1 != count_of(message):
        return b"1U"
    return SYNTAX
