"""Records of a log (docs/FORMATS.md) by their places: to cut the copy of a log behind a call. What records say is for the proved programs to judge."""

from __future__ import annotations

from collections.abc import Iterator

# Head: PL, version, node, digest of the settings, check sum. Around a body: its length twice, and a check sum.
_HEAD_BYTES = 46
_LENGTHS_BYTES = 16
_SUM_BYTES = 8


def place_of(log: bytes, call: int) -> int:
    """Where the record of a call begins, counted from 1; the end of the last record where there are fewer."""
    end = _HEAD_BYTES
    for place, (_, behind) in enumerate(_records(log), 1):
        if place == call:
            break
        end = behind
    return end


def _records(log: bytes) -> Iterator[tuple[int, int]]:
    """Where the body of each record begins, and where the record ends."""
    at = _HEAD_BYTES
    while at + _LENGTHS_BYTES + _SUM_BYTES < len(log):
        size = int.from_bytes(log[at : at + 8])
        body = at + _LENGTHS_BYTES
        end = body + size + _SUM_BYTES
        if int.from_bytes(log[at + 8 : body]) != size ^ (2**64 - 1) or end > len(log):
            return
        yield body, end
        at = end
