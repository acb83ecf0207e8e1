"""Logs that are changed at one place."""
from typing import NamedTuple

from suite.draws import Draws
from suite.logs import TAKE, Call, Log, Sent, taking

# How often a log is looked for that can be changed.
DRAWS = 8
# A bit of a packet that was sent or taken; two calls change places; a call is left out, or is there twice.
CHANGES = ("sent", "taken", "exchanged", "left out", "doubled")


class Spot(NamedTuple):
    """Where a log is changed: the place of a call, that of the call with which it changes places, and a bit of a packet."""

    place: int
    other: int
    bit: int


def turned(octets: bytes, bit: int) -> bytes:
    """Bytes with a bit turned."""
    other, place = bytearray(octets), bit // 8 % len(octets)
    other[place] ^= 1 << bit % 8
    return bytes(other)


def can_change(log: Log, change: str, spot: Spot) -> bool:
    """Whether a log can be changed so at a spot."""
    if spot.place >= len(log.calls):
        return False
    call = log.calls[spot.place]
    return {"sent": bool(call.sent), "taken": call.kind == TAKE, "exchanged": spot.other != spot.place}.get(
        change, True
    )


def changed_calls(calls: list[Call], change: str, spot: Spot) -> list[Call]:
    """Calls that are changed at a spot."""
    at, call = spot.place, calls[spot.place]
    if change == "exchanged":
        calls[at], calls[spot.other] = calls[spot.other], calls[at]
        return calls
    if change == "sent":
        first, *others = call.sent
        instead = [call._replace(sent=(Sent(first.to, turned(first.octets, spot.bit)), *others))]
    elif change == "taken":
        instead = [taking(call.sender, turned(call.octets, spot.bit), call.sent)]
    else:
        instead = [call, call] if change == "doubled" else []
    return calls[:at] + instead + calls[at + 1 :]


def changed_at(logs: list[Log], place: int, change: str, spot: Spot) -> list[Log] | None:
    """Logs of which the one at a place is changed at a spot; none where it cannot be."""
    log = logs[place]
    if not can_change(log, change, spot):
        return None
    return [*logs[:place], log._replace(calls=tuple(changed_calls(list(log.calls), change, spot))), *logs[place + 1 :]]


def changed(draws: Draws, logs: list[Log], change: str) -> tuple[int, list[Log]] | None:
    """Logs with one of them changed, and its place; none where no draw finds one that can be changed so."""
    for _ in range(DRAWS):
        place = draws.below(len(logs))
        count = len(logs[place].calls)
        other = changed_at(logs, place, change, Spot(draws.below(count), draws.below(count), draws.below(1 << 20)))
        if other:
            return place, other
    return None
