"""The steps of one claim on its way through all nodes, as the audited logs tell them: who took what of whom, when, and what was sent on. Of a
switch without a log they are those that the audit has made: one of each packet is told, and no time."""

from __future__ import annotations

import csv
import io
from collections.abc import Collection, Iterator
from typing import Any, NamedTuple


class Sent(NamedTuple):
    """A packet of the claim that a step sent, and at which step it came: none where it was lost, or is on its way."""

    to: str
    carries: str
    steps: tuple[int, ...]


class Step(NamedTuple):
    """What a node did with the claim: it entered it, asked again, or took a packet of it."""

    number: int
    event: int
    # Milliseconds, as the node's host counts them; none where it said no time.
    time: int | None
    node: str
    # `enters`, `repeats`, or `takes`, and then of whom, and what.
    does: str
    of: str
    carries: str
    sent: tuple[Sent, ...]


def steps_of(
    schedule: str, packets: str, calls: str, pharmacy: str, number: int, made: Collection[str] = ()
) -> list[Step]:
    """The steps of a claim, in the order of the run: from its schedule, its packets, and the calls of its logs, which were made of some nodes."""
    own = {
        row["packet"]: row
        for row in csv.DictReader(io.StringIO(packets))
        if row["pharmacy"] == pharmacy[2:] and row["number"] == str(number)
    }
    to_of = {row["packet"]: row["to"] for row in csv.DictReader(io.StringIO(packets))}
    sends: dict[int, list[str]] = {}
    for packet, row in own.items():
        sends.setdefault(int(row["event"]), []).append(packet)
    found: list[tuple[int, str, int, str]] = []
    counts: dict[str, int] = {}
    for event, line in enumerate(_events(schedule), 1):
        word, _, rest = line.partition(" ")
        packet = rest.split()[0] if word == "deliver" else ""
        node = to_of[packet] if packet else rest.split()[0]
        counts[node] = counts.get(node, 0) + 1
        if node in made and any(it[1] == node and it[3] == packet for it in found):
            continue
        if event in sends or packet in own:
            found.append((event, node, counts[node], packet if packet in own else ""))
    came: dict[str, list[int]] = {}
    for place, (_, _, _, packet) in enumerate(found, 1):
        if packet:
            came.setdefault(packet, []).append(place)
    times = _times(calls, {(node, call) for _, node, call, _ in found})
    return [
        _step(place, one, own, tuple(_sent(own[it], came.get(it, [])) for it in sends.get(one[0], [])), times)
        for place, one in enumerate(found, 1)
    ]


def _step(
    place: int,
    one: tuple[int, str, int, str],
    own: dict[str, dict[str, Any]],
    sent: tuple[Sent, ...],
    times: dict[tuple[str, int], int],
) -> Step:
    event, node, call, packet = one
    does = "takes" if packet else "enters" if place == 1 else "repeats"
    of, carries = (own[packet]["from"], own[packet]["carries"]) if packet else ("", "request")
    return Step(place, event, times.get((node, call)), node, does, of, carries, sent)


def _sent(row: dict[str, Any], steps: list[int]) -> Sent:
    return Sent(row["to"], row["carries"], tuple(steps))


def _events(schedule: str) -> Iterator[str]:
    """The events of a schedule, without remarks."""
    for line in io.StringIO(schedule.partition("\n---\n")[2]):
        if line.strip() and not line.startswith("#"):
            yield line.rstrip("\n")


def _times(calls: str, wanted: set[tuple[str, int]]) -> dict[tuple[str, int], int]:
    """When some calls were made, where their hosts have said so."""
    found = {}
    for row in csv.DictReader(io.StringIO(calls)):
        place = (row["node"], int(row["call"]))
        if place in wanted and row["time"]:
            found[place] = int(row["time"])
    return found


def told(steps: list[Step]) -> list[dict[str, Any]]:
    """The steps, for a caller."""
    return [step._asdict() | {"sent": [it._asdict() for it in step.sent]} for step in steps]
