"""Worlds: the settings and events of a day, the reports on it, and the logs that its nodes would have."""
import os
import re
import sys
import tomllib
from typing import NamedTuple

from suite import days
from suite.logs import Log, read_log
from suite.printed import octets_of, printed
from suite.programs import TOP, run

sys.path.append(f"{TOP}/tests")
from report_walk import Broken, Report, Walk  # noqa: E402

__all__ = ["Broken", "Day", "Dump", "Packet", "Report", "Settings", "Walk"]


class Settings:
    """Settings as a walk over reports asks for them."""

    def __init__(self, octets: bytes):
        self.octets = octets
        table = tomllib.loads(octets.decode("utf-8"))
        self.pharmacies, self.payers = table["pharmacy"], [{"serial": 1, **payer} for payer in table["payer"]]
        self.switches = [switch["cap"] for switch in table["switch"]]
        self.routes = {
            (route["bin"], None if "pcn" not in route else route["pcn"].ljust(10)): route["payer"]
            for route in table["route"]
            if "payer" in route
        }

    def route(self, request) -> int | None:
        """The payer of a request: by its BIN and PCN, else by its BIN alone."""
        return self.routes.get((request.bin, request.pcn), self.routes.get((request.bin, None)))

    def nodes(self) -> list[str]:
        """The nodes by their places."""
        counts = (("ph", self.pharmacies), ("sw", self.switches), ("pr", self.payers))
        return [f"{kind}{number}" for kind, many in counts for number in range(1, len(many) + 1)]


def event_of(line: str) -> tuple:
    """An event as a walk over reports takes it."""
    word, _, rest = line.partition(" ")
    if word == "submit":
        pharmacy, _, text = rest.partition(" ")
        return word, int(pharmacy[2:]), octets_of(text)
    if word == "tick":
        return word, int(rest[2:])
    return (word, int(rest)) if word == "deliver" else (word, *rest.split(" "))


def line_of(event: tuple) -> str:
    """The line of an event."""
    word = event[0]
    if word == "submit":
        return f"submit ph{event[1]} {printed(event[2])}"
    return f"tick ph{event[1]}" if word == "tick" else " ".join(str(it) for it in event)


def addressee(event: tuple) -> str | None:
    """The node that an event calls; none is known of a delivery."""
    if event[0] == "deliver":
        return None
    return f"ph{event[1]}" if event[0] in ("submit", "tick") else event[1]


class Day:
    """A day: its settings, its events, and what is to be told of it."""

    def __init__(self, name: str):
        self.name = name
        self.input, self.outcome = days.parts(days.named(name))
        self.settings = Settings(days.settings(days.named(name)))
        schedule = (self.input + b"\n").partition(b"\n---\n")[2].decode("latin-1").split("\n")
        self.events = [event_of(line) for line in schedule if line and not line.startswith("#")]

    @property
    def nodes(self) -> str:
        """The lines on the nodes after all events."""
        return "".join(self.outcome.splitlines(keepends=True)[len(self.events) :])

    def report(self) -> Report:
        """The report on it, as the program writes it."""
        return Report(replayed(self.settings, self.events), len(self.events))


def schedule(settings: Settings, events: list[tuple]) -> bytes:
    """The input of a replay."""
    return settings.octets + b"---\n" + "".join(line_of(event) + "\n" for event in events).encode("latin-1")


def replayed(settings: Settings, events: list[tuple]) -> str:
    """What claimswitch writes of a run."""
    ran = run("claimswitch", "replay", given=schedule(settings, events))
    if ran.status or ran.err:
        raise AssertionError(f"status {ran.status}, {ran.err!r}")
    return ran.out.decode("latin-1")


def nodes_in(report: str) -> str:
    """The lines on the nodes in a report."""
    return report[re.search("^pharmacy ", report, re.MULTILINE).start() :]


class Dump:
    """A folder in which claimdump wrote what the nodes of a run have on disk."""

    def __init__(self, folder: str, given: bytes):
        self.folder = folder
        os.makedirs(folder, exist_ok=True)
        ran = run("claimdump", folder, given=given)
        if ran.status or ran.out or ran.err:
            raise AssertionError(f"claimdump: {ran}")

    def path(self, name: str) -> str:
        return f"{self.folder}/{name}"

    def read(self, name: str) -> bytes:
        with open(self.path(name), "rb") as file:
            return file.read()

    def log(self, node: str) -> Log:
        return read_log(self.read(f"{node}.log"))


def dump(folder: str, day: Day) -> Dump:
    """What the nodes of a day have on disk."""
    return Dump(folder, schedule(day.settings, day.events))


class Packet(NamedTuple):
    """A packet of a run: who sent it to whom, and its bytes."""

    sender: str
    to: str
    octets: bytes


def packets_of(day: Day, report: Report, dumped: Dump) -> list[Packet]:
    """The packets of a day by their numbers, from 1: of each accepted event what the next call in its node's log sent."""
    found: list[Packet] = []
    left = {node: list(dumped.log(node).calls) for node in day.settings.nodes()}
    for event, outcome in zip(day.events, report.outcomes):
        if not outcome.refused:
            node = addressee(event) or found[event[1] - 1].to
            sent = left[node].pop(0).sent
            if len(sent) != len(outcome.sent):
                raise AssertionError(
                    f"{line_of(event)} sent {len(sent)} packets by its log, {len(outcome.sent)} by the report"
                )
            found += [Packet(node, to, octets) for to, octets in sent]
    return found
