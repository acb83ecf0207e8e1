"""The promises of a world, walked over the reports of `claimswitch replay` on a schedule that grows.

What a request asks for is read here from its text. Nothing is taken from the product but what it prints."""

from __future__ import annotations

import re
from collections.abc import Callable, Sequence
from typing import Any, Protocol

# Whose request, and its number there.
Name = tuple[int, int]
Event = tuple[Any, ...]
DELIVERIES_MEET = {"NoSuchPacket", "Down", "NotWaiting", "AlreadySettled", "BookFull", "SerialsUsedUp"}


class Broken(Exception):
    """A promise that does not hold."""


class Settings(Protocol):
    """What the walk has to know of a world: caps and serials, and to which payer a request goes."""

    @property
    def pharmacies(self) -> Sequence[dict[str, Any]]:
        ...

    @property
    def payers(self) -> Sequence[dict[str, Any]]:
        ...

    @property
    def switches(self) -> Sequence[int]:
        ...

    @property
    def route(self) -> Callable[[Request], int | None]:
        ...


def expect(holds: object, what: str) -> None:
    if not holds:
        raise Broken(what)


class Request:
    """What a text asks for, as far as the walk needs it."""

    def __init__(self, text: bytes) -> None:
        self.text = text
        head = text[:56].decode("latin-1")
        self.bin, self.code, self.pcn, self.count = head[:6], head[8:10], head[10:20], int(head[20])
        self.provider, self.date = head[21:38], head[38:46]
        self.groups = [self.fields(group) for group in text.split(b"\x1d")[1:]]

    @staticmethod
    def fields(group: bytes) -> dict[str, list[bytes]]:
        """The values of a group's claim segments (AM07), by field; empty values are left out."""
        values: dict[str, list[bytes]] = {}
        for segment in group.split(b"\x1e")[1:]:
            parts = segment.split(b"\x1c")[1:]
            if parts and parts[0] == b"AM07":
                for part in parts[1:]:
                    if part[2:]:
                        values.setdefault(part[:2].decode("latin-1"), []).append(part[2:])
        return values

    def fill(self, place: int) -> tuple[str, str, str, int, int]:
        """The fill that the claim of a place, from 1, is of."""
        values = self.groups[place - 1]
        return (self.bin, self.pcn, self.provider, int(values["D2"][0]), int(values["D3"][0]))


class Outcome:
    """What an event gave: the packets that it sent, or the name of its refusal."""

    def __init__(self, number: int, line: str) -> None:
        words = line.split(" ")
        expect(words[0] == str(number) and words[1] in ("ok", "refused"), "the line of event %d is %r" % (number, line))
        self.refused = words[2] if words[1] == "refused" else None
        self.sent = [] if self.refused else [int(word) for word in words[2:]]


class Ruling:
    """The ruling of one place: `P`, `D`, `A`, `R` or `open`, with its words."""

    def __init__(self, words: list[str]) -> None:
        self.words = [word for word in words if word not in ("standing", "reversed")]
        self.state = words[-1] if words[-1] in ("standing", "reversed") else None
        self.kind, self.auth = words[0], words[1] if words[0] in "PDA" else ""
        self.amounts = [int(word) for word in self.words[2:]]
        if self.kind in "PD":
            cost, fee, copay, total = self.amounts
            expect(total == cost + fee - copay, "amounts of %s" % " ".join(words))


class Node:
    """The lines of one node."""

    def __init__(self, line: str) -> None:
        found = re.fullmatch(r"(pharmacy|switch|payer) (\d+) (up|down) (entries|rows) (\d+)", line)
        if found is None:
            raise Broken("a line of a node is %r" % line)
        self.kind, self.number, self.up, self.count = found[1], int(found[2]), found[3] == "up", int(found[5])
        # By the number of an entry of a pharmacy, or the name of a row of a payer.
        self.entries: dict[int, tuple[str, list[Ruling]]] = {}
        self.rows: dict[Name, tuple[str, list[Ruling]]] = {}
        self.paid: list[tuple[str, list[int]]] = []
        self.table: list[tuple[Name, bool]] = []

    def take(self, line: str) -> None:
        """Takes a line of this node."""
        words = line.split(" ")
        if words[0] == "paid":
            self.paid.append((words[1], [int(word) for word in words[2:]]))
        elif self.kind == "switch":
            self.table.append((txn(words[0]), words[1] == "answered"))
        else:
            name, _, place = words[0].partition("/")
            new: tuple[str, list[Ruling]] = (words[1], [])
            is_entry = self.kind == "pharmacy"
            code, rulings = (
                self.entries.setdefault(int(name), new) if is_entry else self.rows.setdefault(txn(name), new)
            )
            expect(code == words[1] and int(place or 1) == len(rulings) + 1, "places of %r" % line)
            rulings.append(Ruling(words[2:]))


def txn(name: str) -> Name:
    pharmacy, number = name.split(".")
    return int(pharmacy), int(number)


class Report:
    """A report, read line by line."""

    def __init__(self, text: str, events: int) -> None:
        lines = text.split("\n")
        expect(lines.pop() == "", "the report does not end in a newline")
        self.outcomes = [Outcome(place + 1, line) for place, line in enumerate(lines[:events])]
        self.nodes: dict[tuple[str, int], Node] = {}
        for line in lines[events:]:
            if re.match("(pharmacy|switch|payer) ", line):
                node = Node(line)
                self.nodes[node.kind, node.number] = node
            else:
                node.take(line)

    def all(self, kind: str) -> list[Node]:
        return [node for (name, _), node in sorted(self.nodes.items()) if name == kind]


class Walk:
    """The promises of one world, walked over its reports as the schedule grows."""

    def __init__(self, settings: Settings) -> None:
        self.settings = settings
        self.requests: dict[Name, Request] = {}
        self.answers: dict[Name, list[list[str]]] = {}
        # The answers that a pharmacy has told, and the rows of each payer.
        self.settled: set[Name] = set()
        self.rows: dict[int, list[Name]] = {}
        # Of each payment in which row and place it is, its ruling, and which row has reversed it.
        self.paid: dict[str, tuple[Name, int, Ruling]] = {}
        self.reversed_by: dict[str, Name] = {}
        self.met: dict[str, int] = {}

    def meet(self, what: str, count: int = 1) -> None:
        self.met[what] = self.met.get(what, 0) + count

    def walk(self, events: Sequence[Event], report: Report) -> None:
        self.events(events, report)
        self.journals(report)
        self.books(report)
        self.payments(report)
        for node in report.all("pharmacy"):
            self.counted(node, report)
        for node in report.all("switch"):
            self.table(node, report)

    def events(self, events: Sequence[Event], report: Report) -> None:
        """Numbers of packets follow one another, and deliveries meet few refusals. Submissions are kept."""
        self.requests = {}
        entries: dict[int, int] = {}
        sent = 0
        for event, outcome in zip(events, report.outcomes):
            for number in outcome.sent:
                sent += 1
                expect(number == sent, "packet %d is numbered %d" % (sent, number))
            if event[0] == "deliver" and outcome.refused:
                expect(outcome.refused in DELIVERIES_MEET, "a delivery was refused as %s" % outcome.refused)
                self.meet(outcome.refused)
            if event[0] == "submit" and not outcome.refused:
                entries[event[1]] = entries.get(event[1], 0) + 1
                self.requests[event[1], entries[event[1]]] = Request(event[2])

    def journals(self, report: Report) -> None:
        """Entries are what was submitted, in order, and an answer stays."""
        for node in report.all("pharmacy"):
            mine = {number: request for (pharmacy, number), request in self.requests.items() if pharmacy == node.number}
            expect(
                list(node.entries) == sorted(mine) and node.count == len(mine), "entries of pharmacy %d" % node.number
            )
            expect(node.count <= self.settings.pharmacies[node.number - 1]["cap"], "cap of pharmacy %d" % node.number)
            for number, (code, rulings) in node.entries.items():
                expect(code == mine[number].code and len(rulings) == mine[number].count, "entry %d" % number)
                self.answer((node.number, number), rulings)

    def answer(self, name: Name, rulings: list[Ruling]) -> None:
        """The answer to a number is the first that any node told, whole or not at all."""
        told = [ruling.words for ruling in rulings]
        if ["open"] in told:
            expect(all(words == ["open"] for words in told), "a part of an answer to %s" % (name,))
            expect(name not in self.settled, "an answer to %s is gone" % (name,))
            return
        self.settled.add(name)
        expect(self.answers.setdefault(name, told) == told, "two answers to %s" % (name,))
        self.meet("answers")

    def books(self, report: Report) -> None:
        """Rows are submitted requests, led there by the routes; none is lost or changed, and serials follow."""
        for node in report.all("payer"):
            given = self.settings.payers[node.number - 1]
            expect(node.count == len(node.rows) <= given["cap"], "cap of payer %d" % node.number)
            old = self.rows.setdefault(node.number, [])
            expect(list(node.rows)[: len(old)] == old, "rows of payer %d are lost" % node.number)
            self.rows[node.number] = list(node.rows)
            serial = given["serial"]
            for name, (code, rulings) in node.rows.items():
                request = self.requests.get(name)
                if request is None or request.code != code or request.count != len(rulings):
                    raise Broken("row %s" % (name,))
                expect(self.settings.route(request) == node.number, "row %s is of another payer" % (name,))
                told = [ruling.words for ruling in rulings]
                expect(self.answers.setdefault(name, told) == told, "two answers to %s" % (name,))
                for ruling in rulings:
                    if ruling.kind == "P":
                        expect(ruling.auth == "%04d%012d" % (node.number, serial), "serial of %s" % ruling.auth)
                        serial += 1
                self.meet("rows")
        for name, told in self.answers.items():
            if self.settings.route(self.requests[name]) is None:
                expect(told == [["R", "01"]] * self.requests[name].count, "unrouted %s" % (name,))
            else:
                expect(any(name in rows for rows in self.rows.values()), "an answer to %s of nobody" % (name,))

    def payments(self, report: Report) -> None:
        """The payments of all books: one that stands for each fill, and reversals and duplicates of each."""
        self.paid, self.reversed_by = {}, {}
        standing: dict[tuple[str, str, str, int, int], str] = {}
        for node in report.all("payer"):
            for name, (_, rulings) in node.rows.items():
                for place, ruling in enumerate(rulings, 1):
                    self.payment(name, place, ruling)
        for auth, (name, place, ruling) in self.paid.items():
            expect((ruling.state == "reversed") == (auth in self.reversed_by), "state of %s" % auth)
            self.meet(ruling.state or "")
            if auth not in self.reversed_by:
                fill = self.requests[name].fill(place)
                expect(fill not in standing, "%s and %s stand for one fill" % (standing.get(fill), auth))
                standing[fill] = auth

    def payment(self, name: Name, place: int, ruling: Ruling) -> None:
        """Takes a ruling of a row."""
        if ruling.kind == "P":
            self.paid[ruling.auth] = (name, place, ruling)
        elif ruling.kind in "DA":
            expect(ruling.auth in self.paid, "%s names no payment" % ruling.auth)
            paid = self.paid[ruling.auth]
            expect(ruling.auth not in self.reversed_by, "%s was reversed before" % ruling.auth)
            asked = self.requests[name]
            if ruling.kind == "D":
                expect(ruling.amounts == paid[2].amounts, "amounts of the duplicate of %s" % ruling.auth)
                expect(asked.fill(place) == self.requests[paid[0]].fill(paid[1]), "fill of %s" % ruling.auth)
                self.meet("duplicates")
            else:
                expect(asked.provider == self.requests[paid[0]].provider, "%s is of another provider" % ruling.auth)
                expect(name[0] == paid[0][0], "%s is of another pharmacy" % ruling.auth)
                self.reversed_by[ruling.auth] = name

    def counted(self, node: Node, report: Report) -> None:
        """The paid lines of a pharmacy: what its entries name, kept by the payer or taken back by an open reversal."""
        named: dict[str, list[int]] = {}
        taken_back = set()
        for code, rulings in node.entries.values():
            for ruling in rulings:
                if ruling.kind in "PD" and code == "B1":
                    named.setdefault(ruling.auth, ruling.amounts)
                elif ruling.kind == "A":
                    taken_back.add(ruling.auth)
        want = [(auth, amounts) for auth, amounts in named.items() if auth not in taken_back]
        expect(node.paid == want, "paid lines of pharmacy %d" % node.number)
        for auth, amounts in node.paid:
            expect(auth in self.paid, "%s is of no payer" % auth)
            _, _, ruling = self.paid[auth]
            expect(ruling.amounts == amounts, "amounts of %s" % auth)
            self.meet("counted")
            if auth in self.reversed_by:
                pharmacy, number = self.reversed_by[auth]
                expect(pharmacy == node.number, "%s was reversed elsewhere" % auth)
                code, rulings = node.entries[number]
                expect(code == "B2" and rulings[0].kind == "open", "%s is reversed and counted" % auth)
                self.meet("counted and reversed")

    def table(self, node: Node, report: Report) -> None:
        """A table has routed requests, each once, and an answer only where there is a row."""
        cap = self.settings.switches[node.number - 1]
        names = [name for name, _ in node.table]
        expect(len(names) == node.count <= cap and len(set(names)) == len(names), "table of switch %d" % node.number)
        expect(node.up or not names, "switch %d is down and has a table" % node.number)
        for name, answered in node.table:
            expect(name in self.requests, "%s was never submitted" % (name,))
            payer = self.settings.route(self.requests[name])
            if payer is None:
                raise Broken("%s has no route" % (name,))
            expect(not answered or name in self.rows[payer], "%s has no row" % (name,))
