"""One node as a process, step by step: a pharmacy, one whose rule of retries changes, a payer's book over many prescriptions, a payer that asks, one
whose terms change, a switch's table beside a plain list, and one whose cap changes."""
import json
from collections.abc import Callable

from suite.case import Case, Group, rows_in_order
from suite.nodes import Answer, Served, room
from suite.printed import printed
from suite.programs import run
from suite.rows import read_rows

PROGRAMS = ("claimnode", "claimdecode")
SETTINGS = (
    'again = {again}\ntries = {tries}\n[[pharmacy]]\nqualifier = "01"\nprovider = "1234567893"\nnodes = [1, 2]\ncap = {journal}\n'
    "[[switch]]\ncap = {table}\n[[switch]]\ncap = 64\n[[payer]]\nfee = 150\ncopay = 1000\ncap = {book}\n{asks}[payer.prices]\n"
    '00093721410 = 18567\n[[route]]\nbin = "610455"\npayer = 1\n'
)
USUAL = {"again": 1, "tries": 1, "journal": 100, "table": 64, "book": 1000, "asks": ""}
REQUEST, ANSWER = 1, 2
# Words of rows whose line tells a list.
LISTS = {"row-of": "row", "payments-of": "payments"}
# How many lines a node is given at once: so many as pipes hold.
FEW = 100


def packet_of(kind: int, pharmacy: int, number: int, text: bytes) -> bytes:
    """The envelope of a text (docs/FORMATS.md)."""
    return (
        b"PS\x01"
        + bytes([kind])
        + pharmacy.to_bytes(2, "big")
        + number.to_bytes(8, "big")
        + len(text).to_bytes(4, "big")
        + text
    )


class Node:
    """One node of the usual settings, some of them otherwise, in a folder of its own, with a log or without."""

    def __init__(self, name: str, has_log: bool = True, **terms: int | str):
        self.folder = room()
        self.settings = f"{self.folder.name}/settings.toml"
        with open(self.settings, "w", encoding="ascii") as file:
            file.write(SETTINGS.format(**(USUAL | terms)))
        self.served = Served(self.settings, name, f"{self.folder.name}/{name}.log" if has_log else None)

    def ask(self, line: str) -> Answer:
        return self.served.ask(line)

    def ask_many(self, lines: list[str]) -> list[Answer]:
        """What it says to each of many lines, of which it is given a few at a time."""
        said = []
        for at in range(0, len(lines), FEW):
            said += self.served.ask_all(lines[at : at + FEW])
        return said

    def again(self) -> str:
        """What claimnode says where its process has ended and begins anew."""
        self.served.end()
        self.served = Served(self.settings, self.served.node, self.served.log)
        return self.served.ready

    def turn(self) -> str:
        """What claimnode says where it closes the log; the node goes on in the new one."""
        self.served.end()
        ran = run("claimnode", "--turn", self.settings, self.served.node, self.served.log, given=b"")
        self.again()
        return " ".join((ran.out + ran.err).decode().replace(f"{self.folder.name}/", "").split())

    def end(self) -> None:
        self.served.end()
        self.folder.cleanup()


class Steps:
    """Rows about one node at a time; `end` ends the last one."""

    def __init__(self):
        self.node: Node | None = None

    def open(self, name: str, has_log: bool = True, **terms: int | str) -> None:
        self.end()
        self.node = Node(name, has_log, **terms)

    def end(self) -> None:
        if self.node:
            self.node.end()
        self.node = None

    def list_of(self, line: str) -> str:
        """What the node tells as a list: its lines, and the last one."""
        said = self.node.ask(line)
        return " | ".join([*said.lines, said.last])


class Journal(Steps):
    """Pharmacy 1."""

    def tell(self, word: str, argument: bytes) -> str:
        """What a row comes to."""
        if word == "open":
            again, tries, cap = map(int, argument.split(b" "))
            self.open("ph1", again=again, tries=tries, journal=cap)
            return "ok"
        if word == "restart":
            said = [self.node.ask("stop").last, self.node.ask("start").last]
            return "ok" if said == ["ok", "ok"] else " ".join(said)
        if word.startswith("hear"):
            pharmacy, number, text = argument.split(b" ", 2)
            kind = REQUEST if word == "hear-request" else ANSWER
            return self.node.ask(f"take sw1 {printed(packet_of(kind, int(pharmacy), int(number), text))}").last
        if word == "count":
            return self.node.ask("count").last.removeprefix("count ")
        if word == "retry":
            return self.node.ask(f"retry {argument.decode()}").last
        if word == "turn":
            return self.node.turn()
        if word in LISTS:
            return self.list_of(f"{LISTS[word]} {argument.decode()}")
        return {
            "submit": self.submit,
            "send": self.send,
            "tick": self.tick,
            "held": self.held,
            "open-of": self.open_of,
        }[word](argument)

    def submit(self, text: bytes) -> str:
        return self.node.ask(f"submit {printed(text)}").last.removeprefix("number ")

    def send(self, text: bytes) -> str:
        said = self.node.ask(f"submit {printed(text)}")
        return " ".join(
            [said.last.removeprefix("number "), *(f"switch={to[2:]} {printed(packet)}" for to, packet in said.sent)]
        )

    def tick(self, _: bytes) -> str:
        return (
            " ".join(f"switch={to[2:]} bytes={len(packet)}" for to, packet in self.node.ask("tick").sent) or "nothing"
        )

    def open_of(self, argument: bytes) -> str:
        said = self.node.ask(f"open {argument.decode()}")
        return " ".join([*said.entries, said.last])

    def held(self, number: bytes) -> str:
        last = self.node.ask(f"answer {int(number)}").last
        return "nothing" if last in ("open", "none") else last.removeprefix("answer ")


def rulings(answers: list[bytes]) -> list[str]:
    """What each answer of one transaction rules."""
    lines = "".join(f"{it.hex()}\n" for it in answers)
    told = []
    for line in run("claimdecode", "answer", "--json", "--hex", given=lines.encode()).out.splitlines():
        (found,) = json.loads(line)["findings"]
        if found.get("codes") == "87":
            told.append("not-processed")
        else:
            told.append(
                f'{found["ruling"]}={int(found["authorization"][4:])}' if "authorization" in found else str(found)
            )
    return told


class Book(Steps):
    """The book of payer 1 over many prescriptions."""

    def __init__(self):
        super().__init__()
        self.number = 0

    def tell(self, word: str, argument: bytes) -> str:
        """What a row comes to."""
        if word == "book":
            self.open("pr1", book=int(argument))
            self.number = 0
            return "ok"
        if word == "refused":
            self.number += 1
            return self.node.served.take("sw1", packet_of(REQUEST, 1, self.number, argument)).refused or "answered"
        if word in LISTS:
            return self.list_of(f"{LISTS[word]} {argument.decode()}")
        if word == "packet":
            pharmacy, number, request = argument.split(b" ", 2)
            return printed(
                self.node.served.take("sw1", packet_of(REQUEST, int(pharmacy), int(number), request)).sent[0][1][:18]
            )
        count, _, request = argument.partition(b" ")
        return self.each(int(count), request)

    def each(self, count: int, request: bytes) -> str:
        """What comes of a request for each of so many prescriptions."""
        lines = []
        for prescription in range(1, count + 1):
            self.number += 1
            lines.append(
                f'take sw1 {printed(packet_of(REQUEST, 1, self.number, request.replace(b"@", str(prescription).encode())))}'
            )
        said = self.node.ask_many(lines)
        told = rulings([it.sent[0][1][18:] for it in said])
        name, _, first = told[0].partition("=")
        wanted = [f"{name}={int(first) + place}" if first else name for place in range(count)]
        return f"{told[0]} to {told[-1]}" if told == wanted else " ".join(told)


class Asking(Steps):
    """The book of payer 1, which asks its own system or does not; `node` has another node in its place."""

    def __init__(self):
        super().__init__()
        self.advice = b""

    def tell(self, word: str, argument: bytes) -> str:
        """What a row comes to."""
        if word == "payer":
            self.open("pr1", book=10, asks={b"asks": 'asks = "claims"\n', b"plans": ""}[argument])
            return "ok"
        if word == "node":
            self.open(argument.decode())
            return "ok"
        if word == "advice":
            self.advice = argument
            return "ok"
        if word == "turn":
            return self.node.turn()
        if word in LISTS:
            return self.list_of(f"{LISTS[word]} {argument.decode()}")
        if word in ("take", "adjudicate"):
            number, _, request = argument.partition(b" ")
            return self.answer(word, printed(packet_of(REQUEST, 1, int(number), request)))
        line = argument.decode("latin-1")
        return self.node.ask(line if word == "line" else f"{word} {line}".rstrip()).last

    def answer(self, word: str, packet: str) -> str:
        """What a node answers to a packet, with the advice or without."""
        spelled = printed(self.advice).replace(" ", "\\x20")
        said = self.node.ask(f"take sw1 {packet}" if word == "take" else f"adjudicate sw1 {spelled} {packet}")
        return printed(said.sent[0][1][18:]) if said.last == "ok" and len(said.sent) == 1 else said.last


class Dice:
    """A small generator of numbers."""

    def __init__(self, state: int):
        self.state = state

    def roll(self, sides: int) -> int:
        self.state = (self.state * 6_364_136_223_846_793_005 + 1_442_695_040_888_963_407) % 2**64
        return (self.state >> 33) % sides


# Two billings that have a route, one that has none, and no request; two answers, and no answer; the rejection of the billings.
BILLED = b"D0B1A1        1011234567893     20240115SW00000001\x1d\x1e\x1cAM07\x1cEM1\x1cD2123456\x1cD3"
REQUESTS = [b"610455" + BILLED + b"0", b"610455" + BILLED + b"1", b"999999" + BILLED + b"0", b"x"]
ACCEPTED = b"D0B11A011234567893     20240115\x1d\x1e\x1cAM21\x1cANR\x1cFA1\x1cFB"
REFUSED = b"D0B11R011234567893     20240115\x1d\x1e\x1cAM21\x1cANR\x1cFA1\x1cFB01"
ANSWERS = [ACCEPTED + b"70", ACCEPTED + b"83", b"x"]
UNROUTED, NO_REQUEST, NO_ANSWER = 2, 3, 2
COUNTED = ("forwarded", "answered", "rejected", "refused", "sent", "stopped")


class PlainTable:
    """A plain list that does what a switch's table has to do: by number, which request it has and which answer came, oldest first."""

    def __init__(self, cap: int):
        self.cap, self.entries = cap, {}

    def request(self, number: int, which: int) -> tuple[str, str]:
        """What is done with a request, and what it is counted as."""
        if which == NO_REQUEST:
            return "refused Unreadable", "refused"
        if number in self.entries:
            request, answer = self.entries[number]
            if request != which:
                return "refused NumberReused", "refused"
            if answer is not None:
                return f"ph1 {answer}", "answered"
        elif which != UNROUTED:
            if len(self.entries) >= self.cap:
                del self.entries[next(iter(self.entries))]
            self.entries[number] = (which, None)
        return ("ph1 rejected", "rejected") if which == UNROUTED else ("pr1", "forwarded")

    def response(self, number: int, which: int) -> tuple[str, str]:
        """What is done with a response, and what it is counted as."""
        if which == NO_ANSWER:
            return "refused Unreadable", "stopped"
        if number not in self.entries:
            return "refused NotWaiting", "stopped"
        request, answer = self.entries[number]
        if answer not in (None, which):
            return "refused Differs", "stopped"
        self.entries[number] = (request, which)
        return f"ph1 {which}", "sent"


class Table(Steps):
    """Switch 1 and a plain list, which are handed the same random packets."""

    def tell(self, word: str, argument: bytes) -> str:
        """What a row comes to."""
        cap, turns = map(int, argument.split(b" "))
        self.open("sw1", table=cap)
        return self.against_list(cap, turns)

    def against_list(self, cap: int, turns: int) -> str:
        """How they fare over so many turns, where the table is empty and has this cap."""
        plain, dice, counts = PlainTable(cap), Dice(20_240_115), dict.fromkeys(COUNTED, 0)
        lines, wanted = [], []
        for _ in range(turns):
            number = dice.roll(cap // 2 * 3 + 3) + 1
            if dice.roll(8) < 5:
                which = dice.roll(4)
                done, counted = plain.request(number, which)
                packet = packet_of(REQUEST, 1, number, REQUESTS[which])
                lines.append(f"take ph1 {printed(packet)}")
            else:
                which = dice.roll(3)
                done, counted = plain.response(number, which)
                packet = packet_of(ANSWER, 1, number, ANSWERS[which])
                lines.append(f"take pr1 {printed(packet)}")
            counts[counted] += 1
            wanted.append(self.said(done, number, packet))
        for turn, (said, want) in enumerate(zip(self.node.ask_many(lines), wanted, strict=True)):
            if (said.sent, said.last) != want:
                return f"differs at turn {turn}: {said} in place of {want}"
        return " ".join(["agrees", *(f"{name}={count}" for name, count in counts.items())])

    @staticmethod
    def said(done: str, number: int, packet: bytes) -> tuple[list[tuple[str, bytes]], str]:
        """What a node says where this is done."""
        if done.startswith("refused"):
            return [], done
        to, _, which = done.partition(" ")
        if to == "ph1":
            packet = packet_of(ANSWER, 1, number, REFUSED if which == "rejected" else ANSWERS[int(which)])
        return [(to, packet)], "ok"


class Capped(Table):
    """Switch 1, whose cap changes; `node` has another node in its place."""

    def tell(self, word: str, argument: bytes) -> str:
        """What a row comes to."""
        if word in ("switch", "diskless"):
            self.open("sw1", word == "switch", table=int(argument))
            return "ok"
        if word == "node":
            self.open(argument.decode())
            return "ok"
        if word == "again":
            return self.node.again()
        if word == "turn":
            return self.node.turn()
        if word == "against-list":
            return self.against_list(*map(int, argument.split(b" ")))
        if word == "request":
            return self.goes("ph1", packet_of(REQUEST, 1, int(argument), REQUESTS[0]))
        if word == "response":
            return self.goes("pr1", packet_of(ANSWER, 1, int(argument), ANSWERS[0]))
        line = argument.decode("latin-1")
        return self.node.ask(line if word == "line" else f"{word} {line}".rstrip()).last

    def goes(self, sender: str, packet: bytes) -> str:
        """To whom the switch sends something where it takes a packet."""
        said = self.node.served.take(sender, packet)
        return said.sent[0][0] if said.last == "ok" and len(said.sent) == 1 else said.last


SUBJECTS: dict[str, Callable[[], Steps]] = {
    "journal": Journal,
    "retry": Journal,
    "prescriptions": Book,
    "advised": Asking,
    "terms": Asking,
    "switch_table": Table,
    "cap": Capped,
}


def groups(path: str, name: str, kind: type[Case]) -> list[Group]:
    subject = SUBJECTS[name.rsplit("/", 1)[1].rsplit(".", 1)[0]]()
    return [rows_in_order(name, read_rows(path), subject.tell, kind, end=subject.end, weight=20)]
