"""What a picture of claimpicture shows, read from its shapes and texts alone."""
import re
from typing import NamedTuple

KINDS = {"ph": "Pharmacy", "sw": "Switch", "pr": "Payer"}
# How far below the middle of an event's row its label stands, a packet's label, and the beginning of an arrow.
LABEL, PACKET, SENT = 5, 16, 22


class Text(NamedTuple):
    """A text, and where it stands."""

    x: int
    y: int
    text: str


class Arrow(NamedTuple):
    """A line from one place to another, with a head or without one."""

    x1: int
    y1: int
    x2: int
    y2: int
    headed: bool


def number(words: str, name: str) -> int:
    return int(re.search(rf' {name}="(-?\d+)', words)[1])


class Picture:
    """A picture: its nodes by their columns, its events by their rows, and its arrows."""

    def __init__(self, svg: str):
        texts = [
            Text(number(found[1], "x"), number(found[1], "y"), found[2])
            for found in re.finditer(r"<text([^>]*)>([^<]*)</text>", svg)
        ]
        self.title, self.texts = re.search("<title[^>]*>([^<]*)<", svg)[1], texts
        self.columns = {it.x: it.text for it in texts if re.fullmatch(r"(ph|sw|pr)\d+", it.text)}
        self.captions = [it.text for it in texts if it.text in ("pharmacy", "switch", "payer")]
        self.rows = {it.y - LABEL: it.text for it in texts if it.x == 16 and re.match(r"\d+ [a-z]+ ", it.text)}
        self.arrows = [
            Arrow(*(number(line, name) for name in ("x1", "y1", "x2", "y2")), "marker-end" in line)
            for line in re.findall("<line[^>]*>", svg)
        ]

    def events(self) -> list[int]:
        """The numbers of the events that are drawn."""
        return [int(text.split(" ")[0]) for text in self.rows.values()]

    def column(self, x: int) -> str:
        """The node whose column is nearest to a place."""
        name = self.columns[min(self.columns, key=lambda it: abs(it - x))]
        return f"{KINDS[name[:2]]}({name[2:]})"

    def packet_of(self, arrow: Arrow) -> str:
        """The number of an arrow's packet: that of the label in the row from which it goes."""
        return next(
            it.text.split(":")[0]
            for it in self.texts
            if it.y == arrow.y1 - SENT + PACKET and re.match(r"\d+: ", it.text)
        )

    def sent(self, event: str, row: int) -> list[str]:
        """The packets that an event sent: each has its label and an arrow, or a line that ends in a cross."""
        found = {self.packet_of(it): it for it in self.arrows if it.y1 == row + SENT and abs(it.x1 - it.x2) > 20}
        return [
            f"Sent {{ event: {event}, packet: {packet}, from: {self.column(it.x1)}, to: {self.column(it.x2)} }}"
            for packet, it in found.items()
        ]

    def call(self, row: int) -> str:
        """What an event did: its call, or its refusal."""
        event, word, node = self.rows[row].split(" ")[:3]
        said = [it.text for it in self.texts if it.y == row + LABEL and it.x != 16]
        refused = [it for it in said if it.startswith("refused: ")]
        if refused:
            return f'Refused {{ event: {event}, fault: {refused[0].removeprefix("refused: ")} }}'
        if word == "deliver":
            arrow = next(it for it in self.arrows if it.headed and it.y2 == row)
            return f"Arrived {{ event: {event}, packet: {self.packet_of(arrow)} }}"
        if word in ("stop", "start"):
            bar = next(it for it in self.arrows if it.y1 == it.y2 == row and it.x2 - it.x1 == 20)
            name, end = {"stop": ("Stopped", "stops"), "start": ("Started", "starts")}[word]
            return f"{name} {{ event: {event}, node: {self.column(bar.x1 + 10)} }}" if said == [end] else str(said)
        name, kind = {"submit": ("Submitted", "pharmacy"), "tick": ("Ticked", "pharmacy"), "plan": ("Priced", "payer")}[
            word
        ]
        return f"{name} {{ event: {event}, {kind}: {node[2:]} }}"

    def marks(self) -> list[str]:
        """What each event did, and the packets that it sent, in order."""
        return [
            mark
            for row in sorted(self.rows)
            for mark in [self.call(row), *self.sent(self.rows[row].split(" ")[0], row)]
        ]
