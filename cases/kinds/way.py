"""Single nodes, call by call: a pharmacy, a switch and a payer, each a process of claimnode."""
import re
import shutil

from suite import days
from suite.case import Case, Group, rows_in_order
from suite.logs import SUBMIT, envelope, read_log
from suite.nodes import Answer, Served, room
from suite.printed import octets_of, printed
from suite.rows import read_rows

PROGRAMS = ("claimnode",)
NODES = ("ph1", "sw1", "pr1")
KINDS = {"ph": "Pharmacy", "sw": "Switch", "pr": "Payer"}
# An answer and a request that are readable, of nobody.
REJECTION = octets_of(r"D0B11R011234567893     20240115\G\S\FAM21\FANR\FFA1\FFB01")
OTHER = octets_of(r"610455D0B2A1        1011234567893     20240115SW00000001\G\S\FAM07\FEM1\FD21\FD30")


def told(answer: Answer) -> str:
    """What a node sends, or the name of its refusal."""
    if answer.refused:
        return answer.last
    if not re.fullmatch(r"ok|number \d+", answer.last):
        return f"says {answer.last}"
    return " ".join(
        [f"sends={len(answer.sent)}", *(f"{KINDS[to[:2]]}({to[2:]}) {printed(octets)}" for to, octets in answer.sent)]
    )


class Way:
    """The first pharmacy, switch and payer of a day that was opened."""

    def __init__(self):
        self.room, self.nodes = None, {}

    def open(self, name: str) -> str:
        self.close()
        self.room = room()
        with open(f"{self.room.name}/settings.toml", "wb") as file:
            file.write(days.settings(days.named(name)))
        self.nodes = {node: self.served(node, f"{node}.log") for node in NODES}
        return "ok"

    def served(self, node: str, log: str) -> Served:
        return Served(f"{self.room.name}/settings.toml", node, f"{self.room.name}/{log}")

    def close(self) -> None:
        for node in self.nodes.values():
            node.end()
        if self.room:
            self.room.cleanup()
        self.room, self.nodes = None, {}

    def copy(self, node: str) -> Served:
        """The same node again, made of a copy of its log."""
        shutil.copyfile(f"{self.room.name}/{node}.log", f"{self.room.name}/copy.log")
        return self.served(node, "copy.log")

    def entries(self, node: str) -> str:
        """How many entries a pharmacy answers for."""
        count = 0
        while self.nodes[node].ask(f"answer {count + 1}").last != "none":
            count += 1
        return str(count)

    def request(self, node: str, number: str) -> str:
        """The request of an entry, as the log of its pharmacy has it."""
        with open(self.nodes[node].log, "rb") as file:
            submitted = [call.octets for call in read_log(file.read()).calls if call.kind == SUBMIT]
        return printed(submitted[int(number) - 1])

    def held(self, node: str, name: str) -> str:
        """The answer that a node holds for a number."""
        pharmacy, number = (int(it) for it in name.split("."))
        if node == "ph1":
            return self.nodes[node].ask(f"answer {number}").last.removeprefix("answer ")
        with self.copy(node) as copy:
            if node == "sw1":
                refused = copy.take("pr1", envelope(True, pharmacy, number, REJECTION)).refused
                return "none" if refused == "NotWaiting" else f"waits: {refused}"
            return self.held_by_payer(copy, pharmacy, number)

    def held_by_payer(self, copy: Served, pharmacy: int, number: int) -> str:
        """The answer that a payer holds: it has a row, where another request of the number is refused, and gives its answer again."""
        refused = copy.take("sw1", envelope(False, pharmacy, number, OTHER)).refused
        if refused != "NumberReused":
            return f"another request: {refused}"
        with open(self.nodes["pr1"].log, "rb") as file:
            taken = [call.octets for call in read_log(file.read()).calls]
        head = envelope(False, pharmacy, number, b"")[:14]
        asked = next(octets for octets in taken if octets.startswith(head))
        return " ".join(printed(octets[18:]) for _, octets in copy.take("sw1", asked).sent)

    def call(self, word: str, node: str, rest: bytes) -> str:
        """Makes a call on a node."""
        if word == "take":
            sender, _, octets = rest.partition(b" ")
            return told(self.nodes[node].take(sender.decode("ascii"), octets))
        return told(self.nodes[node].ask(f"{word} {printed(rest)}" if rest else word))

    def tell(self, word: str, argument: bytes) -> str:
        if word in ("open", "entries", "request", "held"):
            return getattr(self, word)(*argument.decode("latin-1").split(" "))
        node, _, rest = argument.partition(b" ")
        return self.call(word, node.decode("ascii"), rest)


def groups(path: str, name: str, kind: type[Case]) -> list[Group]:
    way = Way()
    return [rows_in_order(name, read_rows(path), way.tell, kind, end=way.close)]
