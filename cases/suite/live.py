"""A world of processes: each node is a claimnode of its own, and packets are carried from one to another by hand."""
from suite.logs import DROP, PRICE, START, STOP, SUBMIT, TAKE, TICK, Call, Log, head_of, read_log
from suite.nodes import Answer, Served
from suite.printed import printed
from suite.worlds import Packet, Settings, line_of


def words_of(event: tuple) -> str:
    """An event as a line for the node that it calls."""
    word, *rest = line_of(event).split(" ", 2)
    return " ".join([word, *rest[1:]])


def line_for(call: Call) -> str:
    """The line that makes a call of a log."""
    text = printed(call.octets).replace(" ", "\\x20")
    if call.kind == TAKE:
        return f"take {call.sender} {printed(call.octets)}"
    if call.kind in (DROP, PRICE):
        return f'plan {text} {int.from_bytes(call.rest[-4:], "big") if call.kind == PRICE else "none"}'
    return {SUBMIT: f"submit {printed(call.octets)}", TICK: "tick", STOP: "stop", START: "start"}[call.kind]


class Live:
    """The nodes of settings, served from new logs in a folder. A node is begun at its first call; without one it has a log of no calls."""

    def __init__(self, settings: Settings, folder: str):
        self.settings, self.folder, self.nodes, self.served = settings, folder, settings.nodes(), {}
        with open(f"{folder}/settings.toml", "wb") as file:
            file.write(settings.octets)
        for node in self.nodes:
            with open(f"{folder}/{node}.log", "wb") as file:
                file.write(head_of(node, settings.octets))
        self.up, self.packets, self.calls, self.events = set(self.nodes), [], 0, []

    def node(self, name: str) -> Served:
        """The process of a node."""
        if name not in self.served:
            self.served[name] = Served(f"{self.folder}/settings.toml", name, f"{self.folder}/{name}.log")
        return self.served[name]

    def make(self, event: tuple) -> None:
        """Makes an event, refused or not. An idle tick is no call: its node's log does not have it."""
        self.events.append(event)
        told, node = self.ask(event)
        if told and not told.refused and told.last != "idle":
            self.calls += 1
            self.packets += [Packet(node, to, octets) for to, octets in told.sent]
            if event[0] in ("stop", "start"):
                (self.up.add if event[0] == "start" else self.up.discard)(node)

    def ask(self, event: tuple) -> tuple[Answer | None, str]:
        """What the node that an event calls says, and its name."""
        if event[0] == "deliver":
            if not 1 <= event[1] <= len(self.packets):
                return None, ""
            packet = self.packets[event[1] - 1]
            return self.node(packet.to).take(packet.sender, packet.octets), packet.to
        node = f"ph{event[1]}" if event[0] in ("submit", "tick") else event[1]
        return (self.node(node).ask(words_of(event)) if node in self.nodes else None), node

    def logs(self) -> list[Log]:
        """The logs of the nodes, pharmacies before switches before payers."""
        found = []
        for node in self.nodes:
            with open(f"{self.folder}/{node}.log", "rb") as file:
                found.append(read_log(file.read()))
        return found

    def end(self) -> None:
        for node in self.served.values():
            node.end()
