"""Settings that grow: which logs claimgrow takes over to others, how these open then, and why it leaves all as they were."""
import os

from suite.case import Case, Group, rows_apart
from suite.logs import HEAD, head_of, head_of_file, read_log, write_log
from suite.nodes import Served, room
from suite.programs import Ran, run
from suite.rows import read_rows, shared_texts
from suite.worlds import Dump, Settings

PROGRAMS = ("claimgrow", "claimdump", "claimnode", "claimaudit")
SETTINGS = b"""again = 2
tries = 3
[[pharmacy]]
qualifier = "01"
provider = "1234567893"
nodes = [1, 2]
cap = 100
[[pharmacy]]
qualifier = "01"
provider = "9876543217"
nodes = [2]
cap = 200
[[switch]]
cap = 64
[[switch]]
cap = 32
[[payer]]
fee = 150
copay = 1000
cap = 3000
serial = 7
[payer.prices]
00093721410 = 18567
[[payer]]
fee = 250
copay = 500
cap = 4000
[[route]]
bin = "610455"
payer = 1
[[route]]
bin = "700000"
pcn = "AB"
payer = 2
"""
# A claim is paid; one whose BIN has no route is rejected by switch 1, in its third record; a payer stops and starts, a pharmacy ticks.
EVENTS = (
    "submit ph1 {routed}",
    "deliver 1",
    "deliver 2",
    "deliver 3",
    "deliver 4",
    "submit ph1 {unrouted}",
    "deliver 5",
    "deliver 6",
    "stop pr1",
    "start pr1",
    "tick ph2",
)


NODES = tuple(Settings(SETTINGS).nodes())
# Which logs are of version 1.
UNDER: dict[str, tuple[str, ...]] = {"under": (), "first-under": NODES, "mixed-under": NODES[::2]}


def lines(text: str) -> str:
    """A text whose lines stand apart by a semicolon and a space."""
    return text.replace("; ", "\n")


def day(settings: bytes = SETTINGS) -> bytes:
    """The input of the replay whose logs are taken."""
    routed = shared_texts("")["billing"]
    events = "\n".join(EVENTS).format(routed=routed, unrouted=routed.replace("610455", "999999", 1))
    return settings + b"---\n" + events.encode("latin-1") + b"\n"


def early_day(settings: bytes) -> bytes:
    """The input of a replay in which pharmacy 3, whose settings are these, has a claim paid."""
    routed = shared_texts("")["billing"].replace("1234567893", "5555555555", 1)
    events = "\n".join([f"submit ph3 {routed}", "deliver 1", "deliver 2"])
    return settings + b"---\n" + events.encode("latin-1") + b"\n"


def edited(text: str) -> bytes:
    """The settings with one text, which stands there once, in another's place."""
    old, arrow, new = text.partition(" => ")
    if not arrow or SETTINGS.decode().count(lines(old)) != 1:
        raise ValueError(f"no edit of the settings: {text}")
    return SETTINGS.decode().replace(lines(old), lines(new)).encode()


def added(text: str) -> bytes:
    """The settings with these lines behind them."""
    return SETTINGS + lines(text).encode() + b"\n"


def laid_out(word: str) -> bytes:
    """The settings in another layout, of which the word tells."""
    if word == "as-they-are":
        return SETTINGS
    if word == "remarks":
        return b"# A network.\n" + SETTINGS.replace(b"\n[[", b"\n\n# A node or a route.\n[[").replace(
            b"cap = 100\n", b"cap = 100 # rows\n"
        )
    if word == "line-ends":
        return SETTINGS.replace(b"\n", b"\r\n")
    if word == "spaces":
        return SETTINGS.replace(b" = ", b"=").replace(b"[1, 2]", b"[\n  1,\n  2,\n]").replace(b"18567", b"18_567")
    if word == "order":
        return reordered(SETTINGS)
    raise ValueError(f"no such layout: {word}")


def reordered(octets: bytes) -> bytes:
    """Settings whose keys stand in the opposite order in each table, and of whose arrays the last stands first."""
    text = octets.decode().replace("[payer.prices]\n00093721410 = 18567\n", "prices = { 00093721410 = 18567 }\n")
    head, *tables = text.split("[[")
    tables.sort(key=lambda it: it.partition("]")[0], reverse=True)
    turned = ["".join([*reversed(head.splitlines(True))])]
    for table in tables:
        name, *keys = table.splitlines(True)
        turned += ["[[", name, *reversed(keys)]
    return "".join(turned).encode()


class Network:
    """The logs of a day in a folder, of which some may be of version 1, and the settings that they are to go over to."""

    def __init__(self, folder: str, new: bytes, first: tuple[str, ...] = (), old: bytes = SETTINGS):
        self.dump, self.new = Dump(folder, day(old)), new
        self.nodes = Settings(SETTINGS).nodes()
        self.write("new.toml", new)
        for node in first:
            self.write(f"{node}.log", of_first(self.dump.read(f"{node}.log"), SETTINGS))

    def write(self, name: str, octets: bytes) -> None:
        with open(self.dump.path(name), "wb") as file:
            file.write(octets)

    def paths(self, nodes: list[str]) -> list[str]:
        return [self.dump.path(f"{node}.log") for node in nodes]

    def octets(self) -> list[bytes]:
        return [self.dump.read(f"{node}.log") for node in self.nodes]

    def grow(self, *words: str, nodes: list[str] | None = None) -> Ran:
        """What claimgrow says of the logs of nodes, or of all."""
        return run(
            "claimgrow",
            *words,
            self.dump.path("settings.toml"),
            self.dump.path("new.toml"),
            *self.paths(self.nodes if nodes is None else nodes),
        )

    def said(self, ran: Ran) -> str:
        """What claimgrow said, without the folder, and with records by their numbers in place of their bytes."""
        told = (ran.out + ran.err).decode().replace(f"{self.dump.folder}/", "").replace("claimgrow: ", "")
        for node in self.nodes:
            for number, place in enumerate(places(self.dump.read(f"{node}.log")), 1):
                told = told.replace(
                    f"{node}.log: {kind_of(node)} does not go over: the record at byte {place} ",
                    f"{node}: record {number} ",
                )
        return "; ".join(told.splitlines())

    def opened(self) -> None:
        """Opens each node under the new settings, with every call of its log; a new node begins its own."""
        for node in Settings(self.new).nodes():
            calls = len(read_log(self.dump.read(f"{node}.log")).calls) if node in self.nodes else 0
            with Served(self.dump.path("new.toml"), node, self.dump.path(f"{node}.log")) as served:
                if served.ready != f"ready {calls}":
                    raise AssertionError(f"{node} under the new settings: {served.ready}")

    def audited(self) -> str:
        """The verdict of claimaudit on all logs under the new settings."""
        ran = run("claimaudit", self.dump.path("new.toml"), *self.paths(Settings(self.new).nodes()))
        return next(line for line in ran.told().splitlines() if " run" in line or "no " in line)


def kind_of(node: str) -> str:
    return f"{ {'ph': 'pharmacy', 'sw': 'switch', 'pr': 'payer'}[node[:2]] } {node[2:]}"


def of_first(octets: bytes, settings: bytes) -> bytes:
    """The calls of a log, as a log of version 1 under these settings."""
    log = read_log(octets)
    return write_log(log._replace(head=head_of_file(log.node, settings)))


def places(octets: bytes) -> list[int]:
    """The places of the records of a log that is whole."""
    log = read_log(octets)
    return [len(write_log(log._replace(calls=log.calls[:count]))) for count in range(len(log.calls))]


def gone_over(network: Network, before: list[bytes]) -> str:
    """What is to be seen once all logs went over: they have the same calls and are of version 2, all open, and they are one legal run."""
    for node, old, new in zip(network.nodes, before, network.octets()):
        if new != write_log(read_log(old)._replace(head=head_of(node, network.new))):
            return f"{node} has other bytes"
    again = network.grow()
    if again.status or again.out.count(b" is under the new settings already\n") != len(network.nodes):
        return f"again: {network.said(again)}"
    if [name for name in os.listdir(network.dump.folder) if name.endswith(".grown")]:
        return "copies are left"
    network.opened()
    return f"over, {network.audited()}"


def already(network: Network) -> str:
    """What was said of all logs, where each is under the new settings as it stands."""
    said = network.said(network.grow()).split("; ")
    wanted = [f"{node}.log: {kind_of(node)} is under the new settings already" for node in network.nodes]
    return "already" if said == wanted else "; ".join(said)


def under(new: bytes, first: tuple[str, ...]) -> str:
    """Whether the day's logs are under other settings as they stand: claimgrow and claimnode say so, and change nothing."""
    with room() as folder:
        network = Network(folder, new, first)
        before, told = network.octets(), already(network)
        if told != "already":
            return told
        network.opened()
        return f"{told}, {network.audited()}" if network.octets() == before else "other bytes"


def grown(new: bytes, first: tuple[str, ...] = (), old: bytes = SETTINGS) -> str:
    """What becomes of the day's logs."""
    with room() as folder:
        network = Network(folder, new, first, old)
        before, checked = network.octets(), network.grow("--check")
        if network.octets() != before:
            return "--check wrote"
        ran = network.grow()
        if (ran.status, ran.out, ran.err) != (checked.status, checked.out, checked.err):
            return f"--check said otherwise: {network.said(checked)}"
        if ran.status == 0:
            return gone_over(network, before)
        stays = [line for line in network.said(ran).split("; ") if not line.endswith(" goes over")]
        return (
            "; ".join(stays) if network.octets() == before and ran.status == 1 else f"status {ran.status}, other bytes"
        )


def late(text: str) -> str:
    """What claimgrow writes for settings with these lines so that all logs go over, and what becomes of these then."""
    with room() as folder:
        network = Network(folder, added(text))
        before, ran = network.octets(), network.grow("--reject", nodes=[it for it in NODES if not it.startswith("sw")])
        if ran.status or ran.err or network.octets() != before:
            return f"--reject: status {ran.status}, {network.said(ran)}"
        network.new += ran.out
        network.write("new.toml", network.new)
        rows = [line for line in ran.out.decode().splitlines() if line]
        return "; ".join([*rows, gone_over(network, before) if network.grow().status == 0 else "not over"])


def altered(change, node: str = "ph1") -> str:
    """What becomes of the logs where that of one node is altered, and a cap is larger."""
    with room() as folder:
        network = Network(folder, edited("cap = 3000 => cap = 3001"))
        count = len(network.dump.log("ph1").calls)
        network.write(f"{node}.log", change(network.dump.read(f"{node}.log")))
        before, ran = network.octets(), network.grow()
        if ran.status:
            stays = [line for line in network.said(ran).split("; ") if not line.endswith(" goes over")]
            return "; ".join(stays) if network.octets() == before else "other bytes"
        return f'over, {len(read_log(network.dump.read("ph1.log")).calls)} of {count} records'


def forged(octets: bytes) -> bytes:
    """A log whose first call sent its packet to switch 2."""
    log = read_log(octets)
    call = log.calls[0]
    return write_log(
        log._replace(calls=(call._replace(sent=tuple(it._replace(to="sw2") for it in call.sent)), *log.calls[1:]))
    )


def early(pharmacy: str, route: str) -> str:
    """What is said of the logs of nodes that took a claim of a new pharmacy before they went over to settings that give it another payer."""
    with room() as folder:
        network = Network(folder, added(f"{pharmacy}; {route}"))
        Dump(folder, early_day(added(pharmacy)))
        network.write("settings.toml", SETTINGS)
        for node in network.nodes:
            log = network.dump.log(node)
            network.write(f"{node}.log", write_log(log._replace(head=head_of(node, SETTINGS))))
        stays = [line for line in network.said(network.grow()).split("; ") if not line.endswith(" goes over")]
        return "; ".join(stays) or "over"


def held(hold: str) -> str:
    """What is said where some log is not free, or some are over already."""
    with room() as folder:
        network = Network(folder, edited("cap = 3000 => cap = 3001"))
        if hold == "served":
            with Served(network.dump.path("settings.toml"), "pr1", network.dump.path("pr1.log")):
                return network.said(network.grow())
        if hold == "twice":
            return network.said(network.grow(nodes=["ph1", "sw1", "ph1"]))
        if hold == "absent":
            return network.said(network.grow(nodes=["ph1", "sw9"]))
        network.grow(nodes=hold.split(" "))
        return network.said(network.grow())


def tell(word: str, argument: bytes) -> str:
    """What a row comes to."""
    text = argument.decode("latin-1")
    if word == "edit":
        return grown(edited(text))
    if word == "add":
        return grown(added(text))
    if word == "from":
        there, _, then = text.partition(" => ")
        return grown(added(then), old=added(there))
    if word == "late":
        return late(text)
    if word == "early":
        pharmacy, _, route = text.partition(" => ")
        return early(pharmacy, route)
    if word == "first":
        return grown(added(text), NODES)
    if word in UNDER:
        return under(laid_out(text), UNDER[word])
    if word == "cut":
        return altered(lambda octets: octets[: len(octets) - int(text)])
    if word == "keep":
        return altered(lambda octets: octets[: int(text)])
    if word == "turn":
        return altered(lambda octets: octets[: int(text)] + bytes([octets[int(text)] ^ 1]) + octets[int(text) + 1 :])
    if word == "other-head":
        return altered(lambda octets: head_of("ph1", edited(text)) + octets[HEAD:])
    if word == "other-file":
        return altered(lambda octets: of_first(octets, SETTINGS + text.encode()))
    if word == "forged":
        return altered(forged, text)
    if word == "held":
        return held(text)
    if word == "words":
        ran = run("claimgrow", *text.split(" ")) if text else run("claimgrow")
        return f"status {ran.status}"
    raise ValueError(f"no such word: {word}")


def groups(path: str, name: str, kind: type[Case]) -> list[Group]:
    """Each row by itself."""
    return rows_apart(name, read_rows(path), tell, kind)
