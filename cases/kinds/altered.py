"""Packets and records that are altered: a byte is another, the end is missing, two are joined, or the pharmacy is another one."""
import shutil
from collections import Counter
from typing import NamedTuple

from suite.case import Case, Group, rows_apart
from suite.live import line_for
from suite.logs import START, write_log
from suite.nodes import Answer, Served, room
from suite.parallel import spread
from suite.printed import printed
from suite.programs import run
from suite.rows import read_rows
from suite.worlds import Day, Dump, Packet, Report, dump, packets_of, replayed, schedule

PROGRAMS = ("claimswitch", "claimdump", "claimnode", "claimdecode")
# Where an envelope has the pharmacy's number, low byte, and how many bytes its head has.
PHARMACY, ENVELOPE = 5, 18
# Where it has the numbers of pharmacy and request.
NUMBER = slice(4, 14)
# What each byte of a record is changed to.
VALUES = (0, 1, 0x1C, 0x7F, 0xFF)
# How many packets or records one process alters in a row.
CHUNK = 300
# Of how many altered requests under a number that a payer has used since it stood as before one is given to it anew.
ANEW = 6


def other_values(octet: int) -> list[int]:
    """Every value that a byte is changed to: zero, the three separators, all bits, and each of its bits turned."""
    return [0, 0x1C, 0x1D, 0x1E, 0xFF, *(octet ^ 1 << bit for bit in range(8))]


class Delivery(NamedTuple):
    """A packet that came to a node, and how many calls were in the node's log before."""

    packet: Packet
    calls: int


class Altered(NamedTuple):
    """An altered packet, and what has to become of it where that is known: `taken` or the name of a refusal."""

    octets: bytes
    wanted: str = ""


def with_octet(octets: bytes, place: int, value: int) -> bytes:
    return octets[:place] + bytes([value]) + octets[place + 1 :]


def altered_bytes(packet: Packet) -> list[Altered]:
    """Each byte is changed to each other value."""
    return [
        Altered(with_octet(packet.octets, place, value))
        for place, octet in enumerate(packet.octets)
        for value in other_values(octet)
    ]


def altered_ends(packet: Packet) -> list[Altered]:
    """The packet is cut off at each length, and stands twice in a row."""
    octets = packet.octets
    cut = [Altered(octets[:length], "Short" if length < ENVELOPE else "Length") for length in range(len(octets))]
    return [*cut, Altered(octets * 2, "Length")]


def altered_pharmacy(packet: Packet) -> list[Altered]:
    """The packet has the number of another pharmacy: a pharmacy does not take it for its own, a switch does not wait for such an answer, and
    a request is another one, which is forwarded or answered."""
    wanted = "NotMine" if packet.to.startswith("ph") else "NotWaiting" if packet.sender.startswith("pr") else "taken"
    return [Altered(with_octet(packet.octets, PHARMACY, 2), wanted)]


ALTERATIONS = {"bytes": altered_bytes, "ends": altered_ends, "pharmacy": altered_pharmacy}


def deliveries(day: Day, dumped: Dump) -> list[Delivery]:
    """The packets that came to nodes on a day, taken or not."""
    report = day.report()
    packets, calls, found = packets_of(day, report, dumped), Counter(), []
    for event, outcome in zip(day.events, report.outcomes):
        node = f"ph{event[1]}" if event[0] in ("submit", "tick") else event[1]
        if event[0] == "deliver" and 1 <= event[1] <= len(packets):
            node = packets[event[1] - 1].to
            found.append(Delivery(packets[event[1] - 1], calls[node]))
        if not outcome.refused:
            calls[node] += 1
    return found


class Receiver:
    """A node to which a packet came, as it stood before, each time anew."""

    def __init__(self, folder: str, dumped: Dump, delivery: Delivery):
        self.node, self.settings = delivery.packet.to, dumped.path("settings.toml")
        self.whole = dumped.log(self.node)
        self.before = self.whole._replace(calls=self.whole.calls[: delivery.calls])
        self.base, self.path, self.served = f"{folder}/base", f"{folder}/log", None
        with open(self.base, "wb") as file:
            file.write(write_log(self.before))

    def begin(self) -> None:
        """Serves it anew."""
        self.end()
        shutil.copyfile(self.base, self.path)
        self.served = Served(self.settings, self.node, self.path)

    def again(self) -> None:
        """Brings it back to where it stood before. A switch that stops and starts holds nothing, as at its last start."""
        if not self.node.startswith("sw"):
            return self.begin()
        starts = [place for place, call in enumerate(self.before.calls) if call.kind == START]
        for line in [
            "stop",
            "start",
            *(line_for(call) for call in self.before.calls[starts[-1] + 1 if starts else 0 :]),
        ]:
            if self.served.ask(line).refused:
                raise AssertionError(f"{self.node} refuses a call of its own log: {line}")

    def end(self) -> None:
        if self.served:
            self.served.end()

    def goes_on(self, refused: list[tuple[bytes, str]], sender: str) -> bool:
        """Whether it keeps all that it had where all these are refused: its log has nothing of them, and it does what it did that day."""
        self.begin()
        for octets, name in refused:
            if self.served.take(sender, octets).refused != name:
                return False
        for call in self.whole.calls[len(self.before.calls) :]:
            self.served.ask(line_for(call))
        with open(self.path, "rb") as file:
            return file.read() == write_log(self.whole)


def outcome(answer: Answer) -> str:
    return answer.refused or "taken"


class Given:
    """Altered packets that are given to the node of a delivery in place of its own, each where it stands as before.

    A payer that took one has used its number, and refuses others of that number as NumberReused, last of all: they are readable and its own,
    and it would have taken them. Every sixth of these is given to the payer anew, as are those that other nodes take.
    """

    def __init__(self, folder: str, dumped: Dump, delivery: Delivery):
        self.receiver, self.sender = Receiver(folder, dumped, delivery), delivery.packet.sender
        self.counts, self.refused, self.used, self.spared = Counter(), [], set(), 0
        self.known = {call.octets[NUMBER] for call in self.receiver.before.calls}

    def come(self, octets: bytes) -> str:
        """What comes of a packet."""
        came = outcome(self.receiver.served.take(self.sender, octets))
        if came == "NumberReused" and octets[NUMBER] in self.used:
            self.spared += 1
            if self.spared % ANEW:
                return "taken"
            self.anew()
            came = outcome(self.receiver.served.take(self.sender, octets))
        if came != "taken":
            self.refused.append((octets, came))
        elif not self.receiver.node.startswith("pr"):
            self.anew()
        elif octets[NUMBER] not in self.known:
            self.used.add(octets[NUMBER])
        return came

    def anew(self) -> None:
        self.receiver.again()
        self.used.clear()

    def all(self, some: list[Altered]) -> Counter:
        """How many packets came to what."""
        try:
            self.receiver.begin()
            for octets, wanted in some:
                came = self.come(octets)
                self.counts["wrong" if wanted and came != wanted else came] += 1
            if not self.receiver.goes_on(self.refused, self.sender):
                self.counts["wrong"] += 1
        finally:
            self.receiver.end()
        return self.counts


def told(counts: Counter, names: list[str]) -> str:
    """How many packets were taken, refused and neither, and the refusals by name, those that are asked for first."""
    refused = {name: count for name, count in counts.items() if name not in ("taken", "wrong")}
    order = [name for name in names if name in refused] + sorted(set(refused) - set(names))
    return " ".join(
        [
            f'taken={counts["taken"]}',
            f"refused={sum(refused.values())}",
            f'wrong={counts["wrong"]}',
            *(f"{name}={refused[name]}" for name in order),
        ]
    )


def packets(word: str, name: str, names: list[str]) -> str:
    """Alters each packet that was delivered on a day, and tells what the nodes made of that."""
    day = Day(name)
    with room() as folder:
        dumped = dump(f"{folder}/day", day)
        work = []
        for delivery in deliveries(day, dumped):
            some = ALTERATIONS[word](delivery.packet)
            work += [(delivery, some[at : at + CHUNK]) for at in range(0, len(some), CHUNK)]

        def one(item: tuple[Delivery, list[Altered]]) -> Counter:
            with room() as own:
                return Given(own, dumped, item[0]).all(item[1])

        return told(sum(spread(one, work), Counter()), names)


class Tried(NamedTuple):
    """An altered record, and whether it has another length."""

    octets: bytes
    longer: bool


def altered_record(octets: bytes) -> list[Tried]:
    """A record with each byte changed to each of some others, cut off at each length, and with one byte more."""
    changed = [Tried(with_octet(octets, place, value), False) for place in range(len(octets)) for value in VALUES]
    return [*changed, *(Tried(octets[:length], True) for length in range(len(octets))), Tried(octets + b"\0", True)]


def read_records(some: list[bytes]) -> list[bool]:
    """Whether claimdecode reads these bytes as records. No bytes at all are no line, and are read as the whole input."""
    if some == [b""]:
        ran = run("claimdecode", "record", "--raw", "--json")
    else:
        ran = run(
            "claimdecode", "record", "--hex", "--json", given=b"".join(it.hex().encode("ascii") + b"\n" for it in some)
        )
    found = [b'"finding":"no_record"' not in line for line in ran.out.splitlines()]
    if ran.status or len(found) != len(some):
        raise AssertionError(f"claimdecode: status {ran.status}, {len(found)} of {len(some)} records, {ran.err!r}")
    return found


def record(name: str, node: str) -> str:
    """Alters the record with which a node ends a day: how many are refused, and how many are read."""
    with room() as folder:
        octets = dump(folder, Day(name)).read(f'{node}.{"journal" if node.startswith("ph") else "book"}')
    tried = sorted(altered_record(octets), key=lambda it: len(it.octets))
    parts = [tried[:1], *(tried[at : at + CHUNK] for at in range(1, len(tried), CHUNK))]
    found = [read for some in spread(lambda part: read_records([it.octets for it in part]), parts) for read in some]
    counts = Counter((it.longer, read) for it, read in zip(tried, found))
    whole = "reads-back" if read_records([octets])[0] else "lost"
    return (
        f"bytes={len(octets)} {whole} refused={counts[False, False]} itself={counts[False, True]} lengths-refused={counts[True, False]} "
        f"wrong={counts[True, True]}"
    )


def rest(name: str) -> str:
    """What a pharmacy is as a world opens, at rest, and started again."""
    day, events, words = Day(name), [], []
    for event in (None, ("stop", "ph1"), ("start", "ph1")):
        events += [event] if event else []
        report = Report(replayed(day.settings, events), len(events))
        words.append("up" if report.nodes["pharmacy", 1].up else "down")
        if words[-1] == "down":
            with room() as folder:
                words.append(printed(Dump(folder, schedule(day.settings, events)).read("ph1.journal")))
    return " ".join([*words, f'entries={report.nodes["pharmacy", 1].count}'])


def weight(word: str, _: bytes) -> int:
    return 1 if word == "rest" else 3000


def groups(path: str, name: str, kind: type[Case]) -> list[Group]:
    found = []
    words = {"record": record, "rest": rest}
    for row in read_rows(path):
        names = [word.partition("=")[0] for word in row.outcome.split(" ")[3:]]

        def tell(word: str, argument: bytes, names: list[str] = names) -> str:
            text = argument.decode("ascii")
            return words[word](*text.split(" ")) if word in words else packets(word, text, names)

        found += rows_apart(name, [row], tell, kind, weight)
    return found
