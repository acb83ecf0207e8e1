"""The logs of all nodes, merged by claimaudit into the events of one run: of days, and of random runs, as they are and changed."""
import functools
import re
import shutil

from suite.case import Case, Group, row_case
from suite.changes import CHANGES, Spot, changed, changed_at
from suite.draws import Crowd, Draws
from suite.live import Live, line_for
from suite.logs import TAKE, Log, read_log, write_log
from suite.nodes import Served, room
from suite.parallel import spread
from suite.programs import Ran, run
from suite.rows import read_rows
from suite.worlds import Day, Dump, dump, nodes_in, replayed

PROGRAMS = ("claimswitch", "claimdump", "claimnode", "claimaudit")
WORLDS, EVENTS = 4, 200


class Logs:
    """The logs of all nodes in a folder, with their settings."""

    def __init__(self, folder: str, nodes: list[str]):
        self.folder, self.nodes = folder, nodes

    def path(self, node: str) -> str:
        return f"{self.folder}/{node}.log"

    def audit(self, *words: str, instead: dict[str, str] | None = None, without: tuple[str, ...] = ()) -> Ran:
        """What claimaudit makes of them, with other files in the place of some."""
        files = [(instead or {}).get(node, self.path(node)) for node in self.nodes if node not in without]
        return run("claimaudit", *words, f"{self.folder}/settings.toml", *files)

    def merge(self, **more) -> bytes | None:
        """The run into which claimaudit merges them."""
        return merged(self.audit("--schedule", **more))

    def read(self) -> list[Log]:
        found = []
        for node in self.nodes:
            with open(self.path(node), "rb") as file:
                found.append(read_log(file.read()))
        return found

    def octets(self) -> list[bytes]:
        found = []
        for node in self.nodes:
            with open(self.path(node), "rb") as file:
                found.append(file.read())
        return found


def merged(ran) -> bytes | None:
    """The run into which logs are merged, as the input of a replay; none where they are tangled."""
    if ran.status == 0 and not ran.err and b"\n---\n" in ran.out:
        return ran.out
    if ran.status == 1 and not ran.err and b"no legal run" in ran.out.split(b"\n"):
        return None
    raise AssertionError(f"claimaudit: {ran}")


def told(given: bytes | None) -> str:
    return "Tangled" if given is None else "merged"


def leads_to(given: bytes, octets: list[bytes], nodes: list[str]) -> bool:
    """Whether the run of an input has these logs."""
    with room() as folder:
        Dump(folder, given)
        return Logs(folder, nodes).octets() == octets


def count_events(given: bytes) -> int:
    return len(given.partition(b"\n---\n")[2].splitlines())


def events_told(logs: Logs, given: bytes) -> str:
    """How many events there are, where claimaudit says as many."""
    count = count_events(given)
    said = re.search(rb"^one legal run of (\d+) event", logs.audit().out, re.MULTILINE)
    return f"events={count}" if said and int(said[1]) == count else f"events={count}, and {said}"


def over(day: Day, logs: Logs) -> str:
    """Merges the logs of a day: their events lead to the same logs and to the same nodes."""
    given = logs.merge()
    if given is None:
        return told(given)
    ran = run("claimswitch", "replay", given=given)
    same = ran.status == 0 and b"refused" not in ran.out and nodes_in(ran.out.decode("latin-1")) == day.nodes
    return " ".join(
        [
            events_told(logs, given),
            "same-logs" if leads_to(given, logs.octets(), logs.nodes) else "other-logs",
            "same-nodes" if same else "other-nodes",
        ]
    )


def over_copies(_: Day, logs: Logs) -> str:
    """Whether copies of the settings and logs of a day merge to the same events."""
    with room() as folder:
        for name in ("settings.toml", *(f"{node}.log" for node in logs.nodes)):
            shutil.copyfile(f"{logs.folder}/{name}", f"{folder}/{name}")
        given = logs.merge()
        return f'{events_told(logs, given)} {"yes" if given == Logs(folder, logs.nodes).merge() else "no"}'


def over_other(logs: Logs, node: str, octets: bytes) -> str:
    """What becomes of logs of which one is another."""
    other = f"{logs.folder}/other"
    with open(other, "wb") as file:
        file.write(octets)
    return told(logs.merge(instead={node: other}))


def without_calls(_: Day, logs: Logs) -> str:
    """The first pharmacy has a log of no calls."""
    return over_other(logs, "ph1", write_log(logs.read()[0]._replace(calls=())))


def with_change(change: str, _: Day, logs: Logs) -> str:
    """The payer's log is changed at its first call."""
    place = logs.nodes.index("pr1")
    return over_other(logs, "pr1", write_log(changed_at(logs.read(), place, change, Spot(0, 1, 0))[place]))


def alone(node: str, _: Day, logs: Logs) -> str:
    """What is told of the log of one node by itself."""
    ran = run("claimaudit", "--alone", f"{logs.folder}/settings.toml", logs.path(node))
    return f"{ran.status}: " + " | ".join(ran.out.decode("latin-1").rstrip("\n").split("\n"))


def alone_changed(node: str, change: str, _: Day, logs: Logs) -> str:
    """The same where its log is changed at its first call."""
    place = logs.nodes.index(node)
    other = f"{logs.folder}/other"
    with open(other, "wb") as file:
        file.write(write_log(changed_at(logs.read(), place, change, Spot(0, 1, 0))[place]))
    return f'{run("claimaudit", "--alone", f"{logs.folder}/settings.toml", other).status}'


DAYS = {
    **{f"alone-{node}": functools.partial(alone, node) for node in ("ph1", "sw1", "pr1")},
    "alone-other-answer": functools.partial(alone_changed, "pr1", "sent"),
    "merge": over,
    "copies": over_copies,
    "without-calls": without_calls,
    "without-payer": lambda _, logs: told(logs.merge(without=("pr1",))),
    "other-answer": functools.partial(with_change, "sent"),
    "other-order": functools.partial(with_change, "exchanged"),
}


def of_day(word: str, name: str) -> str:
    """Merges the logs of a day in some way."""
    with room() as folder:
        day = Day(name)
        dump(folder, day)
        return DAYS[word](day, Logs(folder, day.settings.nodes()))


def makes(settings: str, log: Log) -> bool:
    """Whether a node by itself makes the calls of a log, each with what it sent."""
    with room() as folder, Served(settings, log.node, f"{folder}/log") as node:
        for call in log.calls:
            answer = node.ask(line_for(call))
            if answer.refused or tuple(answer.sent) != tuple((to, octets) for to, octets in call.sent):
                return False
    return True


def has_order(logs: list[Log]) -> bool:
    """Whether all calls can be put in an order in which each packet is taken from a node that sent it before: all orders are tried, from
    their first calls on."""
    tried = set()

    def goes(places: tuple[int, ...], sent: frozenset) -> bool:
        if places in tried:
            return False
        tried.add(places)
        if all(place == len(log.calls) for place, log in zip(places, logs)):
            return True
        for at, (place, log) in enumerate(zip(places, logs)):
            if place < len(log.calls):
                call = log.calls[place]
                if call.kind != TAKE or (call.sender, log.node, call.octets) in sent:
                    more = sent | {(log.node, to, octets) for to, octets in call.sent}
                    if goes((*places[:at], place + 1, *places[at + 1 :]), more):
                        return True
        return False

    return goes((0,) * len(logs), frozenset())


class Merger:
    """Merges the logs of one random run, and counts what became of changed ones."""

    def __init__(self, live: Live, draws: Draws, searches: bool):
        self.live, self.draws, self.searches = live, draws, searches
        self.logs, self.merged, self.tangled, self.wrong = Logs(live.folder, live.nodes), 0, 0, []

    def expect(self, holds: bool, what: str) -> None:
        if not holds:
            self.wrong.append(what)

    def back(self) -> None:
        """The logs of the run merge into a run with the same logs and the same nodes."""
        given = self.logs.merge()
        if given is None:
            return self.wrong.append("its own logs are tangled")
        self.expect(
            count_events(given) == self.live.calls and leads_to(given, self.logs.octets(), self.logs.nodes),
            "other logs",
        )
        again = run("claimswitch", "replay", given=given).out.decode("latin-1")
        self.expect(nodes_in(again) == nodes_in(replayed(self.live.settings, self.live.events)), "other nodes")

    def change(self, logs: list[Log], change: str) -> None:
        """The logs with a change: what still merges has the changed logs."""
        found = changed(self.draws, logs, change)
        if not found:
            return
        place, others = found
        name, node = f"{self.live.folder}/other", self.logs.nodes[place]
        octets = write_log(others[place])
        with open(name, "wb") as file:
            file.write(octets)
        given = self.logs.merge(instead={node: name})
        if given is None:
            self.tangled += 1
        else:
            self.merged += 1
            whole = self.logs.octets()
            whole[place] = octets
            self.expect(leads_to(given, whole, self.logs.nodes), f"other logs, {node} {change}")
        if self.searches:
            right = has_order(others) and makes(f"{self.live.folder}/settings.toml", others[place])
            self.expect((given is not None) == right, f"merged {given is not None}, {node} {change}")
        else:
            self.expect(given is None or change != "sent", f"merged, {node} {change}")


def one_run(crowd: Crowd, seed: int, calls: int, searches: bool) -> tuple[int, int, list[str]]:
    """A random run of at most so many calls."""
    draws = Draws(seed, crowd.texts)
    settings = Day(crowd.worlds[draws.below(WORLDS)]).settings
    with room() as folder:
        live = Live(settings, folder)
        try:
            for _ in range(draws.below(EVENTS + 1)):
                if live.calls < calls:
                    live.make(draws.event(live.up, len(live.packets)))
        finally:
            live.end()
        merger = Merger(live, draws, searches)
        merger.back()
        logs = live.logs()
        for change in CHANGES:
            merger.change(logs, change)
    return merger.merged, merger.tangled, [f"seed {seed}: {it}" for it in merger.wrong]


def runs(crowd: Crowd, seeds: str, calls: int, searches: bool) -> str:
    """What became of the logs of random runs."""
    done = spread(lambda seed: one_run(crowd, seed, calls, searches), range(int(seeds)))
    wrong = [it for _, _, faults in done for it in faults]
    counts = f"merged={sum(it[0] for it in done)} tangled={sum(it[1] for it in done)} wrong={len(wrong)}"
    return " ".join([counts, *(f"[{it}]" for it in wrong[:3])])


def random(crowd: Crowd, seeds: str, events: str) -> str:
    if int(events) != EVENTS:
        raise ValueError(f"a run has at most {EVENTS} events")
    return runs(crowd, seeds, 1 << 30, False)


def groups(path: str, name: str, kind: type[Case]) -> list[Group]:
    """The rows of days, each by itself, and those of random runs, of whose long and short ones each is a group."""
    crowd, crowded, found = Crowd(), [], []
    words = {
        "opens": crowd.opens,
        "submits": crowd.submits,
        "random": lambda it: random(crowd, *it.decode("ascii").split(" ")),
        "search": lambda it: runs(crowd, it.split(b" ")[0].decode("ascii"), int(it.split(b" ")[1]), True),
    }
    for row in read_rows(path):
        if row.word in DAYS:
            found.append(Group([row_case(name, row, lambda word, it: of_day(word, it.decode("ascii")), kind)]))
        else:
            crowded.append(row_case(name, row, lambda word, argument: words[word](argument), kind))
    return [*found, Group(crowded, 20_000)]
