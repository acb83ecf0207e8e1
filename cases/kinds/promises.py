"""What worlds promise, walked over the report of a replay after each event: of days in which a node pauses, and of random events."""
import copy

from suite.case import Case, Group, row_case
from suite.draws import Crowd, Draws
from suite.parallel import spread
from suite.rows import read_rows
from suite.worlds import Broken, Day, Report, Settings, Walk, nodes_in, replayed

PROGRAMS = ("claimswitch",)
MET = ("answers", "standing", "counted", "reversed")


class Run:
    """A run whose promises are walked after each event."""

    def __init__(self, settings: Settings):
        self.settings, self.events, self.walk, self.broken = settings, [], Walk(settings), []
        self.text, self.report = "", None

    def copy(self) -> "Run":
        """The same run, to be gone on with otherwise."""
        other = Run(self.settings)
        other.events, other.walk = list(self.events), copy.deepcopy(self.walk)
        return other

    def make(self, event: tuple) -> None:
        """Makes an event, refused or not, and walks the promises."""
        self.events.append(event)
        self.text = replayed(self.settings, self.events)
        try:
            self.report = Report(self.text, len(self.events))
            self.walk.walk(self.events, self.report)
        except (Broken, KeyError, IndexError, ValueError) as fault:
            self.broken.append(f"{type(fault).__name__} {fault} after event {len(self.events)}")


def paused(before: Run, node: str, rest: list[tuple]) -> tuple[list[str], str]:
    """A run that goes on with a stop and a start of a node and these events: the promises that broke, and the lines on its nodes."""
    run = before.copy()
    for event in [("stop", node), ("start", node), *rest]:
        run.make(event)
    return [f"{node} pauses after {len(before.events)} events: {it}" for it in run.broken], nodes_in(run.text)


def beginnings(day: Day) -> list[Run]:
    """The runs of the first events of a day: of none, of one and so on."""
    run, found = Run(day.settings), []
    for event in [*day.events, None]:
        found.append(run.copy())
        if event:
            run.make(event)
    return found


def all_paused(day: Day, places: list[tuple[str, int]]) -> list[tuple[list[str], str]]:
    """The runs of a day in which a node pauses after so many events."""
    before = beginnings(day)
    return spread(lambda place: paused(before[place[1]], place[0], day.events[place[1] :]), places)


def with_faults(told: str, faults: list[str]) -> str:
    """What is told, and the first promises that broke."""
    return " ".join([told, *(f"[{it}]" for it in faults[:3])])


def pauses(name: str) -> str:
    """Whichever node of a day pauses, whenever it does: how many pauses there are, and how many promises broke."""
    day = Day(name)
    runs = all_paused(day, [(node, after) for node in day.settings.nodes() for after in range(len(day.events) + 1)])
    broken = [it for faults, _ in runs for it in faults]
    return with_faults(f"pauses={len(runs)} broken={len(broken)}", broken)


def pause(name: str, node: str, first: str, last: str, like: str) -> str:
    """A pause of a node of a day after so many events, up to so many others: how often the nodes are then as another day tells them."""
    day, wanted = Day(name), Day(like).nodes
    runs = all_paused(day, [(node, after) for after in range(int(first), int(last) + 1)])
    broken, same = [it for faults, _ in runs for it in faults], sum(nodes == wanted for _, nodes in runs)
    return with_faults(f"same={same} other={len(runs) - same} broken={len(broken)}", broken)


def meet(report: Report) -> list[int]:
    """How much of what the promises speak of there is: answers that nodes hold, payments that stand, counted payments that stand, and those
    that were reversed."""
    answers = sum(
        rulings[0].kind != "open"
        for node in report.all("pharmacy") + report.all("payer")
        for _, rulings in (*node.entries.values(), *node.rows.values())
    )
    answers += sum(answered for node in report.all("switch") for _, answered in node.table)
    states = {
        ruling.auth: ruling.state
        for node in report.all("payer")
        for _, rulings in node.rows.values()
        for ruling in rulings
        if ruling.kind == "P"
    }
    counted = [states[auth] for node in report.all("pharmacy") for auth, _ in node.paid]
    return [answers, list(states.values()).count("standing"), counted.count("standing"), counted.count("reversed")]


def random_run(settings: Settings, texts: list[bytes], seed: int, events: int) -> tuple[list[int], list[str]]:
    """A run of so many random events: what its walks met, and what broke."""
    run, draws, met = Run(settings), Draws(seed, texts), [0] * len(MET)
    up, packets = set(settings.nodes()), 0
    for _ in range(events):
        run.make(draws.event(up, packets))
        names = {"pharmacy": "ph", "switch": "sw", "payer": "pr"}
        up = {f"{names[kind]}{number}" for (kind, number), node in run.report.nodes.items() if node.up}
        packets = sum(len(outcome.sent) for outcome in run.report.outcomes)
        met = [one + more for one, more in zip(met, meet(run.report))]
    return met, [f"seed {seed}: {it}" for it in run.broken]


def random(crowd: Crowd, seeds: str, events: str) -> str:
    """Random events in the first world, so many for each seed below a number."""
    settings = Day(crowd.worlds[0]).settings
    runs = spread(lambda seed: random_run(settings, crowd.texts, seed, int(events)), range(int(seeds)))
    broken = [it for _, faults in runs for it in faults]
    counts = " ".join(f"{name}={sum(met[place] for met, _ in runs)}" for place, name in enumerate(MET))
    return with_faults(f"{counts} broken={len(broken)}", broken)


def weight(row) -> int:
    """About how many replays a row takes."""
    name = row.text().split(" ")[0]
    if row.word == "random":
        return 5000
    return len(Day(name).events) ** 2 * len(Day(name).settings.nodes()) if row.word == "pauses" else 1


def groups(path: str, name: str, kind: type[Case]) -> list[Group]:
    """The rows of pauses, each by itself, and those of random events."""
    crowd, crowded, found = Crowd(), [], []
    for row in read_rows(path):
        if row.word in ("pauses", "pause"):
            words = {"pauses": pauses, "pause": pause}
            case = row_case(name, row, lambda word, it, words=words: words[word](*it.decode("ascii").split(" ")), kind)
            found.append(Group([case], weight(row)))
        else:
            words = {
                "opens": crowd.opens,
                "submits": crowd.submits,
                "random": lambda it: random(crowd, *it.decode("ascii").split(" ")),
            }
            crowded.append(row_case(name, row, lambda word, argument, words=words: words[word](argument), kind))
    return [*found, Group(crowded, 5000)]
