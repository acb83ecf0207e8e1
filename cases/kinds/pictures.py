"""Pictures of runs by claimpicture: what they show, how inputs are refused, and the words of its command line."""
import re

from suite import days, faults
from suite.case import Case, Group, rows_apart
from suite.nodes import room
from suite.printed import printed
from suite.programs import Ran, run
from suite.rows import read_rows
from suite.svg import KINDS, Picture
from suite.worlds import Day, addressee, dump, packets_of

PROGRAMS = ("claimswitch", "claimdump", "claimpicture")
# A day of so many events that the ends alone are drawn of it.
LONG = "many-prices"
NAMES = {"settings refused": "Settings", "read fault": "Read", "write fault": "Write", "out of memory": "OutOfMemory"}


def drawn(given: bytes, *words: str) -> Ran:
    """What claimpicture makes of an input."""
    return run("claimpicture", *words, given=given)


def complaint(ran: Ran) -> str:
    """The line of standard error, without the program's name, where nothing was written."""
    found = re.fullmatch(r"claimpicture: (.*)\n", ran.err.decode("latin-1"))
    if not found or ran.out:
        raise AssertionError(str(ran))
    return found[1]


def fault(ran: Ran) -> str:
    """The name of the fault by which an input is refused."""
    told = complaint(ran)
    line = re.fullmatch(r"line (\d+) refused", told)
    return f"Line({line[1]})" if line else NAMES[told]


def picture(name: str) -> Picture:
    """The whole picture of a day."""
    return Picture(drawn(days.parts(days.named(name))[0], "all").out.decode("latin-1"))


def begins(name: str) -> str:
    """What the picture of a day begins with: the nodes of its settings, and no packet before the first event."""
    ran = drawn(days.parts(days.named(name))[0], "all")
    if ran.status:
        return fault(ran)
    whole, first = Picture(ran.out.decode("latin-1")), Picture(
        drawn(days.settings(days.named(name))).out.decode("latin-1")
    )
    packets = re.search(r"(\d+) packets?", first.title)[1]
    return f'events={len(whole.events())} packets={packets} switches={first.captions.count("switch")}'


def marks_told(name: str) -> list[str]:
    """The marks of a day by the report of its replay and the logs of its nodes."""
    day = Day(name)
    with room() as folder:
        report = day.report()
        packets = packets_of(day, report, dump(folder, day))
    ends = [f"from: {name_of(it.sender)}, to: {name_of(it.to)}" for it in packets]
    marks = []
    for place, (event, outcome) in enumerate(zip(day.events, report.outcomes), 1):
        marks.append(mark_told(place, event, outcome.refused))
        marks += [f"Sent {{ event: {place}, packet: {number}, {ends[number - 1]} }}" for number in outcome.sent]
    return marks


def name_of(node: str) -> str:
    return f"{KINDS[node[:2]]}({node[2:]})"


def mark_told(place: int, event: tuple, refused: str | None) -> str:
    """The mark of an event's call."""
    if refused:
        return f"Refused {{ event: {place}, fault: {refused} }}"
    if event[0] == "deliver":
        return f"Arrived {{ event: {place}, packet: {event[1]} }}"
    name, kind = {
        "submit": ("Submitted", "pharmacy"),
        "tick": ("Ticked", "pharmacy"),
        "plan": ("Priced", "payer"),
        "stop": ("Stopped", "node"),
        "start": ("Started", "node"),
    }[event[0]]
    node = addressee(event)
    return f'{name} {{ event: {place}, {kind}: {name_of(node) if kind == "node" else node[2:]} }}'


def shows(argument: str, *words: str) -> str:
    """How often a text stands in the picture of a day, or why there is none."""
    name, _, text = argument.partition(" ")
    ran = drawn(days.parts(days.named(name))[0], *words)
    return fault(ran) if ran.status else str(ran.out.decode("latin-1").count(text))


def part(argument: str) -> str:
    first, last, rest = argument.split(" ", 2)
    return shows(rest, f"{first}-{last}")


def wish(line: str) -> str:
    """What words of a command line ask for. Two quotes are an empty word."""
    words = [word.removeprefix('""') for word in line.split(" ") if word]
    ran = drawn(days.parts(days.named(LONG))[0], *words)
    if ran.status == 2 and complaint(ran).startswith("usage: "):
        return "Usage"
    if ran.status or not ran.out.startswith(b"<svg"):
        return printed(ran.out)
    events, count = Picture(ran.out.decode("latin-1")).events(), len(Day(LONG).events)
    if events == [*range(1, 501), *range(count - 499, count + 1)]:
        return "Ends"
    if events == list(range(1, count + 1)):
        return "All"
    whole = events == list(range(events[0], events[-1] + 1))
    return f"Part {{ first: {events[0]}, last: {events[-1]} }}" if whole else str(events)


def stop(name: str) -> str:
    """The status for a cause, and the line of standard error."""
    given = days.settings(days.named("nothing")) + b"---\n"
    ran = {
        "usage": lambda: drawn(b"", "no word"),
        "read": lambda: faults.no_reading("claimpicture"),
        "settings": lambda: drawn(b""),
        "line": lambda: drawn(given + b"tick ph1\n" * 6 + b"x\n"),
        "write": lambda: faults.no_writing("claimpicture", given=given),
    }[name]()
    return f"{ran.status} {complaint(ran)}"


def mark(argument: str) -> str:
    name, place = argument.split(" ")
    return picture(name).marks()[int(place) - 1]


TELLING = {
    "begins": begins,
    "marks": lambda name: str(len(picture(name).marks())),
    "mark": mark,
    "same": lambda name: "yes" if picture(name).marks() == marks_told(name) else "no",
    "all": lambda it: shows(it, "all"),
    "ends": shows,
    "part": part,
    "wish": wish,
    "stop": stop,
}


def tell(word: str, argument: bytes) -> str:
    return TELLING[word](argument.decode("latin-1"))


def groups(path: str, name: str, kind: type[Case]) -> list[Group]:
    return rows_apart(
        name,
        read_rows(path),
        tell,
        kind,
        lambda word, argument: 50 if word == "wish" or LONG.encode() in argument else 1,
    )
