"""Days whose logs are closed each night, for tests/turned: each is audited by itself, and from each on together with
those behind it."""

import pathlib
import re
import shutil

from suite.nodes import room
from turned_story import NEVER, Given, Story, audited, expect, texts

# Who is audited: logs of switches are not wanted.
PARTIES = ("ph1", "pr1")
NIGHTS, A_DAY, ROUNDS = 3, 3, 20
KINDS = {"ph": "pharmacy", "pr": "payer"}
TABLES = ("payments", "entries", "rows", "counted", "open")


def told(story):
    """A story of some days: at each midnight a claim is on its way, and all logs are closed."""
    given = iter(texts())
    for _ in range(NIGHTS):
        for _ in range(A_DAY):
            story.carry()
            story.ask("ph1", f"submit {next(given)}")
        for node in ("sw1", *PARTIES):
            story.turn(node, at_rest=False)
    for _ in range(ROUNDS):
        story.carry()
        if not story.ask("ph1", "open 1 100").entries:
            break
        story.ask("ph1", "tick")
    for node in ("sw1", *PARTIES):
        story.served.pop(node).end()


def files_of(story, node):
    """The files of a node's logs, the oldest first; the last is the one in which it goes on."""
    closed = sorted(story.folder.glob(f"{node}.log.[0-9]*"), key=lambda it: int(it.suffix[1:]))
    expect(len(closed) == NIGHTS, f"{node} has {len(closed)} closed logs")
    return [*closed, story.log(node)]


def before(files, day):
    """How many calls were made before a day."""
    return int(files[day - 1].suffix[1:]) if day else 0


def from_day(story, folder, node, day):
    """The log of a node in another folder, with the closed ones of that day and later."""
    for it in files_of(story, node)[day:]:
        shutil.copy(it, folder)
    return pathlib.Path(folder) / f"{node}.log"


def judged(story, logs, *words):
    return audited("--days", *words, story.settings, *logs)


def calls_in(lines):
    return sum(int(re.search(r" calls (\d+) torn 0$", line)[1]) for line in lines if re.search(r" torn \d+$", line))


def legal(story, logs, day, what):
    """What is wrong where logs from a day on are to be those of legal days."""
    status, said, complaint = judged(story, logs)
    lines = said.splitlines()
    calls = calls_in(lines)
    begun = [
        f"{KINDS[it[:2]]} {it[2:]} begins behind {before(files_of(story, it), day)} calls, as its rest says"
        for it in PARTIES
        if day
    ]
    is_so = (status, complaint) == (0, "") and lines[-1] == f"legal days of {calls} calls" and calls > 0
    if not is_so or [it for it in lines if "begins behind" in it] != begun:
        yield f"{what}: {status} {said}{complaint}"


def days():
    """What is wrong with the audits of a story of days."""
    with room() as place:
        tale = Story(place, "", Given("none", 0, NEVER))
        try:
            told(tale)
        finally:
            tale.end()
        for day in range(NIGHTS + 1):
            with room() as folder:
                alone = [shutil.copy(files_of(tale, it)[day], folder) for it in PARTIES]
                yield from legal(tale, alone, day, f"day {day} by itself")
            with room() as folder:
                logs = [from_day(tale, folder, it, day) for it in PARTIES]
                yield from legal(tale, logs, day, f"day {day} and those behind it")
                whole = [tale.log(it) for it in PARTIES]
                for table in TABLES:
                    if judged(tale, logs, "--csv", table) != judged(tale, whole, "--csv", table):
                        yield f"from day {day} on there are other {table}"
        yield from mixed(tale)


def mixed(tale):
    """What is wrong where logs begin with what different nights left."""
    for late, early, line in (
        ("ph1", "pr1", r"pharmacy 1 begins with an answer to \d+ that was not decided"),
        ("pr1", "ph1", r"payer 1 begins with a row of 1\.\d+ that its pharmacy does not have"),
    ):
        with room() as folder:
            logs = [from_day(tale, folder, late, 2), from_day(tale, folder, early, 1)]
            status, said, complaint = judged(tale, logs)
            lines = said.splitlines()
            at = lines.index("no legal days") if "no legal days" in lines else len(lines)
            why = lines[at + 1 :]
            if (status, complaint) != (1, "") or not why or not all(re.fullmatch(line, it) for it in why):
                yield f"{late} begins a night later than {early}: {status} {said}{complaint}"
