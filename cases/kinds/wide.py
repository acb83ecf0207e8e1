"""Wide settings, whose payers may ask, whose answers may carry what advices say and whose routes may be for some providers or lead to no payer, and
schedules in which packets are taken with an advice and terms change."""
import re

from kinds.limits import said
from suite.case import Case, Group, rows_apart
from suite.logs import ADVISED, advised, envelope, head_of, read_book, read_log, write_log
from suite.nodes import Served, room
from suite.printed import octets_of, printed
from suite.programs import Ran, run
from suite.rows import read_rows
from suite.worlds import Dump, Settings

PROGRAMS = ("claimswitch", "claimpicture", "claimnode", "claimaudit", "claimdump")
EXPLAINED = {"CLAIMSWITCH_EXPLAIN": "1"}
SETTINGS = """again = 1
tries = 1
{answers}[[pharmacy]]
qualifier = "01"
provider = "1234567893"
nodes = [1]
cap = 100
[[pharmacy]]
qualifier = "01"
provider = "9876543217"
nodes = [1]
cap = 100
[[switch]]
cap = 64
[[payer]]
{asks}fee = 150
copay = 1000
cap = 1000
[payer.prices]
00093721410 = 18567
[[payer]]
fee = 150
copay = 1000
cap = 1000
[payer.prices]
00093721410 = 10000
[[route]]
bin = "610455"
payer = 1
{routes}"""


def settings_of(text: str) -> bytes:
    """The settings with these parts: `asks VALUE`, what payer 1 asks for, `answers KEY = VALUE, ..`, the table of answers, `answers = VALUE`, another
    value in its place, and `route KEY = VALUE, ..`, a further route."""
    asks, answers, routes = "", "", ""
    for part in text.split("; ") if text else []:
        word, _, rest = part.partition(" ")
        if word == "asks":
            asks = f"asks = {rest}\n"
        elif word == "answers":
            answers = f"{part}\n" if rest.startswith("=") else "[answers]\n" + rest.replace(", ", "\n") + "\n"
        elif word == "route":
            routes += "[[route]]\n" + rest.replace(", ", "\n") + "\n"
        else:
            raise ValueError(f"no such part: {part}")
    return SETTINGS.format(asks=asks, answers=answers, routes=routes).encode("latin-1")


def day_of(text: str) -> bytes:
    """The input `SETTINGS | EVENT; EVENT; ..`."""
    parts, _, events = text.partition("| ")
    return (
        settings_of(parts.strip()) + b"---\n" + "".join(f"{event}\n" for event in events.split("; ")).encode("latin-1")
    )


class Logs:
    """What the nodes of a day have on disk, and what claimaudit says of it."""

    def __init__(self, folder: str, given: bytes):
        self.dump, self.nodes = Dump(folder, given), Settings(given.partition(b"---\n")[0]).nodes()

    def audit(self, *words: str) -> Ran:
        """What claimaudit says of all logs."""
        paths = [self.dump.path(f"{node}.log") for node in self.nodes]
        return run("claimaudit", *words, self.dump.path("settings.toml"), *paths)

    def octets(self) -> list[bytes]:
        return [self.dump.read(f"{node}.log") for node in self.nodes]


def verdict(logs: Logs) -> str:
    """The verdict and the totals of payers."""
    lines = logs.audit().told().splitlines()
    kept = [line for line in lines if " run" in line or re.match(r"payer \d+ rows", line) or ": " in line]
    return " | ".join(kept)


def legal(given: bytes) -> str:
    """A day's logs are one legal run, whose schedule has the day's events and leads to the same logs."""
    with room() as folder, room() as other:
        logs = Logs(folder, given)
        schedule = logs.audit("--schedule")
        if schedule.status:
            return schedule.told()
        same = Logs(other, schedule.out).octets() == logs.octets()
        return f"{verdict(logs)} | {'same' if same else 'other'} logs"


def tampered(given: bytes, old: bytes, new: bytes) -> str:
    """What is said where a text of each advice in the log of payer 1 is another."""
    with room() as folder:
        logs = Logs(folder, given)
        log = read_log(logs.dump.read("pr1.log"))
        calls = [advised(call, call.advice.replace(old, new)) if call.kind == ADVISED else call for call in log.calls]
        with open(logs.dump.path("pr1.log"), "wb") as file:
            file.write(write_log(log._replace(calls=tuple(calls))))
        return verdict(logs)


def held(given: bytes, node: str, number: int) -> str:
    """The answer to a number of pharmacy 1 that this pharmacy has after a day, or payer 1 where it is asked again: as the log leaves it, behind the log
    once that is closed, and in the payer's record."""
    with room() as folder:
        dump = Dump(folder, given)
        words = (dump.path("settings.toml"), node, dump.path(f"{node}.log"))
        rows = [row for row in read_book(dump.read("pr1.book")) if (row.pharmacy, row.number) == (1, number)]
        told = {f"answer {printed(row.answer)}" for row in rows if node == "pr1"}
        for _ in range(2):
            with Served(*words) as it:
                if node == "ph1":
                    told.add(it.ask(f"answer {number}").last)
                else:
                    again = [it.take("sw1", envelope(False, *row[:3])) for row in rows]
                    told |= {f"answer {printed(said.sent[0][1][18:])}" for said in again}
            if run("claimnode", "--turn", *words, given=b"").status:
                return "its log is not closed"
        return " and ".join(sorted(it.removeprefix("answer ") for it in told)) or "none"


def drawn(given: bytes, text: str) -> str:
    """How often a text stands in the picture of a day; or what claimpicture says of it."""
    ran = run("claimpicture", "all", given=given, env=EXPLAINED)
    return said(ran, "claimpicture") if ran.status else str(ran.out.decode("latin-1").count(text))


def heads(text: str) -> str:
    """Whether a log that begins has the digest of these settings, as it is written without the product."""
    with room() as folder:
        given = settings_of(text)
        return "ok" if Dump(folder, given + b"---\n").read("pr1.log") == head_of("pr1", given) else "another digest"


def csv_of(given: bytes, *words: str) -> str:
    """A table of a day, its lines parted by a bar."""
    with room() as folder:
        return " | ".join(Logs(folder, given).audit(*words).told().splitlines())


def calls_of(given: bytes) -> str:
    """The records of payer 1 as a table, their kinds and what they carry."""
    with room() as folder:
        dump = Dump(folder, given)
        told = run("claimaudit", "--calls", dump.path("settings.toml"), dump.path("pr1.log")).told().splitlines()[1:]
        return " | ".join(",".join(line.split(",")[4:]) for line in told)


def taken(program: str, text: str) -> str:
    """How a program takes settings: what it says of a node that begins, or of no events."""
    given = settings_of(text)
    with room() as folder:
        path = f"{folder}/settings.toml"
        with open(path, "wb") as file:
            file.write(given)
        if program == "claimnode":
            ran = run("claimnode", path, "pr1", f"{folder}/pr1.log")
            return ran.told().strip() if ran.status == 0 else said(ran, program)
        if program == "claimdump":
            ran = run("claimdump", folder, given=given + b"---\n")
        else:
            words = ["replay"] if program == "claimswitch" else []
            ran = run(program, *words, given=given + b"---\n", env=EXPLAINED)
        return said(ran, program)


def tell(word: str, argument: bytes) -> str:
    """What a row comes to."""
    text = printed(argument)
    if word == "taken":
        program, _, rest = argument.decode("latin-1").partition(" ")
        return taken(program, rest)
    if word == "digest":
        return heads(argument.decode("latin-1"))
    if word == "replayed":
        ran = run("claimswitch", "replay", given=day_of(text), env=EXPLAINED)
        return said(ran, "claimswitch") if ran.status else "ok"
    if word == "tampered":
        old, new, rest = text.split(" ", 2)
        return tampered(day_of(rest), octets_of(old), octets_of(new))
    if word == "held":
        node, number, rest = text.split(" ", 2)
        return held(day_of(rest), node, int(number))
    if word == "drawn":
        shown, _, rest = text.partition(" / ")
        return drawn(day_of(rest), shown)
    if word in ("table", "alone"):
        table, _, rest = text.partition(" ")
        return csv_of(day_of(rest), *(["--alone"] if word == "alone" else []), "--csv", table)
    return {"legal": legal, "calls": calls_of}[word](day_of(text))


def groups(path: str, name: str, kind: type[Case]) -> list[Group]:
    """Each row by itself."""
    return rows_apart(name, read_rows(path), tell, kind)
