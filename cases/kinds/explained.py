"""What claimswitch tells on standard error of an input that it refuses, the words of its command line, and how it ends."""
import re

from suite import days, faults
from suite.case import Case, Group, rows_apart
from suite.programs import Ran, run
from suite.rows import read_rows

PROGRAMS = ("claimswitch",)
EXPLAIN = {"CLAIMSWITCH_EXPLAIN": "1"}
NAMES = {"settings refused": "Settings", "read fault": "Read", "write fault": "Write", "out of memory": "OutOfMemory"}


def complaint(ran: Ran) -> list[str]:
    """The lines of standard error, without the program's name."""
    lines = ran.err.decode("latin-1").splitlines()
    if not lines or not all(line.startswith("claimswitch: ") for line in lines):
        raise AssertionError(f"standard error has {lines}")
    return [line.removeprefix("claimswitch: ") for line in lines]


def why(ran: Ran) -> str:
    """The fault that is told, and what is explained of it."""
    first, *more = complaint(ran)
    line = re.fullmatch(r"line (\d+) refused", first)
    return " ".join([f"Line({line[1]})" if line else NAMES[first], *(more or ["nothing"])])


def refused(word: str, given: bytes) -> str:
    """How an input is refused, and what is explained of that."""
    ran = run("claimswitch", word, given=given, env=EXPLAIN)
    return f'written={len(ran.out)} {why(ran) if ran.status else "ok"}'


def refused_line(argument: bytes) -> str:
    """How a schedule of `run` is refused at a line, behind settings that are none of its faults."""
    number, _, schedule = argument.partition(b" ")
    ran = run("claimswitch", "run", given=days.settings(days.named("nothing")) + schedule, env=EXPLAIN)
    told = why(ran)
    if ran.out or not told.startswith(f"Line({number.decode()}) "):
        raise AssertionError(f"refused otherwise, or written before: {told}, {ran.out!r}")
    return told


def faulty(name: str, env: dict[str, str] | None = None) -> Ran:
    """A run that ends in the fault of this name."""
    if name == "OutOfMemory":
        return faults.no_memory(env)
    if name == "Read":
        return faults.no_reading("claimswitch", "read", env=env)
    if name == "Write":
        return faults.no_writing("claimswitch", "read", given=b"1 x\n", env=env)
    if name == "Settings":
        return run("claimswitch", "replay", env=env)
    if name == "Usage":
        return run("claimswitch", env=env)
    return run("claimswitch", "read", given=b"1 x\n" * (int(name.removeprefix("Line ")) - 1) + b"x\n", env=env)


def word_of(line: str) -> str:
    """Which word a command line names, by what the program makes of an input that each of the three takes otherwise."""
    _, *words = line.split(" ")
    ran = run("claimswitch", *words, given=days.settings(days.named("nothing")) + b"---\ntick ph1\n")
    if ran.status == 2 and complaint(ran) == ["usage: claimswitch read|replay|run"] and not ran.out:
        return "Usage"
    if ran.status == 1 and complaint(ran) == ["line 2 refused"] and not ran.out:
        return "Read"
    return {b"1 ok": "Replay", b"ok": "Run"}[ran.out.split(b"\n")[0]]


def stop(name: str) -> str:
    """The status for a cause, and the line of standard error."""
    ran = faulty(name)
    return f'{ran.status} {" ".join(complaint(ran))}'


def tell(word: str, argument: bytes) -> str:
    text = argument.decode("latin-1")
    if word in ("read", "replay"):
        return refused(word, argument)
    if word == "run":
        return refused_line(argument)
    if word == "unkept":
        return "yes" if complaint(run("claimswitch", "read", given=argument)) == ["line 1 refused"] else "no"
    return {"other": lambda it: why(faulty(it, EXPLAIN)), "words": word_of, "stop": stop}[word](text)


def groups(path: str, name: str, kind: type[Case]) -> list[Group]:
    return rows_apart(name, read_rows(path), tell, kind)
