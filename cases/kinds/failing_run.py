"""Reads and writes of a run on threads that fail, each in turn, and an input that never ends."""
import os

from kinds.run import parts
from suite import faults
from suite.case import Case, Group, rows_apart
from suite.programs import Ran, text_of
from suite.rows import HERE, read_rows

PROGRAMS = ("claimswitch",)
PROGRAM = "claimswitch", "run"


def named(name: str) -> tuple[bytes, list[str]]:
    """The input of the run of a name, and what may be written of it."""
    return parts(os.path.join(HERE, "runs", f"{name}.run"))


def is_fault(ran: Ran, fault: str) -> bool:
    """Whether a run ended in a fault of this kind."""
    return (ran.status, ran.err) == (1, f"claimswitch: {fault} fault\n".encode())


def begins(outcomes: list[str], out: bytes) -> bool:
    """Whether an outcome begins with what was written."""
    return any(it.startswith(text_of(out)) for it in outcomes)


def each_read(name: str, size: str) -> str:
    """How many reads there are, of which each fails in turn: nothing is written then."""
    given, outcomes = named(name)
    step = len(given) if size == "all" else int(size)
    pieces = [given[at : at + step] for at in range(0, len(given), step)]
    for count in range(len(pieces) + 1):
        ran = faults.read_until(*PROGRAM, pieces=pieces[:count], fails=True)
        if not is_fault(ran, "read") or ran.out:
            return f"another outcome where read {count + 1} fails: {ran}"
    ran = faults.read_until(*PROGRAM, pieces=pieces, fails=False)
    return (
        str(len(pieces) + 1)
        if not ran.status and text_of(ran.out) in outcomes
        else f"another outcome where none fails: {ran}"
    )


def each_write(name: str, size: str) -> str:
    """Whether what is written is the beginning of an outcome where no more than so many bytes are taken, and a whole one where all are."""
    given, outcomes = named(name)
    longest = max(map(len, outcomes))
    step = longest if size == "all" else int(size)
    for most in range(0, longest + step, step):
        ran = faults.written_until(*PROGRAM, given=given, most=most)
        cut = is_fault(ran, "write") and len(ran.out) == most and begins(outcomes, ran.out)
        if not cut and (ran.status or text_of(ran.out) not in outcomes):
            return f"another outcome where {most} bytes are taken: {ran}"
    return "as told" if not ran.status else f"another outcome where all are taken: {ran}"


def write(name: str, most: str) -> str:
    """What a run comes to whose output takes so many bytes, and whether what was written begins an outcome."""
    given, outcomes = named(name)
    ran = faults.written_until(*PROGRAM, given=given, most=int(most))
    fault = "Program(Write)" if is_fault(ran, "write") else str(ran)
    return f'{fault} written={len(ran.out)} {"yes" if begins(outcomes, ran.out) else "no"}'


def never_ends() -> str:
    """What an input that never ends leads to: that it comes to an end is the `yes`."""
    ran = faults.endless(*PROGRAM)
    return f"Program(Read) yes written={len(ran.out)}" if is_fault(ran, "read") else str(ran)


WORDS = {"each-read-fails": each_read, "each-write-fails": each_write, "write-fails": write, "never-ends": never_ends}


def tell(word: str, argument: bytes) -> str:
    return WORDS[word](*argument.decode("ascii").split())


def groups(path: str, name: str, kind: type[Case]) -> list[Group]:
    return rows_apart(name, read_rows(path), tell, kind, weight=lambda word, argument: 200)
