"""A day: an input of `claimswitch replay`, and what is written of it."""
from suite import days
from suite.case import Case, Group
from suite.programs import run

PROGRAMS = ("claimswitch",)


def told(word: str, given: bytes) -> str:
    """What claimswitch makes of an input."""
    return run("claimswitch", word, given=given).told()


def compared(path: str, word: str):
    """Compares what claimswitch makes of a file's input with what stands behind it."""

    def body(case: Case) -> None:
        given, wanted = days.parts(path)
        case.compare(wanted, told(word, given))

    return body


def groups(path: str, name: str, kind: type[Case]) -> list[Group]:
    return [Group([kind(name, compared(path, "replay"))])]
