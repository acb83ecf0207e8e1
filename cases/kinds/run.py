"""A run of nodes on threads: an input of `claimswitch run`, and what may be written of it. How the threads go decides which of its
outcomes, each behind a line `===`, comes."""
from suite.case import Case, Group
from suite.programs import run, text_of

PROGRAMS = ("claimswitch",)


def parts(path: str) -> tuple[bytes, list[str]]:
    """The input, and each outcome."""
    with open(path, "rb") as file:
        given, *outcomes = file.read().split(b"===\n")
    return given, list(map(text_of, outcomes))


def compared(path: str):
    """Compares what claimswitch writes of a file's input, and its complaint behind it, with the outcomes."""

    def body(case: Case) -> None:
        given, outcomes = parts(path)
        ran = run("claimswitch", "run", given=given)
        told = text_of(ran.out + ran.err)
        if told not in outcomes:
            case.compare(outcomes[0], told)
        case.assertEqual(1 if ran.err else 0, ran.status)

    return body


def groups(path: str, name: str, kind: type[Case]) -> list[Group]:
    return [Group([kind(name, compared(path))], weight=4)]
