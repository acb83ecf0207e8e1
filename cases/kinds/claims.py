"""Lines of requests: an input of `claimswitch read`, and what is written of it."""
from kinds.day import compared
from suite.case import Case, Group

PROGRAMS = ("claimswitch",)


def groups(path: str, name: str, kind: type[Case]) -> list[Group]:
    return [Group([kind(name, compared(path, "read"))])]
