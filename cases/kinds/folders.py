"""Folders of cases: how many of them come out as they tell, and the names of the others."""
import os

from kinds.day import told
from suite import days
from suite.case import Case, Group, rows_apart
from suite.rows import HERE, read_rows

PROGRAMS = ("claimswitch",)


def tell(word: str, argument: bytes) -> str:
    """Runs all cases of a folder under a word of claimswitch."""
    folder, others, count = f'{HERE}/{argument.decode("ascii")}', [], 0
    for name in sorted(os.listdir(folder)):
        given, wanted = days.parts(f"{folder}/{name}")
        if told(word, given) == wanted:
            count += 1
        else:
            others.append(name)
    return " ".join([*others, f"as-told={count}"])


def groups(path: str, name: str, kind: type[Case]) -> list[Group]:
    return rows_apart(name, read_rows(path), tell, kind, lambda *_: 100)
