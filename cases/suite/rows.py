"""Files of rows: one call a line and what it comes to, `WORD ARGUMENT -> OUTCOME` (tests/CASES.md has the form)."""
import functools
import glob
import os
import re
from typing import NamedTuple

from suite.printed import octets_of

HERE = os.path.dirname(os.path.dirname(os.path.abspath(__file__)))
MOST_REPEATS = 1_000_000


class Row(NamedTuple):
    """A row: where it stands, its word, its argument as octets, and the outcome as it has to be told."""

    line: int
    number: int
    word: str
    argument: bytes
    outcome: str
    spelled: str

    def text(self) -> str:
        """The argument as a text that has a character for each octet."""
        return self.argument.decode("latin-1")


def filled(texts: dict[str, str], text: str) -> str:
    """A text with each name in angle brackets filled in."""

    def one(found: re.Match) -> str:
        part, star, count = found[1].rpartition("*")
        if star:
            if int(count) > MOST_REPEATS:
                raise ValueError(f"so many repeats: {found[0]}")
            return part * int(count)
        if found[1] not in texts:
            raise ValueError(f"no text has the name {found[0]}")
        return texts[found[1]]

    if "<" in re.sub("<[^>]*>", "", text):
        raise ValueError(f"a name without an end: {text!r}")
    return re.sub("<([^>]*)>", one, text)


def lines_of(path: str) -> list[str]:
    """The lines of a file."""
    with open(path, encoding="latin-1", newline="\n") as file:
        return file.read().split("\n")


def take(texts: dict[str, str], line: str) -> None:
    """Takes the line `NAME = TEXT`."""
    name, _, text = line.partition(" = ")
    texts[name] = filled(texts, text)


def is_remark(line: str) -> bool:
    return not line or line.startswith("#")


# Texts that the rows of the crate have too, by folder.
KEPT = os.path.join(os.path.dirname(HERE), "crates", "rows", "data")
KEPT_FOR = {"messages": ("claims", "messages"), "node": ("claims", "messages"), "settings": ("claims",)}


@functools.cache
def shared_texts(folder: str) -> dict[str, str]:
    """The texts by name of all folders, and of this one."""
    texts: dict[str, str] = {}
    kept = [f"{KEPT}/{name}.texts" for name in KEPT_FOR.get(os.path.basename(folder), ())]
    for path in sorted(glob.glob(f"{HERE}/*.texts")) + kept + sorted(glob.glob(f"{folder}/*.texts")):
        for line in lines_of(path):
            if not is_remark(line):
                take(texts, line)
    return texts


def read_row(texts: dict[str, str], line: int, number: int, text: str) -> Row:
    """The row of a line."""
    call, arrow, outcome = text.partition(" -> ")
    if not arrow:
        call, arrow = text.removesuffix(" ->"), text.endswith(" ->")
    if not arrow:
        raise ValueError(f"line {line} is no row: {text!r}")
    word, _, argument = call.partition(" ")
    return Row(line, number, word, octets_of(filled(texts, argument)), filled(texts, outcome), call)


def read_rows(path: str) -> list[Row]:
    """The rows of a file."""
    texts, rows = dict(shared_texts(os.path.dirname(path))), []
    for at, line in enumerate(lines_of(path), 1):
        if is_remark(line):
            continue
        if line.startswith("let "):
            take(texts, line[4:])
        else:
            rows.append(read_row(texts, at, len(rows) + 1, line))
    if not rows:
        raise ValueError(f"{path} has no row")
    return rows
