"""The parts of ./check, as the list tools/parts has them, and the stored runs of the programs (their files stdin, args, status, stdout and
data/, as `rt ci` reads them)."""

from __future__ import annotations

import re
from collections.abc import Iterable
from dataclasses import dataclass, replace

from check_programs import TOP, below, programs
from check_wants import WANTS

LIST = TOP / "tools" / "parts"
# What several words of the list stand for: programs, and what is wanted of the machine.
PROGRAMS = {
    "products": "claimswitch claimpicture claimdecode claimnode claimaudit claimdump claimgrow",
    "node": "claimnode claimaudit",
    "front": "claimaudit claimdecode claimpicture claimswitch",
}
WANTED = {
    "server": "nats-server openssl",
    "host": "nats-server openssl cc libnats libcurl libsodium",
    "front": "nats-server openssl cc libnats libcurl libsodium aiohttp curl",
}
PRODUCTS = PROGRAMS["products"].split()
FIELDS = 6
HOW = re.compile(r"(waits|spreads)|again=(\d)|reads=(\S+)")


@dataclass(frozen=True)
class Part:
    """One thing to try."""

    name: str
    # What it shows, in one line.
    shows: str
    # The command, from the top, with what is left out of it at times; none: the stored run of the program of that name.
    command: str = ""
    # The programs without which it says nothing, and what it wants of the machine.
    needs: tuple[str, ...] = ()
    wants: tuple[str, ...] = ()
    # Whether it mostly waits: then it runs beside what computes.
    waits: bool = False
    # Whether it computes in as many processes as there are processors: then few run beside it.
    spreads: bool = False
    # How often it may be tried again where it failed.
    tries_again: int = 0
    # The crates whose sources, specifications or proofs it reads, with those that they stand on; all: `*`, none: `-`.
    reads: tuple[str, ...] = ()
    # Which of its tests run, where some were named.
    tests: tuple[str, ...] = ()

    @property
    def is_stored(self) -> bool:
        """Whether it is the stored run of a program."""
        return not self.command

    @property
    def script(self) -> str:
        """The script that it runs."""
        return self.command.split(" ")[0]

    def words(self, is_proved: bool, is_all: bool) -> list[str]:
        """The words of its command, of proved programs or not, with all kills and refusals or not."""
        left = re.sub(r"\[.*?\]", "", self.command) if is_all else self.command
        left = re.sub(r"\{.*?\}", "", left) if is_proved else left
        return [*re.sub(r"[][{}]", "", left).split(), *self.tests]

    def sources(self, crates: Iterable[str]) -> list[str]:
        """Those of some crates whose sources, specifications or proofs it reads."""
        if "*" in self.reads or not (self.needs or self.reads):
            return sorted(crates)
        return sorted({it for crate in self.reads for it in below(crate)}.intersection(crates))


def read(line: str) -> Part:
    """The part of a line of the list."""
    fields = [field.strip() for field in line.split("|")]
    if not 3 <= len(fields) <= FIELDS or not all(fields[:3]):
        raise ValueError(f"{LIST.name}: a part is `name | shows | command | programs | wants | how`: {line}")
    name, shows, command, needs, wants, how = [*fields, *[""] * (FIELDS - len(fields))]
    told = [HOW.fullmatch(word) for word in how.split()]
    if not all(told):
        raise ValueError(f"{LIST.name}: {name}: a part waits, spreads, or has again=N or reads=CRATE,..: {how}")
    said = {it[1] for it in told if it}
    again = [int(it[2]) for it in told if it and it[2]]
    return Part(
        name,
        shows,
        command,
        tuple(spelt(needs, PROGRAMS)),
        tuple(spelt(wants, WANTED)),
        waits="waits" in said,
        spreads="spreads" in said,
        tries_again=max([*again, "waits" in said]),
        reads=tuple(crate for it in told if it and it[3] for crate in it[3].split(",")),
    )


def spelt(text: str, several: dict[str, str]) -> list[str]:
    """Words, with each that stands for several spelt out; none twice."""
    return list(dict.fromkeys(one for word in text.split() for one in several.get(word, word).split()))


def listed() -> list[Part]:
    """The parts of the list."""
    lines = LIST.read_text(encoding="utf-8").splitlines()
    found = [read(line) for line in lines if line.strip() and not line.startswith("#")]
    there = programs()
    for part in found:
        lacking = [it for it in part.needs if it not in there] + [it for it in part.wants if it not in WANTS]
        if lacking:
            raise ValueError(
                f"{LIST.name}: {part.name}: {lacking[0]} is neither a program nor anything that is looked for"
            )
        if not (TOP / part.script).is_file():
            raise ValueError(f"{LIST.name}: {part.name}: there is no {part.script}")
    return found


def parts() -> list[Part]:
    """All parts: the stored runs of programs that are tests, the list, and the stored runs of the others."""
    names = [name for name in programs() if name != "library"]
    stored = [Part(name, "it prints what is stored beside its sources", needs=(name,)) for name in names]
    tests, products = ([it for it in stored if (it.name in PRODUCTS) == is_one] for is_one in (False, True))
    return [*tests, *listed(), *products]


def chosen(words: list[str]) -> list[Part]:
    """The parts of these names, or scripts; all where none is named. Words behind a part that name tests of it go to it: `front FrontTest`,
    `front FrontTest.test_same_key`. A word that names nothing is told as a fault."""
    found = parts()
    if not words:
        return found
    wanted: dict[str, Part] = {}
    last: list[Part] = []
    for word in words:
        named = [part for part in found if names(part, word)]
        if not named and last and "Test" in word:
            wanted |= {part.name: replace(wanted[part.name], tests=(*wanted[part.name].tests, word)) for part in last}
            continue
        if not named:
            raise ValueError(f"there is no part {word}; --list tells which there are")
        wanted |= {part.name: part for part in named if part.name not in wanted}
        last = named
    return [wanted[part.name] for part in found if part.name in wanted]


def names(part: Part, word: str) -> bool:
    """Whether a word is a part's name, or its script."""
    return word == part.name or bool(part.command) and word.removeprefix("./") in (part.script, part.command)
