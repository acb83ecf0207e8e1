"""The programs that ./check tries: which there are, and how each is compiled without proof and kept until a source of its crates changes.

A program stands as crates/NAME/out/unproved/NAME, where the scripts at the top start it too, and beside it what it was made of, as a sum."""

from __future__ import annotations

import hashlib
import os
import pathlib
import shutil
import subprocess
from collections.abc import Iterable
from dataclasses import dataclass

TOP = pathlib.Path(__file__).resolve().parent.parent
QUICK_BUILD = TOP / "tools" / "quick-build"
COMPILED_BY = (QUICK_BUILD, TOP / "tools" / "quick_modules.py")
# What a run of the compiler takes at most.
BYTES_OF_A_RUN = 3 << 30
# The programs that are compiled together, those first that most faults are seen by: what shows the rules, and what has logs.
FIRST = ("rows", "claimswitch", "claimpicture", "claimdecode")
SOURCES = "made-of"


@dataclass(frozen=True)
class Program:
    """A program, or the static library, of a crate."""

    crate: str
    file: str

    @property
    def path(self) -> pathlib.Path:
        """Where it is kept."""
        return TOP / "crates" / self.crate / "out" / "unproved" / self.file

    @property
    def proved(self) -> pathlib.Path:
        """Where `rt ci`, or for the library tools/static-library, leaves it proved."""
        return TOP / "crates" / self.crate / "out" / self.file


def uses() -> dict[str, list[str]]:
    """What each crate of the repository stands on, as crates.txt has it."""
    lines = (line.split("#")[0] for line in (TOP / "crates.txt").read_text(encoding="utf-8").splitlines())
    return {line.split(":")[0].split()[0]: line.split(":")[1].split() for line in lines if ":" in line}


def programs() -> dict[str, Program]:
    """The programs by the names that parts need them under."""
    found = {}
    for crate in uses():
        if (TOP / "crates" / crate / "src" / "main.rt").is_file():
            found[crate] = Program(crate, crate)
        elif crate == "vogrilas_c":
            found["library"] = Program(crate, f"lib{crate}.a")
    return found


def below(crate: str) -> set[str]:
    """A crate with all crates of the repository that it stands on."""
    all_uses, seen, left = uses(), set(), [crate]
    while left:
        one = left.pop()
        if one in all_uses and one not in seen:
            seen.add(one)
            left += all_uses[one]
    return seen


def kit() -> pathlib.Path:
    """The folder of the toolchain."""
    return pathlib.Path(subprocess.check_output(["rt", "doc"], text=True).strip()).parent


def sum_of(program: Program, toolchain: pathlib.Path) -> str:
    """A sum of all that a program is made of: sources, what stands on what, and what compiles it. Contracts are among the sources,
    definitions and proofs are not read."""
    made_of = hashlib.sha256()
    all_uses = uses()
    for crate in sorted(below(program.crate)):
        made_of.update(f"{crate}: {all_uses[crate]}\n".encode())
        for path in sorted((TOP / "crates" / crate / "src").rglob("*.rt")):
            text = path.read_bytes()
            made_of.update(f"{path.relative_to(TOP)} {len(text)}\n".encode() + text)
    made_of.update(b"".join(it.read_bytes() for it in (*COMPILED_BY, toolchain / "KIT-ID")))
    return made_of.hexdigest()


def is_kept(program: Program, toolchain: pathlib.Path) -> bool:
    """Whether what is kept is made of today's sources. If so, it is younger than they from now on, as the scripts at the top ask."""
    made_of = program.path.with_name(SOURCES)
    if (
        not program.path.is_file()
        or not made_of.is_file()
        or made_of.read_text(encoding="ascii") != sum_of(program, toolchain)
    ):
        return False
    os.utime(program.path)
    return True


def is_proved(program: Program) -> bool:
    """Whether a proved program stands there, and no source of its crates is younger."""
    if not program.proved.is_file():
        return False
    made = program.proved.stat().st_mtime_ns
    folders = [TOP / "crates" / crate / part for crate in below(program.crate) for part in ("src", "specs", "proofs")]
    return not any(path.stat().st_mtime_ns > made for folder in folders for path in folder.rglob("*"))


def compile_words(made: list[Program]) -> list[str]:
    """The command that compiles these together."""
    for program in made:
        program.path.parent.mkdir(parents=True, exist_ok=True)
    return [str(QUICK_BUILD), *(word for program in made for word in (program.crate, str(program.path)))]


def groups(lacking: Iterable[str], there: Iterable[str] | None = None) -> list[list[str]]:
    """What is compiled together of what lacks. Programs share most of what they are made of, so that a few take little more than one. Of programs
    that are named besides, all of a group are compiled where one lacks: so they are cut into the parts that they were cut into before.
    """
    names = sorted(lacking if there is None else there)
    both = [name for name in FIRST if name in names], [name for name in names if name not in FIRST]
    return [it for it in both if set(it).intersection(lacking)]


def note_made(program: Program, made_of: str) -> None:
    """Notes what a program that was just compiled is made of: the sum from before it was compiled."""
    program.path.with_name(SOURCES).write_text(made_of, encoding="ascii")


def library_words() -> list[str]:
    """The command that makes the static library of proved crates."""
    return [str(TOP / "tools" / "static-library")]


def gather(folder: pathlib.Path, wanted: dict[str, Program]) -> None:
    """Makes the folder in which each program stands under its own name, for VOGRILAS_PROGRAMS."""
    shutil.rmtree(folder, ignore_errors=True)
    folder.mkdir(parents=True)
    for program in wanted.values():
        (folder / program.file).symlink_to(program.path)


def compilers(processors: int) -> int:
    """How many programs are compiled at once: no more than memory allows."""
    with open("/proc/meminfo", encoding="ascii") as file:
        free = next(int(line.split()[1]) << 10 for line in file if line.startswith("MemAvailable:"))
    return max(1, min(processors, free // BYTES_OF_A_RUN))
