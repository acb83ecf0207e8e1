"""What ./check knows of its last runs: which parts passed, and what they were made of then, as a sum. A part that passed, and of whose files none
has changed since, need not be tried again.

A part is made of its programs, byte for byte, and of all files of the repository but the sources of crates; some read these too. So a change
of a crate that leaves a program as it was leaves the parts as they were that try this program."""

from __future__ import annotations

import hashlib
import os
import pathlib

from check_parts import Part
from check_programs import TOP, programs

# What no part is made of.
LEFT_OUT = {".git", "out", "__pycache__"}
# What of a crate its programs are made of, or proofs are.
SOURCES = {"src", "specs", "proofs", "must-fail"}


def files(folder: pathlib.Path, left_out: set[str]) -> list[pathlib.Path]:
    """The files below a folder, but for those below folders of these names."""
    found = []
    for at, inside, names in os.walk(folder):
        inside[:] = sorted(set(inside) - left_out)
        found += [pathlib.Path(at, name) for name in sorted(names)]
    return found


def sum_of_files(paths: list[pathlib.Path]) -> str:
    """A sum of files, by their names, what they say and whether they can be run."""
    made_of = hashlib.sha256()
    for path in paths:
        if path.is_file():
            text = path.read_bytes()
            made_of.update(f"{path.relative_to(TOP)} {len(text)} {os.access(path, os.X_OK)}\n".encode() + text)
    return made_of.hexdigest()


class Kept:
    """The parts that passed, each with its sum, in a file that has a line for each."""

    def __init__(
        self, path: pathlib.Path, toolchain: pathlib.Path, is_proved: bool = False, is_all: bool = False
    ) -> None:
        """Of proved programs or others, with all kills and refusals or without."""
        self.path, self.toolchain, self.is_proved, self.is_all = path, toolchain, is_proved, is_all
        lines = path.read_text(encoding="ascii").splitlines() if path.is_file() else []
        self.passed = dict(line.split() for line in lines)
        self.of_all = sum_of_files(files(TOP, LEFT_OUT | SOURCES)) + (toolchain / "KIT-ID").read_text(encoding="utf-8")
        self.of_crates: dict[str, str] = {}
        for crate in sorted(it for it in (TOP / "crates").iterdir() if it.is_dir()):
            self.of_crates[crate.name] = sum_of_files(
                [it for it in files(crate, LEFT_OUT) if SOURCES.intersection(it.relative_to(TOP).parts)]
            )
        self.programs = programs()
        self.of_programs: dict[tuple[str, int, int], str] = {}

    def of_program(self, name: str) -> str:
        """The sum of a program as it stands."""
        path = self.programs[name].proved if self.is_proved else self.programs[name].path
        told = path.stat()
        known = (name, told.st_mtime_ns, told.st_size)
        if known not in self.of_programs:
            self.of_programs[known] = hashlib.sha256(path.read_bytes()).hexdigest()
        return self.of_programs[known]

    def sum_of(self, part: Part) -> str:
        """The sum of what a part is made of, once all of its programs are there."""
        made_of = [
            *part.words(self.is_proved, self.is_all),
            self.of_all,
            *(f"{name} {self.of_program(name)}" for name in part.needs),
        ]
        made_of += [f"{crate} {self.of_crates[crate]}" for crate in part.sources(self.of_crates)]
        return hashlib.sha256("\n".join(made_of).encode()).hexdigest()

    def has(self, part: Part) -> bool:
        """Whether a part passed as it is, where all of its programs are there."""
        return self.passed.get(part.name) == self.sum_of(part)

    def note(self, part: Part, made_of: str | None) -> None:
        """Notes how a part ended: one that passed by the sum of what it was made of when it began."""
        self.passed.pop(part.name, None)
        if made_of:
            self.passed[part.name] = made_of
        beside = self.path.with_suffix(".new")
        beside.write_text(
            "".join(f"{name} {made_of}\n" for name, made_of in sorted(self.passed.items())), encoding="ascii"
        )
        beside.replace(self.path)
