"""Faults that are planted together, for trials/plant: each function that faults change asks which is planted, and has a body for each. So one run of
the compiler does for all of them, and programs are told by the variable VOGRILAS_PLANTED which they have.

A fault that changes something else than the bodies of functions cannot be planted so."""

from __future__ import annotations

import os
import pathlib
import re
import subprocess

from quick_modules import ANYWHERE

FUNCTION = re.compile(r"^( *)(?:pub(?:\([a-z]+\))? )?(?:const |unsafe )*fn \w+", re.MULTILINE)
VARIABLE = "VOGRILAS_PLANTED"
ASKED = """
/// Which fault is planted: none.
pub fn planted() -> u64 {
    0
}
"""
# What is compiled in the place of that function.
ANSWER = f"""@variable = private unnamed_addr constant [{len(VARIABLE) + 1} x i8] c"{VARIABLE}\\00"

declare ptr @getenv(ptr)

declare i64 @atol(ptr)

define hidden i64 @"octets::planted"() {{
  %text = call ptr @getenv(ptr @variable)
  %is_none = icmp eq ptr %text, null
  br i1 %is_none, label %none, label %some

none:
  ret i64 0

some:
  %number = call i64 @atol(ptr %text)
  ret i64 %number
}}
"""


class Alone(ValueError):
    """A fault that has to be planted alone."""


def body_at(text: str, place: int) -> tuple[int, int, str]:
    """Where the body of the function begins and ends that a place of a file is in, as `rt fmt` lays it out, and how far it is set in."""
    heads = [it for it in FUNCTION.finditer(text) if it.start() <= place]
    if not heads:
        raise Alone("it changes no function")
    head = heads[-1]
    opened = re.compile(
        rf"^(?:{head[1]}\{{|{head[1]}(?:\)|(?:pub(?:\([a-z]+\))? )?(?:const |unsafe )*fn ).* \{{)\n", re.MULTILINE
    ).search(text, head.start())
    begin = opened.end() if opened else len(text)
    end = text.find(f"\n{head[1]}}}\n", begin - 1) + 1
    if not begin <= place < end:
        raise Alone("it changes no body of a function")
    return begin, end, head[1]


class Source:
    """A file with the faults that change it."""

    def __init__(self, text: str) -> None:
        self.text, self.bodies = text, {}

    def plant(self, number: int, pairs: dict[str, str]) -> None:
        """Plants a fault, by what stands in the place of what, under a number."""
        found: dict[tuple[int, int, str], dict[str, str]] = {}
        for old, new in pairs.items():
            if self.text.count(old) != 1:
                raise Alone(f"{old!r} stands {self.text.count(old)} times")
            if new.replace("mut ", "") == old:
                continue
            found.setdefault(body_at(self.text, self.text.index(old)), {})[old] = new
        for old, new in pairs.items():
            # A parameter may be changed where none is.
            if new.replace("mut ", "") == old:
                raise Alone("it changes a parameter")
        for body, given in found.items():
            changed = re.sub(
                "|".join(map(re.escape, given)), lambda it, given=given: given[it[0]], self.text[body[0] : body[1]]
            )
            self.bodies.setdefault(body, []).append((number, changed))

    def made(self) -> str:
        """The file with all of its faults."""
        text = self.text
        for (begin, end, inset), changed in sorted(self.bodies.items(), reverse=True):
            arms = "".join(
                f"if octets::planted() == {number} {{\n{body}{inset}    }} else " for number, body in changed
            )
            text = f"{text[:begin]}{inset}    {arms}{{\n{text[begin:end]}{inset}    }}\n{text[end:]}"
        return text


def name_octets(room: pathlib.Path, crates: set[str]) -> None:
    """Has these crates of a copy name the crate in which it stands what is planted."""
    lines = (room / "crates.txt").read_text(encoding="utf-8").splitlines()
    for place, line in enumerate(lines):
        head, colon, uses = line.partition(":")
        if colon and head.split()[0] in crates and "octets" not in uses.split():
            lines[place] = f"{head}: octets{uses}"
    (room / "crates.txt").write_text("\n".join(lines) + "\n", encoding="utf-8")
    root = room / "crates" / "octets" / "src" / "lib.rt"
    root.write_text(root.read_text(encoding="utf-8") + ASKED, encoding="utf-8")


def compile_all(room: pathlib.Path, names: dict[str, str], folder: pathlib.Path) -> str | None:
    """Compiles programs of a copy, by their files and crates, to a folder; or says what the compiler has against them."""
    answer = room / "planted.ll"
    answer.write_text(ANSWER + "".join(ANYWHERE), encoding="ascii")
    words = [str(room / "tools" / "quick-build"), "--instead", "octets::planted", str(answer)]
    for file, crate in names.items():
        words += [crate, str(folder / file)]
    ran = subprocess.run(
        words, stdout=subprocess.PIPE, stderr=subprocess.STDOUT, text=True, errors="replace", check=False
    )
    return ran.stdout if ran.returncode else None


def environment(number: int) -> dict[str, str]:
    """What tells programs that a fault is planted."""
    return {**os.environ, VARIABLE: str(number)}
