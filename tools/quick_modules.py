"""Modules of LLVM's text, for tools/quick-build: what the compiler hands over is cut into parts that are compiled beside each other.

A module's functions go to the parts by who reaches them: the programs, the library or both. So the programs are linked with all parts but the
library's own, and the library's archive has no part that programs alone reach. Among these they go by their names, so that a change of one
crate leaves the parts of others as they were. What a part names and does not have is declared in it; small functions that it calls are there as
copies besides, which calls may become and nobody links. A function that was known to one module alone is known to all parts then, and hidden
from whoever is linked with them.

The object of a part is kept under a sum of all that it is made of: its text, how it is compiled, and the compiler. So one that is kept is never
another than the one that would be made."""

from __future__ import annotations

import concurrent.futures
import hashlib
import itertools
import os
import pathlib
import re
import shutil
import subprocess
import zlib
from collections.abc import Callable, Iterable, Iterator
from dataclasses import dataclass, field

TARGET = "x86_64-unknown-linux-gnu"
# What is done to functions before they are made code of, quickly: most of what -O1 gains in a third of its time.
PASSES = (
    "cgscc(inline,function(sroa,early-cse<memssa>,instcombine<no-verify-fixpoint>,simplifycfg)),elim-avail-extern,globaldce,"
    "function(memcpyopt,sroa,early-cse<memssa>,dse,instcombine<no-verify-fixpoint>,simplifycfg)"
)
# That code does not hang on its place.
ANYWHERE = (
    "!llvm.module.flags = !{!1000000, !1000001}\n",
    '!1000000 = !{i32 8, !"PIC Level", i32 2}\n',
    '!1000001 = !{i32 7, !"PIE Level", i32 2}\n',
)
# Calls that `rt try` puts into a module: tests, and marks for its own runs.
TESTS = re.compile(r'  call void (@"rattle-(llvm-checks|try)::|@llvm\.memset.*, i8 -86, )')
NAME = re.compile(r'@(?:"[^"]*"|[-\w.$]+)')
CRATE = re.compile(r'@"?([^":]*)')
# Constants have numbers for names, in the order in which the compiler comes upon them: each change of a program moves them.
NUMBERED = re.compile(r"@static\.\d+")
# Of more text than this no part is made, and a crate of less than the least has none of its own. A function of less text is copied to its callers.
MOST_OF_A_PART = 2_000_000
LEAST_OF_A_PART = 300_000
PARTS_OF_SMALL_CRATES = 8
MOST_OF_A_COPY = 1_600
# So many objects are kept: those that were used last.
MOST_OBJECTS = 1_000
# Words of a definition that a declaration does not have.
OF_DEFINITIONS = re.compile(
    r'( personality ptr .*?| comdat(\([^)]*\))?| section "[^"]*"| align \d+| ![\w.]+ !\d+)*( \{)?$'
)
LINKAGE = re.compile(
    r"^define (?:(?:internal|private|hidden|linkonce_odr|weak_odr|linkonce|weak|dso_local|available_externally) )*"
)
KINDS_OF_GLOBALS = re.compile(r"= (?:[\w()]+ )*?(constant|global) ")
LOCAL = re.compile(r"= (internal|private) ")
BRACKET = re.compile(r'"[^"]*"|[]{}[<>()]')
SIMPLE_TYPE = re.compile(r'%"[^"]*"|%[-\w.$]+|\w+')


def first_of(pattern: re.Pattern[str], text: str, at: int = 0) -> re.Match[str]:
    """Where a pattern stands first in a text, behind a place; it has to."""
    found = pattern.search(text, at)
    if found is None:
        raise ValueError(f"without {pattern.pattern}: {text[:200]}")
    return found


@dataclass
class Module:
    """A module, by what its lines are."""

    head: list[str] = field(default_factory=list)
    tail: list[str] = field(default_factory=list)
    globals: dict[str, str] = field(default_factory=dict)
    functions: dict[str, str] = field(default_factory=dict)
    declared: dict[str, str] = field(default_factory=dict)
    names: dict[str, list[str]] = field(default_factory=dict)

    def named_in(self, name: str) -> list[str]:
        """What a function or a global names."""
        if name not in self.names:
            self.names[name] = list(
                dict.fromkeys(NAME.findall(self.functions.get(name) or self.globals.get(name) or ""))
            )
        return self.names[name]

    def reached(self, roots: list[str]) -> set[str]:
        """What these reach, with themselves."""
        seen: set[str] = set()
        left = list(roots)
        while left:
            name = left.pop()
            if name not in seen:
                seen.add(name)
                left += self.named_in(name)
        return seen


def without_tests(line: str) -> str:
    """A line of the module's text as it is compiled."""
    if TESTS.match(line):
        return ""
    if line.startswith("attributes ") and "sanitize_address" in line:
        return line.split("=")[0] + "= { nounwind }\n"
    return line


def by_content(lines: dict[str, str]) -> dict[str, str]:
    """Names for numbered constants that tell what is in them: those of one content have one name where their address is nothing to anybody, else
    one each. A constant may name itself."""
    names: dict[str, str] = {}
    counts: dict[str, int] = {}

    def name_of(found: re.Match[str]) -> str:
        old = found[0]
        if old not in names and old in lines:
            names[old] = "@itself"
            content = NUMBERED.sub(name_of, lines[old].split(" = ", 1)[1])
            key = hashlib.sha256(content.encode()).hexdigest()[:24]
            place = counts[key] = counts.get(key, -1) + 1
            names[old] = f"@shared.{key}" if is_copied(lines[old]) else f"@own.{key}.{place}"
        return names.get(old, old)

    for line in lines.values():
        NUMBERED.sub(name_of, line)
    return names


def with_contents(lines: Iterator[str]) -> Iterator[str]:
    """Lines of a module's text with its constants named by what is in them: they stand before the first function."""
    head = []
    for line in lines:
        head.append(line)
        if line.startswith("define "):
            break
    names = by_content({it[0]: line for line in head if (it := NUMBERED.match(line))})
    for line in itertools.chain(head, lines):
        yield NUMBERED.sub(lambda it: names.get(it[0], it[0]), line) if "@static." in line else line


def read(lines: Iterator[str], change: Callable[[str], str]) -> Module:
    """The module of lines of text, each of which is changed."""
    module = Module()
    block: list[str] = []
    for line in map(change, map(without_tests, with_contents(lines))):
        if block or line.startswith("define "):
            block.append(line)
            if line.startswith("}"):
                module.functions[first_of(NAME, block[0])[0]] = "".join(block)
                block = []
        elif line.startswith("@"):
            module.globals[first_of(NAME, line)[0]] = line
        elif line.startswith("declare "):
            module.declared[first_of(NAME, line)[0]] = line
        elif line.startswith(("attributes ", "!")):
            module.tail.append(line)
        elif line.strip() and not line.startswith(";"):
            module.head.append(line)
    return module


def declaration(function: str) -> str:
    """The declaration of a function that is defined elsewhere."""
    head = LINKAGE.sub("declare hidden ", function.split("\n", 1)[0])
    return OF_DEFINITIONS.sub("", head) + "\n"


def type_end(text: str, at: int) -> int:
    """Where the type ends that begins at a place of a line."""
    if text[at] not in "{[<(":
        return first_of(SIMPLE_TYPE, text, at).end()
    depth = 0
    for found in BRACKET.finditer(text, at):
        depth += (found[0] in "{[<(") - (found[0] in "}]>)")
        if depth == 0:
            return found.end()
    raise ValueError(f"a type without an end: {text}")


def elsewhere(line: str) -> str:
    """The declaration of a global that is defined elsewhere."""
    found = first_of(KINDS_OF_GLOBALS, line)
    return f"{first_of(NAME, line)[0]} = external hidden {found[1]} {line[found.end():type_end(line, found.end())]}\n"


def is_copied(line: str) -> bool:
    """Whether each part that names a global has one of its own: a constant whose address is nothing to anybody."""
    return bool(LOCAL.search(line)) and " unnamed_addr " in line and first_of(KINDS_OF_GLOBALS, line)[1] == "constant"


class Parts:
    """The parts of a module that are made, each of some functions."""

    def __init__(self, module: Module, exports: set[str], uncopied: set[str]) -> None:
        # What stands elsewhere than here, perhaps, is not copied.
        self.module, self.exports, self.uncopied = module, exports, exports | uncopied
        # The part that has a global that no other has, and the parts that name something.
        self.home: dict[str, int] = {}
        self.users: dict[str, set[int]] = {}

    def settle(self, groups: list[list[str]]) -> None:
        """Gives each global that is not copied to the first part that names it, and notes which parts name what."""
        for place, names in enumerate(groups):
            there = [*names, *self.copies(names)]
            all_globals = sorted(self.with_globals(there))
            for name in all_globals:
                self.home.setdefault(name, place)
            for it in (it for name in (*there, *all_globals) for it in self.module.named_in(name) if it != name):
                self.users.setdefault(it, set()).add(place)

    def copies(self, names: list[str]) -> list[str]:
        """The small functions elsewhere that these name, and that those name: what a call may become."""
        functions, seen, left = self.module.functions, set(names), list(names)
        found = []
        while left:
            for name in self.module.named_in(left.pop()):
                if (
                    name not in seen
                    and name not in self.uncopied
                    and len(functions.get(name, "")) in range(1, MOST_OF_A_COPY)
                ):
                    seen.add(name)
                    found.append(name)
                    left.append(name)
        return sorted(found)

    def with_globals(self, names: list[str]) -> set[str]:
        """The globals that functions name, and those that these name."""
        seen, left = set(), [it for name in names for it in self.module.named_in(name)]
        while left:
            name = left.pop()
            if name in self.module.globals and name not in seen:
                seen.add(name)
                left += self.module.named_in(name)
        return seen

    def body(self, name: str, place: int) -> str:
        """The definition of a function, which others know where they name it; an export is known to everybody."""
        function = self.module.functions[name]
        if name not in self.exports and self.users.get(name, set()) <= {place}:
            return function
        return LINKAGE.sub("define " if name in self.exports else "define hidden ", function, count=1)

    def text(self, place: int, names: list[str]) -> str:
        """The text of a part."""
        module, lines, copies = self.module, [], self.copies(names)
        there = [*names, *copies]
        all_globals = self.with_globals(there)
        for name in sorted(all_globals):
            line = module.globals[name]
            if is_copied(line):
                lines.append(line)
            elif self.home[name] == place:
                lines.append(LOCAL.sub("= hidden ", line, count=1))
            else:
                lines.append(elsewhere(line))
        bodies = [self.body(name, place) for name in names]
        bodies += [
            LINKAGE.sub("define available_externally hidden ", module.functions[name], count=1) for name in copies
        ]
        used = {it for name in (*there, *all_globals) for it in module.named_in(name)} - set(there)
        for name in sorted(used - all_globals):
            lines.append(
                declaration(module.functions[name]) if name in module.functions else module.declared.get(name, "")
            )
        return "".join((*module.head, *lines, *bodies, *module.tail, *ANYWHERE))


def cut(module: Module, names: list[str]) -> list[list[str]]:
    """Functions in parts that hang on their names: those of a crate, as many parts as their text wants, or those of some small crates."""
    crates: dict[str, list[str]] = {}
    parts: dict[tuple[str, int], list[str]] = {}
    for name in names:
        crates.setdefault(first_of(CRATE, name)[1], []).append(name)
    for crate, own in crates.items():
        text = sum(len(module.functions[name]) for name in own)
        count = 1
        while count * MOST_OF_A_PART < text:
            count *= 2
        for name in own:
            key = (
                ("", zlib.crc32(crate.encode()) % PARTS_OF_SMALL_CRATES)
                if text < LEAST_OF_A_PART
                else (crate, zlib.crc32(name.encode()) % count)
            )
            parts.setdefault(key, []).append(name)
    return [sorted(parts[key]) for key in sorted(parts)]


def as_text(room: str, kit: str) -> Iterator[str]:
    """The lines of the compiler's module as text."""
    clang = [
        f"{kit}/toolchain/bin/clang",
        "--no-default-config",
        "-x",
        "ir",
        "-O0",
        "-S",
        "-emit-llvm",
        "-Xclang",
        "-disable-llvm-passes",
    ]
    with subprocess.Popen(
        [*clang, f"{room}/module.bc", "-o", "-"], stdout=subprocess.PIPE, text=True, encoding="utf-8"
    ) as ran:
        assert ran.stdout is not None
        yield from ran.stdout
    if ran.returncode:
        raise SystemExit(f"quick-build: the module is not read: status {ran.returncode}")


class Objects:
    """Objects of texts, which are kept in a folder."""

    # How a text is compiled.
    CLANG = (
        "--no-default-config",
        "-x",
        "ir",
        f"--target={TARGET}",
        "-O0",
        "-Xclang",
        "-disable-llvm-passes",
        "-c",
        "-emit-llvm",
        "-Wno-override-module",
    )
    LINKER = ("-r", "-m", "elf_x86_64", "--lto-CGO0", f"--lto-newpm-passes={PASSES}", "--threads=1")

    def __init__(self, kit: str, room: str, folder: str) -> None:
        self.kit, self.room, self.folder = kit, room, pathlib.Path(folder)
        self.folder.mkdir(parents=True, exist_ok=True)
        tools = [pathlib.Path(kit, "toolchain", "bin", name).resolve() for name in ("clang", "ld.lld")]
        known = [(it.stat().st_size, it.stat().st_mtime_ns) for it in tools]
        self.made_by = f"{pathlib.Path(kit, 'KIT-ID').read_text(encoding='utf-8')} {known} {self.CLANG} {self.LINKER}\n"

    def compiled(self, text: str) -> str:
        """The object of a text: the one that is kept, or a new one, which is kept from then on."""
        made_of = hashlib.sha256((self.made_by + text).encode()).hexdigest()
        kept = self.folder / f"{made_of}.o"
        try:
            os.utime(kept)
        except FileNotFoundError:
            path = f"{self.room}/{made_of}"
            with open(f"{path}.ll", "w", encoding="utf-8") as file:
                file.write(text)
            subprocess.run(
                [f"{self.kit}/toolchain/bin/clang", *self.CLANG, f"{path}.ll", "-o", f"{path}.bc"], check=True
            )
            subprocess.run(
                [f"{self.kit}/toolchain/bin/ld.lld", *self.LINKER, f"{path}.bc", "-o", f"{path}.o"], check=True
            )
            beside = self.folder / f"{made_of}.{os.getpid()}"
            shutil.copyfile(f"{path}.o", beside)
            beside.replace(kept)
        return str(kept)

    def all_compiled(self, texts: Iterable[str]) -> list[str]:
        """The objects of texts, as many made at once as there are processors."""
        with concurrent.futures.ThreadPoolExecutor(len(os.sched_getaffinity(0))) as pool:
            return list(pool.map(self.compiled, texts))

    def forget_the_oldest(self) -> None:
        """Removes what was not used for longest, where there is too much."""
        ages = []
        for it in self.folder.iterdir():
            try:
                ages.append((it.stat().st_mtime_ns, it))
            except FileNotFoundError:
                pass
        for _, it in sorted(ages)[:-MOST_OBJECTS]:
            it.unlink(missing_ok=True)


def linked(room: str, kit: str, out: str, objects: list[str]) -> str:
    """A program of objects."""
    words = [
        f"{kit}/bin/rattle-link",
        "--target",
        TARGET,
        "--toolchain",
        f"{kit}/toolchain",
        "-o",
        f"{room}/{out}",
        *objects,
    ]
    ran = subprocess.run(
        [*words, f"{kit}/c/libos_c.a", f"{kit}/c/liblibc_c.a"], capture_output=True, text=True, check=False
    )
    if ran.returncode:
        raise SystemExit(f"quick-build: not linked: {ran.stderr}")
    return f"{room}/{out}"


def archived(room: str, kit: str, objects: list[str]) -> str:
    """A static library of objects."""
    subprocess.run([f"{kit}/toolchain/bin/llvm-ar", "rcs", f"{room}/archive.a", *objects], check=True)
    return f"{room}/archive.a"
