"""How ./check runs a part, and what it says of how that went."""

from __future__ import annotations

import contextlib
import difflib
import os
import pathlib
import shutil
import signal
import subprocess
import time
from dataclasses import dataclass

from check_parts import Part
from check_programs import TOP, programs

PASSED, FAILED, SKIPPED = "passed", "FAILED", "skipped"
# Of what differs, or of what a script says, so many lines are shown; all of it is kept.
MOST_LINES = 40
# How long a part may take; with all kills and refusals; and a compilation, on a machine that does much else.
MOST_SECONDS, MOST_SECONDS_OF_ALL, MOST_SECONDS_OF_COMPILING = 900, 2400, 3600
# The status with which a script says that something lacks here. Where it runs all is there that it wants, so that this is a failure like any other.
NOT_RUN = 3


@dataclass(frozen=True)
class Outcome:
    """How a part, or a compilation, ended."""

    kind: str
    told: str
    seconds: float


class Runner:
    """Runs commands, each with a folder of its own below one folder, and can end them all."""

    def __init__(self, room: pathlib.Path, tried: pathlib.Path | None, is_all: bool = False) -> None:
        """Parts try the programs of a folder, or the proved ones."""
        self.room, self.tried, self.is_all = room, tried, is_all
        self.running: dict[subprocess.Popen[bytes], pathlib.Path] = {}
        left_out = ("CLAIMSWITCH_EXPLAIN", "VOGRILAS_PROGRAMS")
        self.environment = {key: value for key, value in os.environ.items() if key not in left_out}
        # Hosts, the library's folder and packages are made once for all parts: in a folder that is no part's.
        kept = room / "kept"
        shutil.rmtree(kept, ignore_errors=True)
        self.environment |= {"VOGRILAS_KEPT": str(kept), "PYTHONDONTWRITEBYTECODE": "1"}
        if tried is not None:
            self.environment["VOGRILAS_PROGRAMS"] = str(tried)

    @property
    def is_proved(self) -> bool:
        """Whether it runs proved programs."""
        return self.tried is None

    def folder(self, name: str) -> pathlib.Path:
        """An empty folder for a part of that name."""
        folder = self.room / "parts" / name
        shutil.rmtree(folder, ignore_errors=True)
        folder.mkdir(parents=True, exist_ok=True)
        return folder

    def run(
        self,
        words: list[str],
        folder: pathlib.Path,
        stdin: pathlib.Path | None = None,
        said: int = subprocess.STDOUT,
        most: int = 0,
    ) -> tuple[int, bytes, bytes]:
        """Runs a command in a folder, for so many seconds at most: its status, or one below zero where it was ended, and what it wrote; what
        it said of faults is among that, or by itself."""
        with open(stdin or os.devnull, "rb") as given:
            process = subprocess.Popen(
                words,
                cwd=folder,
                env=self.environment | {"TMPDIR": str(folder)},
                stdin=given,
                stdout=subprocess.PIPE,
                stderr=said,
                start_new_session=True,
            )
        self.running[process] = folder
        most = most or (MOST_SECONDS_OF_ALL if self.is_all else MOST_SECONDS)
        try:
            written, faults = process.communicate(timeout=most)
        except subprocess.TimeoutExpired:
            self.end(process, folder)
            written, faults = process.communicate()
            written += f"\nended after {most} seconds\n".encode()
        finally:
            del self.running[process]
        return process.returncode, written, faults or b""

    @staticmethod
    def end(process: subprocess.Popen[bytes], folder: pathlib.Path) -> None:
        """Ends a command with all that it started: its session, and what left that, as servers do, and has its folder for temporary files."""
        with contextlib.suppress(ProcessLookupError):
            os.killpg(process.pid, signal.SIGKILL)
        mark = f"TMPDIR={folder}".encode()
        for file in pathlib.Path("/proc").glob("[0-9]*/environ"):
            with contextlib.suppress(OSError):
                if mark in file.read_bytes().split(b"\0"):
                    os.kill(int(file.parent.name), signal.SIGKILL)

    def end_all(self) -> None:
        """Ends all commands that run."""
        for process, folder in list(self.running.items()):
            self.end(process, folder)

    def part(self, part: Part) -> Outcome:
        """Runs a part."""
        started = time.monotonic()
        folder = self.folder(part.name)
        kind, told = self.stored(part, folder) if part.is_stored else self.script(part, folder)
        self.keep(part, told)
        shutil.rmtree(folder, ignore_errors=True)
        return Outcome(kind, told, time.monotonic() - started)

    def keep(self, part: Part, told: str) -> None:
        """Keeps what a part said."""
        (self.room / f"{part.name}.log").write_text(told + "\n", encoding="utf-8")

    def last_said(self, part: Part) -> str:
        """The last two lines of what a part said: what was not so, and which command ended so."""
        kept = self.room / f"{part.name}.log"
        said = kept.read_text(encoding="utf-8").splitlines() if kept.is_file() else []
        return " | ".join(line.strip()[:200] for line in said[-2:])

    def script(self, part: Part, folder: pathlib.Path) -> tuple[str, str]:
        """Runs a script."""
        words = part.words(self.is_proved, self.is_all)
        status, written, _ = self.run([str(TOP / words[0]), *words[1:]], folder)
        told = written.decode(errors="replace").strip()
        if status == 0:
            return PASSED, told
        why = f"status {status} of {' '.join(words)}"
        return FAILED, f"{told}\n{why}{', though all is there that it wants' if status == NOT_RUN else ''}"

    def stored(self, part: Part, folder: pathlib.Path) -> tuple[str, str]:
        """Runs a program on what is stored beside its sources, in a folder that has its data, and compares."""
        crate = TOP / "crates" / part.name
        wanted, status, words = b"", 0, []
        if (crate / "data").is_dir():
            shutil.copytree(crate / "data", folder, dirs_exist_ok=True)
        if (crate / "stdout").exists():
            wanted = (crate / "stdout").read_bytes()
        if (crate / "status").exists():
            status = int((crate / "status").read_text(encoding="ascii"))
        if (crate / "args").exists():
            words = (crate / "args").read_text(encoding="utf-8").splitlines()
        stdin = crate / "stdin" if (crate / "stdin").exists() else None
        program = self.tried / part.name if self.tried else programs()[part.name].proved
        got, written, faults = self.run([str(program), *words], folder, stdin, subprocess.PIPE)
        if (got, written) == (status, wanted):
            return PASSED, f"{len(written.splitlines())} lines as stored"
        told = difference(wanted, written, f"crates/{part.name}/stdout")
        if got != status:
            told.append(f"status {got}, and {status} is stored")
        return FAILED, "\n".join([*told, *faults.decode(errors="replace").splitlines()[-5:]])


def difference(wanted: bytes, written: bytes, name: str) -> list[str]:
    """The lines in which two outputs differ."""
    one, other = (it.decode(errors="replace").splitlines() for it in (wanted, written))
    return list(difflib.unified_diff(one, other, name, "written", n=2, lineterm=""))


def shown(told: str) -> str:
    """What is shown of what was told of a failure: its first lines of a difference, its last of anything else."""
    lines = told.splitlines()
    if len(lines) <= MOST_LINES:
        return "\n".join(f"    {line}" for line in lines)
    left = f"    .. {len(lines) - MOST_LINES} more lines"
    if lines[0].startswith("--- "):
        return "\n".join([*(f"    {line}" for line in lines[:MOST_LINES]), left])
    return "\n".join([left, *(f"    {line}" for line in lines[-MOST_LINES:])])
