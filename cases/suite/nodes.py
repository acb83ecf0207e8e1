"""A node as a process: claimnode, asked line by line."""
import glob
import os
import shutil
import subprocess
import tempfile
from typing import NamedTuple

from suite.printed import octets_of, printed
from suite.programs import Ran, environment, program

# Files that are synced after each call lie in memory where the system has such a folder.
MEMORY = "/dev/shm"


def rooms() -> str:
    """Where folders of cases stand."""
    return MEMORY if os.access(MEMORY, os.W_OK) else tempfile.gettempdir()


def room() -> tempfile.TemporaryDirectory:
    """A folder of its own, which is gone at its end."""
    return tempfile.TemporaryDirectory(prefix=f"cases-{os.getpid()}-", dir=rooms())


def clear_rooms() -> None:
    """Removes the folders of processes that were killed."""
    for path in glob.glob(f"{rooms()}/cases-*-*"):
        if not os.path.exists(f'/proc/{os.path.basename(path).split("-")[1]}'):
            shutil.rmtree(path, ignore_errors=True)


class Answer(NamedTuple):
    """What a node says to a line: the packets that it sends, each with its receiver, its last line, and before it the lines of a list."""

    sent: list[tuple[str, bytes]]
    last: str
    entries: tuple[str, ...] = ()
    lines: tuple[str, ...] = ()

    @property
    def refused(self) -> str | None:
        """The name of the refusal, where the line was refused."""
        return self.last[8:] if self.last.startswith("refused ") else None


class Served:
    """A node that is served from its log until this ends; a switch also without one."""

    def __init__(self, settings: str, node: str, log: str | None):
        self.node, self.log = node, log
        self.process = subprocess.Popen(
            ["claimnode", settings, node, *([log] if log else [])],
            executable=program("claimnode"),
            env=environment(),
            stdin=subprocess.PIPE,
            stdout=subprocess.PIPE,
            stderr=subprocess.PIPE,
        )
        self.ready = self.line()

    def line(self) -> str:
        """The next line that it says."""
        line = self.process.stdout.readline().decode("latin-1")
        if not line:
            said = self.process.stderr.read().decode("latin-1")
            self.end()
            raise AssertionError(f"claimnode of {self.node} ended: {said.strip()}")
        return line.rstrip("\n")

    def ask(self, line: str) -> Answer:
        """What it says to a line."""
        return self.ask_all([line])[0]

    def ask_all(self, lines: list[str]) -> list[Answer]:
        """What it says to lines that are given to it at once: not more than pipes hold."""
        self.process.stdin.write("".join(f"{line}\n" for line in lines).encode("latin-1"))
        self.process.stdin.flush()
        return [self.answer() for _ in lines]

    def answer(self) -> Answer:
        """What it says to the next line that it was given."""
        sent, entries, lines = [], [], []
        while True:
            told = self.line()
            if told.startswith("entry "):
                entries.append(told.removeprefix("entry "))
                continue
            # Of a row, and of payments.
            if told[0].isdigit() or told.startswith("payment "):
                lines.append(told)
                continue
            if not told.startswith("send "):
                return Answer(sent, told, tuple(entries), tuple(lines))
            _, to, text = told.split(" ", 2)
            sent.append((to, octets_of(text)))

    def take(self, sender: str, packet: bytes) -> Answer:
        """What it says where it is given a packet."""
        return self.ask(f"take {sender} {printed(packet)}")

    def end(self) -> Ran:
        """Ends it, and gives how it ended."""
        if self.process.poll() is None:
            out, err = self.process.communicate()
        else:
            out, err = b"", b""
        for stream in (self.process.stdin, self.process.stdout, self.process.stderr):
            stream.close()
        return Ran(self.process.returncode, out, err)

    def __enter__(self) -> "Served":
        return self

    def __exit__(self, *_) -> None:
        self.end()
