"""Reads and writes of claimswitch that fail, each in turn, and an input that never ends."""
from suite import faults
from suite.case import Case, Group, rows_in_order
from suite.programs import Ran, run
from suite.rows import read_rows

PROGRAMS = ("claimswitch",)
# How often an input is run where no key of a map may change its answer: each run draws keys of its own.
KEYS = 8


class Failing:
    """An input, and what is written of it."""

    def __init__(self):
        self.input, self.output = b"", b""

    def ended(self, ran: Ran, fault: str, out: bytes) -> bool:
        """Whether a run ended in a fault, and wrote this."""
        return ran == Ran(1, out, f"claimswitch: {fault} fault\n".encode())

    def pieces(self, size: str) -> list[bytes]:
        """The input in pieces of a size."""
        step = len(self.input) if size == "all" else int(size)
        return [self.input[at : at + step] for at in range(0, len(self.input), step)]

    def each_read(self, word: str, size: str) -> str:
        """How many reads there are, of which each fails in turn: nothing is written then."""
        pieces = self.pieces(size)
        for count in range(len(pieces) + 1):
            ran = faults.read_until("claimswitch", word, pieces=pieces[:count], fails=True)
            if not self.ended(ran, "read", b""):
                return f"another outcome where read {count + 1} fails: {ran}"
        ran = faults.read_until("claimswitch", word, pieces=pieces, fails=False)
        return str(len(pieces) + 1) if ran == Ran(0, self.output, b"") else f"another outcome where none fails: {ran}"

    def each_write(self, word: str, size: str) -> str:
        """How many writes of so many bytes there are, of which each fails in turn: what was taken before is written then."""
        step = len(self.output) if size == "all" else int(size)
        limits = range(0, len(self.output), step)
        for most in limits:
            ran = faults.written_until("claimswitch", word, given=self.input, most=most)
            if not self.ended(ran, "write", self.output[:most]):
                return f"another outcome where {most} bytes are taken: {ran}"
        ran = faults.written_until("claimswitch", word, given=self.input, most=limits.stop)
        return str(len(limits)) if ran == Ran(0, self.output, b"") else f"another outcome where all are taken: {ran}"

    def nothing_taken(self) -> str:
        """What an output leads to that takes nothing."""
        ran = faults.written_until("claimswitch", "read", given=self.input, most=0)
        full = faults.no_writing("claimswitch", "read", given=self.input)
        return (
            f"Err(Write) written={len(ran.out)}"
            if self.ended(ran, "write", b"") and self.ended(full, "write", b"")
            else str((ran, full))
        )

    def keyed(self, word: str) -> str:
        """Whether keys that nobody knows, drawn anew for each run, change no answer."""
        runs = [run("claimswitch", word, given=self.input) for _ in range(KEYS)]
        return "Ok(()) " + ("yes" if runs == [Ran(0, self.output, b"")] * KEYS else "no")

    def never_ends(self, word: str) -> str:
        """What an input that never ends leads to: that it comes to an end is the `yes`."""
        ran = faults.endless("claimswitch", word)
        return f"Err(Read) yes written={len(ran.out)}" if self.ended(ran, "read", b"") else str(ran)

    def tell(self, word: str, argument: bytes) -> str:
        words = argument.decode("latin-1").split(" ")
        if word == "input":
            self.input = argument
        elif word == "writes":
            self.output = argument
        else:
            return {
                "each-read-fails": self.each_read,
                "each-write-fails": self.each_write,
                "secret-keys": self.keyed,
                "nothing-is-taken": lambda _: self.nothing_taken(),
                "never-ends": self.never_ends,
            }[word](*words)
        return ""


def groups(path: str, name: str, kind: type[Case]) -> list[Group]:
    """One group for the rows of each input."""
    rows, found = read_rows(path), []
    for row in rows:
        if row.word == "input":
            found.append([])
        found[-1].append(row)
    return [rows_in_order(name, some, Failing().tell, kind, weight=100) for some in found]
