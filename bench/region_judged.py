"""The region of bench/region-run: its settings; and what is judged of its claims, logs and times."""

from __future__ import annotations

import bisect
import collections
import contextlib
import csv
import os
import pathlib
import re
import subprocess
import time
from collections.abc import Iterator, Sequence
from dataclasses import dataclass

import programs
from suite import networks

FIRST_PRESCRIPTION = 1_000_000
FIRST_BIN = 610455
# So long after a server has come nodes may still be on their way to it.
BACK_SECONDS = 1.0
OVERPUNCH = {digit: str(place) for place, digit in enumerate("{ABCDEFGHI")}
# What the settings say of caps.
PHARMACY_CAP, SWITCH_CAP, BOOK_CAP = 65_536, 16_384, 16_777_216
LIMITS = ("[limits]", "pharmacies = 65535", f"entries = {BOOK_CAP}")


class Failed(Exception):
    """Something is otherwise than it has to be."""


@dataclass
class Life:
    """When a process was started, when it was ready, and when it ended."""

    begun: float
    ready: float | None = None
    ended: float | None = None


@dataclass(frozen=True)
class Claim:
    """A claim that was answered: when it was due and how long that took, and what its answer says."""

    line: int
    pharmacy: int
    number: int
    due: float
    seconds: float
    ruling: str
    authorization: str
    cents: int


def memory_of(pid: int) -> float:
    """The most memory that a process has had, in MB."""
    text = pathlib.Path(f"/proc/{pid}/status").read_text(encoding="ascii")
    return next(int(line.split()[1]) for line in text.splitlines() if line.startswith("VmHWM")) * 1024 / 1e6


class Region:
    """Who is in it, and what its settings say."""

    def __init__(self, pharmacies: int, processes: int, switches: int, books: str) -> None:
        self.pharmacies, self.processes, self.switches = pharmacies, processes, switches
        # How many books each payer has.
        self.books = [int(it) for it in books.split(",")]

    def _firsts(self, parts: int) -> list[int]:
        """The first pharmacy of each of so many parts, and the one behind the last."""
        return [1 + self.pharmacies * part // parts for part in range(parts + 1)]

    def ranges(self) -> list[str]:
        """The names of the processes of pharmacies."""
        firsts = self._firsts(self.processes)
        return [f"ph{first}-ph{behind - 1}" for first, behind in zip(firsts, firsts[1:])]

    def range_of(self, pharmacy: int) -> str:
        return self.ranges_by_first[bisect.bisect_right(self._firsts_kept, pharmacy) - 1]

    def keep(self) -> None:
        """Makes what `range_of` and `book_of` look up."""
        self.ranges_by_first, self._firsts_kept = self.ranges(), self._firsts(self.processes)
        self._book_firsts = [self._firsts(count) for count in self.books]

    def book_of(self, payer: int, pharmacy: int) -> int:
        """The number of the book of a payer, from 0 on, that pays a pharmacy."""
        place = bisect.bisect_right(self._book_firsts[payer], pharmacy) - 1
        return sum(self.books[:payer]) + place + 1

    def book_names(self) -> list[str]:
        return [f"pr{number}" for number in range(1, sum(self.books) + 1)]

    def bins(self) -> list[str]:
        return [str(FIRST_BIN + payer) for payer in range(len(self.books))]

    @staticmethod
    def provider(pharmacy: int) -> str:
        return str(networks.PROVIDER + pharmacy - 1)

    def switches_of(self, pharmacy: int) -> list[int]:
        """Two of the switches, in turn."""
        return [(pharmacy + it) % self.switches + 1 for it in range(min(2, self.switches))]

    def settings(self, again: int) -> str:
        lines = [f"again = {again}", "tries = 1", *LIMITS]
        for number in range(1, self.pharmacies + 1):
            provider = f'provider = "{self.provider(number)}"'
            nodes = f"nodes = {self.switches_of(number)}"
            lines += ["[[pharmacy]]", 'qualifier = "01"', provider, nodes, f"cap = {PHARMACY_CAP}"]
        lines += ["[[switch]]", f"cap = {SWITCH_CAP}"] * self.switches
        lines += ["[[payer]]", "fee = 150", "copay = 1000", f"cap = {BOOK_CAP}", networks.PRICES.strip()] * sum(
            self.books
        )
        book = 0
        for bin_number, count in zip(self.bins(), self.books):
            firsts = self._firsts(count)
            for first, behind in zip(firsts, firsts[1:]):
                book += 1
                lines += ["[[route]]", f'bin = "{bin_number}"', f"payer = {book}"]
                if count > 1:
                    lines += [f'first = "{self.provider(first)}"', f'last = "{self.provider(behind - 1)}"']
                    lines += ['qualifier = "01"', 'pcn = "A1"']
        return "\n".join(lines) + "\n"


def quantile(times: Sequence[float], of_a_thousand: int) -> float:
    """Of sorted seconds, in milliseconds."""
    return times[min(len(times) - 1, len(times) * of_a_thousand // 1000)] * 1000 if times else 0.0


class Judged:
    """What was told, beside what the logs say."""

    def __init__(
        self, region: Region, settings: pathlib.Path, logs: pathlib.Path, claims: pathlib.Path, told: pathlib.Path
    ) -> None:
        self.region, self.settings, self.logs = region, settings, logs
        with open(claims, encoding="ascii") as file:
            # Of each claim its payer: the rest of it is in its answer, or in its row.
            self.payers = [int(line.split(" ", 1)[1][:6]) - FIRST_BIN for line in file]
        with open(told, encoding="latin-1") as file:
            self.told = [self._claim(line) for line in file]
        region.keep()

    @staticmethod
    def _claim(line: str) -> Claim:
        place, pharmacy, number, due, took, _, answer = line.rstrip("\n").split(" ", 6)
        ruling = re.search(r"\\FAN(\w)", answer)
        authorization = re.search(r"\\FF3(\w+)", answer)
        amount = re.search(r"\\FF9([0-9]*)([{A-I])", answer)
        cents = int(amount[1] + OVERPUNCH[amount[2]]) if amount else 0
        given = authorization[1] if authorization else ""
        seconds, ruled = float(took) / 1000, ruling[1] if ruling else "none"
        return Claim(int(place), int(pharmacy), int(number), float(due), seconds, ruled, given, cents)

    def lines(self) -> Iterator[str]:
        """Tells what there is, and fails where something is otherwise than it has to be."""
        rulings = collections.Counter(it.ruling for it in self.told)
        by_ruling = ", ".join(f"{what} {rulings[code]}" for what, code in (("paid", "P"), ("rejected", "R")))
        yield f"claims entered {len(self.payers)}, answered {len(self.told)}: {by_ruling}"
        if len(self.told) != len(self.payers) or rulings["P"] + rulings["R"] != len(self.told):
            raise Failed(f"not each claim was answered, or it was otherwise: {dict(rulings)}")
        yield from self._audit()
        yield from self._payments()

    @staticmethod
    def _away(lives: Sequence[Life]) -> tuple[list[float], list[float]]:
        """From when to when a process was not ready."""
        begins, ends = [lives[0].begun], list[float]()
        for life in lives:
            if life.ready is not None:
                ends.append(life.ready)
            if life.ended is not None and len(ends) == len(begins):
                begins.append(life.ended)
        return begins, ends

    def times(self, lives: dict[str, list[Life]]) -> Iterator[str]:
        """Times from when a claim was due to its answer; of all, and of those during which no process was away that it passes or may pass."""
        away = {name: self._away(of) for name, of in lives.items()}

        def touches(name: str, claim: Claim) -> bool:
            begins, ends = away[name]
            place = bisect.bisect_right(begins, claim.due + claim.seconds) - 1
            late = BACK_SECONDS if name == "server" else 0.0
            return place >= 0 and (place >= len(ends) or ends[place] + late >= claim.due)

        def is_touched(claim: Claim) -> bool:
            names = ["server", self.region.range_of(claim.pharmacy)]
            names += [f"sw{it}" for it in self.region.switches_of(claim.pharmacy)]
            return any(
                touches(it, claim)
                for it in [*names, f"pr{self.region.book_of(self.payers[claim.line], claim.pharmacy)}"]
            )

        untouched = [it for it in self.told if not is_touched(it)]
        for what, some in (("all", self.told), ("no kill touched", untouched)):
            times = sorted(it.seconds for it in some)
            told = ", ".join(f"p{it / 10:g} {quantile(times, it):.0f}" for it in (500, 900, 990, 999))
            yield f"ms until the answer, {what} ({len(some)} claims): {told}, most {quantile(times, 1000):.0f}"

    def _run(self, *words: str) -> tuple[str, str]:
        """What the audit tells, with what it took."""
        logs = [f"{self.logs}/ph{it}.log" for it in range(1, self.region.pharmacies + 1)]
        logs += [f"{self.logs}/{it}.log" for it in self.region.book_names()]
        out = self.logs.parent / "audit"
        begun, memory = time.monotonic(), 0.0
        with open(out, "wb") as file, open(f"{out}.said", "wb") as said:
            command = [programs.program("claimaudit"), *words, str(self.settings), *logs]
            process = subprocess.Popen(command, stdout=file, stderr=said)
            while os.waitid(os.P_PID, process.pid, os.WEXITED | os.WNOHANG | os.WNOWAIT) is None:
                with contextlib.suppress(OSError, StopIteration):
                    memory = max(memory, memory_of(process.pid))
                time.sleep(0.05)
            _, status, usage = os.wait4(process.pid, 0)
            process.returncode = os.waitstatus_to_exitcode(status)
        busy = usage.ru_utime + usage.ru_stime
        took = f"{time.monotonic() - begun:.0f} s, {busy:.0f} processor seconds, {memory:.0f} MB"
        if process.returncode:
            raise Failed(f"claimaudit: {out.read_text()[-300:]}{pathlib.Path(f'{out}.said').read_text()[-300:]}")
        return out.read_text(encoding="latin-1"), took

    def _audit(self) -> Iterator[str]:
        """One legal run, with as many requests, each answered; the sums of pharmacies and payers are those that were told."""
        told, took = self._run()
        found = re.search(r"^one legal run of (\d+) events$", told, re.M)
        if found is None:
            raise Failed(f"the audit: {told[-500:]}")
        yield f"{found[0]}; audited in {took}"
        row = re.compile(
            r"^pharmacy \d+ requests (\d+) answered (\d+) open (\d+) counted (\d+) cents (\d+) standing (\d+)$", re.M
        )
        requests, answered, open_ones, counted, cents, standing = (sum(map(int, it)) for it in zip(*row.findall(told)))
        rows = re.findall(r"^payer \d+ rows (\d+) standing (\d+) cents (\d+) reversed (\d+) ", told, re.M)
        in_books, paid, paid_cents, reversed_ones = (sum(map(int, it)) for it in zip(*rows))
        told_paid = [it for it in self.told if it.ruling == "P"]
        sums = {"told": sum(it.cents for it in told_paid), "counted": cents, "paid": paid_cents}
        yield f"cents {', '.join(f'{what} {sum_of}' for what, sum_of in sums.items())}; rows of books {in_books}"
        if len(set(sums.values())) != 1:
            raise Failed("the sums are not the same")
        if not requests == answered == len(self.payers) or open_ones or reversed_ones:
            raise Failed(f"{requests} requests, {answered} answered, {open_ones} open, {reversed_ones} reversed")
        if not counted == standing == paid == len(told_paid):
            raise Failed(f"counted {counted}, standing {standing}, paid {paid}, told {len(told_paid)}")

    def _payments(self) -> Iterator[str]:
        """Each claim that was told as paid has one payment, and there is no other."""
        table, took = self._run("--csv", "payments")
        wanted = {(it.pharmacy, it.number): it for it in self.told}
        if len(wanted) != len(self.told):
            raise Failed("two claims were told one number")
        fills: set[str] = set()
        for row in csv.DictReader(table.splitlines()):
            claim = wanted.pop((int(row["pharmacy"]), int(row["number"])), None)
            if claim is None or row["prescription"] in fills:
                raise Failed(f"a payment that nobody was told, or the second one: {row}")
            fills.add(row["prescription"])
            book = self.region.book_of(self.payers[claim.line], claim.pharmacy)
            is_its_own = int(row["prescription"]) == FIRST_PRESCRIPTION + claim.line and int(row["payer"]) == book
            told = (claim.ruling, claim.authorization, claim.cents)
            if not is_its_own or told != ("P", row["authorization"], int(row["paid_cents"])):
                raise Failed(f"told {claim}, and paid is {row}")
            if (row["state"], row["counted"]) != ("standing", "true"):
                raise Failed(f"it does not stand, or is not counted: {row}")
        if lost := [it for it in wanted.values() if it.ruling == "P"]:
            raise Failed(f"told as paid, and there is no payment: {lost[:3]}")
        yield f"{len(fills)} payments, each that of a claim that was told it, and none twice; the table of payments in {took}"
