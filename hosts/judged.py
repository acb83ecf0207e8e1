"""Callers and an operator of six nodes that are tormented, and the judgement of the logs that are left: for hosts/torture."""

from __future__ import annotations

import argparse
import asyncio
import pathlib
import random
import shutil
import subprocess
import sys
import types
from collections.abc import Awaitable, Sequence
from typing import Any, TypeVar

TOP = pathlib.Path(__file__).resolve().parent.parent
sys.path[:0] = [str(TOP / "hosts"), str(TOP / "tests")]
import nats  # noqa: E402
import report_walk  # noqa: E402
import subjects  # noqa: E402

T = TypeVar("T")
REFUSED = 78
PROVIDERS = ["1234567893", "1234567894"]
NODES = ["ph1", "ph2", "sw1", "sw2", "pr1", "pr2"]
KEEPERS = [node for node in NODES if not node.startswith("sw")]
SETTINGS = TOP / "examples" / "six-nodes.toml"


class Failed(Exception):
    """Something is otherwise than it has to be."""


class Tries:
    """What nodes, an operator and callers share: chance, what was counted, and whether it is time to be calm, or over."""

    def __init__(self, given: argparse.Namespace, folder: str) -> None:
        self.given, self.folder, self.dice = given, pathlib.Path(folder), random.Random(given.seed)
        self.settings = self.folder / "settings.toml"
        shutil.copyfile(SETTINGS, self.settings)
        self.calm_file = self.folder / "calm"
        self.calm = self.over = False
        # The nodes that have logs.
        self.keepers: list[str] = NODES if given.switch_logs else KEEPERS
        self.fills = 0
        self.counts: dict[str, int] = {}

    def count(self, what: str, more: int = 1) -> None:
        self.counts[what] = self.counts.get(what, 0) + more

    def be_calm(self) -> None:
        """Nothing dies any more, and no packet is lost."""
        self.calm = True
        self.calm_file.touch()


class Caller:
    """A caller of a pharmacy: submits, under a reference, again where it hears nothing, asks, and keeps what it is told."""

    def __init__(self, run: Tries, pharmacy: int, connection: nats.Connection) -> None:
        self._run, self._pharmacy, self._connection = run, pharmacy, connection
        self.told: dict[int, bytes] = {}
        self.answers: dict[int, bytes] = {}
        self.references = 0

    def text(self) -> str:
        """A claim of a prescription, new or known, or its reversal, in printed bytes."""
        dice = self._run.dice
        known = dice.random() < 0.3
        number = dice.randint(1, max(1, self._run.fills)) if known else self._run.fills + 1
        self._run.fills = max(number, self._run.fills)
        provider, bin_number = PROVIDERS[self._pharmacy - 1], f"61045{5 + number % 2}"
        head = f"{bin_number}D0%sA1        101{provider:<15}20240115SW00000001"
        fields = f"\\G\\S\\FAM07\\FEM1\\FD2{100000 + number}\\FD30\\FE103\\FD700093721410"
        if known and dice.random() < 0.5:
            return head % "B2" + fields
        return head % "B1" + "\\S\\FAM04\\FC2987654321" + fields + "\\FE730000\\S\\FAM11\\FD9600{\\FDC20{"

    async def go(self) -> None:
        """Submits until the time is over."""
        text: bytes | None = None
        while not self._run.calm:
            if text is None:
                self.references += 1
                text = self.text().encode()
            line = b"submit-as claim-%d %s" % (self.references, text)
            reply = await self._connection.request(f"claims.ph{self._pharmacy}.call", line, 1)
            self._run.count("submissions")
            if reply is None:
                self._run.count("replies lost")
            else:
                self.hear(reply, text)
                text = None
            await self.ask()

    def hear(self, reply: bytes, text: bytes) -> None:
        """What is replied to a submission."""
        self._run.count("known references", reply.startswith(b"known "))
        if reply.startswith((b"number ", b"known ")):
            self.keep(int(reply.split()[1]), text)

    def keep(self, number: int, text: bytes) -> None:
        if self.told.setdefault(number, text) != text:
            raise Failed(f"pharmacy {self._pharmacy} gave number {number} twice")

    async def ask(self) -> None:
        """Asks for the answer to one of the numbers."""
        if not self.told:
            return
        number = self._run.dice.choice(list(self.told))
        reply = await self._connection.request(f"claims.ph{self._pharmacy}.call", b"answer %d" % number, 1)
        if reply and reply.startswith(b"answer ") and self.answers.setdefault(number, reply) != reply:
            raise Failed(f"pharmacy {self._pharmacy} told two answers to {number}")

    async def settle(self) -> int:
        """Waits until each number has its answer; how many there are."""
        number = 1
        while True:
            reply = await self._connection.request(f"claims.ph{self._pharmacy}.call", b"answer %d" % number, 1)
            if reply == b"none":
                return number - 1
            if reply and reply.startswith(b"answer "):
                if self.answers.setdefault(number, reply) != reply:
                    raise Failed(f"pharmacy {self._pharmacy} told two answers to {number}")
                number += 1
            else:
                await asyncio.sleep(0.05)


class Operator:
    """Who stops nodes, starts them again, and changes prices. A node that was killed while it was stopped is stopped when it comes again."""

    PRODUCT = "00093721410"

    def __init__(self, run: Tries, connection: nats.Connection) -> None:
        self._run, self._connection = run, connection

    async def ask(self, node: str, line: str) -> bytes | None:
        """The reply to a line; None where it, or its reply, was lost."""
        self._run.count(f"{line.split()[0]} lines")
        return await self._connection.request(subjects.operations(node), line.encode(), 0.5)

    async def go(self) -> None:
        """Operates until the time is over."""
        dice = self._run.dice
        while not self._run.calm:
            await asyncio.sleep(dice.expovariate(4))
            node = dice.choice(NODES)
            if node.startswith("pr") and dice.random() < 0.6:
                await self.ask(
                    node, f"plan {self.PRODUCT} {dice.choice(['none', 18567, 20000, dice.randint(0, 99999)])}"
                )
                continue
            await self.ask(node, "stop")
            await asyncio.sleep(dice.random() * 0.3)
            await self.start(node)

    async def start(self, node: str) -> None:
        """Asks a node to start until it is up."""
        while await self.ask(node, "start") not in (b"ok", b"refused AlreadyUp"):
            await asyncio.sleep(0.02)

    async def settle(self) -> None:
        """Has all nodes up."""
        for node in NODES:
            await self.start(node)


async def first(tasks: Sequence[asyncio.Task[None]], work: Awaitable[T]) -> T:
    """The result of work, or the fault of a task that ends before it with one."""
    doing = asyncio.ensure_future(work)
    waited: set[asyncio.Future[Any]] = {doing, *tasks}
    while not doing.done():
        done, waited = await asyncio.wait(waited, return_when=asyncio.FIRST_COMPLETED)
        for task in done:
            task.result()
    return await doing


def host_of(given: argparse.Namespace) -> str:
    """The host with its torments, or a wrong one; ends the program where it cannot be built."""
    if given.host:
        return str(given.host)
    flags = f"CFLAGS=-O2 -g -DTORMENTED {f'-DWRONG_{given.wrong}' if given.wrong else ''}".strip()
    made = subprocess.run([TOP / "tools" / "host", flags], stdout=subprocess.PIPE, text=True, check=False)
    if made.returncode:
        sys.exit(made.returncode)
    return made.stdout.strip()


def ran(words: list[str], given: str | None = None) -> subprocess.CompletedProcess[str]:
    return subprocess.run(words, input=given, capture_output=True, text=True, errors="replace", check=False)


def settings_of_walk() -> types.SimpleNamespace:
    """The settings as the walk of the promises takes them."""
    pharmacies = [{"provider": it, "cap": 60000} for it in PROVIDERS]
    payers = [{"cap": 60000, "serial": 1}] * 2
    route = {"610455": 1, "610456": 2}
    return types.SimpleNamespace(
        pharmacies=pharmacies, payers=payers, switches=[64, 64], route=lambda it: route.get(it.bin)
    )


def bytes_of(printed: str) -> bytes:
    """The bytes of a text that is printed by this script or by a schedule."""
    names = {"F": "\x1c", "G": "\x1d", "S": "\x1e", "\\": "\\"}
    text, at = "", 0
    while at < len(printed):
        if printed[at] != "\\":
            text, at = text + printed[at], at + 1
        elif printed[at + 1] == "x":
            text, at = text + chr(int(printed[at + 2 : at + 4], 16)), at + 4
        else:
            text, at = text + names[printed[at + 1]], at + 2
    return text.encode("latin-1")


def event_of(line: str) -> tuple[Any, ...]:
    """An event of a schedule as the walk of the promises takes it."""
    words = line.split(" ", 2)
    if words[0] == "submit":
        return ("submit", int(words[1][2:]), bytes_of(words[2]))
    return (words[0], *words[1:])


def judge(run: Tries, callers: list[Caller], entries: list[int]) -> dict[str, int]:
    """What the logs tell has to be what callers were told, and every promise has to hold of it."""
    logs = [str(run.folder / f"{name}.log") for name in run.keepers]
    verdict = ran([run.given.audit, str(run.settings), *logs])
    if verdict.returncode or "one legal run" not in verdict.stdout:
        raise Failed(f"claimaudit: {verdict.stdout[-600:]}{verdict.stderr[-300:]}")
    schedule = ran([run.given.audit, "--schedule", str(run.settings), *logs]).stdout
    events = [event_of(line) for line in schedule.split("---\n", 1)[1].split("\n") if line]
    replayed = ran([run.given.switch, "replay"], schedule)
    report = report_walk.Report(replayed.stdout, len(events))
    walk = report_walk.Walk(settings_of_walk())
    walk.walk(events, report)
    for number, (caller, count) in enumerate(zip(callers, entries), 1):
        if report.nodes["pharmacy", number].count != count:
            raise Failed(
                f"pharmacy {number} told of {count} entries, and the logs have {report.nodes['pharmacy', number].count}"
            )
        if count > caller.references:
            raise Failed(f"pharmacy {number} has {count} entries of {caller.references} references")
        for name, text in caller.told.items():
            asked = walk.requests.get((number, name))
            if asked is None or asked.text != bytes_of(text.decode()):
                raise Failed(f"pharmacy {number} told a caller {name}, and its log has another text there, or none")
    return {"events": len(events), "entries": sum(entries), **walk.met}
