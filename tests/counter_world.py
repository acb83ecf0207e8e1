"""A pharmacy's counter in a world of its own, in its own time: the front's code as it is, over a node, links and a payer that are a few lines
here, and receipts whose process may be killed before and behind each thing that it does. For tests/counter.

The payer keeps docs/RULES.md as far as these trials go: one standing payment of a fill, duplicates, 83, reversals and 87."""

from __future__ import annotations

import asyncio
import contextlib
import pathlib
import random
import re
import selectors
import sys
from collections.abc import Callable, Coroutine
from typing import Any, NamedTuple

sys.path.insert(0, str(pathlib.Path(__file__).resolve().parent.parent / "hosts"))
from front_service import counter, given_up, keeping, pharmacy  # noqa: E402
from front_service.counter import Counter, Owed, Terms  # noqa: E402
from front_service.pharmacy import Pharmacy  # noqa: E402
from front_service.printed import printed, unprinted  # noqa: E402
from front_service.problems import Problem  # noqa: E402
from front_service.receipts import Receipts  # noqa: E402

NAME = "ph1"
# What a step takes, and a link at its best.
STEP_SECONDS = 0.001
LINK_SECONDS = 0.01
PROVIDER = b"011234567893     20240115"


class Hours:
    """The time of the world, which goes on when nothing else does."""

    now = 1000.0

    @classmethod
    def time(cls) -> float:
        return cls.now

    @staticmethod
    def strftime(_form: str) -> str:
        return "20240115"


class _Selector(selectors.EpollSelector):
    """Where nothing comes from outside, waiting is to have time go on."""

    def select(self, timeout: float | None = None) -> list[Any]:
        if timeout is None:
            raise RuntimeError("everybody waits, and for nothing")
        Hours.now += max(timeout, 0.0)
        return []


class Loop(asyncio.SelectorEventLoop):
    """A loop in the time of the world."""

    def __init__(self) -> None:
        super().__init__(_Selector())

    def time(self) -> float:
        return Hours.now


given_up.time = keeping.time = Hours  # type: ignore[attr-defined]
# It is looked seldom: nothing hangs on it, and a story is told sooner.
counter.LOOK_SECONDS = pharmacy.LOOK_SECONDS = 7.0


def billing(prescription: int, fill: int = 0, vendor: int = 1, quantity: int = 30000) -> bytes:
    """A billing; of another vendor it is the same claim in other bytes."""
    return several([(prescription, fill)], vendor, quantity)


def several(fills: list[tuple[int, int]], vendor: int = 1, quantity: int = 30000) -> bytes:
    """A billing of several transactions."""
    head = b"610455D0B1A1        %d" % len(fills) + PROVIDER + b"SW%08d" % vendor
    form = b"\x1d\x1e\x1cAM07\x1cEM1\x1cD2%d\x1cD3%d\x1cE103\x1cD700093721410\x1cE7%d\x1e\x1cAM11\x1cD9600{"
    return head + b"\x1e\x1cAM04\x1cC2987654321" + b"".join(form % (*it, quantity) for it in fills)


def reversal(prescription: int, fill: int | None = 0, vendor: int = 1) -> bytes:
    head = b"610455D0B2A1        1" + PROVIDER + b"SW%08d" % vendor
    named = b"" if fill is None else b"\x1cD3%d" % fill
    return head + b"\x1d\x1e\x1cAM07\x1cEM1\x1cD2%d" % prescription + named


class Order(NamedTuple):
    """One transaction, as the payer reads it."""

    is_billing: bool
    prescription: int
    fill: int | None
    text: bytes


def orders_of(message: bytes) -> list[Order]:
    found = []
    for text in message[56:].split(b"\x1d")[1:]:
        fields = {it[:2]: it[2:] for it in text.replace(b"\x1e", b"").split(b"\x1c")}
        fill = int(fields[b"D3"]) if b"D3" in fields else None
        found.append(Order(message[8:10] == b"B1", int(fields[b"D2"]), fill, text))
    return found


class Payer:
    """The book: standing payments by fill, and the answers that it gave."""

    def __init__(self) -> None:
        self.standing: dict[tuple[int, int], tuple[bytes, bytes]] = {}
        self._kept: dict[int, bytes] = {}
        self._serial = 0

    def answer(self, number: int, request: bytes) -> bytes:
        if number not in self._kept:
            groups = [self._ruled(it) for it in orders_of(request)]
            self._kept[number] = b"D0" + request[8:10] + request[20:21] + b"A" + request[21:46] + b"".join(groups)
        return self._kept[number]

    def _ruled(self, order: Order) -> bytes:
        if not order.is_billing:
            return self._reversed(order)
        fill = (order.prescription, order.fill or 0)
        standing = self.standing.get(fill)
        if standing is None:
            self._serial += 1
            self.standing[fill] = (b"0001%012d" % self._serial, order.text)
            return _group(b"P", self.standing[fill][0], order.prescription)
        if standing[1] == order.text:
            return _group(b"D", standing[0], order.prescription)
        return _rejected(b"83")

    def _reversed(self, order: Order) -> bytes:
        found = [it for it in self.standing if it[0] == order.prescription and order.fill in (None, it[1])]
        if len(found) != 1:
            return _rejected(b"87")
        return _group(b"A", self.standing.pop(found[0])[0], order.prescription)


def _group(status: bytes, authorization: bytes, prescription: int) -> bytes:
    claim = b"\x1e\x1cAM22\x1cEM1\x1cD2%d" % prescription
    return b"\x1d\x1e\x1cAM21\x1cAN" + status + b"\x1cF3" + authorization + claim


def _rejected(code: bytes) -> bytes:
    return b"\x1d\x1e\x1cAM21\x1cANR\x1cFA1\x1cFB" + code


class World:
    """The pharmacy's node, the links to the payer, and what has been entered."""

    def __init__(self, seed: int = 0) -> None:
        self.random = random.Random(seed)
        self.payer = Payer()
        self.entries: list[tuple[bytes, bytes, bytes | None]] = []
        # When the node knew that a payment was reversed.
        self.reversed_at: dict[bytes, float] = {}
        self._waiting: list[tuple[int, Callable[[bytes], None]]] = []
        # How long the way of an entry's request to the payer takes, and that of its answer back.
        self.ways: Callable[[int, bytes], tuple[float, float]] = lambda _number, _request: (LINK_SECONDS, LINK_SECONDS)
        # What becomes of a caller's line: `lost` before the node has it, `silent` behind it, a refusal, or nothing.
        self.fate: Callable[[bytes], str] = lambda _line: ""

    def line(self, line: bytes, heard: Callable[[bytes], None]) -> None:
        """A line of a caller, and who hears the reply."""
        fate = self.fate(line)
        if fate == "lost":
            return
        word, _, rest = line.partition(b" ")
        # A host that has no room looks for no reference; a node that is stopped does.
        if fate == "Busy" or (fate == "Down" and not any(it[0] == rest.split(b" ")[0] for it in self.entries)):
            heard(b"refused " + fate.encode())
            return
        if word == b"submit-as":
            reply = self._submitted(*rest.split(b" ", 1))
        else:
            number = int(rest)
            reply = self._said(number)
            if word == b"wait" and reply == b"open":
                self._waiting.append((number, heard))
                return
        if fate != "silent":
            heard(reply)

    def _submitted(self, reference: bytes, text: bytes) -> bytes:
        for number, (known, _, _) in enumerate(self.entries, 1):
            if known == reference:
                return b"known %d" % number
        request = unprinted(text)
        self.entries.append((reference, request, None))
        number = len(self.entries)
        there, _ = self.ways(number, request)
        asyncio.get_running_loop().call_later(there, self._came, number)
        return b"number %d" % number

    def _said(self, number: int) -> bytes:
        if not 1 <= number <= len(self.entries):
            return b"none"
        answer = self.entries[number - 1][2]
        return b"open" if answer is None else b"answer " + printed(answer)

    def _came(self, number: int) -> None:
        """The request has come to the payer."""
        request = self.entries[number - 1][1]
        answer = self.payer.answer(number, request)
        _, back = self.ways(number, request)
        asyncio.get_running_loop().call_later(back, self._answered, number, answer)

    def _answered(self, number: int, answer: bytes) -> None:
        reference, request, _ = self.entries[number - 1]
        self.entries[number - 1] = (reference, request, answer)
        for authorization in re.findall(rb"\x1cANA\x1cF3([0-9]{16})", answer):
            self.reversed_at.setdefault(authorization, Hours.now)
        for one, heard in [it for it in self._waiting if it[0] == number]:
            heard(b"answer " + printed(answer))
        self._waiting = [it for it in self._waiting if it[0] != number]


class Killed(Exception):
    """The front is no more."""


class Carrier:
    """The connection of a front with the world, until it is killed."""

    def __init__(self, front: Front) -> None:
        self._front = front
        self.is_open = asyncio.Event()
        self.is_open.set()
        self._heard: dict[str, Callable[[bytes], None]] = {}
        self._count = 0

    def ask(self, _subject: str, line: bytes, heard: Callable[[bytes], None]) -> str:
        self._count += 1
        name = str(self._count)
        self._heard[name] = heard
        loop = asyncio.get_running_loop()
        # What was sent is on its way, whatever becomes of the front.
        loop.call_later(STEP_SECONDS, self._front.world.line, line, lambda reply: self._replied(name, reply))
        return name

    def _replied(self, name: str, reply: bytes) -> None:
        asyncio.get_running_loop().call_later(STEP_SECONDS, self._hand, name, reply)

    def _hand(self, name: str, reply: bytes) -> None:
        if name in self._heard and not self._front.is_dead:
            self._heard[name](reply)

    async def request(self, subject: str, line: bytes, seconds: float) -> bytes | None:
        loop = asyncio.get_running_loop()
        if line.startswith(b"submit"):
            self._front.step()
        waiting: asyncio.Future[bytes | None] = loop.create_future()
        name = self.ask(subject, line, lambda reply: waiting.done() or waiting.set_result(reply))
        late = loop.call_later(seconds, lambda: waiting.done() or waiting.set_result(None))
        try:
            reply = await waiting
            if line.startswith(b"submit"):
                self._front.step()
            return reply
        finally:
            late.cancel()
            self.forget(name)

    def forget(self, name: str) -> None:
        self._heard.pop(name, None)


class Keeper:
    """The process that writes receipts, here: what it is asked it does a step later, unless it is dead by then."""

    def __init__(self, front: Front, keeper: keeping.Keeper) -> None:
        self._front, self._keeper = front, keeper
        self.ended: asyncio.Future[None] = asyncio.get_running_loop().create_future()

    def ask(self, name: str, *values: Any) -> asyncio.Future[Any]:
        done: asyncio.Future[Any] = asyncio.get_running_loop().create_future()
        asyncio.get_running_loop().call_later(STEP_SECONDS, self._make, done, name, values)
        return done

    def _make(self, done: asyncio.Future[Any], name: str, values: tuple[Any, ...]) -> None:
        if self._front.is_dead:
            return
        with contextlib.suppress(Killed):
            # Time and again it is looked whether anything is due; mostly nothing is.
            if name != "due":
                self._front.step()
            ((_, is_well, value),) = self._keeper.make([(1, name, values)])
            if value != ([], []):
                self._front.step()
            if not done.done():
                done.set_result(value) if is_well else done.set_exception(AssertionError(value))

    async def close(self) -> None:
        pass


class KeptReceipts(Receipts):
    """Receipts whose process is in this one."""

    def __init__(self, name: str, front: Front, keeper: keeping.Keeper) -> None:
        self._given = (front, keeper)
        super().__init__(name)

    def _started(self) -> Any:
        return Keeper(*self._given)

    async def rows(self, text: str, *values: object) -> list[Any]:
        return self._side.execute(text, values).fetchall()


class Front:
    """A front, from its start until it is killed."""

    def __init__(self, world: World, name: str, keeper: keeping.Keeper, terms: Terms, steps: int | None) -> None:
        self.world, self.is_dead = world, False
        self.steps_left, self.steps = steps, 0
        self.receipts = KeptReceipts(name, self, keeper)
        carrier: Any = Carrier(self)
        self.pharmacy = Pharmacy(NAME, carrier, self.receipts, lambda *_words, **_facts: None)
        self.counter = Counter(self.pharmacy, self.receipts, terms, lambda *_words, **_facts: None)
        self._owed = Owed({NAME: self.counter}, self.receipts, terms.grace, lambda *_words, **_facts: None)
        self._tasks: list[asyncio.Task[Any]] = []
        self.died: asyncio.Future[None] = asyncio.get_running_loop().create_future()

    def step(self) -> None:
        """Something is about to happen, or has; this may be the last of it."""
        if self.is_dead:
            raise Killed
        self.steps += 1
        if self.steps_left is not None and self.steps > self.steps_left:
            self.kill()
            raise Killed

    def kill(self) -> None:
        if not self.is_dead:
            self.is_dead = True
            self.died.set_result(None)
            for task in (*self._tasks, *self.counter._tasks, *self.counter._entering.values()):
                task.cancel()

    async def begin(self) -> None:
        await self._owed.begin()
        self._tasks = [asyncio.create_task(it) for it in (self.pharmacy.look_for_ever(), self._owed.look_for_ever())]

    async def until_killed(self, work: Coroutine[Any, Any, Any]) -> Any:
        """What comes of some work; None where the front is killed before."""
        task = asyncio.create_task(work)
        self._tasks.append(task)
        await asyncio.wait({task, self.died}, return_when=asyncio.FIRST_COMPLETED)
        if self.is_dead or not task.done():
            return None
        self._tasks.remove(task)
        with contextlib.suppress(Killed, asyncio.CancelledError):
            return task.result()
        return None

    async def asked(self, message: bytes, key: str | None, seconds: float) -> bytes | None:
        """What a caller is told; None where the front dies before."""
        return await self.until_killed(self._asked(message, key, seconds))

    async def _asked(self, message: bytes, key: str | None, seconds: float) -> bytes:
        try:
            answer = (await self.counter.answer(message, key, seconds, lambda: True)).answer
        except Problem as problem:
            answer = self.counter.refused(message, problem)
        self.step()
        return answer
