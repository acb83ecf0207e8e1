"""Claims of a pharmacy at its counter: each caller has an answer in time, one of the standard's, and what a caller was not told does not stand.

A message goes in once for each key, or where it has none for its bytes, as long as nobody was told of its answer. Messages of one fill go in
one behind another: the next once that before it has its answer. Who has no answer in time is rejected, and the claim is given up
(given_up.py): asked for again its answer is told, where it has come; what was paid and nobody asked for any more is reversed, under a number
of its own, until that is answered."""

from __future__ import annotations

import asyncio
import collections
import contextlib
import secrets
import sqlite3
from collections.abc import AsyncIterator, Callable, Coroutine, Iterable
from typing import Any, NamedTuple

from .given_up import WAS_REFUSED
from .pharmacy import MOST_BYTES, Pharmacy
from .problems import Problem
from .profile import Refusal, not_carried, refusal_of
from .receipts import TOLD, Receipt, Receipts, digest_of
from .rejections import rejected
from .standard import rejection, rejection_of_others, touches_of

# What a host refuses before its node looks for the reference: an earlier try may have entered the message all the same.
OF_HOSTS = ("Busy", "WouldBeFull")
# Between two tries to submit what may have been entered, and what the front itself has to submit.
AGAIN_SECONDS = 0.5
MOST_AGAIN_SECONDS = 10.0
# How often it is looked whether something is to be taken back, at most.
LOOK_SECONDS = 1.0


class Refused(Problem):
    """A message that is not taken, with the reject code of each transaction."""

    def __init__(self, refusal: Refusal) -> None:
        super().__init__(refusal.name, field=refusal.field)
        self.codes = refusal.codes


class Told(NamedTuple):
    """What a caller is told: the answer, and what is kept of the claim, or why nothing is."""

    answer: bytes
    receipt: Receipt | None = None
    name: str = ""


class Terms(NamedTuple):
    """How callers are answered: the reject code of what is not answered in time, for how many seconds a caller may come back for an answer
    before what was paid is reversed, and whether what the profile cannot judge is taken."""

    late: str = "95"
    grace: float = 60.0
    is_lenient: bool = False


class Lanes:
    """Who waits for which prescription, in the order in which they came."""

    def __init__(self) -> None:
        self._lanes: dict[str, collections.deque[asyncio.Future[None]]] = {}

    def are_free(self, names: Iterable[str]) -> bool:
        return all(name not in self._lanes for name in names)

    @contextlib.asynccontextmanager
    async def held(self, names: Iterable[str], until: float) -> AsyncIterator[None]:
        """Holds these lanes; TimeoutError where they are not free in time."""
        taken: list[str] = []
        try:
            for name in sorted(set(names)):
                await self._enter(name, until)
                taken.append(name)
            yield
        finally:
            for name in taken:
                self._leave(name)

    async def _enter(self, name: str, until: float) -> None:
        loop = asyncio.get_running_loop()
        lane, turn = self._lanes.setdefault(name, collections.deque()), loop.create_future()
        lane.append(turn)
        if lane[0] is turn:
            turn.set_result(None)
            return
        try:
            await asyncio.wait({turn}, timeout=max(0.0, until - loop.time()))
        except asyncio.CancelledError:
            # Whoever is told to end here leaves the lane, also where it is its turn just now.
            self._leave(name) if turn.done() else lane.remove(turn)
            raise
        if not turn.done():
            lane.remove(turn)
            raise TimeoutError

    def _leave(self, name: str) -> None:
        lane = self._lanes[name]
        lane.popleft()
        if lane:
            lane[0].set_result(None)
        else:
            del self._lanes[name]


class Counter:
    """The counter of a pharmacy."""

    def __init__(self, pharmacy: Pharmacy, receipts: Receipts, terms: Terms, say: Callable[..., None]) -> None:
        self.pharmacy, self.terms = pharmacy, terms
        self._receipts, self._say = receipts, say
        self._lanes = Lanes()
        # Messages whose numbers are asked for, by their keys.
        self._entering: dict[str, asyncio.Task[int]] = {}
        self._tasks: set[asyncio.Task[Any]] = set()

    async def close(self) -> None:
        for task in (*self._entering.values(), *self._tasks):
            task.cancel()
        await asyncio.gather(*self._entering.values(), *self._tasks, return_exceptions=True)

    async def answer(self, message: bytes, key: str | None, seconds: float, is_there: Callable[[], bool]) -> Told:
        """What the caller of a message is told, within so many seconds; Problem where nothing was entered. `is_there` says whether there
        still is a caller to be told."""
        until = asyncio.get_running_loop().time() + seconds
        receipt = await self._placed(message, key, until)
        if receipt is None:
            return Told(await self._late(message), None, "FillOpen")
        answer = receipt.answer or await self._answer_of(receipt, until)
        kept: Receipt | None
        if not is_there():
            kept = await self._receipts.give_up(self.pharmacy.name, _key_of(receipt), "")
        elif answer is not None:
            kept = await self._told_of(receipt, answer)
        else:
            kept = await self._receipts.give_up(self.pharmacy.name, _key_of(receipt), self.terms.late)
        if kept is None:
            return Told(await self._late(message), None, "NoReply")
        if kept.told == TOLD and kept.answer is not None:
            return Told(kept.answer, kept)
        return Told(await self._late(message, kept.code), kept)

    async def enter(self, message: bytes, key: str | None, seconds: float, least: float) -> Receipt:
        """The receipt of a message whose caller asks for the answer by itself: with the answer, where it is there in so many seconds. Problem
        where nothing was entered, or where nobody knows that within the least time that this takes."""
        loop = asyncio.get_running_loop()
        until, least_until = loop.time() + seconds, loop.time() + max(seconds, least)
        receipt = await self._placed(message, key, least_until)
        if receipt is None:
            raise Problem("FillOpen")
        if receipt.number is None and receipt.repeats is None:
            number = await self._number_of(receipt, least_until)
            if number is None:
                raise Problem("NoReply")
            receipt = receipt._replace(number=number)
        answer = receipt.answer or (await self._answer_of(receipt, until) if seconds else None)
        if answer is not None:
            return await self._told_of(receipt, answer) or receipt
        await self._receipts.hand_over(self.pharmacy.name, _key_of(receipt))
        return receipt if receipt.code is not None else receipt._replace(told=TOLD)

    def go_on(self, receipt: Receipt) -> None:
        """Has a message entered of which an earlier front did not note whether it was, or a reversal of the front's own."""
        self._begin(receipt, False)

    # The steps of a message.

    async def _placed(self, message: bytes, key: str | None, until: float) -> Receipt | None:
        """The row of a message, which is being entered where it is new; None where another message of its fill is open for so long."""
        if len(message) > MOST_BYTES:
            raise Problem("TooLong")
        refusal = None if self.terms.is_lenient else not_carried(message)
        if refusal is not None:
            raise Refused(refusal)
        # What was asked of the receipts is done, whatever becomes of the caller: so this is a task of its own.
        reserving: asyncio.Task[tuple[str, Receipt | None, Any]] = self._spawn(self._reserved(message, key, until))
        word, receipt, more = await asyncio.shield(reserving)
        if word == "secondary":
            place, why = more
            raise Refused(refusal_of(place, why, message))
        if receipt is not None and receipt.digest != digest_of(message):
            raise Problem("KeyReused")
        return receipt

    async def _reserved(self, message: bytes, key: str | None, until: float) -> tuple[str, Receipt | None, Any]:
        """The row of a message in the receipts, once those before it of its fills have their answers."""
        name, fresh = self.pharmacy.name, f"bytes-{secrets.token_urlsafe(16)}"
        lanes = {it.prescription for it in touches_of(message)}
        ask = (name, key, fresh, message, self.terms.is_lenient, self.terms.grace)
        if not self._lanes.are_free(lanes):
            there = await self._receipts.there(name, key, message, self.terms.grace)
            if there is not None:
                self._hold(there)
                return "there", there, None
        try:
            async with self._lanes.held(lanes, until):
                while True:
                    word, receipt, more = await self._receipts.reserve(*ask)
                    if receipt is None:
                        return word, None, more
                    if word == "new":
                        self._begin(receipt, True)
                    self._hold(receipt)
                    if word != "open":
                        return word, receipt, more
                    await self._settled(receipt, until)
        except TimeoutError:
            return "late", None, None

    async def _settled(self, receipt: Receipt, until: float) -> None:
        """Waits until a message has its answer, or was refused; TimeoutError where that is not so in time."""
        number = receipt.number
        with contextlib.suppress(Problem):
            number = number or await self._number_of(receipt, until)
            if number is not None:
                answer = await self.pharmacy.wait(number, until - asyncio.get_running_loop().time())
                if answer is not None:
                    await self._receipts.seen(self.pharmacy.name, number, answer)
                    return
        if asyncio.get_running_loop().time() >= until:
            raise TimeoutError
        await asyncio.sleep(0.05)

    async def _answer_of(self, receipt: Receipt, until: float) -> bytes | None:
        """The answer to a message, where it is there in time."""
        number = receipt.number or await self._number_of(receipt, until)
        if number is None:
            return None
        return await self.pharmacy.wait(number, until - asyncio.get_running_loop().time())

    async def _number_of(self, receipt: Receipt, until: float) -> int | None:
        """The number of a message that is being entered, where it is known in time; Problem where it was refused."""
        entering = self._begin(receipt, False)
        await asyncio.wait({entering}, timeout=max(0.0, until - asyncio.get_running_loop().time()))
        return entering.result() if entering.done() else None

    def _hold(self, receipt: Receipt) -> None:
        """Has the number of a message asked for, where it is not known: as of this moment its row is there."""
        if receipt.number is None and receipt.repeats is None:
            self._begin(receipt, False)

    def _begin(self, receipt: Receipt, is_new: bool) -> asyncio.Task[int]:
        """Has a message entered, once."""
        key = _key_of(receipt)
        entering = self._entering.get(key)
        if entering is None:
            work = self._taken_back(receipt) if receipt.is_own else self._enter(receipt, is_new)
            entering = self._entering[key] = asyncio.create_task(work)
            entering.add_done_callback(lambda task: self._entered(key, task))
        return entering

    def _entered(self, key: str, task: asyncio.Task[int]) -> None:
        del self._entering[key]
        if not task.cancelled() and task.exception() is not None and not isinstance(task.exception(), Problem):
            self._say("a message is not entered", "error", kind=type(task.exception()).__name__)

    async def _enter(self, receipt: Receipt, is_new: bool) -> int:
        """The number of a message, which its node is asked for until it says something; Problem where it refuses it."""
        key, message = _key_of(receipt), receipt.request or b""
        if not is_new and await self._receipts.of_key(self.pharmacy.name, key) is None:
            raise Problem("NoReply")
        while True:
            try:
                number, name = await self.pharmacy.submit_as(key, message)
            except Problem:
                is_new = False
                await asyncio.sleep(AGAIN_SECONDS)
                continue
            if number is not None:
                await self._note_number(key, number)
                return number
            if is_new or name not in OF_HOSTS:
                await self._receipts.forget(self.pharmacy.name, key)
                raise Problem("KeyReused" if name == "ReferenceReused" else name)
            await asyncio.sleep(AGAIN_SECONDS)

    async def _note_number(self, key: str, number: int) -> None:
        """Notes the number of a key. Its answer may be on its way meanwhile, which takes a sync."""
        self.pharmacy.expect(number)
        while True:
            try:
                await self._receipts.number(self.pharmacy.name, key, number)
                return
            except sqlite3.Error as fault:
                self._say("a number is not noted", "error", pharmacy=self.pharmacy.name, why=str(fault))
                await asyncio.sleep(AGAIN_SECONDS)

    async def _taken_back(self, receipt: Receipt) -> int:
        """The number of a reversal of the front's own, which is submitted until it has one; its answer is noted when it comes."""
        key, wait = _key_of(receipt), AGAIN_SECONDS
        while True:
            try:
                number, name = await self.pharmacy.submit_as(key, receipt.request or b"")
            except Problem as problem:
                number, name = None, problem.name
            if number is not None:
                await self._note_number(key, number)
                return number
            self._say("a reversal of the front is not taken", "error", pharmacy=self.pharmacy.name, name=name)
            await asyncio.sleep(wait)
            wait = min(2 * wait, MOST_AGAIN_SECONDS)

    # What is told.

    async def _told_of(self, receipt: Receipt, answer: bytes) -> Receipt | None:
        """The row of a message once it is noted that its answer is told."""
        if receipt.repeats is not None or (receipt.told == TOLD and receipt.answer is not None):
            return receipt
        return await self._receipts.tell(self.pharmacy.name, _key_of(receipt), answer)

    async def _late(self, message: bytes, code: str | None = None) -> bytes:
        """What is told where there is no answer in time. Of transactions that somebody was told of as they stand nobody is told no."""
        told = await self._receipts.told_before(self.pharmacy.name, message, self.terms.grace)
        return rejection_of_others(message, told, (code or self.terms.late).encode())

    def refused(self, message: bytes, problem: Problem) -> bytes:
        """The answer to a message of which nothing was entered, or nobody knows."""
        if problem.name == "NoReply":
            return rejection(message, (self.terms.late.encode(),))
        return rejected(message, problem.name, problem.codes if isinstance(problem, Refused) else ())

    def _spawn(self, work: Coroutine[Any, Any, Any]) -> asyncio.Task[Any]:
        task = asyncio.create_task(work)
        self._tasks.add(task)
        task.add_done_callback(self._tasks.discard)
        return task


def _key_of(receipt: Receipt) -> str:
    assert receipt.key is not None
    return receipt.key


class Owed:
    """What the front owes to those whom it told nothing, or no: it is taken back, for all pharmacies."""

    def __init__(
        self, counters: dict[str, Counter], receipts: Receipts, grace: float, say: Callable[..., None]
    ) -> None:
        self._counters, self._receipts, self._grace, self._say = counters, receipts, grace, say

    async def begin(self) -> None:
        """Goes on with what an earlier front left, before anybody calls."""
        for receipt in await self._receipts.adopt(list(self._counters), self._grace):
            self._counters[receipt.pharmacy].go_on(receipt)

    async def look_for_ever(self) -> None:
        """Takes back what is due, time and again."""
        while True:
            await asyncio.sleep(min(LOOK_SECONDS, max(self._grace / 4, 0.05)))
            await self.look()

    async def look(self) -> None:
        try:
            made, ended = await self._receipts.due(list(self._counters), self._grace)
        except sqlite3.Error as fault:
            self._say("nothing can be taken back", "error", why=str(fault))
            return
        for receipt in made:
            self._say("a payment that nobody was told of is taken back", "warning", pharmacy=receipt.pharmacy)
            self._counters[receipt.pharmacy].go_on(receipt)
        for pharmacy, number, outcome in ended:
            if outcome == WAS_REFUSED:
                self._say("the reversal of a payment is rejected", "error", pharmacy=pharmacy, number=number)
