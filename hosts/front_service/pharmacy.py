"""A pharmacy's node as the front sees it: what it is told, and answers as soon as the node has them."""

from __future__ import annotations

import asyncio
import contextlib
import hashlib
import re
from collections.abc import Callable

import nats
import subjects

from .printed import printed, unprinted
from .problems import Problem
from .receipts import Receipts

# How long a node may take to reply; to a message, which is submitted again then, under the same reference.
REPLY_SECONDS = 5.0
SUBMIT_SECONDS = 2.0
# A host that waits on a caller's behalf may have ended meanwhile, and knows nothing of it then: it is asked again so often.
ASK_AGAIN_SECONDS = 3.0
# A host that waits for nobody is asked so often, and one that is down or full.
POLL_SECONDS = 0.02
BUSY_SECONDS = 0.2
# How often it is looked at what came by other ways and what nobody waits for, and how much at once.
LOOK_SECONDS = 2.0
LOOK_AT_ONCE = 64
MOST_BYTES = 32_768
# A key that is a reference as it stands: printed bytes that spell themselves, and no digest, which is another key's reference.
REFERENCE = re.compile(r"(?![0-9a-f]{64}$)[!-\[\]-~]{1,64}")


def reference_of(key: str) -> bytes:
    """Under which reference the node knows a key: the key, or the digest of one that is no reference."""
    return key.encode() if REFERENCE.fullmatch(key) else hashlib.sha256(key.encode()).hexdigest().encode()


class Wait:
    """The question for an answer that some callers have: who they are, under which name its reply is heard, and when it is asked next."""

    def __init__(self) -> None:
        self.callers: set[asyncio.Future[bytes | None]] = set()
        self.reply = ""
        self.poll = POLL_SECONDS
        self.again: asyncio.TimerHandle | None = None


class Pharmacy:
    """A pharmacy, and the connection on which its caller comes."""

    def __init__(self, name: str, carrier: nats.Connection, receipts: Receipts, say: Callable[..., None]) -> None:
        self.name = name
        self._carrier, self._receipts, self._say = carrier, receipts, say
        self._waits: dict[int, Wait] = {}
        self._host_waits = True
        self._writes: set[asyncio.Future[None]] = set()
        # All numbers up to this one are known.
        self._looked = 0
        self.listeners: set[asyncio.Queue[int]] = set()

    @property
    def is_connected(self) -> bool:
        return self._carrier.is_open.is_set()

    async def submit_as(self, key: str, message: bytes) -> tuple[int | None, str]:
        """The number of the entry of a message: that of an earlier try under this key, where there was one, else of a new one; or no number,
        and the name of the refusal. Problem where the node says nothing: it may have entered the message all the same.
        """
        reply = await self._ask(b"submit-as %s %s" % (reference_of(key), printed(message)), SUBMIT_SECONDS)
        word, _, told = reply.partition(b" ")
        if word in (b"number", b"known"):
            return int(told), ""
        return None, told.decode(errors="replace")

    def expect(self, number: int) -> None:
        """Has the answer to an entry noted as soon as it is there, though nobody waits for it."""
        self._begin(number)

    async def wait(self, number: int, seconds: float) -> bytes | None:
        """The answer to an entry, or None where it has none within so many seconds."""
        loop = asyncio.get_running_loop()
        caller: asyncio.Future[bytes | None] = loop.create_future()
        waiting = self._begin(number)
        waiting.callers.add(caller)
        late = loop.call_later(max(0.0, seconds), _give_up, caller)
        try:
            return await caller
        finally:
            late.cancel()
            waiting.callers.discard(caller)

    async def look_for_ever(self) -> None:
        """Learns what is known of entries that nobody waits for, and of those that came by another way than the front."""
        open_after = 0
        while True:
            try:
                await self._look_beyond()
                open_after = await self._look_at_open(open_after)
            except Problem as problem:
                self._say("a pharmacy does not say what is open", "warning", pharmacy=self.name, name=problem.name)
            await asyncio.sleep(LOOK_SECONDS)

    async def _look_beyond(self) -> None:
        """Notes entries that came by another way, also those below numbers that the front has: a node numbers without gaps. Of those behind
        the last known one a single one is asked for, where there is none."""
        text = "SELECT number FROM claims WHERE pharmacy = ? AND number > ? AND number <= ?"
        at_once = 1
        while self.is_connected:
            upto = self._looked + at_once
            known = {row[0] for row in await self._receipts.rows(text, self.name, self._looked, upto)}
            last = max(known, default=self._looked)
            asked = [it for it in range(self._looked + 1, min(upto, last + at_once) + 1) if it not in known]
            replies = await asyncio.gather(*(self._ask(b"answer %d" % it, REPLY_SECONDS) for it in asked))
            absent = []
            for number, reply in zip(asked, replies):
                if reply == b"open" or reply.startswith(b"answer "):
                    await self._note(number, reply)
                else:
                    absent.append(number)
            self._looked = absent[0] - 1 if absent else max(asked[-1] if asked else last, last)
            if absent:
                return
            at_once = min(2 * at_once, LOOK_AT_ONCE)

    async def _look_at_open(self, after: int) -> int:
        """Asks about some open entries behind a number; the number behind which others stand."""
        text = "SELECT number FROM claims WHERE pharmacy = ? AND answer IS NULL AND number > ? ORDER BY number LIMIT ?"
        numbers: list[int] = [row[0] for row in await self._receipts.rows(text, self.name, after, LOOK_AT_ONCE)]
        if self.is_connected:
            replies = await asyncio.gather(*(self._ask(b"answer %d" % it, REPLY_SECONDS) for it in numbers))
            for number, reply in zip(numbers, replies):
                if reply.startswith(b"answer "):
                    await self._note(number, reply)
        return numbers[-1] if len(numbers) == LOOK_AT_ONCE else 0

    async def look_at(self, number: int) -> None:
        """Learns what the node knows of an entry."""
        reply = await self._ask(b"answer %d" % number, REPLY_SECONDS)
        if reply == b"open" or reply.startswith(b"answer "):
            await self._note(number, reply)

    async def _note(self, number: int, reply: bytes) -> None:
        await self._receipts.seen(self.name, number, unprinted(reply[7:]) if reply.startswith(b"answer ") else None)
        if reply.startswith(b"answer "):
            waiting = self._waits.get(number)
            if waiting is not None:
                self._answered(number, waiting, unprinted(reply[7:]))
            self._tell(number)

    async def _ask(self, line: bytes, seconds: float) -> bytes:
        """The node's reply; Problem where none comes: what was asked may have been done all the same."""
        reply = await self._carrier.request(subjects.calls(self.name), line, seconds)
        if reply is None:
            raise Problem("NoReply")
        return reply

    def _begin(self, number: int) -> Wait:
        """Has the host asked for an answer, once for all who wait for it."""
        waiting = self._waits.get(number)
        if waiting is None:
            waiting = self._waits[number] = Wait()
        if waiting.again is None:
            self._ask_for(number, waiting)
        return waiting

    def _ask_again(self, number: int, waiting: Wait) -> None:
        """Asks once more, where somebody waits: the host may have been started anew, and knows nothing of it then. Where nobody waits any
        more its reply is heard all the same, and of what a host has forgotten it is looked (look_for_ever)."""
        waiting.again = None
        if waiting.callers:
            self._ask_for(number, waiting)

    def _ask_for(self, number: int, waiting: Wait) -> None:
        self._carrier.forget(waiting.reply)
        word = b"wait" if self._host_waits else b"answer"
        waiting.reply = self._carrier.ask(
            subjects.calls(self.name), b"%s %d" % (word, number), lambda reply: self._heard(number, waiting, reply)
        )
        self._later(ASK_AGAIN_SECONDS, number, waiting)

    def _later(self, seconds: float, number: int, waiting: Wait) -> None:
        if waiting.again is not None:
            waiting.again.cancel()
        waiting.again = asyncio.get_running_loop().call_later(seconds, self._ask_again, number, waiting)

    def _heard(self, number: int, waiting: Wait, reply: bytes) -> None:
        """What the host says of an entry that callers wait for."""
        if reply.startswith(b"answer "):
            answer = unprinted(reply[7:])
            self._answered(number, waiting, answer)
            self._settle(number, answer)
            return
        if reply == b"none":
            for caller in waiting.callers:
                if not caller.done():
                    caller.set_exception(Problem("NoSuchClaim"))
            self._end(number, waiting)
            return
        if reply == b"refused Line":
            self._host_waits = False
        self._later(waiting.poll if reply == b"open" else BUSY_SECONDS, number, waiting)
        waiting.poll = min(waiting.poll * 1.2, BUSY_SECONDS)

    def _answered(self, number: int, waiting: Wait, answer: bytes) -> None:
        """Hands an answer to all who wait for it."""
        for caller in waiting.callers:
            if not caller.done():
                caller.set_result(answer)
        self._end(number, waiting)

    def _end(self, number: int, waiting: Wait) -> None:
        """An entry has its answer, or there is no such entry."""
        self._carrier.forget(waiting.reply)
        if waiting.again is not None:
            waiting.again.cancel()
        if self._waits.get(number) is waiting:
            del self._waits[number]

    def _settle(self, number: int, answer: bytes) -> None:
        """Notes an answer. Nobody waits for the note: the node has the answer on disk."""
        noted = self._receipts.seen(self.name, number, answer)
        self._writes.add(noted)
        noted.add_done_callback(self._noted)
        self._tell(number)

    def _noted(self, noted: asyncio.Future[None]) -> None:
        self._writes.discard(noted)
        if not noted.cancelled() and noted.exception() is not None:
            self._say("an answer is not noted", "warning", pharmacy=self.name)

    def _tell(self, number: int) -> None:
        for listener in self.listeners:
            with contextlib.suppress(asyncio.QueueFull):
                listener.put_nowait(number)


def _give_up(caller: asyncio.Future[bytes | None]) -> None:
    if not caller.done():
        caller.set_result(None)
