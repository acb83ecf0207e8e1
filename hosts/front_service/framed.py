"""Claims over TCP as pharmacy systems speak: a framed message in, its framed answer out on the same connection, many at a time.

A frame is a message between the bytes 0x02 and 0x03, or behind its length in two or four bytes, the high byte first. Answers come in the
order in which they are there, each once; a caller that has one message on its way at a time need not look further. Each frame gets an answer
of the standard, from a payer, or from the front itself: a rejection (rejections.py). No other word is written here.

A message whose very bytes stand in an entry whose answer was told to nobody is that entry sent again. A caller that closes its side has gone.
"""

from __future__ import annotations

import asyncio
import contextlib
import ssl
from collections.abc import Callable

from .connections import Connections, Listener, listen_for_streams
from .counter import Counter
from .eligibility import Eligibility, is_asked
from .helpers import Ended
from .pharmacy import MOST_BYTES
from .problems import Problem, problem_of
from .rejections import rejected
from .standard import REQUEST_HEADER
from .stores import Stores

FRAMINGS = ("stx", "length2", "length4")
START, END = b"\x02", b"\x03"
# How many messages of one connection may be on their way, and how long a silent one is kept.
MOST_AT_ONCE = 256
SILENT_SECONDS = 600.0
# How long a caller may take over one frame, once it has begun.
FRAME_SECONDS = 30.0
# Frames beyond that have to be read by the caller before more of its messages are taken.
MOST_UNREAD_BYTES = 1 << 20


class BadFrame(Exception):
    """What no frame is: the connection ends, since nothing behind it can be told apart."""


async def read_frame(reader: asyncio.StreamReader, framing: str) -> bytes | None:
    """The next message; None at the end of the connection."""
    async with asyncio.timeout(SILENT_SECONDS):
        first = await reader.read(1)
    if not first:
        return None
    async with asyncio.timeout(FRAME_SECONDS):
        if framing == "stx":
            if first != START:
                raise BadFrame("a frame begins with 0x02")
            return (await reader.readuntil(END))[:-1]
        size = int.from_bytes(first + await reader.readexactly((2 if framing == "length2" else 4) - 1))
        if size > MOST_BYTES:
            raise BadFrame(f"a message has at most {MOST_BYTES} bytes")
        return await reader.readexactly(size)


def framed(message: bytes, framing: str) -> bytes:
    if framing == "stx":
        return START + message + END
    return len(message).to_bytes(2 if framing == "length2" else 4) + message


class Caller:
    """Who is at the other end of a connection, for as long as it is there."""

    def __init__(self, writer: asyncio.StreamWriter, framing: str) -> None:
        self._writer, self._framing = writer, framing
        self._has_left = False

    def leave(self) -> None:
        self._has_left = True

    def is_there(self) -> bool:
        return not self._has_left and not self._writer.is_closing()

    def write(self, answer: bytes) -> None:
        if self.is_there():
            self._writer.write(framed(answer, self._framing))


class Framed:
    """A port of one or several pharmacies."""

    def __init__(
        self,
        counters: dict[str, Counter],
        stores: Stores,
        eligibility: Eligibility,
        framing: str,
        seconds: float,
    ) -> None:
        self._counters, self._stores, self._eligibility = counters, stores, eligibility
        self._framing, self._seconds = framing, seconds
        self._connections: set[asyncio.Task[None]] = set()
        # Messages whose answers are on their way, also of callers that have gone: what becomes of them is noted.
        self._works: set[asyncio.Task[None]] = set()
        self._server: Listener | None = None

    async def start(self, at: tuple[str, int], tls: ssl.SSLContext | None, connections: Connections) -> None:
        self._seldom = connections.seldom
        self._server = listen_for_streams(connections, self._serve, at, tls, MOST_BYTES + 2)

    async def close(self) -> None:
        if self._server is not None:
            self._server.close()
        for task in (*self._connections, *self._works):
            task.cancel()
        await asyncio.gather(*self._connections, *self._works, return_exceptions=True)

    async def _serve(self, reader: asyncio.StreamReader, writer: asyncio.StreamWriter) -> None:
        task = asyncio.current_task()
        assert task is not None
        self._connections.add(task)
        caller = Caller(writer, self._framing)
        works: set[asyncio.Task[None]] = set()
        try:
            await self._read(reader, writer, caller, works)
        except (BadFrame, asyncio.LimitOverrunError):
            # What came before is answered; behind this nothing can be told apart.
            caller.write(rejected(b"", "Frame"))
            await asyncio.gather(*works)
        except asyncio.IncompleteReadError:
            caller.write(rejected(b"", "Frame"))
        except (OSError, TimeoutError):
            pass
        finally:
            self._connections.discard(task)
            caller.leave()
            with contextlib.suppress(OSError):
                writer.close()

    async def _read(
        self,
        reader: asyncio.StreamReader,
        writer: asyncio.StreamWriter,
        caller: Caller,
        works: set[asyncio.Task[None]],
    ) -> None:
        while (message := await read_frame(reader, self._framing)) is not None:
            if len(works) >= MOST_AT_ONCE:
                await asyncio.wait(works, return_when=asyncio.FIRST_COMPLETED)
            if writer.transport.get_write_buffer_size() > MOST_UNREAD_BYTES:
                await writer.drain()
            work = asyncio.create_task(self._answer(message, caller))
            for some in (works, self._works):
                some.add(work)
                work.add_done_callback(some.discard)

    async def _answer(self, message: bytes, caller: Caller) -> None:
        """Has a message answered."""
        try:
            caller.write(await self._answer_to(message, caller))
        except Ended:
            # What was noted last nobody knows, so nothing is said; the front ends.
            return
        except Exception as fault:  # noqa: BLE001: a frame for a frame, whatever it is
            caller.write(rejected(message, problem_of(fault, self._seldom).name))

    async def _answer_to(self, message: bytes, caller: Caller) -> bytes:
        if is_asked(message):
            return await self._eligibility.answer(message, self._seconds)
        name = self._stores.of(message, self._counters)
        if name is None:
            return rejected(message, "NotOwnProvider" if len(message) >= REQUEST_HEADER else "Unreadable")
        counter, entered = self._counters[name], self._stores.entered(name, message)
        try:
            told = (await counter.answer(entered, None, self._seconds, caller.is_there)).answer
        except Problem as problem:
            told = counter.refused(entered, problem)
        return self._stores.answered(message, told)
