"""Frames over TCP before a counter that answers when it is told to, for tests/front-pieces: how many are taken at once, what of answers is kept for who
does not read them, and whether a caller who has gone is thought to be there."""

import asyncio
import contextlib
import types

import network
from front_calls import billing
from network import expect

IDENTITY = {"ph1": (b"01", b"1234567893     ")}
# An answer that is read, and one of which 40 are more than may wait to be read.
SHORT = b"D0B11A" + b"".join(IDENTITY["ph1"]) + b"20240115"
LONG = SHORT + b"x" * 30_000
FRAMES = 4000


class Counter:
    """Answers each message with the same bytes, once it may."""

    def __init__(self, answer):
        self._answer, self.may = answer, asyncio.Event()
        self.begun, self.are_there = 0, []

    async def answer(self, _message, _key, _seconds, is_there):
        self.begun += 1
        self.are_there.append(is_there)
        await self.may.wait()
        return types.SimpleNamespace(answer=self._answer)

    async def rests(self):
        """How many have begun, once no more do."""
        before = -1
        while self.begun != before:
            before = self.begun
            await asyncio.sleep(1)
        return before


@contextlib.asynccontextmanager
async def called(counter):
    """A port of frames before a counter, and a connection to it that reads little by itself."""
    from front_service.connections import Connections
    from front_service.framed import Framed
    from front_service.lines import Seldom
    from front_service.stores import Stores

    port = network.free_port()
    framed = Framed({"ph1": counter}, Stores(IDENTITY), None, "stx", 60)
    await framed.start(("127.0.0.1", port), None, Connections(Seldom(lambda *_, **__: None)))
    reader, writer = await asyncio.open_connection("127.0.0.1", port, limit=1 << 12)
    try:
        yield reader, writer
    finally:
        writer.close()
        await framed.close()


async def frames():
    """So many messages of a connection are under way at once; answers that are not read stop what is taken; who hangs up is not there."""
    from front_service.framed import MOST_AT_ONCE

    counter = Counter(SHORT)
    async with called(counter) as (reader, writer):
        writer.write((b"\x02" + billing(1) + b"\x03") * FRAMES)
        begun = await counter.rests()
        expect(begun == MOST_AT_ONCE, f"{begun} messages of one connection are under way")
        counter.may.set()
        for _ in range(FRAMES):
            expect(await reader.readuntil(b"\x03") == b"\x02" + SHORT + b"\x03", "an answer is no frame")
        counter.may.clear()
        writer.write(b"\x02" + billing(1) + b"\x03")
        await counter.rests()
        expect(counter.are_there[-1](), "who is there has gone")
        writer.close()
        await asyncio.sleep(0.5)
        expect(not counter.are_there[-1](), "who has gone is there")
    counter = Counter(LONG)
    counter.may.set()
    async with called(counter) as (reader, writer):
        writer.write((b"\x02" + billing(1) + b"\x03") * FRAMES)
        begun = await counter.rests()
        expect(begun < FRAMES / 4, f"{begun} answers of {len(LONG)} bytes are made for who reads none")
