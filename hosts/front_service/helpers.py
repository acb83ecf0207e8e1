"""Processes of the front's own, which work beside its one thread: what is asked of one goes over a socket, and comes back in any order.

A frame is its length in four bytes, and a list in the form of `marshal`: of (number, name, values) on the way there, of (number, whether it went
well, value) on the way back. All that is asked in one turn of the loop goes in one frame.
"""

from __future__ import annotations

import asyncio
import collections
import contextlib
import itertools
import marshal
import pathlib
import signal
import socket
import subprocess
import sys
from collections.abc import Callable
from typing import Any

from said import Said

from . import memory
from .lines import Seldom, take_over

HEAD = 4
# Less than is mapped by itself (memory.py).
READ_BYTES = 1 << 16
READY_SECONDS = 60.0
END_SECONDS = 20.0
REAP_SECONDS = 0.2


class Ended(OSError):
    """A process of the front's own has ended, and with it what it was asked: nobody knows whether it was done."""

    def __init__(self, script: str, status: int | None) -> None:
        super().__init__(f"a process of the front has ended: {script}, status {status}")


class Failed(OSError):
    """A process of the front's own could not do what it was asked, and did nothing: its disk is full, or fails. Why it says itself."""


def framed(some: list[Any]) -> bytes:
    data = marshal.dumps(some)
    return len(data).to_bytes(HEAD) + data


def unframed(data: bytearray) -> list[Any]:
    """All that whole frames at the front of these bytes have; they are taken off."""
    found, at = [], 0
    while len(data) >= at + HEAD:
        end = at + HEAD + int.from_bytes(data[at : at + HEAD])
        if len(data) < end:
            break
        found += marshal.loads(data[at + HEAD : end])
        at = end
    del data[:at]
    return found


class Helper:
    """A process of a script of this folder, with these words; it is started here. Where others want what it makes as it starts, it is ready when
    this returns."""

    def __init__(self, script: str, *words: str, is_awaited: bool = False) -> None:
        self._script = script
        self._loop = asyncio.get_running_loop()
        self._socket, theirs = socket.socketpair()
        command = [sys.executable, "-B", str(pathlib.Path(__file__).with_name(script)), *words]
        self._process = subprocess.Popen(command, stdin=theirs.fileno(), stdout=theirs.fileno())
        theirs.close()
        self._numbers = itertools.count(1)
        self._waiting: dict[int, asyncio.Future[Any]] = {}
        self._asked: list[tuple[int, str, tuple[Any, ...]]] = []
        self._unsent: collections.deque[memoryview] = collections.deque()
        self._came = bytearray()
        self.ended: asyncio.Future[None] = self._loop.create_future()
        if is_awaited:
            self._socket.settimeout(READY_SECONDS)
            if not self._socket.recv(HEAD + len(marshal.dumps([]))):
                raise OSError(f"{script} did not start")
        self._socket.setblocking(False)
        self._loop.add_reader(self._socket, self._hear)

    def ask(self, name: str, *values: Any) -> asyncio.Future[Any]:
        """What comes of a question, in the end."""
        done: asyncio.Future[Any] = self._loop.create_future()
        if self.ended.done():
            done.set_exception(Ended(self._script, self._process.returncode))
            return done
        number = next(self._numbers)
        self._waiting[number] = done
        if not self._asked:
            self._loop.call_soon(self._send_asked)
        self._asked.append((number, name, values))
        return done

    async def close(self) -> None:
        """Ends the process, once it has done what it was asked."""
        if self._waiting:
            await asyncio.wait([*self._waiting.values()], timeout=END_SECONDS)
        self.kill()

    def kill(self) -> None:
        """Ends the process at once."""
        self._end()
        self._process.kill()
        self._process.wait()

    def _send_asked(self) -> None:
        asked, self._asked = self._asked, []
        was_sent = not self._unsent
        self._unsent.append(memoryview(framed(asked)))
        if was_sent:
            self._send()

    def _send(self) -> None:
        try:
            while self._unsent:
                sent = self._socket.send(self._unsent[0])
                self._unsent[0] = self._unsent[0][sent:]
                if not self._unsent[0]:
                    self._unsent.popleft()
            self._loop.remove_writer(self._socket)
        except (BlockingIOError, InterruptedError):
            self._loop.add_writer(self._socket, self._send)
        except OSError:
            self._end()

    def _hear(self) -> None:
        try:
            data = self._socket.recv(READ_BYTES)
        except (BlockingIOError, InterruptedError):
            return
        except OSError:
            data = b""
        if not data:
            self._end()
            return
        self._came += data
        for number, is_well, value in unframed(self._came):
            done = self._waiting.pop(number)
            if done.done():
                continue
            if is_well:
                done.set_result(value)
            else:
                done.set_exception(Failed(value))

    def _end(self) -> None:
        """Nothing more is asked; whoever waits hears that nobody knows."""
        if self.ended.done():
            return
        self.ended.set_result(None)
        with contextlib.suppress(subprocess.TimeoutExpired):
            self._process.wait(REAP_SECONDS)
        self._loop.remove_reader(self._socket)
        self._loop.remove_writer(self._socket)
        self._socket.close()
        for done in self._waiting.values():
            if not done.done():
                done.set_exception(Ended(self._script, self._process.returncode))
        self._waiting.clear()


class Renewed:
    """A process that changes nothing, and is started again where it has ended: nothing is lost with it."""

    def __init__(self, script: str, *words: str) -> None:
        self._script, self._words = script, words
        self._helper = Helper(script, *words)

    def ask(self, name: str, *values: Any) -> asyncio.Future[Any]:
        if self._helper.ended.done():
            self._helper.kill()
            self._helper = Helper(self._script, *self._words)
        return self._helper.ask(name, *values)

    def kill(self) -> None:
        self._helper.kill()


def serve(make: Callable[[list[tuple[int, str, tuple[Any, ...]]]], list[tuple[int, bool, Any]]], most: int) -> None:
    """The other end: makes what is asked, so much at once at most, until nobody can ask any more. It ends with the front, and not before."""
    for number in (signal.SIGINT, signal.SIGTERM):
        signal.signal(number, signal.SIG_IGN)
    take_over(Seldom(Said("front")))
    memory.give_back()
    end = socket.socket(fileno=0)
    came = bytearray()
    with contextlib.suppress(ConnectionError):
        end.sendall(framed([]))
        # What came while the last was made is made together.
        while data := end.recv(READ_BYTES):
            came += data
            asked = unframed(came)
            for at in range(0, len(asked), most):
                end.sendall(framed(make(asked[at : at + most])))
