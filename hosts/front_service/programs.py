"""The proved programs that the front asks: claimdecode for what a message says, and those that judge and draw logs."""

from __future__ import annotations

import asyncio
import collections
import contextlib
import json
import os
import pathlib
import shutil
import signal
import subprocess
import sys
import tempfile
from collections.abc import AsyncIterator
from typing import Any

from .printed import printed, unprinted
from .problems import Problem

TOP = pathlib.Path(__file__).resolve().parent.parent.parent
# In the repository, and where the packages lay them out.
EXAMPLES = next(
    (it for it in (TOP / "examples", TOP.parent / "doc" / "vogrilas" / "examples") if it.is_dir()), TOP / "examples"
)
MOST_LINE_BYTES = 16 << 20
READ_BYTES = 1 << 16
MOST_WRITTEN_BYTES = 256 << 20
# Claims go before what people ask for.
NICER = ("nice", "-n", "5")
# How long a program may take that is asked by a person.
SECONDS = 60.0
# How long a killed program, whose output something else may have open, is waited for.
END_SECONDS = 10.0


def words_of(name: str) -> list[str]:
    """The words that start a program: of VOGRILAS_PROGRAMS, of this repository, or of the PATH; Problem where it is nowhere."""
    folder = os.environ.get("VOGRILAS_PROGRAMS")
    script = pathlib.Path(folder or TOP, name)
    found = str(script) if script.exists() else shutil.which(name)
    if not found:
        raise Problem("NoProgram", f"there is no program {name}")
    return [found]


def prepare(*names: str) -> None:
    """Has the programs there before anybody waits for them: the scripts of this repository compile what is not built, once."""
    for name in names:
        # claimswitch has no version to say; an input without a line is answered by nothing.
        word = "read" if name == "claimswitch" else "-V"
        try:
            subprocess.run([*words_of(name), word], stdin=subprocess.DEVNULL, stdout=subprocess.DEVNULL, check=False)
        except Problem as problem:
            sys.exit(f"front: {problem.detail}")


class Pool:
    """Programs that people ask for: so many at once, and so many who wait for their turn. Whoever comes beyond that is told so."""

    def __init__(self, at_once: int, waiting: int) -> None:
        self._free, self._waiting, self._most = asyncio.Semaphore(at_once), 0, waiting

    @contextlib.asynccontextmanager
    async def turn(self) -> AsyncIterator[None]:
        """Waits for a turn, and has it."""
        if self._waiting >= self._most:
            raise Problem("FrontBusy")
        self._waiting += 1
        try:
            await self._free.acquire()
        finally:
            self._waiting -= 1
        try:
            yield
        finally:
            self._free.release()


async def run(name: str, *words: str, given: bytes = b"") -> tuple[int, bytes, bytes]:
    """The status of a program, what it wrote, and what it said. What it is given is a file: it need not read it, and may end before it has."""
    pipe, command = asyncio.subprocess.PIPE, [*NICER, *words_of(name), *words]
    with tempfile.TemporaryFile() as file:
        await asyncio.to_thread(file.write, given)
        file.seek(0)
        process = await asyncio.create_subprocess_exec(
            *command, stdin=file, stdout=pipe, stderr=pipe, start_new_session=True
        )
    try:
        async with asyncio.timeout(SECONDS):
            written, said = await asyncio.gather(_all_of(process, process.stdout), _all_of(process, process.stderr))
            status = await process.wait()
    except TimeoutError:
        raise Problem("NoProgram", f"{name} took longer than {SECONDS:.0f} s") from None
    finally:
        if process.returncode is None:
            await _ended(process)
    if written is None or said is None:
        raise Problem("NoProgram", f"{name} wrote more than {MOST_WRITTEN_BYTES >> 20} MiB")
    return status, written, said


def _kill(process: asyncio.subprocess.Process) -> None:
    """Kills a program with whatever it has started, which may have its output open."""
    with contextlib.suppress(ProcessLookupError):
        os.killpg(process.pid, signal.SIGKILL)


async def _ended(process: asyncio.subprocess.Process) -> None:
    """Kills a program and waits for its end. Its pipes are read meanwhile: asyncio waits for their ends too, and a pipe whose reading is
    held up, since nobody takes what is there, has none."""
    _kill(process)
    with contextlib.suppress(TimeoutError):
        async with asyncio.timeout(END_SECONDS):
            await asyncio.gather(_drained(process.stdout), _drained(process.stderr), process.wait())


async def _drained(stream: asyncio.StreamReader | None) -> None:
    """Reads a pipe to its end, and keeps nothing."""
    with contextlib.suppress(ValueError, OSError):
        while stream is not None and await stream.read(READ_BYTES):
            pass


async def _all_of(process: asyncio.subprocess.Process, stream: asyncio.StreamReader | None) -> bytes | None:
    """All that a program writes; None where that is more than it may, which ends the program."""
    assert stream is not None
    parts, size = [], 0
    while part := await stream.read(READ_BYTES):
        parts.append(part)
        size += len(part)
        if size > MOST_WRITTEN_BYTES:
            _kill(process)
            await _drained(stream)
            return None
    return b"".join(parts)


class Gone(Exception):
    """The program that was asked has ended without an answer."""


class Standing:
    """A claimdecode that stays: a line in, a line out, in order. One that has ended is started again."""

    def __init__(self, *words: str) -> None:
        self._words = words
        self._starting = asyncio.Lock()
        self._child: Child | None = None

    async def line(self, text: bytes) -> bytes:
        """What it says of a line. Where it has ended meanwhile it is asked once more: it may have been killed, and not by this line."""
        for _ in range(2):
            child = await self._there()
            try:
                return await asyncio.wait_for(child.ask(text), SECONDS)
            except TimeoutError:
                child.kill()
                raise Problem("NoProgram", f"claimdecode took longer than {SECONDS:.0f} s") from None
            except Gone:
                continue
        raise Problem("NoProgram", "claimdecode ends without an answer")

    async def _there(self) -> Child:
        """The program, which is started where it is not there."""
        async with self._starting:
            if self._child is None or not self._child.is_alive:
                pipe = asyncio.subprocess.PIPE
                words = [*words_of("claimdecode"), *self._words]
                process = await asyncio.create_subprocess_exec(*words, stdin=pipe, stdout=pipe, limit=MOST_LINE_BYTES)
                self._child = Child(process)
            return self._child

    async def close(self) -> None:
        if self._child is not None:
            await self._child.close()


class Encoder(Standing):
    """Makes messages of their descriptions in JSON."""

    def __init__(self) -> None:
        super().__init__("--encode")

    async def ask(self, description: bytes) -> tuple[bytes, bytes | None]:
        """The line that comes of a description, and the message that it spells; no message where the line says why there is none."""
        line = (await self.line(description)).rstrip(b"\n")
        return line, None if line.startswith(b"#") else unprinted(line)


class Decoder(Standing):
    """Describes messages of one kind."""

    def __init__(self, kind: str) -> None:
        super().__init__("--json", kind)
        self._kind = kind

    async def ask(self, message: bytes) -> dict[str, Any]:
        """What claimdecode says of a message."""
        text = printed(message)
        # Lines that are empty or begin with # are none.
        if text.startswith(b"#"):
            text = b"\\x23" + text[1:]
        if not text:
            return {"kind": self._kind, "bytes": 0, "parts": [], "findings": []}
        told: dict[str, Any] = json.loads(await self.line(text))
        return told


class Child:
    """A program that answers each line with one, in order, and who waits for which."""

    def __init__(self, process: asyncio.subprocess.Process) -> None:
        self._process = process
        self._waiting: collections.deque[asyncio.Future[bytes]] = collections.deque()
        self._hearing = asyncio.create_task(self._hear())

    @property
    def is_alive(self) -> bool:
        return self._process.returncode is None and not self._hearing.done()

    def ask(self, line: bytes) -> asyncio.Future[bytes]:
        """What it says of a line, in the end; Gone where it ends before."""
        told: asyncio.Future[bytes] = asyncio.get_running_loop().create_future()
        assert self._process.stdin is not None
        try:
            self._process.stdin.write(line + b"\n")
        except (OSError, RuntimeError):
            told.set_exception(Gone())
            return told
        self._waiting.append(told)
        return told

    def kill(self) -> None:
        with contextlib.suppress(ProcessLookupError):
            self._process.kill()

    async def close(self) -> None:
        self.kill()
        await self._process.wait()
        await self._hearing

    async def _hear(self) -> None:
        assert self._process.stdout is not None
        # A line that is longer than any is none of this program.
        with contextlib.suppress(ValueError, OSError):
            while line := await self._process.stdout.readline():
                told = self._waiting.popleft()
                if not told.done():
                    told.set_result(line)
        self.kill()
        while self._waiting:
            told = self._waiting.popleft()
            if not told.done():
                told.set_exception(Gone())
        await _drained(self._process.stdout)
