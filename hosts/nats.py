"""A connection to NATS servers on which is asked and replied. Payloads are bytes."""

import asyncio
import collections
import itertools
import secrets
from collections.abc import Callable

import subjects
from access import Access, Server, access_of, add_words, read_login
from libnats import PING_SECONDS, Message, Wire

__all__ = ["PING_SECONDS", "Access", "Connection", "Message", "Server", "access_of", "add_words", "read_login"]
AGAIN_SECONDS = 0.1
SAID = {"came": "connected again", "went": "no server, trying again", "refused": "the server refuses something"}


class Connection(Wire):
    """A connection that comes again by itself, with its subscriptions, when the server goes and comes back. `say(what, level, **facts)` is
    told what is not as it should be, and a server may be silent for so many seconds."""

    def __init__(
        self, access: Access, name: str, say: Callable[..., None] | None = None, ping: float = PING_SECONDS
    ) -> None:
        super().__init__(access, name, ping)
        self.say: Callable[..., None] = say or (lambda what, **_: None)
        self.is_open, self.opened, self._last = asyncio.Event(), 0, ("", "")
        self.errors: collections.deque[str] = collections.deque(maxlen=64)
        # Nobody else's replies come here, and nobody can guess where they come.
        self._inbox = f"{subjects.inbox(access.user or name)}.{secrets.token_hex(8)}"
        self._questions = itertools.count(1)
        self._replies: dict[str, tuple[Callable[[bytes], None], Callable[[], None]]] = {}
        self.subscribe(f"{self._inbox}.*", self._replied)

    async def start(self) -> None:
        """Connects, and goes on connecting for as long as the program runs."""
        await super().start()
        await self.is_open.wait()

    def changed(self, what: str, why: str) -> None:
        """The connection came or went, or the server refuses something: what is not told already is told."""
        if self.task is None or self.task.done():
            return
        self.opened += what == "came"
        if what == "refused":
            self.errors.append(why)
        else:
            self.is_open.set() if what == "came" else self.is_open.clear()
        if (what, why) != self._last and (what, self.opened) != ("came", 1):
            self.say(SAID[what], level="info" if what == "came" else "warning", **({"why": why} if why else {}))
        self._last = (what, why)

    async def request(
        self,
        subject: str,
        payload: bytes,
        seconds: float,
        headers: dict[str, str] | None = None,
        is_word: Callable[[bytes], bool] = lambda _: True,
    ) -> bytes | None:
        """The first reply to a message that is a word on it, or None where none comes in time."""
        waiting: asyncio.Future[bytes] = asyncio.get_running_loop().create_future()
        reply = self.ask(
            subject, payload, lambda it: waiting.set_result(it) if is_word(it) and not waiting.done() else None, headers
        )
        try:
            return await asyncio.wait_for(waiting, seconds)
        except TimeoutError:
            return None
        finally:
            self.forget(reply)

    def ask(
        self, subject: str, payload: bytes, heard: Callable[[bytes], None], headers: dict[str, str] | None = None
    ) -> str:
        """Sends a message; `heard` is called with each reply to it until it is forgotten, by the name that is given. As long as nobody hears
        the message, so that it reached nobody, it is sent again: a node is between two hosts, or its host has no log yet.
        """
        reply = f"{self._inbox}.{next(self._questions)}"
        self._replies[reply] = (heard, lambda: self.publish(subject, payload, reply, headers))
        self._replies[reply][1]()
        return reply

    def forget(self, reply: str) -> None:
        """Hears no more replies to a message."""
        self._replies.pop(reply, None)

    def _replied(self, message: Message) -> None:
        heard, send = self._replies.get(message.subject, (None, lambda: None))
        if message.is_unheard:
            self._loop.call_later(AGAIN_SECONDS, lambda: send() if message.subject in self._replies else None)
        elif heard is not None:
            heard(message.payload)
