"""A connection over HTTP: what comes is taken apart (heads.py) before the library reads it, each part of it has its time, and one request is
handed on at a time.

What is no request is answered by the problem BadRequest or Slow, and the connection ends. Who takes too long, and who does not read what it is
answered, is a line of the log.
"""

from __future__ import annotations

import asyncio
from typing import cast

from aiohttp import web

from .connections import Connections, Leave
from .heads import CODES, BadRequest, Requests
from .problems import Problem

# How long a head may take from its first byte on, and the first of a connection from the connection on; a body; and an answer of which
# the caller reads nothing.
HEAD_SECONDS = 10.0
BODY_SECONDS = 20.0
UNREAD_SECONDS = 30.0
# How often it is looked who takes too long.
LOOK_SECONDS = 1.0
# What of later requests is read before the one before is answered.
MOST_AHEAD_BYTES = 1 << 16
# What the library is asked for in the place of what was no request: so the refusal comes behind the answers to those before.
REFUSED = "/refused/"


class HttpConnection(asyncio.Protocol):
    """One connection; it stands before the library's protocol."""

    def __init__(self, inner: asyncio.Protocol, others: HttpConnections, leave: Leave) -> None:
        self._inner, self._others, self._leave = inner, others, leave
        self._requests = Requests()
        self._transport: asyncio.Transport = cast(asyncio.Transport, None)
        # Whether a request was handed on whose answer has not begun, and whether what came is no request.
        self._is_asked = self._is_refused = False
        # What is waited for, of which request, and since when.
        self._awaited, self._since = ("head", 0), others.now()
        self._heads = 0
        self._unread, self._unread_since = 0, others.now()

    def connection_made(self, transport: asyncio.BaseTransport) -> None:
        self._transport = cast(asyncio.Transport, transport)
        self._others.add(self._inner, self)
        self._inner.connection_made(transport)

    def connection_lost(self, fault: Exception | None) -> None:
        self._others.drop(self._inner, self)
        self._leave()
        self._inner.connection_lost(fault)

    def pause_writing(self) -> None:
        self._inner.pause_writing()

    def resume_writing(self) -> None:
        self._inner.resume_writing()

    def eof_received(self) -> bool | None:
        return self._inner.eof_received()

    def data_received(self, data: bytes) -> None:
        if not self._is_refused:
            self._requests.feed(data)
            self._go()

    def answered(self) -> None:
        """The answer to the request that was handed on begins: the next one may be."""
        self._is_asked = False
        if self._requests.waiting and not self._is_refused:
            self._transport.resume_reading()
            self._go()
        if not self._is_asked:
            self._others.idle(self)

    def look(self, now: float) -> None:
        """Ends what takes too long."""
        unread = self._transport.get_write_buffer_size()
        if not unread or unread < self._unread:
            self._unread_since = now
        self._unread = unread
        if unread and now - self._unread_since > UNREAD_SECONDS:
            self._others.seldom("a caller does not read its answer", "Slow", bytes=unread)
            self.end()
            return
        what, _ = self._awaited
        if what and not self._is_refused and now - self._since > (BODY_SECONDS if what == "body" else HEAD_SECONDS):
            self._others.seldom(f"a {what} does not come in time", "Slow", bytes=self._requests.waiting)
            self._refuse("Slow", "")

    def end(self) -> None:
        """Ends the connection at once."""
        self._transport.abort()

    def _go(self) -> None:
        """Hands on what may be handed on."""
        try:
            while piece := self._piece():
                self._inner.data_received(piece)
        except BadRequest as bad:
            self._others.seldom("what came is no request of HTTP", bad.code, bytes=bad.size)
            self._refuse("BadRequest", bad.code)
            return
        is_in_body = self._requests.is_in_body
        what = "body" if is_in_body else "head" if self._requests.waiting and not self._is_asked else ""
        if (what, self._heads) != self._awaited:
            self._awaited, self._since = (what, self._heads), self._others.now()
        if self._is_asked and not is_in_body and self._requests.waiting > MOST_AHEAD_BYTES:
            self._transport.pause_reading()

    def _piece(self) -> bytes:
        """What may be handed on next."""
        if self._requests.is_in_body:
            return self._requests.body()
        if self._is_asked:
            return b""
        head = self._requests.head()
        if head:
            self._is_asked = True
            self._heads += 1
            self._others.busy(self)
        return head

    def _refuse(self, name: str, code: str) -> None:
        """Answers what is no request, behind the answers to those before it, and ends."""
        self._is_refused = True
        if not self._requests.is_in_body:
            self._inner.data_received(f"GET {REFUSED}{code or name} HTTP/1.1\r\nConnection: close\r\n\r\n".encode())
            return
        if self._is_asked:
            self._transport.write(Problem(name, CODES.get(code, "")).raw())
        self._transport.close()


class HttpConnections:
    """All connections over HTTP."""

    def __init__(self, connections: Connections) -> None:
        self._connections, self.seldom = connections, connections.seldom
        self.now = asyncio.get_running_loop().time
        self._of: dict[object, HttpConnection] = {}

    def add_to(self, app: web.Application) -> None:
        app.on_response_prepare.append(self._answers)
        app.router.add_get(REFUSED + "{code}", self._refused)

    def made(self, server: web.Server, leave: Leave) -> HttpConnection:
        """The protocol of who comes."""
        return HttpConnection(server(), self, leave)

    async def look_for_ever(self) -> None:
        while True:
            await asyncio.sleep(LOOK_SECONDS)
            now = self.now()
            for one in list(self._of.values()):
                one.look(now)

    def add(self, inner: object, one: HttpConnection) -> None:
        self._of[inner] = one
        self.idle(one)

    def drop(self, inner: object, one: HttpConnection) -> None:
        self._of.pop(inner, None)
        self.busy(one)

    def idle(self, one: HttpConnection) -> None:
        self._connections.idle(one, one.end)

    def busy(self, one: HttpConnection) -> None:
        self._connections.busy(one)

    async def _answers(self, request: web.Request, _response: web.StreamResponse) -> None:
        one = self._of.get(request.protocol)
        if one is not None:
            one.answered()

    async def _refused(self, request: web.Request) -> web.StreamResponse:
        code = request.match_info["code"]
        raise Problem("BadRequest", CODES[code]) if code in CODES else Problem("Slow")
