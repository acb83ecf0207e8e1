"""Server-sent events: what is heard is told as it comes, and every some seconds that the front is there."""

from __future__ import annotations

import asyncio
from collections.abc import Callable
from typing import TypeVar

from aiohttp import web

Heard = TypeVar("Heard")


async def tell(
    request: web.Request, heard: asyncio.Queue[Heard], event: Callable[[Heard], str], alive_seconds: float
) -> web.StreamResponse:
    """Tells what is heard, each as its event, for as long as the caller listens."""
    response = web.StreamResponse(headers={"Content-Type": "text/event-stream", "Cache-Control": "no-store"})
    await response.prepare(request)
    try:
        await response.write(b": listening\n\n")
        while True:
            try:
                await response.write(event(await asyncio.wait_for(heard.get(), alive_seconds)).encode())
            except TimeoutError:
                await response.write(b": alive\n\n")
    except ConnectionError:
        # The caller has gone.
        return response
