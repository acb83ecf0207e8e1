"""Whether the front lives, and whether it serves: for whoever watches services, without a token."""

from __future__ import annotations

from collections.abc import Callable

from aiohttp import web

from .asking import words_of
from .openapi import Document, document
from .pharmacy import Pharmacy
from .problems import Problem
from .settled import Settled


class Health:
    """The handlers."""

    def __init__(self, pharmacies: dict[str, Pharmacy], settled: Settled, wanted: Callable[[], list[str]]) -> None:
        self._pharmacies, self._settled, self._wanted = pharmacies, settled, wanted
        self.settle()

    def add_to(self, app: web.Application) -> None:
        app.router.add_get("/openapi.json", self.interface)
        app.router.add_get("/healthz", self.lives)
        app.router.add_get("/readyz", self.serves)

    def settle(self) -> None:
        """Tells the interface of the pharmacies that are wanted now."""
        self.document: Document = document(self._wanted())
        self.words = words_of(self.document)

    def is_settled(self) -> bool:
        """Whether the front goes by the settings as they are now."""
        return not self._settled.is_changed() and all(name in self._pharmacies for name in self._wanted())

    async def interface(self, _request: web.Request) -> web.Response:
        """The interface, as OpenAPI tells it."""
        return web.json_response(self.document)

    async def lives(self, _request: web.Request) -> web.Response:
        """The front lives."""
        return web.json_response({"front": "lives"})

    async def serves(self, _request: web.Request) -> web.Response:
        """The front serves each pharmacy of the settings, as they are now; else why not."""
        why = [f"{name} is not reached" for name, it in self._pharmacies.items() if not it.is_connected]
        if not self.is_settled():
            lacking = ", ".join([name for name in self._wanted() if name not in self._pharmacies][:8])
            why.append("the settings have changed" + (f", and {lacking} is not served yet" if lacking else ""))
        if why:
            raise Problem("NotReady", "; ".join(why[:8]))
        return web.json_response({"front": "serves", "pharmacies": len(self._pharmacies)})
