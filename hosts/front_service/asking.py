"""What a caller may ask: the words behind a path's question mark are those that the interface tells, each once. Another one would be passed over,
and the answer be to another question than was asked."""

from __future__ import annotations

from collections.abc import Awaitable, Callable

from aiohttp import web

from .openapi import Document
from .problems import Problem


def words_of(document: Document) -> dict[tuple[str, str], set[str]]:
    """Which words each operation has, by its method and path."""
    return {
        (method.upper(), path): {
            it["name"] for it in (*item.get("parameters", []), *operation.get("parameters", [])) if it["in"] == "query"
        }
        for path, item in document["paths"].items()
        for method, operation in item.items()
        if method in ("get", "post")
    }


@web.middleware
async def expect_known(
    request: web.Request, handler: Callable[[web.Request], Awaitable[web.StreamResponse]]
) -> web.StreamResponse:
    """Refuses words that an operation does not have, and those that are given twice."""
    if request.query_string and "health" in request.app:
        resource = request.match_info.route.resource
        method = "GET" if request.method == "HEAD" else request.method
        known = request.app["health"].words.get((method, resource.canonical if resource is not None else ""))
        if known is not None:
            unknown = sorted(set(request.query) - known)
            if unknown:
                there = f"there are {', '.join(sorted(known))}" if known else "there is none"
                raise Problem("BadRequest", f"there is no {unknown[0][:40]} to ask by: {there}")
            for name in known:
                if len(request.query.getall(name, [])) > 1:
                    raise Problem("BadRequest", f"{name} is asked by twice")
    return await handler(request)
