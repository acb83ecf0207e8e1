"""Why something is not done: a name, a status of HTTP, and words, as an object of application/problem+json (RFC 9457)."""

from __future__ import annotations

import http
import json
from collections.abc import Awaitable, Callable
from typing import Any

from aiohttp import web

from .helpers import Ended, Failed
from .lines import Seldom, place_of

MEDIA_TYPE = "application/problem+json"
# The status and the words of each name. Names of refusals of nodes are those of docs/FORMATS.md; Busy and WouldBeFull are words of their hosts.
KNOWN = {
    "BadRequest": (400, "the request is not one of this interface"),
    "NoToken": (401, "a token is wanted: Authorization: Bearer TOKEN"),
    "NotAllowed": (403, "this token is for something else"),
    "NotFound": (404, "there is nothing at this path"),
    "NoSuchPharmacy": (404, "the front serves no such pharmacy"),
    "NoSuchClaim": (404, "the pharmacy has no entry of this number"),
    "NoMethod": (405, "this path has no such method"),
    "Slow": (408, "the request did not come in time"),
    "KeyReused": (409, "this Idempotency-Key was used for another message"),
    "TooLong": (413, "a message has at most 32,768 bytes"),
    "MediaType": (415, "a message is application/vnd.ncpdp, application/octet-stream or application/json"),
    "Unreadable": (422, "the message is not framed as a request"),
    "Version": (422, "the version is not D0"),
    "CodeNotCarried": (422, "the transaction code is neither B1 nor B2"),
    "NotOwnProvider": (422, "the service provider of the message is not that of this pharmacy"),
    "FieldRefused": (422, "a field is not what it has to be"),
    "RebillNotCarried": (422, "rebills (B3) are not carried: send a reversal and a billing"),
    "EligibilityNotCarried": (422, "eligibility (E1) is not carried"),
    "OtherPayerPaid": (422, "another payer comes first (308-C8 02 to 08, or segment 05), and it is the one that this is for"),
    "OtherPayerNotNamed": (422, "another payer comes first (308-C8 02 to 08, or segment 05), and it is not named by its BIN number (339-6C 03, 340-7C)"),
    "CompoundNotCarried": (422, "a compound (406-D6 2, or segment 10) is not carried"),
    "PartialFillNotCarried": (422, "a partial fill, or its completion (343-HD), is not carried"),
    "Fault": (500, "the front failed"),
    "NotReady": (503, "the front does not serve all that it should"),
    "FillOpen": (503, "another message of this fill has no answer yet: nothing was entered"),
    "Down": (503, "the pharmacy's node is stopped"),
    "Busy": (503, "too much waits for the pharmacy's node"),
    "JournalFull": (503, "the pharmacy's journal is full"),
    "WouldBeFull": (503, "the pharmacy's journal has room for reversals alone"),
    "FrontBusy": (503, "too much is asked of the front at once"),
    "NotKept": (503, "the front cannot keep what it has to keep: its disk is full, or fails"),
    "NoProgram": (503, "a program of the front is not there, or does not answer: send it again with the same Idempotency-Key"),
    "SettingsChanged": (503, "the settings have changed, and not everything goes by them yet"),
    "NoAudit": (503, "the front was started without --logs, or a program is not there"),
    "NoReply": (504, "the node did not reply in time: send it again with the same Idempotency-Key"),
}  # fmt: skip


class Problem(Exception):
    """Something that is not done."""

    def __init__(self, name: str, detail: str = "", **members: Any) -> None:
        super().__init__(name)
        self.name, self.members = name, members
        self.status, self.title = KNOWN.get(name, (422, "the node refuses it"))
        self.detail = detail

    def body(self) -> str:
        told = {
            "type": f"urn:vogrilas:problem:{self.name}",
            "title": self.title,
            "status": self.status,
            "name": self.name,
        }
        told |= {"detail": self.detail} if self.detail else {}
        return json.dumps(told | self.members)

    def response(self) -> web.Response:
        headers = {401: {"WWW-Authenticate": "Bearer"}, 503: {"Retry-After": "1"}}.get(self.status, {})
        return web.Response(text=self.body(), status=self.status, content_type=MEDIA_TYPE, headers=headers)

    def raw(self) -> bytes:
        """The same as bytes, for who has not asked in the library's hearing; the connection ends behind it."""
        body = self.body().encode()
        head = f"HTTP/1.1 {self.status} {http.HTTPStatus(self.status).phrase}\r\nContent-Type: {MEDIA_TYPE}\r\n"
        return f"{head}Content-Length: {len(body)}\r\nConnection: close\r\n\r\n".encode() + body


# Names for what the library refuses by itself.
OF_LIBRARY = {404: "NotFound", 405: "NoMethod", 413: "TooLong"}


def problem_of(fault: Exception, seldom: Seldom) -> Problem:
    """What is told of a fault. What the front itself does wrong is told by its kind alone, and the log has its place: messages have health data."""
    if isinstance(fault, Problem):
        return fault
    if isinstance(fault, Ended):
        return Problem("NoReply")
    if isinstance(fault, Failed):
        seldom("what has to be kept is not", "NotKept", "error", why=str(fault))
        return Problem("NotKept")
    if isinstance(fault, web.RequestPayloadError):
        return Problem("BadRequest", "the body is not what its head says")
    seldom("the front failed", type(fault).__name__, "error", place=place_of(fault))
    return Problem("Fault")


@web.middleware
async def as_problems(
    request: web.Request, handler: Callable[[web.Request], Awaitable[web.StreamResponse]]
) -> web.StreamResponse:
    """Tells whatever goes wrong as a problem."""
    try:
        return await handler(request)
    except web.HTTPException as fault:
        if fault.status < 400:
            raise
        response = Problem(OF_LIBRARY.get(fault.status, "BadRequest")).response()
        response.headers.update({name: value for name, value in fault.headers.items() if name == "Allow"})
        return response
    except Exception as fault:  # noqa: BLE001: whatever it is, the caller gets an answer
        if isinstance(fault, ConnectionError) or (request.transport is None and not isinstance(fault, Problem)):
            request.app["seldom"]("a caller hung up")
            return web.Response(status=499)
        problem = problem_of(fault, request.app["seldom"])
        if problem.name == "NoSuchPharmacy" and not request.app["health"].is_settled():
            # It may be one of those that came with the settings.
            problem = Problem("SettingsChanged")
        return problem.response()
