"""Claims over HTTP: one is sent, looked at, and waited for; those of a pharmacy are listed."""

from __future__ import annotations

import asyncio
import json
import secrets
import sqlite3
import time
from typing import Any

from aiohttp import web

from . import asked, events, fields
from .counter import Counter, Refused
from .eligibility import Eligibility, is_asked
from .helpers import Ended, Failed
from .pharmacy import Pharmacy
from .printed import printed
from .problems import Problem, problem_of
from .programs import Decoder, Encoder
from .receipts import TOLD, Receipt, Receipts
from .rejections import rejected
from .rulings import Rulings
from .stores import Stores

# Events that wait for a caller who does not read.
MOST_EVENTS = 1024
ALIVE_SECONDS = 15.0


def where(pharmacy: str, number: int | None) -> str:
    return f"/pharmacies/{pharmacy}/claims/{number}"


class Claims:
    """The handlers, and what they ask."""

    def __init__(
        self,
        counters: dict[str, Counter],
        stores: Stores,
        eligibility: Eligibility,
        seconds: float,
        providers: dict[str, tuple[str, str]],
        rulings: Rulings,
    ) -> None:
        self._counters, self._stores, self._eligibility, self._seconds = counters, stores, eligibility, seconds
        self._providers, self._rulings = providers, rulings
        self._requests, self._answers = Decoder("request"), Decoder("answer")
        self._encoder = Encoder()

    def add_to(self, app: web.Application) -> None:
        app.router.add_post("/pharmacies/{pharmacy}/claims", self.send)
        app.router.add_get("/pharmacies/{pharmacy}/claims/{number}", self.one)
        app.router.add_get("/pharmacies/{pharmacy}/events", self.events)

    async def close(self) -> None:
        await asyncio.gather(self._requests.close(), self._answers.close(), self._encoder.close())

    async def send(self, request: web.Request) -> web.StreamResponse:
        """Enters a claim, once for each key. Who sends a message's bytes and wants those of the answer has it in time; who sends or wants JSON
        gets a number, and the answer where it is there in the seconds that are asked for."""
        kind = asked.media_type(request)
        if kind in asked.RAW and not asked.wants_json(request, False):
            return await self._answered(request)
        pharmacy, seconds, key = asked.entering(request), asked.wait(request), asked.key(request)
        if kind == "application/json":
            message = await self._made(await request.read(), pharmacy)
        elif kind in asked.RAW:
            message = await request.read()
        else:
            raise Problem("MediaType")
        entered = self._stores.entered(pharmacy.name, message)
        counter = self._counters[pharmacy.name]
        try:
            receipt = await counter.enter(entered, key or secrets.token_urlsafe(16), seconds, self._seconds)
        except Problem as problem:
            raise await self._placed(problem, message) from None
        return await self._response(request, pharmacy, receipt, True, 202)

    async def _answered(self, request: web.Request) -> web.Response:
        """The answer of the standard to a message, in time, whatever becomes of the message."""
        message, headers, status = b"", {"Cache-Control": "no-store"}, 200
        try:
            message = await request.read()
            pharmacy, seconds, key = asked.entering(request), asked.wait(request, self._seconds), asked.key(request)
            if is_asked(message):
                answer = await self._eligibility.answer(message, seconds)
                return web.Response(body=answer, content_type=asked.RAW[0], headers=headers)
            counter, entered = self._counters[pharmacy.name], self._stores.entered(pharmacy.name, message)
            told = await counter.answer(entered, key, seconds, lambda: is_there(request))
            answer, name = told.answer, told.name
            if told.receipt is not None:
                headers |= heads_of(told.receipt)
        except Ended:
            # What was noted last nobody knows, so nothing is said: the connection ends, and the front.
            if request.transport is not None:
                request.transport.abort()
            return web.Response(status=499)
        except (Problem, web.HTTPException, sqlite3.Error, Failed) as fault:
            problem = (
                Problem("TooLong") if isinstance(fault, web.HTTPException) else problem_of(fault, request.app["seldom"])
            )
            name, status = problem.name, problem.status
            codes = problem.codes if isinstance(problem, Refused) else ()
            answer = rejected(message, name, codes)
        headers |= {"Vogrilas-Problem": name} if name else {}
        answer = self._stores.answered(message, answer)
        return web.Response(body=answer, status=status, content_type=asked.RAW[0], headers=headers)

    async def one(self, request: web.Request) -> web.StreamResponse:
        """What is known of a claim."""
        pharmacy, number, seconds = asked.pharmacy(request), asked.number(request), asked.wait(request)
        receipt = await pharmacy_receipt(request, pharmacy, number)
        if receipt is None:
            # It may have come by another way a moment ago; the node knows.
            await pharmacy.look_at(number)
            receipt = await pharmacy_receipt(request, pharmacy, number)
        if receipt is None:
            raise Problem("NoSuchClaim")
        if seconds and receipt.told_answer is None:
            answer = await pharmacy.wait(number, seconds)
            if answer is not None:
                await request.app["receipts"].seen(pharmacy.name, number, answer)
            receipt = await pharmacy_receipt(request, pharmacy, number) or receipt
        return await self._response(request, pharmacy, receipt, True, 200)

    async def events(self, request: web.Request) -> web.StreamResponse:
        """Tells the numbers of claims as their answers come, as server-sent events, for as long as the caller listens."""
        pharmacy = asked.pharmacy(request)
        heard: asyncio.Queue[int] = asyncio.Queue(MOST_EVENTS)

        def answered(number: int) -> str:
            told = json.dumps({"number": number, "location": where(pharmacy.name, number)})
            return f"event: answered\nid: {number}\ndata: {told}\n\n"

        pharmacy.listeners.add(heard)
        try:
            return await events.tell(request, heard, answered, ALIVE_SECONDS)
        finally:
            pharmacy.listeners.discard(heard)

    async def _made(self, body: bytes, pharmacy: Pharmacy) -> bytes:
        """The message of a body of JSON."""
        try:
            given = json.loads(body)
        except (ValueError, RecursionError):
            raise Problem("BadRequest", "the body is not JSON") from None
        if not isinstance(given, dict):
            raise Problem("BadRequest", "the body is an object, with parts or with an order")
        if "parts" in given:
            return await fields.checked(await fields.encoded(given["parts"], self._encoder), self._requests, None)
        made = fields.of_order(given, self._providers[pharmacy.name])
        return await fields.checked(await fields.encoded(made.parts, self._encoder, made.places), self._requests, given)

    async def _placed(self, problem: Problem, message: bytes) -> Problem:
        """The problem, with the place of the fault where the framing has one."""
        if problem.name != "Unreadable":
            return problem
        for one in (await self._requests.ask(message))["findings"]:
            if one["finding"] == "not_framed":
                return Problem(
                    "Unreadable", one["says"], **{name: one[name] for name in ("at", "fault") if name in one}
                )
        return problem

    async def _response(
        self, request: web.Request, pharmacy: Pharmacy, receipt: Receipt, is_json: bool, open_status: int
    ) -> web.Response:
        """What is told of a claim: its answer, once it is there; an open one is told with a status of its own."""
        answer, headers = receipt.told_answer, {"Cache-Control": "no-store"} | heads_of(receipt)
        if answer is not None and not asked.wants_json(request, is_json):
            return web.Response(body=answer, content_type=asked.RAW[0], headers=headers)
        if answer is None:
            headers["Retry-After"] = "1"
        if answer is not None and receipt.answered is None and receipt.number is not None:
            # It is noted by now, with its time.
            noted = await pharmacy_receipt(request, pharmacy, receipt.number)
            receipt = receipt._replace(answered=noted.answered if noted and noted.answered else time.time())
        told = await self.told(receipt)
        return web.json_response(told, status=open_status if answer is None else 200, headers=headers)

    async def told(self, receipt: Receipt) -> dict[str, Any]:
        """A claim, for a caller: both messages in printed bytes, and as claimdecode reads them."""
        told: dict[str, Any] = {
            "pharmacy": receipt.pharmacy, "number": number_of(receipt), "state": state_of(receipt),
            "key": receipt.key, "location": where(receipt.pharmacy, number_of(receipt)),
            "entered": asked.stamp(receipt.entered), "answered": asked.stamp(receipt.answered),
            "repeats": receipt.repeats, "given_up": given_up_of(receipt),
        }  # fmt: skip
        for name, message, decoder in (
            ("request", receipt.request, self._requests),
            ("answer", receipt.told_answer, self._answers),
        ):
            told[name] = (
                None if message is None else {"text": printed(message).decode("ascii"), **await decoder.ask(message)}
            )
            if told[name]:
                told[name].pop("line", None)
        return told


def is_there(request: web.Request) -> bool:
    """Whether the caller has not gone."""
    return request.transport is not None and not request.transport.is_closing()


def number_of(receipt: Receipt) -> int | None:
    """The number of an entry; of a reversal that was repeated, that of the first one."""
    return receipt.number if receipt.repeats is None else receipt.repeats


def heads_of(receipt: Receipt) -> dict[str, str]:
    """What the heads of a response say of a claim."""
    number = number_of(receipt)
    heads: dict[str, str] = {}
    if number is not None:
        heads |= {"Location": where(receipt.pharmacy, number), "Vogrilas-Number": str(number)}
    heads |= {"Idempotency-Key": receipt.key} if receipt.key else {}
    heads |= {"Vogrilas-Given-Up": receipt.outcome or "open"} if state_of(receipt) == "given up" else {}
    return heads | ({"Vogrilas-Repeats": str(receipt.repeats)} if receipt.repeats is not None else {})


def state_of(receipt: Receipt) -> str:
    if receipt.told == TOLD:
        return "open" if receipt.answer is None else "answered"
    return "open" if receipt.code is None else "given up"


def given_up_of(receipt: Receipt) -> dict[str, Any] | None:
    """What becomes of a claim that was given up."""
    if receipt.code is None:
        return None
    return {"code": receipt.code, "outcome": receipt.outcome, "reversal": receipt.reversal_number}


async def pharmacy_receipt(request: web.Request, pharmacy: Pharmacy, number: int) -> Receipt | None:
    receipts: Receipts = request.app["receipts"]
    return await receipts.of_number(pharmacy.name, number)
