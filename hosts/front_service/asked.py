"""What a caller asks, read and bounded: who it is, which pharmacy, numbers, pages, media types."""

from __future__ import annotations

import datetime
import re

from aiohttp import web

from .pharmacy import Pharmacy
from .problems import Problem
from .tokens import OPERATOR

MOST_WAIT_SECONDS = 60.0
MOST_PAGE = 1000
PAGE = 100
RAW = ("application/vnd.ncpdp", "application/octet-stream")
_KEY = re.compile(r"[\x21-\x7e]{1,128}")
_DAY = re.compile(r"[0-9]{8}")


def who(request: web.Request) -> set[str]:
    """Whose token the caller has; Problem where it has none."""
    word, _, token = request.headers.get("Authorization", "").partition(" ")
    found: set[str] = request.app["tokens"].who(token.strip()) if word.lower() == "bearer" else set()
    if not found:
        raise Problem("NoToken")
    return found


def expect_operator(request: web.Request) -> None:
    if OPERATOR not in who(request):
        raise Problem("NotAllowed", "the operator's token is wanted")


def media_type(request: web.Request) -> str:
    """What a body is, without parameters. (What the library has for it reads the header as a mail's, which takes a quarter of a claim.)"""
    return request.headers.get("Content-Type", RAW[1]).partition(";")[0].strip().lower()


def pharmacy(request: web.Request) -> Pharmacy:
    """The pharmacy of the path, which the caller has to be, or the operator."""
    name, allowed = request.match_info["pharmacy"], who(request)
    if name not in allowed and OPERATOR not in allowed:
        raise Problem("NotAllowed", f"this token is not that of {name}")
    found: Pharmacy | None = request.app["pharmacies"].get(name)
    if found is None:
        raise Problem("NoSuchPharmacy")
    return found


def entering(request: web.Request) -> Pharmacy:
    """The pharmacy whose claim the caller enters: its token has to name it. The operator's reads, and enters where it says so."""
    found = pharmacy(request)
    if found.name not in who(request):
        raise Problem("NotAllowed", f"the operator's token reads; one that enters claims of {found.name} names it")
    return found


def pharmacies(request: web.Request) -> list[str]:
    """All pharmacies that are asked for: that of the path or of `pharmacy=`, else all that the caller may see."""
    if "pharmacy" in request.match_info:
        return [pharmacy(request).name]
    allowed = who(request)
    seen = [name for name in request.app["pharmacies"] if name in allowed or OPERATOR in allowed]
    one = request.query.get("pharmacy")
    if one and one not in seen:
        raise Problem("NotAllowed", f"this token is not that of {one}")
    return [one] if one else seen


def number(request: web.Request) -> int:
    text = request.match_info["number"]
    if not text.isascii() or not text.isdigit() or len(text) > 18:
        raise Problem("NoSuchClaim")
    return int(text)


def wait(request: web.Request, default: float = 0.0) -> float:
    """For how many seconds the caller waits for an answer."""
    text = request.query.get("wait")
    if text is None:
        return default
    if not re.fullmatch(r"[0-9]{1,3}(\.[0-9]{1,3})?", text) or float(text) > MOST_WAIT_SECONDS:
        raise Problem("BadRequest", f"wait is a number of seconds, at most {MOST_WAIT_SECONDS:.0f}")
    return float(text)


def whole(request: web.Request, name: str, default: int, most: int) -> int:
    text = request.query.get(name, str(default))
    if not text.isascii() or not text.isdigit() or len(text) > 9 or not 1 <= int(text) <= most:
        raise Problem("BadRequest", f"{name} is a whole number from 1 to {most}")
    return int(text)


def one_of(request: web.Request, name: str, *words: str) -> str:
    """One of some words, or none."""
    text = request.query.get(name, "")
    if text not in ("", *words):
        raise Problem("BadRequest", f"{name} is {' or '.join(words)}")
    return text


def day(request: web.Request, name: str) -> str:
    """A day as CCYYMMDD or CCYY-MM-DD, or none."""
    text = request.query.get(name, "").replace("-", "")
    if text and not _DAY.fullmatch(text):
        raise Problem("BadRequest", f"{name} is a day, CCYY-MM-DD")
    return text


def key(request: web.Request) -> str | None:
    text = request.headers.get("Idempotency-Key")
    if text is not None and not _KEY.fullmatch(text):
        raise Problem("BadRequest", "an Idempotency-Key has 1 to 128 printable characters")
    return text


def wants_json(request: web.Request, default: bool) -> bool:
    """Whether the caller wants JSON and not the message's bytes."""
    accept = request.headers.get("Accept", "*/*")
    places = {kind: accept.find(kind) for kind in ("application/json", *RAW)}
    named = {kind: at for kind, at in places.items() if at >= 0}
    return min(named, key=lambda kind: named[kind]) == "application/json" if named else default


def stamp(seconds: float | None) -> str | None:
    """A time as RFC 3339 has it."""
    if seconds is None:
        return None
    return (
        datetime.datetime.fromtimestamp(seconds, datetime.timezone.utc)
        .isoformat(timespec="milliseconds")
        .replace("+00:00", "Z")
    )
