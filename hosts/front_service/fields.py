"""Messages made from JSON: from the parts that `claimdecode --json` tells, or from the fields of an order by the names that it gives them.

`claimdecode --encode` makes the message, of parts; a part that is wrong is named. What was made is read by claimdecode before it is used: it
has to say the same order again, or the field that is at fault is named.
"""

from __future__ import annotations

import json
import re
from typing import Any

from .printed import printed
from .problems import Problem
from .programs import Decoder, Encoder

# The fields of a request's header: their numbers, names and widths.
HEADER = (
    ("101-A1", "bin_number", 6), ("102-A2", "version", 2), ("103-A3", "transaction_code", 2), ("104-A4", "processor_control_number", 10),
    ("109-A9", "transaction_count", 1), ("202-B2", "service_provider_id_qualifier", 2), ("201-B1", "service_provider_id", 15),
    ("401-D1", "date_of_service", 8), ("110-AK", "software_vendor_id", 10),
)  # fmt: skip
# The line of claimdecode that says why a description is no message, and where in it.
REFUSED = re.compile(r"# line [0-9]+: no message: (?:(/parts/([0-9]+)[a-z/]*) )?(.*)")
CODES = {"billing": "B1", "reversal": "B2"}
# The fields of the header that the framing looks at, by the fault that says so.
FRAMED = {"BadBin": "101-A1", "BadCount": "109-A9", "DateNotDigits": "401-D1"}
# What a transaction of an order has: its field in the claim or pricing segment; True where it is a number or an amount.
BILLING: dict[str, type] = {"prescription": int, "fill": int, "product": str, "quantity": int, "cost": int, "fee": int}
REVERSAL: dict[str, type] = {"prescription": int, "fill": int}
MAY_LACK = ("fee",)
MOST_TRANSACTIONS = 4
_POSITIVE, _NEGATIVE = "{ABCDEFGHI", "}JKLMNOPQR"
_SEPARATORS = "\x1c\x1d\x1e"


def amount(cents: int) -> str:
    """An amount with its sign in the last digit."""
    digits = str(abs(cents))
    text = digits[:-1] + (_NEGATIVE if cents < 0 else _POSITIVE)[int(digits[-1])]
    return text.lstrip("0") or text[-1]


class Parts:
    """The parts of a message as claimdecode tells them, each with the place in the caller's JSON that it is made of."""

    def __init__(self) -> None:
        self.parts: list[dict[str, Any]] = []
        self.places: list[str] = []

    def put(self, field: str, name: str, value: object, place: str) -> None:
        try:
            text = printed(str(value).encode("latin-1")).decode()
        except ValueError:
            raise Problem("FieldRefused", "texts have characters of Latin-1 alone", field=place) from None
        self.parts.append({"field": field, "name": name, "value": text})
        self.places.append(place)

    def begin(self, segment: str, place: str) -> None:
        self.put("111-AM", "segment", segment, place)

    def begin_transaction(self, place: str) -> None:
        self.parts.append({"name": "transaction"})
        self.places.append(place)


async def encoded(parts: Any, encoder: Encoder, places: list[str] | None = None) -> bytes:
    """The message of parts; the one that is wrong is named by its place, or by that in the caller's JSON."""
    if not isinstance(parts, list):
        raise Problem("FieldRefused", "parts is a list", field="/parts")
    line, message = await encoder.ask(json.dumps({"kind": "request", "parts": parts}).encode())
    if message is not None:
        return message
    refused = REFUSED.fullmatch(line.decode())
    if refused is None:
        raise Problem("FieldRefused", line.decode(errors="replace"), field="/parts")
    where, place, why = refused.groups()
    raise Problem("FieldRefused", why, field=(places[int(place)] if place and places else where or "/parts"))


def of_order(given: dict[str, Any], own: tuple[str, str]) -> Parts:
    """The parts of an order; `own` is the pharmacy's qualifier and provider, which stand where none are given."""
    order = given.get("order")
    if not isinstance(order, str) or order not in CODES:
        raise Problem("FieldRefused", "order is billing or reversal", field="/order")
    several = given.get("transactions")
    if not isinstance(several, list) or not 1 <= len(several) <= MOST_TRANSACTIONS:
        raise Problem("FieldRefused", f"there are 1 to {MOST_TRANSACTIONS} transactions", field="/transactions")
    known = {
        "order",
        "transactions",
        "bin_number",
        "processor_control_number",
        "service_provider_id_qualifier",
        "service_provider_id",
    }
    known |= {"date_of_service", "software_vendor_id"} | ({"cardholder"} if order == "billing" else set())
    _expect_known(given, known, "")
    fixed = {"version": "D0", "transaction_code": CODES[order], "transaction_count": str(len(several))}
    fixed |= {"service_provider_id_qualifier": given.get("service_provider_id_qualifier", own[0])}
    fixed |= {"service_provider_id": given.get("service_provider_id", own[1])}
    made = Parts()
    for field, name, width in HEADER:
        made.put(field, name, _fixed(name, fixed.get(name, given.get(name, "")), width), f"/{name}")
    if order == "billing":
        made.begin("04", "/cardholder")
        made.put("302-C2", "cardholder_id", _text(given.get("cardholder"), "/cardholder"), "/cardholder")
    for place, one in enumerate(several):
        _put_transaction(made, order, one, f"/transactions/{place}")
    return made


def _put_transaction(made: Parts, order: str, given: Any, where: str) -> None:
    wanted = BILLING if order == "billing" else REVERSAL
    if not isinstance(given, dict):
        raise Problem("FieldRefused", "a transaction is an object", field=where)
    _expect_known(given, set(wanted), where)
    has: dict[str, Any] = {}
    for name, kind in wanted.items():
        if name in MAY_LACK and name not in given:
            continue
        value = given.get(name)
        if kind is int and (not isinstance(value, int) or isinstance(value, bool) or value < 0):
            raise Problem("FieldRefused", "a whole number, not negative, is wanted", field=f"{where}/{name}")
        has[name] = _text(value, f"{where}/{name}") if kind is str else value
    made.begin_transaction(where)
    made.begin("07", where)
    made.put("455-EM", "prescription_number_qualifier", "1", where)
    made.put("402-D2", "prescription_number", has["prescription"], f"{where}/prescription")
    made.put("403-D3", "fill_number", has["fill"], f"{where}/fill")
    if order == "billing":
        made.put("436-E1", "product_id_qualifier", "03", where)
        made.put("407-D7", "product_id", has["product"], f"{where}/product")
        made.put("442-E7", "quantity_dispensed", has["quantity"], f"{where}/quantity")
        made.begin("11", where)
        made.put("409-D9", "ingredient_cost_submitted", amount(has["cost"]), f"{where}/cost")
        if "fee" in has:
            made.put("412-DC", "dispensing_fee_submitted", amount(has["fee"]), f"{where}/fee")


def _expect_known(given: dict[str, Any], known: set[str], where: str) -> None:
    for name in given:
        if name not in known:
            raise Problem(
                "FieldRefused", f"there is no such field; there are {', '.join(sorted(known))}", field=f"{where}/{name}"
            )


def _text(value: Any, where: str) -> str:
    if not isinstance(value, str) or not value or any(it in _SEPARATORS for it in value):
        raise Problem("FieldRefused", "a text without separators is wanted", field=where)
    return value


def _fixed(name: str, value: Any, width: int) -> str:
    """A field of the header, padded with spaces to its width."""
    if not isinstance(value, str) or len(value) > width or any(it in _SEPARATORS for it in value):
        raise Problem("FieldRefused", f"a text of at most {width} characters is wanted", field=f"/{name}")
    return value.ljust(width)


async def checked(message: bytes, decoder: Decoder, given: dict[str, Any] | None) -> bytes:
    """The message, once claimdecode has read the order in it that was given; of parts, once it has read a message of these parts."""
    told = await decoder.ask(message)
    for one in told["findings"]:
        if one["finding"] in ("not_framed", "not_carried"):
            facts = {name: one[name] for name in ("at", "fault") if name in one}
            facts |= {"field": FRAMED[one["fault"]]} if one.get("fault") in FRAMED else {}
            raise Problem("FieldRefused" if given else "Unreadable", one["says"], **facts)
        if given and one["finding"] == "rejected":
            raise Problem("FieldRefused", one["says"], field=one["field"], code=one["code"])
    if given:
        orders = [one for one in told["findings"] if one["finding"] == "order"]
        for place, one in enumerate(given["transactions"]):
            for name, value in one.items():
                if place >= len(orders) or orders[place].get(name) != value:
                    raise Problem(
                        "FieldRefused", "it does not read as it was given", field=f"/transactions/{place}/{name}"
                    )
    return message
