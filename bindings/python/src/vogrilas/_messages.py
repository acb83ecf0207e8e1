"""Billings and reversals from their fields, and back."""

from __future__ import annotations

import ctypes
import datetime
from dataclasses import dataclass, replace
from typing import Any, Callable, Optional, TypeVar, Union

from ._library import LIBRARY, NO_FILL, RawBilling, RawHeader, RawReversal
from ._node import Code, Message, check_code, decoded, unprinted

Text = Union[str, bytes]

# The fields by their numbers.
_FIELDS = {
    101: "101-A1",
    104: "104-A4",
    202: "202-B2",
    201: "201-B1",
    401: "401-D1",
    110: "110-AK",
    302: "302-C2",
    402: "402-D2",
    403: "403-D3",
    407: "407-D7",
    442: "442-E7",
    409: "409-D9",
    412: "412-DC",
}
_WHY = {
    Code.FIELD_EMPTY: "is empty",
    Code.FIELD_TOO_LONG: "is too long",
    Code.FIELD_SEPARATOR: "has a separator or a zero byte",
    Code.FIELD_SPACE: "ends in a space",
    Code.FIELD_DIGITS: "has to be digits",
    Code.FIELD_DAY: "is no day",
}


class WrongField(ValueError):
    """A field with which no message is made: `field` is its number, as "302-C2", and `code` says why, as Code.FIELD_EMPTY."""

    def __init__(self, number: int, code: Code) -> None:
        self.field = _FIELDS[number]
        self.code = code
        super().__init__(f"{self.field} {_WHY[code]}")


@dataclass(frozen=True)
class Header:
    """The header of a request. Texts are bytes, or text of ASCII; spaces at the ends of those that are filled with them do not
    count. A date may be a date of Python's."""

    bin: Text
    """BIN number, 101-A1: six digits."""
    provider: Text
    """The service provider, 201-B1: at most 15 bytes."""
    date: Union[Text, datetime.date]
    """Date of service, 401-D1: CCYYMMDD."""
    pcn: Text = b""
    """Processor control number, 104-A4: at most 10 bytes."""
    qualifier: Text = b"01"
    """Of the service provider, 202-B2: 01 is a National Provider Identifier."""
    vendor: Text = b""
    """Software vendor and certification, 110-AK: at most 10 bytes."""

    def __post_init__(self) -> None:
        if isinstance(self.date, datetime.date):
            object.__setattr__(self, "date", self.date.strftime("%Y%m%d").rjust(8, "0"))
        for name in ("bin", "date"):
            object.__setattr__(self, name, _text(getattr(self, name), name))
        for name in ("pcn", "qualifier", "provider", "vendor"):
            object.__setattr__(self, name, _text(getattr(self, name), name).rstrip(b" "))


@dataclass(frozen=True)
class Billing(Message):
    """A billing (B1) of one transaction. `bytes(billing)` is the message, or raises WrongField: the first field that is wrong."""

    header: Header
    cardholder: Text
    """Cardholder ID, 302-C2: 1 to 20 bytes."""
    prescription: int
    """402-D2: at most 12 digits."""
    product: Text
    """National Drug Code, 407-D7: 1 to 19 bytes."""
    quantity: int
    """Quantity dispensed, 442-E7, in thousandths of a unit: at most 10 digits."""
    cost: int
    """Ingredient cost submitted, 409-D9, in cents: at most 8 digits."""
    fee: int = 0
    """Dispensing fee submitted, 412-DC, in cents: at most 8 digits."""
    fill_number: int = 0
    """403-D3: at most 99."""

    def __post_init__(self) -> None:
        _texts(self, "cardholder", "product")
        _numbers(self, "prescription", "quantity", "cost", "fee", "fill_number")

    def __bytes__(self) -> bytes:
        raw = RawBilling(
            prescription=_number(self.prescription, 402, 64),
            quantity=_number(self.quantity, 442, 64),
            cost=_number(self.cost, 409, 32),
            fee=_number(self.fee, 412, 32),
            header=_header(self.header),
            fill_number=_number(self.fill_number, 403, 8),
        )
        _put(raw, "cardholder", self.cardholder, 302)
        _put(raw, "product", self.product, 407)
        return _made(LIBRARY.vogrilas_make_billing, raw)

    def reversal(self) -> Reversal:
        """The reversal of this billing, of the same day."""
        return Reversal(self.header, self.prescription, self.product, self.fill_number)

    @classmethod
    def read(cls, message: bytes) -> Billing:
        """The billing whose bytes these are. ValueError where they are those of none."""
        found = _Found(message, "billing")
        return found.proved(
            cls(
                found.header(),
                found.text("302-C2"),
                found.number("402-D2"),
                found.text("407-D7"),
                found.number("442-E7"),
                found.order["cost"],
                found.order["fee"],
                found.number("403-D3"),
            )
        )


@dataclass(frozen=True)
class Reversal(Message):
    """A reversal (B2) of one transaction: the header, the prescription and the fill of its billing name what is reversed."""

    header: Header
    prescription: int
    product: Text
    fill_number: Optional[int] = 0
    """403-D3; None where it is left out."""

    def __post_init__(self) -> None:
        _texts(self, "product")
        _numbers(self, "prescription", *([] if self.fill_number is None else ["fill_number"]))

    def __bytes__(self) -> bytes:
        fill = NO_FILL if self.fill_number is None else min(_number(self.fill_number, 403, 8), NO_FILL - 1)
        raw = RawReversal(
            prescription=_number(self.prescription, 402, 64), header=_header(self.header), fill_number=fill
        )
        _put(raw, "product", self.product, 407)
        return _made(LIBRARY.vogrilas_make_reversal, raw)

    @classmethod
    def read(cls, message: bytes) -> Reversal:
        """The reversal whose bytes these are. ValueError where they are those of none."""
        found = _Found(message, "reversal")
        fill = found.number("403-D3") if "403-D3" in found.values else None
        return found.proved(cls(found.header(), found.number("402-D2"), found.text("407-D7"), fill))


@dataclass(frozen=True)
class Ruling:
    """What an answer rules of a transaction. Amounts are cents; what a ruling does not have is None, and codes are of a rejection alone."""

    ruling: str
    """`paid`, `duplicate` (paid before, and not again), `reversed` or `rejected`."""
    authorization: Optional[str] = None
    """503-F3: four digits of the payer, and twelve of its serial."""
    prescription: Optional[int] = None
    """402-D2."""
    cost: Optional[int] = None
    """Ingredient cost paid, 506-F6."""
    fee: Optional[int] = None
    """Dispensing fee paid, 507-F7."""
    copay: Optional[int] = None
    """What the patient pays, 505-F5."""
    total: Optional[int] = None
    """Total paid, 509-F9: of what a plan pays cost and fee, less the copay."""
    codes: tuple[str, ...] = ()
    """Reject codes, 511-FB: two or three digits and capital letters each."""
    messages: tuple[str, ...] = ()
    """What the payer's own system says beside that (526-FQ): 25 texts at most, of 1 to 40 letters each. They reach the pharmacy where a
    network's answers are wide."""
    again: bool = False
    """Of a reversal, as a payer's own system may tell it: it was approved before (112-AN, `S`). No answer of a book says so."""


@dataclass(frozen=True)
class Answer:
    """An answer of a payer, or of a switch that has no route."""

    rulings: tuple[Ruling, ...]
    """Of each transaction in turn."""
    message: str = ""
    """What the payer's own system says of all of them (504-F4): a text of at most 200 letters, or none. It reaches the pharmacy where a
    network's answers are wide and the book rules every transaction so."""

    @classmethod
    def read(cls, message: bytes) -> Answer:
        """What an answer rules, as claimdecode reads it. ValueError where it is none."""
        told = decoded(message)
        found = [one for one in told.get("findings", []) if one["finding"] == "ruling"]
        if told["kind"] != "answer" or not found or len(found) != len(told["findings"]):
            raise ValueError("no answer")
        names = ("ruling", "authorization", "prescription", "cost", "fee", "copay", "total")
        before, said = _messages_in(told["parts"])
        return cls(
            tuple(
                Ruling(
                    **{name: one.get(name) for name in names}, codes=tuple(one.get("codes", "").split()), messages=texts
                )
                for one, texts in zip(found, said)
            ),
            before,
        )

    def to(self, request: bytes) -> bytes:
        """The bytes of this answer to a request, as a payer's own system gives them; the header is the request's. Of a ruling the total
        may be left out, and the authorization, since a payer's node gives its own. ValueError where no answer reads back so.
        """
        head = b"D0%s%dA%s%s" % (request[8:10], len(self.rulings), request[21:46], _told_before(self.message))
        whole = tuple(map(_whole, self.rulings))
        # An answer of a book does not say that a reversal was approved before, so it is read as if it were approved now.
        once = Answer(
            tuple(replace(one, again=False) if one.ruling == "reversed" else one for one in whole), self.message
        )
        if Answer.read(head + b"".join(map(_group, once.rulings))) != once:
            raise ValueError("no answer has these rulings")
        return head + b"".join(map(_group, whole))


# How an answer tells each ruling (112-AN), and the authorization that stands where there is none.
_STATUS = {"paid": b"P", "duplicate": b"D", "reversed": b"A", "rejected": b"R"}
_ANY_AUTHORIZATION = "0001000000000001"
# The most messages of a transaction (130-UF), the most letters of one, and the most of that of all transactions.
_MOST_MESSAGES, _MOST_LETTERS, _MOST_OF_ALL = 25, 40, 200


def _messages_in(parts: list[dict[str, Any]]) -> tuple[str, list[tuple[str, ...]]]:
    """The message of an answer in front of all transactions, and those of each."""
    before = ""
    found: list[list[str]] = []
    for part in parts:
        if "transaction" in part:
            found.append([])
        elif found and part.get("field") == "526-FQ":
            found[-1].append(_text_of(part))
        elif not found and part.get("field") == "504-F4":
            before = _text_of(part)
    return before, [tuple(texts) for texts in found]


def _text_of(part: dict[str, Any]) -> str:
    """The text of a field."""
    return unprinted(part["value"].encode("ascii")).decode("latin-1")


def _told_before(text: str) -> bytes:
    """How an answer tells the message of all its transactions: in a segment in front of them."""
    if len(text) > _MOST_OF_ALL:
        raise ValueError("no answer has this message")
    return b"\x1e\x1cAM20\x1cF4" + text.encode("latin-1") if text else b""


def _told_messages(texts: tuple[str, ...]) -> bytes:
    """How an answer tells messages: how many there are, and each behind its qualifier."""
    if len(texts) > _MOST_MESSAGES or not all(1 <= len(text) <= _MOST_LETTERS for text in texts):
        raise ValueError("no answer has these messages")
    told = (b"\x1cUH%02d\x1cFQ%s" % (place, text.encode("latin-1")) for place, text in enumerate(texts, 1))
    return b"\x1cUF%d" % len(texts) + b"".join(told) if texts else b""


def _whole(ruling: Ruling) -> Ruling:
    """A ruling with all that an answer tells of it."""
    if ruling.ruling == "rejected":
        return ruling
    total = None if ruling.cost is None else ruling.cost + (ruling.fee or 0) - (ruling.copay or 0)
    authorization = ruling.authorization or _ANY_AUTHORIZATION
    return replace(ruling, authorization=authorization, total=total if ruling.total is None else ruling.total)


def _amount(cents: Optional[int]) -> bytes:
    """An amount: its digits, of which the last one has the sign as well."""
    digits = "%d" % (cents or 0)
    return (digits[:-1] + "{ABCDEFGHI"[int(digits[-1])]).encode("ascii")


def _group(one: Ruling) -> bytes:
    """The group of a transaction."""
    told, said = b"\x1d\x1e\x1cAM21\x1cAN" + (b"S" if one.again else _STATUS[one.ruling]), _told_messages(one.messages)
    if one.ruling == "rejected":
        codes = b"".join(b"\x1cFB" + code.encode("ascii") for code in one.codes)
        return told + b"\x1cFA%d" % len(one.codes) + codes + said
    told += b"\x1cF3%s%s\x1e\x1cAM22\x1cEM1\x1cD2%d" % (
        (one.authorization or "").encode("ascii"),
        said,
        one.prescription or 0,
    )
    if one.ruling == "reversed":
        return told
    amounts = ((b"F5", one.copay), (b"F6", one.cost), (b"F7", one.fee), (b"F9", one.total))
    return told + b"\x1e\x1cAM23" + b"".join(b"\x1c" + key + _amount(cents) for key, cents in amounts)


Made = TypeVar("Made", Billing, Reversal)


class _Found:
    """What claimdecode finds in a message."""

    def __init__(self, message: bytes, order: str) -> None:
        told = decoded(message)
        self.message = bytes(message)
        self.values = {part["field"]: part["value"] for part in told.get("parts", []) if "field" in part}
        orders = [
            one for one in told.get("findings", []) if one.get("finding") == "order" and one.get("order") == order
        ]
        if told["kind"] != "request" or len(orders) != 1:
            raise ValueError(f"no {order} of one transaction")
        self.order: dict[str, Any] = orders[0]

    def text(self, field: str) -> bytes:
        return unprinted(self.values[field].encode("ascii"))

    def number(self, field: str) -> int:
        return int(self.values[field])

    def header(self) -> Header:
        return Header(
            bin=self.text("101-A1"),
            provider=self.text("201-B1"),
            date=self.text("401-D1"),
            pcn=self.text("104-A4"),
            qualifier=self.text("202-B2"),
            vendor=self.text("110-AK"),
        )

    def proved(self, made: Made) -> Made:
        """What was read, where its bytes are those of the message: other spellings of the same order are left to `decoded`."""
        if bytes(made) != self.message:
            raise ValueError("the same order in other bytes than this library makes")
        return made


def _text(given: Any, name: str) -> bytes:
    if isinstance(given, str):
        return given.encode("ascii")
    if isinstance(given, (bytes, bytearray, memoryview)):
        return bytes(given)
    raise TypeError(f"{name} has to be bytes or str, not {type(given).__name__}")


def _texts(message: Any, *names: str) -> None:
    if not isinstance(message.header, Header):
        raise TypeError(f"header has to be a Header, not {type(message.header).__name__}")
    for name in names:
        object.__setattr__(message, name, _text(getattr(message, name), name))


def _numbers(message: Any, *names: str) -> None:
    for name in names:
        given = getattr(message, name)
        if not isinstance(given, int) or isinstance(given, bool):
            raise TypeError(f"{name} has to be an int, not {type(given).__name__}")


def _number(given: int, number: int, bits: int) -> int:
    """A number for the library: one that is too large for it is the largest, which is too long for any field."""
    if given < 0:
        raise WrongField(number, Code.FIELD_DIGITS)
    return min(given, (1 << bits) - 1)


def _put(raw: Any, name: str, text: Any, number: int) -> None:
    """Puts a text into its array. Of one that is too long so much that the library finds it too long."""
    if b"\0" in text:
        raise WrongField(number, Code.FIELD_SEPARATOR)
    setattr(raw, name, text[: getattr(type(raw), name).size])


def _header(header: Header) -> RawHeader:
    raw = RawHeader()
    for name, number in (
        ("bin", 101),
        ("pcn", 104),
        ("qualifier", 202),
        ("provider", 201),
        ("date", 401),
        ("vendor", 110),
    ):
        _put(raw, name, getattr(header, name), number)
    return raw


def _made(call: Callable[..., int], raw: Any) -> bytes:
    size, field, room = ctypes.c_size_t(), ctypes.c_uint32(), 512
    while True:
        buffer = ctypes.create_string_buffer(room)
        code = call(ctypes.byref(raw), buffer, room, ctypes.byref(size), ctypes.byref(field))
        if code in _WHY:
            raise WrongField(field.value, Code(code))
        if code != Code.SHORT_BUFFER:
            check_code(code)
            return ctypes.string_at(buffer, size.value)
        room = size.value
