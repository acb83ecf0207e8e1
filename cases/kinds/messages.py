"""Messages, as claimdecode describes them: what a request asks for, what an answer rules, and the parts of both."""
import json
import re
from typing import Iterable

from suite.case import Case, Group, rows_apart
from suite.printed import octets_of, printed
from suite.programs import run
from suite.rows import read_rows

PROGRAMS = ("claimdecode",)
HEADER_FAULTS = {"Short", "BadBin", "BadCount", "DateNotDigits", "Separator"}
# Where the header of a request, or of an answer, ends.
HEADS = {"request": 56, "answer": 31}
# A transmission of one group behind a header: a billing whose fields are all in order.
BILLED = b"\x1e\x1cAM04\x1cC21\x1d\x1e\x1cAM07\x1cEM1\x1cD21\x1cD30\x1cE103\x1cD7X\x1cE71\x1e\x1cAM11\x1cD90{"
SEPARATORS = range(0x1C, 0x1F)


def described(kind: str, messages: Iterable[bytes]) -> list[dict]:
    """What claimdecode says of messages, each as an object."""
    lines = "".join(f"{it.hex()}\n" for it in messages)
    return [
        json.loads(line) for line in run("claimdecode", kind, "--json", "--hex", given=lines.encode()).out.splitlines()
    ]


def shown(text: str) -> str:
    """Printed bytes as outcomes have them: none at all are two quotation marks."""
    return text or '""'


def id_of(part: dict) -> bytes:
    """The two bytes that name a field: those behind the standard's number, or all of a name that is unknown."""
    known = re.fullmatch("[0-9]{3}-(..)", part["field"])
    return known.group(1).encode() if known else octets_of(part["field"])


def joined(said: dict) -> bytes:
    """The message that a description's parts spell."""
    parts = []
    for part in said["parts"]:
        front = {"transaction": b"\x1d", "segment": b"\x1e\x1cAM"}.get(part["name"], b"")
        if part["at"] >= HEADS.get(said["kind"], 0) and not front and "field" in part:
            front = b"\x1c" + id_of(part)
        parts.append(front + octets_of(part.get("value", "")))
    return b"".join(parts)


def fault_of(said: dict) -> str | None:
    """The fault of a message's framing, by its name and place; none of one that is framed."""
    for found in said["findings"]:
        if found["finding"] == "not_framed":
            return spelled(found)
    return None


def spelled(found: dict) -> str:
    """The name of a fault and its place."""
    fault = found["fault"]
    if "said" in found:
        fault += f' {{ said: {found["said"]}, found: {found["found"]} }}'
    elif "at" in found:
        fault += f'({found["at"]})'
    return fault


def framed(kind: str, message: bytes) -> str:
    """The parts of a transmission, which are the message, or the first fault."""
    (said,) = described(kind, [message])
    fault = fault_of(said)
    if fault:
        return f"Header({fault})" if fault.split("(")[0] in HEADER_FAULTS else fault
    if joined(said) != message:
        return "its parts are another message"
    header = {part["name"]: part["value"] for part in said["parts"] if part["at"] < HEADS[said["kind"]]}
    parts = []
    for part in said["parts"]:
        if part["at"] < HEADS[said["kind"]]:
            continue
        if part["name"] == "transaction":
            parts.append("+")
        elif part["name"] == "segment":
            parts.append("/" + part["value"])
        else:
            parts.append(f' {printed(id_of(part))}={part["value"]}')
    return f'{header["transaction_count"]} ' + "".join(parts)


def stands(message: bytes, found: dict) -> bool:
    """Whether a fault of a request stands where it is told, by the words of the fault table in docs/FORMATS.md."""
    fault, at = found["fault"], found.get("at", 0)
    here, behind = message[at : at + 1], message[at + 1 :]
    to_separator = next((place for place, octet in enumerate(behind) if octet in SEPARATORS), len(behind))
    if fault == "Short":
        return len(message) < 56
    if fault == "BadBin":
        return not message[:6].isdigit()
    if fault == "BadCount":
        return message[20:21] not in (b"1", b"2", b"3", b"4")
    if fault == "DateNotDigits":
        return not message[38:46].isdigit()
    if fault == "Separator":
        return at < 56 and here[0] in SEPARATORS
    if fault == "NoSegmentStart":
        return (at == 56 or message[at - 1] == 0x1D) and here not in (b"", b"\x1d", b"\x1e")
    if fault == "EmptyGroup":
        return here == b"\x1d" and behind[:1] in (b"", b"\x1d")
    if fault == "NoSegmentId":
        named = (
            behind[:3] == b"\x1cAM"
            and next((it for it, octet in enumerate(behind[1:]) if octet in SEPARATORS), len(behind) - 1) == 4
        )
        return here == b"\x1e" and not named
    if fault == "BadFieldId":
        return here == b"\x1c" and message[at - 1] != 0x1E and to_separator < 2
    return message[20] == found["said"] + 0x30 and found["said"] != found["found"] == message[56:].count(0x1D)


def each_byte_replaced(message: bytes) -> str:
    """What comes of a request with each of five bytes in the place of each of its bytes: its parts are it, or its fault stands in it."""
    texts = [
        message[:at] + bytes([octet]) + message[at + 1 :]
        for at in range(len(message))
        for octet in (0, 0x1C, 0x1D, 0x1E, 0xFF)
    ]
    kept = refused = 0
    for text, said in zip(texts, described("request", texts), strict=True):
        faults = [it for it in said["findings"] if it["finding"] == "not_framed"]
        kept += not faults and joined(said) == text
        refused += bool(faults) and stands(text, faults[0])
    return f"kept={kept} refused={refused}"


def framing(word: str, argument: bytes) -> str:
    if word == "prefix":
        count, _, message = argument.partition(b" ")
        return framed("request", message[: int(count)])
    if word == "each-byte-replaced":
        return each_byte_replaced(argument)
    return framed({"request": "request", "response": "answer"}[word], argument)


REQUEST_HEADER = {
    "bin_number": "bin",
    "version": "version",
    "transaction_code": "code",
    "processor_control_number": "pcn",
    "transaction_count": "count=",
    "service_provider_id_qualifier": "qualifier",
    "service_provider_id": "provider",
    "date_of_service": "date",
    "software_vendor_id": "vendor",
}
ANSWER_HEADER = {
    "version": "version",
    "transaction_code": "code",
    "transaction_count": "count=",
    "header_response_status": "status",
    "service_provider_id_qualifier": "qualifier",
    "service_provider_id": "provider",
    "date_of_service": "date",
}


def header_of(said: dict, names: dict[str, str]) -> str:
    """The fields of a header."""
    told = []
    for part in said["parts"]:
        if part["at"] < HEADS[said["kind"]]:
            name = names[part["name"]]
            told.append(name + part["value"] if name.endswith("=") else f'{name} {part["value"]}')
    return " ".join(told)


def headers(word: str, argument: bytes) -> str:
    if word == "is-date":
        (said,) = described("request", [b"610455D0B1A1        1011234567893     " + argument + b"SW00000001" + BILLED])
        return "yes" if [it["finding"] for it in said["findings"]] == ["order"] else "no"
    kind = "answer" if word.startswith("response") else "request"
    (said,) = described(kind, [argument])
    fault = fault_of(said)
    if fault and fault.split("(")[0] in HEADER_FAULTS:
        return fault
    return header_of(said, ANSWER_HEADER if kind == "answer" else REQUEST_HEADER)


def of_transaction(findings: list[dict]) -> str:
    """What a transaction asks for, or the codes of its causes, each once, the first five."""
    if findings[0]["finding"] == "order":
        return "taken"
    codes = list(dict.fromkeys(it["code"] for it in findings))
    told = [it["code"] for it in findings if "told" not in it]
    if list(dict.fromkeys(told)) != codes[:5]:
        return f"other codes are told: {told}"
    return "rejected " + ",".join(codes[:5])


def fields_of(said: dict) -> str:
    """All that the first transaction of a request asks for."""
    order = said["findings"][0]
    header = {part["name"]: part["value"] for part in said["parts"] if part["at"] < 56}
    told = [
        f'bin {header["bin_number"]} pcn {header["processor_control_number"]} qualifier {header["service_provider_id_qualifier"]}',
        f'provider {header["service_provider_id"]} prescription={order["prescription"]}',
        f'fill={order["fill"]}' if "fill" in order else "any fill",
        f'date {header["date_of_service"]}',
    ]
    if order["order"] == "billing":
        told.append(
            "cardholder {cardholder} product {product} quantity={quantity} cost={cost} fee={fee}".format(**order)
        )
    return " ".join(told)


def orders(word: str, argument: bytes) -> str:
    (said,) = described("request", [argument])
    findings = said["findings"]
    if word == "fields":
        return fields_of(said)
    if findings and findings[0]["finding"] in ("not_framed", "not_carried"):
        return "Unreadable"
    transactions = dict.fromkeys(it["transaction"] for it in findings)
    return " ".join(of_transaction([it for it in findings if it["transaction"] == number]) for number in transactions)


def ruling(found: dict) -> str:
    """A ruling, or why there is none."""
    if found["finding"] == "not_framed":
        return "Framing"
    if found["finding"] == "no_answer":
        return found["fault"]
    if found["ruling"] == "rejected":
        return "rejected " + found["codes"].replace(" ", ",")
    told = "{ruling} {authorization} prescription={prescription}".format(**found)
    return (
        told
        if found["ruling"] == "reversed"
        else told + " cost={cost} fee={fee} copay={copay} total={total}".format(**found)
    )


def answers(word: str, argument: bytes) -> str:
    (said,) = described(word, [argument])
    return " ".join(map(ruling, said["findings"]))


def unprinted(text: bytes) -> str:
    """The bytes that a printed text spells, or the place where it spells none."""
    out = run("claimdecode", "request", "--json", given=text + b"\n").out
    said = json.loads(out)
    if said["kind"] == "none":
        return f'BadByte({said["place"]})'
    return "".join(chr(it) if 0x20 <= it <= 0x7E and it != 0x5C else f"\\x{it:02x}" for it in joined(said))


def is_printed(octet: int) -> bool:
    """Whether a byte is printed as it should be, and read back from that and from upper-case digits. It stands in a header, or is a part
    of its own where it is a separator."""
    front = b"610455D0B1"
    spellings = [printed(bytes([octet])), f"\\x{octet:02X}"]
    lines = "".join(f"{front.decode()}{it}\n" for it in spellings)
    for line in run("claimdecode", "request", "--json", given=lines.encode()).out.splitlines():
        said = json.loads(line)
        if said["bytes"] != len(front) + 1 or octets_of(
            "".join(it.get("value", "") for it in said["parts"])
        ) != front + bytes([octet]):
            return False
        if said["parts"][-1]["value"] != spellings[0]:
            return False
    return True


def printed_text(word: str, argument: bytes) -> str:
    if word == "every-byte":
        return f"agreeing={sum(map(is_printed, range(256)))}"
    if word == "print":
        (said,) = described("request", [argument])
        parts = (
            it.get("value", "") if it["at"] < 56 else printed(joined({"kind": "request", "parts": [it]}))
            for it in said["parts"]
        )
        return "1 " + "".join(parts)
    return unprinted(argument)


ACCEPTED = b"D0B11A011234567893     20240115\x1d\x1e\x1cAM21\x1cAN"


def rejected(codes: list[bytes]) -> dict:
    """What is said of an answer that rejects with these codes."""
    (said,) = described(
        "answer", [ACCEPTED + b"R\x1cFA" + str(len(codes)).encode() + b"".join(b"\x1cFB" + it for it in codes)]
    )
    return said


def authorization(payer: int, serial: int) -> str:
    """The authorization of a payer and a serial, where it is described as theirs."""
    text = f"{payer:04}{serial:012}"
    (said,) = described("answer", [ACCEPTED + b"P\x1cF3" + text.encode()])
    return text if said["parts"][-1].get("meaning") == f"payer {payer}, serial {serial}" else "none"


def codes(word: str, argument: bytes) -> str:
    if word == "authorization":
        return authorization(*map(int, argument.split()))
    said = rejected(argument.split())
    if word == "rejects":
        found = ruling(said["findings"][0])
        return "none" if found == "BadRejects" else found
    meaning = said["parts"][-1]["meaning"]
    return "none" if meaning == "a code that the product does not know" else meaning


def envelopes(_: str, argument: bytes) -> str:
    (said,) = described("packet", [argument])
    found = said["findings"][0]
    if found["finding"] == "no_envelope":
        return spelled(found)
    payload = joined(
        {"kind": found["carries"], "parts": [it | {"at": it["at"] - 18} for it in said["parts"] if it["at"] >= 18]}
    )
    return f'{found["carries"].capitalize()} {found["pharmacy"]}.{found["number"]} {shown(printed(payload))}'


def lines_of(_: str, argument: bytes) -> str:
    told = []
    for line in run("claimdecode", "request", "--json", given=argument).out.splitlines():
        said = json.loads(line)
        told.append(
            f'{said["line"]} at {said["place"]}'
            if said["kind"] == "none"
            else f'{said["line"]} {printed(joined(said))}'
        )
    return " ".join(told)


LAST_DIGITS = ((1, b"{ABCDEFGHI"), (-1, b"}JKLMNOPQR"), (1, b"0123456789"))
SIGNED = {octet: (sign, digit) for sign, row in LAST_DIGITS for digit, octet in enumerate(row)}


def plain_sum(text: bytes) -> str:
    """What an amount of one or two bytes means, by the table of its last byte."""
    *tens, last = text
    if tens and not 0x30 <= tens[0] <= 0x39:
        return "no amount: no digit at place 0"
    if last not in SIGNED:
        return "no amount: the last byte is no signed digit"
    sign, digit = SIGNED[last]
    cents = digit + sum(10 * (it - 0x30) for it in tens)
    return f'{"-" if sign < 0 and cents else ""}{cents // 100}.{cents % 100:02} dollars'


def amounts(word: str, _: bytes) -> str:
    """How many amounts of one or two bytes mean what the plain sum says."""
    octets = [bytes([it]) for it in range(256) if it not in SEPARATORS]
    texts = octets if word == "every-byte" else [first + last for first in octets for last in octets]
    front = b"610455D0B1A1        1011234567893     20240115SW00000001\x1d\x1e\x1cAM11"
    said = described(
        "request", (front + b"".join(b"\x1cD9" + it for it in texts[at : at + 256]) for at in range(0, len(texts), 256))
    )
    told = [
        part["meaning"] for message in said for part in message["parts"] if part["name"] == "ingredient_cost_submitted"
    ]
    return f"agreeing={sum(meaning == plain_sum(text) for meaning, text in zip(told, texts, strict=True))}"


REFUSED = "# line 1: no message: "


def made_of(description: str) -> str:
    """The message that claimdecode makes of a description, or why it makes none."""
    out = run("claimdecode", "--encode", given=description.encode() + b"\n").out.decode("ascii").removesuffix("\n")
    return out.removeprefix(REFUSED)


def changed(said: dict, pointer: str, value: str | None) -> dict:
    """A description with another text at a place, or with nothing there."""
    *way, last = (int(it) if it.isdigit() else it for it in pointer.strip("/").split("/"))
    at = said
    for step in way:
        at = at[step]
    if value is None:
        del at[last]
    elif isinstance(at, list):
        at.insert(last, json.loads(value))
    else:
        at[last] = value
    return said


def encoding(word: str, argument: bytes) -> str:
    """What comes of a message's description, as it is or changed; `same` where it is the message."""
    if word == "json":
        return made_of(argument.decode("latin-1"))
    if word in ("set", "drop"):
        way, _, argument = argument.partition(b" ")
        pointer, _, value = way.decode("latin-1").partition("=")
        (said,) = described("request", [argument])
        return made_of(json.dumps(changed(said, pointer, value if word == "set" else None)))
    (said,) = described(word, [argument])
    made = made_of(json.dumps(said))
    return "same" if octets_of(made) == argument else made


FILES = {
    "amounts": amounts,
    "encoding": encoding,
    "answers": answers,
    "codes": codes,
    "counter-answers": answers,
    "counter-requests": orders,
    "envelopes": envelopes,
    "framing": framing,
    "headers": headers,
    "lines": lines_of,
    "orders": orders,
    "printed-text": printed_text,
    "reversals": orders,
}


def groups(path: str, name: str, kind: type[Case]) -> list[Group]:
    stem = name.rsplit("/", 1)[1].rsplit(".", 1)[0]
    return rows_apart(name, read_rows(path), FILES[stem], kind)
