"""What settings say, as a text (docs/FORMATS.md), written without the product: of it a log has the digest."""
import struct
import tomllib


def number(value: int) -> bytes:
    return struct.pack(">Q", value)


def text(octets: bytes) -> bytes:
    return number(len(octets)) + octets


def listed(items: list[bytes]) -> bytes:
    """How many there are, and each."""
    return number(len(items)) + b"".join(items)


def filled(value: str, width: int) -> bytes:
    """An identity, filled with spaces."""
    return text(value.encode().ljust(width))


def pharmacy_said(document: dict, pharmacy: dict) -> bytes:
    numbers = document["again"], document["tries"], pharmacy["cap"]
    parts = [
        filled(pharmacy["qualifier"], 2),
        filled(pharmacy["provider"], 15),
        listed([number(it) for it in pharmacy["nodes"]]),
    ]
    return b"".join([*parts, *map(number, numbers)])


def zeros_said(payer: dict, is_wide: bool) -> bytes:
    """What stands before the first serial number of a payer: one zero where it asks about claims, two more where it asks about reversals, four more
    where answers are wide."""
    asks = {None: 0, "claims": 1, "all": 1 + 2}[payer.get("asks")]
    return number(0) * (asks + 4 * is_wide)


def payer_said(payer: dict, is_wide: bool) -> bytes:
    numbers = payer.get("serial", 1), payer["cap"], payer["fee"], payer["copay"]
    prices = sorted((product.encode(), price) for product, price in payer.get("prices", {}).items())
    said = zeros_said(payer, is_wide) + b"".join(map(number, numbers))
    return said + listed([text(product) + number(price) for product, price in prices])


def route_said(route: dict) -> bytes:
    rejected = number(4) + number(route["rejected"]) if "rejected" in route else b""
    kind = ("pcn" in route) + 2 * ("qualifier" in route)
    pcn = text(route["pcn"].encode()) if "pcn" in route else b""
    said = text(route["bin"].encode()) + rejected + number(kind) + pcn + providers_said(route)
    return said + number(route.get("payer", 0))


def providers_said(route: dict) -> bytes:
    """The providers that a route is for: nothing, where it is for all."""
    if "qualifier" not in route:
        return b""
    ends = [route.get("provider", route.get(end)) for end in ("first", "last")]
    return filled(route["qualifier"], 2) + b"".join(filled(end, 15) for end in ends)


def said_of(settings: bytes) -> bytes:
    """What settings say."""
    document = tomllib.loads(settings.decode())
    is_wide = document.get("answers", {}).get("profile") == "wide"
    return b"".join(
        [
            listed([pharmacy_said(document, it) for it in document["pharmacy"]]),
            listed([number(it["cap"]) for it in document["switch"]]),
            listed([payer_said(it, is_wide) for it in document["payer"]]),
            listed([route_said(it) for it in document["route"]]),
        ]
    )
