"""Settings of small networks, and claims, as texts: for tests and benches that want some of their own."""

from __future__ import annotations

import pathlib
from collections.abc import Sequence

MESSAGES = pathlib.Path(__file__).resolve().parent.parent.parent / "examples" / "messages"
BILLING, REVERSAL = ((MESSAGES / f"{name}.txt").read_text(encoding="ascii").strip() for name in ("billing", "reversal"))
PRESCRIPTION = "D2123456"
# The provider ID of the first pharmacy; each next one has the next number.
PROVIDER = 1234567893
PRICES = "[payer.prices]\n00093721410 = 18567\n"
ROUTE = '[[route]]\nbin = "610455"\npayer = 1\n'


def settings(
    nodes: Sequence[Sequence[int]] = ((1,),),
    caps: Sequence[int] = (100,),
    switches: Sequence[int] = (64,),
    rows: int = 1000,
    *,
    again: int = 1,
    tries: int = 1,
    limits: str = "",
    asks: bool = False,
    routes: str = ROUTE,
) -> str:
    """Settings of pharmacies with these nodes and caps, switches with these caps, and one payer with this cap: under its prices, or with a
    system of its own that it asks."""
    text = f"again = {again}\ntries = {tries}\n{limits}"
    for place, (some, cap) in enumerate(zip(nodes, caps, strict=True)):
        text += f'[[pharmacy]]\nqualifier = "01"\nprovider = "{PROVIDER + place}"\nnodes = {list(some)}\ncap = {cap}\n'
    text += "".join(f"[[switch]]\ncap = {cap}\n" for cap in switches)
    text += "[[payer]]\n" + 'asks = "claims"\n' * asks + f"fee = 150\ncopay = 1000\ncap = {rows}\n"
    return text + ("" if asks else PRICES) + routes


def billing(prescription: int | str) -> str:
    """A billing of a prescription of its own, in printed bytes."""
    return BILLING.replace(PRESCRIPTION, f"D2{prescription}")


def reversal(prescription: int | str) -> str:
    """A reversal of a prescription, in printed bytes."""
    return REVERSAL.replace(PRESCRIPTION, f"D2{prescription}")
