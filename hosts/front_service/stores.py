"""Which pharmacy a message is of: by its service provider (202-B2 and 201-B1), the identity of the settings or another one that a file names.

    [[store]]
    pharmacy = "ph1"
    identities = [{ qualifier = "07", provider = "4567890" }]

A pharmacy's node knows one identity, that of the settings. A message under another one of the pharmacy is entered under that, so that a fill is
one fill whichever of them a message names; the answer has the one that was asked with."""

from __future__ import annotations

import pathlib
import tomllib
from collections.abc import Collection
from typing import Any

from .standard import of_answer, of_request, provider_of

Identity = tuple[bytes, bytes]


def identity_of(qualifier: str, provider: str) -> Identity:
    """An identity as a header has it, filled with spaces."""
    found = qualifier.encode().ljust(2), provider.encode().ljust(15)
    if len(found[0]) > 2 or len(found[1]) > 15 or any(it in found[0] + found[1] for it in b"\x1c\x1d\x1e\n"):
        raise ValueError(
            f"{qualifier} {provider}: a qualifier has at most 2 bytes, a provider 15, and neither a separator"
        )
    return found


class Stores:
    """The identities of pharmacies: those of the settings, by their names, and others."""

    def __init__(self, own: dict[str, Identity], others: dict[Identity, str] | None = None) -> None:
        self._own = own
        self._names = {identity: name for name, identity in own.items()}
        for identity, name in (others or {}).items():
            if name not in own:
                raise ValueError(f"{name}: there is no such pharmacy")
            if self._names.setdefault(identity, name) != name:
                raise ValueError(f"{b' '.join(identity).decode()}: that is {self._names[identity]}")

    @classmethod
    def read(cls, own: dict[str, tuple[str, str]], file: str | None) -> Stores:
        """Those of the settings and of a file; ValueError where that is not as it should be."""
        others: dict[Identity, str] = {}
        given: dict[str, Any] = tomllib.loads(pathlib.Path(file).read_text(encoding="utf-8")) if file else {}
        try:
            for store in given.get("store", []):
                for it in store["identities"]:
                    identity = identity_of(it["qualifier"], it["provider"])
                    if others.setdefault(identity, store["pharmacy"]) != store["pharmacy"]:
                        raise ValueError(f"{it['qualifier']} {it['provider']}: it is named twice")
        except (KeyError, TypeError, AttributeError) as fault:
            raise ValueError(
                f"{file}: a store has a pharmacy, and identities with qualifier and provider: {fault}"
            ) from None
        return cls({name: identity_of(*it) for name, it in own.items()}, others)

    def take(self, others: Stores) -> None:
        """Goes by the identities of others from now on."""
        self._own, self._names = others._own, others._names

    def of(self, message: bytes, names: Collection[str]) -> str | None:
        """The one of some pharmacies whose message this is."""
        name = self._names.get(provider_of(message))
        return name if name in names else None

    def entered(self, name: str, message: bytes) -> bytes:
        """A message as the node of its pharmacy takes it."""
        identity = provider_of(message)
        if identity == self._own[name] or self._names.get(identity) != name:
            return message
        return of_request(message, *self._own[name])

    def answered(self, message: bytes, answer: bytes) -> bytes:
        """An answer as the caller asked for it."""
        identity = provider_of(message)
        if identity not in self._names or answer[6:23] == b"".join(identity):
            return answer
        return of_answer(answer, *identity)
