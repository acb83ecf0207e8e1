"""What a settings file says of nodes: their names, and who sends to whom."""

from __future__ import annotations

import functools
import pathlib
import re
import sys
import tomllib
from array import array
from collections.abc import Iterable
from typing import Any, NoReturn

# The status of a program whose settings are refused.
REFUSED = 78
KINDS = (("ph", "pharmacy"), ("sw", "switch"), ("pr", "payer"))
MOST_BYTES = 16 << 20


def refuse(why: str) -> NoReturn:
    """Says why settings are refused, and ends the program."""
    print(why, file=sys.stderr, flush=True)
    raise SystemExit(REFUSED)


class Settings:
    """The nodes of a settings file, and the ways between them."""

    def __init__(self, given: dict[str, Any], ways: Iterable[tuple[range, str]] = ()) -> None:
        self._given, self._ways = given, tuple(ways)

    def with_ways(self, ways: Iterable[tuple[range, str]]) -> Settings:
        """The same settings, where pharmacies of these numbers also send to a switch: their rules of retries name it."""
        return Settings(self._given, ways)

    @classmethod
    def read(cls, name: str) -> Settings:
        """Of a file of settings alone; ends the program where it is none."""
        try:
            if not pathlib.Path(name).is_file():
                refuse(f"{name}: there is no such file")
            with pathlib.Path(name).open("rb") as file:
                data = file.read(MOST_BYTES + 1)
            if len(data) > MOST_BYTES:
                refuse(f"{name}: settings have at most {MOST_BYTES} bytes")
            text = data.decode()
            # The parsed settings of a large network have ten times as many bytes: these are not kept beside them.
            del data
            if divided := re.search("^---$", text, re.MULTILINE):
                line = text.count("\n", 0, divided.start()) + 1
                refuse(f"{name}: settings alone are wanted, the part before line {line}, `---`")
            return cls(tomllib.loads(text))
        except (OSError, ValueError) as fault:
            refuse(f"{name}: {fault}")

    def nodes(self) -> list[str]:
        """The names of the nodes, pharmacies first."""
        return [f"{short}{place}" for short, key in KINDS for place in range(1, len(self._given.get(key, [])) + 1)]

    def keepers(self) -> list[str]:
        """The nodes that keep a log: a switch keeps nothing."""
        return [node for node in self.nodes() if not node.startswith("sw")]

    def pharmacies(self) -> list[str]:
        return [node for node in self.nodes() if node.startswith("ph")]

    def addressees(self, node: str) -> list[str]:
        """To whom a node sends: a pharmacy to the switches that it names, here or by its rule of retries, a switch to the payers of
        routes and the pharmacies that name it, a payer to the switches that some pharmacy names."""
        if node.startswith("ph"):
            return self._named[int(node[2:]) - 1]
        if node.startswith("pr"):
            return self._switches
        return self._payers + [f"ph{place}" for place in self._naming.get(node, ())]

    @functools.cached_property
    def _named(self) -> list[list[str]]:
        """The switches that each pharmacy names; those who name the same share one list."""
        lists: dict[frozenset[str], list[str]] = {}
        named = []
        for number, one in enumerate(self._given.get("pharmacy", []), 1):
            switches = frozenset(f"sw{it}" for it in one.get("nodes", []))
            switches = switches.union(switch for numbers, switch in self._ways if number in numbers)
            if switches not in lists:
                lists[switches] = sorted(switches)
            named.append(lists[switches])
        return named

    @functools.cached_property
    def _naming(self) -> dict[str, array[int]]:
        """The places of the pharmacies that name each switch which is named."""
        naming: dict[str, array[int]] = {}
        for place, switches in enumerate(self._named, 1):
            for switch in switches:
                naming.setdefault(switch, array("I")).append(place)
        return naming

    @functools.cached_property
    def _switches(self) -> list[str]:
        """The switches that some pharmacy names."""
        return sorted(self._naming)

    @functools.cached_property
    def _payers(self) -> list[str]:
        """The payers to which some route leads."""
        return [f"pr{it}" for it in sorted({route["payer"] for route in self.routes() if "payer" in route})]

    def routes(self) -> list[dict[str, Any]]:
        """The rows of the routes, as the file has them: some lead to a payer, and some say which requests of a provider stay rejected."""
        rows: list[dict[str, Any]] = self._given.get("route", [])
        return rows

    def asks(self, payer: str) -> str:
        """What a payer asks its own system about, `claims` or `all`, or nothing; ends the program where there is no such payer."""
        return str(self._one(payer).get("asks", ""))

    def cap(self, node: str) -> int:
        """The most entries, slots or rows of a node; ends the program where there is no such node."""
        return int(self._one(node)["cap"])

    def _one(self, node: str) -> dict[str, Any]:
        """The table of a node; ends the program where there is none."""
        of_kind: list[dict[str, Any]] = self._given.get(dict(KINDS)[node[:2]], [])
        if int(node[2:]) > len(of_kind):
            refuse(f"the settings have no {node}")
        return of_kind[int(node[2:]) - 1]
