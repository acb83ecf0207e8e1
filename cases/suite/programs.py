"""The programs under test: where each stands, and what one run of it gives."""
import os
import subprocess
from typing import NamedTuple

TOP = os.path.dirname(os.path.dirname(os.path.dirname(os.path.abspath(__file__))))
# No case may take longer than this, in seconds.
LONGEST = 120


class Missing(Exception):
    """A program that is not compiled."""


class Ran(NamedTuple):
    """How a program ended, and what it wrote."""

    status: int
    out: bytes
    err: bytes

    def told(self) -> str:
        """What it wrote, and behind it, where it did not end well or complained, its status and its complaint."""
        end = f"status {self.status}\n" + text_of(self.err) if self.status or self.err else ""
        return text_of(self.out) + end


def text_of(octets: bytes) -> str:
    """Bytes as a text that has a character for each."""
    return octets.decode("latin-1")


def places(name: str) -> list[str]:
    """Where a program is looked for, the first one first."""
    given = os.environ.get("VOGRILAS_PROGRAMS")
    if given:
        return [f"{given}/{name}"]
    out = f"{TOP}/crates/{name}/out"
    return [f"{out}/{name}", f"{out}/unproved/{name}", f"{out}/{name}-unproved"]


def program(name: str) -> str:
    """The file of a program."""
    for place in places(name):
        if os.access(place, os.X_OK):
            return place
    raise Missing(f'{name} is not compiled: none at {" or ".join(places(name))}')


def environment(more: dict[str, str] | None = None) -> dict[str, str]:
    """The environment of a program: nothing is explained unless a case asks for it."""
    env = {key: value for key, value in os.environ.items() if key != "CLAIMSWITCH_EXPLAIN"}
    return {**env, **(more or {})}


def run(name: str, *words: str, given: bytes = b"", env: dict[str, str] | None = None, **more) -> Ran:
    """Runs a program under its own name. `more` goes to subprocess.run, in place of `given` or with it."""
    if "stdin" not in more:
        more["input"] = given
    if "stdout" not in more:
        more["stdout"] = subprocess.PIPE
    ran = subprocess.run(
        [name, *words],
        executable=program(name),
        stderr=subprocess.PIPE,
        env=environment(env),
        timeout=LONGEST,
        check=False,
        **more,
    )
    return Ran(ran.returncode, ran.stdout or b"", ran.stderr)
