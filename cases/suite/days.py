"""Files of a case in two parts: an input, and what a program makes of it."""
import os
import re

DAYS = os.path.join(os.path.dirname(os.path.dirname(os.path.abspath(__file__))), "days")


def parts(path: str) -> tuple[bytes, str]:
    """The input, and what is told of it: before and behind the line `===`. A line `==` says that the input ends before the end of the line
    above it."""
    with open(path, "rb") as file:
        octets = file.read()
    if octets.startswith(b"===\n"):
        return b"", octets[4:].decode("latin-1")
    found = re.search(rb"\n===?\n", octets)
    if not found:
        raise ValueError(f"{path} has no line that ends the input")
    whole = len(found.group()) == 5
    return octets[: found.start() + whole], octets[found.end() :].decode("latin-1")


def named(name: str) -> str:
    """The file of the day of a name."""
    return f"{DAYS}/{name}.day"


def settings(path: str) -> bytes:
    """The settings of a day: what stands before the line `---` of its input."""
    given, _ = parts(path)
    return given.partition(b"\n---\n")[0] + b"\n"
