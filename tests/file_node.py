"""A node over the library for Python, as tests/killed asks it: the lines of claimnode that it needs, on standard input and output.

    file_node.py SETTINGS NODE LOG
"""

import pathlib
import sys
import warnings

import vogrilas


def said(told: vogrilas.Said) -> list[str]:
    """The lines of a call that was made."""
    lines = [f"send {one.to} {vogrilas.printed(one.data).decode('latin-1')}" for one in told.sent]
    return [*lines, "ok" if told.number is None else f"number {told.number}"]


def answered(node: vogrilas.FileNode, number: int) -> str:
    """The answer to a number."""
    try:
        answer = node.answer(number)
    except KeyError:
        return "none"
    return "open" if answer is None else f"answer {vogrilas.printed(answer).decode('latin-1')}"


def told(node: vogrilas.FileNode, word: str, rest: str) -> list[str]:
    """What is said to a line."""
    if word == "submit":
        return said(node.submit(vogrilas.unprinted(rest.encode("latin-1"))))
    if word == "take":
        sender, text = rest.split(" ", 1)
        return said(node.take(sender, vogrilas.unprinted(text.encode("latin-1"))))
    if word == "answer":
        return [answered(node, int(rest))]
    if word == "open":
        return [*(f"entry {number}" for number in range(1, node.count + 1) if answered(node, number) == "open"), "end"]
    return said(node.tick())


def main() -> None:
    # What is cut off a torn log is said, as it should be.
    warnings.simplefilter("ignore")
    settings, name, log = sys.argv[1:]
    with vogrilas.FileNode(pathlib.Path(settings).read_bytes(), name, log) as node:
        print("ready", node.calls, flush=True)
        for line in sys.stdin:
            word, _, rest = line.rstrip("\n").partition(" ")
            try:
                lines = told(node, word, rest)
            except vogrilas.Refused as refused:
                lines = [f"refused {refused.name}"]
            print("\n".join(lines), flush=True)


if __name__ == "__main__":
    main()
