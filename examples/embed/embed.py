#!/usr/bin/python3
"""A pharmacy, a switch and a payer in one process: a claim goes there, and its answer comes back.

    embed.py SETTINGS FOLDER REQUEST

It prints what embed.c prints, and leaves the same logs.
"""

import collections
import pathlib
import sys

import vogrilas


def main() -> int:
    if len(sys.argv) != 4:
        print("usage: embed.py SETTINGS FOLDER REQUEST", file=sys.stderr)
        return 2
    settings = pathlib.Path(sys.argv[1]).read_bytes()
    folder = pathlib.Path(sys.argv[2])
    request = vogrilas.unprinted(pathlib.Path(sys.argv[3]).read_bytes().rstrip(b"\n"))
    nodes = {name: vogrilas.FileNode(settings, name, folder / f"{name}.log") for name in ("ph1", "sw1", "pr1")}
    said = nodes["ph1"].submit(request)
    assert said.number is not None
    print("number", said.number)
    packets = collections.deque(("ph1", packet) for packet in said.sent)
    while packets:
        sender, packet = packets.popleft()
        if packet.to in nodes:
            packets.extend((packet.to, one) for one in nodes[packet.to].take(sender, packet.data).sent)
    answer = nodes["ph1"].answer(said.number)
    print("open" if answer is None else "answer " + vogrilas.printed(answer).decode())
    for paid in nodes["ph1"].payments():
        print("paid", paid.authorization, paid.total)
    for node in nodes.values():
        node.close()
    return 0


if __name__ == "__main__":
    sys.exit(main())
