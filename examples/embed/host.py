#!/usr/bin/python3
"""A host of a node in Python: where to begin who wants a host of his own. hosts/c is the one to run: it does more.

    host.py SETTINGS NODE LOG URL [LOGIN]

A FileNode is the node with its log: each call is on disk when it returns, so what it says may be sent. Packets and callers' lines come
over NATS (hosts/nats.py), and a pharmacy is ticked while it runs.
"""

import asyncio
import pathlib
import signal
import sys

sys.path.insert(0, str(pathlib.Path(__file__).resolve().parents[2] / "hosts"))
import nats  # noqa: E402
import subjects  # noqa: E402
import vogrilas  # noqa: E402

TICK_SECONDS = 1.0


class Host:
    """A node and its carrier."""

    def __init__(self, node: vogrilas.FileNode, carrier: nats.Connection) -> None:
        self.node, self.carrier = node, carrier

    def said(self, said: vogrilas.Said) -> vogrilas.Said:
        """Sends the packets of a call."""
        for packet in said.sent:
            self.carrier.publish(subjects.packet(packet.to, self.node.name), vogrilas.printed(packet.data))
        return said

    def taken(self, message: nats.Message) -> None:
        """A packet of another node. One that is refused is lost, as a packet may be."""
        sender = subjects.sender_of(message.subject, self.node.name)
        try:
            if sender is not None:
                self.said(self.node.take(sender, vogrilas.unprinted(message.payload)))
        except (vogrilas.Refused, vogrilas.VogrilasError):
            pass

    def called(self, message: nats.Message) -> None:
        """A caller's line: a reply goes to an inbox alone."""
        if subjects.is_inbox(message.reply):
            try:
                told = self.told(*message.payload.split(b" ", 1))
            except (vogrilas.Refused, vogrilas.VogrilasError, TypeError, ValueError) as fault:
                told = f"refused {getattr(fault, 'name', 'Line')}".encode()
            self.carrier.publish(message.reply, told)

    def told(self, word: bytes, rest: bytes) -> bytes:
        if word == b"submit":
            return b"number %d" % (self.said(self.node.submit(vogrilas.unprinted(rest))).number or 0)
        if word != b"answer":
            raise ValueError(word)
        try:
            answer = self.node.answer(int(rest))
        except KeyError:
            return b"none"
        return b"open" if answer is None else b"answer " + vogrilas.printed(answer)

    def ticked(self) -> None:
        self.said(self.node.tick())
        asyncio.get_running_loop().call_later(TICK_SECONDS, self.ticked)


async def main(settings: str, name: str, log: str, url: str, login: str | None = None) -> None:
    stop = asyncio.Event()
    asyncio.get_running_loop().add_signal_handler(signal.SIGTERM, stop.set)
    carrier = nats.Connection(nats.Access(url, login=login), name)
    with vogrilas.FileNode(pathlib.Path(settings).read_bytes(), name, log) as node:
        host = Host(node, carrier)
        carrier.subscribe(subjects.packets(name), host.taken)
        if name.startswith("ph"):
            carrier.subscribe(subjects.calls(name), host.called)
            host.ticked()
        await carrier.start()
        await carrier.flush(5)
        print(name, "ready", flush=True)
        await stop.wait()
        await carrier.close()


if __name__ == "__main__":
    asyncio.run(main(*sys.argv[1:]))
