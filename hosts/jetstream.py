"""JetStream for nodes' packets: the server keeps each until its node has it on disk, also while the node is down.

The nodes need none of it: what is lost is sent again. It saves some of that. Streams and consumers are made by one who may, and
made anew whenever the connection comes, since a server may have lost its store; nodes may only hear what is delivered, and say
that they have it. A stream is bounded: where it is full the oldest packets are lost, as packets may be. What is published is
not waited for: the server's word that it has a packet is no promise of a disk.
"""

import json
from collections.abc import Iterable

import nats
import subjects

SECONDS = 2
ACK_NANOSECONDS = 2_000_000_000
# What a stream keeps at most for a node that is down: what is older or more is sent again by its sender.
MOST_PACKETS = 20_000
MOST_BYTES = 64 << 20
MOST_AGE_NANOSECONDS = 600_000_000_000
# What is on its way to a node at most, and has not been said to be there.
MOST_ON_THE_WAY = 256


async def make(connection: nats.Connection, nodes: Iterable[str]) -> None:
    """Has the packets of these nodes kept, as long as the server has its store."""
    for node in nodes:
        await _ask(connection, f"STREAM.CREATE.{subjects.stream(node)}", stream_of(node))
        await _ask(connection, f"CONSUMER.DURABLE.CREATE.{subjects.stream(node)}.{node}", _consumer(node))


def stream_of(node: str) -> dict[str, object]:
    """The stream of a node, as it is made."""
    return {
        "name": subjects.stream(node),
        "subjects": [subjects.packets(node)],
        "retention": "workqueue",
        "storage": "file",
        "discard": "old",
        "max_msgs": MOST_PACKETS,
        "max_bytes": MOST_BYTES,
        "max_age": MOST_AGE_NANOSECONDS,
        "max_msg_size": subjects.MOST_BYTES,
        "num_replicas": 1,
    }


def _consumer(node: str) -> dict[str, object]:
    config = {
        "durable_name": node,
        "deliver_subject": subjects.delivered(node),
        "ack_policy": "explicit",
        "ack_wait": ACK_NANOSECONDS,
        "deliver_policy": "all",
        "max_ack_pending": MOST_ON_THE_WAY,
    }
    return {"stream_name": subjects.stream(node), "config": config}


async def _ask(connection: nats.Connection, subject: str, asked: dict[str, object]) -> None:
    """Asks the server, and says what it refuses; without JetStream there is no reply."""
    reply = await connection.request(f"$JS.API.{subject}", json.dumps(asked).encode(), SECONDS)
    fault = (
        "no reply: does the server run with -js, and may this user make streams?"
        if reply is None
        else json.loads(reply).get("error")
    )
    if fault:
        connection.say(f"JetStream: {subject}: {fault}", level="warning")
