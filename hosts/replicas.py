"""What each server has of a log in a stream. Servers say of a copy that it is current by how much it has, not by what: after kills one of
three may have another message at one place. So each copy is read by a consumer of its own at its own server, and they are compared.

A message is told from others by its time, which is that of when it was taken, and by its bytes."""

import asyncio
import datetime
import hashlib
import json
import pathlib
import time
from typing import Any, NamedTuple

import nats
from logs import Fault, Log
from subjects import inbox

# How many messages are asked for at once, and how long a copy may be behind what was told at first.
AT_ONCE = 64
BEHIND_SECONDS = 10.0
WORD_SECONDS = 10.0
# A consumer stands at any server that has a copy: so often one is made until it stands at each.
TRIES = 100
# How many differences are told.
MOST_TOLD = 20
NANOSECONDS = 1_000_000_000


class Kept(NamedTuple):
    """A message as one server has it: when it was taken, in nanoseconds, how many bytes it has, and their digest."""

    time: int
    size: int
    digest: str

    def told(self) -> str:
        when = datetime.datetime.fromtimestamp(self.time / NANOSECONDS, datetime.timezone.utc)
        return f"{self.size} bytes of {when.isoformat(timespec='milliseconds').replace('+00:00', 'Z')}"


class Replica:
    """One server's copy of a log, read from its first message on."""

    def __init__(self, connection: nats.Connection, stream: str, server: str, consumer: str, to: str) -> None:
        self._connection, self._stream, self._consumer = connection, stream, consumer
        self.server, self._to = server, to
        self._came: asyncio.Queue[nats.Message] = asyncio.Queue()
        self.kept: dict[int, Kept] = {}
        self.last = 0
        connection.subscribe(to, self._came.put_nowait)

    async def read(self, upto: int) -> bool:
        """Reads on until it has this message, or has no more; whether it has it."""
        while self.last < upto:
            before = self.last
            asked = json.dumps({"batch": AT_ONCE, "no_wait": True}).encode()
            subject = f"$JS.API.CONSUMER.MSG.NEXT.{self._stream}.{self._consumer}"
            self._connection.publish(subject, asked, self._to)
            for _ in range(AT_ONCE):
                message = await asyncio.wait_for(self._came.get(), WORD_SECONDS)
                if not self._take(message):
                    break
            if self.last == before:
                return False
        return True

    def _take(self, message: nats.Message) -> bool:
        """Takes a message; False of the word that there is none. Where it stands and when it was taken stands in its reply's subject."""
        words = message.reply.split(".")
        if len(words) < 9:
            return False
        self.last = int(words[-4])
        digest = hashlib.sha256(message.payload).hexdigest()
        self.kept[self.last] = Kept(int(words[-2]), len(message.payload), digest)
        return True


async def consumer_of(connection: nats.Connection, stream: str) -> tuple[str, str]:
    """Makes a consumer that reads one copy, and goes by itself; its name, and the server at which it stands."""
    config: dict[str, Any] = {"ack_policy": "none", "deliver_policy": "all", "num_replicas": 1, "mem_storage": True}
    asked = {"stream_name": stream, "config": {**config, "inactive_threshold": 30 * NANOSECONDS}}
    reply = await connection.request(f"$JS.API.CONSUMER.CREATE.{stream}", json.dumps(asked).encode(), WORD_SECONDS)
    told = json.loads(reply or b'{"error": {"description": "no word"}}')
    if "error" in told:
        raise Fault(f"{stream}: no consumer is made: {told['error'].get('description')}")
    return told["name"], (told.get("cluster") or {}).get("leader", "the server")


async def replicas_of(connection: nats.Connection, user: str, stream: str, servers: list[str]) -> list[Replica]:
    """A reader at each of these servers."""
    found: dict[str, Replica] = {}
    for number in range(TRIES):
        if all(server in found for server in servers):
            return [found[server] for server in servers]
        name, server = await consumer_of(connection, stream)
        replica = Replica(connection, stream, server, name, f"{inbox(user)}.copies{time.monotonic_ns()}.{number}")
        if server in servers:
            found.setdefault(server, replica)
    raise Fault(f"{stream}: no consumer stands at {', '.join(it for it in servers if it not in found)}")


class Compared(NamedTuple):
    """What was found: the servers, how many messages, those that differ, and which servers were away or lack messages."""

    servers: list[str]
    last: int
    differ: dict[int, dict[str, Kept | None]]
    lacking: list[str]

    def are_alike(self) -> bool:
        return not self.differ and not self.lacking


def groups(of: dict[str, Kept | None]) -> list[tuple[list[str], Kept | None]]:
    """The servers that have the same message, those first that are most."""
    same: dict[Kept | None, list[str]] = {}
    for server, kept in of.items():
        same.setdefault(kept, []).append(server)
    return sorted(((names, kept) for kept, names in same.items()), key=lambda it: -len(it[0]))


async def compare(log: Log, connection: nats.Connection, user: str) -> Compared:
    """Reads all copies of a log that runs, up to the message that the servers tell of as its last when this begins."""
    info = await log.info()
    cluster, last = info.get("cluster") or {}, int(info["state"]["last_seq"])
    others = cluster.get("replicas") or []
    lacking = [f"{it['name']} is away" for it in others if it.get("offline")]
    servers = [it["name"] for it in others if not it.get("offline")]
    servers = sorted([cluster["leader"], *servers]) if cluster.get("leader") else ["the server"]
    replicas = await replicas_of(connection, user, log.name, servers)
    differ: dict[int, dict[str, Kept | None]] = {}
    short: dict[str, int] = {}
    for begin in range(1, last + 1, AT_ONCE):
        end = min(begin + AT_ONCE - 1, last)
        for replica in replicas:
            if replica.server not in short and not await read_surely(replica, end):
                short[replica.server] = replica.last
        for sequence in range(begin, end + 1):
            of = {it.server: it.kept.pop(sequence, None) for it in replicas if sequence <= short.get(it.server, last)}
            # A log never forgets a message: what no copy has is lost.
            if len(set(of.values())) > 1 or None in of.values():
                differ[sequence] = of
    lacking += [f"{server} has {had} of {last} messages" for server, had in short.items()]
    return Compared(servers, last, differ, lacking)


async def read_surely(replica: Replica, upto: int) -> bool:
    """Reads up to a message that a copy may be about to get."""
    end = time.monotonic() + BEHIND_SECONDS
    while not await replica.read(upto):
        if time.monotonic() > end:
            return False
        await asyncio.sleep(0.2)
    return True


async def told(log: Log, found: Compared, files: list[str]) -> str:
    """What was found, for people; and which servers' message a machine's file has at the first place where they differ."""
    names = ", ".join(found.servers)
    if found.are_alike():
        return f"{log.name}: {found.last} messages, alike on {names}"
    lines = [f"{log.name}: {found.last} messages, compared on {names}", *found.lacking]
    for sequence, of in list(found.differ.items())[:MOST_TOLD]:
        some = [f"{', '.join(names)}: {'none' if kept is None else kept.told()}" for names, kept in groups(of)]
        lines.append(f"message {sequence} differs: {'; '.join(some)}")
    if len(found.differ) > MOST_TOLD:
        lines.append(f".. and {len(found.differ) - MOST_TOLD} more, up to message {max(found.differ)}")
    for file in files if found.differ else ():
        lines.append(await file_told(log, found, file))
    return "\n".join(lines)


async def file_told(log: Log, found: Compared, file: str) -> str:
    """Which servers have at the first message that differs and has bytes what the file has there."""
    first = min(found.differ)
    before = await log.entry(first - 1)
    data = pathlib.Path(file).read_bytes()
    at = before.at + len(before.data) if before else 0
    for sequence in sorted(found.differ):
        sizes = {kept.size for kept in found.differ[sequence].values() if kept is not None}
        if not any(sizes):
            continue
        same = [
            server
            for server, kept in found.differ[sequence].items()
            if kept is not None
            and kept.size > 0
            and hashlib.sha256(data[at : at + kept.size]).hexdigest() == kept.digest
        ]
        return f"{file} has at byte {at} what {', '.join(same) or 'none of them'} has in message {sequence}"
    return f"{file}: the messages that differ have no bytes, so it cannot be told from it which is the log's"
