"""Logs of nodes in streams, as an operator handles them: made, read, restored. hosts/c has what a host does with them, and stream.h there
what a message of a log carries.

Hosts never make a stream: that would hide that one was lost. Whoever reads one reads it to its end, or fails."""

import asyncio
import base64
import hashlib
import json
import secrets
import time
from collections.abc import Callable
from typing import Any, NamedTuple

import nats
import subjects

HEAD_BYTES = 46
# How the file of a log begins that goes on behind closed ones.
GOES_ON = b"PT\x01"
# What a server that knows no leader says before the one in charge has answered; and what the one in charge says.
NO_LEADER, NO_PLACE, NO_MESSAGE, NO_STREAM, WRONG_LAST = 10008, 10005, 10037, 10059, 10071
ASK_SECONDS = 2.0
# How long the servers may say nothing.
MOST_SECONDS = 60.0
# How many messages are asked for at once, and how many bytes of a log one carries at most.
AT_ONCE = 64
PART_BYTES = 131_072


class Fault(Exception):
    """What an operator asked for was not done, and why."""


class Entry(NamedTuple):
    """A message of a log: where its bytes begin, the digest of the log up to their end, and who sent it."""

    sequence: int
    at: int
    digest: str
    owner: str
    data: bytes


def error_of(reply: bytes) -> int:
    return int(json.loads(reply).get("error", {}).get("err_code", 0))


def is_word(reply: bytes) -> bool:
    """Whether a reply is one of the server in charge: servers that have just come know no leader, or not one another."""
    return error_of(reply) not in (NO_LEADER, NO_PLACE)


def unit_size(at: int, data: bytes | memoryview) -> int:
    """How many bytes a log's head, or the record that begins here, takes; 0 where it is not whole."""
    if at == 0:
        return HEAD_BYTES if len(data) >= HEAD_BYTES else 0
    if len(data) < 16:
        return 0
    body, complement = int.from_bytes(data[:8]), int.from_bytes(data[8:16])
    if body ^ complement != 2**64 - 1:
        raise Fault(f"at byte {at} is something else than a record")
    return body + 24 if len(data) >= body + 24 else 0


def whole_size(data: bytes) -> int:
    """How many bytes the whole records of a log take, with its head."""
    at, view = 0, memoryview(data)
    while size := unit_size(at, view[at:]):
        at += size
    return at


class Log:
    """A node's log in its stream."""

    def __init__(self, connection: nats.Connection, node: str) -> None:
        self._connection, self.node = connection, node
        self.name, self.subject = subjects.log_stream(node), subjects.log(node)

    async def _word(self, subject: str, payload: bytes, headers: dict[str, str] | None = None) -> bytes:
        """The servers' word on what is asked or appended: the same again until there is one."""
        end = time.monotonic() + MOST_SECONDS
        while time.monotonic() < end:
            word = await self._connection.request(subject, payload, ASK_SECONDS, headers, is_word)
            if word is not None:
                return word
        raise Fault(f"{self.name}: the servers say nothing for {MOST_SECONDS:.0f} s")

    async def _asked(self, what: str, asked: dict[str, Any]) -> dict[str, Any]:
        word = await self._word(f"$JS.API.STREAM.{what}.{self.name}", json.dumps(asked).encode())
        reply: dict[str, Any] = json.loads(word)
        if "error" in reply:
            raise Fault(f"{self.name}: {reply['error'].get('description')}")
        return reply

    async def is_there(self) -> bool:
        """Whether the servers have such a log: its first message, which is that of who made it. Half of one is made on."""
        reply = json.loads(await self._word(f"$JS.API.STREAM.MSG.GET.{self.name}", json.dumps({"seq": 1}).encode()))
        if "error" not in reply:
            return True
        if reply["error"].get("err_code") in (NO_MESSAGE, NO_STREAM):
            return False
        raise Fault(f"{self.name}: {reply['error'].get('description')}")

    async def make(self, replicas: int) -> str:
        """Makes the log, once; its name among all that ever had this node."""
        await self._asked(
            "CREATE",
            {
                "name": self.name, "subjects": [self.subject], "retention": "limits", "storage": "file", "discard": "new",
                "num_replicas": replicas, "max_consumers": -1, "max_msgs": -1, "max_bytes": -1, "max_age": 0,
                "deny_delete": True, "deny_purge": True, "allow_direct": False,
            },
        )  # fmt: skip
        made = f"made.{time.strftime('%Y-%m-%dT%H:%M:%SZ', time.gmtime())}.{secrets.token_hex(8)}"
        await self.append(0, 0, hashlib.sha256(), b"", made)
        return made

    async def append(self, last: int, at: int, digest: "hashlib._Hash", data: bytes, owner: str) -> None:
        """Appends bytes behind a sequence, whose digest with all before them this is; they stand there when it returns."""
        headers = {
            "Nats-Expected-Last-Sequence": str(last),
            "Log-At": str(at),
            "Log-Digest": digest.hexdigest(),
            "Log-Owner": owner,
        }
        reply = await self._word(self.subject, data, headers)
        if error_of(reply) == WRONG_LAST:
            entry = await self.entry(last + 1)
            if entry and (entry.at, entry.digest, entry.owner) == (at, digest.hexdigest(), owner):
                return
            raise Fault(f"{self.name} has more messages than {last}: it is there already, or a host has it")
        if error_of(reply) or json.loads(reply).get("stream") != self.name:
            raise Fault(f"{self.name}: {json.loads(reply)}")

    async def entry(self, sequence: int) -> Entry | None:
        """The message of a sequence; None where the servers have none."""
        reply = json.loads(
            await self._word(f"$JS.API.STREAM.MSG.GET.{self.name}", json.dumps({"seq": sequence}).encode())
        )
        if reply.get("error", {}).get("err_code") == NO_MESSAGE:
            return None
        if "error" in reply:
            raise Fault(f"{self.name}: {reply['error'].get('description')}")
        message = reply["message"]
        lines = base64.b64decode(message.get("hdrs", "")).decode().split("\r\n")[1:]
        headers = {name: value.strip() for name, _, value in (line.partition(":") for line in lines)}
        try:
            at, digest, owner = int(headers["Log-At"]), headers["Log-Digest"], headers["Log-Owner"]
        except (KeyError, ValueError):
            raise Fault(f"{self.name}: message {sequence} was made by no host") from None
        return Entry(message["seq"], at, digest, owner, base64.b64decode(message.get("data", "")))

    async def info(self) -> dict[str, Any]:
        """What the servers tell of the stream, and of the servers that have a copy of it."""
        return await self._asked("INFO", {})

    async def last_told(self) -> int:
        """The last sequence that the servers tell of: the log has at least these messages, and maybe more."""
        return int((await self.info())["state"]["last_seq"])

    async def read(self, took: Callable[[Entry], None] = lambda _: None) -> tuple[bytes, int]:
        """The whole records of the log, and its last sequence; each message is told. Fails where it cannot be read to the end."""
        data, digest, torn, sequence = bytearray(), hashlib.sha256(), b"", 0
        told = await self.last_told()
        while True:
            asked = [asyncio.ensure_future(self.entry(sequence + 1 + it)) for it in range(AT_ONCE)]
            for entry in await asyncio.gather(*asked):
                if entry is None:
                    if sequence < told:
                        raise Fault(
                            f"{self.name}: message {sequence + 1} of {told} is not to be had: it was not read to its end"
                        )
                    return bytes(data), sequence
                if entry.at == len(data):
                    torn = b""
                if entry.at != len(data) + len(torn):
                    raise Fault(
                        f"{self.name}: message {entry.sequence} stands at byte {entry.at}, and the log has {len(data) + len(torn)}"
                    )
                so_far = digest.copy()
                so_far.update(torn + entry.data)
                if so_far.hexdigest() != entry.digest:
                    raise Fault(f"{self.name}: message {entry.sequence} has another digest")
                torn += entry.data
                view, size = memoryview(torn), 0
                while more := unit_size(len(data) + size, view[size:]):
                    size += more
                digest.update(view[:size])
                data += view[:size]
                torn, sequence = bytes(view[size:]), entry.sequence
                took(entry)

    async def restore(self, data: bytes) -> int:
        """Appends what a file has and the stream lacks; how many bytes. The stream has to be a beginning of the file."""
        if data.startswith(GOES_ON):
            why = "the file goes on behind closed logs, and a stream has all calls: claimnode --join makes one log"
            raise Fault(f"{self.name}: {why}")
        data = data[: whole_size(data)]
        has, last = await self.read()
        if data[: len(has)] != has:
            raise Fault(
                f"{self.name}: the stream is no beginning of the file: it has {len(has)} bytes, and they differ"
            )
        digest, at, owner = hashlib.sha256(has), len(has), f"restored.{secrets.token_hex(8)}"
        for begin in range(at, len(data), PART_BYTES):
            part = data[begin : begin + PART_BYTES]
            digest.update(part)
            await self.append(last, begin, digest, part, owner)
            last += 1
        return len(data) - at
