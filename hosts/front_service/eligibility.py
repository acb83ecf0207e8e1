"""Eligibility (E1): no money is in it, so it enters no node. It is handed to a processor's own system, over HTTP, where there is one for its BIN
number, and the answer is handed back as it is, where it is one."""

from __future__ import annotations

import asyncio
import ssl

import aiohttp

from .rejections import rejected
from .standard import RESPONSE_HEADER, VERSION, code_of, rejection

CODE = b"E1"
MEDIA_TYPE = "application/vnd.ncpdp"
MOST_BYTES = 32_768
# Reject codes: the payer is not there; its answer is none.
UNAVAILABLE, NO_ANSWER = b"97", b"91"


def is_asked(message: bytes) -> bool:
    return message[6:8] == VERSION and code_of(message) == CODE


class Eligibility:
    """Where the systems of processors are, by BIN number."""

    def __init__(self, systems: dict[bytes, str], late: str) -> None:
        self._systems, self._late = systems, late
        self._tls = ssl.create_default_context()
        self._session: aiohttp.ClientSession | None = None

    async def close(self) -> None:
        if self._session is not None:
            await self._session.close()

    async def answer(self, message: bytes, seconds: float) -> bytes:
        """What a processor's system says, within so many seconds."""
        system = self._systems.get(message[:6])
        if system is None:
            return rejected(message, "EligibilityNotCarried")
        if self._session is None:
            self._session = aiohttp.ClientSession()
        try:
            async with asyncio.timeout(seconds):
                headers = {"Content-Type": MEDIA_TYPE, "Accept": MEDIA_TYPE}
                sent = self._session.post(system, data=message, headers=headers, ssl=self._tls, allow_redirects=False)
                async with sent as reply:
                    answer = await reply.content.read(MOST_BYTES + 1)
                    is_whole = reply.status == 200 and reply.content.at_eof()
        except TimeoutError:
            return rejection(message, (self._late.encode(),))
        except (aiohttp.ClientError, OSError):
            return rejection(message, (UNAVAILABLE,))
        return answer if is_whole and _is_answer(message, answer) else rejection(message, (NO_ANSWER,))


def _is_answer(message: bytes, answer: bytes) -> bool:
    """Whether these bytes are an answer to this request."""
    header = answer[:RESPONSE_HEADER]
    return (
        len(header) == RESPONSE_HEADER
        and header[:4] == VERSION + CODE
        and header[5:6] in (b"A", b"R")
        and header[6:31] == message[21:46]
        and answer[RESPONSE_HEADER:][:1] in (b"", b"\x1d", b"\x1e")
    )
