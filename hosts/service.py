"""What a host tells systemd: that it is ready, that it lives, that it ends. Without systemd it tells nobody."""

import asyncio
import contextlib
import os
import socket


def tell(what: str) -> None:
    """Tells the service manager one thing, as `READY=1`, where it listens."""
    at = os.environ.get("NOTIFY_SOCKET")
    if not at:
        return
    with contextlib.suppress(OSError), socket.socket(socket.AF_UNIX, socket.SOCK_DGRAM) as told:
        told.connect(f"\0{at[1:]}" if at.startswith("@") else at)
        told.send(what.encode())


async def live() -> None:
    """Tells it, as often as it asks for, that the loop of this host still turns."""
    microseconds = int(os.environ.get("WATCHDOG_USEC") or 0)
    while True:
        tell("WATCHDOG=1")
        await asyncio.sleep(microseconds / 3e6 if microseconds else 3600)
