"""Ports for what is started on this machine for a first look or a test."""

import random
import socket

# Ports that this machine gives to nobody who connects.
PORTS = range(10_000, 32_000)


def free_ports(count: int) -> int:
    """The first of so many ports of this machine, one behind the other, at which nobody listens."""
    while True:
        first = random.choice(PORTS)
        if not any(_is_open(first + place) for place in range(count)):
            return first


def _is_open(port: int) -> bool:
    with socket.socket() as other:
        return other.connect_ex(("127.0.0.1", port)) == 0
