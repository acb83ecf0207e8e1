"""What the C library does with memory that is let go."""

from __future__ import annotations

import contextlib
import ctypes

# M_MMAP_THRESHOLD of mallopt(3), and how many bytes a piece has at least that is mapped by itself.
_MAPPED_FROM, LEAST_BYTES = -3, 1 << 17


def give_back() -> None:
    """Has large pieces of memory be mapped by themselves, so that they go back when they are let go.

    Each connection with TLS has 256 KiB of which it uses little. The C library of GNU takes such pieces from its heap as soon as the first of
    them was let go, and where connections come and go each leaves some pages in use at other places: the process grows for hours.
    """
    with contextlib.suppress(OSError, AttributeError):
        ctypes.CDLL(None).mallopt(_MAPPED_FROM, LEAST_BYTES)
