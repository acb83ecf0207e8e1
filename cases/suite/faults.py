"""Runs that end in a fault of which the input is not the cause: what is read or written fails, or there is no memory."""
import fcntl
import os
import resource
import signal
import socket
import struct
import subprocess
import tempfile
import termios
import time

from suite.programs import LONGEST, Ran, environment, program, run

# A valid input of `read` that is as long as one may be, and less memory than it needs.
LONG = b"1 x\n" * 4_000_000
LITTLE = 24 << 20


def no_memory(env: dict[str, str] | None = None) -> Ran:
    """A run that is left too little memory for its input."""
    return run(
        "claimswitch",
        "read",
        given=LONG,
        env=env,
        preexec_fn=lambda: resource.setrlimit(resource.RLIMIT_AS, (LITTLE, LITTLE)),
    )


def no_reading(name: str, *words: str, env: dict[str, str] | None = None) -> Ran:
    """A run whose standard input is a folder, which gives no bytes."""
    folder = os.open("/", os.O_RDONLY)
    try:
        return run(name, *words, stdin=folder, env=env)
    finally:
        os.close(folder)


def no_writing(name: str, *words: str, given: bytes, env: dict[str, str] | None = None) -> Ran:
    """A run whose standard output is a device that is full."""
    with open("/dev/full", "wb", buffering=0) as full:
        return run(name, *words, given=given, stdout=full, env=env)


def endless(name: str, *words: str) -> Ran:
    """A run whose standard input never ends."""
    with open("/dev/zero", "rb", buffering=0) as zeros:
        return run(name, *words, stdin=zeros)


def written_until(name: str, *words: str, given: bytes, most: int) -> Ran:
    """A run whose standard output takes so many bytes, and whose next write fails."""

    def limit():
        signal.signal(signal.SIGXFSZ, signal.SIG_IGN)
        resource.setrlimit(resource.RLIMIT_FSIZE, (most, most))

    with tempfile.TemporaryFile() as file:
        ran = run(name, *words, given=given, stdout=file, preexec_fn=limit)
        file.seek(0)
        return Ran(ran.status, file.read(), ran.err)


def unread(ours: socket.socket) -> int:
    """How many bytes that were sent wait for a reader."""
    return struct.unpack("i", fcntl.ioctl(ours, termios.TIOCOUTQ, b"\0" * 4))[0]


def read_until(name: str, *words: str, pieces: list[bytes], fails: bool) -> Ran:
    """A run whose standard input gives these pieces, one to each read, and then fails, or ends.

    Standard input is a socket that keeps the bounds of what is sent. Where the other end is closed with bytes in it that nobody read, the
    next read of this end fails at once; so that is closed when all pieces were taken."""
    ours, theirs = socket.socketpair(socket.AF_UNIX, socket.SOCK_SEQPACKET)
    if fails:
        theirs.send(b"never read")
    process = subprocess.Popen(
        [name, *words],
        executable=program(name),
        env=environment(),
        stdin=theirs,
        stdout=subprocess.PIPE,
        stderr=subprocess.PIPE,
    )
    theirs.close()
    with ours:
        for piece in pieces:
            ours.send(piece)
        until = time.monotonic() + LONGEST
        while fails and unread(ours) and time.monotonic() < until:
            time.sleep(0.0001)
    out, err = process.communicate(timeout=LONGEST)
    return Ran(process.returncode, out, err)
