"""A node with the file of its log."""

from __future__ import annotations

import fcntl
import os
import pathlib
import stat
import threading
import warnings
from typing import Callable, Optional, Sequence, TypeVar, Union

from ._node import (
    Code,
    Message,
    Node,
    Payment,
    Refused,
    Said,
    Settings,
    VogrilasError,
    as_bytes,
    as_name,
    printed,
    read_said,
)


_Read = TypeVar("_Read")


class FileNode:
    """A node with the file of its log, which is locked for this process.

    Each call is on disk before it returns, so what it gives may be used at once. An argument of another type than is told is a
    TypeError, and a message with a wrong field a WrongField, before anything is done. Where a call fails in the middle, by want of
    memory or of the disk, the node is closed; what the file has then decides, when it is opened again. Where a sync fails a file
    `LOG.sync-failed` stays beside the log, and the log is not opened again until people have removed it: what the kernel shows of a
    file whose sync failed may be on no disk. What is cut off a log, a record that a crash has torn, stays beside it as
    `LOG.cut-PLACE`, and a warning says so. A node belongs to the process that opened it: behind a fork the child has none.
    """

    def __init__(self, settings: Union[bytes, Settings], name: str, path: Union[str, os.PathLike[str]]) -> None:
        self._lock = threading.Lock()
        self._node: Optional[Node] = None
        self._process = os.getpid()
        self._path = pathlib.Path(path).resolve()
        if _beside(self._path, "sync-failed").exists():
            raise OSError(f"a sync of the log failed: look at it, and remove {_beside(self._path, 'sync-failed')}")
        self._file = _opened(self._path)
        try:
            fcntl.flock(self._file, fcntl.LOCK_EX | fcntl.LOCK_NB)
            # Who closed the log in between has put another file in its place, and nothing may be appended to this one.
            if not self._has_name():
                raise OSError(f"{self._path}: the log was replaced while it was opened; open it again")
            log = _read_all(self._file)
            self._node = Node(settings, name, log)
            if self._node.kept < len(log):
                self._cut(log, self._node.kept)
            self._begin()
        except BaseException:
            self.close()
            raise
        self.name = name

    def submit(self, request: Union[bytes, Message]) -> Said:
        """Enters a request and sends it; the number of its entry is in what is said. Of a pharmacy."""
        data = as_bytes(request, "a request")
        return self._call(lambda node: node.submit(data))

    def tick(self) -> Said:
        """Time goes on, and what is due is sent again. Of a pharmacy."""
        return self._call(_line(b"tick"))

    def take(self, sender: str, packet: bytes) -> Said:
        """A packet has come from this node."""
        as_name(sender)
        data = as_bytes(packet, "a packet")
        return self._call(lambda node: node.take(sender, data))

    def adjudicate(self, sender: str, packet: bytes, advice: bytes) -> Said:
        """A packet has come from this node, and the payer's own system has given this answer to the request in it. Of a payer whose
        settings ask."""
        as_name(sender)
        data, answer = as_bytes(packet, "a packet"), as_bytes(advice, "an advice")
        return self._call(lambda node: node.adjudicate(sender, data, answer))

    def plan(self, product: bytes, price: Optional[int]) -> Said:
        """Another price for a product, in ten-thousandths of a dollar a unit, or none. Of a payer."""
        if price is not None and (not isinstance(price, int) or isinstance(price, bool)):
            raise TypeError(f"a price has to be an int or None, not {type(price).__name__}")
        price_text = b"none" if price is None else b"%d" % price
        return self._call(_line(b"plan " + printed(product).replace(b" ", b"\\x20") + b" " + price_text))

    def terms(self, fee: int, copay: int) -> Said:
        """Another fee and another copay, in cents. Of a payer."""
        for amount in (fee, copay):
            if not isinstance(amount, int) or isinstance(amount, bool):
                raise TypeError(f"an amount has to be an int, not {type(amount).__name__}")
        return self._call(_line(b"terms %d %d" % (fee, copay)))

    def retry(self, switches: Sequence[int], again: int, tries: int) -> Said:
        """Another rule of retries: the numbers of the switches that are tried in turn, after how many ticks an entry is sent again,
        and how often to one switch. Of a pharmacy."""
        numbers = [*switches, again, tries]
        for number in numbers:
            if not isinstance(number, int) or isinstance(number, bool):
                raise TypeError(f"a number has to be an int, not {type(number).__name__}")
        names = b",".join(b"sw%d" % number for number in numbers[:-2])
        return self._call(_line(b"retry %s %d %d" % (names, again, tries)))

    def cap(self, entries: int) -> Said:
        """Another cap: how many requests the table has at most, from the next start on. Of a switch that is stopped."""
        if not isinstance(entries, int) or isinstance(entries, bool):
            raise TypeError(f"a cap has to be an int, not {type(entries).__name__}")
        return self._call(_line(b"cap %d" % entries))

    def stop(self) -> Said:
        """The node stops: it refuses calls until it starts."""
        return self._call(_line(b"stop"))

    def start(self) -> Said:
        """The node starts again, from what it keeps."""
        return self._call(_line(b"start"))

    def answer(self, number: int) -> Optional[bytes]:
        """The answer to an entry of this pharmacy, or None where there is none yet. Raises KeyError where there is no such
        entry."""
        if not self.name.startswith("ph"):
            raise KeyError(number)
        return self.held(int(self.name[2:]), number)

    def held(self, pharmacy: int, number: int) -> Optional[bytes]:
        """The answer that the node holds for a request, by its pharmacy and its number there: a pharmacy those to its own
        entries, a switch those in its table, a payer those of its book. None where it is an open entry of this pharmacy. Raises
        KeyError where there is nothing."""
        return self._found((pharmacy, number), lambda node: node.answer(pharmacy, number))

    def request(self, number: int) -> bytes:
        """The request of an entry of this pharmacy. Raises KeyError where there is no such entry."""
        return self._found(number, lambda node: node.request(number))

    def payments(self) -> list[Payment]:
        """The payments that a pharmacy counts, or those of a payer's book with what reversed them."""
        return self._read(lambda node: node.payments())

    @property
    def count(self) -> int:
        """How many entries a pharmacy's journal has, slots a switch's table, or rows a payer's book."""
        return self._read(lambda node: node.count)

    @property
    def most(self) -> int:
        """The most that `count` can be: the cap in the settings, or of a switch that which `cap` gave it."""
        return self._read(lambda node: node.most)

    @property
    def calls(self) -> int:
        """How many calls the log has, those of closed logs before it included."""
        return self._read(lambda node: node.calls)

    def close(self) -> None:
        """Lets the node and its file go. A second close does nothing."""
        if self._node is not None:
            self._node.close()
            self._node = None
        if self._file >= 0:
            os.close(self._file)
            self._file = -1

    def __enter__(self) -> FileNode:
        return self

    def __exit__(self, *_about: object) -> None:
        self.close()

    def _open_node(self) -> Node:
        if self._node is None:
            raise ValueError("the node is closed")
        if os.getpid() != self._process:
            raise RuntimeError("the node belongs to the process that opened it, and this is a child of it")
        return self._node

    def _read(self, call: Callable[[Node], _Read]) -> _Read:
        """What a call says that changes nothing. What it tells is on disk."""
        with self._lock:
            return call(self._open_node())

    def _found(self, key: object, call: Callable[[Node], _Read]) -> _Read:
        """The same, of something that may not be there."""
        try:
            return self._read(call)
        except VogrilasError as refused:
            if refused.code is Code.NOT_FOUND:
                raise KeyError(key) from None
            raise

    def _call(self, call: Callable[[Node], None]) -> Said:
        return read_said(self._turn(call))

    def _turn(self, call: Callable[[Node], None]) -> bytes:
        """Makes a call, has its record on disk, and only then gives what was written."""
        with self._lock:
            node = self._open_node()
            try:
                call(node)
                return self._settle()
            except VogrilasError:  # the library has made no call
                raise
            except BaseException:
                self.close()
                raise

    def _begin(self) -> None:
        """Has on disk what the log has. An earlier life may have ended between a write and its sync, or before its folder was
        synced."""
        node = self._open_node()
        head = node.records()
        _write_all(self._file, head)
        self._sync()
        _sync_folder(self._path)
        node.synced(len(head))

    def _settle(self) -> bytes:
        node = self._open_node()
        records = node.records()
        if records:
            _write_all(self._file, records)
            self._sync()
            self._check_name()
            node.synced(len(records))
        written = node.written()
        node.clear()
        return written

    def _sync(self) -> None:
        """Has on disk what was written, or leaves a mark that it may not be."""
        try:
            os.fsync(self._file)
        except OSError as fault:
            try:
                _write_new(_beside(self._path, "sync-failed"), f"{fault}\n".encode())
            except OSError:
                pass
            raise

    def _has_name(self) -> bool:
        """Whether the log still has its name."""
        here = os.fstat(self._file)
        try:
            there = os.stat(self._path)
        except FileNotFoundError:
            return False
        return (here.st_dev, here.st_ino) == (there.st_dev, there.st_ino)

    def _check_name(self) -> None:
        """That the log still has its name. Where it has lost it what it has is kept beside its place: nobody would find it again."""
        if not self._has_name():
            kept = _write_new(_beside(self._path, "removed"), _read_all(self._file))
            raise OSError(f"the log was removed or replaced while its node was open; what it had is kept in {kept}")

    def _cut(self, log: bytes, kept: int) -> None:
        """Cuts what a crash has left of a record, and keeps it beside the log."""
        name = _write_new(_beside(self._path, f"cut-{kept}"), log[kept:])
        os.ftruncate(self._file, kept)
        self._sync()
        warnings.warn(f"{self._path}: a torn end of {len(log) - kept} bytes was cut, and kept in {name}", stacklevel=3)


def _line(line: bytes) -> Callable[[Node], None]:
    """The call that serves a line."""
    return lambda node: node.serve(line)


def _opened(path: pathlib.Path) -> int:
    """The descriptor of a log, which nobody else may read. It is none of the standard ones: where those are closed, what a program
    prints would go into the log."""
    file = os.open(path, os.O_RDWR | os.O_CREAT | os.O_APPEND | os.O_CLOEXEC, 0o600)
    if not stat.S_ISREG(os.fstat(file).st_mode):
        os.close(file)
        raise OSError(f"{path}: no file that keeps what is written")
    if file > 2:
        return file
    moved = fcntl.fcntl(file, fcntl.F_DUPFD_CLOEXEC, 3)
    os.close(file)
    return moved


def _beside(path: pathlib.Path, ending: str) -> pathlib.Path:
    return path.with_name(f"{path.name}.{ending}")


def _read_all(file: int) -> bytes:
    parts = []
    place = 0
    while part := os.pread(file, 1 << 20, place):
        parts.append(part)
        place += len(part)
    return b"".join(parts)


def _write_new(path: pathlib.Path, data: bytes) -> pathlib.Path:
    """Writes a file under this name, or one with a number behind it where there is one already, and has it on disk; its name."""
    number, name = 1, path
    while True:
        try:
            file = os.open(name, os.O_WRONLY | os.O_CREAT | os.O_EXCL | os.O_CLOEXEC, 0o600)
            break
        except FileExistsError:
            number += 1
            name = path.with_name(f"{path.name}-{number}")
    try:
        _write_all(file, data)
        os.fsync(file)
    finally:
        os.close(file)
    _sync_folder(name)
    return name


def _write_all(file: int, data: bytes) -> None:
    view = memoryview(data)
    while view:
        view = view[os.write(file, view) :]


def _sync_folder(path: pathlib.Path) -> None:
    folder = os.open(path.parent, os.O_RDONLY)
    try:
        os.fsync(folder)
    finally:
        os.close(folder)
