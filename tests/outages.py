"""What happens to six nodes and a front on a bad day, for tests: kills, stops and delays by chance, and then calm."""

from __future__ import annotations

import contextlib
import os
import random
import signal
import subprocess
import threading
import time
from typing import Any

import network
from network import wait_for

# A payer that is silent for so long at most.
MOST_SILENT_SECONDS = 6.0


class Outages:
    """Kills the front, kills, stops and delays nodes, until it is told to end; what is stopped is started then."""

    def __init__(self, net: Any, front: Any, seed: int, pause: tuple[float, float] = (0.1, 1.0)) -> None:
        self._net, self._front, self._pause = net, front, pause
        self._random = random.Random(seed)
        self.counts: dict[str, int] = {}
        self._is_over = threading.Event()
        self._down: dict[str, float] = {}
        self._silent: dict[int, float] = {}
        self._thread = threading.Thread(target=self._go)
        self.fault: BaseException | None = None

    @property
    def is_running(self) -> bool:
        return self._thread.is_alive()

    def start(self) -> None:
        self._thread.start()

    def end(self) -> None:
        """Has all up again."""
        self._is_over.set()
        self._thread.join()
        if self.fault is not None:
            raise self.fault

    def _go(self) -> None:
        try:
            while not self._is_over.wait(self._random.uniform(*self._pause)):
                self._wake(time.monotonic())
                self._one()
        except BaseException as fault:  # noqa: BLE001: it is raised where the test ends
            self.fault = fault
        finally:
            self._wake(float("inf"))

    def _one(self) -> None:
        drawn = self._random.random()
        if drawn < 0.2:
            self._count("the front killed")
            if self._random.random() < 0.2:
                self._front.kill_keeper()
            else:
                self._front.end(signal.SIGKILL)
            time.sleep(self._random.choice((0.0, 0.0, 1.0, 3.0)))
            self._front.start()
        elif drawn < 0.45:
            self._kill(self._random.choice((b"pr1", b"sw1", b"sw2", b"ph1")))
        elif drawn < 0.75:
            node = self._random.choice(("pr1", "pr1", "pr1", "sw1", "sw2", "ph1"))
            if node not in self._down:
                self._stop(node)
        else:
            self._silence(self._random.choice((b"pr1", b"sw1", b"sw2", b"ph1")))

    def _stop(self, node: str) -> None:
        """Stops a node for a while. A host that is silent says nothing to that, and does it later."""
        if self._net.ask(node, "stop")[1] == 0:
            self._count("a node stopped")
        most = 1.0 if node == "ph1" else MOST_SILENT_SECONDS
        self._down[node] = time.monotonic() + self._random.uniform(0.1, most)

    def _hosts(self, node: bytes) -> list[int]:
        """The processes that are hosts of a node."""
        rows = self._net.children().items()
        return [pid for pid, words in rows if node in words and words[0].endswith(b"/node")]

    def _kill(self, node: bytes) -> None:
        """Kills the host of a node, as a power cut would; it is started again."""
        for pid in self._hosts(node):
            self._count("a node killed")
            with contextlib.suppress(ProcessLookupError):
                os.kill(pid, signal.SIGKILL)

    def _silence(self, node: bytes) -> None:
        """Has the host of a node do nothing for a while, so that what it does is late."""
        for pid in self._hosts(node):
            if pid not in self._silent:
                self._count("a host silent")
                with contextlib.suppress(ProcessLookupError):
                    os.kill(pid, signal.SIGSTOP)
                    self._silent[pid] = time.monotonic() + self._random.uniform(0.1, 4.0)

    def _wake(self, now: float) -> None:
        """Has hosts that were silent long enough go on, and starts what was stopped long enough: for that no host may be silent."""
        due = [it for it, until in self._down.items() if until <= now]
        for pid in [it for it, until in self._silent.items() if due or until <= now]:
            with contextlib.suppress(ProcessLookupError):
                os.kill(pid, signal.SIGCONT)
            del self._silent[pid]
        for node in due:
            wait_for(
                lambda node=node: "AlreadyUp" in (told := self._net.ask(node, "start")[0]) or told == "ok",
                f"{node} starts",
            )
            del self._down[node]

    def _count(self, what: str) -> None:
        self.counts[what] = self.counts.get(what, 0) + 1

    def told(self) -> str:
        return ", ".join(f"{what} {count} times" for what, count in sorted(self.counts.items()))


def audited(net: Any, program: str, table: str) -> list[dict[str, str]]:
    """A table of what the logs of a network left."""
    import csv
    import io

    logs = network.logs_in(net.logs)
    told = subprocess.run([program, "--csv", table, net.settings, *logs], capture_output=True, text=True, check=True)
    return list(csv.DictReader(io.StringIO(told.stdout)))
