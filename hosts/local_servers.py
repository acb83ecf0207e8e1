"""Servers of one cluster with JetStream on this machine, each a process with a folder: for tries, and for tests that kill them."""

import json
import os
import pathlib
import random
import shutil
import signal
import socket
import subprocess
import sys
import time
import urllib.error
import urllib.request
from typing import Any

OPEN_SECONDS = 20.0
LOOK_SECONDS = 0.2
# How long servers may take until they know all that they have, each, and then most of them.
CURRENT_SECONDS = 60.0
MOST_CURRENT_SECONDS = 120.0


def is_open(port: int) -> bool:
    with socket.socket() as other:
        return other.connect_ex(("127.0.0.1", port)) == 0


# What keeps a port that was given from being given to anybody else before its server listens: a socket of another kind at it, open as long
# as this process lives. Whoever asks for ports, in whichever process, binds one too.
_KEPT: list[socket.socket] = []


def _is_kept(port: int) -> bool:
    """Whether a port is kept for this process from here on: nobody listens at it, and it was given to nobody."""
    if is_open(port):
        return False
    kept = socket.socket(socket.AF_INET, socket.SOCK_DGRAM)
    try:
        kept.bind(("127.0.0.1", port))
    except OSError:
        kept.close()
        return False
    _KEPT.append(kept)
    return True


def free_ports(count: int) -> int:
    """The first of so many ports that nobody has, below those that the kernel gives to whoever connects."""
    while True:
        port = random.randint(12_000, 30_000)
        if all(_is_kept(port + it) for it in range(count)):
            return port


class Servers:
    """The servers of a cluster, each a process with a folder."""

    def __init__(
        self,
        folder: str | pathlib.Path,
        count: int = 3,
        port: int = 0,
        access: str | None = None,
        has_system: bool = False,
    ) -> None:
        self.folder, self.count, self._access, self._has_system = pathlib.Path(folder), count, access, has_system
        self.port = port or free_ports(3 * count)
        # Routes between servers, and what they say of themselves, are for this machine alone.
        self._route = self.port + count if not port else free_ports(2 * count)
        self._monitor = self._route + count
        self.processes: dict[int, subprocess.Popen[bytes]] = {}
        # A new disk wants a server of a new name.
        self.names = [f"s{place + 1}" for place in range(count)]
        self.folder.mkdir(mode=0o700, parents=True, exist_ok=True)

    @property
    def url(self) -> str:
        return ",".join(f"127.0.0.1:{self.port + place}" for place in range(self.count))

    def store(self, place: int) -> pathlib.Path:
        return self.folder / f"store{place + 1}"

    def _settings(self, place: int) -> pathlib.Path:
        routes = ", ".join(f'"nats://127.0.0.1:{self._route + other}"' for other in range(self.count) if other != place)
        lines = [
            f'server_name: "{self.names[place]}"',
            f'listen: "127.0.0.1:{self.port + place}"',
            f'http: "127.0.0.1:{self._monitor + place}"',
            "max_payload: 1MB",
            'ping_interval: "2s"',
            "ping_max: 2",
            f"jetstream {{ store_dir: {json.dumps(str(self.store(place)))}, max_memory_store: 0, max_file_store: 100GB }}",
        ]
        if self.count > 1:
            lines.append(
                f'cluster {{ name: "tries", listen: "127.0.0.1:{self._route + place}", routes: [{routes}], no_advertise: true }}'
            )
        if self._has_system:
            # Anybody may do what a node does, and a user of the servers' own, for tests, what who administers them does.
            users = '$SYS { users: [{ user: "system", password: "system" }] }'
            lines.append(
                f'accounts {{ CLAIMS {{ jetstream: enabled, users: [{{ user: "claims", password: "claims" }}] }}, {users} }}'
            )
            lines.append('no_auth_user: "claims"')
        if self._access:
            lines.append(
                f"include {json.dumps(os.path.relpath(pathlib.Path(self._access) / 'users.conf', self.folder))}"
            )
        path = self.folder / f"server{place + 1}.conf"
        path.write_text("\n".join([*lines, ""]), encoding="utf-8")
        return path

    def start(self, place: int) -> None:
        """Starts a server; it may take some seconds until it has found the others."""
        words = ["nats-server", "-c", str(self._settings(place)), "-l", str(self.folder / f"server{place + 1}.txt")]
        self.processes[place] = subprocess.Popen(words, start_new_session=True)

    def start_all(self) -> None:
        """Starts all, and waits until they are there."""
        for place in range(self.count):
            if is_open(self.port + place):
                sys.exit(f"servers: 127.0.0.1:{self.port + place} has a server already")
            self.start(place)
        end = time.monotonic() + OPEN_SECONDS
        while not all(is_open(self.port + place) for place in range(self.count)):
            if time.monotonic() > end or any(it.poll() is not None for it in self.processes.values()):
                self.end()
                sys.exit(f"servers: they do not come; see {self.folder}/server1.txt")
            time.sleep(LOOK_SECONDS)

    def _says(self, place: int, path: str) -> dict[str, Any]:
        """What a server says of itself."""
        try:
            with urllib.request.urlopen(f"http://127.0.0.1:{self._monitor + place}{path}", timeout=2) as answer:
                told = answer.read()
        except urllib.error.HTTPError as fault:
            told = fault.read()
        except OSError as fault:
            return {"error": str(fault)}
        try:
            return dict(json.loads(told))
        except ValueError:
            return {"error": f"it says {told[:80]!r}"}

    def not_current(self, place: int) -> str:
        """Why a server does not yet know all that it has; nothing where it does. Its own word (`healthz`) comes too early: it knows nothing of
        streams whose names it has not yet read from its disk, and says of them that there are none."""
        health = self._says(place, "/healthz")
        if health.get("status") != "ok":
            return str(health.get("error") or health)
        accounts = self._says(place, "/jsz?accounts=1&streams=1").get("account_details") or []
        led = {
            (account["name"], stream["name"])
            for account in accounts
            for stream in account.get("stream_detail") or []
            if self.count == 1 or stream.get("cluster", {}).get("leader")
        }
        on_disk = {
            (it.parent.parent.name, it.name)
            for it in (self.store(place) / "jetstream").glob("*/streams/*")
            if it.is_dir()
        }
        lacking = sorted(name for _, name in on_disk - led)
        return f"it does not know who leads {', '.join(lacking)}" if lacking else ""

    def wait_current(self) -> None:
        """Waits until each server knows all that it has: before that it may say of a stream that is there that there is none. One that does not
        come to that is told of, and the others are enough where they are most."""
        begun = time.monotonic()
        while lacking := {place: why for place in range(self.count) if (why := self.not_current(place))}:
            seconds = time.monotonic() - begun
            told = "; ".join(f"{self.names[place]}: {why}" for place, why in lacking.items())
            if seconds > CURRENT_SECONDS and 2 * len(lacking) < self.count:
                print(f"servers: not current: {told}; see {self.folder}/server*.txt", file=sys.stderr, flush=True)
                return
            if seconds > MOST_CURRENT_SECONDS:
                sys.exit(f"servers: not current in {seconds:.0f} s: {told}; see {self.folder}/server*.txt")
            time.sleep(LOOK_SECONDS)

    def send(self, place: int, number: int) -> None:
        """Sends a signal to a server that runs."""
        if self.processes[place].poll() is None:
            self.processes[place].send_signal(number)

    def kill(self, place: int) -> None:
        """Kills a server, stopped or not."""
        self.send(place, signal.SIGKILL)
        self.processes[place].wait()

    def wipe(self, place: int, name: str | None = None) -> None:
        """Takes the disk of a server that was killed."""
        shutil.rmtree(self.store(place), ignore_errors=True)
        self.names[place] = name or self.names[place]

    def end(self) -> None:
        """Kills all."""
        for place in self.processes:
            self.kill(place)
