"""Nodes of a network that is soaked in faults, for tests/soak-all: hosts over three servers, logs that are closed, and settings that grow."""

import asyncio
import contextlib
import os
import pathlib
import random
import shutil
import signal
import subprocess
import sys
import threading
import time

sys.dont_write_bytecode = True
import network  # noqa: E402
import programs  # noqa: E402
from network import HOSTS, expect, nats, wait_for  # noqa: E402

from soaked_hosts import Host, ran, surely  # noqa: E402
from soaked_stream import MACHINES, STREAMED, Stream  # noqa: E402

import local_servers  # noqa: E402

# Users of the servers that no node has: who removes a server for good, and who deletes a stream that is made anew.
USERS = (
    ("accounts {\n", 'accounts {\n  $SYS { users: [{ user: "system", password: "system" }] }\n'),
    ("users: [\n", 'users: [\n      { user: "admin", password: "admin" }\n'),
)


class Servers(local_servers.Servers):
    """Three servers, at which who has no login is nobody."""

    def reload(self):
        for place in range(self.count):
            self.send(place, signal.SIGHUP)


class World:
    """Hosts, servers and settings, and what becomes of them."""

    def __init__(self, folder, seed, spared=()):
        self.folder, self.dice, self.spared = pathlib.Path(folder), random.Random(seed), spared
        self.host, self.access, self.logs = network.host(), self.folder / "access", self.folder / "logs"
        self.settings, self.said = self.folder / "settings.toml", self.folder / "said"
        self.files, self.faults, self.counts = [], [], {}
        self.calm, self.over = threading.Event(), threading.Event()
        self._counting = threading.Lock()
        # Who holds it has the servers to itself.
        self.servers_lock = threading.Lock()
        self.next_settings(network.SETTINGS.read_text(encoding="ascii"))
        self.users = self.folder / "users"
        self.users.mkdir()
        self.permit()
        self.servers = Servers(self.folder / "servers", access=str(self.users))
        self.stream = Stream(self, self.servers, str(self.users))
        noting = self.folder / "faults.so"
        words = ["cc", "-shared", "-fPIC", "-o", noting, network.TOP / "tests" / "disk_faults.c", "-ldl"]
        subprocess.run(words, check=True)
        self.environment = os.environ | {"LD_PRELOAD": str(noting)}
        self.hosts = [Host(self, name) for name in network.NODES if name != STREAMED]
        self.hosts += [Host(self, STREAMED, machine) for machine in MACHINES]
        self._keeper = threading.Thread(target=self._keep)

    @property
    def url(self):
        return self.servers.url

    def count(self, what, more=1):
        with self._counting:
            if what:
                self.counts[what] = self.counts.get(what, 0) + more

    def counted(self):
        return ", ".join(f"{what} {count}" for what, count in sorted(self.counts.items()))

    def next_settings(self, text):
        """The settings from now on: a file of their own, and the one that fronts read."""
        self.files.append(self.folder / f"settings-{len(self.files)}.toml")
        self.files[-1].write_text(text, encoding="ascii")
        beside = self.settings.with_suffix(".new")
        shutil.copyfile(self.files[-1], beside)
        os.replace(beside, self.settings)

    def permit(self):
        """Writes who may do what, and the keys, for the settings as they are."""
        words = [HOSTS / "permissions", self.settings, self.access, "--logs", "--keys"]
        surely(sys.executable, *words, what="permissions")
        text = (self.access / "users.conf").read_text()
        for old, new in USERS:
            expect(old in text, f"users.conf has no {old!r}")
            text = text.replace(old, new, 1)
        (self.users / "users.conf").write_text(text)

    def start(self):
        """Starts all, and waits until each node is ready."""
        self.servers.start_all()
        self.servers.wait_current()
        self.vogctl("log", "make", STREAMED)
        self._keeper.start()
        self.ready()

    def ready(self, seconds=120):
        def nodes():
            return {it.name for it in self.hosts if it.is_ready()}

        wait_for(lambda: nodes() >= {it.name for it in self.hosts}, "each node is ready", seconds)

    def _keep(self):
        while not self.over.wait(0.05):
            for host in list(self.hosts):
                host.look()

    def stop(self):
        """Ends all that runs."""
        self.over.set()
        if self._keeper.is_alive():
            self._keeper.join()
        for host in self.hosts:
            host.end()
        self.servers.end()

    def of(self, name):
        return [it for it in self.hosts if it.name == name]

    @contextlib.contextmanager
    def held(self, hosts, number=signal.SIGTERM):
        """These do not run meanwhile."""
        for host in hosts:
            host.end(number)
        try:
            yield
        finally:
            for host in hosts:
                host.is_held = False

    def vogctl(self, *words, is_sure=True, url=None):
        """What an operator is told of a log; again where the servers have just come."""
        command = [sys.executable, HOSTS / "vogctl", "--nats", url or self.url, "--access", self.access, *words]
        for _ in range(10):
            done = ran(*command)
            if done.returncode == 0 or not is_sure:
                break
            time.sleep(1)
        expect(done.returncode == 0 or not is_sure, f"vogctl {words}: {done.stdout[-200:]}{done.stderr[-300:]}")
        return done

    def request(self, user, subject, payload, seconds=5, url=None):
        """A reply to a user's message; None where none comes."""

        async def go():
            name, password = (user, user) if user in ("system", "admin") else (None, None)
            login = str(self.access / f"{user}.login") if name is None else None
            at = url or self.url
            at = at.replace("127.0.0.1", f"{name}:{password}@127.0.0.1", 1) if name else at
            client = nats.Connection(nats.Access(at, login=login), user)
            await asyncio.wait_for(client.start(), 30)
            try:
                return await client.request(subject, payload, seconds)
            finally:
                await client.close()

        try:
            return asyncio.run(go())
        except (TimeoutError, OSError):
            return None

    # What an operator does.

    def turn(self, host):
        """Closes a log while its node does not run, and makes it whole again, which a host reads."""
        claimnode = programs.program("claimnode")
        with self.held([host], self.dice.choice([signal.SIGTERM, signal.SIGKILL])):
            surely(claimnode, "--turn", host.settings, host.name, host.log, what=f"the log of {host.name} is closed")
            surely(claimnode, host.settings, host.name, host.log, what=f"{host.name} goes on behind its closed log")
            whole = host.log.with_name(f"{host.name}.whole")
            surely(claimnode, "--join", whole, host.settings, host.name, host.log, what=f"{host.name} is joined")
            os.replace(whole, host.log)
        self.count("logs closed")

    def _go_over(self, host, new):
        """A node that does not run goes over to new settings."""
        if host.keeps:
            told = surely(programs.program("claimgrow"), host.settings, new, host.log, what=f"{host.name} goes over")
            expect(told.endswith(" goes over\n"), f"claimgrow of {host.name}: {told}")
        host.settings = new

    def over_to(self, name, new):
        """A node goes over, while the others serve."""
        hosts, how = self.of(name), self.dice.choice([signal.SIGTERM, signal.SIGKILL])
        if hosts[0].machine:
            self.stream.over(hosts, how, new)
            return
        with self.held(hosts, how):
            self._go_over(hosts[0], new)

    def grow(self, text, alone=(), new=()):
        """The network goes over to larger settings, node by node; some nodes together, before the others; then new nodes start."""
        self.next_settings(text)
        self.permit()
        self.servers.reload()
        names = sorted({it.name for it in self.hosts} - set(alone))
        self.dice.shuffle(names)
        together = [host for host in self.hosts if host.name in alone]
        with self.held(together):
            for host in together:
                self._go_over(host, self.files[-1])
        for name in names:
            self.over_to(name, self.files[-1])
        self.hosts += [Host(self, name) for name in new]
        self.count("growths")
