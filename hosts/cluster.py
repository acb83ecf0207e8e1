#!/usr/bin/python3
"""A node each of a settings file, over NATS, on this machine.

    hosts/cluster.py SETTINGS FOLDER [--server] [--access FOLDER] [--nats URL[,URL..]] [--ca FILE] [--jetstream] [--tick SECONDS]
                     [--watch PORT] [--hold-back MS] [--reserve ROWS] [--ping SECONDS] [--host PATH]
                     [--log stream] [--copies 2] [--candidates N] [--switch-logs] [-v]

SETTINGS is a file of settings alone, as examples/six-nodes.toml. Logs of pharmacies and payers go to FOLDER; a switch keeps nothing, and has
a log with --switch-logs alone. The host is that of hosts/c, which is
built where it is not there; --host names another. One that dies is started again, at first at once, then ever later, also where it
was killed before it was ready; one that says that its words, its log or its settings are refused (status 2 or 78) is not. With --server
a server is started too; its program is `nats-server` (Debian: apt-get install nats-server). --access is a folder that hosts/permissions has written: each
node comes as a user of its own, signs where there are keys, and the server is the one of its server.conf. Without it, anybody who reaches the server can speak
as any node. With --log stream logs are in streams, which `vogctl log make` has made, and each node has N hosts, whose folders are
FOLDER/a, FOLDER/b ..: as on as many machines; of those of a switch all serve. Ends by Ctrl-C or SIGTERM: its nodes finish what they have taken, and end.
"""

import argparse
import asyncio
import json
import os
import pathlib
import re
import signal
import socket
import sys
import time
from typing import Any

import built
import nats
from keys import Keys
from said import Said
from settings import REFUSED, Settings

HERE = pathlib.Path(__file__).resolve().parent
AGAIN_SECONDS = 0.2
MOST_SECONDS = 10.0
# A program that has run so long is started again at once.
STEADY_SECONDS = 30.0
# The statuses of a program that says in words why it cannot run: what is on its command line, or its settings, its name or its log.
WORDS_OF_REFUSAL = (2, REFUSED)
END_SECONDS = 20.0


def check_free(host: str, port: int) -> None:
    """Ends the program where a server has the port already: the nodes would be on that one."""
    with socket.socket() as other:
        if other.connect_ex((host, port)) == 0:
            sys.exit(f"cluster: {host}:{port} has a server already: leave out --server, or give another by --nats")


def ending(status: int) -> dict[str, object]:
    """How a program ended: by a signal, which has said nothing and is no refusal, or with a status of its own."""
    return {"signal": signal.Signals(-status).name} if status < 0 else {"status": status}


class Keeper:
    """A program that is started again where it ends: the sooner it ended, the later."""

    def __init__(self, name: str, words: list[str], say: Said) -> None:
        self._name, self._words, self._say = name, words, say

    async def keep(self) -> None:
        """Ends where the program is refused, or told to end."""
        wait = AGAIN_SECONDS
        while True:
            started = time.monotonic()
            # A session of its own: Ctrl-C ends this program, which ends the others in order.
            process = await asyncio.create_subprocess_exec(*self._words, start_new_session=True)
            try:
                status = await process.wait()
            except asyncio.CancelledError:
                await self._end(process)
                raise
            if status in WORDS_OF_REFUSAL:
                self._say(f"{self._name} is refused, and not started again", "error", status=status)
                return
            if time.monotonic() - started > STEADY_SECONDS:
                wait = AGAIN_SECONDS
            self._say(f"{self._name} ended, and is started again", "warning", **ending(status), seconds=wait)
            await asyncio.sleep(wait)
            wait = min(wait * 2, MOST_SECONDS)

    async def _end(self, process: asyncio.subprocess.Process) -> None:
        """Has the program end in order, or at all."""
        process.terminate()
        try:
            await asyncio.wait_for(process.wait(), END_SECONDS)
        except TimeoutError:
            self._say(f"{self._name} does not end, and is killed", "error")
            process.kill()
            await process.wait()


class Cluster:
    """The programs of all nodes, and of a server."""

    def __init__(self, given: argparse.Namespace) -> None:
        self._given = given
        self._say = Said("cluster", given.v)
        self._access = nats.access_of(given)
        self._folder = pathlib.Path(given.folder)
        self._folder.mkdir(mode=0o700, parents=True, exist_ok=True)

    def server(self) -> Keeper:
        """The server: that of the access folder, or one for this machine whose settings are written here."""
        at = self._access.servers[0]
        if at.is_tls and not self._given.access:
            sys.exit("cluster: a server with TLS is started by its own settings: leave out --server")
        check_free(at.host, at.port)
        if self._given.access:
            settings = pathlib.Path(self._given.access) / "server.conf"
            if not re.search(rf"^listen: .*:{at.port}\b", settings.read_text(encoding="utf-8"), re.MULTILINE):
                sys.exit(f"cluster: {settings} listens elsewhere than at {at.host}:{at.port}: give --nats")
        else:
            settings = self._folder / "server.conf"
            self._write_settings(settings, at)
        return Keeper(
            "the server", ["nats-server", "-c", str(settings), "-l", str(self._folder / "server.txt")], self._say
        )

    def _write_settings(self, path: pathlib.Path, at: nats.Server) -> None:
        """Writes settings of a server for this machine. Who may do what it does not say: it is for a first look."""
        lines = [f"listen: {json.dumps(f'{at.host}:{at.port}')}", "max_payload: 140000"]
        if self._given.jetstream:
            lines.append(f"jetstream {{ store_dir: {json.dumps(str(self._folder / 'server'))} }}")
        if self._access.user:
            user, password = json.dumps(self._access.user), json.dumps(self._access.password)
            lines.append(f"authorization {{ user: {user}, password: {password} }}")
        with open(os.open(path, os.O_WRONLY | os.O_CREAT | os.O_TRUNC, 0o600), "w", encoding="utf-8") as file:
            file.write("\n".join([*lines, ""]))

    def _login(self, user: str) -> list[str]:
        """The words by which a user comes. Passwords never stand among words: those of NATS_URL are inherited."""
        given = self._given
        words = ["--nats", given.nats] if given.nats else []
        words += ["--ca", given.ca] if given.ca else []
        login = f"{given.access}/{user}.login" if given.access else given.login
        return words + (["--login", login] if login else [])

    def streams(self) -> Keeper:
        words = [sys.executable, str(HERE / "streams"), self._given.settings, *self._login("streams")]
        return Keeper("streams", words + ["-v"] * self._given.v, self._say)

    def node(self, place: int, name: str, program: str, machine: str = "") -> Keeper:
        given = self._given
        folder = self._folder / machine
        folder.mkdir(mode=0o700, exist_ok=True)
        words = [program, given.settings, name, *self._login(name), "--tick", given.tick]
        if given.switch_logs or not name.startswith("sw"):
            words.insert(3, str(folder / f"{name}.log"))
            words += ["--log", "stream", "--machine", machine, "--copies", given.copies] if machine else []
        words += ["--watch", f"127.0.0.1:{given.watch + place}"] if given.watch else []
        words += ["--hold-back", given.hold_back] if given.hold_back else []
        words += ["--reserve", given.reserve] if given.reserve else []
        words += ["--ping", given.ping] if given.ping else []
        words += ["--rules", given.rules] if given.rules and name.startswith("pr") else []
        words += ["--keys", given.access] if given.access and Keys.are_there(pathlib.Path(given.access)) else []
        words += ["--jetstream"] * given.jetstream + ["-v"] * given.v
        return Keeper(name, words, self._say)

    async def go(self) -> int:
        """Runs all until it is told to end: the nodes first, then the server. Status 1 where every node is refused."""
        given = self._given
        names = Settings.read(given.settings).nodes()
        program = given.host or built.host()
        servers = [self.server()] if given.server else []
        servers += [self.streams()] if given.jetstream else []
        machines = [chr(ord("a") + it) for it in range(given.candidates)] if given.log == "stream" else [""]
        places = [(machine, name) for machine in machines for name in names]
        nodes = [self.node(place, name, program, machine) for place, (machine, name) in enumerate(places)]
        stop = asyncio.Event()
        for number in (signal.SIGINT, signal.SIGTERM):
            asyncio.get_running_loop().add_signal_handler(number, stop.set)
        if not given.access and not self._access.user:
            self._say("anybody who reaches the server can speak as any node: see hosts/permissions", "warning")
        kept = [[asyncio.create_task(it.keep()) for it in some] for some in (nodes, servers)]
        all_refused = asyncio.gather(*kept[0], return_exceptions=True)
        stopped = asyncio.create_task(stop.wait())
        waited: list[asyncio.Future[Any]] = [stopped, all_refused]
        await asyncio.wait(waited, return_when=asyncio.FIRST_COMPLETED)
        for tasks in kept:
            for task in tasks:
                task.cancel()
            await asyncio.gather(*tasks, return_exceptions=True)
        return 0 if stop.is_set() else 1


def words() -> argparse.Namespace:
    parser = argparse.ArgumentParser(description=__doc__.split("\n", maxsplit=1)[0])
    parser.add_argument("settings")
    parser.add_argument("folder")
    parser.add_argument("--server", action="store_true", help="start a server as well")
    parser.add_argument("--access", metavar="FOLDER", help="what hosts/permissions has written: a user a node")
    nats.add_words(parser)
    parser.add_argument("--jetstream", action="store_true", help="the server keeps packets for nodes that are down")
    parser.add_argument("--tick", default="1.0", metavar="SECONDS")
    parser.add_argument(
        "--watch", type=int, metavar="PORT", help="metrics of the first node are at this port, of the next at the next"
    )
    parser.add_argument("--hold-back", metavar="MS", help="switches lose what they forwarded less than so long ago")
    parser.add_argument(
        "--reserve", metavar="ROWS", help="entries of pharmacies and rows of payers that are kept for reversals"
    )
    parser.add_argument(
        "--ping", metavar="SECONDS", help="how long a server may be silent before it is asked whether it is there"
    )
    parser.add_argument("--rules", metavar="URL", help="the own system of payers that ask one")
    parser.add_argument("--host", metavar="PATH", help="a program in the place of that of hosts/c")
    parser.add_argument("--log", choices=("file", "stream"), default="file", help="where logs are")
    parser.add_argument(
        "--copies",
        default="1",
        choices=("1", "2"),
        help="on how many disks a log is before anything is said, with --log stream",
    )
    parser.add_argument(
        "--candidates",
        type=int,
        choices=range(1, 6),
        metavar="N",
        help="hosts of each node, with --log stream: 2, and 3 with --copies 2, so that one copy less silences nobody",
    )
    parser.add_argument("--switch-logs", action="store_true", help="switches have logs as well")
    parser.add_argument("-v", action="store_true", help="words for people on standard error")
    given = parser.parse_args()
    given.candidates = given.candidates or (3 if given.copies == "2" else 2)
    return given


if __name__ == "__main__":
    sys.exit(asyncio.run(Cluster(words()).go()))
