"""A first look: six nodes, a server and a front on this machine, and the lines with which they are called."""

from __future__ import annotations

import argparse
import pathlib
import shutil
import signal
import subprocess
import sys
import time

from . import tokens
from .ports import free_ports
from .printed import unprinted
from .programs import EXAMPLES, TOP

HOSTS = TOP / "hosts"
# Who sees all, and enters test claims of both pharmacies.
OPERATOR = f"{tokens.OPERATOR},ph1,ph2"
# After how long a front that has ended is started again.
AGAIN_SECONDS = 0.5
# Words and settings that are refused stay so.
REFUSED = (2, 78)
WORDS = """
the console        {at}/          token of the operator: {operator}
a claim, by curl   curl --data-binary @{folder}/billing -H 'Content-Type: application/vnd.ncpdp' -H 'Idempotency-Key: first' \\
                        -H 'Authorization: Bearer {token}' '{at}/pharmacies/ph1/claims?wait=20'
kill the payer     hosts/vogctl --nats 127.0.0.1:{port} --access {folder}/access pr1 kill
framed messages    127.0.0.1:{framed} (0x02, 0x03)
Ctrl-C ends all. Whoever has the tokens in {folder}/tokens may call.
"""


def start(given: argparse.Namespace) -> int:
    """Starts all, says how it is called, and ends all where one is told to end."""
    if not shutil.which("nats-server"):
        sys.exit("front: there is no nats-server: apt-get install nats-server")
    folder = pathlib.Path(given.demo).resolve()
    folder.mkdir(mode=0o700, parents=True, exist_ok=True)
    settings = folder / "settings.toml"
    if not settings.exists():
        shutil.copyfile(EXAMPLES / "six-nodes.toml", settings)
    port = free_ports(8)
    framed, watch = port + 1, port + 2
    text = (EXAMPLES / "messages" / "billing.txt").read_bytes().strip()
    (folder / "billing").write_bytes(unprinted(text))
    file = folder / "tokens"
    known = _known(file)
    for who in ("ph1", "ph2", OPERATOR):
        if who not in known:
            known[who] = tokens.make(who, str(file))
    subprocess.run(
        [sys.executable, HOSTS / "permissions", settings, folder / "access", "--listen", f"127.0.0.1:{port}"],
        check=True,
        stdout=subprocess.DEVNULL,
    )
    nats = ["--nats", f"127.0.0.1:{port}", "--access", str(folder / "access")]
    watched = ["--watch", str(watch)]
    cluster: list[object] = [
        sys.executable,
        HOSTS / "cluster.py",
        settings,
        folder / "logs",
        "--server",
        *nats,
        *watched,
        "--tick",
        "0.5",
    ]
    front: list[object] = [
        sys.executable,
        HOSTS / "front",
        settings,
        "--tokens",
        file,
        "--receipts",
        folder / "receipts",
        *nats,
        *watched,
    ]
    front += ["--logs", folder / "logs", "--tcp", f"ph1=127.0.0.1:{framed}", "--listen", given.listen]
    facts = {"operator": known[OPERATOR], "token": known["ph1"], "folder": given.demo, "port": port, "framed": framed}
    running = [_started(cluster)]
    signal.signal(signal.SIGTERM, lambda *_about: sys.exit(0))
    try:
        for _ in range(6):
            _line(running[0])
        _keep(front, running, facts)
    except KeyboardInterrupt:
        pass
    finally:
        for process in reversed(running):
            process.terminate()
            process.wait()
    return 0


def _keep(words: list[object], running: list[subprocess.Popen[bytes]], facts: dict[str, object]) -> None:
    """Starts the front, and again where it was killed or has failed: the nodes go on meanwhile. Who is told to end ends all."""
    is_told = False
    while True:
        running[1:] = [_started(words)]
        ready = _line(running[1]).split()
        if ready[:2] == ["front", "ready"] and not is_told:
            print(WORDS.format(at=ready[2], **facts), flush=True)
            is_told = True
        status = running[1].wait()
        if status in REFUSED or not is_told:
            sys.exit(status)
        print(f"the front ended ({status}), and is started again; the nodes go on", file=sys.stderr, flush=True)
        time.sleep(AGAIN_SECONDS)


def _known(file: pathlib.Path) -> dict[str, str]:
    """The tokens of an earlier first look in this folder."""
    lines = file.read_text(encoding="ascii").splitlines() if file.exists() else []
    return {line.split()[0]: line.split()[1] for line in lines}


def _started(words: list[object]) -> subprocess.Popen[bytes]:
    return subprocess.Popen(list(map(str, words)), stdout=subprocess.PIPE)


def _line(process: subprocess.Popen[bytes]) -> str:
    """The next line that a program says."""
    assert process.stdout is not None
    return process.stdout.readline().decode()
