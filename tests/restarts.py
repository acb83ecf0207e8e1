"""Nodes of a cluster that are restarted one after the other while claims are submitted, for tests of procedures."""

import asyncio
import os
import subprocess
import sys

sys.dont_write_bytecode = True
import network  # noqa: E402
from network import NODES, expect  # noqa: E402

CLAIMS = 60


def run(*words, environment=None):
    done = subprocess.run([str(it) for it in words], capture_output=True, text=True, check=False, env=environment)
    return done.stdout + done.stderr, done.returncode


def restart_command(net):
    """A command that restarts a node of the cluster, and returns once it is ready: in order, by SIGTERM."""
    path = net.folder / "restart"
    lines = [
        "#!/usr/bin/env bash",
        f"said={net.said}",
        'before=$(grep -c "^$1 ready$" "$said")',
        f'kill -TERM $(pgrep -f "^.*/node {net.settings} $1 " | head -n 1)',
        'for _ in $(seq 300); do [ "$(grep -c "^$1 ready$" "$said")" -gt "$before" ] && exit 0; sleep 0.1; done',
        "exit 1",
    ]
    path.write_text("\n".join(lines) + "\n", encoding="ascii")
    path.chmod(0o755)
    return str(path)


async def under_load(net, first=1):
    """Claims, numbered from this one on, are submitted while each node is restarted by hosts/upgrade; how many. Each is answered as paid."""
    caller = await net.client("ph1-caller")
    told = {}
    environment = os.environ | {"VOGRILAS_RESTART": restart_command(net)}
    upgrade = await asyncio.create_subprocess_exec(
        str(network.HOSTS / "upgrade"),
        *NODES,
        env=environment,
        stdout=asyncio.subprocess.PIPE,
        stderr=asyncio.subprocess.STDOUT,
    )
    claim = first - 1
    while claim < first - 1 + CLAIMS or upgrade.returncode is None:
        claim += 1
        reply = None
        while reply is None or not reply.startswith(b"number "):
            reply = await caller.request("claims.ph1.call", b"submit " + network.claim(claim).encode(), 1)
        told[claim] = int(reply.split()[1])
        await asyncio.sleep(0.05)
    output = (await upgrade.stdout.read()).decode()
    expect(await upgrade.wait() == 0 and output.count("is ready") == len(NODES), f"upgrade: {output}")
    for claim, number in told.items():
        for _ in range(200):
            reply = await caller.request("claims.ph1.call", b"answer %d" % number, 1)
            if reply and reply.startswith(b"answer "):
                break
            await asyncio.sleep(0.1)
        expect(reply and (b"ANP" in reply or b"AND" in reply), f"claim {claim} of number {number}: {reply}")
    await caller.close()
    return len(told)
