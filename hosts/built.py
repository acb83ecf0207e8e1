"""The program of hosts/c, which is the host of a node: the one that is installed, or that of this repository, which is built where it is not."""

import pathlib
import subprocess
import sys

HERE = pathlib.Path(__file__).resolve().parent
INSTALLED = HERE.parents[2] / "libexec" / "vogrilas" / "node"
BUILDER = HERE.parent / "tools" / "host"


def host() -> str:
    """Where it is; ends the program where it is neither there nor can be built."""
    if INSTALLED.exists():
        return str(INSTALLED)
    if not BUILDER.exists():
        sys.exit("there is no host: Debian's package vogrilas-host has it")
    made = subprocess.run([BUILDER], stdout=subprocess.PIPE, text=True, check=False)
    if made.returncode:
        sys.exit(made.returncode)
    return made.stdout.strip()
