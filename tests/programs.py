"""Where the tests find the programs that they try: under their names in the folder that the variable VOGRILAS_PROGRAMS names, where it
is set, else where the gate has left the proved ones, crates/NAME/out/NAME. tools/programs says the same to scripts of the shell."""

import os
import pathlib

TOP = pathlib.Path(__file__).resolve().parent.parent


def program(name: str, crate: str = "") -> str:
    """The path of a program, or of another file that a crate's build leaves, whether it is there or not."""
    folder = os.environ.get("VOGRILAS_PROGRAMS")
    return str(pathlib.Path(folder, name) if folder else TOP / "crates" / (crate or name) / "out" / name)


def library() -> str:
    """The path of the static library."""
    return program("libvogrilas_c.a", "vogrilas_c")
