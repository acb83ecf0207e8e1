"""How large a network may be: settings with and without limits, as each program takes or refuses them."""
from suite.case import Case, Group, rows_apart
from suite.logs import head_of
from suite.nodes import room
from suite.programs import Ran, run
from suite.rows import read_rows

PROGRAMS = ("claimswitch", "claimpicture", "claimnode", "claimaudit", "claimdump", "claimgrow")
EXPLAINED = {"CLAIMSWITCH_EXPLAIN": "1"}
# One node of each kind, each with room for 100.
COUNTS = {"pharmacies": 1, "switches": 1, "payers": 1}
CAPS = {"pharmacy-cap": 100, "switch-cap": 100, "payer-cap": 100}


class Network:
    """Settings of a text: `limits KEY=VALUE ..`, `pharmacies COUNT` and the like, `payer-cap CAP` and the like, parted by a semicolon and a blank."""

    def __init__(self, text: str):
        self.limits, self.sizes = "", {**COUNTS, **CAPS}
        for part in text.split("; ") if text else []:
            word, _, rest = part.partition(" ")
            if word == "limits":
                self.limits = "[limits]\n" + "".join(
                    f'{pair.replace("=", " = ")}\n' for pair in rest.split(" ") if pair
                )
            else:
                self.sizes[word] = int(rest) if word in self.sizes else self.sizes[word]

    def octets(self) -> bytes:
        """The settings."""
        size = self.sizes
        parts = ["again = 1\ntries = 1\n", self.limits]
        parts += [
            f'[[pharmacy]]\nqualifier = "01"\nprovider = "{number}"\nnodes = [{(number - 1) % size["switches"] + 1}]\n'
            f'cap = {size["pharmacy-cap"]}\n'
            for number in range(1, size["pharmacies"] + 1)
        ]
        parts += [f'[[switch]]\ncap = {size["switch-cap"]}\n'] * size["switches"]
        parts += [f'[[payer]]\nfee = 150\ncopay = 1000\ncap = {size["payer-cap"]}\n'] * size["payers"]
        parts += [
            f'[[route]]\nbin = "{610455 + number}"\npayer = {number}\n' for number in range(1, size["payers"] + 1)
        ]
        return "".join(parts).encode()

    def nodes(self) -> list[str]:
        """The nodes by their names."""
        kinds = (("ph", "pharmacies"), ("sw", "switches"), ("pr", "payers"))
        return [f"{kind}{number}" for kind, count in kinds for number in range(1, self.sizes[count] + 1)]


def said(ran: Ran, program: str) -> str:
    """What a program that ended well wrote, in one line; else what it complains of, without its name."""
    if ran.status == 0 and not ran.err:
        return "ok"
    lines = [line.removeprefix(f"{program}: ") for line in ran.err.decode("latin-1").splitlines()]
    return " / ".join(line.removeprefix("settings refused: ") for line in lines)


def written(folder: str, name: str, octets: bytes) -> str:
    """The path of a file that is written."""
    with open(f"{folder}/{name}", "wb") as file:
        file.write(octets)
    return f"{folder}/{name}"


def logs_in(folder: str, network: Network) -> list[str]:
    """The logs of all nodes, which begin and have no calls."""
    return [written(folder, f"{node}.log", head_of(node, network.octets())) for node in network.nodes()]


def started(network: Network, node: str) -> str:
    """What the start of a node says."""
    with room() as folder:
        ran = run("claimnode", written(folder, "settings.toml", network.octets()), node, f"{folder}/{node}.log")
    return ran.out.decode().strip() if ran.status == 0 else said(ran, "claimnode")


def audited(network: Network) -> str:
    """The verdict on logs that begin."""
    with room() as folder:
        ran = run("claimaudit", written(folder, "settings.toml", network.octets()), *logs_in(folder, network))
    return (
        said(ran, "claimaudit") if ran.err else next(line for line in ran.out.decode().splitlines() if " run" in line)
    )


def grown(old: Network, new: Network) -> str:
    """Whether logs that begin go over from settings to others."""
    with room() as folder:
        paths = written(folder, "old.toml", old.octets()), written(folder, "new.toml", new.octets())
        ran = run("claimgrow", *paths, *logs_in(folder, old))
        heads = [open(f"{folder}/{node}.log", "rb").read() for node in old.nodes()]
    if ran.err or ran.status:
        return said(ran, "claimgrow")
    return "over" if heads == [head_of(node, new.octets()) for node in old.nodes()] else "other heads"


def dumped(network: Network) -> str:
    """Whether what nodes have after no event is written, the last pharmacy's log under these settings."""
    with room() as folder:
        ran = run("claimdump", folder, given=network.octets() + b"---\n")
        if ran.status or ran.err:
            return said(ran, "claimdump")
        node = f'ph{network.sizes["pharmacies"]}'
        with open(f"{folder}/{node}.log", "rb") as file:
            return "ok" if file.read() == head_of(node, network.octets()) else "another log"


def tell(word: str, argument: bytes) -> str:
    """What a row comes to."""
    text = argument.decode("latin-1")
    if word == "claimgrow":
        old, _, new = text.partition("=>")
        return grown(Network(old.strip()), Network(new.strip()))
    if word == "claimnode":
        node, _, rest = text.partition(" ")
        return started(Network(rest), node)
    network = Network(text)
    if word == "claimswitch":
        return said(run("claimswitch", "replay", given=network.octets() + b"---\n", env=EXPLAINED), "claimswitch")
    if word == "claimpicture":
        return said(run("claimpicture", given=network.octets() + b"---\n"), "claimpicture")
    return {"claimaudit": audited, "claimdump": dumped}[word](network)


def groups(path: str, name: str, kind: type[Case]) -> list[Group]:
    """Each row by itself."""
    return rows_apart(name, read_rows(path), tell, kind)
