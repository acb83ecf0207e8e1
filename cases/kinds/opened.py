"""How a node opens from the bytes of its log: what a start says, that a file which is refused stays as it was, and what is kept beside it."""
import os
import struct

from suite.case import Case, Group, rows_apart
from suite.logs import CAP, DROP, STOP, TERMS, TICK, Call, Log, Sent, head_of, head_of_file, text, write_log
from suite.nodes import room
from suite.programs import run
from suite.rows import read_rows

PROGRAMS = ("claimnode",)
SETTINGS = (
    b'again = 1\ntries = 1\n[[pharmacy]]\nqualifier = "01"\nprovider = "1234567893"\nnodes = [1]\ncap = 100\n'
    b"[[switch]]\ncap = 64\n[[payer]]\nfee = 150\ncopay = 1000\ncap = 1000\n[payer.prices]\n00093721410 = 18567\n"
    b'[[route]]\nbin = "610455"\npayer = 1\n'
)
HEAD = head_of("ph1", SETTINGS)
# The head of each version of a log.
HEADS = {"first": head_of_file("ph1", SETTINGS), "second": HEAD}
# A tick of a pharmacy that has no entry sends nothing; its record, which earlier versions made, has 33 bytes.
QUIET = Call(TICK, b"", ())
STOPPED = Call(STOP, b"", ())
TICKS = 3
MOST_SETTINGS = 1 << 24
RECORD = 33


def start(octets: bytes, settings: bytes = SETTINGS, *words: str, node: str = "ph1") -> str:
    """What a start of pharmacy 1, or of another node, from these bytes says, and how many bytes the file has behind it."""
    with room() as folder:
        paths = f"{folder}/settings.toml", f"{folder}/{node}.log"
        for path, given in zip(paths, (settings, octets)):
            with open(path, "wb") as file:
                file.write(given)
        ran = run("claimnode", paths[0], node, paths[1], *words, given=b"")
        with open(paths[1], "rb") as file:
            left = file.read()
    if ran.status == 0:
        return f"{ran.out.decode().strip()} kept={len(left)}"
    said = ran.err.decode().strip().removeprefix("claimnode: ")
    return said if left == octets and not ran.out else f"{said} kept={len(left)} said={ran.out!r}"


def edited(text: str) -> bytes:
    """The settings with one text, which stands there once, in another's place; as they are where there is none."""
    old, _, new = text.replace("; ", "\n").partition(" => ")
    if text and SETTINGS.decode().count(old) != 1:
        raise ValueError(f"no edit of the settings: {text}")
    return SETTINGS.decode().replace(old, new).encode() if text else SETTINGS


def went_on(head: bytes, settings: bytes) -> str:
    """What pharmacy 1 says under settings that starts from a log of this head, ticks and stops, where its log then has the stop and no tick more."""
    before, after = (write_log(Log(head, (QUIET,) * TICKS + more)) for more in ((), (STOPPED,)))
    with room() as folder:
        paths = f"{folder}/settings.toml", f"{folder}/ph1.log"
        for path, given in zip(paths, (settings, before)):
            with open(path, "wb") as file:
                file.write(given)
        ran = run("claimnode", paths[0], "ph1", paths[1], given=b"tick\nstop\n")
        with open(paths[1], "rb") as file:
            left = file.read()
    if left != (before if ran.status else after):
        return "another log"
    return ran.err.decode().strip().removeprefix("claimnode: ") if ran.status else " ".join(ran.out.decode().split())


def log_of(node: str, *calls: Call) -> bytes:
    """The log of a node that has these calls."""
    return write_log(Log(head_of(node, SETTINGS), calls))


def terms(fee: int, copay: int) -> Call:
    """The call to have another fee and another copay."""
    return Call(TERMS, struct.pack(">II", fee, copay), ())


def capped(entries: int) -> Call:
    """The call to have another cap."""
    return Call(CAP, struct.pack(">I", entries), ())


def kept(node: str, lines: bytes, *calls: Call) -> str:
    """What a node says to lines, where its log then has these calls alone, and behind it at a start from there."""
    with room() as folder:
        paths = f"{folder}/settings.toml", f"{folder}/{node}.log"
        with open(paths[0], "wb") as file:
            file.write(SETTINGS)
        ran = run("claimnode", paths[0], node, paths[1], given=lines)
        with open(paths[1], "rb") as file:
            left = file.read()
        again = run("claimnode", paths[0], node, paths[1], given=b"")
    return " ".join((ran.out + again.out).decode().split()) if left == log_of(node, *calls) else "another log"


def beside(octets: bytes, starts: int) -> str:
    """What stands beside a log whose end is torn off again before each of so many starts: the files' endings, and how much of the end each has."""
    with room() as folder:
        settings, log = f"{folder}/settings.toml", f"{folder}/ph1.log"
        with open(settings, "wb") as file:
            file.write(SETTINGS)
        for _ in range(starts):
            with open(log, "wb") as file:
                file.write(octets)
            run("claimnode", settings, "ph1", log, given=b"")
        told = []
        for name in sorted(os.listdir(folder)):
            if name.startswith("ph1.log."):
                with open(f"{folder}/{name}", "rb") as file:
                    kept = file.read()
                told.append(f"{name[7:]}={len(kept)}" if octets.endswith(kept) else f"{name[7:]} has other bytes")
        return " ".join(told) or "nothing"


def turned(octets: bytes, place: int) -> bytes:
    """These bytes with one bit of the byte at a place turned."""
    changed = bytearray(octets)
    changed[place] ^= 1
    return bytes(changed)


def repair(octets: bytes, *words: str) -> str:
    """What `--repair` tells of a log: its lines, behind ` ! ` why it is not well, and what became of the file where it changed."""
    with room() as folder:
        settings, log = f"{folder}/settings.toml", f"{folder}/ph1.log"
        for path, given in ((settings, SETTINGS), (log, octets)):
            with open(path, "wb") as file:
                file.write(given)
        ran = run("claimnode", "--repair", *words, settings, "ph1", log, given=b"")
        with open(log, "rb") as file:
            left = file.read()
        told = " | ".join(ran.out.decode().splitlines())
        if ran.status:
            told += " ! " * bool(told) + ran.err.decode().strip().removeprefix("claimnode: ")
        if left == octets:
            return told
        kept = [
            f'{name[7:]}={os.path.getsize(f"{folder}/{name}")}'
            for name in sorted(os.listdir(folder))
            if name.startswith("ph1.log.")
        ]
        return " ".join([told, f"kept={len(left)}" if octets.startswith(left) else "changed", *kept])


def ticks(*calls: Call) -> bytes:
    return write_log(Log(HEAD, calls))


def under_other_head(version: str) -> bytes:
    """The head of a version, and behind it the three ticks with the check sums of the other one."""
    other = next(it for it in HEADS if it != version)
    return HEADS[version] + write_log(Log(HEADS[other], (QUIET,) * TICKS))[len(HEAD) :]


def with_length(place: int, size: int) -> bytes:
    """The three ticks, where the record at a place says that it is so long."""
    octets, sizes = bytearray(ticks(*[QUIET] * TICKS)), struct.pack(">Q", size)
    octets[place : place + 16] = sizes + bytes(it ^ 255 for it in sizes)
    return bytes(octets)


def tell(word: str, argument: bytes) -> str:
    """What a row comes to."""
    whole = ticks(*[QUIET] * TICKS)
    if word == "repair-cut":
        place, typed = argument.decode().split(" ")
        return repair(turned(whole, int(place)), "--cut-at", typed)
    if word in HEADS:
        return went_on(HEADS[word], edited(argument.decode()))
    if word == "sums-of-other":
        return start(under_other_head(argument.decode()))
    if word == "payer-kept":
        return kept("pr1", b"terms %b\n" % argument, terms(*map(int, argument.split())))
    if word == "payer-terms":
        return start(log_of("pr1", terms(*map(int, argument.split()))), node="pr1")
    if word == "payer-call":
        return start(log_of("pr1", Call(argument[0], argument[1:], ())), node="pr1")
    if word == "switch-kept":
        return kept("sw1", b"stop\ncap %b\n" % argument, STOPPED, capped(int(argument)))
    if word == "switch-call":
        return start(log_of("sw1", STOPPED, Call(argument[0], argument[1:], ())), node="sw1")
    if word == "switch-up":
        return start(log_of("sw1", Call(argument[0], argument[1:], ())), node="sw1")
    if word == "words":
        return str(run("claimnode", *argument.decode().split(" "), "/dev/null", "ph1", "/dev/null", given=b"").status)
    count = int(argument or b"0")
    if word == "repair":
        return repair(turned(whole, count))
    if word == "repair-of-first":
        return repair(turned(write_log(Log(HEADS["first"], (QUIET,) * TICKS)), count))
    if word == "repair-first":
        return repair(whole[:count])
    if word == "turned":
        return start(turned(whole, count))
    if word == "cut":
        return start(whole[:count])
    if word == "zeros-behind":
        return start(whole + bytes(count))
    if word == "zeros-from":
        return start(whole[:count] + bytes(len(whole) - count))
    if word == "length":
        return start(with_length(len(HEAD) + RECORD, count))
    if word == "sends":
        made = QUIET._replace(sent=(Sent("sw1", b"made up"),))
        return start(ticks(*[made if at == count else QUIET for at in range(1, TICKS + 1)]))
    if word == "plan":
        other = Call(DROP, text(b"00093721410"), ())
        return start(ticks(*[other if at == count else QUIET for at in range(1, TICKS + 1)]))
    if word == "at-least":
        return start(whole, SETTINGS, "--at-least", str(count))
    if word == "terms":
        return start(ticks(*[terms(300, 500) if at == count else QUIET for at in range(1, TICKS + 1)]))
    if word == "beside":
        return beside(whole[:count], 1)
    if word == "beside-twice":
        return beside(whole[:count], 2)
    if word == "long-settings":
        return start(whole, b"#" * (MOST_SETTINGS + count)).split("/")[-1]
    if word == "again":
        return start(whole, SETTINGS.replace(b"again = 1", b"again = %d" % count))
    if word == "of-switch":
        return start(head_of("sw1", SETTINGS))
    if word == "of-other-settings":
        return start(head_of("ph1", edited("fee = 150 => fee = 151")))
    raise ValueError(f"no such word: {word}")


def groups(path: str, name: str, kind: type[Case]) -> list[Group]:
    """Each row by itself."""
    return rows_apart(name, read_rows(path), tell, kind)
