"""Settings of a world: documents line by line, and pieces of them in place of others, as claimswitch takes or refuses them."""
from suite.case import Case, Group, rows_in_order
from suite.printed import printed
from suite.programs import run
from suite.rows import read_rows

PROGRAMS = ("claimswitch",)
ASKED_TO_EXPLAIN = {"CLAIMSWITCH_EXPLAIN": "1"}
# A request goes over a switch to its payer, and the answer back.
THERE_AND_BACK = "".join(f"deliver {packet}\n" for packet in range(1, 5))


def replayed(settings: bytes, schedule: str) -> tuple[list[str], list[str]]:
    """What claimswitch writes of a replay, and what it complains of, without its own name."""
    ran = run("claimswitch", "replay", given=settings + b"\n---\n" + schedule.encode(), env=ASKED_TO_EXPLAIN)
    complaints = [line.removeprefix("claimswitch: ") for line in ran.err.decode("latin-1").splitlines()]
    return ran.out.decode("latin-1").splitlines(), complaints


class Documents:
    """A document line by line, and the text that was read last."""

    def __init__(self):
        self.document, self.text = b"", b""

    def read(self, text: bytes) -> str:
        self.text = text
        _, complaints = replayed(text, "")
        return "refused Settings" if complaints[:1] == ["settings refused"] else " ".join(complaints) or "ok"

    def why(self) -> str:
        _, complaints = replayed(self.text, "")
        return complaints[1] if len(complaints) > 1 else "nothing"

    def asks(self, request: bytes) -> str:
        """What comes of a request of pharmacy 1: the lines of its entry and of the payer's row."""
        lines, complaints = replayed(self.text, f"submit ph1 {printed(request)}\n{THERE_AND_BACK}")
        told = [line for line in lines if line.startswith(("1 B", "1.1 B")) or line.startswith("1 refused")]
        return " / ".join(complaints or told)

    def does(self, event: bytes) -> str:
        """What comes of an event."""
        lines, complaints = replayed(self.text, event.decode("latin-1") + "\n")
        return " / ".join(complaints or lines[:1])

    def tell(self, word: str, argument: bytes) -> str:
        """What a row comes to."""
        if word == "document":
            self.document = b""
        elif word == "line":
            self.document += argument + b"\n"
        elif word == "read":
            return self.read(self.document)
        elif word == "replace":
            old, new = (argument + b" ").split(b" => ") if argument.endswith(b" =>") else argument.split(b" => ")
            return self.read(
                self.document.replace(old, new.removesuffix(b" ") if argument.endswith(b" =>") else new, 1)
            )
        else:
            return {"why": lambda _: self.why(), "asks": self.asks, "does": self.does}[word](argument)
        return "ok"


def groups(path: str, name: str, kind: type[Case]) -> list[Group]:
    return [rows_in_order(name, read_rows(path), Documents().tell, kind)]
