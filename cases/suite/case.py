"""One case, and groups of cases: what a kind makes of a file, and what the runner runs."""
import difflib
import unittest
from typing import Callable

# A difference of texts of more lines than this is told by its changed lines alone.
SHORT, MOST_TOLD = 12, 40


class Case(unittest.TestCase):
    """A case under its name, FILE or FILE:LINE, and what it says where it does not come out as it tells. `body` compares, by what the
    library `unittest` asserts."""

    longMessage = True
    maxDiff = None

    def __init__(self, name: str, body: Callable[["Case"], None], says: str = ""):
        super().__init__("runTest")
        self.name, self.body, self.says = name, body, says

    def runTest(self) -> None:
        self.body(self)

    def id(self) -> str:
        return self.name

    def compare(self, wanted: str, came: str) -> None:
        """Fails with the difference where what came is another text."""
        if wanted == came:
            return
        lines, others = wanted.split("\n"), came.split("\n")
        if max(len(lines), len(others)) <= SHORT:
            told = [line.rstrip("\n") for line in difflib.ndiff(lines, others)]
        else:
            told = list(difflib.unified_diff(lines, others, "wanted", "came", n=1, lineterm=""))
        more = [f".. and {len(told) - MOST_TOLD} lines more"] if len(told) > MOST_TOLD else []
        self.fail("\n".join(told[:MOST_TOLD] + more))


class Differing(Case):
    """A case that has to come out otherwise than it tells: it fails where it does not."""

    def runTest(self) -> None:
        try:
            self.body(self)
        except self.failureException:
            return
        self.fail("this came out as it tells, which is wrong on purpose")


class Group:
    """Cases that one process runs in order, those of one thing; `end` is called behind them. Groups of more weight are begun first."""

    def __init__(self, cases: list[Case], weight: int = 1, end: Callable[[], None] = lambda: None):
        self.cases, self.weight, self.end = cases, weight, end


def rows_in_order(name: str, rows, tell: Callable[[str, bytes], str], kind: type[Case] = Case, **more) -> Group:
    """The rows of a file as cases, one after another: `tell` gives what the call of a word and an argument came to."""
    return Group([row_case(name, row, tell, kind) for row in rows], **more)


def rows_apart(
    name: str,
    rows,
    tell: Callable[[str, bytes], str],
    kind: type[Case] = Case,
    weight: Callable[[str, bytes], int] = lambda word, argument: 1,
) -> list[Group]:
    """The rows of a file, none of which needs another: each is a group of its own."""
    return [Group([row_case(name, row, tell, kind)], weight(row.word, row.argument)) for row in rows]


def row_case(name: str, row, tell: Callable[[str, bytes], str], kind: type[Case]) -> Case:
    """The case of a row."""
    return kind(f"{name}:{row.line}", lambda case: case.compare(row.outcome, tell(row.word, row.argument)), row.spelled)
