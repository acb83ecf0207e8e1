"""Tests of a script by unittest: in the order in which they stand there, and each alone by its name, as `tests/front FrontTest.test_events`."""

from __future__ import annotations

import pathlib
import signal
import sys
import unittest

# How much of what programs said is told of a test that failed.
LAST_LINES = 25


class InOrder(unittest.TestLoader):
    """Tests in the order in which they stand in their file: what ends all that they share comes last."""

    def getTestCaseNames(self, testCaseClass: type[unittest.TestCase]) -> list[str]:
        names = super().getTestCaseNames(testCaseClass)
        return sorted(names, key=lambda name: line_of(testCaseClass, name))


def line_of(case: type[unittest.TestCase], name: str) -> int:
    """The line at which a test begins."""
    line: int = getattr(case, name).__code__.co_firstlineno
    return line


class Case(unittest.TestCase):
    """Tests that share programs, which say what they do in a file: its end is told where one fails."""

    said: pathlib.Path

    def run(self, result: unittest.TestResult | None = None) -> unittest.TestResult | None:
        before = failed(result)
        told = super().run(result)
        if failed(result) > before and self.said.exists():
            lines = self.said.read_text(encoding="utf-8", errors="replace").splitlines()
            print(f"{self.id()}: what was said:", *lines[-LAST_LINES:], sep="\n", file=sys.stderr)
        return told


def failed(result: unittest.TestResult | None) -> int:
    """The count of tests that failed so far."""
    return len(result.failures) + len(result.errors) if result is not None else 0


def is_whole() -> bool:
    """Whether all tests run: no word names one."""
    return not [word for word in sys.argv[1:] if "Test" in word]


def main(argv: list[str] | None = None) -> None:
    """Runs the tests of the script, or those that its words name."""
    # A shell that starts this in the background has it ignored, and with it by all that is tried.
    signal.signal(signal.SIGINT, signal.default_int_handler)
    unittest.main(argv=argv or sys.argv, testLoader=InOrder(), verbosity=2, warnings="ignore")
