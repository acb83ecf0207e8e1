"""The settings as the front has read them, and whether their file says something else by now."""

from __future__ import annotations

import contextlib
import io
import os
import pathlib
import tomllib

from settings import Settings


class SettingsRefused(Exception):
    """A file of settings that is none, and why."""


class Settled:
    """The settings that the front goes by."""

    def __init__(self, name: str) -> None:
        self.name = name
        self.settings = Settings.read(name)
        self.text = b""
        self._stamp: tuple[int, int, int] | None = None
        self.providers: dict[str, tuple[str, str]] = {}
        self._read()

    def is_changed(self) -> bool:
        """Whether the file says something else than was read, or is gone."""
        if self._stamp_now() == self._stamp:
            return False
        try:
            now = pathlib.Path(self.name).read_bytes()
        except OSError:
            return True
        if now == self.text:
            self._stamp = self._stamp_now()
        return now != self.text

    def read_again(self) -> None:
        """Goes by what the file says now; SettingsRefused where it is none, and then by what was read before."""
        said = io.StringIO()
        try:
            with contextlib.redirect_stderr(said):
                self._read()
        except SystemExit:
            raise SettingsRefused(said.getvalue().strip()) from None
        except (OSError, ValueError, KeyError, TypeError) as fault:
            raise SettingsRefused(type(fault).__name__) from None

    def _read(self) -> None:
        stamp, text = self._stamp_now(), pathlib.Path(self.name).read_bytes()
        settings = Settings.read(self.name)
        rows = tomllib.loads(text.decode())["pharmacy"]
        providers = {f"ph{place}": (row["qualifier"], row["provider"]) for place, row in enumerate(rows, 1)}
        self.text, self.settings, self._stamp = text, settings, stamp
        # Who makes messages of fields has this very table.
        self.providers.clear()
        self.providers.update(providers)

    def _stamp_now(self) -> tuple[int, int, int] | None:
        try:
            told = os.stat(self.name)
        except OSError:
            return None
        return told.st_mtime_ns, told.st_size, told.st_ino
