"""What a host tells people and machines on standard error: one object of JSON a line, with its time; or plain words.

No line has a byte of a message: messages have health data.
"""

import datetime
import json
import sys


class Said:
    """Lines of one node, or of a program."""

    def __init__(self, name: str, for_people: bool = False) -> None:
        self.name, self._for_people = name, for_people

    def __call__(self, what: str, level: str = "info", **facts: object) -> None:
        """Says that something is so; `what` is words for people, and facts are members of the object."""
        if self._for_people:
            more = ", ".join(f"{name} {fact}" for name, fact in facts.items())
            line = f"{self.name}: {what}" + (f": {more}" if more else "")
        else:
            time = (
                datetime.datetime.now(datetime.timezone.utc).isoformat(timespec="milliseconds").replace("+00:00", "Z")
            )
            line = json.dumps({"time": time, "level": level, "node": self.name, "what": what, **facts}, default=str)
        sys.stderr.write(f"{line}\n")
        sys.stderr.flush()
