"""How much memory processes take while a network is soaked in faults, for tests/soak-all."""

import collections
import contextlib
import sys
import time

sys.dont_write_bytecode = True
from front_calls import helpers_of  # noqa: E402
from network import expect, memory_of  # noqa: E402

# Looked at so often; a life is long that has so many looks behind its first quarter.
EVERY_SECONDS, LEAST_LOOKS = 5, 60
# By how much memory may grow behind the first quarter of a life, in hundredths, and besides for each byte that a log has grown by: an entry of 580
# bytes takes 640, a row of 367 takes 690.
MOST_GROWTH, BYTES_A_BYTE = 4, 2
# Too small to be told from what the machine does; and what SQLite keeps of a file in memory at most, which fills as the file grows.
LEAST_KIB, CACHE_KIB = 1024, 2000


def fitted(points):
    """By how much a line that is fitted to points rises from the first of them to the last, and where it begins."""
    count = len(points)
    mean_x, mean_y = sum(x for x, _ in points) / count, sum(y for _, y in points) / count
    over = sum((x - mean_x) ** 2 for x, _ in points)
    slope = sum((x - mean_x) * (y - mean_y) for x, y in points) / over if over else 0.0
    return slope * (points[-1][0] - points[0][0]), mean_y + slope * (points[0][0] - mean_x)


class Memory:
    """What each process had, at each look."""

    def __init__(self, world, fronts):
        self._world, self._fronts = world, fronts
        # Of each name and process: when, how much memory in KiB, and how large its log was.
        self.looks = collections.defaultdict(list)

    def _processes(self):
        """The processes that live, by name, with the log of each."""
        found = [(it.id, it.process.pid, it.log) for it in self._world.hosts if it.is_ready()]
        for name, front in self._fronts.items():
            found.append((f"front of {name}", front.process.pid, None))
            for pid, words in helpers_of(front.process.pid).items():
                found.append((f"{next((it for it in words if it.endswith('.py')), 'helper')} of {name}", pid, None))
        for place, process in self._world.servers.processes.items():
            found.append((f"server {place + 1}", process.pid, None))
        return found

    def watch(self):
        while not self._world.calm.wait(EVERY_SECONDS):
            # Who ends meanwhile is not looked at.
            with contextlib.suppress(OSError, AttributeError):
                for name, pid, log in self._processes():
                    size = log.stat().st_size if log is not None and log.exists() else 0
                    self.looks[name, pid].append((time.monotonic(), memory_of(pid)[1], size))

    def judge(self):
        """What the longest life of each name has grown by; what is no server may not grow but by its rows."""
        told, faults, longest = [], [], {}
        for (name, _), looks in self.looks.items():
            if len(looks) > len(longest.get(name, ())):
                longest[name] = looks
        for name, looks in sorted(longest.items()):
            looks = looks[len(looks) // 4 :]
            if len(looks) < LEAST_LOOKS:
                continue
            grown, first = fitted([(at, memory) for at, memory, _ in looks])
            rows = BYTES_A_BYTE * fitted([(at, size) for at, _, size in looks])[0] / 1024
            hundredths = 100 * grown / first
            minutes = (looks[-1][0] - looks[0][0]) / 60
            told.append(f"{name} {first / 1024:.1f} MB {hundredths:+.1f}% in {minutes:.0f} min")
            more = max(0.0, grown - max(0.0, rows))
            least = LEAST_KIB + (CACHE_KIB if ".py " in name else 0)
            if not name.startswith("server") and more >= max(least, first * MOST_GROWTH / 100):
                faults.append(f"{name} has grown by {grown:.0f} KiB from {first:.0f}, its rows want {rows:.0f}")
        expect(not faults, f"{'; '.join(faults)}; of {', '.join(told)}")
        return f"memory: {', '.join(told) if told else 'nobody lived long enough'}"
