"""A long case divided over the processors."""
import multiprocessing
import os
from typing import Any, Callable, Iterable

WORK: list = []


def one(place: int) -> Any:
    """What the function gives of the item of a place."""
    function, items = WORK[-1]
    return function(items[place])


def spread(function: Callable[[Any], Any], items: Iterable[Any]) -> list[Any]:
    """What a function gives of each item, in their order, by processes that begin as copies of this one."""
    items = list(items)
    WORK.append((function, items))
    try:
        with multiprocessing.get_context("fork").Pool(min(os.cpu_count() or 1, len(items))) as pool:
            return pool.map(one, range(len(items)), chunksize=max(1, len(items) // 32))
    finally:
        WORK.pop()
