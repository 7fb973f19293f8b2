"""How a server's transactions are laid out in the files of its binary log (docs/SCENARIO.md)."""
from __future__ import annotations

import bisect
from typing import Any

from orch_tools.answers import position_of


class Layout:
    """The coordinate after each transaction of a log, and who first executed it."""

    def __init__(self, history: list[list[Any]], limit: int, flushes: list[int], count: int) -> None:
        self.runs, self.ends = history, [(1, 4)]
        left, here = list(flushes), (1, 4)
        sizes = (size for _, size, times in history for _ in range(times))
        here = self.flushed(here, left, 0)
        for number, size in zip(range(1, count + 1), sizes):
            here = (here[0], here[1] + size)
            self.ends.append(here)
            here = self.flushed((here[0] + 1, 4) if here[1] >= limit else here, left, number)

    @staticmethod
    def flushed(here: tuple[int, int], left: list[int], number: int) -> tuple[int, int]:
        """The coordinate at which the log goes on after a transaction and the flushes that follow it."""
        while left and left[0] == number:
            left.pop(0)
            here = (here[0] + 1, 4)
        return here

    def place(self, coordinate: str) -> int:
        """How many transactions end at or before a coordinate."""
        return bisect.bisect_right(self.ends, position_of(coordinate)) - 1

    def origin(self, place: int) -> tuple[str, int]:
        """Who first executed the transaction with this number, and its number among that server's own."""
        numbers: dict[str, int] = {}
        passed = 0
        for origin, _, times in self.runs:
            here = min(times, place - passed)
            numbers[origin] = numbers.get(origin, 0) + here
            passed += here
            if passed == place:
                return origin, numbers[origin]
        return "", place


def layout_of(dumped: dict[str, Any], name: str) -> Layout | None:
    """The layout of a server's log, from a dumped scenario. None for a server that writes none."""
    servers = {server["name"]: server for server in dumped["servers"]}
    server = root = servers[name]
    seen = set()
    while "source" in root and root["name"] not in seen:
        seen.add(root["name"])
        root = servers[root["source"]]
    history = root.get("history", [])
    count = server.get("executed", sum(times for _, _, times in history))
    return Layout(history, server["limit"], server.get("flushes", []), count) if server.get("logs", True) else None
