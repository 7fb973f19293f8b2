"""A binary log as a scenario has it."""
from __future__ import annotations

import bisect
import itertools

from orch_tools.client import Coord, number_of


def model_text(at: Coord) -> str:
    """A coordinate as a scenario spells it."""
    return "mysql-bin.%06d:%d" % (at.number, at.position)


def model_coord(text: str) -> Coord:
    """The coordinate that a scenario's text is."""
    file, position = text.split(":")
    return Coord(number_of(file), int(position))


class ModelLog:
    """Transactions of these sizes, and files that end after so many of them. Files are counted from 1."""

    def __init__(self, sizes: list[int], flushes: list[int]) -> None:
        self.sums = [0, *itertools.accumulate(sizes)]
        self.flushes = flushes

    def files(self) -> int:
        """How many files it has."""
        return 1 + len(self.flushes)

    def first(self, file: int) -> int:
        """How many transactions lie before a file."""
        return 0 if file == 1 else self.flushes[file - 2]

    def last(self, file: int) -> int:
        """How many transactions lie before the end of a file."""
        return self.flushes[file - 1] if file <= len(self.flushes) else len(self.sums) - 1

    def place(self, at: Coord) -> int:
        """How many transactions end at or before a coordinate; ValueError if it lies within one."""
        wanted = self.sums[self.first(at.number)] + at.position - 4
        place = bisect.bisect_left(self.sums, wanted, self.first(at.number), self.last(at.number) + 1)
        if place > self.last(at.number) or self.sums[place] != wanted:
            raise ValueError("no place: %s" % at)
        return place

    def coord(self, file: int, place: int) -> Coord:
        """A coordinate of this place, in this file if it can be."""
        file = min(max(file, 1), self.files())
        while file < self.files() and self.last(file) < place:
            file += 1
        while file > 1 and self.first(file) > place:
            file -= 1
        return Coord(file, 4 + self.sums[place] - self.sums[self.first(file)])

    def end(self) -> Coord:
        """The end of the log."""
        return self.coord(self.files(), len(self.sums) - 1)
