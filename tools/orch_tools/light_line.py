"""What all histories of a cluster are beginnings of."""
from __future__ import annotations

import bisect

# The most bytes that a scenario's transaction may have.
CHUNK = 1000000


def pieces(gap: int) -> int:
    """As few transactions as so many bytes may have."""
    return -(-gap // CHUNK)


class Line:
    """Transactions of these sizes and origins, and the byte at which each ends, from a first byte on. Bytes are those of the root's log, 0 at the start
    of the first file that some server reports."""

    def __init__(self, start: int) -> None:
        self.ends: list[int] = [start]
        self.sizes: list[int] = []
        self.origins: list[str | None] = []

    def put(self, upto: int, many: int | None = None, origin: str | None = None) -> None:
        """Transactions up to this byte: so many (of at least a byte each, and at least as many as there must be), or as few as may be."""
        gap = upto - self.ends[-1]
        many = pieces(gap) if many is None else max(many, pieces(gap))
        if many <= 0:
            return
        each, rest = divmod(max(gap, many), many)
        for number in range(many):
            size = each + (1 if number < rest else 0)
            self.sizes.append(size)
            self.origins.append(origin)
            self.ends.append(self.ends[-1] + size)

    def place(self, byte: int) -> int:
        """How many transactions end at or before a byte."""
        return max(0, bisect.bisect_right(self.ends, byte) - 1)

    def nearest(self, byte: int) -> int:
        """The place whose byte is nearest."""
        low = self.place(byte)
        if low + 1 < len(self.ends) and self.ends[low + 1] - byte < byte - self.ends[low]:
            return low + 1
        return low


class Places:
    """Which place of the line each number of transactions has. It is the same number, except if several transactions became one, or one several."""

    def __init__(self) -> None:
        self.counts: list[int] = []
        self.places: list[int] = []

    def put(self, count: int, place: int) -> None:
        """So many transactions end at this place; counts rise."""
        self.counts.append(count)
        self.places.append(place)

    def place(self, count: int) -> int:
        """The place of so many transactions."""
        at = bisect.bisect_right(self.counts, count) - 1
        if at < 0:
            return self.places[0]
        if self.counts[at] == count or at + 1 == len(self.counts):
            return self.places[at]
        low, high = self.counts[at], self.counts[at + 1]
        return self.places[at] + (count - low) * (self.places[at + 1] - self.places[at]) // (high - low)
