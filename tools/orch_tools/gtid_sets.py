"""Sets of GTIDs: of each UUID (with its tag, if it has one) rising intervals that don't touch."""
from __future__ import annotations

from collections.abc import Iterable, Iterator

Interval = tuple[int, int]


def joined(parts: Iterable[Interval]) -> list[Interval]:
    """The same numbers as rising intervals that don't touch."""
    out: list[Interval] = []
    for first, last in sorted(parts):
        if out and first <= out[-1][1] + 1:
            out[-1] = (out[-1][0], max(last, out[-1][1]))
        else:
            out.append((first, last))
    return out


def without(parts: list[Interval], other: list[Interval]) -> list[Interval]:
    """The numbers of one list of intervals that another one hasn't."""
    left: list[Interval] = []
    for first, last in parts:
        for begin, end in other:
            if end < first or begin > last:
                continue
            if begin > first:
                left.append((first, begin - 1))
            first = end + 1
        if first <= last:
            left.append((first, last))
    return left


class GtidSet:
    """A set of GTIDs. `|`, `-` and `&` are those of sets; it is true if it isn't empty."""

    def __init__(self, parts: dict[str, list[Interval]] | None = None) -> None:
        self.parts = {key: intervals for key, intervals in (parts or {}).items() if intervals}

    @staticmethod
    def read(text: str) -> GtidSet:
        """The set that a server's text is; newlines, as the client writes them, are passed over."""
        found: dict[str, list[Interval]] = {}
        for part in text.replace("\\n", "").replace("\n", "").split(","):
            words = part.strip().split(":")
            uuid = key = words[0].lower()
            for word in words[1:]:
                if not word[:1].isdigit():
                    key = uuid + ":" + word
                    continue
                first, _, last = word.partition("-")
                found.setdefault(key, []).append((int(first), int(last or first)))
        return GtidSet({key: joined(parts) for key, parts in found.items()})

    def __bool__(self) -> bool:
        return bool(self.parts)

    def __iter__(self) -> Iterator[str]:
        return iter(self.parts)

    def __eq__(self, other: object) -> bool:
        return isinstance(other, GtidSet) and self.parts == other.parts

    def __or__(self, other: GtidSet) -> GtidSet:
        return GtidSet({key: joined(self.parts.get(key, []) + other.parts.get(key, [])) for key in {**self.parts, **other.parts}})

    def __sub__(self, other: GtidSet) -> GtidSet:
        return GtidSet({key: without(parts, other.parts.get(key, [])) for key, parts in self.parts.items()})

    def __and__(self, other: GtidSet) -> GtidSet:
        return self - (self - other)

    def __str__(self) -> str:
        return ",".join(key + "".join(":%d" % first if first == last else ":%d-%d" % (first, last) for first, last in parts)
                        for key, parts in sorted(self.parts.items()))

    @property
    def size(self) -> int:
        """How many transactions it has."""
        return sum(last - first + 1 for parts in self.parts.values() for first, last in parts)

    def only(self, key: str) -> GtidSet:
        """Its transactions of one UUID (with one tag)."""
        return GtidSet({key: self.parts.get(key, [])})

    def of_server(self, uuid: str | None) -> GtidSet:
        """Its transactions that were first executed by the server of this UUID, whatever their tags."""
        return GtidSet({key: parts for key, parts in self.parts.items() if uuid and key.split(":")[0] == uuid.lower()})

    def head(self, many: int) -> GtidSet:
        """So many of its transactions, the first ones by UUID and number."""
        found: dict[str, list[Interval]] = {}
        for key in sorted(self.parts):
            for first, last in self.parts[key]:
                take = min(many, last - first + 1)
                if take > 0:
                    found.setdefault(key, []).append((first, first + take - 1))
                many -= max(take, 0)
        return GtidSet(found)

    def holds(self, gtid: str | None) -> bool:
        """Whether it has the transaction UUID:N or UUID:TAG:N."""
        key, _, number = (gtid or "").rpartition(":")
        return bool(number) and any(first <= int(number) <= last for first, last in self.parts.get(key.lower(), []))


EMPTY = GtidSet()


def union(sets: Iterable[GtidSet]) -> GtidSet:
    """All that one of these sets has."""
    found = EMPTY
    for one in sets:
        found = found | one
    return found
