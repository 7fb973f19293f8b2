"""The GTID sets of a tree as numbers: how many transactions each server has after those that all have."""
from __future__ import annotations

import dataclasses
from collections.abc import Callable, Iterable, Iterator

from orch_tools.gtid_sets import EMPTY, GtidSet, union
from orch_tools.light_reading import Status


@dataclasses.dataclass(frozen=True)
class Run:
    """Transactions after the base, from number `low` to number `high`, of one UUID (with its tag); of none if the sets don't say."""
    low: int
    high: int
    key: str | None
    gtids: GtidSet

    def split(self, numbers: Iterable[int]) -> Iterator[Run]:
        """The same in parts that end at these numbers."""
        low, left = self.low, self.gtids
        for number in [*numbers, self.high]:
            if low < number <= self.high:
                head = left.head(number - low)
                yield Run(low, number, self.key, head)
                low, left = number, left - head


class Chain:
    """Sets of which each holds the one before it. `base` is what all have, `whole` what the root has (of a dead one: what its replicas report), `errant` of
    each
    server what neither its source nor the whole has. A number counts transactions after the base."""

    def __init__(self, servers: dict[str, Status], members: list[Status], kins: list[Status]) -> None:
        root, alive = members[0], [server for server in members if server.up]
        orphans = [server for server in alive if server.source and not servers[server.source].up]
        self.whole = root.executed if root.up else self.of_dead(orphans)
        self.errant: dict[str, GtidSet] = {}
        for server in alive:
            above = servers[server.source] if server.source else None
            own = EMPTY if above is None else server.executed - (above.executed if above.up else self.whole)
            if own:
                self.errant[server.name] = own
        self.base = self.whole
        for server in [*alive, *kins]:
            self.base = self.base & server.executed
        self.steps: list[tuple[int, GtidSet]] = []
        self.holes = any(self.has_gap(server.executed & self.whole) for server in alive)
        self.make_steps(list(self.spoken(members, alive, kins)))

    @staticmethod
    def of_dead(orphans: list[Status]) -> GtidSet:
        """What the replicas of a dead root have executed or received, without what one of several wrote itself and no other has."""
        whole = union(server.executed | server.retrieved for server in orphans)
        for server in orphans if len(orphans) > 1 else []:
            whole = whole - (server.executed.of_server(server.uuid) - union(one.executed | one.retrieved for one in orphans if one is not server))
        return whole

    def spoken(self, members: list[Status], alive: list[Status], kins: list[Status]) -> Iterator[GtidSet]:
        """The sets that some server reports, within the whole."""
        for server in [*alive, *kins]:
            yield server.executed & self.whole
            yield (server.executed | server.retrieved) & self.whole
            purged = server.purged & self.whole
            if purged - self.base:
                yield purged | self.base
        for dead in members:
            if not dead.up:
                yield union(r.executed | r.retrieved for r in alive if r.source == dead.name) & self.whole
        yield self.whole

    def make_steps(self, sets: list[GtidSet]) -> None:
        """The numbers at which sets end, each with what lies between it and the one before. There are holes if a set doesn't contain a smaller one."""
        before, last = self.base, 0
        for got in sorted(sets, key=lambda one: one.size):
            number, more = self.number(got), got - before
            if number > last:
                self.holes = self.holes or bool(before - got)
                self.steps.append((number, more))
                before, last = before | got, number
            else:
                self.holes = self.holes or bool(more)

    def has_gap(self, got: GtidSet) -> bool:
        """Whether a set has a later transaction of a UUID without one of the whole before it."""
        return any(key in got.parts and parts[0][0] < got.parts[key][-1][1] for key, parts in (self.whole - got).parts.items())

    def number(self, got: GtidSet) -> int:
        """How many transactions of the whole a set has after the base."""
        return (got & self.whole).size - self.base.size

    def runs(self, is_last: Callable[[str], bool]) -> Iterator[Run]:
        """All after the base, by UUIDs. Between two sets the UUIDs for which `is_last` holds come last."""
        low = 0
        for number, more in self.steps:
            for key in sorted(more, key=lambda one: (is_last(one), one)):
                gtids = more.only(key).head(number - low)
                if gtids:
                    yield Run(low, low + gtids.size, key, gtids)
                    low += gtids.size
            if low < number:
                yield Run(low, number, None, EMPTY)
            low = number
