"""The map beside a scenario of the light import: what its transactions and coordinates are on the servers."""
from __future__ import annotations

import bisect
import dataclasses
import json
import os
from typing import Any

from orch_tools.gtid_sets import EMPTY, GtidSet
from orch_tools.notes import beside


@dataclasses.dataclass(frozen=True)
class Part:
    """Some transactions of a scenario as they are on the servers: so many bytes of the root's log or, if there are sets, these GTIDs. `exact` is False
    where the
    bounds lie within one row of the map."""
    bytes: int
    gtids: GtidSet
    exact: bool

    def __str__(self) -> str:
        about = "" if self.exact else "about "
        if self.gtids:
            return "%s%s transaction%s (%s)" % (about, self.gtids.size, "" if self.gtids.size == 1 else "s", self.gtids)
        return "%s%s bytes of the binary log" % (about, "{:,}".format(self.bytes))


class LightMap:
    """`clusters` has of each root the byte before its first transaction and rows of place, byte and GTIDs; `coordinates` the servers' own coordinates."""

    def __init__(self, told: dict[str, Any]) -> None:
        self.clusters: dict[str, Any] = told["clusters"]
        self.coordinates: dict[tuple[str, str], str] = {(row[0], row[1]): row[2] for row in told["coordinates"]}

    @staticmethod
    def read(path: str) -> LightMap | None:
        """The map of a file; None if it is no map of a light import."""
        with open(path, encoding="utf-8") as file:
            told = json.load(file)
        return LightMap(told) if isinstance(told, dict) and told.get("way") == "light" else None

    @staticmethod
    def beside(scenario: str) -> LightMap | None:
        """The map beside a scenario, None if there is none."""
        path = beside(scenario, "map")
        return LightMap.read(path) if os.path.exists(path) else None

    def real(self, server: str, coordinate: str) -> str | None:
        """The server's own coordinate for one of the scenario, if some server is there."""
        return self.coordinates.get((server, coordinate))

    def between(self, cluster: str, low: int, high: int) -> Part | None:
        """What the transactions from number low + 1 to number high of a cluster's history are; None if the map hasn't the cluster."""
        told = self.clusters.get(cluster)
        if told is None or not told["rows"]:
            return None
        places = [0, *(row[0] for row in told["rows"])]
        ends = [told["start"], *(row[1] for row in told["rows"])]
        gtids, exact = EMPTY, low in places and high in places
        for before, (place, _, text) in zip(places, told["rows"]):
            first, last = max(low, before), min(high, place)
            if first < last:
                some = GtidSet.read(text)
                head = some.head(some.size * (last - before) // (place - before))
                gtids = gtids | (head - some.head(some.size * (first - before) // (place - before)))
        return Part(at_place(places, ends, high) - at_place(places, ends, low), gtids, exact)


def at_place(places: list[int], ends: list[int], place: int) -> int:
    """The byte at which a place lies: between two known ones by its share."""
    at = min(max(bisect.bisect_right(places, place) - 1, 0), len(places) - 1)
    if places[at] == place or at + 1 == len(places):
        return ends[at]
    return ends[at] + (place - places[at]) * (ends[at + 1] - ends[at]) // (places[at + 1] - places[at])
