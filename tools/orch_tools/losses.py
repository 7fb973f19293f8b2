"""Which transactions are gone with a dead master, and on which servers each of them still is."""
from __future__ import annotations

import dataclasses
import json
from typing import Any

from orch_tools.clusters import labels
from orch_tools.deaths import Death, dying, sources_above
from orch_tools.layout import Layout, layout_of
from orch_tools.light_map import Part
from orch_tools.near import counted
from orch_tools.program import Program
from orch_tools.scenario import Scenario


@dataclasses.dataclass
class Names:
    """What names transactions of the dead server: the import's map, or its log in the scenario."""
    told: Scenario
    dump: dict[str, Any] | None
    layout: Layout | None
    dead: str

    def part(self, first: int, last: int) -> Part | None:
        """What the map has of the transactions with these numbers."""
        cluster = labels(self.told.data).get(self.dead, self.dead)
        return self.told.map.between(cluster, first - 1, last) if self.told.map else None

    def of(self, first: int, last: int) -> str:
        """The transactions with these numbers: by the map, by GTIDs, or by their numbers in the log."""
        part = self.part(first, last)
        if part:
            return str(part)
        numbers = "number %d" % first if first == last else "numbers %d to %d" % (first, last)
        if not self.dump or not self.layout:
            return "%s of %s" % (numbers, self.dead)
        ends = (self.layout.origin(first), self.layout.origin(last))
        if not self.dump.get("gtid") or ends[0][0] != ends[1][0]:
            return "%s of %s, %s to %s" % (numbers, self.dead, coordinate(self.layout, first - 1), coordinate(self.layout, last))
        uuids = {server["name"]: server["uuid"] for server in self.dump["servers"]}
        interval = "%d" % ends[0][1] if first == last else "%d-%d" % (ends[0][1], ends[1][1])
        return "%s:%s" % (uuids.get(ends[0][0], ends[0][0]), interval)


@dataclasses.dataclass
class Range:
    """Transactions of the dead master with consecutive numbers, and the servers that still have them."""
    first: int
    last: int
    names: str
    holders: list[str]
    received: list[str]

    def line(self, death: Death) -> str:
        """The transactions, and where they are."""
        where = ["on %s" % holder_text(death, name) for name in self.holders]
        where += ["%s had received %s; its relay log is dropped" % (name, "it" if self.first == self.last else "them") for name in self.received]
        return "%s: %s" % (self.names, "; ".join(where) or "on no other server")


@dataclasses.dataclass
class Gone:
    """The transactions of the dead server that the chosen one lacks."""
    death: Death
    ranges: list[Range]
    names: Names
    errant: bool

    def measure(self, low: int, high: int) -> str:
        """How much lies between two counts of transactions: by the import's map, else transactions."""
        part = self.names.part(low + 1, high)
        return str(part) if part else counted(high - low, "transaction")

    def amount(self) -> str:
        """How much is gone."""
        return self.death.gone_text.removesuffix(" gone")

    def lines(self) -> list[str]:
        """The report's lines."""
        death = self.death
        if not death.chosen:
            return [self.without_chosen()]
        if not death.gone:
            return ["none"]
        head = "%s that %s had and %s lacks" % (self.amount(), death.dead, death.chosen)
        more = ["servers with transactions of their own: their counts include those"] if self.errant else []
        return [head, *(found.line(death) for found in self.ranges), *more]

    def without_chosen(self) -> str:
        """What is gone where nobody is promoted."""
        dead = self.death.dead
        if self.death.had_replicas:
            return "what no replica has executed, until %s comes back" % dead
        source = self.death.before[dead].source
        return "none: %s has them" % source if source else "all of its transactions, until %s comes back" % dead

    def as_json(self) -> list[dict[str, Any]]:
        """The ranges as a report has them in JSON."""
        return [{"first": found.first, "last": found.last, "names": found.names, "on": found.holders, "received_by": found.received}
                for found in self.ranges]


def holder_text(death: Death, name: str) -> str:
    """A server that still has a transaction, and its state."""
    server = death.after[name]
    if not server.is_up:
        return "%s (down)" % name
    if server.detached:
        return "%s (detached)" % name
    return name if death.chosen in sources_above(death.after, name) else "%s (not below %s)" % (name, death.chosen)


def dumped(program: Program, data: dict[str, Any]) -> dict[str, Any] | None:
    """The state as a scenario, None where the program refuses to dump it."""
    answer = program.ask(data, "-c", "dump")
    return json.loads(answer.out) if answer.status == 0 else None


def received_by(death: Death, layout: Layout | None, lowest: int) -> dict[str, int]:
    """For each replica of the dead one that had received more than it has executed: how many of its source's transactions these are."""
    found = {}
    for server in death.before.values():
        if layout and server.source == death.dead and server.read and server.at != server.read:
            place = layout.place(server.read)
            if place > max(lowest, death.after[server.name].executed):
                found[server.name] = place
    return found


def coordinate(layout: Layout, place: int) -> str:
    """The coordinate after a transaction."""
    return "mysql-bin.%06d:%d" % layout.ends[place]


def measured(told: Scenario, death: Death) -> Death:
    """The death, with how much is gone by the import's map."""
    most = death.before[death.dead].executed
    part = Names(told, None, None, death.dead).part(most - death.gone + 1, most) if death.gone else None
    death.amount = str(part) if part else ""
    return death


def gone_of(program: Program, told: Scenario, death: Death) -> Gone:
    """The transactions that are gone, with those who have them."""
    if not death.gone:
        return Gone(death, [], Names(told, None, None, death.dead), False)
    dump = dumped(program, dying(told.data, (death.dead,)))
    layout = layout_of(dump, death.dead) if dump else None
    lowest = death.before[death.dead].executed - death.gone
    received = received_by(death, layout, lowest)
    inside, names = cluster_of(death), Names(told, dump, layout, death.dead)
    ranges: list[Range] = []
    edges = {lowest, death.before[death.dead].executed, *(death.after[name].executed for name in inside), *received.values()}
    bounds = sorted(edge for edge in edges if lowest <= edge <= death.before[death.dead].executed)
    for first, last in zip(bounds, bounds[1:]):
        holders = [name for name in inside if death.after[name].executed >= last]
        got = [name for name, place in received.items() if place >= last and name not in holders]
        ranges.append(Range(first + 1, last, names.of(first + 1, last), holders, got))
    return Gone(death, ranges, names, dump is None)


def cluster_of(death: Death) -> list[str]:
    """The servers that got their transactions from the dead one."""
    return [name for name in death.before if name != death.dead and death.dead in sources_or_detached(death, name)]


def sources_or_detached(death: Death, name: str) -> list[str]:
    """The sources above a server before the death, detached ones among them."""
    found: list[str] = []
    server = death.before.get(name)
    while server and server.source and server.source not in found:
        found.append(server.source)
        server = death.before.get(server.source)
    return found
