"""A root and all below it as a scenario has them: one line of transactions, of which each server has executed a prefix."""
from __future__ import annotations

import itertools
from collections.abc import Iterable, Iterator

from orch_tools.client import NOWHERE, Coord
from orch_tools.gtid_sets import GtidSet, union
from orch_tools.light_bytes import GUESSED, Bytes
from orch_tools.light_line import CHUNK, Line, Places, pieces
from orch_tools.light_reading import Status
from orch_tools.light_sets import Chain, Run
from orch_tools.model_log import ModelLog, model_text
from orch_tools.notes import Notes

Mark = tuple[int, int]


class Tree:
    """`members` are the root and all below it, each after its source. `kins` are other roots, alone, whose sets this one's history has in part."""

    def __init__(self, servers: dict[str, Status], root: Status, lower: dict[str, list[Status]], gtid: bool) -> None:
        self.servers, self.root, self.lower, self.gtid, self.notes = servers, root, lower, gtid, Notes()
        self.members = list(self.below(root))
        self.kins: list[Status] = []
        self.layouts: dict[str, ModelLog] = {}
        self.flushed: dict[str, list[int]] = {}
        # What the line's transactions are: the place and the byte at which some of them end, and their GTIDs.
        self.rows: list[tuple[int, int, str]] = []
        self.base_count = 0

    def below(self, server: Status) -> Iterator[Status]:
        """A server and all below it, each after its source."""
        yield server
        for replica in self.lower.get(server.name, []):
            yield from self.below(replica)

    def replicas(self, server: Status) -> list[Status]:
        """The servers that are directly below one."""
        return self.lower.get(server.name, [])

    # ---- the line

    def build(self, most: int) -> None:
        """Lays the line, of at most so many transactions after those that all have executed."""
        self.chain = Chain(self.servers, self.members, self.kins) if self.gtid else None
        known = [at for at, _ in self.known()] if self.chain else None
        self.bytes = Bytes(self.servers, self.members, self.lower, known, self.unseen())
        starts = [0, *self.bytes.file_starts()]
        lowest = min(starts) if self.bytes.first > 1 else 0
        self.line = Line(min(0, lowest))
        self.places = Places()
        if self.chain:
            self.build_by_sets(self.chain, sorted({byte for byte in starts if byte <= 0}), most)
            if self.chain.holes:
                self.notes.add("gaps", "the GTID sets of its servers don't contain one another (parallel appliers, or gaps); positions go by counts",
                               self.root.name)
        else:
            self.build_by_bytes(starts)
        self.origins = [origin or self.root.name for origin in self.line.origins]

    def known(self) -> list[tuple[Coord, int]]:
        """Coordinates of the root's log with the number of transactions before them, by the sets."""
        root, found = self.root, []
        for r in self.replicas(root) if self.chain else []:
            if self.chain and r.up and r.exec != NOWHERE:
                found.append((root.norm(r.exec), self.chain.number(r.executed)))
                found.append((root.norm(r.read), self.chain.number(r.executed | r.retrieved)))
        if self.chain and root.first_kept > 1 and self.chain.number(self.purged_of(root)):
            found.append((Coord(root.first_kept, 4), self.chain.number(self.purged_of(root))))
        return sorted(found)

    def unseen(self) -> dict[int, int]:
        """How many transactions are after the last known coordinate, for files of the root's log whose ends aren't known. The servers' sets give
        it."""
        found = {}
        for (_, before), (at, number) in zip([(Coord(1, 4), 0), *self.known()], self.known()):
            if at.position == 4 and number > before:
                found[at.number - 1] = number - before
        return found

    def purged_of(self, server: Status) -> GtidSet:
        """What a server's log doesn't keep, and what all have."""
        assert self.chain
        return (server.purged & self.chain.whole) | self.chain.base

    def build_by_bytes(self, starts: list[int]) -> None:
        """Puts as few transactions as possible between two bytes that some server reports."""
        told = self.bytes
        cuts = {0, told.total} | {byte for byte in starts if self.line.ends[0] <= byte <= told.total}
        cuts |= {told.byte(at) for at in told.points} | set(told.starts.values())
        for server in self.members[1:]:
            cuts |= {told.at[server.name], told.reads(server)}
        for byte in sorted(byte for byte in cuts if self.line.ends[0] < byte <= told.total):
            self.line.put(byte)
            self.rows.append((len(self.line.sizes), byte, ""))

    # ---- the line by sets

    def build_by_sets(self, chain: Chain, cuts: list[int], most: int) -> None:
        """Puts what all have executed, by bytes, and after it as many transactions as the sets have, between the known coordinates."""
        marks = self.from_base(self.marks(chain))
        least = marks[0][1]
        if least < self.line.ends[0]:
            self.line = Line(least - GUESSED)
        for byte in [one for one in cuts if one < least] + [least]:
            if byte > self.line.ends[-1]:
                self.line.put(byte)
                self.rows.append((len(self.line.sizes), byte, ""))
        self.base_count = len(self.line.sizes)
        self.places.put(0, self.base_count)
        self.lay_runs(chain, self.with_starts(marks), most)

    def marks(self, chain: Chain) -> list[Mark]:
        """Numbers of transactions whose byte in the root's log is known: they rise, and so do the bytes."""
        known: dict[int, list[int]] = {chain.number(chain.whole): [self.bytes.total]}
        for at, number in self.known():
            known.setdefault(number, []).append(self.bytes.byte(at))
        if any(max(found) != min(found) for found in known.values()):
            self.notes.add("several moments", "one set, several coordinates: it was read while appliers worked; the last coordinate is taken", self.root.name)
        return [(number, max(found)) for number, found in sorted(known.items())]

    def from_base(self, marks: list[Mark]) -> list[Mark]:
        """The same from number 0 on: before the first mark transactions have as many bytes as are guessed, and none lies in two files."""
        (number, byte), found, lowest = marks[0], list(marks), min(self.bytes.starts.values())
        while number > 0:
            start = max((one for one in self.bytes.starts.values() if one < byte), default=None)
            guess = byte - GUESSED * number
            if start is None or guess >= start:
                number, byte = 0, guess
            elif start == lowest and self.bytes.first == 1:
                number, byte = 0, start
            else:
                number, byte = number - max(1, (byte - start) // GUESSED), start
            found.insert(0, (number, byte))
        return found

    def with_starts(self, marks: list[Mark]) -> list[Mark]:
        """The same with the beginnings of the root's files, each of which lies between two transactions: how many lie before it goes by bytes."""
        found = marks[:1]
        for (low, begin), (high, end) in zip(marks, marks[1:]):
            inner = [byte for byte in sorted(set(self.bytes.starts.values())) if begin < byte < end]
            for left, byte in zip(range(len(inner), 0, -1), inner):
                before = found[-1][0]
                number = min(max(before + 1, low + round((high - low) * (byte - begin) / (end - begin))), high - left)
                if number > before:
                    found.append((number, byte))
            found.append((high, end))
        return found

    def lay_runs(self, chain: Chain, marks: list[Mark], most: int) -> None:
        """The transactions of the sets, between the marks. `most` of them at most: else several become one."""
        root, uuids = self.root, self.uuids()
        numbers = [number for number, _ in marks]
        runs = [part for run in chain.runs(lambda key: uuids.get(key.split(":")[0], root.name) == root.name) for part in run.split(numbers)]
        each = max(1, -(-runs[-1].high // max(1, most - len(runs)))) if runs else 1
        if each > 1:
            self.notes.add("pieces", "%d transactions after those that all have: each of the scenario's stands for up to %d" % (runs[-1].high, each),
                           root.name)
        bounds = iter(marks)
        low, begin = next(bounds)
        high, end = low, begin
        for run in runs:
            while run.high > high:
                low, begin = high, self.line.ends[-1]
                high, end = next(bounds, (runs[-1].high, self.bytes.total))
            upto = begin + (max(end, begin + high - low) - begin) * (run.high - low) // (high - low)
            self.lay_run(run, upto, each, uuids)

    def lay_run(self, run: Run, upto: int, each: int, uuids: dict[str, str]) -> None:
        """The transactions of one run, up to a byte."""
        many = -(-(run.high - run.low) // each)
        upto = max(upto, self.line.ends[-1] + many)
        if pieces(upto - self.line.ends[-1]) > many:
            self.notes.add("pieces", "transactions of more than %d bytes: each becomes several" % CHUNK, self.root.name)
        self.line.put(upto, many, uuids.get((run.key or "").split(":")[0]))
        self.places.put(run.high, len(self.line.sizes))
        self.rows.append((len(self.line.sizes), self.line.ends[-1], str(run.gtids)))

    def uuids(self) -> dict[str, str]:
        """The servers by their UUIDs."""
        return {server.uuid.lower(): server.name for server in self.members if server.uuid}

    # ---- places

    def place_of(self, got: GtidSet) -> int:
        """The place of a set."""
        assert self.chain
        return self.places.place(self.chain.number(got))

    def executed(self, server: Status) -> int:
        """How many of the line's transactions a server has executed."""
        if not self.chain:
            return len(self.line.sizes) if server is self.root else self.line.nearest(self.bytes.at[server.name])
        if server.up:
            return self.place_of(server.executed)
        if server is self.root:
            return len(self.line.sizes)
        return self.place_of(union(r.executed | r.retrieved for r in self.replicas(server)))

    def received(self, server: Status, executed: int, most: int) -> int:
        """How many of the line's transactions a replica has received, at least what it has executed and at most what its source has."""
        if self.chain:
            got = self.place_of(server.executed | server.retrieved) if server.read > server.exec else executed
        else:
            got = self.line.nearest(self.bytes.reads(server))
        return min(max(got, executed), most)

    def flushes(self, server: Status) -> list[int]:
        """After how many transactions each of its files ends, except the last one."""
        if server.name not in self.flushed:
            found = self.flushes_of_root() if server is self.root else self.flushes_of(server) if server.end else []
            self.flushed[server.name] = list(itertools.accumulate(found, max))
        return self.flushed[server.name]

    def flushes_of_root(self) -> list[int]:
        """Files before the first one that some server reports are empty."""
        starts, first = self.bytes.starts, self.bytes.first
        found = [0] * max(0, first - 2) + ([self.line.place(0)] if first > 1 else [])
        return found + [min(self.line.nearest(starts[number]), self.executed(self.root)) for number in range(first + 1, max(starts) + 1)]

    def flushes_of(self, server: Status) -> list[int]:
        """The same of a replica's own log."""
        assert server.end is not None
        executed = self.executed(server)
        here, spoken, heads = self.line.ends[executed], self.bytes.first_spoken(server), self.heads_of(server)
        found = [0] * max(0, spoken - 2)
        for number in range(max(2, spoken), server.end.number + 1):
            byte = here - self.bytes.behind(server, Coord(number, 4))
            place = 0 if byte <= self.line.ends[0] else min(self.line.nearest(byte), executed)
            found.append(heads.get(number, place))
        if self.chain and server.files and (server.purged & self.chain.whole) - self.chain.base:
            lost = self.place_of(self.purged_of(server))
            found = [max(have, lost) if number >= server.first_kept else min(have, lost) for number, have in enumerate(found, 2)]
        return found

    def heads_of(self, server: Status) -> dict[int, int]:
        """Of files of a server's log at whose first byte (or at the end of the one before) a replica is, how many transactions lie before them."""
        heads: dict[int, int] = {}
        for r in self.replicas(server) if self.chain else []:
            at = server.norm(r.exec)
            if r.up and at.position == 4:
                heads[at.number] = self.executed(r)
            elif r.up and server.end and 1 < at.number + 1 <= server.end.number and at.position == self.bytes.end_in(server, at.number):
                heads[at.number + 1] = self.executed(r)
        return heads

    def layout(self, server: Status) -> ModelLog:
        """A server's log as the scenario has it."""
        if server.name not in self.layouts:
            self.layouts[server.name] = ModelLog(self.line.sizes[:self.executed(server)], self.flushes(server))
        return self.layouts[server.name]

    # ---- what the scenario says of a replica's coordinates

    def coordinates(self, server: Status) -> tuple[int, str | None, str | None]:
        """How many transactions a replica has executed, and its executed and read coordinates if its status shows any."""
        above = self.servers[server.source or ""]
        layout, executed, most = self.layout(above), self.executed(server), self.executed(above)
        if executed > most:
            server.note("several moments", "it has executed more than was read of its source: taken for level with it")
            executed = most
        if server.exec == NOWHERE:
            return executed, None, None
        at = layout.coord(above.norm(server.exec).number, executed)
        read = layout.coord(above.norm(server.read).number, self.received(server, executed, most))
        return executed, model_text(at), model_text(max(at, read))

    def until(self, server: Status) -> str:
        """Up to where a replica's applier goes: below a replica, up to the end of its source's log."""
        above = self.servers[server.source or ""]
        assert server.until is not None
        return model_text(server.until if above is self.root else self.layout(above).end())


def trees_of(servers: dict[str, Status], gtid: bool) -> list[Tree]:
    """A tree of each root, the largest first. A root that shares the history of another one is put into its tree."""
    lower: dict[str, list[Status]] = {}
    for server in servers.values():
        if server.source:
            lower.setdefault(server.source, []).append(server)
    trees = [Tree(servers, server, lower, gtid) for server in servers.values() if not server.source]
    trees.sort(key=lambda tree: -len(tree.members))
    for tree in trees if gtid else []:
        if tree.root.up and len(tree.members) == 1:
            lead = next((other for other in trees if len(other.members) > 1 and shares(tree.root, other.members)), None)
            if lead:
                lead.kins.append(tree.root)
    return trees


def shares(server: Status, others: Iterable[Status]) -> bool:
    """Whether a server has executed a transaction of which another one knows the UUID."""
    return any(set(server.executed) & set(other.executed) for other in others)
