"""How far each server of a tree has come in its root's log, in bytes. Heads and tails of files take no room."""
from __future__ import annotations

from orch_tools.client import NOWHERE, Coord
from orch_tools.light_reading import Status

# The bytes that are guessed for a transaction of which only the GTID is known.
GUESSED = 200


class Bytes:
    """The root's log in bytes, 0 at the start of the first file that some server reports.

    `starts` has the first byte of each file, `total` is the log's end, `at` has the byte to which each server has come.
    `known` has coordinates, and how many transactions are before each by the servers' sets. It is None without sets.
    `unseen` is about files whose ends aren't known: how many transactions are after the last coordinate that is known there."""

    def __init__(self, servers: dict[str, Status], members: list[Status], lower: dict[str, list[Status]], known: list[Coord] | None, unseen: dict[int,
                                                                                                                                                  int]) -> None:
        self.servers, self.members, self.lower, self.gtid, self.root = servers, members, lower, known is not None, members[0]
        self.starts: dict[int, int] = {}
        self.points = sorted({*(self.root.norm(at) for at in self.spoken(self.root)), *(known or [])}) or [Coord(1, 4)]
        self.first = self.points[0].number
        self.total = self.lay_root(unseen)
        self.at = {self.root.name: self.total}
        for server in members[1:]:
            self.at[server.name] = self.stands(server)

    def spoken(self, server: Status) -> list[Coord]:
        """Coordinates of a server's log that some server reports."""
        found = [at for r in self.lower.get(server.name, []) for at in (r.exec, r.read, r.until) if at and at != NOWHERE]
        return found + ([server.end] if server.end else [])

    def lay_root(self, unseen: dict[int, int]) -> int:
        """Lays the files of the root's log one after another, and returns the byte at which the last one ends. The end of a purged file isn't known."""
        byte, last = 0, self.points[-1].number
        for number in range(self.first, last + 1):
            self.starts[number] = byte
            here = [at.position for at in self.points if at.number == number]
            end = self.root.file_end(number) if number < last else max(here)
            if end is None:
                end = max([*here, 4]) + ((GUESSED * unseen.get(number, 0) if self.gtid else 1) if number < last else 0)
            byte += max([end, *here]) - 4
        return byte

    def byte(self, at: Coord) -> int:
        """The byte of a coordinate of the root's log."""
        at = self.root.norm(at)
        if at.number < self.first:
            return 0
        return self.starts[at.number] + at.position - 4 if at.number in self.starts else self.total

    def end_in(self, server: Status, number: int) -> int:
        """The end of a file of a server's log. If it is purged or a dead server's, it is a byte after the last coordinate that some server reports."""
        known = server.file_end(number)
        if known is None:
            known = max([server.norm(at).position for at in self.spoken(server) if at.number == number] + [4]) + (0 if self.gtid else 1)
        return max(4, known)

    def behind(self, server: Status, at: Coord) -> int:
        """How many bytes of a server's log lie after a coordinate of it."""
        assert server.end is not None
        at, end = server.norm(at), server.norm(server.end)
        if at >= end:
            return 0
        if at.number == end.number:
            return end.position - at.position
        between = sum(self.end_in(server, number) - 4 for number in range(at.number + 1, end.number))
        return max(0, self.end_in(server, at.number) - at.position) + between + end.position - 4

    def stands(self, server: Status) -> int:
        """A replica's byte: its coordinate's or, deeper, as many bytes before its source's as it lacks of its source's log."""
        above = self.servers[server.source or ""]
        if server.exec == NOWHERE and not (self.gtid and server.up):
            return self.at[above.name]
        if above is self.root:
            return self.byte(server.exec)
        return self.at[above.name] - self.behind(above, server.exec) if above.end else self.at[above.name]

    def reads(self, server: Status) -> int:
        """The byte up to which a replica has received."""
        above = self.servers[server.source or ""]
        if above is self.root:
            return self.byte(server.read)
        return self.at[above.name] - self.behind(above, server.read) if above.end else self.at[server.name]

    def file_starts(self) -> list[int]:
        """The bytes at which files of the replicas' logs begin, from the first one that some server reports."""
        found = []
        for server in self.members[1:]:
            if server.end:
                first = min(server.norm(at).number for at in self.spoken(server))
                found += [self.at[server.name] - self.behind(server, Coord(number, 4)) for number in range(first, server.end.number + 1)]
        return found

    def first_spoken(self, server: Status) -> int:
        """The first file of a server's log that some server reports."""
        assert server.end is not None
        return min([server.norm(at).number for at in self.spoken(server)] + [server.end.number])
