"""A topology whose logs were listed, with its transactions numbered through, and what it is as a scenario."""
from __future__ import annotations

from collections.abc import Iterable, Iterator
from concurrent.futures import ThreadPoolExecutor
from itertools import islice

from orch_tools.binary_log import Group, count_until
from orch_tools.client import NOWHERE, Client, Coord, Down
from orch_tools.dead_source import Dead
from orch_tools.gtid_sets import EMPTY
from orch_tools.model_log import ModelLog, model_coord, model_text  # noqa: F401
from orch_tools.reading import Cant, Replica, Server

MAX_SIZE = 1000000


def places_by_shape(own: list[int], source: list[int], least: int) -> Iterator[int]:
    """After how many of a source's transactions, at least so many, a replica's log may end: those before are the replica's last ones, as far as both logs
    have them."""
    for place in range(least, len(source) + 1):
        both = min(place, len(own))
        near = min(both, 50)
        if source[place - near:place] == own[len(own) - near:] and source[place - both:place] == own[len(own) - both:]:
            yield place


class Topology:
    """Servers that were read. All counts begin at the first transaction that any log lists.

    `before` has for each server how many transactions are before the first one that its own log lists.
    `start` is how many are before the scenario's first one. `labels` has the leading root for roots of one history."""
    servers: dict[str, Server]
    cached: dict[str, tuple[list[int], ModelLog]] | None = None

    def __init__(self, client: Client, names: Iterable[str], aliases: dict[str, str] | None = None, last_files: int | None = None,
                 below: dict[str, str] | None = None, broken_ok: bool = False, jobs: int = 16) -> None:
        self.client, self.aliases, self.last_files, self.below, self.broken_ok = client, aliases or {}, last_files, below or {}, broken_ok
        self.notes: list[str] = []
        self.jobs, self.servers = jobs, {}
        for server in self.read(names):
            self.servers[server.name] = server
        for depth in sorted({self.depth(name) for name in self.servers}, reverse=True):
            again = [name for name in self.servers if self.depth(name) == depth and self.servers[name].up and self.replicas(name)]
            for server in self.read(again):
                self.servers[server.name] = server
        self.rebuild_dead()
        for server in self.servers.values():
            self.place_by_set(server)
        self.number()

    @staticmethod
    def of(servers: dict[str, Server]) -> Topology:
        """A topology of servers that were read already, not numbered yet."""
        topology = Topology.__new__(Topology)
        topology.servers, topology.notes = servers, []
        return topology

    def read(self, names: Iterable[str]) -> list[Server]:
        """Reads servers, several at a time. A running topology moves between two readings. So whoever has replicas is read again after them, the lowest first.
        Then each log has all that the replicas below it had when they were read."""
        with ThreadPoolExecutor(self.jobs) as pool:
            return list(pool.map(self.read_one, names))

    def read_one(self, name: str) -> Server:
        """One server; one that isn't reached is down."""
        server = Server(name, self.client, self.aliases, self.last_files, self.broken_ok)
        try:
            return server.read()
        except Down as reason:
            self.notes.append("%s: not reached (%s)" % (name, str(reason).split("\n")[-1]))
            return server

    def replicas(self, name: str) -> list[Server]:
        """The servers that have this one as their source."""
        return [server for server in self.servers.values() if server.status and server.status.source == name]

    def rebuild_dead(self) -> None:
        """Makes the logs of servers that aren't reached of their replicas', and gives them the sources that the operator gave."""
        for server in list(self.servers.values()):
            replicas = [replica for replica in self.replicas(server.name) if replica.up] if not server.up else []
            logging = [replica for replica in replicas if replica.logs]
            if logging:
                dead = Dead(server, logging)
                dead.rebuild()
                dead.check_rest([replica for replica in replicas if not replica.logs])
                self.notes += dead.notes
        for name, source in self.below.items():
            self.put_below(name, source)

    def put_below(self, name: str, source: str) -> None:
        """A dead server as a replica: it has executed all that its replicas have of it."""
        if name not in self.servers or source not in self.servers:
            raise Cant("--below %s=%s: both must be among the servers that are read" % (name, source))
        server, above = self.servers[name], self.servers[source]
        if server.up:
            raise Cant("--below %s=%s: %s is reached, and reports its source itself" % (name, source, name))
        listed = {group.gtid: group for group in above.groups if group.gtid}
        last = next((listed[group.gtid] for group in reversed(server.groups) if group.gtid in listed), None)
        at = last.last if last else Coord(above.files[0] if above.files else 1, 4)
        server.status = Replica(source=source, detached=False, auto=False, until=None, source_id=above.server_id or 0, source_uuid=above.uuid,
                                executed=EMPTY, relay=(None, 0), exec=at, read=at, io="Connecting", sql=True)
        server.read_only = True

    def place_by_set(self, server: Server) -> None:
        """A replica that was set to auto position reports no coordinate until its receiver has run. Its place goes by its set."""
        status = server.status
        if status is None or status.exec != NOWHERE or not status.executed or not self.told(status.source):
            return
        source, place = self.servers[status.source], 0
        while place < len(source.groups) and status.executed.holds(source.groups[place].gtid):
            place += 1
        status.exec = status.read = source.groups[place - 1].last if place else Coord(source.files[0] if source.files else 1, 4)

    def told(self, name: str) -> bool:
        """Whether anything is known of a server's log."""
        return name in self.servers and (self.servers[name].up or self.servers[name].rebuilt)

    def path(self, name: str) -> list[str]:
        """A server and all above it, as far as their logs are known; a ring is as long as it is."""
        found: list[str] = []
        while name in self.servers and name not in found:
            found.append(name)
            status = self.servers[name].status
            if status is None:
                break
            name = status.source
        return found

    def depth(self, name: str) -> int:
        """How many servers are above one."""
        return len(self.path(name)) - 1

    def root_of(self, name: str) -> str:
        """The server without a source above one."""
        return self.path(name)[-1]

    def cluster_of(self, name: str) -> str:
        """The label of a server's cluster: roots of one history have one."""
        root = self.root_of(name)
        return self.labels.get(root, root)

    # ---- numbers

    def number(self, start: int | None = None) -> None:
        """Numbers the transactions through."""
        for server in self.servers.values():
            self.check_source(server)
        order = sorted(self.servers, key=self.depth)
        base = {name: self.base_of(self.servers[name]) for name in order}
        self.before: dict[str, int] = {}
        self.labels: dict[str, str] = {}
        for name in order:
            if self.told(name):
                self.place_before(name, base)
        self.align(order)
        logging = [name for name in order if self.told(name) and self.servers[name].logs]
        self.start = max([self.before[name] for name in logging] + [0]) if start is None else start
        self.total = {name: self.before[name] + len(self.servers[name].groups) for name in logging}

    def check_source(self, server: Server) -> None:
        """Refuses a source that wasn't read, and a ring."""
        status = server.status
        if status and status.source not in self.servers:
            raise Cant("%s: its source %s is none of the servers that were named" % (server.name, status.source))
        if status and server.name in self.path(status.source):
            raise Cant("%s: it is below itself; a scenario has no ring" % server.name)
        if status and status.auto and server.maria:
            self.notes.append("%s: it uses MariaDB's GTIDs; imported as replicating by coordinates" % server.name)

    def base_of(self, server: Server) -> tuple[str, int] | None:
        """A replica's source, and how many of the source's listed transactions lie before the replica's first listed one."""
        status = server.status
        source = self.servers[status.source] if status else None
        if status is None or source is None or not self.told(server.name) or not self.told(status.source):
            return None
        if source.stands_before(status.exec):
            raise Cant("%s: it is at %s of %s, before the first file that was read" % (server.name, status.exec, source.name))
        if not server.logs:
            return None
        place = self.place_now(server, source, source.place(status.exec))
        self.check_beginning(server, source, place)
        return status.source, place - len(server.groups)

    def place_now(self, server: Server, source: Server, place: int) -> int:
        """How many of its source's listed transactions a replica has executed. Its log is read after its status, and may have more than the status:
        MySQL's status is up to 0.3 seconds old. Then its position is taken from its log."""
        late = self.late(server, source, place)
        if late > 0 and server.status:
            if not server.status.sql:
                listed = {group.gtid: number for number, group in enumerate(source.groups, 1) if group.gtid}
                raise Cant("%s: its applier is off, and its log has %d transactions of %s from after the position at which it is"
                           % (server.name, sum(1 for group in server.groups if listed.get(group.gtid, 0) > place), source.name))
            server.status.exec = source.groups[place + late - 1].last
            server.status.read = max(server.status.read, server.status.exec)
        return place + late

    def late(self, server: Server, source: Server, place: int) -> int:
        """How many more of its source's transactions a replica's log has than its status reports."""
        if not server.anonymous:
            listed = {group.gtid: number for number, group in enumerate(source.groups, 1) if group.gtid}
            return max(0, listed.get(server.groups[-1].gtid, 0) - place) if server.groups else 0
        if server.steady:
            self.notes.append("%s: transactions without GTIDs; its log is matched from its end, as its applier was idle" % server.name)
            return 0
        fits = list(islice(places_by_shape([group.shape for group in server.groups], [group.shape for group in source.groups], place), 2))
        if len(fits) != 1:
            raise Cant("%s: its applier works, its transactions have no GTIDs, and its log fits that of %s %s: read it while its applier is "
                       "idle, or without --exact" % (server.name, source.name, "at several places" if fits else "nowhere"))
        self.notes.append("%s: transactions without GTIDs; its log is matched by its events, as its applier was working" % server.name)
        return fits[0] - place

    def check_beginning(self, server: Server, source: Server, place: int) -> None:
        """The replica's log must be a prefix of its source's: anything else is a transaction of its own."""
        listed = {group.gtid for group in source.groups if group.gtid}
        for back in range(1, min(len(server.groups), place) + 1):
            own, other = server.groups[-back], source.groups[place - back]
            if own.gtid != other.gtid or own.origin != other.origin:
                odd = next((group for group in reversed(server.groups) if group.gtid not in listed), own)
                raise Cant("%s: its log is no prefix of that of %s: transaction %s (server id %d, %06d:%d%s)" % (
                    server.name, source.name, odd.gtid or "without a GTID", odd.origin, odd.file, odd.start, ", " + odd.what if odd.what else ""))

    def place_before(self, name: str, base: dict[str, tuple[str, int] | None]) -> int:
        """How many transactions lie before a server's first listed one, counted from its root's."""
        if name not in self.before:
            found = base.get(name)
            self.before[name] = 0 if found is None else self.place_before(found[0], base) + found[1]
        return self.before[name]

    def align(self, order: list[str]) -> None:
        """Roots whose logs have transactions in common count them alike; the longest leads."""
        roots = [name for name in order if self.told(name) and self.told_root_of(name) == name]
        if len(roots) < 2:
            return
        lead = max(roots, key=lambda name: len(self.servers[name].groups))
        listed: dict[str | None, int] = {group.gtid: number for number, group in enumerate(self.servers[lead].groups) if group.gtid}
        for root in roots:
            if root != lead:
                self.align_root(root, lead, listed)

    def align_root(self, root: str, lead: str, listed: dict[str | None, int]) -> None:
        """One root's transactions as the leading one counts them."""
        shift = next((listed[group.gtid] - number for number, group in enumerate(self.servers[root].groups) if group.gtid in listed), None)
        if shift is None:
            self.notes.append("%s has no transaction in common with %s: taken as another cluster" % (root, lead))
            return
        self.labels[self.root_of(root)] = self.root_of(lead)
        more = self.before[lead] + shift - self.before[root]
        for name in self.before:
            if self.told_root_of(name) == root:
                self.before[name] += more

    def told_root_of(self, name: str) -> str:
        """The highest server above one whose log is known."""
        path = self.path(name)
        return next((one for one, above in zip(path, path[1:]) if not self.told(above)), path[-1])

    # ---- places

    def own(self, name: str) -> list[Group]:
        """The transactions of a server's log from the start on."""
        return self.servers[name].groups[max(0, self.start - self.before[name]):]

    def first_file(self, name: str) -> int:
        """The real file that is the first one of the scenario."""
        server, skipped = self.servers[name], self.start - self.before[name]
        if skipped == 0:
            return server.files[0]
        return server.groups[skipped].file if 0 <= skipped < len(server.groups) else server.files[-1]

    def flushes(self, name: str) -> list[int]:
        """The number of transactions at the end of each of its files except the last one."""
        first, server, skipped = self.first_file(name), self.servers[name], max(0, self.start - self.before[name])
        ends = [count_until(server.groups, Coord(file + 1, 0)) - skipped for file in server.files if first <= file]
        return [max(0, end) for end in ends[:-1]]

    def sizes(self) -> list[int]:
        """The size of each transaction: as its origin's log has it, else as the longest log."""
        names = {self.servers[name].server_id: name for name in self.servers if self.told(name)}
        at_origin: dict[int | None, dict[str | None, int]]
        at_origin = {origin: {group.gtid: group.size for group in self.own(name) if group.gtid}
                     for origin, name in names.items() if name in self.total and not self.servers[name].rebuilt}
        longest = max(self.total, key=lambda name: self.total[name])
        return [min(at_origin.get(group.origin, {}).get(group.gtid, group.size), MAX_SIZE) for group in self.own(longest)]

    def model_log(self, name: str, sizes: list[int]) -> ModelLog:
        """A server's log as the scenario has it."""
        if self.cached is None:
            self.cached = {}
        if name not in self.cached or self.cached[name][0] is not sizes:
            self.cached[name] = sizes, ModelLog(sizes[:len(self.own(name))], self.flushes(name))
        return self.cached[name][1]

    def to_model(self, name: str, at: Coord, sizes: list[int]) -> Coord:
        """A coordinate of a server's log as the scenario's."""
        first, log = self.first_file(name), self.model_log(name, sizes)
        if at.number < first:
            return Coord(1, 4)
        place = max(0, count_until(self.servers[name].groups, at) - max(0, self.start - self.before[name]))
        return log.coord(min(at.number - first + 1, log.files()), place)

    def to_real(self, name: str, at: Coord, sizes: list[int]) -> Coord:
        """A coordinate of the scenario as the server's: after that transaction, or after the file's head."""
        file, log = self.first_file(name) + at.number - 1, self.model_log(name, sizes)
        place = log.place(at)
        if place == log.first(at.number):
            return Coord(file, self.servers[name].headers.get(file, 4))
        return self.own(name)[place - 1].last

    def place_of(self, name: str, at: Coord) -> int:
        """How many transactions from the start on end at or before a coordinate of a server's log."""
        return max(0, self.before[name] + self.servers[name].place(at) - self.start)
