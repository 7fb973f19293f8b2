"""Finds the servers of a topology from one or some of them: sources by status, replicas by SHOW REPLICAS or, if these don't report their hosts, by the
process list."""
from __future__ import annotations

from collections.abc import Iterable
from concurrent.futures import Executor

from orch_tools.client import Down, Row, count, pick
from orch_tools.light_reading import Asker, Status
from orch_tools.notes import Notes
from orch_tools.progress import Progress

DUMPS = ("Binlog Dump", "Binlog Dump GTID")


class Discovery:
    """`servers` are those that were found, by the names that the scenario uses; `aliases` has their other addresses."""

    def __init__(self, asker: Asker, pool: Executor, without: Iterable[str], progress: Progress) -> None:
        self.asker, self.pool, self.without, self.progress = asker, pool, set(without), progress
        self.servers: dict[str, Status] = {}
        self.notes = Notes()
        self.identities: dict[str, str] = {}
        self.aliases: dict[str, str] = {}
        # Of addresses that are guessed: the server ids one of which must answer there.
        self.guesses: dict[str, set[int]] = {}

    def run(self, names: list[str], only_named: bool) -> dict[str, Status]:
        """All servers that are reached from these, level by level, in parallel."""
        waiting = [name for name in names if name not in self.without]
        self.asker.learn(waiting)
        while waiting:
            read = list(self.pool.map(self.asker.read, waiting))
            self.progress.tell("read %d servers" % (len(self.servers) + len(read)))
            new = [server for server in read if self.take(server)]
            addresses = [] if only_named else [name for some in self.pool.map(self.addresses, new) for name in some]
            waiting = [name for name in dict.fromkeys(addresses) if self.is_new(name)]
        self.same_by_uuid()
        self.rename()
        found = sorted(set(self.servers) - set(names))
        if found:
            self.notes.add("not found", "found by their threads: %s; a replica whose receiver is off isn't found: name it" % ", ".join(found))
        return {name: self.servers[name] for name in [name for name in names if name in self.servers] + found}

    def is_new(self, name: str) -> bool:
        """Whether an address wasn't asked yet, and may be."""
        return not (name in self.servers or name in self.aliases or name in self.without or name in self.asker.aliases)

    def take(self, server: Status) -> bool:
        """Whether a reading is of a server that wasn't read before, under whatever name."""
        ids = self.guesses.get(server.name)
        if ids is not None and not (server.up and server.server_id in ids):
            self.aliases[server.name] = ""
            return False
        known = self.identities.get(server.identity or "")
        if known:
            self.aliases[server.name] = known
            return False
        if server.identity:
            self.identities[server.identity] = server.name
        self.servers[server.name] = server
        return True

    def addresses(self, server: Status) -> list[str]:
        """The addresses of its source and of its replicas."""
        found = [server.source] if server.source else []
        silent, ids = [], {one.server_id for one in self.servers.values()}
        for row in server.replicas:
            if row.get("Host"):
                found.append("%s:%s" % (row["Host"], row["Port"]))
            elif server_id_in(row) not in ids:
                silent.append(row)
        return found + (self.guessed(server, silent) if silent else [])

    def guessed(self, server: Status, silent: list[Row]) -> list[str]:
        """Replicas that don't report their hosts: each host that reads its log, with each port that they report."""
        ids = {server_id_in(row) for row in silent}
        try:
            told, error = self.asker.ask(server.name, [("processes", "SHOW PROCESSLIST")])
        except Down as reason:
            told, error = {}, str(reason)
        hosts = {row["Host"].rpartition(":")[0] for row in told.get("processes", []) if row["Command"] in DUMPS}
        if not hosts:
            server.note("not found", "replicas that don't report their hosts (report_host): server ids %s%s; name them"
                        % (", ".join(map(str, sorted(ids))), " (%s)" % error[:120] if error else ""))
        found = ["%s:%s" % (host, port) for host in sorted(hosts) for port in sorted({row["Port"] for row in silent})]
        for name in found:
            if self.is_new(name) and name != server.name:
                self.guesses.setdefault(name, set()).update(ids)
        return found

    def same_by_uuid(self) -> None:
        """A source that isn't reached by the address that its replicas have may be one that is reached by another: its UUID is the same."""
        by_uuid = {server.uuid: server.name for server in self.servers.values() if server.uuid}
        for server in list(self.servers.values()):
            known, other = by_uuid.get(server.source_uuid or ""), server.source
            above = self.servers.get(other or "")
            if known and other and known != other and (above is None or not above.up):
                self.servers[known].note("other", "%s is taken for it: its replicas report its UUID" % other)
                self.servers.pop(other, None)
                self.aliases[other] = known

    def rename(self) -> None:
        """Sources by the names that the scenario uses."""
        self.aliases = {name: known for name, known in self.aliases.items() if known}
        self.asker.aliases.update(self.aliases)
        for server in self.servers.values():
            server.source = self.aliases.get(server.source or "", server.source)


def missing_replicas(servers: dict[str, Status]) -> None:
    """Notes of each server the replicas that read its log and weren't found."""
    ids = {server.server_id for server in servers.values() if server.up}
    for server in servers.values():
        lost = sorted({server_id_in(row) for row in server.replicas} - ids)
        if lost:
            server.note("not found", "a server that isn't here reads its log: server id %s" % ", ".join(map(str, lost)))


def server_id_in(row: Row) -> int:
    """The server id of a replica in an answer to SHOW REPLICAS."""
    return count(pick(row, "Server_Id", "Server_id"))
