"""A topology whose binary logs were listed as a scenario, and the map of its coordinates."""
from __future__ import annotations

from collections.abc import Iterable
from typing import Any

from orch_tools.client import Coord
from orch_tools.model_log import model_text
from orch_tools.reading import Cant, Server
from orch_tools.topology import MAX_SIZE, Topology

MOST = 4000000

Told = dict[str, Any]


class Writer:
    """A topology as a scenario."""

    def __init__(self, topology: Topology) -> None:
        self.topology, self.sizes = topology, topology.sizes() if topology.total else []
        self.notes: list[str] = []
        told = [server for server in topology.servers.values() if topology.told(server.name)]
        self.names = {server.server_id: server.name for server in told}
        if len(self.names) < len(told):
            self.notes.append("two servers have one server id")
        self.gtid = bool(told) and all(server.gtid_mode for server in told)

    def scenario(self, turns: Iterable[Any] = ()) -> Told:
        """The scenario. Cant if it has more than one may have."""
        servers = [self.server(server) for server in self.topology.servers.values()]
        self.check_size(servers)
        head: Told = {"version": 1, "gtid": True} if self.gtid else {"version": 1}
        return dict(head, servers=servers, turns=list(turns))

    def check_size(self, servers: list[Told]) -> None:
        """Cant if a scenario has no room for all."""
        most = len(servers) * len(self.sizes)
        if most > MOST:
            raise Cant("%d servers with %d transactions; a scenario has at most %d of both together: read fewer files (--last-files)"
                       % (len(servers), len(self.sizes), MOST))
        if any(size == MAX_SIZE for size in self.sizes):
            self.notes.append("transactions of %d bytes and more; a scenario's have at most so many" % MAX_SIZE)

    def server(self, server: Server) -> Told:
        """What the scenario has of one server."""
        told: Told = {"name": server.name}
        if not server.up:
            told["up"] = False
        if not self.topology.told(server.name):
            return told
        if server.uuid:
            told["uuid"] = server.uuid
        told.update(server_id=server.server_id, version=server.version, cluster=self.topology.cluster_of(server.name), read_only=server.read_only)
        if not server.logs:
            told["logs"] = False
        told.update(self.replica(server) if server.status else {"history": self.history(server.name)})
        flushes = self.topology.flushes(server.name) if server.logs else []
        return dict(told, flushes=flushes) if flushes else told

    def history(self, name: str) -> list[list[Any]]:
        """A root's history; equal transactions are one run."""
        runs: list[list[Any]] = []
        for group, size in zip(self.topology.own(name), self.sizes):
            origin = self.names.get(group.origin)
            if origin is None:
                raise Cant("transaction %s comes from server id %d, which is none of the servers" % (group.gtid, group.origin))
            if runs and runs[-1][:2] == [origin, size]:
                runs[-1][2] += 1
            else:
                runs.append([origin, size, 1])
        return runs

    def replica(self, server: Server) -> Told:
        """What the scenario has of a server as a replica."""
        topology, status = self.topology, server.status
        assert status
        source = topology.servers[status.source]
        if not topology.told(source.name):
            raise Cant("%s: its source %s isn't reached, and no replica has its log" % (server.name, source.name))
        if topology.before[source.name] + source.place(status.exec) < topology.start:
            raise Cant("%s: it has executed less of %s than lies before the first transaction that all logs have" % (server.name, source.name))
        told: Told = {"source": source.name, "executed": topology.place_of(source.name, status.exec), "at": self.coord(source.name, status.exec),
                      "read": self.coord(source.name, status.read)}
        if not server.up:
            return told
        told.update(io=status.io != "No", sql=status.sql)
        if status.io == "Connecting" and source.up:
            told["feed"] = False
        if status.auto and self.gtid:
            told["auto"] = True
        if status.detached:
            told["detached"] = True
        if status.until:
            told["until"] = self.coord(source.name, status.until)
        self.note_part(server, source)
        return told

    def coord(self, name: str, at: Coord) -> str:
        """A coordinate of a server's log as the scenario spells it."""
        return model_text(self.topology.to_model(name, at, self.sizes))

    def note_part(self, server: Server, source: Server) -> None:
        """Notes a transaction of which a replica has received a part."""
        assert server.status
        part = next((group for group in self.topology.own(source.name) if group.first < server.status.read < group.last), None)
        if part:
            self.notes.append("%s has received a part of transaction %s; a scenario's receivers read whole ones" % (server.name, part.gtid))

    def map(self) -> Told:
        """For each server that logs, after each transaction: its number, the scenario's coordinate, the server's, and the GTID."""
        found = {}
        for name in self.topology.total:
            server, log, first = self.topology.servers[name], self.topology.model_log(name, self.sizes), self.topology.first_file(name)
            rows = [[number, model_text(log.coord(group.file - first + 1, number)), "%s.%06d:%d" % (server.base_name, group.file, group.end), group.gtid]
                    for number, group in enumerate(self.topology.own(name), 1)]
            heads = {str(file - first + 1): head for file, head in server.headers.items() if file >= first}
            found[name] = {"before": self.topology.start, "first_file": first, "transactions": rows, "headers": heads}
        return found
