"""Reads a running topology without listing a binary log: sources and positions, by coordinates and by GTID sets."""
from __future__ import annotations

import dataclasses
import time
from concurrent.futures import Executor, ThreadPoolExecutor

from orch_tools.client import NOWHERE, Client
from orch_tools.discovery import Discovery, missing_replicas
from orch_tools.light_reading import Asker, Problem, Status
from orch_tools.light_tree import Tree, trees_of
from orch_tools.notes import Notes
from orch_tools.progress import Progress

# A coordinate within so many bytes from a file's first may be in its head.
NEAR = 16384
# How many seconds a status may be late: replica_checkpoint_period is 0.3 by default.
LATE = 0.5


@dataclasses.dataclass
class Wanted:
    """What is to be read. `below` has the sources of servers that aren't reached."""
    names: list[str]
    aliases: dict[str, str] = dataclasses.field(default_factory=dict)
    below: dict[str, str] = dataclasses.field(default_factory=dict)
    without: list[str] = dataclasses.field(default_factory=list)
    only_named: bool = False
    jobs: int = 32


class Light:
    """Servers as they were read. `gtid`: whether all that are up have GTID mode on."""

    def __init__(self, servers: dict[str, Status], below: dict[str, str] | None = None) -> None:
        self.servers, self.below, self.notes = servers, below or {}, Notes()
        self.gtid = False

    @staticmethod
    def read(client: Client, wanted: Wanted, progress: Progress) -> Light:
        """Reads all servers, and each source once more after its replicas."""
        asker = Asker(client, dict(wanted.aliases))
        with ThreadPoolExecutor(wanted.jobs) as pool:
            discovery = Discovery(asker, pool, wanted.without, progress)
            light = Light(discovery.run(wanted.names, wanted.only_named), wanted.below)
            light.notes.take(discovery.notes)
            light.put_below()
            light.read_sources_again(asker, pool, progress)
            light.leave_parts(asker, pool, progress)
            if not wanted.only_named:
                missing_replicas(light.servers)
            list(pool.map(lambda server: light.probe(asker, server), light.servers.values()))
        light.settle()
        return light

    def settle(self) -> None:
        """What follows from all that was read."""
        self.tell_dead()
        self.note_own()
        alive = [server for server in self.servers.values() if server.up]
        self.gtid = bool(alive) and all(server.gtid for server in alive)
        if not self.gtid and any(server.gtid for server in alive):
            self.notes.add("settings", "GTID mode isn't on everywhere (off: %s): taken without GTIDs" % ", ".join(server.name for server in alive
                                                                                                                 if not server.gtid))

    def note_own(self) -> None:
        """MariaDB reports whose transactions a log has: notes what a replica wrote itself and its source lacks."""
        for server in self.servers.values():
            above = self.servers.get(server.source or "")
            if server.up and above is not None and above.up and above.logged:
                for (domain, origin), number in server.logged.items():
                    if origin == server.server_id and number > above.logged.get((domain, origin), 0):
                        server.note("errant", "it has written transactions itself that its source lacks, up to %s-%d-%d: left out" % (domain, origin,
                                                                                                                                                number))

    def replicas(self, name: str) -> list[Status]:
        """The servers below one."""
        return [server for server in self.servers.values() if server.source == name]

    def put_below(self) -> None:
        """Puts those that aren't reached below the sources that the operator gave."""
        for name, source in self.below.items():
            server = self.servers.setdefault(name, Status(name))
            if server.up:
                server.problems.append(Problem("--below %s=%s: it is reached, and reports its source itself" % (name, source)))
            else:
                server.source = source

    def depth(self, name: str) -> int:
        """How many servers are above one; a ring is as deep as it is long."""
        seen: list[str] = []
        while name in self.servers and name not in seen:
            seen.append(name)
            name = self.servers[name].source or ""
        return len(seen)

    def read_sources_again(self, asker: Asker, pool: Executor, progress: Progress) -> None:
        """A running topology moves between two readings: each source is read again after its replicas, the deepest first, so that its log has all that they
        had."""
        levels: dict[int, list[str]] = {}
        for name in {server.source for server in self.servers.values() if server.source}:
            if name in self.servers and self.servers[name].up:
                levels.setdefault(self.depth(name), []).append(name)
        for depth in sorted(levels, reverse=True):
            progress.tell("read sources again, %d servers" % len(levels[depth]))
            self.renew(asker, pool, sorted(levels[depth]))
        self.put_below()

    def renew(self, asker: Asker, pool: Executor, names: list[str]) -> None:
        """Reads servers again. What was noted of how they were found stays."""
        for server in pool.map(asker.read, names):
            for note in self.servers[server.name].notes.about("not found", "other"):
                server.note(note.code, note.text)
            self.servers[server.name] = server

    def has_part(self, server: Status) -> bool:
        """Whether a dead source's replica has received more than it has executed, and its applier finds nothing more to execute."""
        above = self.servers.get(server.source or "")
        is_left = server.up and above is not None and not above.up and server.sql and server.idle
        return is_left and server.exec.number == server.read.number and server.exec < server.read

    def leave_parts(self, asker: Asker, pool: Executor, progress: Progress) -> None:
        """Leaves out what was received of a transaction whose rest never came: no applier executes it. A status that is only late is read again."""
        names = [server.name for server in self.servers.values() if self.has_part(server)]
        while names:
            progress.tell("read dead sources' replicas again, %d servers" % len(names))
            before = {name: self.servers[name].exec for name in names}
            time.sleep(LATE)
            self.renew(asker, pool, names)
            for server in [self.servers[name] for name in names]:
                if self.has_part(server) and server.exec == before[server.name] and asker.is_idle(server):
                    server.note("received in part", "it has received a part of a transaction, %d bytes after %s: left out, because the rest never comes"
                                % (server.read.position - server.exec.position, server.exec))
                    server.read = server.exec
            names = [name for name in names if self.has_part(self.servers[name]) and self.servers[name].exec != before[name]]

    def tell_dead(self) -> None:
        """Takes what is known of a source that isn't reached from its replicas."""
        for server in self.servers.values():
            replicas = [r for r in self.replicas(server.name) if r.up]
            if server.up or not replicas:
                server.logs = server.logs and (server.up or bool(self.replicas(server.name)))
                continue
            spoken = [at for r in replicas for at in (r.exec, r.read) if at != NOWHERE]
            server.version = max((r.version or "0" for r in replicas), key=lambda text: [int(part) for part in text.split(".")])
            server.gtid, server.server_id = replicas[0].gtid, next((r.source_id for r in replicas if r.source_id), None)
            server.uuid = next((r.source_uuid for r in replicas if r.source_uuid), None)
            if spoken:
                server.end = max(spoken)
                server.base = server.end.file.rsplit(".", 1)[0] if server.end.file else replicas[0].base
            running = [r.name for r in replicas if r.io == "Yes"]
            if running:
                server.note("not reached", "not reached from here, and yet the receivers of %s run: if it has another name, give --alias %s=NAME"
                            % (", ".join(running), server.name))
            server.note("dead server", "not reached: its log is what its replicas have read, up to %s; what none of them read isn't there, and its version is "
                        "taken from them" % (server.end or "nothing"))

    def probe(self, asker: Asker, server: Status) -> None:
        """Measures the heads of files in which some server may be."""
        if server.up and server.end:
            near = {at.number for r in self.replicas(server.name) for at in (r.exec, r.read) if 4 < at.position <= NEAR}
            asker.probe(server, near | ({server.end.number} if server.end.position <= NEAR else set()))

    # ---- problems

    def problems(self, broken_ok: bool) -> list[tuple[str, Problem]]:
        """Why a scenario can't have these servers, all at once. With `broken_ok` broken appliers and receivers are notes."""
        found = [(server.name, problem) for server in self.servers.values() for problem in server.problems]
        for server in self.servers.values():
            found += [(server.name, problem) for problem in self.misplaced(server)]
        if not any(server.up for server in self.servers.values()):
            found.append(("", Problem("none of the servers is reached")))
        for name, problem in found:
            if problem.broken and broken_ok:
                self.servers[name].note("receiver broken" if "receiver" in problem.text else "applier broken", problem.text)
        return [(name, problem) for name, problem in found if not (problem.broken and broken_ok)]

    def misplaced(self, server: Status) -> list[Problem]:
        """What is wrong with a server's place in the topology."""
        if not server.source:
            return []
        if server.source not in self.servers:
            return [Problem("its source %s is none of the servers that are read" % server.source)]
        ring = self.ring(server.name)
        if ring:
            return [Problem("it is below itself (%s); a scenario has no ring" % " < ".join(ring))]
        found = []
        above = self.servers[server.source]
        if above.up and not above.logs and not server.detached:
            found.append(Problem("its source %s doesn't log what it applies" % above.name))
        if server.up and above.up and above.end and not self.gtid and server.exec > above.end:
            found.append(Problem("it has executed up to %s, and the log of its source %s ends at %s: that log began anew" % (server.exec, above.name,
                                                                                                                             above.end)))
        if server.up and not self.gtid and server.exec == NOWHERE:
            found.append(Problem("it shows no coordinate of its source (it never ran since CHANGE): its position isn't known"))
        return found

    def ring(self, name: str) -> list[str]:
        """The servers from one up to itself, if it is below itself."""
        path, at = [name], self.servers[name].source
        while at in self.servers and at not in path:
            path.append(at)
            at = self.servers[at].source
        return [*path, name] if at == name else []

    # ---- trees

    def trees(self, most: int) -> list[Tree]:
        """The trees, each built; `most` is how many transactions a scenario of so many servers may have."""
        trees = trees_of(self.servers, self.gtid)
        for tree in trees:
            if tree.root.up or len(tree.members) > 1:
                tree.build(most)
        return trees


def found_names(client: Client, wanted: Wanted, progress: Progress) -> list[str]:
    """The names of all servers that are found from those that are named; the other addresses of servers are put to `aliases`."""
    asker = Asker(client, dict(wanted.aliases))
    with ThreadPoolExecutor(wanted.jobs) as pool:
        found = list(Discovery(asker, pool, wanted.without, progress).run(wanted.names, wanted.only_named))
    wanted.aliases.update(asker.aliases)
    return found
