"""A server's line of the program's tables, compared with the server."""
from __future__ import annotations

from typing import TYPE_CHECKING

from orch_tools.client import Coord
from orch_tools.reading import Replica, Server
from orch_tools.topology import ModelLog, Topology, model_coord, model_text

if TYPE_CHECKING:
    from rehearsal.story import Story  # noqa: it would import itself


def behind(words: list[str], key: str, start: int = 0) -> str:
    """The word after a key of a line."""
    return words[words.index(key, start) + 1]


def executed(now: Topology, server: Server) -> int:
    """How many of the scenario's transactions a server has executed: as its log has them, or as its position has them if it has no log."""
    if server.logs or server.status is None:
        return now.before[server.name] + len(server.groups) - now.start
    return now.place_of(server.status.source, server.status.exec)


class Exactly:
    """Compares a server's line of the tables, value by value; coordinates by places."""

    def __init__(self, story: "Story", now: Topology, tables: dict[str, str]) -> None:
        self.story, self.now, self.exact, self.same = story, now, 0, 0
        self.bad: list[str] = []
        self.sizes = story.before.sizes() + story.more_sizes
        self.executed = {name: int(behind(line.split(), "executed")) for name, line in tables.items()}
        self.flushes = {server["name"]: list(server.get("flushes", [])) for server in story.scenario["servers"]}
        for turn in story.turns:
            if turn[0] == "rotate":
                self.flushes[turn[1]].append(self.executed[turn[1]])

    def told(self) -> list[str]:
        """What is reported of a comparison besides what differs."""
        return ["coordinates: %d the same by the map, %d of the same place" % (self.exact, self.same)]

    def log(self, name: str) -> ModelLog:
        """A server's log as the scenario has it by now."""
        return ModelLog(self.sizes[:self.executed[name]], self.flushes[name])

    def differ(self, name: str, what: str, program: object, server: object) -> bool:
        """Notes what differs."""
        if program != server:
            self.bad.append("%s %s %s, the server %s" % (self.story.letter(name), what, program, server))
        return program != server

    def server(self, name: str, words: list[str], server: Server) -> None:
        """Compares a server's line."""
        status = server.status
        self.differ(name, "executed", self.executed[name], executed(self.now, server))
        source = behind(words, "source")
        if self.differ(name, "source", source, status.source if status else "none"):
            return
        self.differ(name, "ro" if words[3] == "ro" else "rw", "", "" if (words[3] == "ro") == server.read_only else "not")
        if status:
            self.replica(name, words, status, source)
        if self.differ(name, "log", behind(words, "end") != "none", server.logs) or not server.logs:
            return
        end = model_coord(behind(words, "end"))
        self.differ(name, "files", end.number, server.files[-1] - self.now.first_file(name) + 1)
        self.differ(name, "end", model_text(end), model_text(self.log(name).end()))

    def replica(self, name: str, words: list[str], status: Replica, source: str) -> None:
        """Compares it as a replica."""
        start = words.index("source")
        self.differ(name, "detached", "detached" in words, status.detached)
        for key, real in (("at", status.exec), ("read", status.read)):
            self.spot(name, key, model_coord(behind(words, key, start)), real, source)
        self.differ(name, "io", behind(words, "io"), "on" if status.io != "No" else "off")
        self.differ(name, "sql", behind(words, "sql"), "on" if status.sql else "off")
        if not self.now.servers[name].maria:
            self.differ(name, "auto", "auto" in words, status.auto)

    def spot(self, name: str, key: str, model: Coord, real: Coord, source: str) -> None:
        """Compares a coordinate by its place. One that goes by auto position and lacks nothing shows the head of a file until the next event comes."""
        log, now = self.log(source), self.now
        place, there = log.place(model), now.place_of(source, real)
        status = now.servers[name].status
        if status and status.auto and there < place == self.executed[name]:
            self.same += 1
            return
        if self.differ(name, "%s of %s at place" % (key, self.story.letter(source)), place, there):
            return
        file, own = now.first_file(source) + model.number - 1, now.own(source)
        head = now.servers[source].headers.get(file, 4)
        mapped = (file, head) if not place or place == log.first(model.number) else (own[place - 1].file, own[place - 1].end)
        if mapped == (real.number, real.position):
            self.exact += 1
        else:
            self.same += 1


class Loosely:
    """Under load: who is below whom, threads, read_only; and each replica is at its source's end."""

    def __init__(self, story: "Story", now: Topology) -> None:
        self.story, self.now = story, now
        self.bad: list[str] = []

    def told(self) -> list[str]:
        """Nothing is reported besides."""
        return []

    def server(self, name: str, words: list[str], server: Server) -> None:
        """Compares a server's line."""
        status, letter = server.status, self.story.letter(name)
        source = behind(words, "source")
        if source != (status.source if status else "none"):
            self.bad.append("%s source %s, the server %s" % (letter, source, status.source if status else "none"))
            return
        if (words[3] == "ro") != server.read_only:
            self.bad.append("%s %s, the server not" % (letter, words[3]))
        if status:
            self.replica(letter, words, server, status)

    def replica(self, letter: str, words: list[str], server: Server, status: Replica) -> None:
        """Compares it as a replica. Which transactions a dead source's log had at last isn't known."""
        above = self.now.servers[status.source]
        if status.source not in self.story.down:
            if len(server.groups) != above.place(status.exec) or (status.sql and len(server.groups) != len(above.groups)):
                self.bad.append("%s executed %d, stands at %d of %d of its source" % (letter, len(server.groups), above.place(status.exec),
                                                                                    len(above.groups)))
        if (behind(words, "sql") == "on") != status.sql:
            self.bad.append("%s sql %s, the server not" % (letter, behind(words, "sql")))
        if ("detached" in words) != status.detached:
            self.bad.append("%s is%s detached, the server not" % (letter, "" if "detached" in words else "n't"))
