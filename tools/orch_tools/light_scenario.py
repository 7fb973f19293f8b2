"""Servers that were read without their logs as a scenario, with the map of its coordinates."""
from __future__ import annotations

from typing import Any

from orch_tools.client import NOWHERE
from orch_tools.gtid_sets import GtidSet
from orch_tools.light_bytes import GUESSED
from orch_tools.light_import import Light
from orch_tools.light_reading import Problem, Status
from orch_tools.light_tree import Tree
from orch_tools.model_log import model_text
from orch_tools.notes import Notes

# The most servers times transactions of a scenario, and the most transactions of its own that a server gets.
MOST, MOST_OWN = 4000000, 1000
# How many transactions are set aside for what all servers have.
BASE = 4096

Told = dict[str, Any]


class TooMuch(Exception):
    """More than a scenario holds."""


class LightWriter:
    """Servers as a scenario. `notes` are all that it doesn't say."""

    def __init__(self, light: Light) -> None:
        self.light, self.notes = light, Notes()
        self.trees = light.trees(MOST // max(1, len(light.servers)) - BASE)
        self.tree_of = {server.name: tree for tree in self.trees for server in tree.members}
        self.lead_of = {kin.name: tree for tree in self.trees for kin in tree.kins}
        self.jobs = 0

    def is_told(self, tree: Tree) -> bool:
        """Whether anything is known of a tree: of a root that isn't reached and has no replicas there is nothing."""
        return tree.root.up or len(tree.members) > 1

    # ---- the scenario

    def scenario(self) -> Told:
        """The scenario, made once. TooMuch if it has more servers times transactions than one may have."""
        servers = {name: self.server(server) for name, server in self.light.servers.items()}
        turns = [turn for tree in self.trees if self.is_told(tree) for turn in self.errants(tree, servers)]
        transactions = sum(run[2] for told in servers.values() for run in told.get("history", [])) + sum(turn[0] == "write" for turn in turns)
        if len(servers) * transactions > MOST:
            raise TooMuch("%d servers with %d transactions, or pieces of a million bytes; a scenario has at most %d of both together: leave servers "
                          "out (--without)" % (len(servers), transactions, MOST))
        head: Told = {"version": 1, "gtid": True} if self.light.gtid else {"version": 1}
        return dict(head, servers=list(servers.values()), turns=turns)

    def server(self, server: Status) -> Told:
        """What the scenario has of one server."""
        told: Told = {"name": server.name} if server.up else {"name": server.name, "up": False}
        tree, lead = self.tree_of[server.name], self.lead_of.get(server.name)
        if not self.is_told(tree):
            return told
        known = {"uuid": server.uuid, "server_id": server.server_id, "version": server.version}
        told.update({key: value for key, value in known.items() if value})
        told["cluster"] = (lead or tree).root.name
        if server.up:
            told["read_only"] = server.read_only
        if not server.logs:
            told["logs"] = False
        if lead:
            return {**told, **self.kin(lead, server)}
        told.update({"history": runs_of(tree.origins, tree.line.sizes)} if server is tree.root else self.replica(tree, server))
        return {**told, **self.log(server, tree.flushes(server))} if server.logs and server.end else told

    def log(self, server: Status, flushes: list[int]) -> Told:
        """The ends of its log's files, and the first one that it keeps."""
        told: Told = {"flushes": flushes} if flushes else {}
        if server.first_kept > 1:
            told["purged"] = min(server.first_kept, 1 + len(flushes))
        return told

    def replica(self, tree: Tree, server: Status) -> Told:
        """What the scenario has of a server as a replica."""
        above = self.light.servers[server.source or ""]
        executed, at, read = tree.coordinates(server)
        told: Told = {"source": above.name, "executed": executed}
        if at is not None:
            told.update(at=at, read=read)
        if not server.up:
            return told
        told.update(io=server.io != "No", sql=server.sql)
        if server.io not in ("No", "Yes") and above.up:
            told["feed"] = False
        if server.detached:
            told.update(detached=True, io=False, sql=False)
        if server.auto and self.light.gtid:
            told["auto"] = True
        if server.until:
            told["until"] = tree.until(server)
        return told

    def kin(self, lead: Tree, server: Status) -> Told:
        """Another root that has executed a prefix of a tree's history. It may have more of its own."""
        assert lead.chain
        shared, own = lead.place_of(server.executed), server.executed - lead.chain.whole
        many = min(own.size, MOST_OWN)
        if own:
            self.notes.add("kin", "it has no source, and %d transactions that %s lacks (%s)%s" % (own.size, lead.root.name, own, more_than(own.size)),
                           server.name)
        else:
            self.notes.add("kin", "it has no source, and nothing that %s lacks" % lead.root.name, server.name)
        origins, sizes = lead.origins[:shared] + [server.name] * many, lead.line.sizes[:shared] + [GUESSED] * many
        told: Told = {"history": runs_of(origins, sizes)}
        return {**told, **self.log(server, [0] * (server.end.number - 1))} if server.logs and server.end else told

    # ---- turns

    def errants(self, tree: Tree, servers: dict[str, Told]) -> list[list[Any]]:
        """Transactions of a replica's own: it takes so many writes while it is writable, and then refuses them again; who is below it and has them executes
        them."""
        turns: list[list[Any]] = []
        for name, own in tree.chain.errant.items() if tree.chain else []:
            many, told = min(own.size, MOST_OWN), servers[name]
            self.notes.add("errant",
                           "it has %d transactions that its source lacks (%s): turns of the scenario write them, %d bytes each, with numbers of the "
                           "scenario%s" % (own.size, own, GUESSED, more_than(own.size)), name)
            turns += [["write", name, GUESSED]] * many
            for lower in list(tree.below(self.light.servers[name]))[1:]:
                turns += self.passed_on(tree, lower, own, many)
            if told["read_only"]:
                self.jobs += 1
                turns += [["command", "set-read-only", {"i": name}], *([["job", self.jobs]] * 3)]
            told["read_only"] = False
        return turns + [["polls"]] if turns else []

    def passed_on(self, tree: Tree, lower: Status, own: GtidSet, many: int) -> list[list[Any]]:
        """The turns by which a server further below has executed the transactions of one above, too."""
        above = self.light.servers[lower.source or ""]
        if not lower.up or not above.up or not own & lower.executed:
            return []
        if own - lower.executed or above.executed - lower.executed or lower.io != "Yes" or not lower.sql:
            self.notes.add("errant", "it has executed transactions that a server above it wrote itself (%s): left out" % (own & lower.executed),
                           lower.name)
            return []
        return [["fetch", lower.name], ["apply", lower.name]] * many

    # ---- the map

    def map(self) -> Told:
        """For each coordinate that some server reports: whose log it is of, the scenario's, the server's, and who is there. Then what the transactions
        are."""
        coordinates: list[list[str | None]] = []
        clusters: Told = {}
        for tree in self.trees:
            if not self.is_told(tree) or tree.root.name in self.lead_of:
                continue
            clusters[tree.root.name] = {"gtid": bool(tree.chain), "start": tree.line.ends[0], "rows": [list(row) for row in tree.rows]}
            for server in tree.members:
                if server.end:
                    coordinates.append([server.name, model_text(tree.layout(server).end()), str(server.end), "its end"])
                if server.source and server.exec != NOWHERE:
                    _, at, read = tree.coordinates(server)
                    coordinates.append([server.source, at, str(server.exec), server.name + " executed"])
                    coordinates.append([server.source, read, str(server.read), server.name + " read"])
        return {"version": 1, "way": "light", "clusters": clusters, "coordinates": coordinates}

    # ---- notes

    def all_notes(self) -> Notes:
        """All notes: of the whole, of trees, and of servers."""
        found = Notes()
        self.note_limits(found)
        for notes in [self.light.notes, *(tree.notes for tree in self.trees), *(server.notes for server in self.light.servers.values()), self.notes]:
            found.take(notes)
        return found

    def note_limits(self, found: Notes) -> None:
        """What a reading of coordinates alone can't know."""
        if not self.light.gtid:
            found.add("own transactions unseen", "no GTIDs: a replica's own transactions aren't seen; if it has any, answers about it are wrong")
            found.add("sizes unknown", "no GTIDs: the scenario's transactions are pieces of at most a million bytes; what is missing is reported in bytes")
        for tree in self.trees:
            self.note_tree(found, tree)
        for name in [tree.root.name for tree in self.trees if not self.is_told(tree)]:
            found.add("kin", "%s isn't reached, and its source isn't known: taken for a master of its own. If it is a replica, give --below %s=SOURCE"
                      % (name, name))
        alone = [tree.root.name for tree in self.trees if tree.root.up and tree.root.name not in self.lead_of]
        if len(alone) > 1 and not self.light.gtid:
            found.add("kin", "no GTIDs: whether %s are of one history isn't known; each is taken for a cluster of its own" % ", ".join(alone))

    def note_tree(self, found: Notes, tree: Tree) -> None:
        """What can't be known of a tree."""
        for server in tree.members if self.is_told(tree) else []:
            replicas = tree.replicas(server)
            if replicas and server.source and not self.light.gtid:
                found.add("order only", "no GTIDs: the order of its replicas is known; what they lack is measured in bytes of its own log", server.name)
            if replicas and not server.up and not self.light.gtid:
                found.add("earlier pairs unknown",
                          "read after its death: pairs of coordinates polled earlier aren't known, so a replica reported as behind may be "
                          "level by one", server.name)
            if not server.up and server.source and not self.light.gtid:
                found.add("sizes unknown", "not reached, and no GTIDs: how far it had come in its source's log isn't known; taken for level with it",
                          server.name)
            if not server.up and server is tree.root and replicas and len([one for one in self.trees if self.is_told(one)]) > 1:
                found.add("kin", "not reached, and its source isn't known: taken for a master; give --below %s=SOURCE" % server.name, server.name)
        if len({server.version for server in tree.members if server.up}) > 1:
            found.add("settings", "the versions of its servers differ", tree.root.name)
        self.note_formats(found, [server for server in tree.members if server.up and server.binlog_format])

    def note_formats(self, found: Notes, members: list[Status]) -> None:
        """Whose binary logs have another format than others of the tree, or statements alone: a choice doesn't look at it."""
        differ = len({server.binlog_format for server in members}) > 1
        for server in members:
            if differ or server.binlog_format == "STATEMENT":
                found.add("settings", "binlog_format is %s%s" % (server.binlog_format, "; not of all servers" if differ else ""), server.name)


def more_than(many: int) -> str:
    """The end of a note if a server has more than it gets."""
    return "; the scenario has %d of them" % MOST_OWN if many > MOST_OWN else ""


def runs_of(origins: list[str], sizes: list[int]) -> list[list[Any]]:
    """A history as a scenario has it: equal transactions as one run."""
    runs: list[list[Any]] = []
    for origin, size in zip(origins, sizes):
        if runs and runs[-1][:2] == [origin, size]:
            runs[-1][2] += 1
        else:
            runs.append([origin, size, 1])
    return runs


def problem_line(name: str, problem: Problem) -> str:
    """A reason as it is printed."""
    return "%s: %s" % (name, problem.text) if name else problem.text
