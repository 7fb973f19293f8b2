#!/usr/bin/env python3
"""Writes the plans of recoveries, regroups and moves by GTIDs a second time, from the documents and a scenario alone (docs/REAL.md, "A plan's lines").

The tests compare them with the program's. It knows the book of the opening and of polls after failures, so it answers nothing for a
scenario with other turns. It knows coordinates of one file, so it answers nothing if a file has a limit, is flushed or purged.
"""
import json

from orch_tools.client import address, full
from rehearsal.print_plan import HEAD, STATUS, Paper

BRANCH = """\
# This is one branch: the expected one, as the book stands. Lines with "chosen" or "lost" say on what noted coordinates it depends.
# Where a condition fails, start the replicas that are stopped, read the servers again, and print the plan anew.
# A server that is reached again hasn't failed: don't go on.
# A line "by hand" wants a coordinate of the new source's log. Find it there: a pair that was kept of a working server may be wrong.
# No plan knows what the failed server executed and no replica received.
"""

RULES = {"prefer": 0, "neutral": 1, "prefer_not": 2, "must_not": 3}
RECOVERIES = ("recover", "regroup-replicas", "regroup-replicas-pgtid")


class Unwritten(Exception):
    """There is no second plan of this command over this scenario."""


class Server:
    """A server as the book knows it at the opening; coordinates are positions in the only file of a log."""

    def __init__(self, given: dict, sizes: list[int]) -> None:
        self.name = full(given["name"])
        self.source = full(given["source"]) if "source" in given else None
        self.detached = bool(given.get("detached"))
        self.reached = self.seen = given.get("up", True) and given.get("desk", True)
        self.logs, self.center = given.get("logs", True), given.get("dc", "")
        self.rule = RULES[given.get("rule", "neutral")]
        self.auto = bool(given.get("auto"))
        self.own = self.executed = 4 + sum(sizes[:given.get("executed", len(sizes))])
        self.read = int(given["read"].split(":")[1]) if "read" in given else self.executed
        self.applies = given.get("sql", not self.detached)

    @property
    def expected(self) -> int:
        """The position at which it stops once it is drained."""
        return self.read if self.applies else self.executed


class Book:
    """What is known of the servers of a scenario."""

    def __init__(self, text: str) -> None:
        scenario = json.loads(text)
        turns = scenario.get("turns", [])
        if any(turn[0] not in ("fail", "polls") for turn in turns) or turns and turns[-1] != ["polls"]:
            raise Unwritten("it has other turns than failures, and polls after them")
        if any(set(one) & {"limit", "flushes", "purged", "at", "until"} for one in scenario["servers"]):
            raise Unwritten("it has more than one file")
        self.gtid, self.pseudo = bool(scenario.get("gtid")), scenario.get("pseudo")
        given = {full(one["name"]): one for one in scenario["servers"]}
        self.servers = {name: Server(one, self.sizes(given, name)) for name, one in given.items() if one.get("known", True)}
        for turn in turns:
            if turn[0] == "fail":
                self.servers[full(turn[1])].reached = False

    def sizes(self, given: dict, name: str) -> list[int]:
        """The sizes of the transactions of the log at the top of a server's tree."""
        while "source" in given[name]:
            name = full(given[name]["source"])
        return [size for _, size, count in given[name].get("history", []) for _ in range(count)]

    def replicas(self, name: str) -> list[Server]:
        """Those that are attached to a server, in name order."""
        return sorted((one for one in self.servers.values() if one.source == name and not one.detached), key=lambda one: address(one.name))

    def rank(self, failed: str, one: Server) -> tuple:
        """The order of a choice among replicas at one position."""
        return 2 * one.rule + (one.center != self.servers[failed].center), address(one.name)


class RecoveryPaper(Paper):
    """Lines of recoveries and of moves by GTIDs."""

    def __init__(self, book: Book, failed: str) -> None:
        Paper.__init__(self)
        self.book, self.failed = book, failed

    # ---- lines

    def nothing(self, name: str, *notes: str) -> None:
        """A line that sends nothing."""
        self.lines.append("%d %s -- %s" % (len(self.lines) + 1, self.letter(name), "; ".join(notes)))

    def away(self, name: str, *why: str) -> None:
        """Nothing is done while the server isn't reached."""
        self.line(name, STATUS, *why, "only while it isn't reached")

    def passes(self, name: str, other: str, less: bool) -> str:
        """The first has executed as much as the second, or more."""
        return "only where %s.exec %s %s.exec" % (self.letter(name), ">" if less else ">=", self.letter(other))

    def drain(self, one: Server) -> None:
        """A replica comes to the end of what it has received."""
        if not one.reached:
            return self.away(one.name, "lost, unreachable")
        letter = self.letter(one.name)
        self.line(one.name, "STOP REPLICA IO_THREAD")
        self.line(one.name, STATUS, "note " + letter, "again until %s.exec = %s.read or its applier is off" % (letter, letter))
        self.stop(one.name)
        return self.status(one.name, self.failed)

    def by_set(self, name: str, to: str) -> None:
        """A change of source by GTIDs."""
        a, b = self.letter(name), self.letter(to)
        host, port = address(to)
        self.line(name, "CHANGE REPLICATION SOURCE TO SOURCE_HOST='%s', SOURCE_PORT=%d, SOURCE_AUTO_POSITION=1" % (host, port),
                  "only where %s.gtids are in %s.gtids, stopped" % (a, b), "only where %s.purged is in %s.gtids" % (b, a))

    def by_match(self, name: str, to: str, first: str, *notes: str) -> None:
        """A change of source by a coordinate that a hand finds."""
        a = self.letter(name)
        host, port = address(to)
        self.line(name, "%sCHANGE REPLICATION SOURCE TO SOURCE_HOST='%s', SOURCE_PORT=%d, SOURCE_LOG_FILE=:%s.match.file, "
                  "SOURCE_LOG_POS=:%s.match.pos, SOURCE_AUTO_POSITION=0" % (first, host, port, a, a), *notes)

    def by_hand(self, name: str, to: str, *notes: str) -> None:
        """The same where the last transaction is found."""
        a = self.letter(name)
        self.by_match(name, to, "SHOW BINLOG EVENTS; ", "note %s.match, by hand: the place in the log of %s behind the last transaction that %s has executed"
                      % (a, self.letter(to), a), *notes, "only where %s is below %s at %s.exec, stopped" % (a, self.letter(self.failed), a))

    # ---- a choice

    def order(self, one: Server) -> tuple:
        """What is chosen comes first."""
        return (-one.expected,) + self.book.rank(self.failed, one)

    def choose(self, drained: list[Server]) -> Server | None:
        """The replica that is promoted."""
        return min((one for one in drained if one.logs and one.rule != RULES["must_not"]), key=self.order, default=None)

    def lot(self, chosen: Server, one: Server, matches: bool) -> bool:
        """How one of the others goes below the chosen one, and whether it does."""
        a, b = one.name, chosen.name
        if matches:
            self.line(a, "SHOW BINLOG EVENTS", "note %s.match, by hand: the place in the log of %s behind all that %s shows behind its last mark"
                      % (self.letter(a), self.letter(b), self.letter(a)))
            self.by_match(a, b, "", "only where %s stands as it did then, stopped" % self.letter(a))
        elif self.book.gtid and one.expected <= chosen.expected:
            self.by_set(a, b)
        elif self.book.gtid:
            self.nothing(a, "lost, ahead of " + self.letter(b), self.passes(a, b, True))
            return False
        elif one.expected == chosen.expected:
            self.down(a, b)
        elif one.expected < chosen.expected and chosen.seen and one.expected == chosen.executed:
            self.by_hand(a, b, self.passes(b, a, True))
        else:
            behind = one.expected < chosen.expected
            more, less = (b, a) if behind else (a, b)
            self.nothing(a, "lost, %s %s" % ("behind" if behind else "ahead of", self.letter(b)), self.passes(more, less, True))
            return False
        self.start(a)
        return True

    def gather(self, replicas: list[Server], matches: bool, regroup: bool) -> None:
        """The replicas are drained, one is chosen, and the others go below it."""
        for one in replicas:
            self.drain(one)
        drained = [one for one in replicas if one.reached]
        chosen = self.choose(drained)
        if chosen is None:
            return
        others = [one for one in drained if one is not chosen]
        for one in others:
            if one.logs and one.rule != RULES["must_not"]:
                self.nothing(chosen.name, "chosen before " + self.letter(one.name),
                             self.passes(chosen.name, one.name, self.book.rank(self.failed, one) < self.book.rank(self.failed, chosen)))
        followers = [one for one in others if self.lot(chosen, one, matches)]
        for one in others:
            if one not in followers:
                (self.start if regroup else self.detach)(one.name)
        if regroup:
            return self.start(chosen.name)
        return self.crown(chosen, followers)

    def crown(self, chosen: Server, followers: list[Server]) -> None:
        """The chosen one takes writes, or a better one in its place."""
        better = [one for one in followers if one.logs and self.book.rank(self.failed, one)[0] < self.book.rank(self.failed, chosen)[0]]
        p, new = chosen.name, chosen.name
        if better:
            new = min(better, key=lambda one: self.book.rank(self.failed, one)).name
            self.status(p)
            self.status(new, p)
            self.until(new, (p, "end"))
            self.stop(new)
            self.status(new, p)
        self.reset(new)
        if better:
            self.about(p, new)
            self.start(p)
        self.read_only(new, False)
        self.status(new)

    # ---- recoveries

    def recover(self) -> None:
        """A dead master's replicas, or those of a dead intermediate master."""
        self.away(self.failed)
        source, replicas = self.book.servers[self.failed].source, self.book.replicas(self.failed)
        if source is None:
            return self.gather(replicas, False, False)
        self.status(source)
        for one in replicas:
            self.drain(one)
        left = []
        kept = self.book.servers[self.failed]
        for one in (one for one in replicas if one.reached):
            if self.book.gtid and self.book.servers[source].logs:
                self.by_set(one.name, source)
                self.start(one.name)
            elif not self.book.gtid and kept.logs and kept.seen and one.expected == kept.own:
                self.by_hand(one.name, source)
                self.start(one.name)
            else:
                self.nothing(one.name, "lost, no kept pair of " + self.letter(self.failed))
                left.append(one)
        for one in left:
            self.detach(one.name)
        return None

    # ---- moves by GTIDs

    def auto(self, name: str, to: str) -> None:
        """A replica goes below another server once that has all that it executed."""
        self.stop(name)
        self.status(name)
        self.line(to, "SELECT WAIT_FOR_EXECUTED_GTID_SET(':%s.gtids', 1)" % self.letter(name), "again until it answers 0", "until then its applier must be on")
        self.status(to)
        self.by_set(name, to)
        self.start(name)
        self.status(name)

    def own(self, name: str, host: str, word: str) -> None:
        """A server in auto position keeps it."""
        server = self.book.servers[name]
        if not server.auto:
            return Paper.own(self, name, host, word)
        a = self.letter(name)
        self.line(name, "STOP REPLICA; %s; CHANGE REPLICATION SOURCE TO SOURCE_HOST='%s:%s.source.host', SOURCE_PORT=:%s.source.port" % (STATUS, host, a, a),
                  "note " + a, "only where %s is %s by auto position, stopped" % (a, word))
        return None

    def move_by_gtids(self, command: str, i: str, d: str | None) -> None:
        """A command of GTIDs, or of one server where GTIDs are used."""
        if command in ("move-gtid", "relocate", "repoint") and d:
            self.auto(i, d)
        elif command in ("move-replicas-gtid", "relocate-replicas"):
            for one in self.book.replicas(i):
                if one.name != d:
                    self.auto(one.name, d)
        elif command == "enable-gtid":
            source = self.book.servers[i].source
            self.stop(i)
            self.status(i, source)
            self.status(source)
            self.by_set(i, source)
            self.start(i)
            self.status(i)
        elif command == "detach-replica":
            self.detach(i)
            self.status(i)
        elif command == "reattach-replica":
            self.reattach(i)
            self.start(i)
            self.status(i)
        else:
            raise Unwritten(command)


def plan_text(command: str, i: str, d: str | None, text: str) -> str:
    """The plan of a recovery or of a command over servers that use GTIDs; Unwritten where there is none here."""
    book = Book(text)
    paper = RecoveryPaper(book, i)
    if command in RECOVERIES:
        if command == "recover":
            paper.recover()
        else:
            paper.gather(book.replicas(i), command == "regroup-replicas-pgtid", True)
        return paper.text().replace(HEAD, HEAD + BRANCH)
    if not book.gtid:
        raise Unwritten(command)
    paper.move_by_gtids(command, i, d)
    return paper.text()
