"""Each operation of orch's jobs as statements that are sent, and the plans of its commands and recoveries. They are written anew from
docs/COMMANDS.md, not from the program. What the servers do by them is compared with what the program foretells."""
from __future__ import annotations

import time
from collections.abc import Callable, Sequence
from typing import Any

from orch_tools.binary_log import Group, groups_of
from orch_tools.client import Client, Coord, Down, Seen, Servers, address, are_idle, has_read_all, pick
from orch_tools.plan import for_server
from orch_tools.reading import Server

RULES = ["prefer", "neutral", "prefer_not", "must_not"]


Bridges = dict[str, list[tuple[Coord, str, Coord]]]
Lost = dict[str, str]
Spot = tuple[Any, ...]


class Failed(Exception):
    """A job fails with this cause."""

    def __init__(self, cause: str) -> None:
        super().__init__(cause)
        self.cause = cause


class Job:
    """`bridges` are kept pairs of own end, source and executed coordinate. If a dead server's log is known, `places` has the ends of the transactions
    of each of its files: events that are no transaction take no room by it."""

    def __init__(self, client: Client, aliases: dict[str, str], login: tuple[str, str], wait: int = 400, more: str = "") -> None:
        self.servers, self.login, self.wait, self.more = Servers(client, aliases), login, wait, more
        self.seen: dict[str, Seen] = {}
        self.hands: set[str] = set()
        self.lines: list[str] = []
        self.remarks: list[str] = []
        self.sent: list[tuple[str | None, str]] = []
        self.before_operation: Callable[[str], None] | None = None
        self.rules: dict[str, str] = {}
        self.places: dict[int, list[int]] | None = None

    def send(self, name: str, statement: str) -> list[dict[str, str]]:
        """A statement of MySQL 8, in the syntax of the server."""
        self.sent.append((name, statement))
        try:
            return self.servers.ask(name, for_server(self.servers.kind(name), statement))
        except Down:
            raise Failed("Unreachable %s" % name) from None

    def begin(self, operation: str) -> None:
        """What a story does before an operation."""
        if self.before_operation:
            self.before_operation(operation)

    def look(self, name: str) -> Seen:
        """The status of a server, which must be reached."""
        try:
            return self.servers.look(name)
        except Down:
            raise Failed("Unreachable %s" % name) from None

    # ---- operations

    def status(self, name: str, source: str | None = None) -> Seen:
        """Notes a status; the server must be below that source."""
        self.begin("Status")
        seen = self.seen[name] = self.look(name)
        if source is not None and (seen.source != source or seen.detached):
            raise Failed("Moved %s %s" % (name, seen.source or "none"))
        return seen

    def stop(self, name: str) -> None:
        """Both threads off."""
        self.begin("Stop")
        self.send(name, "STOP REPLICA")
        self.hands.add(name)

    def stop_receiver(self, name: str) -> None:
        """The receiver off."""
        self.begin("StopReceiver")
        self.send(name, "STOP REPLICA IO_THREAD")
        self.hands.add(name)

    def start(self, name: str) -> None:
        """Both threads on, if it has a source."""
        self.begin("Start")
        if self.look(name).source:
            self.send(name, "START REPLICA")
        self.hands.discard(name)

    def until(self, name: str, aim: Coord) -> None:
        """It goes on up to a coordinate of its source."""
        self.begin("Until")
        if self.seen[name].exec < aim:
            self.send(name, "START REPLICA UNTIL SOURCE_LOG_FILE='%s', SOURCE_LOG_POS=%d" % (aim.file, aim.position))

    def wait_for(self, name: str, aim: Coord) -> None:
        """Waits until it has executed up to there."""
        self.begin("Await")
        for _ in range(self.wait + 1):
            seen = self.seen[name] = self.look(name)
            if seen.exec >= aim:
                return
            time.sleep(0.02)
        raise Failed("WaitSpent %s" % name)

    def is_same_place(self, name: str, one: Coord, other: Coord) -> bool:
        """Whether no transaction of the server's log ends between two coordinates."""
        low, high = min(one, other), max(one, other)
        for log in self.send(name, "SHOW BINARY LOGS") if low < high else []:
            if low.number <= int(log["Log_name"].rsplit(".", 1)[1]) <= high.number:
                events = self.send(name, "SHOW BINLOG EVENTS IN '%s'" % log["Log_name"])
                if any(low < group.last <= high for group in groups_of(events, self.servers.kind(name).maria)):
                    return False
        return True

    def check_spot(self, name: str, live: Seen, expected: Spot) -> None:
        """The server is at the expected position, with both threads off."""
        spot = "%s %s" % (live.source, live.exec) if live.source else "nowhere"
        if not live.stopped:
            raise Failed("Running %s" % name)
        if expected[0] == "at" and (live.source, live.exec) != expected[1:]:
            if live.source != expected[1] or not self.is_same_place(live.source, live.exec, expected[2]):
                raise Failed("Interfered %s expected %s %s found %s" % (name, expected[1], expected[2], spot))
            self.remarks.append("%s: it stands at %s, which is the place of %s" % (name, live.exec, expected[2]))
        if expected[0] == "end" and live.end != expected[1]:
            if not self.is_same_place(name, live.end, expected[1]):
                raise Failed("Interfered %s expected end %s found end %s" % (name, expected[1], live.end))
            self.remarks.append("%s: its log's end went from %s to %s without a transaction" % (name, expected[1], live.end))

    def check_loop(self, name: str, up: str | None) -> None:
        """The new source isn't below the server itself."""
        seen: set[str] = set()
        while up and up not in seen:
            if up == name:
                raise Failed("Loop %s" % name)
            seen.add(up)
            try:
                up = self.look(up).source
            except Failed:
                return

    def attach(self, name: str, expected: Spot, to: str, at: Coord, login: bool = False) -> None:
        """`expected` is ("at", source, executed) or ("end", own end). The test and the change are two statements."""
        self.begin("Attach")
        live = self.look(name)
        self.check_spot(name, live, expected)
        self.check_loop(name, to)
        who = ", SOURCE_USER='%s', SOURCE_PASSWORD='%s'" % self.login + self.more if login or not live.source else ""
        host, port = address(to)
        self.send(name, "CHANGE REPLICATION SOURCE TO SOURCE_HOST='%s', SOURCE_PORT=%d, SOURCE_LOG_FILE='%s', SOURCE_LOG_POS=%d, SOURCE_AUTO_POSITION=0%s"
                  % (host, port, at.file, at.position, who))

    def up(self, r: str, x: str) -> None:
        """r, at the end of x's log, goes to x's source."""
        self.attach(r, ("at", x, self.seen[x].end), self.seen[x].source, self.seen[x].exec)

    def down(self, r: str, d: str) -> None:
        """r, which is at d's position, goes below d."""
        self.attach(r, ("at", self.seen[d].source, self.seen[d].exec), d, self.seen[d].end)

    def about(self, s: str, x: str, seen: Seen | None = None) -> None:
        """s, the source of x, goes below x."""
        seen = seen or self.seen[x]
        self.attach(s, ("end", seen.exec), x, seen.end)

    def same(self, r: str) -> None:
        """r goes on at its position."""
        self.attach(r, ("at", self.seen[r].source, self.seen[r].exec), self.seen[r].source, self.seen[r].exec)

    def reset(self, name: str) -> None:
        """It has no source any more."""
        self.begin("Reset")
        self.send(name, "STOP REPLICA")
        self.send(name, "RESET REPLICA ALL")

    def detach(self, name: str) -> None:
        """Two slashes before its source's host. One that goes by auto position keeps that, and any other its coordinate."""
        self.begin("Detach")
        self.send(name, "STOP REPLICA")
        seen = self.look(name)
        if seen.source and not seen.detached:
            host, port = pick(seen.row, "Master_Host", "Source_Host"), pick(seen.row, "Master_Port", "Source_Port")
            at = "" if seen.row.get("Auto_Position") == "1" else ", SOURCE_LOG_FILE='%s', SOURCE_LOG_POS=%d, SOURCE_AUTO_POSITION=0" % (
                seen.exec.file, seen.exec.position)
            self.send(name, "CHANGE REPLICATION SOURCE TO SOURCE_HOST='//%s', SOURCE_PORT=%s%s" % (host, port, at))

    def set_read_only(self, name: str, on: bool) -> None:
        """Whether it refuses clients' writes."""
        self.begin("ReadOnly")
        if not self.servers.kind(name).maria:
            self.send(name, "SET GLOBAL super_read_only=%s" % ("ON" if on else "OFF"))
        self.send(name, "SET GLOBAL read_only=%s" % ("ON" if on else "OFF"))

    def passing(self, operation: Callable[..., None], *words: Any) -> None:
        """An operation whose failure changes nothing."""
        try:
            operation(*words)
        except Failed:
            pass

    # ---- plans of moves

    def level(self, r: str, aim: Coord) -> None:
        """r comes to that coordinate."""
        self.until(r, aim)
        self.wait_for(r, aim)

    def move_up(self, i: str, x: str, g: str) -> None:
        """i goes from x to x's source g."""
        self.stop(i)
        self.stop(x)
        self.status(x, g)
        self.status(i, x)
        self.level(i, self.seen[x].end)
        self.stop(i)
        self.up(i, x)
        self.start(i)
        self.start(x)
        self.status(i)
        self.lines.append("%s<%s" % (i, g))

    def move_below(self, i: str, d: str, s: str) -> None:
        """i goes below its sibling d; s is the source of both."""
        self.stop(i)
        self.stop(d)
        self.status(i, s)
        self.status(d, s)
        self.level(i, self.seen[d].exec)
        self.level(d, self.seen[i].exec)
        self.stop(i)
        self.stop(d)
        self.status(d, s)
        self.down(i, d)
        self.start(d)
        self.start(i)
        self.status(i)
        self.lines.append("%s<%s" % (i, d))

    def take_master(self, i: str, x: str, g: str) -> None:
        """i and its source x change places below g."""
        self.stop(i)
        self.stop(x)
        self.status(x, g)
        self.status(i, x)
        self.level(i, self.seen[x].end)
        self.stop(i)
        seen = self.status(i, x)
        self.up(i, x)
        self.about(x, i, seen)
        self.start(i)
        self.start(x)
        self.status(i)
        self.status(x)
        self.lines += ["%s<%s" % (i, g), "%s<%s" % (x, i)]

    def repoint(self, i: str, x: str) -> None:
        """i goes on below its source x."""
        self.stop(i)
        self.status(i, x)
        self.same(i)
        self.start(i)
        self.status(i)
        self.lines.append("%s<%s" % (i, x))

    def run(self, plan: Callable[..., None], *words: Any) -> tuple[str, Any]:
        """Done lines, or the cause: a plan that fails starts the servers that it has stopped."""
        try:
            plan(*words)
            return "done", self.lines
        except Failed as reason:
            for name in sorted(self.hands):
                self.passing(self.start, name)
            return "failed", reason.cause

    # ---- plans of recoveries

    def wait_for_relay(self, r: str) -> None:
        """Until r has executed all that it has received, except a part of a transaction. There its applier finds nothing more to execute, and waits."""
        at, still = None, 0
        for _ in range(self.wait):
            seen = self.look(r)
            still = still + 1 if has_read_all(seen.row) and seen.exec == at else 0
            if not seen.sql or seen.read == seen.exec or still > 50 and are_idle(self.servers.ask(r, "SHOW PROCESSLIST")):
                return
            at = seen.exec
            time.sleep(0.02)

    def drain(self, r: str, failed: str, lost: Lost) -> Seen | None:
        """r executes what it has received, and stops."""
        try:
            self.stop_receiver(r)
            self.wait_for_relay(r)
            self.stop(r)
            seen = self.status(r)
        except Failed:
            lost[r] = "unreachable"
            return None
        if seen.source != failed or seen.detached:
            lost[r] = "moved"
            return None
        return seen

    def key(self, at: Coord) -> Coord:
        """A coordinate by the transactions that end at or before it."""
        if self.places is None:
            return at
        return Coord(at.number, sum(1 for end in self.places.get(at.number, []) if end <= at.position))

    def rule(self, name: str) -> int:
        """The rank of a server's promotion rule."""
        return RULES.index(self.rules.get(name, "neutral"))

    def chosen(self, drained: dict[str, Seen]) -> str:
        """The one that has executed most, then by rule and name."""
        fit = [r for r in drained if drained[r].end and self.rule(r) < 3]
        if not fit:
            for r in drained:
                self.passing(self.start, r)
            raise Failed("NoCandidate")

        def rank(key: Callable[[Coord], Coord]) -> str:
            return min(fit, key=lambda r: (-key(drained[r].exec).number, -key(drained[r].exec).position, self.rule(r), r))
        found, raw = rank(self.key), rank(lambda at: at)
        if found != raw:
            self.remarks.append("by coordinates as they are %s would be chosen; it stands at the place of %s" % (raw, found))
        return found

    def place_below(self, failed: str, p: str, seen: Seen, bridges: Bridges) -> Coord | None:
        """The coordinate at which a drained replica goes on below the chosen one: its end, by a kept bridge, or none."""
        own, most = self.key(seen.exec), self.key(self.seen[p].exec)
        if own == most:
            return self.seen[p].end
        if own > most:
            return None
        return next((end for end, source, at in reversed(bridges.get(p, [])) if source == failed and self.key(at) == own), None)

    def gather(self, failed: str, replicas: Sequence[str], bridges: Bridges, lost: Lost) -> tuple[str, list[str], dict[str, Seen]]:
        """Drain all, choose one, attach the others."""
        drained: dict[str, Seen] = {}
        followers: list[str] = []
        for r in sorted(replicas):
            seen = self.drain(r, failed, lost)
            if seen:
                drained[r] = seen
        p = self.chosen(drained)
        for r in sorted(drained):
            if r == p:
                continue
            at = self.place_below(failed, p, drained[r], bridges)
            if at is None:
                word = "ahead" if self.key(drained[r].exec) > self.key(drained[p].exec) else "behind"
                lost[r] = "%s %s" % (word, drained[r].exec)
                continue
            try:
                self.attach(r, ("at", failed, drained[r].exec), p, at)
                self.start(r)
                followers.append(r)
            except Failed as reason:
                lost[r] = "unreachable" if reason.cause.startswith("Unreach") else "moved"
        return p, followers, drained

    def regroup(self, failed: str, replicas: Sequence[str], bridges: Bridges) -> None:
        """The plan of regroup-replicas."""
        lost: Lost = {}
        p, followers, _ = self.gather(failed, replicas, bridges, lost)
        for r in sorted(lost):
            self.passing(self.start, r)
        self.start(p)
        self.lines.append(p)
        self.lines += ["%s<%s" % (r, p) if r in followers else "%s %s" % (r, lost[r]) for r in sorted(replicas) if r != p]

    def regroup_by_marks(self, failed: str, replicas: Sequence[str]) -> None:
        """The plan of regroup-replicas-pgtid over replicas that all find their place: after as many transactions of the best one's log as their own has."""
        drained = {r: self.drain(r, failed, {}) for r in sorted(replicas)}
        p = self.chosen({r: seen for r, seen in drained.items() if seen})
        self.lines.append(p)
        log = self.read_log(p)
        for r, seen in drained.items():
            if r != p and seen:
                at = log[len(self.read_log(r)) - 1].last
                self.attach(r, ("at", failed, seen.exec), p, Coord(at.number, at.position, "mysql-bin.%06d" % at.number))
                self.start(r)
                self.lines.append("%s<%s" % (r, p))
        self.start(p)

    def read_log(self, name: str) -> list[Group]:
        """The transactions of a server's log."""
        return Server(name, self.servers.client, self.servers.aliases).read().groups

    def check_dead(self, failed: str) -> None:
        """The failed server isn't reached."""
        try:
            self.status(failed)
        except Failed:
            return
        raise Failed("Reachable %s" % failed)

    def expel(self, lost: Lost) -> set[str]:
        """Detaches those that are lost as `ahead` or `behind`, and starts those that are elsewhere."""
        gone: set[str] = set()
        for r in sorted(lost):
            if lost[r].startswith(("ahead", "behind")):
                self.passing(self.detach, r)
                gone.add(r)
            elif lost[r].startswith("moved"):
                self.passing(self.start, r)
        return gone

    def swap(self, p: str, q: str) -> bool:
        """Whether q, which follows p, has taken its place."""
        try:
            self.status(p)
            self.status(q, p)
            self.level(q, self.seen[p].end)
            self.stop(q)
            self.status(q, p)
            self.reset(q)
        except Failed:
            self.passing(self.start, q)
            return False
        try:
            self.about(p, q)
            self.start(p)
            return True
        except Failed:
            self.attach(q, ("end", self.seen[q].end), p, self.seen[q].exec, login=True)
            self.start(q)
            return False

    def recover_master(self, failed: str, replicas: Sequence[str], bridges: Bridges) -> None:
        """The plan of recover, of a master."""
        lost: Lost = {}
        self.check_dead(failed)
        p, followers, drained = self.gather(failed, replicas, bridges, lost)
        gone = self.expel(lost)
        better = sorted((self.rule(r), r) for r in followers if drained[r].end and self.rule(r) < self.rule(p))
        promoted = better[0][1] if better and self.swap(p, better[0][1]) else p
        if promoted == p:
            self.reset(p)
        self.set_read_only(promoted, False)
        self.status(promoted)
        self.lines.append("promoted %s" % promoted)
        pairs = [(r, p) for r in followers if r != promoted] + ([(p, promoted)] if promoted != p else [])
        self.lines += ["%s<%s" % pair for pair in sorted(pairs)]
        self.lines += ["%s %s%s" % (r, lost[r], " detached" if r in gone else "") for r in sorted(lost)]

    def recover_intermediate(self, failed: str, source: str, replicas: Sequence[str], bridges: Bridges) -> None:
        """The plan of recover, of an intermediate master."""
        lost: Lost = {}
        followers: list[str] = []
        self.check_dead(failed)
        self.status(source)
        drained = {r: self.drain(r, failed, lost) for r in sorted(replicas)}
        for r in (r for r in sorted(replicas) if drained[r]):
            own = self.key(drained[r].exec)
            at = next((at for end, above, at in reversed(bridges.get(failed, [])) if above == source and self.key(end) == own), None)
            if at is None:
                lost[r] = "behind %s" % drained[r].exec
                continue
            self.attach(r, ("at", failed, drained[r].exec), source, at)
            self.start(r)
            followers.append(r)
        gone = self.expel(lost)
        self.lines.append("successor %s" % source)
        self.lines += ["%s<%s" % (r, source) for r in followers]
        self.lines += ["%s %s%s" % (r, lost[r], " detached" if r in gone else "") for r in sorted(lost)]

    # ---- a takeover

    def trail(self, r: str, m: str, d: str, lost: Lost, followers: list[str]) -> None:
        """r comes to where d has stopped, and goes below it."""
        at = self.seen[d].exec
        try:
            if self.status(r).source != m:
                lost[r] = "moved"
                return
            self.level(r, at)
            self.stop(r)
            if self.status(r).exec == at:
                self.down(r, d)
                followers.append(r)
            else:
                lost[r] = "behind %s" % self.seen[r].exec
            self.start(r)
        except Failed as reason:
            lost[r] = "unreachable" if reason.cause.startswith("Unreach") else "behind"
            self.passing(self.start, r)

    def gather_takeover(self, m: str, d: str, replicas: Sequence[str], lost: Lost, followers: list[str]) -> None:
        """All come to where m has stopped, and go below d."""
        self.status(m)
        self.status(d, m)
        self.level(d, self.seen[m].end)
        self.stop(d)
        self.status(d, m)
        for r in sorted(replicas):
            if r != d:
                self.trail(r, m, d, lost, followers)
        self.reset(d)

    def takeover(self, m: str, d: str, replicas: Sequence[str]) -> None:
        """The plan of graceful-master-takeover."""
        lost: Lost = {}
        followers: list[str] = []
        if self.status(m).source:
            raise Failed("Moved %s" % m)
        self.set_read_only(m, True)
        try:
            self.gather_takeover(m, d, replicas, lost, followers)
        except Failed:
            self.passing(self.set_read_only, m, False)
            raise
        try:
            self.about(m, d)
        except Failed:
            seen = self.seen[d]
            self.passing(self.attach, d, ("end", seen.end), m, seen.exec, True)
            self.passing(self.start, d)
            self.passing(self.set_read_only, m, False)
            raise
        self.set_read_only(d, False)
        self.status(m)
        self.status(d)
        self.hands.discard(d)
        self.lines.append("promoted %s" % d)
        self.lines += ["%s<%s" % pair for pair in sorted([(r, d) for r in followers] + [(m, d)])]
        self.lines += ["%s %s" % (r, lost[r]) for r in sorted(lost)]
