"""The same jobs in GTID mode: a drained replica goes below the chosen one by its set."""
from __future__ import annotations

from collections.abc import Sequence

from orch_tools.client import Seen, address
from rehearsal.by_hand import Bridges, Failed, Job, Lost


class GtidJob(Job):
    """Operations and plans of recoveries by sets."""

    def is_within(self, name: str, one: str, other: str) -> bool:
        """Whether a set holds all of another; a server is asked."""
        return self.send(name, "SELECT GTID_SUBSET('%s', '%s') s" % (one, other))[0]["s"] == "1"

    def auto(self, r: str, to: str, login: bool = False) -> None:
        """r goes below `to` by its set: what `to` has, as it was seen, holds all of r's."""
        self.begin("Auto")
        live = self.look(r)
        if not live.stopped:
            raise Failed("Running %s" % r)
        self.check_loop(r, to)
        if not self.is_within(r, live.gtids, self.seen[to].gtids):
            raise Failed("Errant %s" % r)
        who = ", SOURCE_USER='%s', SOURCE_PASSWORD='%s'" % self.login + self.more if login or not live.source else ""
        self.send(r, "CHANGE REPLICATION SOURCE TO SOURCE_HOST='%s', SOURCE_PORT=%d, SOURCE_AUTO_POSITION=1%s" % (*address(to), who))

    def gather(self, failed: str, replicas: Sequence[str], bridges: Bridges, lost: Lost) -> tuple[str, list[str], dict[str, Seen]]:
        """Drain all, choose one, put the others below it by their sets."""
        drained: dict[str, Seen] = {}
        followers: list[str] = []
        for r in sorted(replicas):
            seen = self.drain(r, failed, lost)
            if seen:
                drained[r] = seen
        p = self.chosen(drained)
        for r in sorted(drained):
            if r == p:
                continue
            try:
                self.auto(r, p)
                self.start(r)
                followers.append(r)
            except Failed as reason:
                word = reason.cause.split()[0]
                lost[r] = "ahead %s" % drained[r].exec if word == "Errant" else "unreachable" if word.startswith("Unreach") else "moved"
        return p, followers, drained

    def recover_intermediate(self, failed: str, source: str, replicas: Sequence[str], bridges: Bridges) -> None:
        """The replicas of a dead intermediate master go below its source by their sets."""
        lost: Lost = {}
        followers: list[str] = []
        self.check_dead(failed)
        self.status(source)
        drained = {r: self.drain(r, failed, lost) for r in sorted(replicas)}
        for r in (r for r in sorted(replicas) if drained[r]):
            try:
                self.auto(r, source)
                self.start(r)
                followers.append(r)
            except Failed as reason:
                word = reason.cause.split()[0]
                lost[r] = "ahead %s" % drained[r].exec if word == "Errant" else "moved"
        gone = self.expel(lost)
        self.lines.append("successor %s" % source)
        self.lines += ["%s<%s" % (r, source) for r in followers]
        self.lines += ["%s %s%s" % (r, lost[r], " detached" if r in gone else "") for r in sorted(lost)]
