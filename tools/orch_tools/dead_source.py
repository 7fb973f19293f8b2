"""The log of a source that isn't reached, as its replicas report it: what each has executed, and what lies in its relay log."""
from __future__ import annotations

import dataclasses
import re

from orch_tools.binary_log import Group, groups_of
from orch_tools.client import NOWHERE, Coord, Down, Refused, Row, number_of
from orch_tools.reading import Cant, Server


def relay_events(server: Server, log: str, position: int) -> list[Row]:
    """The events of a file of a relay log, from a position on."""
    from_there = " FROM %d" % position if position > 4 else ""
    return server.ask("SHOW RELAYLOG EVENTS IN '%s'%s" % (log, from_there))


def as_source_wrote(events: list[Row], base: str, file: int) -> int:
    """Gives the events of a relay log the source's coordinates, and returns the source's file after them. Pos is the relay log's, End_log_pos the
    source's: the source's Pos is its end less the event's length."""
    for event, after in zip(events, [*events[1:], None]):
        if after:
            event["Pos"] = str(int(event["End_log_pos"]) - (int(after["Pos"]) - int(event["Pos"])))
        if event["Event_type"] == "Rotate":
            found = re.match(r"(.*\.\d+);pos=(\d+)", event["Info"])
            if found and not found.group(1).startswith(base + "."):
                file = number_of(found.group(1))
        event["Log_name"] = "x.%06d" % file
    return file


def received(server: Server) -> list[Group]:
    """The transactions that a replica has received and not executed, with the source's coordinates."""
    assert server.status
    log, position = server.status.relay
    found: list[Group] = []
    if not log or server.status.exec == server.status.read:
        return found
    file = server.status.exec.number
    base, number = log.rsplit(".", 1)
    while True:
        try:
            events = relay_events(server, "%s.%s" % (base, number), position)
        except Refused:
            return found
        except Down as reason:
            raise Refused("%s: it went away while it was read (%s)" % (server.name, reason)) from None
        file = as_source_wrote(events, base, file)
        found += [group for group in groups_of(events, server.maria) if group.last > server.status.exec]
        number, position = "%0*d" % (len(number), int(number) + 1), 4


@dataclasses.dataclass
class Known:
    """What one replica reports: its first `executed` transactions it has executed, the rest it has received."""
    replica: Server
    executed: int
    have: list[Group]


class Dead:
    """A dead source and what its replicas know. Cant if these have transactions without GTIDs, because then nothing identifies them."""

    def __init__(self, server: Server, replicas: list[Server]) -> None:
        self.server = server
        self.notes: list[str] = []
        self.coords: dict[int, Coord] = {}
        self.known = [Known(replica, len(replica.groups), replica.groups + received(replica)) for replica in replicas]
        for one in self.known:
            if any(group.gtid is None for group in one.have):
                raise Cant("%s isn't reached, and its replica %s has no GTIDs in its log: what a dead source had can't be derived from it; "
                           "read it without --exact" % (server.name, one.replica.name))
        self.best: list[Group] = max((one.have for one in self.known), key=len, default=[])

    def place_coords(self) -> None:
        """The source's coordinates of places, as far as replicas report them."""
        place = {group.gtid: number for number, group in enumerate(self.best, 1)}
        for one in self.known:
            last = one.have[one.executed - 1] if one.executed else None
            status = one.replica.status
            if last is not None and last.gtid not in place:
                raise Cant("%s and its siblings have executed different transactions (%s): compare them by hand" % (one.replica.name, last.gtid))
            if status and status.exec != NOWHERE:
                self.coords[place[last.gtid] if last is not None else 0] = status.exec
            for group in one.have[one.executed:]:
                self.coords[place[group.gtid]] = group.last

    def rebuild(self) -> None:
        """Makes the source's log of what its replicas know."""
        dead, at = self.server, None
        self.place_coords()
        for number in range(len(self.best), 0, -1):
            at = self.coords.get(number, at)
            told = self.best[number - 1]
            end = at.position if at else 4
            dead.groups.append(Group(at.number if at else 1, end - told.size, told.origin, told.gtid, end, told.what))
        dead.groups.reverse()
        statuses = [one.replica.status for one in self.known if one.replica.status]
        files = [at.number for at in self.coords.values()] + [status.read.number for status in statuses if status.read != NOWHERE] or [1]
        first = self.known[0].replica
        dead.files, dead.logs, dead.rebuilt, dead.maria = list(range(min(files), max(files) + 1)), True, True, first.maria
        dead.server_id, dead.base_name = statuses[0].source_id, first.base_name
        dead.gtid_mode = all(one.replica.gtid_mode for one in self.known)
        dead.uuid = next((status.source_uuid for status in statuses if status.source_uuid), None)
        dead.version = max((one.replica.version or "0" for one in self.known), key=lambda version: [int(part) for part in version.split(".")])
        self.notes.append("%s: its log is what its replicas report: %d transactions; what none of them received isn't there" % (dead.name, len(self.best)))

    def check_rest(self, others: list[Server]) -> None:
        """Cant if a replica that doesn't log what it applies is ahead of all that the others report."""
        furthest = max(self.coords.values(), default=NOWHERE)
        for replica in others:
            if replica.status and max(replica.status.exec, replica.status.read) > furthest:
                raise Cant("%s has come to %s of %s, which isn't reached, and doesn't log what it applies: what lies up to there isn't known; "
                           "read it without --exact" % (replica.name, max(replica.status.exec, replica.status.read), self.server.name))
