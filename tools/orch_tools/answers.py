"""What the program prints, as values. Each of its lines has a fixed form (docs/COMMANDS.md)."""
from __future__ import annotations

import dataclasses
import re

SERVER = re.compile(
    r"server (?P<name>\S+) (?P<state>up|down) (?P<mode>rw|ro) executed (?P<executed>\d+) end (?P<end>\S+)"
    r" source (?P<source>\S+)(?P<detached> detached)?"
    r"(?: at (?P<at>\S+) read (?P<read>\S+) io (?P<io>on|off) sql (?P<sql>on|off)(?: until (?P<until>\S+))?(?P<auto> auto)?)?"
    r"(?: purged (?P<purged>\d+))?$")
RECOVERY = re.compile(
    r"recovery (?P<id>\d+) (?P<cluster>.+) (?P<kind>master|intermediate|takeover) (?P<failed>\S+) begun (?P<begun>\d+)"
    r" (?:open|ended (?P<ended>\d+) (?P<outcome>promoted \S+|failed \S+|interrupted)) (?P<acked>acked|unacked)$")
LOST = re.compile(r"(?P<name>\S+:\d+) (?P<why>ahead|behind|unreachable|moved|not logging|must not|purged|NoMark|Mismatch)\b"
                  r"(?: (?P<value>(?!detached$).*?))?(?P<detached> detached)?$")
BELOW = re.compile(r"(\S+:\d+)<(\S+:\d+)$")
REPLY = re.compile(r"\d+ (?P<turn>.+?): (?P<reply>(?:refused|failed) .*)$")


@dataclasses.dataclass(frozen=True)
class Server:
    """A line of the tables. If a server has no source, `at` to `until` are None."""
    name: str
    state: str
    mode: str
    executed: int
    end: str
    source: str | None
    detached: bool
    at: str | None
    read: str | None
    io: str | None
    sql: str | None
    until: str | None
    auto: bool
    purged: int

    @property
    def is_up(self) -> bool:
        """Whether the server is up."""
        return self.state == "up"


@dataclasses.dataclass(frozen=True)
class Recovery:
    """A line of a recovery. An unended one has the outcome `open`."""
    number: int
    cluster: str
    kind: str
    failed: str
    outcome: str
    acked: bool


@dataclasses.dataclass
class Tables:
    """The lines that precede the tables, the servers by name, the recoveries, and the count of errant writes."""
    lines: list[str]
    servers: dict[str, Server]
    recoveries: list[Recovery]
    errant: int


@dataclasses.dataclass(frozen=True)
class Lost:
    """Why a replica is lost, with the line's own value, and whether it was detached."""
    name: str
    why: str
    value: str
    detached: bool


@dataclasses.dataclass
class Outcome:
    """The done lines of a recovery, a regroup or a takeover. `others` are the lines that name no server, as hooks' are."""
    promoted: str | None = None
    successor: str | None = None
    below: dict[str, str] = dataclasses.field(default_factory=dict)
    lost: dict[str, Lost] = dataclasses.field(default_factory=dict)
    others: list[str] = dataclasses.field(default_factory=list)

    @property
    def chosen(self) -> str | None:
        """The server that the others are below when the recovery ends."""
        return self.promoted or self.successor


def server_of(found: re.Match[str]) -> Server:
    """The server of a line of the tables."""
    parts = found.groupdict()
    return Server(parts["name"], parts["state"], parts["mode"], int(parts["executed"]), parts["end"],
                  None if parts["source"] == "none" else parts["source"], bool(parts["detached"]), parts["at"], parts["read"],
                  parts["io"], parts["sql"], parts["until"], bool(parts["auto"]), int(parts["purged"] or 1))


def recovery_of(found: re.Match[str]) -> Recovery:
    """The recovery of a line of the tables."""
    parts = found.groupdict()
    return Recovery(int(parts["id"]), parts["cluster"], parts["kind"], parts["failed"], parts["outcome"] or "open",
                    parts["acked"] == "acked")


def tables_of(out: str) -> Tables:
    """The tables that a run, or a command with --tables, prints."""
    told = Tables([], {}, [], 0)
    for line in out.splitlines():
        server, recovery = SERVER.match(line), RECOVERY.match(line)
        if server:
            told.servers[server["name"]] = server_of(server)
        elif recovery:
            told.recoveries.append(recovery_of(recovery))
        elif re.match(r"errant \d+$", line):
            told.errant = int(line.split()[1])
        else:
            told.lines.append(line)
    return told


def lost_of(line: str) -> Lost | None:
    """The lost replica of a line, if it is one."""
    found = LOST.match(line)
    return Lost(found["name"], found["why"], (found["value"] or "").strip(), bool(found["detached"])) if found else None


def outcome_of(lines: list[str]) -> Outcome:
    """The done lines of a recovery, a regroup or a takeover."""
    told = Outcome()
    for line in lines:
        below, lost = BELOW.match(line), lost_of(line)
        if line.startswith("promoted "):
            told.promoted = line.split()[1]
        elif line.startswith("successor "):
            told.successor = line.split()[1]
        elif below:
            told.below[below[1]] = below[2]
        elif lost:
            told.lost[lost.name] = lost
        else:
            told.others.append(line)
    return told


def position_of(coordinate: str) -> tuple[int, int]:
    """A coordinate's file number and position, by which coordinates are ordered."""
    file, _, position = coordinate.rpartition(":")
    return int(file.rsplit(".", 1)[1]), int(position)
