"""Carries a plan out that `orch .. --plan` printed, line by line.

    orch follow [options] < plan.txt              a dry run: it asks by SELECT and SHOW alone, and prints what it would send
    orch follow --execute [options] < plan.txt    it sends the statements

The whole plan is read before anything is sent, and it has only statements of plans. Statements are sent in the syntax of the server's kind
and version. Each coordinate is one that a line of the plan noted. Before each statement that has a condition the servers are asked whether it holds.
After each START the threads are looked at. At the first condition that fails, and at the first error, the run stops and prints what to undo.

A dry run can't see what the lines before would have changed. It checks that each server is reached and who is below whom. It checks that the new
source keeps what is to be read, and that a login is given if one is needed. It prints each statement with the names of what will be noted.
A coordinate that a running server reports now is none that may be sent.

Exit status:

- 0 carried out, or a dry run found nothing that stops the plan;
- 1 it stopped at a line;
- 2 no plan, or wrong arguments;
- 3 a server wasn't reached before the first line, and nothing was sent.
"""
from __future__ import annotations

import argparse
import os
import re
import sys
import time
from collections.abc import Callable, Iterator

from orch_tools.binary_log import ASIDE
from orch_tools.client import (BadName, Client, Coord, Down, Refused, Seen, Servers, add_options, aliases_in, are_idle, count, full, has_read_all,
                               hidden, number_of)
from orch_tools.plan import CHANGES, Line, Plan, Statement, Unread, for_server, read_plan

HELP = "carry a printed plan out line by line; dry unless --execute is given"
PAUSE, SOON, TRIES = 0.05, 3, 86400
# After so many seconds in which an applier has no work, what is left of its relay log is taken for a part of a transaction.
STILL = 2

# Errors of a receiver that doesn't come to its source, which it tries again. All others are a refusal.
UNREACHED = (2002, 2003, 2005, 2006, 2013, 1040, 1152, 1158, 1159, 1160, 1161)


class Stopped(Exception):
    """A condition fails, or a server refuses or isn't reached."""


class Debts:
    """What a plan that stops leaves to be undone."""

    def __init__(self, plan: Plan) -> None:
        self.plan = plan
        self.stopped: list[str] = []
        self.refusing: list[str] = []
        self.reset: dict[str, Seen] = {}

    def sent(self, statement: Statement, letter: str, seen: Seen | None) -> None:
        """Notes what was sent."""
        kind = statement.kind
        if kind in ("stop", "stop receiver") and letter not in self.stopped:
            self.stopped.append(letter)
        elif kind == "start" and letter in self.stopped:
            self.stopped.remove(letter)
        elif kind == "refuse":
            self.refusing.append(letter)
        elif kind == "take":
            self.refusing.clear()
        elif kind == "reset":
            if seen:
                self.reset[letter] = seen
            self.stopped = [other for other in self.stopped if other != letter]
        elif kind in CHANGES and "'//" in statement.text:
            self.stopped = [other for other in self.stopped if other != letter]
        elif kind in CHANGES and letter in self.refusing:
            self.reset.clear()
            self.refusing.remove(letter)

    def told(self, number: int, noted: dict[str, Seen]) -> Iterator[str]:
        """What to undo, in order, if the plan stopped at the line of this number. A detached server isn't started: its threads would run without a source."""
        names = self.plan.names
        for letter, seen in self.reset.items():
            if self.plan.is_recovery:
                yield "%s: it has no source any more, and its old one isn't reached: go on by hand from line %d" % (names[letter], number)
            else:
                yield "%s: it has no source any more; it was below %s at %s: back by CHANGE REPLICATION SOURCE with that file and position, and the login" % (
                    names[letter], seen.source, seen.exec)
        for letter in self.stopped:
            if letter not in noted or not noted[letter].detached:
                yield "%s: START REPLICA" % names[letter]
        for letter in self.refusing:
            yield "%s: SET PERSIST super_read_only=OFF, SET PERSIST read_only=OFF: it refuses writes" % names[letter]


def quoted(text: str) -> str:
    """A text as a string of SQL."""
    return "'%s'" % text.replace("\\", "\\\\").replace("'", "\\'")


class Runner:
    """Carries a plan's lines out. `login` are the user and the password by which a server that had no source reads its new one, and `more` is what
    follows them in the statement. `places` are the coordinates that a hand has found, by letter."""

    def __init__(self, servers: Servers, plan: Plan, login: tuple[str, str] = ("", ""), more: str = "", wait: float = 600,
                 say: Callable[[str], None] = print, places: dict[str, Coord] | None = None) -> None:
        self.servers, self.plan, self.login, self.more, self.wait, self.say = servers, plan, login, more, wait, say
        self.places = places or {}
        self.noted: dict[str, Seen] = {}
        self.still: dict[str, tuple[Coord, float]] = {}
        self.debts = Debts(plan)

    # ---- what is noted

    def name(self, letter: str) -> str:
        """The server of a letter."""
        return self.plan.names[letter]

    def seen(self, letter: str) -> Seen:
        """What was noted last of a server."""
        if letter not in self.noted:
            raise Stopped("nothing was noted of %s" % letter)
        return self.noted[letter]

    def coord(self, word: str) -> Coord:
        """The coordinate of A.exec, A.read, A.end or A.match."""
        letter, what = word.split(".")
        found = self.places.get(letter) if what == "match" else getattr(self.seen(letter), what)
        if not found or not found.file:
            raise Stopped("%s is no coordinate" % word)
        return found

    def look(self, letter: str) -> Seen:
        """The status of a server now."""
        return self.servers.look(self.name(letter))

    def filled(self, letter: str, text: str) -> str:
        """A statement with what was noted in place of its `:` names."""
        def put(found: re.Match[str]) -> str:
            noted, what, part = found.groups()
            if what == "source":
                seen = self.seen(noted)
                return seen.host if part == "host" else str(seen.port)
            if what == "gtids":
                return self.seen(noted).gtids
            value = self.coord("%s.%s" % (noted, what))
            return "'%s'" % value.file if part == "file" else str(value.position)
        text = re.sub(r":([A-Z]\d*)\.(source|exec|read|end|match|gtids)(?:\.(host|port|file|pos))?", put, text)
        if "SOURCE_USER=:user" in text:
            return text.replace(", SOURCE_USER=:user, SOURCE_PASSWORD=:password", self.login_words(letter))
        return text + self.login_words(letter) if text.startswith("CHANGE ") and not self.look(letter).source else text

    def login_words(self, letter: str) -> str:
        """The login, and for a server that has no source how often its receiver tries: as often as the plan's replicas do."""
        if not self.login[0]:
            raise Stopped("%s has no source, and so no login: give --replication-user and REPLICATION_PASSWORD" % self.name(letter))
        tries = [count(seen.row.get("Source_Retry_Count")) for seen in self.noted.values() if seen.source]
        more = "" if self.look(letter).source or "_RETRY_COUNT" in self.more else ", SOURCE_RETRY_COUNT=%d" % (max(tries, default=0) or TRIES)
        return ", SOURCE_USER=%s, SOURCE_PASSWORD=%s%s%s" % (quoted(self.login[0]), quoted(self.login[1]), self.more, more)

    # ---- conditions

    def check_source(self, line: Line, seen: Seen) -> None:
        """Whether the server is below the one that the line names."""
        below, root = line.condition("below"), line.condition("root")
        wanted = self.name(below[0]) if below else None
        if (below or root is not None) and (seen.source != wanted or seen.detached):
            raise Stopped("%s is below %s%s" % (self.name(line.letter), seen.source or "nothing", ", detached" if seen.detached else ""))

    def check_stopped(self, letter: str, live: Seen) -> None:
        """Whether both threads are off."""
        if not live.stopped:
            raise Stopped("%s runs (receiver %s, applier %s)" % (self.name(letter), live.io, "on" if live.sql else "off"))

    def is_same_place(self, name: str, one: Coord, other: Coord) -> bool:
        """Whether two coordinates of a server's log have no transaction between them, but heads and ends of files and the like."""
        low, high = min(one, other), max(one, other)
        if not low.file or low.number + 1 < high.number:
            return False
        try:
            for at, first in ((low, low.position), (high, 4))[:1 + high.number - low.number]:
                events = self.servers.ask(name, "SHOW BINLOG EVENTS IN '%s' FROM %d" % (at.file, first))
                if any(event["Event_type"] not in ASIDE and (at.number < high.number or count(event["Pos"]) < high.position) for event in events):
                    return False
        except (Down, Refused):
            return False
        return True

    def check_at(self, line: Line, live: Seen) -> None:
        """Whether the server has executed as much of its source's log as the line wants."""
        at = line.condition("at")
        if at:
            wanted, aim = self.seen(at[1]).source if at[2] else self.name(at[1]), self.coord(at[3])
            if live.source != wanted or live.exec != aim and not self.is_same_place(wanted, live.exec, aim):
                raise Stopped("%s is at %s of %s, not at %s of %s" % (self.name(line.letter), live.exec, live.source, aim, wanted))

    def check_end(self, line: Line, live: Seen) -> None:
        """Whether the server's own log ends where the line wants it."""
        ends = line.condition("ends")
        if ends:
            name, aim = self.name(line.letter), self.coord(ends[1])
            if live.end != aim and not (live.end and self.is_same_place(name, live.end, aim)):
                raise Stopped("%s ends at %s, not at %s" % (name, live.end, aim))

    def check_sets(self, line: Line, live: Seen) -> None:
        """Whether the new source has executed all that the server has, and the server all that the new source has purged."""
        name, contained, purged = self.name(line.letter), line.condition("contained"), line.condition("purged")
        if contained and not self.is_subset(name, live.gtids, self.seen(contained[1]).gtids):
            raise Stopped("%s has executed what %s has not" % (name, self.name(contained[1])))
        if purged:
            self.check_held(name, live, self.name(purged[0]))

    def is_subset(self, name: str, inner: str, outer: str) -> bool:
        """Whether a set has all of another; the server of this name is asked."""
        return self.servers.ask(name, "SELECT GTID_SUBSET('%s', '%s') s" % (inner, outer))[0]["s"] == "1"

    def check_held(self, name: str, live: Seen, source: str) -> None:
        """Whether a server that is to go by its set has executed all that the new source has purged."""
        if self.servers.ask(source, "SELECT GTID_SUBSET(@@global.gtid_purged, '%s') s" % live.gtids)[0]["s"] != "1":
            raise Stopped("%s has purged what %s hasn't executed" % (source, name))

    def check_attached(self, line: Line, live: Seen) -> None:
        """Whether its source's host begins with // or not, and whether it goes by auto position if the line wants that."""
        for wanted, is_so in (("attached", not live.detached), ("detached", live.detached)):
            parts = line.condition(wanted)
            if parts and not (live.source and is_so):
                raise Stopped("%s isn't %s" % (self.name(line.letter), wanted))
            if parts and parts[1] and live.row.get("Auto_Position") != "1":
                raise Stopped("%s doesn't go by auto position" % self.name(line.letter))

    def check_spot(self, line: Line, live: Seen) -> None:
        """Whether the server is at the position that the line wants."""
        for check in (self.check_at, self.check_end, self.check_sets, self.check_attached):
            check(line, live)
        if line.condition("unmoved") and live.exec != self.seen(line.letter).exec:
            raise Stopped("%s has gone on from %s to %s" % (self.name(line.letter), self.seen(line.letter).exec, live.exec))

    def check_loop(self, name: str, source: str | None) -> None:
        """Whether the new source isn't below the server itself. What isn't reached can't be asked."""
        passed: set[str] = set()
        while source and source not in passed:
            if source == name:
                raise Stopped("%s would be below itself" % name)
            passed.add(source)
            try:
                source = self.servers.look(source).source
            except (Down, Refused):
                return

    def check_kept(self, source: str, text: str) -> None:
        """Whether the new source keeps the file that is to be read."""
        file = re.search(r"SOURCE_LOG_FILE='([^']+)'", text)
        if file:
            kept = self.servers.ask(source, "SHOW BINARY LOGS")
            if not kept or not number_of(kept[0]["Log_name"]) <= number_of(file.group(1)) <= number_of(kept[-1]["Log_name"]):
                raise Stopped("%s doesn't keep %s" % (source, file.group(1)))

    def check_change(self, line: Line, text: str) -> None:
        """What must be true of the servers in the moment before a change of source."""
        live, name = self.look(line.letter), self.name(line.letter)
        self.check_stopped(line.letter, live)
        self.check_spot(line, live)
        target = re.search(r"SOURCE_HOST='([^'/]+)', SOURCE_PORT=(\d+)", text)
        if target:
            source = self.servers.aliases.get("%s:%s" % target.groups(), "%s:%s" % target.groups())
            self.check_loop(name, source)
            self.check_kept(source, text)
            if "SOURCE_AUTO_POSITION=1" in text and not line.condition("purged"):
                self.check_held(name, live, source)

    def check_noted(self, line: Line) -> None:
        """What a line compares of what was noted before: which one has executed more."""
        for kind, parts in line.conditions:
            if kind == "compared":
                more, less = self.coord(parts[0] + ".exec"), self.coord(parts[2] + ".exec")
                if more < less or more == less and parts[1] == ">":
                    raise Stopped("%s has executed up to %s, and %s up to %s: the plan's branch is another. Print the plan again, from the servers as they are"
                                  % (self.name(parts[0]), more, self.name(parts[2]), less))

    def check_unreached(self, line: Line) -> None:
        """Whether the server isn't reached, as the line wants it."""
        try:
            self.look(line.letter)
        except Down:
            return self.say("%d %s: it isn't reached, as the plan wants it" % (line.number, self.name(line.letter)))
        raise Stopped("%s is reached: it hasn't failed" % self.name(line.letter))

    def is_passed_over(self, line: Line) -> bool:
        """Whether what the line is for is so already."""
        unless = line.condition("unless")
        return bool(unless) and self.coord(unless[0]) >= self.coord(unless[1])

    def is_reached(self, line: Line) -> bool:
        """Whether what is waited for has come."""
        again, idle = line.condition("again"), line.condition("idle")
        if idle:
            seen = self.seen(line.letter)
            return not seen.sql or seen.exec == seen.read or self.has_part(line, seen)
        return not again or self.coord(again[0]) >= self.coord(again[1])

    def has_part(self, line: Line, seen: Seen) -> bool:
        """Whether what is left of its relay log is a part of a transaction. Then its receiver is off, its applier makes no progress for a while, and none
        of its threads executes anything."""
        at, since = self.still.get(line.letter, (None, 0.0))
        if seen.io != "No" or not has_read_all(seen.row) or at != seen.exec:
            self.still[line.letter] = seen.exec, time.monotonic()
            return False
        if time.monotonic() - since < STILL or not are_idle(self.servers.ask(self.name(line.letter), "SHOW PROCESSLIST")):
            return False
        self.say("%d %s: it has received a part of a transaction, up to %s, which is never executed" % (line.number, self.name(line.letter), seen.read))
        return True

    def check_applier(self, line: Line, seen: Seen) -> None:
        """Whether an applier that is waited for met no error."""
        if not seen.sql and count(seen.row.get("Last_SQL_Errno")):
            raise Stopped("%s: its applier stopped: error %s %s" % (
                self.name(line.letter), seen.row["Last_SQL_Errno"], seen.row.get("Last_SQL_Error", "")[:300]))

    def check_receiver(self, line: Line, seen: Seen) -> None:
        """Whether a receiver that was started isn't refused by its source. One that doesn't come to its source tries again."""
        error = count(seen.row.get("Last_IO_Errno"))
        if error and (seen.io == "No" or error not in UNREACHED):
            raise Stopped("%s: its receiver %s: error %d %s" % (
                self.name(line.letter), "stopped" if seen.io == "No" else "is refused", error, seen.row.get("Last_IO_Error", "")[:300]))

    def check_started(self, line: Line, is_until: bool) -> None:
        """Whether the threads that were started run, and no error has stopped them: looked at until they run, or for some seconds. An applier
        that was to come to a coordinate may be off again."""
        until, good = time.monotonic() + SOON, 0
        while good < 2 and time.monotonic() < until:
            seen = self.look(line.letter)
            if not seen.source:
                return
            self.check_applier(line, seen)
            self.check_receiver(line, seen)
            good = good + 1 if seen.io == "Yes" and (seen.sql or is_until) else 0
            if count(seen.row.get("Last_IO_Errno")):
                break
            time.sleep(PAUSE)
        if not good:
            self.say("%d %s: its receiver doesn't run yet: %s" % (line.number, self.name(line.letter), self.look(line.letter).row.get("Last_IO_Error") or ""))

    # ---- lines

    def note(self, line: Line) -> None:
        """Notes the server's status, again and again where something is waited for."""
        until = time.monotonic() + self.wait
        while True:
            seen = self.noted[line.letter] = self.look(line.letter)
            self.check_source(line, seen)
            if self.is_reached(line):
                break
            self.check_applier(line, seen)
            if time.monotonic() > until:
                raise Stopped("%s doesn't come so far in %d seconds" % (self.name(line.letter), self.wait))
            time.sleep(PAUSE)
        at = "below %s at %s" % (seen.source, seen.exec) if seen.source else "below nothing"
        self.say("%d %s: %s, its log ends at %s" % (line.number, self.name(line.letter), at, seen.end or "nothing"))

    def wait_for_set(self, line: Line, text: str) -> None:
        """Waits until the server has executed a set. With its applier off it never will."""
        until = time.monotonic() + self.wait
        while next(iter(self.servers.ask(self.name(line.letter), text)[0].values())) != "0":
            seen = self.look(line.letter)
            self.check_applier(line, seen)
            if line.condition("applier") is not None and not seen.sql:
                raise Stopped("%s hasn't executed that set, and its applier is off" % self.name(line.letter))
            if time.monotonic() > until:
                raise Stopped("%s hasn't executed that set in %d seconds" % (self.name(line.letter), self.wait))

    def kept_auto(self, line: Line, text: str) -> str:
        """A detachment or a reattachment of a server that goes by auto position: with a coordinate it would lose that, so it goes by its host alone."""
        is_own = text.startswith("CHANGE ") and (line.condition("attached") or line.condition("detached"))
        if is_own and self.seen(line.letter).row.get("Auto_Position") == "1":
            return re.sub(r", SOURCE_LOG_FILE=.*, SOURCE_AUTO_POSITION=0", "", text)
        return text

    def stop_detached(self, line: Line) -> None:
        """Stops the threads of a detached server, which a restart has started, before it is attached again."""
        if line.condition("detached") and not line.has("stop"):
            seen = self.look(line.letter)
            if seen.detached and not seen.stopped:
                self.say("%d %s: its threads run, as a restart starts them: they are stopped first" % (line.number, self.name(line.letter)))
                self.send(line, Statement("stop", "STOP REPLICA"))

    def send(self, line: Line, statement: Statement) -> None:
        """Sends a statement, once its conditions hold."""
        name, kind = self.name(line.letter), self.servers.kind(self.name(line.letter))
        text = self.filled(line.letter, self.kept_auto(line, statement.text))
        if statement.kind == "wait":
            return self.wait_for_set(line, text)
        if statement.kind in CHANGES:
            self.check_change(line, text)
        if statement.kind == "auto" and kind.maria:
            raise Stopped("%s is MariaDB: it has no SOURCE_AUTO_POSITION" % name)
        words = for_server(kind, text)
        if words:
            self.say("%d %s> %s" % (line.number, name, hidden(words)))
            self.servers.ask(name, words)
        self.debts.sent(statement, line.letter, self.noted.get(line.letter))
        if statement.kind in ("start", "until"):
            self.check_started(line, statement.kind == "until")
        return None

    def step(self, line: Line) -> None:
        """Takes a line."""
        self.check_noted(line)
        if line.condition("unreached") is not None:
            return self.check_unreached(line)
        if self.is_passed_over(line):
            return self.say("%d %s: is there already, passed over" % (line.number, self.name(line.letter)))
        if not line.statements:
            return self.say("%d %s: %s" % (line.number, self.name(line.letter), "; ".join(line.notes)))
        self.stop_detached(line)
        for statement in line.statements:
            if statement.kind == "status":
                self.note(line)
            elif statement.kind not in ("end", "events"):
                self.send(line, statement)
        return None

    def run(self) -> None:
        """Carries out all lines. At the first that fails, Stopped has the reason and what to undo."""
        for line in self.plan.lines:
            try:
                self.step(line)
            except (Stopped, Down, Refused) as reason:
                left = list(self.debts.told(line.number, self.noted)) or ["nothing"]
                raise Stopped("stopped at line %d: %s\nto undo, in this order:\n%s" % (line.number, reason, "\n".join("  " + it for it in left))) from None


class DryRunner(Runner):
    """Sends nothing, and shows no coordinate: those that running servers show now are none that may be sent."""

    def show(self, line: Line, text: str) -> None:
        """A statement as it would be sent, with names of what is noted, and the line's conditions."""
        words = for_server(self.servers.kind(self.name(line.letter)), text)
        if words:
            self.say("%d %s> %s;%s" % (line.number, self.name(line.letter), words, " -- " + "; ".join(line.notes) if line.notes else ""))

    def check_source(self, line: Line, seen: Seen) -> None:
        """As far as no line before has changed it."""
        if not any(before.letter == line.letter and before.has(*CHANGES, "reset") for before in self.plan.lines[:line.number - 1]):
            Runner.check_source(self, line, seen)

    def note(self, line: Line) -> None:
        """Prints who is below whom."""
        seen = self.noted[line.letter] = self.look(line.letter)
        self.check_source(line, seen)
        below = "below %s%s" % (seen.source, ", detached" if seen.detached else "") if seen.source else "below nothing"
        self.say("%d %s: now %s; %s" % (line.number, self.name(line.letter), below, "; ".join(line.notes) or "nothing is noted"))

    def check_new_source(self, line: Line, statement: Statement) -> None:
        """Whether the new source keeps what is to be read, as far as it is seen now."""
        target = re.search(r"SOURCE_HOST='([^':/]+)', SOURCE_PORT=(\d+)", statement.text)
        if target:
            source = self.servers.aliases.get("%s:%s" % target.groups(), "%s:%s" % target.groups())
            if statement.kind == "auto" and not self.servers.kind(source).maria:
                self.check_held(self.name(line.letter), self.look(line.letter), source)
            elif statement.kind == "change":
                self.check_kept(source, re.sub(r":([A-Z]\d*)\.(exec|end)\.file", self.file_now, statement.text))

    def file_now(self, found: re.Match[str]) -> str:
        """The file that a running server shows now: by that alone is asked whether the new source keeps it."""
        value = getattr(self.noted.get(found.group(1)), found.group(2), None)
        return "'%s'" % value.file if value and value.file else ""

    def send(self, line: Line, statement: Statement) -> None:
        """Shows a statement."""
        if statement.kind in CHANGES:
            self.check_new_source(line, statement)
        self.show(line, statement.text)

    def check_noted(self, line: Line) -> None:
        """Nothing is noted of stopped servers."""

    def stop_detached(self, line: Line) -> None:
        """Nothing is stopped."""

    def is_passed_over(self, line: Line) -> bool:
        """What will be there by then isn't known."""
        return False


# ---- the command line


def place(text: str) -> tuple[str, Coord]:
    """A server's name and the coordinate that a hand has found for it, of HOST:PORT=FILE:POSITION."""
    name, _, at = text.partition("=")
    found = re.fullmatch(r"([A-Za-z0-9._-]+\.\d+):(\d+)", at)
    if not found:
        raise BadName("%s: a place is HOST:PORT=FILE:POSITION, with a file such as binlog.000007" % text)
    return full(name), Coord(number_of(found.group(1)), int(found.group(2)), found.group(1))


def add_arguments(parser: argparse.ArgumentParser) -> None:
    """The subcommand's arguments."""
    add_options(parser)
    parser.add_argument("--execute", "--carry-out", action="store_true", dest="execute", help="send the statements; without it nothing is changed")
    parser.add_argument("--replication-user", default="", metavar="USER",
                        help="by which a server that had no source reads its new one; its password comes from the environment REPLICATION_PASSWORD")
    parser.add_argument("--login-option", default="", metavar="TEXT", help="goes after that login, such as GET_SOURCE_PUBLIC_KEY=1 or SOURCE_SSL=1")
    parser.add_argument("--place", action="append", default=[], type=place, metavar="HOST:PORT=FILE:POSITION",
                        help="the coordinate of the new source's log that was found for this server, where a line is by hand")
    parser.add_argument("--wait", type=float, default=600, metavar="SECONDS", help="how long each wait may take (%(default)d)")
    parser.add_argument("--timeout", type=float, default=3600, metavar="SECONDS",
                        help="how long a statement may take: a STOP waits for what runs (%(default)d)")


def without_login(plan: Plan, seen: dict[str, Seen]) -> str | None:
    """A server whose change needs a login: one that has no source now, and isn't known to get one by a line before."""
    attached: set[str] = set()
    for line in plan.lines:
        if line.has(*CHANGES) and line.letter not in attached:
            attached.add(line.letter)
            if line.letter in seen and not seen[line.letter].source:
                return plan.names[line.letter]
    return None


def asked_first(servers: Servers, plan: Plan) -> dict[str, Seen]:
    """The status of each server that must be reached."""
    return {letter: servers.look(full(name)) for letter, name in plan.names.items() if letter not in plan.unreached}


def lacking(given: argparse.Namespace, plan: Plan, seen: dict[str, Seen], places: dict[str, Coord]) -> str | None:
    """What the command line lacks for this plan to be carried out."""
    name = without_login(plan, seen)
    if name and not given.replication_user:
        return "%s has no source, and so no login for its new one: give --replication-user and REPLICATION_PASSWORD" % name
    if plan.needs_login and not given.replication_user:
        return "this plan makes a former master a replica: give --replication-user and REPLICATION_PASSWORD"
    missing = next((line for letter, line in plan.by_hand.items() if letter not in places), None)
    if missing:
        return "line %d is by hand (%s): find that coordinate and give --place %s=FILE:POSITION, or carry the plan out by hand" % (
            missing.number, next(note for note in missing.notes if "by hand" in note), plan.names[missing.letter])
    return None


def failed(status: int, reason: object) -> int:
    """The status, with the reason on standard error."""
    print("orch follow: %s" % reason, file=sys.stderr)
    return status


def run(given: argparse.Namespace, make: Callable[..., Client] = Client) -> int:
    """The exit status."""
    try:
        plan = read_plan(sys.stdin.read())
    except Unread as reason:
        return failed(2, reason)
    if not plan.lines:
        print("the plan has no lines: there is nothing to do")
        return 0
    servers = Servers(make(given.client, given.user, given.client_option, timeout=given.timeout), aliases_in(given))
    found = dict(given.place)
    places = {letter: found[name] for letter, name in plan.names.items() if name in found}
    try:
        lacks = lacking(given, plan, asked_first(servers, plan), places)
    except (Down, Refused) as reason:
        return failed(3, "nothing was sent: %s" % reason)
    if lacks and given.execute:
        return failed(2, "nothing was sent: %s" % lacks)
    login = given.replication_user, os.environ.get("REPLICATION_PASSWORD", "")
    more = ", " + given.login_option if given.login_option else ""
    runner = (Runner if given.execute else DryRunner)(servers, plan, login, more, given.wait, places=places)
    try:
        runner.run()
    except Stopped as reason:
        return failed(1, reason)
    if lacks:
        print("before it is executed: %s" % lacks)
    print("carried out" if given.execute else "a dry run: nothing was sent")
    return 0
