#!/usr/bin/env python3
"""Prints the plan of a command over the servers of a scenario, as statements of MySQL 8 with conditions. docs/REAL.md has what its lines mean.

    tools/rehearsal/print_plan.py -c COMMAND -i HOST[:PORT] [-d HOST[:PORT]] < scenario.json > plan.txt

The program is asked first: what it refuses, or what fails in its rehearsal, has no plan, and its output and its status are passed on. Plans are there
of commands that go one straight way: moves and relocations by coordinates, commands of one server, and a takeover. Plans of recoveries and
of GTIDs aren't.

Exit status: 0 printed; 1 a wrong command line, or the command has no straight plan; 2 no scenario as orch import --exact writes it; 7 refused.
"""
from __future__ import annotations

import argparse
import json
import os
import subprocess
import sys
from collections.abc import Callable, Collection, Sequence
from typing import Any

sys.path.insert(0, os.path.dirname(os.path.dirname(os.path.abspath(__file__))))

from orch_tools.client import address, full

TOOLS = os.path.dirname(os.path.dirname(os.path.abspath(__file__)))
PROGRAM = os.path.join(os.path.dirname(TOOLS), "crates/orch_cli/out/orch_cli")

Sources = dict[str, "str | None"]
STATUS = "SHOW REPLICA STATUS; SHOW BINARY LOG STATUS"
LOGIN = ", SOURCE_USER=:user, SOURCE_PASSWORD=:password"

HEAD = """\
# Rehearsed on a model: no failing statements, no parts of transactions, no locks, no clock; its coordinates aren't your servers'.
# It holds only where each server logs what it applies, no replica has transactions of its own, appliers are single, unfiltered, not
# delayed and without errors, and nobody else changes replication. Take each coordinate from the line that noted it, never from the
# rehearsal. Stop where a condition fails. STOP may wait. A restart starts threads and forgets read_only that isn't persisted;
# privileged users pass it. What a replica received and hasn't executed is gone once it is reset, detached or moved.
"""


class NoPlan(Exception):
    """A command has no plan over these servers."""


class Paper:
    """Lines of operations, one for each. `told` has for a server the source that an earlier line has."""

    def __init__(self) -> None:
        self.lines: list[str] = []
        self.letters: dict[str, str] = {}
        self.told: dict[str, str] = {}

    def letter(self, name: str) -> str:
        """A server's letter, which it gets when it is first spoken of."""
        number = len(self.letters)
        return self.letters.setdefault(name, chr(ord("A") + number % 26) + (str(number // 26) if number >= 26 else ""))

    def line(self, name: str, statements: str, *notes: str) -> None:
        """A numbered line."""
        letter = self.letter(name)
        behind = " -- " + "; ".join(notes) if notes else ""
        self.lines.append("%d %s %s;%s" % (len(self.lines) + 1, letter, statements, behind))

    def text(self) -> str:
        """The whole plan."""
        return HEAD + "".join("server %s %s\n" % (letter, name) for name, letter in self.letters.items()) + "".join(line + "\n" for line in self.lines)

    # ---- operations

    def stop(self, name: str) -> None:
        """Both threads off."""
        self.line(name, "STOP REPLICA")

    def start(self, name: str) -> None:
        """Both threads on."""
        self.line(name, "START REPLICA")

    def status(self, name: str, source: str | None = None, root: bool = False) -> None:
        """A reading, and where the server must be."""
        letter = self.letter(name)
        notes = ["note " + letter] + (["must be below " + self.letter(source)] if source else []) + (["must be below nothing"] if root else [])
        if source:
            self.told[name] = source
        self.line(name, STATUS, *notes)

    def until(self, name: str, aim: tuple[str, str]) -> None:
        """It goes on up to a coordinate that was noted, and is waited for."""
        letter = self.letter(name)
        at = "%s.%s" % (self.letter(aim[0]), aim[1])
        self.line(name, "START REPLICA UNTIL SOURCE_LOG_FILE=:%s.file, SOURCE_LOG_POS=:%s.pos" % (at, at), "not where %s.exec >= %s" % (letter, at))
        self.line(name, STATUS, "note " + letter, "again until %s.exec >= %s" % (letter, at))

    def change(self, name: str, to: str, at: str, login: bool, condition: str) -> None:
        """Another source, at a coordinate that was noted."""
        host, port = address(to)
        self.line(name, "CHANGE REPLICATION SOURCE TO SOURCE_HOST='%s', SOURCE_PORT=%d, SOURCE_LOG_FILE=:%s.file, SOURCE_LOG_POS=:%s.pos, "
                  "SOURCE_AUTO_POSITION=0%s" % (host, port, at, at, LOGIN if login else ""), "only where " + condition + ", stopped")

    def up(self, r: str, x: str) -> None:
        """r, at the end of x's log, goes to x's source."""
        a, b = self.letter(r), self.letter(x)
        self.change(r, self.told[x], b + ".exec", False, "%s is below %s at %s.end" % (a, b, b))

    def down(self, r: str, d: str) -> None:
        """r, level with d, goes below d."""
        a, b, s = self.letter(r), self.letter(d), self.letter(self.told[d])
        self.change(r, d, b + ".end", False, "%s is below %s at %s.exec" % (a, s, b))

    def about(self, s: str, x: str) -> None:
        """s, the source of x, goes below x."""
        a, b = self.letter(s), self.letter(x)
        self.change(s, x, b + ".end", s not in self.told, "%s ends at %s.exec" % (a, b))

    def same(self, r: str) -> None:
        """r goes on at its position."""
        a, s = self.letter(r), self.letter(self.told[r])
        self.change(r, self.told[r], a + ".exec", False, "%s is below %s at %s.exec" % (a, s, a))

    def reset(self, name: str) -> None:
        """It has no source any more."""
        self.line(name, "STOP REPLICA; RESET REPLICA ALL")

    def own(self, name: str, host: str, word: str) -> None:
        """Its source's host, with or without two slashes."""
        a = self.letter(name)
        change = ("CHANGE REPLICATION SOURCE TO SOURCE_HOST='%s:%s.source.host', SOURCE_PORT=:%s.source.port, SOURCE_LOG_FILE=:%s.exec.file, "
                  "SOURCE_LOG_POS=:%s.exec.pos, SOURCE_AUTO_POSITION=0" % (host, a, a, a, a))
        self.line(name, "STOP REPLICA; " + STATUS + "; " + change, "note " + a, "only where %s is %s, stopped" % (a, word))

    def detach(self, name: str) -> None:
        """Two slashes before its source's host."""
        self.own(name, "//", "attached")

    def reattach(self, name: str) -> None:
        """The same without them."""
        self.own(name, "", "detached")

    def read_only(self, name: str, on: bool) -> None:
        """Whether it refuses clients' writes."""
        self.line(name, "SET PERSIST super_read_only=ON" if on else "SET PERSIST super_read_only=OFF; SET PERSIST read_only=OFF")

    # ---- plans

    def move_up(self, i: str, x: str, g: str) -> None:
        """i goes from x to x's source g."""
        self.stop(i)
        self.stop(x)
        self.status(x, g)
        self.status(i, x)
        self.until(i, (x, "end"))
        self.stop(i)
        self.up(i, x)
        self.start(i)
        self.start(x)
        self.status(i)

    def move_below(self, i: str, d: str, s: str) -> None:
        """i goes below its sibling d; s is the source of both."""
        self.stop(i)
        self.stop(d)
        self.status(i, s)
        self.status(d, s)
        self.until(i, (d, "exec"))
        self.until(d, (i, "exec"))
        self.stop(i)
        self.stop(d)
        self.status(d, s)
        self.down(i, d)
        self.start(d)
        self.start(i)
        self.status(i)

    def take_master(self, i: str, x: str, g: str) -> None:
        """i and its source x change places below g."""
        self.stop(i)
        self.stop(x)
        self.status(x, g)
        self.status(i, x)
        self.until(i, (x, "end"))
        self.stop(i)
        self.status(i, x)
        self.up(i, x)
        self.about(x, i)
        self.start(i)
        self.start(x)
        self.status(i)
        self.status(x)

    def repoint(self, i: str, x: str) -> None:
        """i goes on below its source x."""
        self.stop(i)
        self.status(i, x)
        self.same(i)
        self.start(i)
        self.status(i)

    def takeover(self, m: str, d: str, others: list[str]) -> None:
        """d takes m's place; the others go along."""
        self.status(m, root=True)
        self.read_only(m, True)
        self.status(m)
        self.status(d, m)
        self.until(d, (m, "end"))
        self.stop(d)
        self.status(d, m)
        for r in others:
            self.status(r, m)
            self.until(r, (d, "exec"))
            self.stop(r)
            self.status(r, m)
            self.down(r, d)
            self.start(r)
        self.reset(d)
        self.about(m, d)
        self.read_only(d, False)
        self.status(m)
        self.status(d)


def path_of(source: Sources, d_source: str | None, i: str, d: str) -> tuple[int, bool]:
    """The way of a relocation by coordinates: how many times up, and whether below d then. It goes over detached servers, too, but not below a sibling that
    is detached: `d_source` is the source to which d is attached. NoPlan if there is no way."""
    above, up = [], source[i]
    while up:
        above.append(up)
        up = source[up]
    if d in above:
        return above.index(d), False
    if d_source not in above:
        raise NoPlan("no path from %s to %s" % (i, d))
    return above.index(d_source), True


def relocated(plan: Any, source: Sources, d_source: str | None, i: str, d: str) -> None:
    """The plan's moves of a relocation; `plan` is a paper or a job."""
    x = source[i]
    ups, below = path_of(source, d_source, i, d)
    if ups == 0 and not below:
        plan.repoint(i, x)
    for _ in range(ups):
        plan.move_up(i, x, source[x])
        x = source[x]
    if below:
        plan.move_below(i, d, x)


def single(paper: Paper, command: str, i: str) -> bool:
    """Whether it is a command of one server; its plan."""
    first = {"detach-replica": lambda: paper.detach(i), "reattach-replica": lambda: paper.reattach(i), "reset-replica": lambda: paper.reset(i),
             "stop-replica": lambda: paper.stop(i), "restart-replica": lambda: paper.stop(i), "start-replica": lambda: None,
             "set-read-only": lambda: paper.read_only(i, True), "set-writeable": lambda: paper.read_only(i, False)}.get(command)
    if first is None:
        return False
    first()
    if command in ("reattach-replica", "start-replica", "restart-replica"):
        paper.start(i)
    paper.status(i)
    return True


def moves(plan: Any, command: str, i: str, d: str | None, source: Sources, below: Callable[[str], list[str]]) -> bool:
    """Whether it is a command of moves; these, one after another. `plan` is a paper or a job, `below` gives a server's replicas in name order."""
    x = source[i]
    if command == "move-up":
        plan.move_up(i, x, source[x])
    elif command == "move-up-replicas":
        for r in below(i):
            plan.move_up(r, i, x)
    elif command == "move-below":
        plan.move_below(i, d, x)
    elif command == "take-siblings":
        for r in below(x):
            if r != i:
                plan.move_below(r, i, x)
    elif command == "take-master":
        plan.take_master(i, x, source[x])
    elif command == "repoint":
        plan.repoint(i, x)
    elif command in ("relocate", "relocate-replicas") and d:
        d_source = source[d] if d in below(source[d] or "") else None
        for r in [i] if command == "relocate" else below(i):
            if r != d:
                relocated(plan, source, d_source, r, d)
    else:
        return False
    return True


def plan_text(command: str, i: str, d: str | None, source: Sources, detached: Collection[str] = ()) -> str | None:
    """The plan of a command over servers with these sources, from which some are detached; None where it has none that is straight."""
    paper = Paper()

    def below(name: str) -> list[str]:
        """The attached replicas of a server in name order."""
        return sorted((r for r in source if source[r] == name and r not in detached), key=address)
    if command == "graceful-master-takeover":
        paper.takeover(i, d, [r for r in below(i) if r != d])
        return paper.text()
    return paper.text() if single(paper, command, i) or moves(paper, command, i, d, source, below) else None


def options() -> argparse.ArgumentParser:
    """The command line."""
    parser = argparse.ArgumentParser(description=__doc__, formatter_class=argparse.RawDescriptionHelpFormatter)
    parser.add_argument("-c", required=True, metavar="COMMAND")
    parser.add_argument("-i", required=True, metavar="HOST[:PORT]", type=full)
    parser.add_argument("-d", metavar="HOST[:PORT]", type=full)
    parser.add_argument("--orch", default=PROGRAM, metavar="PROGRAM", help="the program (%(default)s)")
    return parser


def sources_in(text: str) -> tuple[Sources, set[str]]:
    """The source of each server of a scenario, and who is detached from it."""
    scenario = json.loads(text)
    if scenario.get("turns") or scenario.get("gtid"):
        raise ValueError("it has turns, or uses GTIDs")
    servers = scenario["servers"]
    return ({full(server["name"]): full(server["source"]) if "source" in server else None for server in servers},
            {full(server["name"]) for server in servers if server.get("detached")})


def main(words: Sequence[str] | None = None) -> int:
    """The exit status."""
    given = options().parse_args(words)
    text = sys.stdin.read()
    try:
        source, detached = sources_in(text)
    except (ValueError, KeyError, TypeError, AttributeError) as reason:
        print("no scenario of a topology: %s" % reason, file=sys.stderr)
        return 2
    about = ["-i", given.i] + (["-d", given.d] if given.d else [])
    asked = subprocess.run([given.orch, "-c", given.c] + about, input=text.encode(), capture_output=True)
    if asked.returncode != 0:
        sys.stderr.write(asked.stderr.decode())
        return asked.returncode
    plan = plan_text(given.c, given.i, given.d, source, detached)
    if plan is None:
        print("no straight plan: %s" % given.c, file=sys.stderr)
        return 1
    sys.stdout.write(plan)
    return 0


if __name__ == "__main__":
    sys.exit(main())
