#!/usr/bin/env python3
"""Draws modelled trees, reports their status to the light import as servers would, and asks both scenarios the same: no server is needed.

    tools/tests/light_fuzz.py [--seed N] [--count N] [--questions N] [--gtid] [--dead] [--middle] [--orch PROGRAM]

The drawn scenario is the reality: its tables give each server's status, and its coordinates are the servers'. The scenario that the import makes of them must
answer each question the same, with two exceptions. A coordinate of a replica's log may be another one. A replica of a dead intermediate master that is level by
a pair that was polled before is lost as `behind`. What nobody can know of a dead server (version, first kept file, threads, read_only) is drawn as the import
takes it. It prints a line for each difference, and the counts. The status is 1 if there is a difference.
"""
from __future__ import annotations

import argparse
import collections
import json
import os
import random
import re
import sys
from typing import Any

TOOLS = os.path.dirname(os.path.dirname(os.path.abspath(__file__)))
sys.path[:0] = [TOOLS, os.path.dirname(os.path.abspath(__file__))]

from rehearsal.answers import PROGRAM, Answer, about, answer, questions
from orch_tools.client import Coord
from orch_tools.gtid_sets import GtidSet
from orch_tools.light_import import Light
from orch_tools.light_reading import Status
from orch_tools.light_scenario import LightWriter
from orch_tools.model_log import ModelLog, model_coord

ROOT = "s1:3306"

# ---- a tree


def with_chance(dice: random.Random, server: dict[str, Any], gtid: bool) -> dict[str, Any]:
    """A replica with what makes replicas differ."""
    chances: list[tuple[float, str, list[Any]]] = [
        (0.6 if gtid else 0, "auto", [True]), (0.15, "sql", [False]), (0.1, "io", [False]), (0.08, "detached", [True]), (0.1, "read_only", [False]),
        (0.1, "version", ["5.7.44", "8.4.0"]), (0.05, "server_id", [1]), (0.1, "logs", [False])]
    for chance, key, values in chances:
        if dice.random() < chance:
            server[key] = dice.choice(values)
    return server


def drawn_servers(dice: random.Random, gtid: bool) -> list[dict[str, Any]]:
    """A root with a history, and replicas below it or below one another, that lag."""
    names = ["s%d" % number for number in range(1, dice.randrange(3, 8) + 1)]
    history = [["s1", dice.choice([100, 200, 300, 777]), dice.randrange(1, 4)] for _ in range(dice.randrange(3, 9))]
    counts = {"s1": sum(run[2] for run in history)}
    servers: list[dict[str, Any]] = [{"name": "s1", "history": history}]
    for name in names[1:]:
        source = dice.choice([server["name"] for server in servers if server.get("logs", True)])
        counts[name] = max(0, counts[source] - dice.choice([0, 0, 0, 0, 1, 1, 2, 3, 5]))
        servers.append(with_chance(dice, {"name": name, "source": source, "executed": counts[name]}, gtid))
    for server in servers:
        many = counts[server["name"]]
        if server.get("logs", True) and many:
            server["flushes"] = sorted(dice.randrange(0, many + 1) for _ in range(dice.randrange(0, 4)))
            if server["flushes"] and dice.random() < 0.3:
                server["purged"] = dice.randrange(1, len(server["flushes"]) + 2)
    return servers


def drawn(dice: random.Random, gtid: bool, dead: bool, middle: bool) -> dict[str, Any]:
    """A scenario in which replicas have received more than they executed, and whose root or an intermediate master dies where that is asked for."""
    servers = drawn_servers(dice, gtid)
    turns: list[Any] = [["fetch", server["name"]] for server in servers[1:] for _ in range(dice.choice([0, 0, 1, 2, 4]))]
    sources = {server["source"] for server in servers[1:]}
    inner = [server["name"] for server in servers[1:] if server["name"] in sources]
    failed = (["s1"] if dead else []) + ([dice.choice(inner)] if middle and inner else [])
    for server in servers:
        if server["name"] in failed:
            as_nobody_knows(server, [one for one in servers if one.get("source") == server["name"] and one["name"] not in failed])
    scenario: dict[str, Any] = {"version": 1, "servers": servers, "turns": turns + [["fail", name] for name in failed]}
    return dict(scenario, gtid=True) if gtid else scenario


def as_nobody_knows(server: dict[str, Any], replicas: list[dict[str, Any]]) -> None:
    """A server that dies has the version that its replicas make one think, no purged files, and no settings of its own."""
    for key in ("purged", "read_only", "detached", "io", "sql", "auto", "server_id"):
        server.pop(key, None)
    versions = [one.get("version", "8.0.36") for one in replicas]
    if versions:
        server["version"] = max(versions, key=lambda text: [int(part) for part in text.split(".")])


# ---- its status


class Reality:
    """A scenario as servers."""

    def __init__(self, scenario: dict[str, Any], program: str) -> None:
        dumped = answer(program, scenario, ["-c", "dump"])
        self.fault = dumped[2] if dumped[0] else ""
        if self.fault:
            return
        self.dump = json.loads(dumped[1])
        out = answer(program, scenario, ["-c", "run"])[1]
        self.lines = {line.split()[1]: line.split() for line in out.split("\n") if line.startswith("server ")}
        self.sizes = [size for server in self.dump["servers"] for _, size, many in server.get("history", []) for _ in range(many)]
        self.origin = self.dump["servers"][0]["uuid"]
        self.told = {server["name"]: server for server in self.dump["servers"]}

    def word(self, name: str, key: str) -> str:
        """What follows a key in a server's line. If the line's end has the key too, what follows it after the source."""
        words = self.lines[name]
        return words[words.index(key, words.index("source") if key in ("at", "read", "io", "sql") else 0) + 1]

    def executed(self, name: str) -> int:
        """How many transactions a server has executed."""
        return int(self.word(name, "executed"))

    def transactions(self, first: int, last: int) -> GtidSet:
        """The set of these transactions, none where the scenario has no GTIDs."""
        return GtidSet({self.origin: [(first, last)]}) if self.dump["gtid"] and first <= last else GtidSet()

    def layout(self, name: str) -> ModelLog:
        """A server's log."""
        return ModelLog(self.sizes[:self.executed(name)], self.told[name]["flushes"])

    def statuses(self) -> dict[str, Status]:
        """What the servers report of themselves."""
        return {name: self.status(name) for name in self.told}

    def status(self, name: str) -> Status:
        """What one server reports of itself. Only the source is known of a server that is down."""
        told = self.told[name]
        server = Status(name, up=told["up"], source=told.get("source"))
        server.longest_head = 4
        if not server.up:
            return server
        server.version, server.server_id, server.uuid = told["version"], told["server_id"], told["uuid"]
        server.read_only, server.logs, server.gtid = told["read_only"], told["logs"], self.dump["gtid"]
        server.executed = self.transactions(1, self.executed(name))
        if server.logs:
            self.fill_log(server)
        if server.source:
            self.fill_replica(server, server.source)
        return server

    def fill_log(self, server: Status) -> None:
        """Its files, with tails where the scenario has none."""
        log, first = self.layout(server.name), self.told[server.name].get("purged", 1)
        end = log.end()
        server.end = Coord(end.number, end.position, "mysql-bin.%06d" % end.number)
        for number in range(first, log.files() + 1):
            last = log.coord(number, log.last(number)).position
            server.files[number] = last + (server.tail if number < log.files() else 0)
        server.purged = self.transactions(1, log.first(first))

    def fill_replica(self, server: Status, source: str) -> None:
        """Its status as a replica."""
        name, above = server.name, self.told[source]
        server.exec, server.read = model_coord(self.word(name, "at")), model_coord(self.word(name, "read"))
        server.detached, server.auto = "detached" in self.lines[name], self.told[name]["auto"]
        server.io = "No" if self.word(name, "io") == "off" else "Yes" if above["up"] else "Connecting"
        server.sql = self.word(name, "sql") == "on"
        server.retrieved = self.transactions(self.executed(name) + 1, self.place(source, server.read))
        server.source_id, server.source_uuid = above["server_id"], above["uuid"]

    def place(self, name: str, at: Coord) -> int:
        """How many transactions of a server's log end at or before a coordinate."""
        log = self.layout(name)
        return next(place for place in range(log.last(at.number), -1, -1) if place == log.first(at.number) or log.coord(at.number, place) <= at)


# ---- the comparison


def kind_of(mine: Answer, theirs: Answer, words: list[str], without_pairs: set[str]) -> str:
    """Whether two answers are the same, the same except for what can't be known, or different. No pair is known of some dead servers."""
    if mine == theirs:
        return "same"
    if words[1] in ("recover", "regroup-replicas") and words[3] in without_pairs and " behind " in mine[1]:
        return "behind, or level by an earlier pair"
    coarse = [[re.sub(r"mysql-bin\.\d+:\d+", "C", text) for text in one[1:]] for one in (mine, theirs)]
    if mine[0] == theirs[0] and coarse[0] == coarse[1] and about(words) not in ("s1", ROOT):
        return "same but for a coordinate of a replica's log"
    return "different"


class Fuzz:
    """Trees by their seeds. `counts` has of each kind of answer how many there were, `shown` a text for each difference."""

    def __init__(self, program: str, gtid: bool, dead: bool, middle: bool, many: int) -> None:
        self.program, self.gtid, self.dead, self.middle, self.many = program, gtid, dead, middle, many
        self.counts: collections.Counter[str] = collections.Counter()
        self.shown: list[str] = []

    def differs(self, seed: int, kind: str, text: str) -> None:
        """Counts and shows a difference."""
        self.counts[kind] += 1
        self.shown.append("seed %d: %s" % (seed, text))

    def take(self, seed: int) -> None:
        """Draws a tree, and compares both scenarios."""
        dice = random.Random(seed * 1000 + self.gtid)
        scenario = drawn(dice, self.gtid, self.dead, self.middle)
        reality = Reality(scenario, self.program)
        if reality.fault:
            self.counts["not drawn: " + reality.fault.strip()[:30]] += 1
            return
        light = Light(reality.statuses())
        light.settle()
        problems = light.problems(False)
        if problems:
            self.counts["not told: " + problems[0][1].text[:30]] += 1
            return
        made = LightWriter(light).scenario()
        status, out, err = answer(self.program, made, ["-c", "run"])
        if status not in (0, 7):
            self.differs(seed, "fault", "%s %s" % (err.strip(), json.dumps(made)))
            return
        self.compare_tables(seed, reality, {line.split()[1]: line.split() for line in out.split("\n") if line.startswith("server ")})
        for words, turns in questions(dice, made, self.many):
            self.compare(seed, made, scenario, words, turns)

    def compare_tables(self, seed: int, reality: Reality, lines: dict[str, list[str]]) -> None:
        """Coordinates of the root's log must be the servers' to the byte."""
        for name, words in lines.items():
            theirs = reality.lines[name]
            same = words[words.index("end") + 1] == theirs[theirs.index("end") + 1]
            if words[2] == "down":
                continue
            if name == ROOT and not same:
                self.differs(seed, "root's end not real", "%s, the servers %s" % (" ".join(words), " ".join(theirs)))
            if name != ROOT:
                self.counts["own ends real" if same else "own ends not real"] += 1
            if reality.told[name].get("source") == ROOT:
                places = [[one[one.index(key, one.index("source")) + 1] for key in ("at", "read")] for one in (words, theirs)]
                if places[0] != places[1]:
                    self.differs(seed, "root's coordinates not real", "%s, the servers %s" % (" ".join(words), " ".join(theirs)))

    def compare(self, seed: int, made: dict[str, Any], scenario: dict[str, Any], words: list[str], turns: list[Any]) -> None:
        """One question."""
        mine, theirs = answer(self.program, made, words, turns), answer(self.program, scenario, words, turns)
        dead = {server["name"] for server in made["servers"] if "source" in server and not server.get("up", True)}
        kind = kind_of(mine, theirs, words, set() if self.gtid else dead)
        if kind != "different":
            self.counts[kind] += 1
            return
        told = [" / ".join(one[1:]).strip().replace("\n", "; ") for one in (mine, theirs)]
        self.differs(seed, kind, "%s %s\n    light %s\n    real  %s" % (" ".join(words), turns, *told))


def options() -> argparse.ArgumentParser:
    """The arguments."""
    parser = argparse.ArgumentParser(description=__doc__, formatter_class=argparse.RawDescriptionHelpFormatter)
    parser.add_argument("--orch", default=PROGRAM, metavar="PROGRAM", help="the built program (%(default)s)")
    for word, value, what in (("seed", 1, "the first tree"), ("count", 50, "how many trees"), ("questions", 25, "how many commands each is asked besides")):
        parser.add_argument("--" + word, type=int, default=value, help=what + " (%(default)d)")
    for word, what in (("gtid", "with GTIDs"), ("dead", "whose root is dead"), ("middle", "with a dead intermediate master")):
        parser.add_argument("--" + word, action="store_true", help="trees " + what)
    return parser


def main() -> int:
    """The exit status."""
    given = options().parse_args()
    fuzz = Fuzz(given.orch, given.gtid, given.dead, given.middle, given.questions)
    for seed in range(given.seed, given.seed + given.count):
        fuzz.take(seed)
    for line in fuzz.shown:
        print(line)
    for kind, many in sorted(fuzz.counts.items()):
        print("%6d %s" % (many, kind))
    return 1 if fuzz.shown else 0


if __name__ == "__main__":
    sys.exit(main())
