"""One story: what is done to the servers, the same as turns of a scenario, the program's answer, and the comparison."""
from __future__ import annotations

import argparse
import contextlib
import io
import json
import os
import re
import subprocess
import threading
import time
from collections.abc import Callable, Sequence
from typing import Any

from orch_tools import importing
from orch_tools.client import Down, Seen, Servers
from orch_tools.exact_scenario import Writer
from orch_tools.reading import Server
from orch_tools.topology import Topology
from rehearsal.by_gtids import GtidJob
from rehearsal.by_hand import Bridges, Job
from rehearsal.compare import Exactly, Loosely, executed
from rehearsal.farm import Farm, Proxy, free_ports
from rehearsal.kinds import REPLICATION

LOGIN = (REPLICATION, REPLICATION)
TABLE = "CREATE TABLE d.t (id BIGINT NOT NULL AUTO_INCREMENT, o INT, s INT, part INT, pad VARCHAR(4000), KEY(id)) ENGINE=InnoDB"


Turn = list[Any]
Answer = tuple[str | None, Any]
Tables = dict[str, str]
Check = Exactly | Loosely


class Differs(Exception):
    """A story that doesn't come so far as its comparison."""


class Story:
    """Servers are named by letters. Until `read` a story is made; from then on it is noted as turns, too. `no_scenario` is a part of the reason for
    which the exact import refuses what a story has made."""
    before: Topology
    scenario: dict[str, Any]
    interrupt: tuple[str, int] | None = None
    loose = False
    is_light = False
    known: dict[str, str] = {}
    errants = 0
    waits: int | None = None
    pseudo = 0
    no_scenario = ""

    def __init__(self, farm: Farm, program: str) -> None:
        self.farm, self.program = farm, program
        self.servers_of_proxies: dict[str, str] = {}
        self.proxies: dict[str, Proxy] = {}
        self.used: list[str] = []
        self.transactions: list[tuple[int, int, int] | None] = []
        self.numbers: dict[str, int] = {}
        self.more_sizes: list[int] = []
        self.turns: list[Turn] = []
        self.noting = False
        self.rules: dict[str, str] = {}
        self.bridges: Bridges = {}
        self.down: set[str] = set()
        self.last: dict[str, Server] = {}
        self.offset = 0
        self.writer: Writes | None = None
        farm.fresh()

    def letter(self, name: str) -> str:
        """The letter of a server."""
        return Farm.LETTERS[self.farm.names.index(name)]

    def spell(self, text: str) -> str:
        """A text with letters in place of names."""
        for name in self.farm.names:
            text = text.replace(name, self.letter(name))
        return text

    def n(self, letter: str) -> str:
        """The server of a letter, which is used from now on."""
        name = self.farm.names[Farm.LETTERS.index(letter)]
        if name not in self.used:
            self.used.append(name)
        return name

    def names(self, letters: Sequence[str]) -> list[str]:
        """The servers of letters."""
        return [self.n(letter) for letter in letters]

    def turn(self, *turn: Any) -> None:
        """Notes what is done as a turn of the scenario."""
        if self.noting:
            self.turns.append(list(turn))

    # ---- making a topology

    def root(self, a: str) -> None:
        """A server without a source, with the table."""
        self.farm.ask(self.n(a), "CREATE DATABASE d")
        self.farm.ask(self.n(a), TABLE)
        self.transactions += [None, None]

    def write(self, a: str, count: int = 1, parts: int = 1, pad: int = 1) -> None:
        """So many transactions of so many rows."""
        a = self.n(a)
        for _ in range(count):
            number = self.numbers[a] = self.numbers.get(a, 0) + 1
            rows = ",".join("(%d,%d,%d,'%s')" % (self.farm.ids[a], number, part, "x" * pad) for part in range(parts))
            error = self.farm.app(a, "INSERT INTO d.t(o,s,part,pad) VALUES " + rows)
            if error:
                raise Differs("a write to %s: error %d" % (self.letter(a), error))
            self.transactions.append((self.farm.ids[a], number, parts))
            if self.noting:
                self.turn("write", a, 200)
                self.more_sizes.append(200)

    def flush(self, a: str) -> None:
        """Its log goes on in a new file."""
        self.farm.ask(self.n(a), "FLUSH BINARY LOGS")
        self.turn("rotate", self.n(a))

    def purge(self, a: str, first: int) -> None:
        """Until it is so: a file that a replica reads, or that a checkpoint needs, stays."""
        for _ in range(100):
            self.farm.ask(self.n(a), "PURGE BINARY LOGS TO 'mysql-bin.%06d'" % first)
            if self.farm.ask(self.n(a), "SHOW BINARY LOGS")[0]["Log_name"] == "mysql-bin.%06d" % first:
                return
            time.sleep(0.05)
        raise Differs("%s keeps its files" % a)

    def below(self, r: str, s: str, proxy: bool = False, auto: bool = False) -> None:
        """r replicates from s, from the start, by coordinates or by GTIDs; through a link that can be cut, if asked for."""
        r, s = self.n(r), self.n(s)
        port = int(s.rpartition(":")[2])
        if proxy:
            self.proxies[r] = Proxy(free_ports(1)[0], port)
            port = self.proxies[r].port
            self.servers_of_proxies["127.0.0.1:%d" % port] = s
        make = self.farm.make
        at = "SOURCE_AUTO_POSITION=1" if auto else "SOURCE_LOG_FILE='mysql-bin.000001', SOURCE_LOG_POS=4, SOURCE_AUTO_POSITION=0"
        if make.by_gtids:
            at = "MASTER_USE_GTID=slave_pos"
        self.farm.tell(r, "CHANGE REPLICATION SOURCE TO SOURCE_HOST='127.0.0.1', SOURCE_PORT=%d, SOURCE_USER='%s', SOURCE_PASSWORD='%s', "
                          "%s, SOURCE_CONNECT_RETRY=1%s" % ((port,) + LOGIN + (at, make.login_words)))
        self.farm.ask(r, "SET GLOBAL read_only=ON")
        self.farm.tell(r, "START REPLICA")

    def without_log(self, r: str) -> None:
        """From its start on it has no binary log; it gets one again when it is emptied."""
        r = self.n(r)
        self.farm.quit(r)
        self.farm.launch(r, ["--skip-log-bin"])
        self.farm.ready(r)

    def state(self, name: str) -> Seen:
        """A server's status now."""
        return Servers(self.farm.client, self.servers_of_proxies).look(name)

    def reading(self, name: str) -> Server:
        """A server with its log, as it is read now."""
        return Server(name, self.farm.client, self.servers_of_proxies).read()

    def wait_until(self, holds: Callable[[], bool], what: str, seconds: float = 30) -> None:
        """Waits until something holds; Differs with this text if it doesn't come."""
        end = time.monotonic() + seconds
        while not holds():
            if time.monotonic() > end:
                raise Differs(what)
            time.sleep(0.05)

    def has_all(self, r: str) -> bool:
        """Whether a replica has executed all that its source has."""
        seen = self.state(r)
        return seen.exec >= self.state(seen.source).end and seen.read == seen.exec

    def settle(self, *letters: str) -> None:
        """Until each has executed all that its source has."""
        for r in self.names(letters):
            self.wait_until(lambda: self.has_all(r), "%s does not catch up" % r)
        for letter in letters:
            for _ in range(12):
                self.turn("fetch", self.n(letter))
                self.turn("apply", self.n(letter))

    def applier_off(self, r: str) -> None:
        """Its applier stops; its receiver goes on."""
        self.farm.tell(self.n(r), "STOP REPLICA SQL_THREAD")

    def detach(self, r: str) -> None:
        """r keeps its source after two slashes, and its position."""
        r = self.n(r)
        self.farm.tell(r, "STOP REPLICA")
        seen = self.state(r)
        host, _, port = seen.source.rpartition(":")
        self.farm.tell(r, "CHANGE REPLICATION SOURCE TO SOURCE_HOST='//%s', SOURCE_PORT=%s, SOURCE_LOG_FILE='mysql-bin.%06d', SOURCE_LOG_POS=%d, "
                          "SOURCE_AUTO_POSITION=0" % (host, port, seen.exec.number, seen.exec.position))

    def only(self, r: str, count: int) -> None:
        """r executes the first so many transactions of its source and stops its applier; the receiver goes on. With MariaDB's GTIDs an applier that is
        at that coordinate stops only when the next event comes."""
        r = self.n(r)
        self.farm.tell(r, "STOP REPLICA")
        group = self.reading(self.state(r).source).groups[count - 1]
        self.farm.tell(r, "START REPLICA UNTIL SOURCE_LOG_FILE='mysql-bin.%06d', SOURCE_LOG_POS=%d" % (group.file, group.end))

        def is_there() -> bool:
            seen = self.state(r)
            return seen.exec >= group.last and (not seen.sql or seen.read == seen.exec)
        self.wait_until(is_there, "%s did not come to %d" % (r, count))
        if self.state(r).sql:
            self.farm.tell(r, "STOP REPLICA SQL_THREAD")

    def cut(self, *letters: str) -> None:
        """Cuts links, and waits until the receivers know it."""
        for r in self.names(letters):
            self.proxies[r].cut()
            self.wait_until(lambda: self.state(r).io == "Connecting", "%s keeps its link" % r)
            self.turn("cut", r, "feed")

    def join(self, *letters: str) -> None:
        """Joins links."""
        for r in self.names(letters):
            self.proxies[r].join()
            self.turn("join", r, "feed")

    def poll(self) -> None:
        """What orchestrator's polls keep: the pair of own end and executed coordinate of each."""
        for name in self.used:
            seen = self.state(name) if self.farm.is_up(name) else None
            if seen and seen.source and seen.end:
                pair, kept = (seen.end, seen.source, seen.exec), self.bridges.setdefault(name, [])
                if not kept or kept[-1] != pair:
                    kept.append(pair)
        self.turn("polls")

    def fail(self, a: str) -> None:
        """Kills a server; what its log had is remembered."""
        a = self.n(a)
        self.last[a] = self.reading(a)
        self.farm.kill(a)
        self.down.add(a)
        time.sleep(0.3)
        self.turn("fail", a)

    # ---- the program

    def is_connecting(self, name: str) -> bool:
        """Whether a replica's receiver will connect in a moment: its link isn't cut, and its source is up."""
        if name in self.down or not self.farm.is_up(name) or name in self.proxies and not self.proxies[name].open:
            return False
        seen = self.state(name)
        return bool(seen.source in self.used and self.farm.is_up(seen.source) and not seen.detached and seen.io not in ("Yes", "No"))

    def read(self) -> None:
        """From here on what is done is noted. A receiver that is just connecting would be read as one whose link is cut."""
        self.wait_until(lambda: not any([self.is_connecting(name) for name in self.used]), "a receiver doesn't connect")
        names = sorted(self.used, key=self.farm.names.index)
        self.before = Topology(self.farm.client, names, self.servers_of_proxies)
        self.scenario = Writer(self.before).scenario()
        if self.pseudo:
            self.scenario["pseudo"] = self.pseudo
        self.put_rules()
        self.poll()
        self.turns, self.more_sizes, self.noting = [], [], True

    def read_light(self, words: Sequence[str] = ()) -> None:
        """The scenario is the one that `orch import` writes of the servers as they are now. Nobody knows pairs that were polled before. In its arguments
        letters are servers."""
        parser, err, out = argparse.ArgumentParser(), io.StringIO(), os.path.join(self.farm.folder, "now.json")
        importing.add_arguments(parser)
        spelled = [re.sub(r"\b([a-e])\b", lambda found: self.n(found.group(1)), word) if "=" in word else word for word in words]
        spelled += [word for link, name in self.servers_of_proxies.items() for word in ("--alias", "%s=%s" % (link, name))]
        given = parser.parse_args([*sorted(self.used, key=self.farm.names.index), "--only-named", *spelled, "--out", out])
        with contextlib.redirect_stderr(err):
            status = importing.run(given, lambda *_, **__: self.farm.client)
        if status != 0:
            raise Differs("the import: status %d: %s" % (status, err.getvalue()))
        with open(out, encoding="utf-8") as file:
            self.scenario = json.load(file)
        self.put_rules()
        self.turns, self.is_light = self.scenario["turns"], True
        self.bridges.clear()

    def put_rules(self) -> None:
        """Puts the promotion rules of the story into the scenario."""
        for server in self.scenario["servers"]:
            if server["name"] in self.rules:
                server["rule"] = self.rules[server["name"]]

    def ran(self, words: list[str], turns: Sequence[Turn]) -> tuple[int, str, str]:
        """The program's status, standard output and standard error over the scenario with these turns."""
        text = json.dumps(dict(self.scenario, turns=turns)).encode()
        words = words + (["--wait", str(self.waits)] if self.waits else [])
        done = subprocess.run([self.program] + words, input=text, capture_output=True, timeout=120)
        return done.returncode, done.stdout.decode(), done.stderr.decode()

    def keys(self, i: str | None, d: str | None) -> dict[str, str]:
        """The instance and the destination of a command as a turn has them."""
        return {key: self.n(letter) for key, letter in (("i", i), ("d", d)) if letter}

    def words(self, command: str, i: str | None, d: str | None) -> list[str]:
        """The same as arguments of a command line."""
        return ["-c", command] + [word for key, name in self.keys(i, d).items() for word in ("-" + key, name)]

    def run(self, turns: Sequence[Turn]) -> tuple[list[str], Tables]:
        """The lines of a run of the scenario with these turns, and of each server its table."""
        status, out, err = self.ran(["-c", "run"], turns)
        if status not in (0, 7):
            raise Differs("the program: status %d: %s" % (status, err.strip()))
        lines = out.split("\n")
        tables = {line.split()[1]: line for line in lines if line.startswith("server ")}
        errant = next(line for line in lines if line.startswith("errant "))
        if errant != "errant %d" % self.errants:
            raise Differs("the program: " + errant)
        return lines, tables

    def lag(self) -> int:
        """How many transactions the last replica lacks: in a round it executes one."""
        total = max(sum(run[2] for run in server.get("history", [])) for server in self.scenario["servers"])
        return max(total - server.get("executed", total) for server in self.scenario["servers"])

    def rehearse(self, command: str, i: str | None = None, d: str | None = None) -> tuple[str | None, Any, Tables]:
        """The program's answer: done with its lines, failed with the cause, or refused; and the tables once nothing moves."""
        rounds: list[Turn] = [["job", 1], ["round"]] * (70 + self.lag())
        lines, tables = self.run(self.turns + [["command", command, self.keys(i, d)]] + rounds + [["round"]] * 30)
        kind, got = answer_in(lines, command)
        single = self.ran(self.words(command, i, d), self.turns)
        if kind == "done" and single[1].split("\n")[:-1] != got:
            raise Differs("the single command answers otherwise: %r and %r" % (single[1], got))
        return kind, got, tables

    def rehearse_restart(self, command: str, i: str) -> tuple[str | None, Any, Tables]:
        """The same of a move during which a server restarts, before the turn of its job that the story names."""
        assert self.interrupt
        name, at = self.n(self.interrupt[0]), self.interrupt[1]
        restart: list[Turn] = [["fail", name], ["heal", name], ["fetch", name], ["apply", name]]
        lines, tables = self.run([["command", command, self.keys(i, None)]] + [["job", 1]] * (at - 1) + restart
                                 + [["job", 1], ["round"]] * 10 + [["round"]] * 20)
        return answer_in(lines, command) + (tables,)

    def job(self, kind: type[Job] = Job) -> Job:
        """A job by hand on the servers. Under load it isn't known which transactions the dead server's log had at last."""
        more = self.farm.make.login_words
        kind = GtidJob if kind is Job and self.farm.make.gtid else kind
        job = kind(self.farm.client, self.servers_of_proxies, LOGIN, more=more)
        job.rules = self.rules
        for dead in [] if self.loose else self.last.values():
            job.places = {}
            for group in dead.groups:
                job.places.setdefault(group.file, []).append(group.end)
        return job

    # ---- the comparison

    def is_busy(self, name: str) -> bool:
        """Whether a replica will go on by itself."""
        if name in self.down or not self.farm.is_up(name):
            return False
        seen = self.state(name)
        if not seen.source or not seen.sql or seen.detached:
            return False
        cut = name in self.proxies and not self.proxies[name].open
        if seen.source in self.down or cut:
            return seen.io == "Connecting" and seen.exec < seen.read
        return seen.io == "Connecting" or seen.io == "Yes" and (seen.exec < self.state(seen.source).end or seen.read != seen.exec)

    def quiet(self, seconds: float = 20) -> None:
        """Until each running replica has executed all that its source has."""
        end = time.monotonic() + seconds
        while time.monotonic() < end and any([self.is_busy(name) for name in self.used]):
            time.sleep(0.05)

    def again(self) -> Topology:
        """The servers as they are now, counted as before."""
        servers: dict[str, Server] = {}
        for name in self.before.servers:
            try:
                servers[name] = self.reading(name)
            except Down:
                servers[name] = self.last.get(name) or self.before.servers[name]
        topology = Topology.of(servers)
        for server in servers.values():
            topology.place_by_set(server)
        if self.before.start:
            topology.number(self.before.start)
        else:
            topology.before, topology.start = {name: 0 for name in topology.servers}, 0
            topology.total = {name: len(server.groups) for name, server in topology.servers.items()}
        return topology

    def compare(self, tables: Tables) -> tuple[list[str], list[str]]:
        """What differs between the program's tables and the servers, and what is to be reported beside."""
        now = self.again()
        check = self.compared(now, Loosely(self, now) if self.loose else Exactly(self, now, tables), tables)
        return check.bad + self.rows(now) + self.tries(), check.told()

    def tries(self) -> list[str]:
        """Which replicas of MySQL don't try as often as those of every story do at first: a change of source keeps that number."""
        seen = {name: self.state(name) for name in self.used if self.farm.is_up(name)} if self.farm.make.kind == "mysql" else {}
        return ["%s tries %s times" % (self.letter(name), one.row["Source_Retry_Count"]) for name, one in seen.items()
                if one.source and one.row["Source_Retry_Count"] != "86400"]

    def compare_reading(self, tables: Tables) -> tuple[list[str], list[str]]:
        """The same of the tables and what the servers reported as they were read."""
        check = self.compared(self.before, Exactly(self, self.before, tables), tables)
        return check.bad, check.told()

    def compared(self, topology: Topology, check: Check, tables: Tables) -> Check:
        """Compares each server that is up."""
        for name, line in tables.items():
            if name not in self.down:
                check.server(name, line.split(), topology.servers[name])
        return check

    def rows(self, now: Topology) -> list[str]:
        """Each server has the rows of each transaction that it executed exactly once."""
        bad = []
        for name, server in now.servers.items():
            if name in self.down or server.logs and not server.groups:
                continue
            listed = self.transactions[:self.offset + now.start + executed(now, server)]
            wanted = {one[:2]: one[2] for one in listed if one}
            found = {(int(row["o"]), int(row["s"])): int(row["c"])
                     for row in self.farm.ask(name, "SELECT o, s, COUNT(*) c FROM d.t GROUP BY o, s")}
            if found != wanted:
                twice = [key for key in found if found[key] > wanted.get(key, 0)]
                lost = [key for key in wanted if found.get(key, 0) < wanted[key]]
                bad.append("%s rows: too often %s, missing %s" % (self.letter(name), twice[:5], lost[:5]))
        return bad

    def close(self) -> None:
        """Ends what the story has started."""
        for proxy in self.proxies.values():
            proxy.close()
        self.farm.let_go()


def answer_in(lines: list[str], command: str) -> Answer:
    """What the first job or the refused command of a run's lines came to."""
    for number, line in enumerate(lines):
        if " command %s" % command in line and ": refused " in line:
            return "refused", line.split(": refused ", 1)[1]
        if " job 1: failed " in line:
            return "failed", line.split("failed ", 1)[1]
        if line.endswith(" job 1: done"):
            told = []
            for more in lines[number + 1:]:
                if not more.startswith("  "):
                    break
                told.append(more[2:])
            return "done", told
    return None, []


class Writes(threading.Thread):
    """An ordinary client that writes to one server, one row after another, until it is refused or stopped."""

    def __init__(self, story: Story, a: str) -> None:
        super().__init__(daemon=True)
        self.story, self.a, self.over, self.refused, self.count = story, story.n(a), False, 0, 0

    def run(self) -> None:
        """Writes until it is refused or stopped."""
        story = self.story
        while not self.over:
            number = story.numbers[self.a] = story.numbers.get(self.a, 0) + 1
            story.transactions.append((story.farm.ids[self.a], number, 1))
            error = story.farm.app(self.a, "INSERT INTO d.t(o,s,part,pad) VALUES (%d,%d,0,'x')" % (story.farm.ids[self.a], number))
            if error:
                if error in (1290, 1836):
                    story.transactions.pop()
                self.refused = error
                return
            self.count += 1

    def stop(self) -> str:
        """Stops it, and returns how much it wrote."""
        time.sleep(0.3)
        self.over = True
        self.join(20)
        refused = ", then error %d" % self.refused if self.refused else ""
        return "client: %d writes acknowledged while it ran%s" % (self.count, refused)
