"""Random commands, one after another over one topology; and random trees whose master or intermediate master dies."""
from __future__ import annotations

import argparse
import random
import re
import time
from typing import Any

from rehearsal.farm import Farm
from rehearsal.play import TROUBLES, Say, There, follow, outcome_differs, printed_plan, sources, tell
from rehearsal.print_plan import NoPlan
from rehearsal.story import Differs, Story, Writes

COMMANDS = ["move-up", "move-below", "take-siblings", "take-master", "repoint", "relocate", "relocate-replicas", "move-up-replicas", "stop-replica",
            "start-replica", "restart-replica", "set-read-only", "graceful-master-takeover", "detach-replica", "reattach-replica"]
GTID_COMMANDS = ["move-gtid", "move-gtid", "move-gtid", "move-replicas-gtid", "enable-gtid", "disable-gtid"]
WITH_DESTINATION = ("move-below", "relocate", "relocate-replicas", "move-gtid", "move-replicas-gtid", "graceful-master-takeover")
STEPS_OF_ONE = 12


class Walk:
    """Random commands over one topology."""

    def __init__(self, story: Story, dice: random.Random, say: Say) -> None:
        self.story, self.dice, self.say = story, dice, say

    def topology(self) -> None:
        """A random tree of five servers; with GTIDs some go by auto position."""
        s = self.story
        s.root("a")
        for number, letter in enumerate("bcde"):
            s.below(letter, self.dice.choice("abcd"[:number + 1]), auto=s.farm.make.gtid and self.dice.random() < 0.6)
        s.write("a", 3)
        for letter in "bcde":
            s.wait_until(lambda: s.has_all(s.n(letter)), "%s does not catch up" % letter)

    def is_behind(self, name: str) -> bool:
        """Whether a running replica hasn't got all that its source has."""
        seen = self.story.state(name)
        return bool(seen.source and not seen.detached and seen.sql and seen.io != "No" and not self.story.has_all(name))

    def settle(self, names: list[str]) -> None:
        """Until none of them lags."""
        for name in names:
            self.story.wait_until(lambda: not self.is_behind(name), "%s does not catch up" % name)

    def lag(self, name: str, root: str, others: list[str]) -> None:
        """A replica lags, or goes over to GTIDs."""
        s, make = self.story, self.story.farm.make
        if (make.gtid or make.by_gtids) and self.dice.random() < 0.5:
            s.farm.ask(name, "STOP REPLICA; CHANGE REPLICATION SOURCE TO SOURCE_AUTO_POSITION=1; START REPLICA" if make.gtid
                       else "STOP SLAVE; CHANGE MASTER TO MASTER_USE_GTID=slave_pos; START SLAVE")
            return self.settle([name])
        s.farm.tell(name, "STOP REPLICA SQL_THREAD")
        s.write(s.letter(root), 1)
        time.sleep(0.5)
        return self.settle(others)

    def disturb(self) -> None:
        """What happens between commands: threads go on, there are writes and new files, and some replica lags."""
        s, dice = self.story, self.dice
        s.noting = False
        live = {name: s.state(name) for name in s.used}
        root = next(name for name in s.used if not live[name].source)
        if live[root].read_only:
            s.farm.tell(root, "SET PERSIST super_read_only=OFF")
            s.farm.tell(root, "SET PERSIST read_only=OFF")
        for name in s.used:
            seen = live[name]
            if seen.source and not seen.detached and (not seen.sql or seen.io == "No") and dice.random() < 0.8:
                s.farm.tell(name, "START REPLICA")
        for _ in range(dice.randrange(3)):
            s.write(s.letter(root), dice.randrange(1, 3), dice.randrange(1, 3), dice.choice([1, 300]))
        if dice.random() < 0.5:
            s.flush(s.letter(dice.choice(s.used)))
        running = [name for name, seen in ((name, s.state(name)) for name in s.used) if seen.source and not seen.detached and seen.sql and seen.io != "No"]
        self.settle(running)
        if running and dice.random() < 0.5:
            name = dice.choice(running)
            self.lag(name, root, [other for other in running if other != name])

    def command(self) -> Any:
        """A random command with its instance and destination. Few are refused: the instance is likelier a replica, the destination a sibling."""
        s, dice = self.story, self.dice
        command = dice.choice(COMMANDS + (GTID_COMMANDS if s.farm.make.gtid else []))
        source = sources(s)
        root = next(name for name in source if not source[name])
        below = [name for name in s.used if source[name]]
        i = dice.choice(below if below and dice.random() < 0.9 else s.used)
        if command == "graceful-master-takeover":
            i = root if dice.random() < 0.8 else i
        if command.endswith("-replicas") or command == "move-replicas-gtid":
            i = dice.choice([name for name in s.used if name in source.values()])
        d = None
        if command in WITH_DESTINATION:
            near = [name for name in s.used if name != i and source[name] == (i if command == "graceful-master-takeover" else source[i])]
            d = dice.choice(near if near and dice.random() < 0.6 else s.used)
        return command, s.letter(i), s.letter(d) if d else None

    def step(self) -> list[str]:
        """What differs of one command."""
        s = self.story
        self.disturb()
        s.read()
        command, i, d = self.command()
        s.waits = 60
        kind, got, tables = s.rehearse(command, i, d)
        words = " ".join(word for word in (command, i, d) if word)
        self.say("%s: %s %s" % (words, kind, s.spell(got if isinstance(got, str) else "; ".join(got))))
        if kind == "refused":
            return []
        there = follow(s, printed_plan(s, command, i, d), lambda line: None, got)
        bad = outcome_differs(s, kind, got, there)
        s.quiet()
        return bad + s.compare(tables)[0]


def walk(farm: Farm, given: argparse.Namespace, results: list[bool | None]) -> None:
    """So many random commands; after one that differs, and after every twelve, a new topology is made."""
    dice, left = random.Random(given.seed), given.steps
    while left > 0:
        story = Story(farm, given.orch)
        walked = Walk(story, dice, lambda line: None)
        try:
            walked.topology()
            for _ in range(min(left, STEPS_OF_ONE)):
                left -= 1
                results.append(one_step(walked, given, given.steps - left))
                if results[-1] is False:
                    break
        except TROUBLES as reason:
            tell("FAILED", "walk %d" % (given.steps - left), time.monotonic(), story.spell("no topology: %s" % reason), [])
            results.append(False)
            left -= 1
        finally:
            story.close()


def one_step(walked: Walk, given: argparse.Namespace, number: int) -> bool | None:
    """Whether a random command agrees."""
    said: list[str] = []
    walked.say, began = said.append, time.monotonic()
    try:
        bad = [walked.story.spell(line) for line in walked.step()]
    except NoPlan as reason:
        tell("skipped", "walk %d" % number, began, str(reason), [])
        return None
    except TROUBLES as reason:
        bad = ["%s: %s" % (type(reason).__name__, walked.story.spell(str(reason)))]
    shape = " ".join("%s<%s%s" % (walked.story.letter(server["name"]), walked.story.spell(server.get("source", "-")), "*" if server.get("auto") else "")
                     for server in getattr(walked.story, "scenario", {"servers": []})["servers"])
    tell("FAILED" if bad else "passed", "walk %d" % number, began, "; ".join(said) + "   [" + shape + "]", ["differs: " + line for line in bad])
    return not bad


# ---- deaths


class Death:
    """A random tree whose master or intermediate master dies; under load a client writes until then."""

    def __init__(self, story: Story, dice: random.Random, say: Say) -> None:
        self.story, self.dice, self.say = story, dice, say
        self.above: dict[str, str] = {}

    def topology(self) -> None:
        """A random tree with random promotion rules."""
        s, dice = self.story, self.dice
        s.root("a")
        for number, letter in enumerate("bcde", 1):
            self.above[letter] = "abcde"[dice.randrange(min(number, 2) if dice.random() < 0.8 else number)]
            s.below(letter, self.above[letter], auto=s.farm.make.gtid and dice.random() < 0.7)
        s.write("a", dice.randrange(1, 4))
        s.settle(*"bcde")
        for letter in "bcde":
            if dice.random() < 0.4:
                s.rules[s.n(letter)] = dice.choice(["prefer", "prefer_not", "must_not"])

    def lag(self) -> None:
        """Some replicas stop at random places."""
        s, dice = self.story, self.dice
        lagging = [letter for letter in "bcde" if dice.random() < 0.5]
        for letter in lagging:
            s.applier_off(letter)
        for _ in range(dice.randrange(1, 4)):
            s.write("a", dice.randrange(1, 3), parts=dice.randrange(1, 3))
            if dice.random() < 0.5:
                s.flush(dice.choice("abcde"))
        for letter in "bcde":
            if letter not in lagging and self.above[letter] not in lagging:
                s.wait_until(lambda: s.has_all(s.n(letter)), "%s does not catch up" % letter)
        time.sleep(0.5)
        for letter in lagging:
            source = s.reading(s.n(self.above[letter]))
            place = source.place(s.state(s.n(letter)).exec)
            if len(source.groups) > place and dice.random() < 0.7:
                s.only(letter, dice.randrange(place + 1, len(source.groups) + 1))

    def under_load(self) -> None:
        """A client writes from now on until the death."""
        s = self.story
        s.loose = True
        s.writer = Writes(s, "a")
        s.writer.start()
        time.sleep(0.2 + self.dice.random())

    def played(self, loaded: bool, by_plan: bool) -> list[str]:
        """What differs. Under load the servers are imported after the death: what was known before doesn't have who has received most."""
        s, dice = self.story, self.dice
        self.topology()
        if not loaded:
            self.lag()
        s.read()
        if loaded:
            self.under_load()
        inner = sorted(set(self.above.values()) - {"a"})
        victim = dice.choice(inner) if inner and dice.random() < 0.4 and not loaded else "a"
        replicas = [s.n(letter) for letter in "bcde" if self.above[letter] == victim]
        s.fail(victim)
        if loaded:
            for name in replicas:
                s.wait_until(lambda: s.state(name).io != "Yes", "a receiver doesn't see that its source is gone")
            s.read_light()
        s.poll()
        kind, got, tables = s.rehearse("recover", victim)
        self.say("%s dies%s: %s %s" % (victim, " under load" if loaded else "", kind, s.spell(got if isinstance(got, str) else "; ".join(got))))
        bad = self.refusal(got, victim, replicas) if kind == "refused" else self.recovered(kind, got, victim, replicas, by_plan)
        if s.writer:
            self.say(s.writer.stop())
        s.quiet()
        return bad + s.compare(tables)[0]

    def refusal(self, got: str, victim: str, replicas: list[str]) -> list[str]:
        """A recovery is refused where nobody may be promoted."""
        able = [r for r in replicas if self.story.rules.get(r) != "must_not"]
        return [] if got.startswith("26 ") and victim == "a" and not able else ["refused " + got]

    def stands(self, there: There) -> list[str]:
        """What the servers aren't though the recovery's lines say so: the promoted one takes writes, its followers run below it, the lost are detached."""
        s, bad = self.story, []
        for line in there[1]:
            words = line.split()
            seen = s.state(words[1] if words[0] in ("promoted", "successor") else re.split("[< ]", line)[0])
            if words[0] == "promoted":
                bad += [] if not seen.source and not seen.read_only else [line + ": it has a source, or refuses writes"]
            elif "<" in line:
                bad += [] if seen.source == line.split("<")[1] and seen.sql and seen.io != "No" else [line + ": it is elsewhere, or stopped"]
            elif words[-1] == "detached":
                bad += [] if seen.detached else [line + ": it isn't"]
        return bad

    def recovered(self, kind: str | None, got: Any, victim: str, replicas: list[str], by_plan: bool) -> list[str]:
        """The recovery on the servers, by the printed plan or by statements that are written anew: its lines, and that the servers are what they say."""
        s = self.story
        if by_plan:
            there = follow(s, printed_plan(s, "recover", victim, None), lambda line: None, got)
        else:
            job = s.job()
            there = job.run(job.recover_master, s.n(victim), replicas, s.bridges) if victim == "a" else job.run(
                job.recover_intermediate, s.n(victim), s.n(self.above[victim]), replicas, s.bridges)
            for remark in dict.fromkeys(job.remarks):
                self.say("remark: " + s.spell(remark))
        self.say("by the printed plan" if by_plan else "by hand")
        return outcome_differs(s, kind, got, there) + (self.stands(there) if there[0] == "done" else [])


def deaths(farm: Farm, given: argparse.Namespace, results: list[bool | None]) -> None:
    """So many random deaths, each second one under load, and two of four recovered by the printed plan."""
    dice = random.Random(given.seed)
    for number in range(1, given.deaths + 1):
        said: list[str] = []
        story, began = Story(farm, given.orch), time.monotonic()
        try:
            bad = [story.spell(line) for line in Death(story, dice, said.append).played(number % 2 == 0, number % 4 in (2, 3))]
        except TROUBLES + (Differs,) as reason:
            bad = ["%s: %s" % (type(reason).__name__, story.spell(str(reason)))]
        finally:
            story.close()
        tell("FAILED" if bad else "passed", "death %d" % number, began, "; ".join(said), ["differs: " + line for line in bad])
        results.append(not bad)
