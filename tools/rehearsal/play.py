"""How a story is played: the program's answer, the same on the servers, and what differs."""
from __future__ import annotations

import argparse
import json
import os
import re
import subprocess
import sys
import time
from collections.abc import Callable
from typing import Any

from orch_tools.client import Coord, Down, Refused, Servers
from orch_tools.follow import Runner, Stopped
from orch_tools.plan import Unread, read_plan
from orch_tools.reading import Cant, Server
from orch_tools.topology import ModelLog, model_coord
from rehearsal import recovery_plan
from rehearsal.by_hand import Job
from rehearsal.farm import Farm
from rehearsal.print_plan import NoPlan, Sources, moves, plan_text
from rehearsal.stories import Made
from rehearsal.story import LOGIN, Differs, Story

Say = Callable[[str], None]
There = tuple[str | None, Any]
TROUBLES = (Differs, Down, Refused, Cant, Unread, RuntimeError, ValueError, subprocess.TimeoutExpired)


def sources(story: Story) -> Sources:
    """The source of each server of the scenario."""
    return {server["name"]: server.get("source") for server in story.scenario["servers"]}


def detached(story: Story) -> set[str]:
    """The servers that are detached from their source."""
    return {server["name"] for server in story.scenario["servers"] if server.get("detached")}


def goes_by_sets(story: Story, command: str) -> bool:
    """Whether the program's plan of this command may go by GTIDs or keep auto position."""
    return bool(story.scenario.get("gtid")) and (command.endswith("gtid") or command.startswith(("relocate", "repoint", "detach", "reattach")))


def written_plan(story: Story, command: str, i: str, d: str | None) -> str | None:
    """The plan as it is written anew, of moves and commands of one server, and of recoveries and moves by GTIDs over logs of one file; else none."""
    to = story.n(d) if d else None
    own = None if goes_by_sets(story, command) else plan_text(command, story.n(i), to, sources(story), detached(story))
    try:
        return own or recovery_plan.plan_text(command, story.n(i), to, json.dumps(dict(story.scenario, turns=story.turns)))
    except recovery_plan.Unwritten:
        return None


def printed_plan(story: Story, command: str, i: str, d: str | None) -> str:
    """The plan as the program prints it; it must be the one that is written anew, if there is one."""
    own = written_plan(story, command, i, d)
    status, out, err = story.ran(story.words(command, i, d) + ["--plan"], story.turns)
    if status == 1:
        raise NoPlan("the program prints no plan of %s" % command)
    if status != 0 or own is not None and out != own:
        raise Differs("the program's plan is another: status %d\n%s%s" % (status, out, err))
    return out


class ByHand(Runner):
    """A runner that finds itself what a line wants of a hand: the place in a log after as many transactions as the replica has executed."""

    def coord(self, word: str) -> Coord:
        """The coordinate of A.exec, A.read, A.end or A.match."""
        letter, what = word.split(".")
        hand = self.plan.by_hand[letter].condition("by hand") if what == "match" else None
        into = re.search(r"in the log of ([A-Z]\d*) behind", hand[1]) if hand else None
        if into:
            own, other = (Server(self.name(one), self.servers.client, self.servers.aliases).read() for one in (letter, into.group(1)))
            place = other.groups[len(own.groups) - 1].last
            self.places[letter] = Coord(place.number, place.position, "%s.%06d" % (other.base_name, place.number))
        return super().coord(word)


def runner_of(story: Story, text: str, say: Say) -> Runner:
    """A runner of a printed plan over the story's servers."""
    more = ", " + story.farm.make.login if story.farm.make.login else ""
    return ByHand(Servers(story.farm.client, story.servers_of_proxies), read_plan(text), LOGIN, more, wait=60, say=say)


def follow(story: Story, text: str, say: Say, done: Any) -> There:
    """Carries a plan out by the runner alone: done with the lines that the program printed, or failed with the runner's reason. Whom a plan that
    fails has stopped is started again, as the runner asks."""
    try:
        runner_of(story, text, say).run()
        return "done", done
    except Stopped as reason:
        for name in re.findall(r"^  (\S+): START REPLICA$", str(reason), re.M):
            story.farm.tell(name, "START REPLICA")
        return "failed", "by the runner: " + str(reason)


def restart_before(story: Story, job: Job) -> None:
    """The server that a story names restarts before the operation that it names."""
    taken = [0]

    def before(_: str) -> None:
        assert story.interrupt
        taken[0] += 1
        if taken[0] == story.interrupt[1]:
            story.farm.restart(story.n(story.interrupt[0]))
            time.sleep(1)
    job.before_operation = before


def by_statements(story: Story, command: str, i: str, d: str | None, job: Job) -> There:
    """A wrong job's plan of a command."""
    source = sources(story)

    def below(name: str) -> list[str]:
        return sorted(r for r in source if source[r] == name)
    if command == "graceful-master-takeover" and d:
        return job.run(job.takeover, story.n(i), story.n(d), below(story.n(i)))
    return job.run(moves, job, command, story.n(i), story.n(d) if d else None, source, below)


# ---- what differs


def lines_differ(story: Story, got: list[str], there: list[str]) -> list[str]:
    """Lines word for word, but coordinates of lost replicas by their places, unless the scenario has the servers' own."""
    if len(got) != len(there):
        return ["lines %s, the servers %s" % (got, there)]
    return ["line %s, the servers %s" % (mine, other) for mine, other in zip(got, there)
            if mine != other and (story.is_light or not is_same_lost(story, mine, other))]


def is_same_lost(story: Story, mine: str, other: str) -> bool:
    """Whether two lines of a lost replica differ only in coordinates of one place."""
    ours, theirs = mine.split(), other.split()
    if len(ours) < 3 or len(ours) != len(theirs) or ours[1] not in ("ahead", "behind") or ours[:2] + ours[3:] != theirs[:2] + theirs[3:]:
        return False
    source = sources(story)[ours[0]] or ""
    server = story.last.get(source) or story.before.servers[source]
    flushes = next(one.get("flushes", []) for one in story.scenario["servers"] if one["name"] == source)
    sizes = (story.before.sizes() + story.more_sizes)[:len(story.before.servers[source].groups) + len(story.more_sizes)]
    file, position = theirs[2].split(":")
    real = sum(1 for group in server.groups if (group.file, group.end) <= (int(file.rsplit(".", 1)[1]), int(position)))
    return bool(ModelLog(sizes, flushes).place(model_coord(ours[2])) == real)


def outcome_differs(story: Story, kind: str | None, got: Any, there: There) -> list[str]:
    """What differs between the program's end of a job and the servers'. If the runner stopped a plan, only that it did is compared."""
    if kind != there[0]:
        return ["%s %s, the servers %s %s" % (kind, got, there[0], there[1])]
    if kind == "failed":
        same = got.split()[:2] == there[1].split()[:2] or there[1].startswith("by the runner: ")
        return [] if same else ["%s, the servers %s" % (got, there[1])]
    return lines_differ(story, got, there[1])


def without_known(story: Story, lines: list[str], say: Say) -> list[str]:
    """What differs otherwise than a story foretells."""
    left = []
    for line in lines:
        why = next((why for start, why in story.known.items() if line.startswith(start)), None)
        if why:
            say("known: %s (%s)" % (line, why))
        else:
            left.append(line)
    return left


# ---- stories


class Playing:
    """One playing of a story. `wrong` is the job of a wrong plan; `by_plan`: the printed plan is followed if a story has one by hand."""

    def __init__(self, story: Story, wrong: type[Job] | None, by_plan: bool, say: Say) -> None:
        self.story, self.wrong, self.by_plan, self.say = story, wrong, by_plan, say
        self.is_by_hand, self.is_printed = False, False

    def carried_out(self, told: tuple[str, str, str | None], plan: Any, done: Any) -> There:
        """The command on the servers."""
        story, (command, i, d) = self.story, told
        if plan is not None and not self.by_plan or self.wrong:
            self.is_by_hand, self.is_printed = True, story.ran(story.words(command, i, d) + ["--plan"], story.turns)[0] == 0
            job = story.job(self.wrong or Job)
            if story.interrupt:
                restart_before(story, job)
            there = job.run(*plan(job)) if plan is not None else by_statements(story, command, i, d, job)
            for remark in dict.fromkeys(job.remarks):
                self.say("remark: " + story.spell(remark))
            return there
        text = printed_plan(story, command, i, d)
        self.say("followed the printed plan of %d lines" % len(read_plan(text).lines))
        return follow(story, text, lambda line: None, done)

    def imported(self) -> list[str]:
        """What differs between the servers as they were read and the program's tables of the scenario that was made of it. All logs begin with the
        first transaction."""
        story = self.story
        _, tables = story.run([])
        bad, beside = story.compare_reading(tables)
        bad += ["%s: its log is taken to begin at transaction %d" % (name, 1 + before) for name, before in story.before.before.items() if before]
        for line in beside + ([story.writer.stop()] if story.writer else []):
            self.say(line)
        return bad

    def played(self, made: Made) -> list[str]:
        """What differs."""
        story = self.story
        try:
            told, plan = made(story)
        except Cant as reason:
            if not story.no_scenario or story.no_scenario not in str(reason):
                raise
            self.say("the import: %s" % reason)
            return []
        if story.no_scenario:
            return ["the import was to refuse it"]
        if told is None:
            return self.imported()
        kind, got, tables = story.rehearse_restart(told[0], told[1]) if story.interrupt else story.rehearse(*told)
        self.say("program: %s %s" % (kind, story.spell(got if isinstance(got, str) else "; ".join(got))))
        bad = []
        if isinstance(plan, str):
            bad += [] if kind == "refused" and plan in got.split() else ["refused %s was to be answered" % plan]
            if story.errants or any(turn[0] == "purge" for turn in story.turns):
                return bad
        else:
            there = self.carried_out(told, plan, got)
            self.say("servers: %s %s" % (there[0], story.spell(there[1] if isinstance(there[1], str) else "; ".join(there[1]))))
            bad += outcome_differs(story, kind, got, there)
        if story.writer:
            self.say(story.writer.stop())
        story.quiet()
        more, beside = story.compare(tables)
        for line in beside:
            self.say(line)
        return bad + without_known(story, more, self.say)


def tell(verdict: str, name: str, began: float, about: str, lines: list[str]) -> None:
    """A line of the report, and what belongs to it."""
    print("%s %s (%.1f s): %s" % (verdict, name, time.monotonic() - began, about))
    for line in lines:
        print("    " + line)
    sys.stdout.flush()


def keep(story: Story, file_name: str) -> None:
    """Writes a story's scenario with its turns, for whom it may interest why it fails."""
    with open(file_name, "w", encoding="utf-8") as file:
        json.dump(dict(getattr(story, "scenario", {}), turns=story.turns), file, indent=1)


def played(farm: Farm, given: argparse.Namespace, name: str, about: str, play: Callable[[Story, Say], list[str]], must_differ: bool = False) -> bool | None:
    """Whether what is played agrees, or differs where it must; None where it is skipped."""
    said: list[str] = []
    began, story = time.monotonic(), None
    try:
        story = Story(farm, given.orch)
        bad = [story.spell(line) for line in play(story, said.append)]
    except NoPlan as reason:
        tell("skipped", name, began, str(reason), [])
        return None
    except TROUBLES as reason:
        bad = ["%s: %s" % (type(reason).__name__, story.spell(str(reason)) if story else reason)]
    finally:
        if story:
            story.close()
    passed = bool(bad) == must_differ
    if given.keep and story and not passed:
        keep(story, os.path.join(given.keep, name.replace(" ", "_") + ".json"))
    shown = said + ["differs: " + line for line in bad]
    tell("passed" if passed else "FAILED", name, began, about, shown if given.verbose or not passed else [])
    return passed


def one(farm: Farm, given: argparse.Namespace, made: Made) -> list[bool | None]:
    """Whether a story agrees; and one that goes by hand, by the printed plan, if the program prints one."""
    playings: list[Playing] = []

    def play(story: Story, say: Say) -> list[str]:
        playings.append(Playing(story, None, len(playings) == 1, say))
        return playings[-1].played(made)
    name, about = made.__name__, made.__doc__ or ""
    results = [played(farm, given, name, about, play)]
    if playings and playings[0].is_by_hand and not story_restarts(playings[0]):
        if playings[0].is_printed:
            results.append(played(farm, given, name + " by the printed plan", about, play))
        else:
            tell("skipped", name + " by the printed plan", time.monotonic(), "the program prints none", [])
    return results


def story_restarts(playing: Playing) -> bool:
    """Whether a server restarts in the midst of a story's command."""
    return playing.story.interrupt is not None


def one_wrong(farm: Farm, given: argparse.Namespace, made: Made, wrong: type[Job], harmless: bool) -> bool | None:
    """Whether a story by a wrong plan differs, or agrees where that plan is harmless."""
    about = "%s, and so it must %s" % ((wrong.__doc__ or "").strip("."), "agree: with GTIDs nothing is repeated" if harmless else "differ")
    return played(farm, given, "%s by %s" % (made.__name__, wrong.__name__), about,
                  lambda story, say: Playing(story, wrong, False, say).played(made), must_differ=not harmless)
