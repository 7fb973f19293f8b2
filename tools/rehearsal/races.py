"""Servers with other events: what comes between the lines of a plan, and files that are gone. The program with these turns, and the servers."""
from __future__ import annotations

import argparse
import dataclasses
import time
from collections.abc import Callable
from typing import Any

from orch_tools.follow import Runner, Stopped
from orch_tools.plan import Line
from orch_tools.reading import Cant
from rehearsal.farm import Farm
from rehearsal.play import Say, played, runner_of
from rehearsal.story import Differs, Story, Turn

# What the program prints, what the servers do, and whether that is the same.
Told = tuple[str, str, bool]


@dataclasses.dataclass(frozen=True)
class Race:
    """A race. `with_gtids`: it is one of GTID mode."""
    made: Callable[[Story], Told]
    with_gtids: bool


RACES: list[Race] = []


def race(made: Callable[[Story], Told]) -> Callable[[Story], Told]:
    """A race of the list."""
    RACES.append(Race(made, False))
    return made


def gtid_race(made: Callable[[Story], Told]) -> Callable[[Story], Told]:
    """A race of the list, in GTID mode alone."""
    RACES.append(Race(made, True))
    return made


def plan_of(s: Story, command: str, i: str, d: str | None = None) -> str:
    """The printed plan."""
    status, out, err = s.ran(s.words(command, i, d) + ["--plan"], s.turns)
    if status != 0:
        raise Differs("no plan: %d %s" % (status, err))
    return out


def line_with(text: str, words: str) -> int:
    """The number of the first line of a plan that has this text."""
    return int(next(line for line in text.split("\n") if words in line and line[0].isdigit()).split()[0])


def carried_out(s: Story, text: str, at: int = 0, act: Callable[[], Any] = lambda: None) -> str:
    """What the runner answers where something is done just before the line of this number."""
    runner = runner_of(s, text, lambda line: None)
    step = Runner.step

    def interrupted(line: Line) -> None:
        if line.number == at:
            act()
        step(runner, line)
    runner.step = interrupted  # type: ignore[method-assign]
    try:
        runner.run()
        return "carried out"
    except Stopped as reason:
        return "stopped: " + str(reason).split("\n")[0]


def program(s: Story, command: str, i: str, d: str | None, before: int, turns: list[Turn]) -> tuple[str, Any]:
    """The program's answer where these turns come before the job's turn of this number, and the tables."""
    job: list[Turn] = [["job", 1]]
    lines, tables = s.run(s.turns + [["command", command, s.keys(i, d)]] + job * before + turns + job * 20)
    ended = next((line for line in lines if " job 1: failed " in line or line.endswith(" job 1: done")), None)
    refused = next((line for line in lines if " command %s" % command in line and ": refused " in line), None)
    return (refused or ended or ": no end").split(": ", 1)[1], tables


def level(s: Story, *letters: str) -> None:
    """These replicas below a, all level, in GTID mode by auto position."""
    s.root("a")
    for letter in letters:
        s.below(letter, "a", auto=s.farm.make.gtid)
    s.write("a", 3)
    s.settle(*letters)


def chain(s: Story) -> None:
    """a over b over c."""
    s.root("a")
    s.below("b", "a", auto=s.farm.make.gtid)
    s.below("c", "b", auto=s.farm.make.gtid)
    s.write("a", 3)
    s.settle("b", "c")


def flush_and_purge(s: Story, name: str) -> None:
    """A server begins a new file, and keeps no other."""
    s.flush(name)
    s.purge(name, s.state(s.n(name)).end.number)


def is_stopped(told: str, cause: str, there: str, words: str) -> bool:
    """Whether the program's job failed with that cause, and the runner stopped with this reason."""
    return told.split()[:2] == ["failed", cause] and there.startswith("stopped") and words in there


# ---- by coordinates or by sets


@race
def purged_below(s: Story) -> Told:
    """b flushes and purges between its stop and the change: move-below c below b"""
    level(s, "b", "c")
    s.read()
    text = plan_of(s, "move-below", "c", "b")
    told, _ = program(s, "move-below", "c", "b", 11, [["rotate", s.n("b")], ["purge", s.n("b"), 2]])
    there = carried_out(s, text, line_with(text, "CHANGE REPLICATION"), lambda: flush_and_purge(s, "b"))
    return told, there, is_stopped(told, "Purged", there, "doesn't keep")


@race
def purged_asked(s: Story) -> Told:
    """a replica that was cut off asks for a purged file: its receiver goes off and its applier doesn't, also when it is started again"""
    s.root("a")
    s.below("b", "a", proxy=True)
    s.write("a", 2)
    s.settle("b")
    s.read()
    s.cut("b")
    s.write("a", 1)
    s.flush("a")
    s.write("a", 1)
    s.purge("a", 2)
    s.turn("purge", s.n("a"), 2)
    s.join("b")
    s.wait_until(lambda: s.state(s.n("b")).io == "No", "b's receiver goes on")
    s.turn("fetch", s.n("b"))
    lines, tables = s.run(s.turns)
    told = next(line for line in lines if " fetch " in line).split(": ", 1)[1]
    seen = s.state(s.n("b"))
    there = "receiver %s, applier %s: %s %s" % (seen.io, "on" if seen.sql else "off", seen.row["Last_IO_Errno"], seen.row["Last_IO_Error"][:110])
    again = carried_out(s, plan_of(s, "start-replica", "b"))
    same = "io off sql on" in tables[s.n("b")] and (seen.io, seen.sql) == ("No", True) and told == "purged 2"
    return told, "%s; started again: %s" % (there, again), same and again.startswith("stopped") and "its receiver" in again


@race
def imported_broken(s: Story) -> Told:
    """the exact import refuses a replica whose receiver met a purged file"""
    s.root("a")
    s.below("b", "a", proxy=True)
    s.write("a", 2)
    s.settle("b")
    s.cut("b")
    s.write("a", 1)
    s.flush("a")
    s.write("a", 1)
    s.purge("a", 2)
    s.join("b")
    s.wait_until(lambda: s.state(s.n("b")).io == "No", "b's receiver goes on")
    try:
        s.read()
        there = "read: " + str(s.scenario["servers"][1])
    except Cant as reason:
        there = "no scenario: " + s.spell(str(reason))[:200]
    return "(an import has no such receiver)", there, there.startswith("no scenario")


@race
def errant_in_between(s: Story) -> Told:
    """b takes a write of its own between its stop and the change: take-master of c and b"""
    chain(s)
    s.farm.ask(s.n("b"), "SET GLOBAL read_only=OFF")
    s.read()
    text = plan_of(s, "take-master", "c")
    s.errants = 1
    told, _ = program(s, "take-master", "c", None, 9, [["write", s.n("b"), 100]])
    there = carried_out(s, text, 9, lambda: s.write("b", 1))
    return told, there, is_stopped(told, "Interfered", there, "ends at")


@race
def destination_dies(s: Story) -> Told:
    """b dies before its last status: move-below c below b"""
    level(s, "b", "c")
    s.read()
    text = plan_of(s, "move-below", "c", "b")
    told, _ = program(s, "move-below", "c", "b", 8, [["fail", s.n("b")]])
    there = carried_out(s, text, 9, lambda: s.farm.kill(s.n("b")))
    return told, there, is_stopped(told, "Unreachable", there, "isn't reached")


@race
def applier_is_held(s: Story) -> Told:
    """c, which lags, doesn't come so far: a table lock holds its applier; move-up of c"""
    chain(s)
    s.applier_off("c")
    s.write("a", 2)
    s.settle("b")
    s.wait_until(lambda: s.state(s.n("c")).read >= s.state(s.n("b")).end, "c doesn't receive")
    s.read()
    s.waits = 3
    text = plan_of(s, "move-up", "c")
    told, _ = program(s, "move-up", "c", None, 0, [])
    s.farm.hold(s.n("c"), 30)
    runner = runner_of(s, text, lambda line: None)
    runner.wait = 2
    try:
        runner.run()
        there = "carried out"
    except Stopped as reason:
        there = "stopped: " + str(reason).split("\n")[0]
    s.farm.let_go()
    return told, there, there.startswith("stopped") and "doesn't come so far" in there


@race
def restart_in_between(s: Story) -> Told:
    """c restarts just before the change: move-up of c"""
    chain(s)
    s.read()
    text = plan_of(s, "move-up", "c")
    told, _ = program(s, "move-up", "c", None, 7, [["fail", s.n("c")], ["heal", s.n("c")], ["fetch", s.n("c")], ["apply", s.n("c")]])
    there = carried_out(s, text, line_with(text, "CHANGE REPLICATION"), lambda: restart(s, "c"))
    return told, there, is_stopped(told, "Running", there, "runs")


def restart(s: Story, letter: str) -> None:
    """A server is killed and starts again, and so do its threads."""
    s.farm.restart(s.n(letter))
    time.sleep(1)


@race
def reattached_after_restart(s: Story) -> Told:
    """c, which is detached, restarts, and so do its threads; then reattach-replica"""
    level(s, "b", "c")
    s.detach("c")
    s.read()
    s.turns = [["fail", s.n("c")], ["heal", s.n("c")], ["polls"]]
    text = plan_of(s, "reattach-replica", "c")
    told, _ = program(s, "reattach-replica", "c", None, 0, [])
    restart(s, "c")
    seen = s.state(s.n("c"))
    there = carried_out(s, text)
    there += "; after its restart receiver %s, applier %s; at last receiver %s" % (seen.io, "on" if seen.sql else "off", s.state(s.n("c")).io)
    return told, there, told.endswith("done") and there.startswith("carried out") and there.endswith("receiver Yes")


@race
def detached_and_back(s: Story) -> Told:
    """c is detached and attached again by the printed plans: it goes as it went before, and is where it was"""
    level(s, "b", "c")
    s.read()
    before = s.state(s.n("c")).row.get("Auto_Position")
    detached: list[Turn] = [["command", "detach-replica", s.keys("c", None)]] + [["job", 1]] * 4
    _, tables = s.run(detached + [["command", "reattach-replica", s.keys("c", None)]] + [["job", 2]] * 5)
    there = [carried_out(s, plan_of(s, "detach-replica", "c"))]
    s.turns = detached
    there.append(carried_out(s, plan_of(s, "reattach-replica", "c")))
    s.write("a", 1)
    s.wait_until(lambda: s.has_all(s.n("c")), "c doesn't go on")
    after = s.state(s.n("c")).row.get("Auto_Position")
    auto = "auto" in tables[s.n("c")].split()
    same = there == ["carried out"] * 2 and before == after and (after is None or auto == (after == "1"))
    return "auto at the end: %s" % auto, "%s; Auto_Position %s before, %s at the end" % ("; ".join(there), before, after), same


# ---- by sets alone


@gtid_race
def errant_before_change(s: Story) -> Told:
    """c's own transaction comes between the wait for sets and the change: move-gtid c below b"""
    level(s, "b", "c")
    s.farm.ask(s.n("c"), "SET GLOBAL read_only=OFF")
    s.read()
    text = plan_of(s, "move-gtid", "c", "b")
    s.errants = 1
    told, _ = program(s, "move-gtid", "c", "b", 4, [["write", s.n("c"), 100]])
    there = carried_out(s, text, 5, lambda: s.write("c", 1))
    own = s.farm.ask(s.n("c"), "SELECT @@server_uuid u")[0]["u"] + ":1"
    return told, there, is_stopped(told, "Errant", there, "has executed what") and told.endswith(own)


@gtid_race
def errant_before_all(s: Story) -> Told:
    """c's own transaction comes before all: the wait for its set is in vain"""
    level(s, "b", "c")
    s.farm.ask(s.n("c"), "SET GLOBAL read_only=OFF")
    s.read()
    text = plan_of(s, "move-gtid", "c", "b")
    s.errants, s.waits = 1, 5
    told, _ = program(s, "move-gtid", "c", "b", 1, [["write", s.n("c"), 100]])
    there = carried_out(s, text, 2, lambda: s.write("c", 1))
    return told, there, is_stopped(told, "WaitSpent", there, "hasn't executed that set")


@gtid_race
def errant_refused(s: Story) -> Told:
    """c has a transaction of its own, and it is seen: move-gtid is refused with that set"""
    level(s, "b", "c")
    s.farm.ask(s.n("c"), "SET GLOBAL read_only=OFF")
    s.read()
    s.errants = 1
    lines, _ = s.run(s.turns + [["write", s.n("c"), 100], ["polls"], ["command", "move-gtid", s.keys("c", "b")]])
    told = next(line for line in lines if " command move-gtid" in line).split(": ", 1)[1]
    s.write("c", 1)
    own = s.farm.ask(s.n("c"), "SELECT GTID_SUBTRACT(@@global.gtid_executed, '%s') g" % s.state(s.n("b")).gtids)[0]["g"]
    return told, "own transactions: " + own, told == "refused 18 Errant " + own


def lacks_two(s: Story) -> str:
    """b has two transactions that c, whose applier is off, hasn't executed; the plan by which c goes below b."""
    level(s, "b", "c")
    s.applier_off("c")
    s.write("a", 2)
    s.settle("b")
    s.read()
    return plan_of(s, "move-gtid", "c", "b")


@gtid_race
def purged_in_between(s: Story) -> Told:
    """b purges what c lacks between the wait and the change: move-gtid c below b"""
    text = lacks_two(s)
    told, _ = program(s, "move-gtid", "c", "b", 4, [["rotate", s.n("b")], ["purge", s.n("b"), 2]])
    there = carried_out(s, text, 5, lambda: flush_and_purge(s, "b"))
    return told, there, is_stopped(told, "Purged", there, "has purged")


@gtid_race
def purged_before(s: Story) -> Told:
    """b has purged what c lacks, and it is seen: refused; a plan that was printed before is stopped"""
    text = lacks_two(s)
    lines, _ = s.run(s.turns + [["rotate", s.n("b")], ["purge", s.n("b"), 2], ["polls"], ["command", "move-gtid", s.keys("c", "b")]])
    told = next(line for line in lines if " command move-gtid" in line).split(": ", 1)[1]
    flush_and_purge(s, "b")
    there = carried_out(s, text)
    return told, there, told.startswith("refused 30 Purged") and there.startswith("stopped") and "has purged" in there


@gtid_race
def restart_before_set(s: Story) -> Told:
    """c restarts between the wait and the change: move-gtid c below b"""
    level(s, "b", "c")
    s.read()
    text = plan_of(s, "move-gtid", "c", "b")
    told, _ = program(s, "move-gtid", "c", "b", 4, [["fail", s.n("c")], ["heal", s.n("c")], ["fetch", s.n("c")], ["apply", s.n("c")]])
    there = carried_out(s, text, 5, lambda: restart(s, "c"))
    return told, there, is_stopped(told, "Running", there, "runs")


@gtid_race
def old_master_comes_back(s: Story) -> Told:
    """the master dies and b is promoted; the old master starts again, is read, and goes below b by move-gtid with a login"""
    level(s, "b", "c")
    s.read()
    s.poll()
    s.fail("a")
    s.poll()
    job = s.job()
    done = job.run(job.recover_master, s.n("a"), s.names("bc"), s.bridges)
    s.farm.launch(s.n("a"))
    s.farm.ready(s.n("a"))
    s.down.clear()
    s.noting = False
    s.write("b", 2)
    s.wait_until(lambda: s.state(s.n("c")).gtids == s.state(s.n("b")).gtids, "c doesn't catch up")
    s.read()
    text = plan_of(s, "move-gtid", "a", "b")
    kind, got, _ = s.rehearse("move-gtid", "a", "b")
    there = carried_out(s, text)
    seen = s.state(s.n("a"))
    there = "%s; %s; a is below %s, receiver %s" % (s.spell("; ".join(done[1])), there, s.spell(seen.source or "nothing"), seen.io)
    return "%s %s" % (kind, got), there, kind == "done" and there.endswith("receiver Yes")


@gtid_race
def ahead_is_attached_again(s: Story) -> Told:
    """d must not be promoted, is ahead and detached by the recovery's plan; the old master is back, and d is attached to it again: both by auto position"""
    s.root("a")
    for letter in "bcd":
        s.below(letter, "a", proxy=True, auto=True)
    s.write("a", 3)
    s.settle("b", "c", "d")
    s.cut("b", "c")
    s.write("a", 2)
    s.settle("d")
    s.rules[s.n("d")] = "must_not"
    s.read()
    s.fail("a")
    s.join("b", "c")
    s.poll()
    kind, got, _ = s.rehearse("recover", "a")
    there = [carried_out(s, plan_of(s, "recover", "a")), placed(s, "d")]
    s.farm.launch(s.n("a"))
    s.farm.ready(s.n("a"))
    s.down.clear()
    s.noting, s.turns = False, []
    s.read()
    again, _, tables = s.rehearse("reattach-replica", "d")
    there += [carried_out(s, plan_of(s, "reattach-replica", "d"))]
    s.quiet()
    there += [placed(s, "d")] + s.compare(tables)[0]
    told = "%s %s; %s" % (kind, "; ".join(got), again)
    wanted = ["carried out", "//a, Auto_Position 1, receiver No", "carried out", "a, Auto_Position 1, receiver Yes"]
    return told, "; ".join(there), told.endswith("detached; done") and there == wanted


def placed(s: Story, letter: str) -> str:
    """A replica's source, with the two slashes of a detached one, and how it goes."""
    seen = s.state(s.n(letter))
    source = "//" * seen.detached + s.letter(seen.source or "")
    return "%s, Auto_Position %s, receiver %s" % (source, seen.row["Auto_Position"], seen.io)


@gtid_race
def source_dies_after_change(s: Story) -> Told:
    """c was put below b by its set, and b dies before c has read of it: the import places c by its set"""
    s.root("a")
    for letter, source in (("b", "a"), ("c", "a"), ("d", "b")):
        s.below(letter, source, auto=True)
    s.write("a", 3)
    s.settle("b", "c", "d")
    s.read()
    s.fail("b")
    port = s.n("b").rpartition(":")[2]
    s.farm.ask(s.n("c"), "STOP REPLICA; CHANGE REPLICATION SOURCE TO SOURCE_HOST='127.0.0.1', SOURCE_PORT=%s, SOURCE_AUTO_POSITION=1; START REPLICA" % port)
    time.sleep(1)
    seen = s.state(s.n("c"))
    try:
        s.read()
        there = "executed %s" % next(server for server in s.scenario["servers"] if server["name"] == s.n("c")).get("executed")
    except Cant as reason:
        there = "no scenario: %s" % reason
    return "executed 5", "shown %s; %s" % (seen.exec, there), there == "executed 5"


def one_race(farm: Farm, given: argparse.Namespace, told: Race) -> bool | None:
    """Whether the program and the servers come to the same in a race."""
    def play(story: Story, say: Say) -> list[str]:
        mine, there, same = told.made(story)
        say("program: " + story.spell(mine))
        say("servers: " + story.spell(there))
        return [] if same else ["it isn't the same"]
    return played(farm, given, "race " + told.made.__name__, told.made.__doc__ or "", play)
