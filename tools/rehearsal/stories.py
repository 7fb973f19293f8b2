"""The stories: each makes a topology, reads it, and names a command and its plan by hand."""
from __future__ import annotations

import time
from collections.abc import Callable
from typing import Any

from orch_tools.client import Coord
from rehearsal.by_hand import Job, Spot
from rehearsal.story import Differs, Story, Writes

# A command with its instance and destination, or none; and a plan by hand, the name of a refusal, or nothing for a printed plan.
Told = tuple[tuple[str, str, str | None] | None, Any]
Made = Callable[[Story], Told]
STORIES: list[Made] = []


def story(made: Made) -> Made:
    """A story of the list."""
    STORIES.append(made)
    return made


def moved(command: str, i: str, d: str | None = None) -> Told:
    """A story that ends in a command with a straight plan."""
    return (command, i, d), None


def chain(s: Story) -> None:
    """a over b over c; b's log is divided otherwise than a's."""
    s.root("a")
    s.below("b", "a")
    s.below("c", "b")
    s.write("a", 3)
    s.settle("b", "c")
    s.flush("b")
    s.write("a", 2, parts=3)
    s.settle("b", "c")


def siblings(s: Story, behind: str, ahead: str) -> None:
    """b and c below a: one lags by three transactions, the other has all."""
    s.root("a")
    s.below("b", "a")
    s.below("c", "a")
    s.write("a", 3)
    s.settle("b", "c")
    s.flush("a")
    s.write("a", 2)
    s.settle("b", "c")
    s.flush(ahead)
    s.only(behind, 5)
    s.write("a", 3, parts=2)
    s.settle(ahead)


# ---- moves


@story
def move_up(s: Story) -> Told:
    """c, which lags below b, goes up to a"""
    chain(s)
    s.flush("a")
    s.settle("b")
    s.only("c", 4)
    s.write("a", 3, pad=300)
    s.settle("b")
    s.flush("b")
    s.read()
    return moved("move-up", "c")


@story
def move_up_stopped_relay(s: Story) -> Told:
    """b itself lags with its applier off; c goes up to a at what b has executed"""
    chain(s)
    s.write("a", 2)
    s.settle("b", "c")
    s.applier_off("b")
    s.write("a", 3)
    time.sleep(0.5)
    s.read()
    return moved("move-up", "c")


@story
def move_up_replicas(s: Story) -> Told:
    """c and d below b go up one after another; d lags"""
    chain(s)
    s.below("d", "b")
    s.settle("d")
    s.only("d", 5)
    s.write("a", 2)
    s.settle("b", "c")
    s.flush("b")
    s.write("a", 1)
    s.settle("b", "c")
    s.read()
    return moved("move-up-replicas", "b")


@story
def move_below_behind(s: Story) -> Told:
    """c, which lags three transactions after its sibling b, goes below b"""
    siblings(s, "c", "b")
    s.read()
    return moved("move-below", "c", "b")


@story
def move_below_ahead(s: Story) -> Told:
    """c goes below its sibling b, which lags three transactions after c"""
    siblings(s, "b", "c")
    s.read()
    return moved("move-below", "c", "b")


@story
def move_below_stuck(s: Story) -> Told:
    """the sibling's applier is on but waits when the move begins, and goes on a second later"""
    s.root("a")
    s.below("b", "a")
    s.below("c", "a")
    s.write("a", 3)
    s.settle("b", "c")
    s.farm.hold(s.n("b"), 2.5)
    s.write("a", 2)
    s.settle("c")
    time.sleep(0.3)
    s.read()
    return moved("move-below", "c", "b")


@story
def take_siblings(s: Story) -> Told:
    """c and d, one with a lag and one level, go below b"""
    siblings(s, "c", "b")
    s.below("d", "a")
    s.settle("d")
    s.read()
    return moved("take-siblings", "b")


@story
def take_master(s: Story) -> Told:
    """c and its source b change places; c lags"""
    chain(s)
    s.only("c", 4)
    s.write("a", 2)
    s.settle("b")
    s.read()
    return moved("take-master", "c")


@story
def take_master_after_flush(s: Story) -> Told:
    """as before, and b's log has just been rotated, so that its end is after a file's head"""
    chain(s)
    s.write("a", 2)
    s.settle("b", "c")
    s.flush("b")
    time.sleep(0.5)
    s.settle("c")
    s.read()
    return moved("take-master", "c")


@story
def repoint(s: Story) -> Told:
    """c lags below a, two files back, and is repointed to a"""
    s.root("a")
    s.below("c", "a")
    s.write("a", 2)
    s.settle("c")
    s.only("c", 3)
    s.flush("a")
    s.write("a", 2)
    s.flush("a")
    s.write("a", 1)
    time.sleep(0.3)
    s.read()
    return moved("repoint", "c")


@story
def relocate(s: Story) -> Told:
    """e, three levels down (a, b, c, e), goes below d, which is below a: twice up, then below"""
    chain(s)
    s.below("d", "a")
    s.below("e", "c")
    s.write("a", 2)
    s.settle("b", "c", "d", "e")
    s.only("d", 5)
    s.write("a", 2)
    s.settle("b", "c", "e")
    s.read()
    s.waits = 20 if s.farm.make.gtid else None
    return moved("relocate", "e", "d")


@story
def relocate_replicas(s: Story) -> Told:
    """d and e, replicas of c, go below b, c's source; d lags"""
    chain(s)
    s.below("d", "c")
    s.below("e", "c")
    s.write("a", 2)
    s.settle("b", "c", "d", "e")
    s.only("d", 5)
    s.write("a", 1)
    s.settle("b", "c", "e")
    s.read()
    return moved("relocate-replicas", "c", "b")


@story
def purged_logs(s: Story) -> Told:
    """a's and b's oldest files are purged: the scenario begins at the first transaction that all logs have"""
    chain(s)
    s.flush("a")
    s.write("a", 2)
    s.settle("b", "c")
    s.flush("b")
    s.write("a", 2)
    s.settle("b", "c")
    s.flush("c")
    s.write("a", 1)
    s.settle("b", "c")
    s.purge("a", 2)
    s.offset = len(s.transactions) - len(s.reading(s.n("a")).groups)
    s.purge("b", s.state(s.n("b")).end.number)
    s.applier_off("c")
    s.write("a", 2)
    s.settle("b")
    s.read()
    if not s.before.start:
        raise Differs("nothing was purged")
    return moved("move-up", "c")


# ---- one server


@story
def stop_and_start(s: Story) -> Told:
    """c, which runs, is started again by restart-replica"""
    chain(s)
    s.read()
    return moved("restart-replica", "c")


@story
def stopped(s: Story) -> Told:
    """c is stopped, and has all that b has"""
    chain(s)
    s.read()
    return moved("stop-replica", "c")


@story
def started(s: Story) -> Told:
    """c, which was stopped while its source went on, runs again"""
    chain(s)
    s.farm.tell(s.n("c"), "STOP REPLICA")
    s.write("a", 2)
    s.settle("b")
    s.read()
    return moved("start-replica", "c")


@story
def detached(s: Story) -> Told:
    """c is detached from b, which it keeps"""
    chain(s)
    s.read()
    return moved("detach-replica", "c")


@story
def attached_again(s: Story) -> Told:
    """c, which was detached while b went on, is attached to it again"""
    chain(s)
    s.detach("c")
    s.write("a", 2)
    s.settle("b")
    s.read()
    return moved("reattach-replica", "c")


@story
def reset(s: Story) -> Told:
    """c has no source any more"""
    chain(s)
    s.read()
    return moved("reset-replica", "c")


@story
def writable(s: Story) -> Told:
    """c takes clients' writes"""
    chain(s)
    s.read()
    return moved("set-writeable", "c")


@story
def read_only(s: Story) -> Told:
    """c, which took clients' writes, refuses them"""
    chain(s)
    s.farm.ask(s.n("c"), "SET GLOBAL read_only=OFF")
    s.read()
    return moved("set-read-only", "c")


# ---- what is read


def five(s: Story) -> None:
    """a over b and d, b over c and e."""
    s.root("a")
    for r, x in (("b", "a"), ("c", "b"), ("d", "a"), ("e", "b")):
        s.below(r, x)
    s.write("a", 3)
    s.settle("b", "c", "d", "e")
    s.flush("a")
    s.flush("b")
    s.write("a", 2, parts=3)
    s.settle("b", "c", "d", "e")


@story
def imported(s: Story) -> Told:
    """five servers are read, of which one lags, one is detached and one takes writes: the tables print of each what SHOW reports"""
    five(s)
    s.only("c", 4)
    s.detach("e")
    s.farm.ask(s.n("d"), "SET GLOBAL read_only=OFF")
    s.write("a", 2)
    s.settle("b", "d")
    s.read()
    return None, None


@story
def imported_loaded(s: Story) -> Told:
    """five servers are read while a client writes to the root all the time"""
    five(s)
    s.writer = Writes(s, "a")
    s.writer.start()
    time.sleep(0.5)
    s.read()
    return None, None


# ---- refusals


@story
def refused_not_sibling(s: Story) -> Told:
    """d, below b, can't go below c, which is below a"""
    s.root("a")
    s.below("b", "a")
    s.below("c", "a")
    s.below("d", "b")
    s.write("a", 3)
    s.settle("b", "c", "d")
    s.read()
    return ("move-below", "d", "c"), "NotSibling"


@story
def refused_below(s: Story) -> Told:
    """b can't go below c, its own replica"""
    chain(s)
    s.read()
    return ("move-below", "b", "c"), "Below"


@story
def refused_source_is_root(s: Story) -> Told:
    """b, right below the root, can't go up"""
    chain(s)
    s.read()
    return ("move-up", "b", None), "SourceHasNoSource"


@story
def refused_same_id(s: Story) -> Told:
    """c and b have one server id: c can't go below b"""
    s.root("a")
    s.farm.ask(s.n("c"), "SET GLOBAL server_id=%d" % s.farm.ids[s.n("b")])
    s.below("b", "a")
    s.write("a", 3)
    s.settle("b")
    s.farm.tell(s.n("b"), "STOP REPLICA IO_THREAD")
    s.below("c", "a")
    s.settle("c")
    s.read()
    return ("move-below", "c", "b"), "SameServerId"


@story
def refused_takeover(s: Story) -> Told:
    """c isn't a replica of a itself: no takeover"""
    chain(s)
    s.read()
    return ("graceful-master-takeover", "a", "c"), "NotReplica"


# ---- recoveries


def below_dead(s: Story) -> None:
    """a over b, c, d, e, whose links are cut one after another: b has executed 5 when it is read and 6 later, c 5, d 4, e 6"""
    s.root("a")
    for letter in "bcde":
        s.below(letter, "a", proxy=True)
    s.write("a", 2)
    s.settle("b", "c", "d", "e")
    s.cut("d")
    s.write("a", 1)
    s.settle("b", "c", "e")
    s.cut("b", "c")
    s.write("a", 1)
    s.settle("e")
    s.cut("e")


@story
def regroup(s: Story) -> Told:
    """the master dies with unequal replicas: b, read before and after a transaction, takes c by a kept bridge; d is lost, e level"""
    below_dead(s)
    s.rules[s.n("e")] = "must_not"
    s.read()
    s.join("b")
    s.settle("b")
    s.cut("b")
    s.write("a", 1)
    s.poll()
    s.fail("a")
    s.join("b", "c", "d", "e")
    s.poll()
    return ("regroup-replicas", "a", None), lambda j: (j.regroup, s.n("a"), s.names("bcde"), s.bridges)


def unequal(s: Story) -> None:
    """a, which lives, over b, c and d: c lags, and its place was never seen."""
    s.root("a")
    for letter in "bcd":
        s.below(letter, "a")
    s.write("a", 4)
    s.settle("b", "c", "d")
    s.only("c", 5)
    s.write("a", 2)
    s.settle("b", "d")
    s.flush("b")
    s.read()


@story
def regroup_alive(s: Story) -> Told:
    """the master lives: its replicas go below the best one; without GTIDs c, which lags, can't, and goes on below a"""
    unequal(s)
    return ("regroup-replicas", "a", None), lambda j: (j.regroup, s.n("a"), s.names("bcd"), s.bridges)


@story
def regroup_marks(s: Story) -> Told:
    """the same by Pseudo-GTID, with each second transaction a mark: c finds its place in the log of b"""
    s.pseudo = 2
    unequal(s)
    return ("regroup-replicas-pgtid", "a", None), lambda j: (j.regroup_by_marks, s.n("a"), s.names("bcd"))


@story
def match(s: Story) -> Told:
    """c, which lags, goes below b by Pseudo-GTID"""
    s.pseudo = 2
    unequal(s)
    return moved("match", "c", "b")


@story
def recover_swap(s: Story) -> Told:
    """the master dies: c has executed most, d is preferred and takes its place once it is level"""
    s.root("a")
    for letter in "bcd":
        s.below(letter, "a", proxy=True)
    s.rules[s.n("d")] = "prefer"
    s.write("a", 3)
    s.settle("b", "c", "d")
    s.cut("b", "d")
    s.read()
    s.write("a", 1)
    s.settle("c")
    s.cut("c")
    s.write("a", 2)
    s.poll()
    s.fail("a")
    s.join("b", "c", "d")
    s.poll()
    return ("recover", "a", None), lambda j: (j.recover_master, s.n("a"), s.names("bcd"), s.bridges)


@story
def recover_ahead(s: Story) -> Told:
    """the master dies: e has executed most but must not be promoted: it is ahead and detached"""
    below_dead(s)
    s.rules[s.n("e")] = "must_not"
    s.read()
    s.join("b")
    s.settle("b")
    s.cut("b")
    s.write("a", 1)
    s.join("e")
    s.settle("e")
    s.cut("e")
    s.poll()
    s.fail("a")
    s.join("b", "c", "d", "e")
    s.poll()
    return ("recover", "a", None), lambda j: (j.recover_master, s.n("a"), s.names("bcde"), s.bridges)


@story
def recover_unlogged(s: Story) -> Told:
    """the master dies: e has executed most but has no binary log: it is ahead and detached"""
    s.without_log("e")
    below_dead(s)
    dies(s)
    return ("recover", "a", None), lambda j: (j.recover_master, s.n("a"), s.names("bcde"), s.bridges)


@story
def regroup_ahead(s: Story) -> Told:
    """the master dies: e has executed most but must not be promoted: a regroup leaves it attached to the master"""
    below_dead(s)
    s.rules[s.n("e")] = "must_not"
    dies(s)
    return ("regroup-replicas", "a", None), lambda j: (j.regroup, s.n("a"), s.names("bcde"), s.bridges)


@story
def recover_unreached(s: Story) -> Told:
    """the master and d die: d isn't reached and is lost; in GTID mode all go by auto position"""
    s.root("a")
    for letter in "bcd":
        s.below(letter, "a", proxy=True, auto=s.farm.make.gtid)
    s.write("a", 3)
    s.settle("b", "c", "d")
    s.read()
    s.fail("d")
    s.fail("a")
    s.poll()
    return ("recover", "a", None), lambda j: (j.recover_master, s.n("a"), s.names("bcd"), s.bridges)


def dies(s: Story) -> None:
    """The servers are read; then e executes another transaction, and a dies."""
    s.read()
    s.write("a", 1)
    s.join("e")
    s.settle("e")
    s.cut("e")
    s.poll()
    s.fail("a")
    s.join("b", "c", "d", "e")
    s.poll()


@story
def recover_read_after_death(s: Story) -> Told:
    """the topology is read when the master is dead already: its log is what its replicas have, relay logs too; MySQL without GTIDs can't have it"""
    s.root("a")
    for letter in "bcd":
        s.below(letter, "a", proxy=True)
    s.write("a", 2)
    s.settle("b", "c", "d")
    s.cut("d")
    s.flush("a")
    s.write("a", 1)
    s.settle("b", "c")
    s.cut("c")
    s.applier_off("b")
    s.write("a", 2)
    time.sleep(0.5)
    s.farm.tell(s.n("b"), "START REPLICA UNTIL SOURCE_LOG_FILE='mysql-bin.000001', SOURCE_LOG_POS=4")
    time.sleep(0.5)
    s.fail("a")
    s.join("b", "c", "d")
    if s.farm.make.kind == "mysql" and not s.farm.make.gtid:
        s.no_scenario = "has no GTIDs in its log"
    s.read()
    return ("recover", "a", None), lambda j: (j.recover_master, s.n("a"), s.names("bcd"), s.bridges)


@story
def recover_drain(s: Story) -> Told:
    """the master dies: b has fetched most but its applier waits for a while; it is drained, then promoted"""
    s.root("a")
    for letter in "bc":
        s.below(letter, "a", proxy=True)
    s.write("a", 2)
    s.settle("b", "c")
    s.farm.hold(s.n("b"), 4)
    s.write("a", 2)
    time.sleep(0.4)
    s.cut("c")
    s.read()
    s.poll()
    s.fail("a")
    s.join("c")
    s.poll()
    return ("recover", "a", None), lambda j: (j.recover_master, s.n("a"), s.names("bc"), s.bridges)


@story
def recover_at_file_end(s: Story) -> Told:
    """the master's last act is a rotation, which b has passed and c hasn't: both have executed all, and yet c is lost as `behind` on both sides"""
    s.root("a")
    for letter in "bc":
        s.below(letter, "a", proxy=True)
    s.write("a", 3)
    s.settle("b", "c")
    s.cut("c")
    s.flush("a")
    s.settle("b")
    s.cut("b")
    s.read()
    s.fail("a")
    s.join("b", "c")
    s.poll()
    return ("recover", "a", None), lambda j: (j.recover_master, s.n("a"), s.names("bc"), s.bridges)


@story
def recover_intermediate(s: Story) -> Told:
    """the intermediate b dies: c is at the position at which b was read and goes to a; d was never seen at that place and is lost"""
    s.root("a")
    s.below("b", "a", proxy=True)
    s.below("c", "b", proxy=True)
    s.below("d", "b", proxy=True)
    s.write("a", 2)
    s.settle("b", "c", "d")
    s.cut("d")
    s.write("a", 1)
    s.settle("b", "c")
    s.cut("c")
    s.flush("b")
    s.write("a", 2)
    s.settle("b")
    s.read()
    s.join("c")
    s.settle("c")
    s.poll()
    s.fail("b")
    s.join("d")
    s.poll()
    return ("recover", "b", None), lambda j: (j.recover_intermediate, s.n("b"), s.n("a"), s.names("cd"), s.bridges)


# ---- takeovers


@story
def takeover(s: Story) -> Told:
    """b takes a's place; its sibling c lags and goes along; a comes below b with its threads off"""
    siblings(s, "c", "b")
    s.read()
    return moved("graceful-master-takeover", "a", "b")


@story
def takeover_and_back(s: Story) -> Told:
    """after a takeover b writes, and a, started, has it all; then a takes its place again"""
    siblings(s, "c", "b")
    s.farm.tell(s.n("c"), "START REPLICA")
    s.settle("c")
    job = s.job()
    if job.run(job.takeover, s.n("a"), s.n("b"), s.names("bc"))[0] != "done":
        raise Differs("the takeover before it failed")
    s.farm.tell(s.n("a"), "START REPLICA")
    s.write("b", 3)
    s.settle("a", "c")
    s.read()
    return moved("graceful-master-takeover", "b", "a")


# ---- restarts

RESTARTED = {"c files": "a restart begins a new file of the own log; the model has no such rotation",
             "c ro": "SET GLOBAL read_only doesn't outlive a restart; in the model it does"}


def restarted(s: Story, at: int) -> Told:
    """c goes up to a, and restarts before the turn of this number."""
    chain(s)
    s.write("a", 2)
    s.settle("b", "c")
    s.read()
    s.interrupt, s.known = ("c", at), RESTARTED
    return ("move-up", "c", None), lambda j: (j.move_up, s.n("c"), s.n("b"), s.n("a"))


@story
def restart_in_mid_move(s: Story) -> Told:
    """c restarts just before it would be attached: by itself its threads run again, and the move fails on both sides"""
    return restarted(s, 8)


@story
def restart_before_stop(s: Story) -> Told:
    """c restarts before its second stop: harmless on both sides"""
    return restarted(s, 7)


# ---- under load


def loaded(s: Story, *below: tuple[str, str]) -> None:
    """These replicas, while a client writes to a all the time."""
    s.root("a")
    for r, x in below:
        s.below(r, x)
    s.write("a", 3)
    s.settle(*[r for r, _ in below])
    s.read()
    s.loose = True
    s.writer = Writes(s, "a")
    s.writer.start()
    time.sleep(0.5)


@story
def move_up_loaded(s: Story) -> Told:
    """move-up while a client writes to the root all the time"""
    loaded(s, ("b", "a"), ("c", "b"))
    return moved("move-up", "c")


@story
def move_below_loaded(s: Story) -> Told:
    """move-below while a client writes to the root all the time"""
    loaded(s, ("b", "a"), ("c", "a"))
    return moved("move-below", "c", "b")


@story
def take_master_loaded(s: Story) -> Told:
    """take-master while a client writes to the root all the time"""
    loaded(s, ("b", "a"), ("c", "b"))
    return moved("take-master", "c")


@story
def takeover_loaded(s: Story) -> Told:
    """a takeover while a client writes to the master: each acknowledged row is on all servers once"""
    loaded(s, ("b", "a"), ("c", "a"))
    return moved("graceful-master-takeover", "a", "b")


@story
def recover_loaded(s: Story) -> Told:
    """the master is killed while a client writes, and read afterwards: who is promoted and who is lost is as foretold, and each row is there once"""
    loaded(s, ("b", "a"), ("c", "a"))
    killed(s, "b", "c")
    return ("recover", "a", None), lambda j: (j.recover_master, s.n("a"), s.names("bc"), s.bridges)


@story
def recover_part(s: Story) -> Told:
    """the master dies while it sends a large transaction, of which c has received a part and b nothing: that part counts for nothing"""
    dying(s, False)
    return ("recover", "a", None), lambda j: (j.recover_master, s.n("a"), s.names("bc"), s.bridges)


def dying(s: Story, auto: bool) -> None:
    """a sends a transaction of 240 kB, of which c receives a third, and dies; then its replicas are imported."""
    s.root("a")
    for letter in "bc":
        s.below(letter, "a", proxy=True, auto=auto)
    s.write("a", 3)
    s.settle("b", "c")
    s.read()
    s.loose = True
    s.cut("b")
    s.proxies[s.n("c")].left = 80000
    s.write("a", 1, parts=60, pad=4000)
    s.wait_until(lambda: s.state(s.n("c")).io != "Yes", "c's link isn't cut")
    if s.state(s.n("c")).read == s.state(s.n("c")).exec:
        raise Differs("c has received no part")
    killed(s, "b", "c")


def killed(s: Story, *letters: str) -> None:
    """The master is killed, these replicas notice it, and then they are imported."""
    s.fail("a")
    for name in s.names(letters):
        s.wait_until(lambda: s.state(name).io != "Yes", "%s doesn't see that its source is gone" % name)
    s.read_light()


# ---- wrong plans, which must differ


class NoLevel(Job):
    """Nobody is brought level, and what is attached isn't tested."""

    def level(self, r: str, aim: Coord) -> None:
        """Nothing is waited for."""

    def attach(self, name: str, expected: Spot, to: str, at: Coord, login: bool = False) -> None:
        """It is attached in its place."""
        live = self.look(name)
        expected = ("at", live.source, live.exec) if expected[0] == "at" else ("end", live.end)
        Job.attach(self, name, expected, to, at, login)


class TwoReadings(Job):
    """The source's end from one status, and its executed coordinate from an earlier one, taken while it ran."""

    def move_up(self, i: str, x: str, g: str) -> None:
        """x's coordinate is taken while it runs, and its end later."""
        earlier = self.status(x, g)
        time.sleep(0.3)
        self.stop(i)
        self.stop(x)
        later = self.status(x, g)
        self.status(i, x)
        self.level(i, later.end)
        self.stop(i)
        self.attach(i, ("at", x, later.end), g, earlier.exec)
        self.start(i)
        self.start(x)
        self.status(i)
        self.lines.append("%s<%s" % (i, g))


class StaysWritable(Job):
    """A takeover whose master goes on taking writes."""

    def set_read_only(self, name: str, on: bool) -> None:
        """Only back."""
        if not on:
            Job.set_read_only(self, name, on)

    def is_same_place(self, name: str, one: Coord, other: Coord) -> bool:
        """Whatever comes between isn't looked at."""
        return True


# A story, a wrong plan of it, and whether that is harmless where what has been executed is passed over by its GTID.
WRONG = [(take_master, NoLevel, False), (move_below_ahead, NoLevel, True), (move_up_loaded, TwoReadings, True), (takeover_loaded, StaysWritable, False)]
