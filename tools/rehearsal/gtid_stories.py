"""Stories in GTID mode, of MySQL."""
from __future__ import annotations

import time

from rehearsal.stories import Made, Told, dying, killed, moved
from rehearsal.story import Story, Writes

GTID_STORIES: list[Made] = []


def story(made: Made) -> Made:
    """A story of the list."""
    GTID_STORIES.append(made)
    return made


def level(s: Story, *letters: str, auto: bool = True) -> None:
    """These replicas below a, all level."""
    s.root("a")
    for letter in letters:
        s.below(letter, "a", auto=auto)
    s.write("a", 3)
    s.settle(*letters)


def siblings(s: Story, behind: str, ahead: str, auto: bool = True) -> None:
    """b and c below a: one lags by three transactions, the other has all."""
    level(s, "b", "c", auto=auto)
    s.flush("a")
    s.write("a", 2)
    s.settle("b", "c")
    s.flush(ahead)
    s.only(behind, 5)
    s.write("a", 3, parts=2)
    s.settle(ahead)


def under_load(s: Story) -> None:
    """From now on a client writes to a all the time."""
    s.loose = True
    s.writer = Writes(s, "a")
    s.writer.start()
    time.sleep(0.5)


def chain(s: Story) -> None:
    """a over b over c, by auto position."""
    s.root("a")
    s.below("b", "a", auto=True)
    s.below("c", "b", auto=True)
    s.write("a", 3)
    s.settle("b", "c")
    s.flush("b")
    s.write("a", 2, parts=3)
    s.settle("b", "c")


@story
def move_gtid(s: Story) -> Told:
    """c, which lags three transactions after its sibling b, goes below b by its set; it went by coordinates"""
    siblings(s, "c", "b", auto=False)
    s.read()
    return moved("move-gtid", "c", "b")


@story
def move_gtid_up(s: Story) -> Told:
    """e, three levels down (a, b, c, e) and by auto position, goes below a"""
    chain(s)
    s.below("e", "c", auto=True)
    s.settle("e")
    s.write("a", 2)
    s.settle("b", "c", "e")
    s.read()
    return moved("move-gtid", "e", "a")


@story
def move_gtid_ahead(s: Story) -> Told:
    """c, which has three transactions more, goes below its sibling b, which catches up first"""
    level(s, "b", "c")
    s.farm.hold(s.n("b"), 3)
    s.write("a", 3)
    s.settle("c")
    s.read()
    return moved("move-gtid", "c", "b")


@story
def move_gtid_waits_in_vain(s: Story) -> Told:
    """the same, but that the sibling's applier is off: the move fails on both sides, and c goes on where it was"""
    siblings(s, "b", "c")
    s.read()
    s.waits = 20
    return moved("move-gtid", "c", "b")


@story
def move_replicas_gtid(s: Story) -> Told:
    """c and d, replicas of b, one of them with a lag, go below e, their source's sibling"""
    s.root("a")
    for r, x in (("b", "a"), ("c", "b"), ("d", "b"), ("e", "a")):
        s.below(r, x, auto=True)
    s.write("a", 4)
    s.settle("b", "e", "c", "d")
    s.only("d", 5)
    s.write("a", 2)
    s.settle("b", "e", "c")
    s.read()
    return moved("move-replicas-gtid", "b", "e")


@story
def enable_gtid(s: Story) -> Told:
    """c, which lags two files below b, goes over to auto position"""
    s.root("a")
    s.below("b", "a")
    s.below("c", "b")
    s.write("a", 3)
    s.settle("b", "c")
    s.only("c", 5)
    for _ in range(2):
        s.flush("b")
        s.write("a", 1)
        s.settle("b")
    s.read()
    return moved("enable-gtid", "c")


@story
def disable_gtid(s: Story) -> Told:
    """c, by auto position and with a lag of a file, goes over to coordinates"""
    chain(s)
    s.only("c", 7)
    s.flush("b")
    s.write("a", 2)
    s.settle("b")
    s.read()
    return moved("disable-gtid", "c")


@story
def relocate_gtid(s: Story) -> Told:
    """in GTID mode a relocation goes in one step: e (a, b, c, e) below d"""
    chain(s)
    s.below("e", "c", auto=True)
    s.below("d", "a", auto=True)
    s.settle("e", "d")
    s.write("a", 2)
    s.settle("b", "d", "c", "e")
    s.read()
    return moved("relocate", "e", "d")


@story
def repoint_auto(s: Story) -> Told:
    """c, by auto position, is repointed to another server than its source"""
    level(s, "b", "c")
    s.read()
    return moved("repoint", "c", "b")


@story
def move_up_auto(s: Story) -> Told:
    """c and b, by auto position: c goes up to a by coordinates, and so loses auto position"""
    chain(s)
    s.read()
    return moved("move-up", "c")


@story
def move_below_auto(s: Story) -> Told:
    """c, by auto position and with a lag, goes below its sibling b by coordinates"""
    siblings(s, "c", "b")
    s.read()
    return moved("move-below", "c", "b")


@story
def take_master_auto(s: Story) -> Told:
    """c and its source b, both by auto position, change places"""
    chain(s)
    s.read()
    return moved("take-master", "c")


@story
def detach_auto(s: Story) -> Told:
    """c, by auto position, is detached"""
    chain(s)
    s.read()
    return moved("detach-replica", "c")


@story
def reset_auto(s: Story) -> Told:
    """c, by auto position, has no source any more"""
    chain(s)
    s.read()
    return moved("reset-replica", "c")


@story
def stopped_after_change(s: Story) -> Told:
    """c was set to auto position, and hasn't been started after that: it is read so, and started"""
    s.root("a")
    s.below("b", "a")
    s.below("c", "b")
    s.write("a", 3)
    s.settle("b", "c")
    s.farm.ask(s.n("c"), "STOP REPLICA; CHANGE REPLICATION SOURCE TO SOURCE_AUTO_POSITION=1")
    s.write("a", 1)
    s.settle("b")
    s.read()
    return moved("start-replica", "c")


@story
def stopped_after_move(s: Story) -> Told:
    """c was set to auto position, with its source's host and port, and hasn't been started after that: it reports no coordinate"""
    s.root("a")
    s.below("b", "a")
    s.below("c", "b")
    s.write("a", 3)
    s.settle("b", "c")
    host, port = s.n("b").split(":")
    s.farm.ask(s.n("c"), "STOP REPLICA; CHANGE REPLICATION SOURCE TO SOURCE_HOST='%s', SOURCE_PORT=%s, SOURCE_AUTO_POSITION=1" % (host, port))
    s.write("a", 1)
    s.settle("b")
    s.read()
    return moved("start-replica", "c")


@story
def reattach_auto(s: Story) -> Told:
    """c, by auto position, was detached by its source's host alone while b went on: it is attached again, and keeps auto position"""
    chain(s)
    host, port = s.n("b").split(":")
    s.farm.ask(s.n("c"), "STOP REPLICA; CHANGE REPLICATION SOURCE TO SOURCE_HOST='//%s', SOURCE_PORT=%s" % (host, port))
    s.write("a", 2)
    s.settle("b")
    s.read()
    return moved("reattach-replica", "c")


@story
def old_master(s: Story) -> Told:
    """a, the old master, is back after b was promoted, and has no source: by its set it goes below b, with a login"""
    level(s, "b", "c")
    s.farm.ask(s.n("b"), "STOP REPLICA; RESET REPLICA ALL; SET GLOBAL read_only=OFF")
    host, port = s.n("b").split(":")
    s.farm.ask(s.n("c"), "STOP REPLICA; CHANGE REPLICATION SOURCE TO SOURCE_HOST='%s', SOURCE_PORT=%s; START REPLICA" % (host, port))
    s.write("b", 2)
    s.settle("c")
    s.read()
    return moved("move-gtid", "a", "b")


@story
def move_gtid_loaded(s: Story) -> Told:
    """c goes below its sibling b by its set while a client writes to the root all the time"""
    level(s, "b", "c")
    s.read()
    under_load(s)
    return moved("move-gtid", "c", "b")


@story
def takeover_gtid_loaded(s: Story) -> Told:
    """a takeover while a client writes to the master, all by auto position: each acknowledged row is on all servers once"""
    level(s, "b", "c")
    s.read()
    under_load(s)
    return moved("graceful-master-takeover", "a", "b")


@story
def recover_gtid_loaded(s: Story) -> Told:
    """the master is killed while a client writes, all by auto position, and read afterwards: nobody is lost, each row is there once"""
    level(s, "b", "c")
    s.read()
    under_load(s)
    killed(s, "b", "c")
    return ("recover", "a", None), lambda j: (j.recover_master, s.n("a"), s.names("bc"), s.bridges)


@story
def recover_gtid_part(s: Story) -> Told:
    """the master dies while it sends a large transaction, of which c, by auto position, has received a part: that counts for nothing"""
    dying(s, True)
    return ("recover", "a", None), lambda j: (j.recover_master, s.n("a"), s.names("bc"), s.bridges)


@story
def refused_purged(s: Story) -> Told:
    """b purges what c, whose applier is off, hasn't executed, and it is seen: by its set c may not go below b"""
    level(s, "b", "c")
    s.applier_off("c")
    s.write("a", 2)
    s.settle("b")
    s.read()
    s.flush("b")
    s.purge("b", 2)
    s.turn("purge", s.n("b"), 2)
    s.turn("polls")
    return ("move-gtid", "c", "b"), "Purged"


@story
def takeover_gtid(s: Story) -> Told:
    """b takes a's place; all replicas go by auto position, c lags"""
    level(s, "b", "c", "d")
    s.only("c", 5)
    s.write("a", 2)
    s.settle("b", "d")
    s.read()
    return moved("graceful-master-takeover", "a", "b")


@story
def refused_without_set(s: Story) -> Told:
    """c has a transaction of its own that b hasn't: it may not go below b by sets"""
    level(s, "b", "c")
    s.farm.ask(s.n("c"), "SET GLOBAL read_only=OFF")
    s.read()
    s.errants = 1
    s.turn("write", s.n("c"), 100)
    s.turn("polls")
    return ("move-gtid", "c", "b"), "Errant"


def dead_gtid(s: Story) -> None:
    """a over b, c, d, e, by auto position, at four places; all links are cut."""
    s.root("a")
    for letter in "bcde":
        s.below(letter, "a", proxy=True, auto=True)
    s.write("a", 2)
    s.settle("b", "c", "d", "e")
    s.cut("d")
    s.write("a", 1)
    s.settle("b", "c", "e")
    s.cut("b")
    s.write("a", 1)
    s.settle("c", "e")
    s.cut("c")
    s.write("a", 1)
    s.settle("e")
    s.cut("e")


@story
def recover_gtid(s: Story) -> Told:
    """the master dies; replicas by auto position are at four positions; e has executed most, d is preferred and takes its place"""
    dead_gtid(s)
    s.rules[s.n("d")] = "prefer"
    s.read()
    s.write("a", 1)
    s.poll()
    s.fail("a")
    s.join("b", "c", "d", "e")
    s.poll()
    return ("recover", "a", None), lambda j: (j.recover_master, s.n("a"), s.names("bcde"), s.bridges)


@story
def recover_gtid_ahead(s: Story) -> Told:
    """e has executed most but must not be promoted: in GTID mode, too, it is ahead and detached"""
    dead_gtid(s)
    s.rules[s.n("e")] = "must_not"
    s.read()
    s.poll()
    s.fail("a")
    s.join("b", "c", "d", "e")
    s.poll()
    return ("recover", "a", None), lambda j: (j.recover_master, s.n("a"), s.names("bcde"), s.bridges)


@story
def recover_gtid_unlogged(s: Story) -> Told:
    """e has executed most but has no binary log: it is ahead and detached, and keeps auto position"""
    s.without_log("e")
    dead_gtid(s)
    s.read()
    s.poll()
    s.fail("a")
    s.join("b", "c", "d", "e")
    s.poll()
    return ("recover", "a", None), lambda j: (j.recover_master, s.n("a"), s.names("bcde"), s.bridges)


@story
def regroup_gtid_ahead(s: Story) -> Told:
    """e has executed most but must not be promoted: a regroup leaves it attached to the dead master, by auto position"""
    dead_gtid(s)
    s.rules[s.n("e")] = "must_not"
    s.read()
    s.poll()
    s.fail("a")
    s.join("b", "c", "d", "e")
    s.poll()
    return ("regroup-replicas", "a", None), lambda j: (j.regroup, s.n("a"), s.names("bcde"), s.bridges)


@story
def regroup_gtid(s: Story) -> Told:
    """the master dies with unequal replicas: all go below the best by their sets; nobody is lost"""
    dead_gtid(s)
    s.read()
    s.poll()
    s.fail("a")
    s.join("b", "c", "d", "e")
    s.poll()
    return ("regroup-replicas", "a", None), lambda j: (j.regroup, s.n("a"), s.names("bcde"), s.bridges)


@story
def recover_gtid_read_after_death(s: Story) -> Told:
    """the topology, by auto position, is read when the master is dead already"""
    s.root("a")
    for letter in "bcd":
        s.below(letter, "a", auto=True)
    s.write("a", 3)
    s.settle("b", "c", "d")
    s.farm.ask(s.n("d"), "STOP REPLICA")
    s.write("a", 2)
    s.settle("b", "c")
    time.sleep(0.5)
    s.fail("a")
    s.farm.ask(s.n("d"), "START REPLICA")
    time.sleep(1)
    s.read()
    return ("recover", "a", None), lambda j: (j.recover_master, s.n("a"), s.names("bcd"), s.bridges)


@story
def recover_intermediate_gtid(s: Story) -> Told:
    """the intermediate b dies: c and d, at two places, go to a by their sets; nobody is lost"""
    s.root("a")
    s.below("b", "a", auto=True)
    s.below("c", "b", proxy=True, auto=True)
    s.below("d", "b", proxy=True, auto=True)
    s.write("a", 2)
    s.settle("b", "c", "d")
    s.cut("d")
    s.write("a", 1)
    s.settle("b", "c")
    s.cut("c")
    s.read()
    s.poll()
    s.fail("b")
    s.join("c", "d")
    s.poll()
    return ("recover", "b", None), lambda j: (j.recover_intermediate, s.n("b"), s.n("a"), s.names("cd"), s.bridges)
