"""Runs of `orch follow` that are recorded: each makes servers, and gives a plan and the arguments with which it is followed."""
from __future__ import annotations

import dataclasses
import time
from collections.abc import Callable

from rehearsal.kinds import REPLICATION
from rehearsal.stories import chain, siblings
from rehearsal.story import Differs, Story

LOGIN = ("--replication-user", REPLICATION, "--login-option", "GET_SOURCE_PUBLIC_KEY=1")
READING = "SHOW REPLICA STATUS; SHOW BINARY LOG STATUS"
WARNING = "# Rehearsed on a model: what is left out here is in every printed plan.\n"

# A plan and the arguments.
Given = tuple[str, tuple[str, ...]]


@dataclasses.dataclass(frozen=True)
class Run:
    """A run. `on` is for which servers it is: both kinds, mysql, or gtids of MySQL alone."""
    make: Callable[[Story], Given]
    on: str


RUNS: list[Run] = []


def run(on: str) -> Callable[[Callable[[Story], Given]], Callable[[Story], Given]]:
    """Puts a run on the list."""
    def take(make: Callable[[Story], Given]) -> Callable[[Story], Given]:
        RUNS.append(Run(make, on))
        return make
    return take


def printed(s: Story, command: str, i: str, d: str | None = None) -> str:
    """The plan as the program prints it of the servers as they are."""
    s.read()
    status, text, err = s.ran(s.words(command, i, d) + ["--plan"], [])
    if status != 0:
        raise Differs("no plan: %d %s" % (status, err))
    return text


def written(s: Story, letters: str, *lines: str) -> str:
    """A plan with servers A, B, .. for these letters. In its lines `host A` and `port A` are a server's."""
    names = s.names(letters)
    text = WARNING + "".join("server %s %s\n" % ("ABCDEFGH"[number], name) for number, name in enumerate(names))
    for number, line in enumerate(lines, 1):
        for place, name in enumerate(names):
            letter = "ABCDEFGH"[place]
            line = line.replace("host %s" % letter, name.split(":")[0]).replace("port %s" % letter, name.split(":")[1])
        text += "%d %s\n" % (number, line)
    return text


def change(a: str, b: str, at: str, condition: str) -> str:
    """A change of source of the server of a letter, below another one, at a coordinate or by auto position."""
    place = "SOURCE_AUTO_POSITION=1" if at == "auto" else "SOURCE_LOG_FILE=:%s.file, SOURCE_LOG_POS=:%s.pos, SOURCE_AUTO_POSITION=0" % (at, at)
    return "%s CHANGE REPLICATION SOURCE TO SOURCE_HOST='host %s', SOURCE_PORT=port %s, %s; -- %s" % (a, b, b, place, condition)


def own(a: str, slashes: str, auto: bool) -> str:
    """A detachment or a reattachment."""
    word = "detached" if not slashes else "attached"
    place = "" if auto else ", SOURCE_LOG_FILE=:%s.exec.file, SOURCE_LOG_POS=:%s.exec.pos, SOURCE_AUTO_POSITION=0" % (a, a)
    first = "%s STOP REPLICA; %s; CHANGE REPLICATION SOURCE TO SOURCE_HOST='%s:%s.source.host', SOURCE_PORT=:%s.source.port" % (a, READING, slashes, a, a)
    return "%s%s; -- note %s; only where %s is %s%s, stopped" % (first, place, a, a, word, " by auto position" if auto else "")


def drain(a: str, source: str) -> list[str]:
    """The lines by which a replica executes what it has received, and stops."""
    return ["%s STOP REPLICA IO_THREAD;" % a, "%s %s; -- note %s; again until %s.exec = %s.read or its applier is off" % (a, READING, a, a, a),
            "%s STOP REPLICA;" % a, "%s %s; -- note %s; must be below %s" % (a, READING, a, source)]


def move_by_set(s: Story, i: str, d: str) -> str:
    """The plan of move-gtid in its newest form."""
    return written(s, i + d, "A STOP REPLICA;", "A %s; -- note A" % READING,
                   "B SELECT WAIT_FOR_EXECUTED_GTID_SET(':A.gtids', 1); -- again until it answers 0; until then its applier must be on",
                   "B %s; -- note B" % READING, change("A", "B", "auto", "only where A.gtids are in B.gtids, stopped; only where B.purged is in A.gtids"),
                   "A START REPLICA;", "A %s; -- note A" % READING)


def level(s: Story, *letters: str) -> None:
    """These replicas below a, all level, in GTID mode by auto position."""
    s.root("a")
    for letter in letters:
        s.below(letter, "a", auto=s.farm.make.gtid)
    s.write("a", 3)
    s.settle(*letters)


@run("both")
def move_up(s: Story) -> Given:
    """c, which lags below b, goes up to a"""
    chain(s)
    s.only("c", 4)
    s.write("a", 2)
    s.settle("b")
    return printed(s, "move-up", "c"), ()


@run("both")
def takeover(s: Story) -> Given:
    """b takes a's place, and a gets a login and the replicas' number of tries"""
    siblings(s, "c", "b")
    return printed(s, "graceful-master-takeover", "a", "b"), LOGIN if s.farm.make.kind == "mysql" else LOGIN[:2]


@run("both")
def broken_applier(s: Story) -> Given:
    """c's applier meets an error as soon as it is started: the run stops with the error's text"""
    chain(s)
    s.farm.tell(s.n("c"), "STOP REPLICA")
    s.farm.ask(s.n("c"), "SET sql_log_bin=0; SET GLOBAL read_only=OFF; DROP TABLE d.t; SET GLOBAL read_only=ON")
    s.write("a", 2)
    s.settle("b")
    return written(s, "c", "A START REPLICA;", "A %s; -- note A" % READING), ()


@run("both")
def refused_receiver(s: Story) -> Given:
    """b asks for a file that a has purged: its receiver is off at once, and the run stops with the error's text"""
    s.root("a")
    s.below("b", "a")
    s.write("a", 2)
    s.settle("b")
    s.farm.tell(s.n("b"), "STOP REPLICA")
    s.write("a", 1)
    s.flush("a")
    s.write("a", 1)
    s.purge("a", 2)
    return written(s, "b", "A START REPLICA;", "A %s; -- note A" % READING), ()


@run("both")
def detached(s: Story) -> Given:
    """c is detached by coordinates"""
    chain(s)
    return written(s, "c", own("A", "//", False), "A %s; -- note A" % READING), ()


@run("both")
def reattached(s: Story) -> Given:
    """c, detached and started by a restart, is attached again: the plan stops it first"""
    chain(s)
    s.detach("c")
    s.farm.tell(s.n("c"), "START REPLICA")
    s.write("a", 1)
    s.settle("b")
    return written(s, "c", own("A", "", False), "A START REPLICA;", "A %s; -- note A" % READING), ()


def dead(s: Story) -> None:
    """a is dead; b, c and d are its replicas. c and d have executed one transaction more than b."""
    level(s, "b", "c", "d")
    s.farm.tell(s.n("b"), "STOP REPLICA")
    s.write("a", 1)
    s.settle("c", "d")
    s.farm.kill(s.n("a"))
    s.wait_until(lambda: s.state(s.n("c")).io == "Connecting" and s.state(s.n("d")).io == "Connecting", "the receivers don't know it")


def recovery(s: Story, *behind: str) -> str:
    """The first lines of a recovery of a, and its last ones; c is chosen."""
    drains = [line for letter in "BCD" for line in drain(letter, "A")]
    first = ["A %s; -- only while it isn't reached" % READING, *drains, "C -- chosen before B; only where C.exec > B.exec",
             "C -- chosen before D; only where C.exec >= D.exec"]
    last = ["C STOP REPLICA; RESET REPLICA ALL;", "C SET PERSIST super_read_only=OFF; SET PERSIST read_only=OFF;", "C %s; -- note C" % READING]
    return written(s, "abcd", *first, *behind, *last)


def below_c(letter: str, source: str) -> str:
    """A level one goes below the chosen one by coordinates."""
    return change(letter, "C", "C.end", "only where %s is below %s at C.exec, stopped" % (letter, source))


@run("both")
def recovered(s: Story) -> Given:
    """a is dead; by coordinates c is promoted, d goes below it, and b is lost and detached"""
    dead(s)
    return recovery(s, "B -- lost, behind C; only where C.exec > B.exec", below_c("D", "A"), "D START REPLICA;", own("B", "//", s.farm.make.gtid)), ()


@run("both")
def by_hand(s: Story) -> Given:
    """a is dead; a hand finds the place of b in the log of c"""
    dead(s)
    hand = ("B SHOW BINLOG EVENTS; CHANGE REPLICATION SOURCE TO SOURCE_HOST='host C', SOURCE_PORT=port C, SOURCE_LOG_FILE=:B.match.file, "
            "SOURCE_LOG_POS=:B.match.pos, SOURCE_AUTO_POSITION=0; -- note B.match, by hand: the place in the log of C behind the last transaction that B "
            "has executed; only where C.exec > B.exec; only where B is below A at B.exec, stopped")
    place = s.reading(s.n("c")).groups[-2].last
    return recovery(s, hand, "B START REPLICA;"), ("--place", "%s=mysql-bin.%06d:%d" % (s.n("b"), place.number, place.position))


@run("both")
def another_branch(s: Story) -> Given:
    """a is dead; the plan expects b to have executed more than c, and stops there"""
    dead(s)
    return written(s, "abc", "A %s; -- only while it isn't reached" % READING, *drain("B", "A"), *drain("C", "A"),
                   "B -- chosen before C; only where B.exec >= C.exec", "B STOP REPLICA; RESET REPLICA ALL;"), ()


@run("both")
def alive(s: Story) -> Given:
    """a is to be recovered, and is reached"""
    level(s, "b")
    return written(s, "ab", "A %s; -- only while it isn't reached" % READING, *drain("B", "A")), ()


@run("gtids")
def moved_by_set(s: Story) -> Given:
    """c goes below b by its set"""
    level(s, "b", "c")
    s.write("a", 1)
    return move_by_set(s, "c", "b"), ()


@run("gtids")
def purged(s: Story) -> Given:
    """b has purged what c hasn't executed: the run stops before the change"""
    level(s, "b", "c")
    s.farm.tell(s.n("c"), "STOP REPLICA SQL_THREAD")
    s.write("a", 2)
    s.settle("b")
    s.flush("b")
    s.purge("b", 2)
    return move_by_set(s, "c", "b"), ()


def promoted(s: Story) -> None:
    """b was promoted; a, the old master, has no source."""
    level(s, "b", "c")
    s.farm.ask(s.n("b"), "STOP REPLICA; RESET REPLICA ALL; SET GLOBAL read_only=OFF")
    s.write("b", 2)


@run("gtids")
def old_master(s: Story) -> Given:
    """a, the old master, goes below b by its set, with a login and 86400 tries"""
    promoted(s)
    return move_by_set(s, "a", "b"), LOGIN


@run("gtids")
def old_master_without_login(s: Story) -> Given:
    """the same without a login: nothing is sent"""
    promoted(s)
    return move_by_set(s, "a", "b"), ()


@run("gtids")
def old_master_refused(s: Story) -> Given:
    """the same with a user whom b doesn't know: the run stops with the error's text"""
    promoted(s)
    return move_by_set(s, "a", "b"), ("--replication-user", "nobody", "--login-option", "GET_SOURCE_PUBLIC_KEY=1")


@run("gtids")
def detached_auto(s: Story) -> Given:
    """c, by auto position, is detached by its source's host and port alone"""
    level(s, "c")
    return written(s, "c", own("A", "//", True), "A %s; -- note A" % READING), ()


@run("gtids")
def reattached_auto(s: Story) -> Given:
    """c is attached again, and goes by auto position as before"""
    level(s, "c")
    host, port = s.n("a").split(":")
    s.farm.ask(s.n("c"), "STOP REPLICA; CHANGE REPLICATION SOURCE TO SOURCE_HOST='//%s', SOURCE_PORT=%s" % (host, port))
    s.write("a", 1)
    return written(s, "c", own("A", "", True), "A START REPLICA;", "A %s; -- note A" % READING), ()


@run("gtids")
def applier_off(s: Story) -> Given:
    """c has executed more than b, whose applier is off: the wait is given up at once"""
    level(s, "b", "c")
    s.applier_off("b")
    s.write("a", 2)
    s.settle("c")
    time.sleep(0.3)
    return move_by_set(s, "c", "b"), ()


@run("gtids")
def recovered_by_sets(s: Story) -> Given:
    """a is dead; by sets b and d go below c, which is promoted"""
    dead(s)
    lines = [line for letter in "BD" for line in (
        change(letter, "C", "auto", "only where %s.gtids are in C.gtids, stopped; only where C.purged is in %s.gtids" % (letter, letter)),
        "%s START REPLICA;" % letter)]
    return recovery(s, *lines), ()
