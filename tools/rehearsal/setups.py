"""Set-ups of servers that are imported: each makes one, and returns the command that an operator would give then. `with_gtids` and `without` are on which
servers a set-up is made. `words` are arguments of the import besides the servers."""
from __future__ import annotations

import dataclasses
import time
from collections.abc import Callable

from rehearsal.story import Story, Writes

Command = tuple[str, str, "str | None"]


@dataclasses.dataclass
class Setup:
    """One set-up. `make` gives the command to be carried out, if there is one."""
    name: str
    make: Callable[[Story], Command | None]
    without: bool
    with_gtids: bool
    mariadb: bool
    words: list[str]
    about: str


SETUPS: list[Setup] = []


def setup(gtids: str, mariadb: bool = True, words: tuple[str, ...] = ()) -> Callable[[Callable[[Story], Command | None]], Callable[[Story], Command | None]]:
    """Puts a set-up on the list: `off`, `on` or `both`."""
    def take(make: Callable[[Story], Command | None]) -> Callable[[Story], Command | None]:
        SETUPS.append(Setup(make.__name__, make, gtids != "on", gtids != "off", mariadb and gtids != "on", list(words), make.__doc__ or ""))
        return make
    return take


def replicas(s: Story, *pairs: str) -> None:
    """Replicas as `ba`: b below a; by GTIDs where the servers have them."""
    for replica, source in pairs:
        s.below(replica, source, auto=s.farm.make.gtid)


def stop(s: Story, letter: str) -> None:
    """Both threads of a replica stop."""
    s.farm.tell(s.n(letter), "STOP REPLICA")


def start(s: Story, letter: str) -> None:
    """Both threads of a replica start."""
    s.farm.tell(s.n(letter), "START REPLICA")


def receives(s: Story, *letters: str) -> None:
    """Until each has received all that its source has."""
    for name in s.names(letters):
        s.wait_until(lambda: s.state(name).read >= s.state(s.state(name).source or "").end, "%s doesn't receive all" % name)


def connecting(s: Story, *letters: str) -> None:
    """Until their receivers know that the source is gone."""
    for name in s.names(letters):
        s.wait_until(lambda: s.state(name).io != "Yes", "%s doesn't see that its source is gone" % name)


@setup("both")
def flat(s: Story) -> Command:
    """a over b, c, d, e: c has received one and its applier is off, d is stopped, e runs"""
    s.root("a")
    replicas(s, "ba", "ca", "da", "ea")
    s.write("a", 4)
    s.settle(*"bcde")
    s.flush("a")
    s.write("a", 3, pad=500)
    s.settle(*"bcde")
    s.applier_off("c")
    s.write("a", 1)
    s.settle("b", "d", "e")
    stop(s, "d")
    s.write("a", 2, pad=900)
    s.settle("b", "e")
    receives(s, "c")
    return ("move-gtid", "d", "b") if s.farm.make.gtid else ("move-below", "e", "b")


@setup("off")
def two_levels(s: Story) -> Command:
    """a over b and e, b over c and d; c is at its sixth transaction"""
    s.root("a")
    replicas(s, "ba", "cb", "db", "ea")
    s.write("a", 5)
    s.settle(*"becd")
    s.flush("b")
    s.write("a", 3, pad=700)
    s.settle(*"becd")
    s.only("c", 6)
    s.flush("a")
    s.write("a", 2)
    s.settle(*"bed")
    return ("move-up", "c", None)


@setup("off")
def three_levels(s: Story) -> Command:
    """a over b and d, b over c, c over e, which lags; d's applier is off"""
    s.root("a")
    replicas(s, "ba", "cb", "ec", "da")
    s.write("a", 5, pad=300)
    s.settle(*"bdce")
    s.flush("c")
    s.only("e", 4)
    s.write("a", 2)
    s.settle(*"bdc")
    s.applier_off("d")
    s.write("a", 2)
    s.settle(*"bc")
    return ("relocate", "e", "b")


@setup("both")
def rotated(s: Story) -> Command:
    """b is at the end of a's file 3, c at the head of file 4, d in file 2; b and d are stopped"""
    s.root("a")
    replicas(s, "ba", "ca", "da")
    s.write("a", 3)
    s.flush("a")
    s.write("a", 2)
    s.settle(*"bcd")
    stop(s, "d")
    s.flush("a")
    s.write("a", 2)
    s.settle("b", "c")
    stop(s, "b")
    s.flush("a")
    s.settle("c")
    return ("move-gtid", "d", "c") if s.farm.make.gtid else ("move-below", "b", "c")


@setup("off")
def purged_files(s: Story) -> Command:
    """a and b have purged their first files; c, below b, is stopped"""
    s.root("a")
    replicas(s, "ba", "cb", "da")
    s.write("a", 3)
    s.settle(*"bdc")
    for letter in "ab":
        s.flush(letter)
    s.write("a", 3)
    s.settle(*"bdc")
    stop(s, "c")
    s.flush("a")
    s.write("a", 2)
    s.settle("b", "d")
    s.flush("b")
    s.write("a", 1)
    s.settle("b", "d")
    s.purge("a", 3)
    s.purge("b", 2)
    return ("move-up", "c", None)


@setup("off")
def not_logging(s: Story) -> Command:
    """d applies and doesn't log what it applies"""
    name = s.n("d")
    s.farm.quit(name)
    s.farm.launch(name, ["--log-slave-updates=0"] if s.farm.make.kind == "mariadb" else ["--log-replica-updates=0"])
    s.farm.ready(name)
    s.root("a")
    replicas(s, "ba", "ca", "da")
    s.write("a", 5)
    s.settle(*"bcd")
    s.only("b", 4)
    s.write("a", 2)
    s.settle("c", "d")
    return ("move-below", "d", "c")


@setup("off")
def odd_replicas(s: Story) -> Command:
    """c is detached, d takes writes, e's receiver is off"""
    s.root("a")
    replicas(s, "ba", "ca", "da", "ea")
    s.write("a", 4)
    s.settle(*"bcde")
    s.detach("c")
    s.write("a", 2)
    s.settle(*"bde")
    s.farm.tell(s.n("d"), "SET PERSIST super_read_only=OFF")
    s.farm.tell(s.n("d"), "SET PERSIST read_only=OFF")
    s.farm.tell(s.n("e"), "STOP REPLICA IO_THREAD")
    s.write("a", 2)
    s.settle("b", "d")
    return ("reattach-replica", "c", None)


@setup("both")
def dead_master(s: Story) -> Command:
    """the master is dead; b has received all and executed less, its applier off; c and e have executed all; d stopped earlier"""
    s.root("a")
    replicas(s, "ba", "ca", "da", "ea")
    s.write("a", 4)
    s.settle(*"bcde")
    stop(s, "d")
    s.write("a", 2, pad=600)
    s.settle(*"bce")
    s.applier_off("b")
    s.write("a", 3)
    s.settle("c", "e")
    receives(s, "b")
    s.poll()
    s.fail("a")
    start(s, "d")
    connecting(s, *"bcde")
    return ("recover", "a", None)


@setup("off")
def dead_at_file_end(s: Story) -> Command:
    """the master dies after a rotation of which c has seen nothing"""
    s.root("a")
    for replica in "bc":
        s.below(replica, "a", proxy=True)
    s.write("a", 5)
    s.settle("b", "c")
    s.poll()
    s.cut("c")
    s.flush("a")
    s.settle("b")
    s.fail("a")
    connecting(s, "b")
    return ("recover", "a", None)


@setup("both", words=("--below", "b=a"))
def dead_intermediate(s: Story) -> Command:
    """a over b and e, b over c and d; b dies, c had stopped before"""
    s.root("a")
    replicas(s, "ba", "cb", "db", "ea")
    s.write("a", 4)
    s.settle(*"becd")
    stop(s, "c")
    s.write("a", 2)
    s.settle(*"bed")
    s.poll()
    s.fail("b")
    start(s, "c")
    s.write("a", 2)
    s.settle("e")
    connecting(s, "c", "d")
    return ("recover", "b", None)


@setup("on")
def mixed_two_levels(s: Story) -> Command:
    """a over b and e, b over c and d: b and d by GTIDs, c and e by coordinates"""
    s.root("a")
    for replica, source, auto in (("b", "a", True), ("c", "b", False), ("d", "b", True), ("e", "a", False)):
        s.below(replica, source, auto=auto)
    s.write("a", 4)
    s.settle(*"becd")
    s.flush("b")
    s.applier_off("d")
    s.write("a", 3, pad=800)
    s.settle(*"bec")
    stop(s, "c")
    s.write("a", 2)
    s.settle(*"be")
    receives(s, "d")
    return ("move-gtid", "d", "e")


@setup("on")
def errant(s: Story) -> Command:
    """d has two transactions of its own"""
    s.root("a")
    replicas(s, "ba", "ca", "da")
    s.write("a", 4)
    s.settle(*"bcd")
    s.farm.ask(s.n("d"), "SET GLOBAL read_only=OFF; CREATE DATABASE own; CREATE TABLE own.t (i int primary key); SET GLOBAL read_only=ON")
    s.write("a", 2)
    s.settle("b", "c")
    s.wait_until(lambda: s.state(s.n("d")).exec >= s.state(s.n("a")).end, "d doesn't catch up")
    return ("move-gtid", "d", "b")


@setup("on")
def purged_gtids(s: Story) -> Command:
    """b has purged what c lacks"""
    s.root("a")
    replicas(s, "ba", "ca", "da")
    s.write("a", 4)
    s.settle(*"bcd")
    stop(s, "c")
    s.write("a", 3)
    s.settle("b", "d")
    s.flush("b")
    s.purge("b", 2)
    s.write("a", 2)
    s.settle("b", "d")
    return ("move-gtid", "c", "b")


def promoted(s: Story, letter: str) -> None:
    """A replica becomes a master."""
    s.farm.ask(s.n(letter), "STOP REPLICA; RESET REPLICA ALL; SET GLOBAL super_read_only=OFF; SET GLOBAL read_only=OFF")
    s.numbers[s.n(letter)] = 0


@setup("on")
def after_failover(s: Story) -> Command:
    """a was the master, b is; c lags over both; a is below b"""
    s.root("a")
    replicas(s, "ba", "ca", "da")
    s.write("a", 5)
    s.settle(*"bcd")
    s.applier_off("c")
    s.write("a", 2)
    s.settle("b", "d")
    receives(s, "c")
    for letter in "cd":
        stop(s, letter)
    promoted(s, "b")
    replicas(s, "ab", "cb", "db")
    s.applier_off("c")
    s.write("b", 3)
    s.settle("a", "d")
    receives(s, "c")
    return ("move-gtid", "c", "d")


def master_back(s: Story, own: int) -> Command:
    """The master dies with so many transactions that nobody has; b is promoted; the old master comes back without a source."""
    s.root("a")
    replicas(s, "ba", "ca")
    s.write("a", 4)
    s.settle("b", "c")
    for letter in "bc":
        stop(s, letter)
    s.write("a", own)
    promoted(s, "b")
    replicas(s, "cb")
    s.write("b", 2)
    s.settle("c")
    return ("move-gtid", "a", "b")


@setup("on")
def old_master_back(s: Story) -> Command:
    """the old master is back with a transaction of its own"""
    return master_back(s, 1)


@setup("on")
def clean_master_back(s: Story) -> Command:
    """the old master is back with nothing of its own"""
    return master_back(s, 0)


@setup("on")
def never_ran(s: Story) -> Command:
    """c was set to GTIDs below b and hasn't run after that; its applier and receiver are off"""
    s.root("a")
    replicas(s, "ba", "ca", "da")
    s.write("a", 4)
    s.settle(*"bcd")
    stop(s, "c")
    s.write("a", 2)
    s.settle("b", "d")
    s.farm.ask(s.n("c"), "CHANGE REPLICATION SOURCE TO SOURCE_HOST='127.0.0.1', SOURCE_PORT=%s, SOURCE_AUTO_POSITION=1" % s.n("b").rpartition(":")[2])
    return ("move-gtid", "d", "b")


@setup("off")
def errant_unseen(s: Story) -> Command:
    """b, between a and c, has a transaction of its own: without GTIDs coordinates don't have it"""
    s.root("a")
    replicas(s, "ba", "cb", "da")
    s.write("a", 4)
    s.settle(*"bdc")
    s.farm.ask(s.n("b"), "SET GLOBAL read_only=OFF; CREATE DATABASE IF NOT EXISTS own; SET GLOBAL read_only=ON")
    s.write("a", 1)
    s.settle(*"bd")
    s.wait_until(lambda: s.state(s.n("c")).exec >= s.state(s.n("b")).end, "c doesn't catch up")
    return ("move-up", "c", None)


@setup("off", words=("--broken-ok",))
def broken_applier(s: Story) -> Command:
    """d's applier meets an error; c is delayed by a minute"""
    s.root("a")
    replicas(s, "ba", "ca", "da")
    s.write("a", 4)
    s.settle(*"bcd")
    s.farm.ask(s.n("d"), "SET sql_log_bin=0; DROP TABLE d.t")
    stop(s, "c")
    s.farm.tell(s.n("c"), "CHANGE REPLICATION SOURCE TO SOURCE_DELAY=60")
    start(s, "c")
    s.write("a", 2)
    s.settle("b")
    s.wait_until(lambda: not s.state(s.n("d")).sql, "d's applier doesn't stop")
    receives(s, "c", "d")
    return ("move-below", "d", "b")


@setup("on")
def gaps(s: Story) -> Command:
    """c has executed a later transaction without one before it, as parallel appliers may"""
    s.root("a")
    replicas(s, "ba", "ca", "da")
    s.write("a", 4)
    s.settle(*"bcd")
    stop(s, "c")
    uuid = s.farm.ask(s.n("a"), "SELECT @@server_uuid u")[0]["u"]
    s.farm.ask(s.n("c"), "SET gtid_next='%s:8'; BEGIN; COMMIT; SET gtid_next='AUTOMATIC'" % uuid)
    s.write("a", 3)
    s.settle("b", "d")
    return ("move-gtid", "c", "b")


@setup("both")
def loaded(s: Story) -> None:
    """read while a client writes"""
    s.root("a")
    replicas(s, "ba", "ca", "db", "eb")
    s.write("a", 3)
    s.settle(*"bcde")
    s.writer = Writes(s, "a")
    s.writer.start()
    time.sleep(1.5)


# ---- what examples are made of, besides flat


@setup("on")
def example_two_centres(s: Story) -> None:
    """three levels over two data centres: a over b and c; c, in the other one, over d; d over e"""
    s.root("a")
    replicas(s, "ba", "ca", "dc", "ed")
    s.write("a", 6, pad=200)
    s.settle(*"bcde")
    s.flush("a")
    s.write("a", 3, pad=300)
    s.settle(*"bcde")
    stop(s, "e")
    s.write("a", 2)
    s.settle(*"bcd")


@setup("off")
def example_trouble(s: Story) -> None:
    """an applier that is stopped (b), an intermediate master that lags (c, over d and e), purged logs at a"""
    s.root("a")
    replicas(s, "ba", "ca", "dc", "ec")
    s.write("a", 4)
    s.settle(*"bcde")
    s.flush("a")
    s.write("a", 2)
    s.settle(*"bcde")
    s.applier_off("b")
    s.applier_off("c")
    s.write("a", 3, pad=400)
    receives(s, "b", "c")
    s.flush("a")
    s.write("a", 1)
    receives(s, "b", "c")
    s.purge("a", 2)
