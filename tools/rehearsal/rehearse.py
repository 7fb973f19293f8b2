#!/usr/bin/env python3
"""Rehearses with orch, does the same on real servers, and compares: the check that what is rehearsed is what happens.

    tools/rehearsal/rehearse.py [--kind mysql|mariadb] [--gtids] [--orch PROGRAM] [--only NAME ..]

It starts five servers of its own on 127.0.0.1, each on a free port, in a temporary folder. For each story it does this:

1. It makes a topology on the servers, and reads it as `orch import --exact` does.
2. It gives the scenario and a command to the program.
3. It carries the command out on the servers, by the printed plan and the runner of `orch follow`.
4. It reads the servers again and compares: the lines, sources, transactions, each coordinate by its place, threads, read_only, files.
5. It compares the rows: each server has those of each transaction that it executed exactly once.

Recoveries go by statements that are written anew here, and again by the printed plan, if the program prints one. Then come plans that are wrong,
which must differ; races, in which something happens between the lines of a plan; random commands (--steps); and random deaths (--deaths).
The servers are those that tools/rehearsal/install.sh fetched, else those of this machine. It takes at most --minutes, ends what it started by
its handle, and removes its folder, also when it is interrupted.

The last line is 'N passed, M failed'. Exit status: 0 all passed, or no server can be had, which is one line; 1 one failed; 2 wrong arguments.
"""
from __future__ import annotations

import argparse
import os
import shutil
import sys
import tempfile
from collections.abc import Sequence

TOOLS = os.path.dirname(os.path.dirname(os.path.abspath(__file__)))
sys.path.insert(0, TOOLS)

from rehearsal.ending import Over, ignore_all, take_signals
from rehearsal.farm import Farm
from rehearsal.foretold import all_foretold
from rehearsal.gtid_stories import GTID_STORIES
from rehearsal.interrupted import one_interrupted
from rehearsal.kinds import FETCHED, PROGRAM, Missing, make_of
from rehearsal.play import one, one_wrong
from rehearsal.races import RACES, one_race
from rehearsal.stories import STORIES, WRONG
from rehearsal.walks import deaths, walk


def stories(farm: Farm, given: argparse.Namespace, results: list[bool | None]) -> None:
    """The stories, and those of recoveries again by the printed plan."""
    for made in STORIES + (GTID_STORIES if farm.make.gtid else []):
        if not given.only or made.__name__ in given.only:
            results += one(farm, given, made)


def rest(farm: Farm, given: argparse.Namespace, results: list[bool | None]) -> None:
    """Wrong plans, races, random commands and random deaths."""
    for made, wrong, harmless in WRONG:
        if not given.only or "wrong" in given.only:
            results.append(one_wrong(farm, given, made, wrong, harmless and farm.make.gtid))
    for race in RACES:
        if (not given.only or race.made.__name__ in given.only or "races" in given.only) and (farm.make.gtid or not race.with_gtids):
            results.append(one_race(farm, given, race))
    all_foretold(farm, given, results)
    if not given.only or "walk" in given.only:
        walk(farm, given, results)
    if not given.only or "deaths" in given.only:
        deaths(farm, given, results)


def rehearse(given: argparse.Namespace, folder: str) -> int:
    """The exit status of a rehearsal in this folder."""
    farm = Farm(folder, 5, given)
    results: list[bool | None] = []
    print("on %s" % farm.make.told())
    sys.stdout.flush()
    try:
        if not given.only or "interrupted" in given.only:
            results.append(one_interrupted(given))
        farm.start()
        stories(farm, given, results)
        rest(farm, given, results)
    except Over as reason:
        print("FAILED: ended before the last story: %s" % reason)
        results.append(False)
    finally:
        ignore_all()
        farm.end()
    print("%d passed, %d failed" % (results.count(True), results.count(False)))
    return 1 if False in results or True not in results else 0


def options() -> argparse.ArgumentParser:
    """The command line."""
    parser = argparse.ArgumentParser(description=__doc__, formatter_class=argparse.RawDescriptionHelpFormatter)
    parser.add_argument("--kind", default="mysql", choices=["mysql", "mariadb"], help="the kind of servers (%(default)s)")
    parser.add_argument("--gtids", action="store_true", help="MySQL in GTID mode; replicas of MariaDB by MariaDB's GTIDs")
    parser.add_argument("--orch", default=PROGRAM, metavar="PROGRAM", help="(%(default)s)")
    parser.add_argument("--only", nargs="*", default=[], metavar="NAME",
                        help="these stories, races and set-ups alone; `wrong`, `races`, `foretold`, `interrupted`, `walk` and `deaths` stand for a part")
    parser.add_argument("--steps", type=int, default=60, help="how many random commands (%(default)d)")
    parser.add_argument("--deaths", type=int, default=20, help="how many random deaths (%(default)d)")
    parser.add_argument("--questions", type=int, default=0, metavar="N",
                        help="of each set-up ask both ways of the import each death and so many commands (%(default)d: none)")
    parser.add_argument("--seed", type=int, default=1, help="of what is random (%(default)d)")
    parser.add_argument("--verbose", action="store_true", help="what was done in stories that pass, too")
    parser.add_argument("--keep", metavar="FOLDER", help="write the scenarios of what fails there")
    parser.add_argument("--minutes", type=float, default=60, help="how long it may take (%(default)d)")
    parser.add_argument("--binlog-format", default="MIXED", choices=["MIXED", "ROW"], help="of MariaDB; MySQL's is ROW (%(default)s)")
    parser.add_argument("--appliers", type=int, default=1, help="how many workers a replica of MySQL has (%(default)d)")
    parser.add_argument("--folder", help="where the servers' data go; about 1 GB")
    parser.add_argument("--servers", default=FETCHED, metavar="FOLDER", help="where install.sh fetched servers into, by kind (%(default)s)")
    parser.add_argument("--run-as", metavar="USER", help="the user of the servers, where this runs as root; without it root")
    return parser


def main(words: Sequence[str] | None = None) -> int:
    """The exit status."""
    given = options().parse_args(words)
    try:
        make_of(given)
    except Missing as reason:
        print("skipped: %s; tools/rehearsal/install.sh %s fetches one" % (reason, given.kind))
        return 0
    if not os.access(given.orch, os.X_OK):
        print("no built program %s" % given.orch, file=sys.stderr)
        return 2
    given.orch = os.path.abspath(given.orch)
    folder = tempfile.mkdtemp(prefix="rehearse.", dir=given.folder)
    try:
        os.chmod(folder, 0o755)
        take_signals(given.minutes)
        return rehearse(given, folder)
    except Over as reason:
        print("ended: %s" % reason)
        return 1
    finally:
        ignore_all()
        shutil.rmtree(folder, ignore_errors=True)


if __name__ == "__main__":
    sys.exit(main())
