#!/usr/bin/env python3
"""Prints how the built program's time and memory grow: for each command, turn and list of the format a scenario with N, 2N and 4N of it.

    tools/grow.py PROGRAM [--only NAME,..] [--seconds SECONDS] [--list]

N is doubled from a small one until a run takes 0.08 seconds, or until 4N is the format's limit. Time is the processor's, memory the highest of
the process. A row is marked `*` if a doubling takes more than 2.2 times as much, of runs above 0.15 seconds: the cost grows faster than the work.
A marked row is measured twice. A run that takes longer than its row may is left out (`-`). All rows together take at most 300 seconds of processor
time (--seconds): five minutes by the clock if nothing runs beside it. The exit status is 1 if the program answers a row otherwise than expected.
"""
from __future__ import annotations

import argparse
import dataclasses
import json
import math
import os
import re
import resource
import subprocess
import sys
import tempfile

import grow_rows
from grow_rows import Asked, Row

ENOUGH, COUNTS, MARKED = 0.08, 0.15, 2.2


class Unexpected(Exception):
    """The program answered a row otherwise than it should."""


@dataclasses.dataclass(frozen=True)
class Run:
    """What a run took."""
    seconds: float
    megabytes: float


def spent() -> float:
    """The processor time of this process and of those that it started, so that what runs beside it takes none of the rows' time."""
    times = os.times()
    return times.user + times.system + times.children_user + times.children_system


def own_megabytes() -> float:
    """The memory of this process: less can't be measured of a process that it starts."""
    return resource.getrusage(resource.RUSAGE_SELF).ru_maxrss / 1024


def prepared(row: Row, size: int, folder: str) -> Asked:
    """What a row asks with so many. A process of its own makes the scenario and writes it to the folder, so that this one stays small."""
    child = os.fork()
    if child == 0:
        made = row.make(size)
        for name, what in (("scenario", made.scenario), ("asked", [made.words, made.refused])):
            with open(os.path.join(folder, name), "w", encoding="ascii") as file:
                json.dump(what, file, separators=(",", ":"))
        os._exit(0)
    os.waitpid(child, 0)
    with open(os.path.join(folder, "asked"), encoding="ascii") as file:
        words, refused = json.load(file)
    return Asked(tuple(words), {}, refused)


def check(asked: Asked, status: int, out: bytes) -> None:
    """That the program took the scenario, and refused as much as it should. A run and a live run may answer 7."""
    if status not in (0, 7):
        raise Unexpected("exit status %d" % status)
    counts = re.match(rb"turns \d+ refused (\d+) failed (\d+)\n", out)
    if asked.refused is not None and "--summary" in asked.words and (not counts or [int(it) for it in counts.groups()] != [asked.refused, 0]):
        raise Unexpected(out.split(b"\n")[0].decode("utf-8", "replace"))


def ran_once(program: str, asked: Asked, folder: str, seconds: float) -> Run | None:
    """Runs the program on the scenario in the folder; None if it took longer than so many seconds."""
    for name in ("kept", "kept-wal", "kept-journal"):
        if os.path.exists(os.path.join(folder, name)):
            os.unlink(os.path.join(folder, name))
    most = max(1, round(seconds))
    with open(os.path.join(folder, "scenario"), "rb") as given, open(os.path.join(folder, "out"), "w+b") as out:
        child = subprocess.Popen([program, *asked.words], stdin=given, stdout=out, stderr=subprocess.DEVNULL, cwd=folder,
                                 preexec_fn=lambda: resource.setrlimit(resource.RLIMIT_CPU, (most, most)))
        _, ended, used = os.wait4(child.pid, 0)
        child.returncode = os.waitstatus_to_exitcode(ended)
        if child.returncode < 0:
            return None
        out.seek(0)
        check(asked, child.returncode, out.read(200))
    return Run(used.ru_utime + used.ru_stime, used.ru_maxrss / 1024)


def least(run: Run | None, other: Run | None) -> Run | None:
    """The least of two runs, of each figure."""
    if run is None or other is None:
        return run or other
    return Run(min(run.seconds, other.seconds), min(run.megabytes, other.megabytes))


def ran(program: str, row: Row, size: int, folder: str, ends: float) -> Run | None:
    """The least of up to three runs with so many, before this moment."""
    asked = prepared(row, size, folder)
    best: Run | None = None
    for _ in range(3):
        left = ends - spent()
        if left <= 0:
            return best
        found = ran_once(program, asked, folder, left)
        if found is None:
            return best
        best = least(best, found)
        if found.seconds > 0.3 or found.seconds < ENOUGH / 4:
            break
    return best


def measured(program: str, row: Row, folder: str, seconds: float) -> tuple[int, list[Run | None]]:
    """A row's N, and what the program took for N, 2N and 4N, in about so many seconds."""
    ends = spent() + seconds
    size = row.start
    runs = [ran(program, row, size, folder, ends)]
    while runs[0] and runs[0].seconds < ENOUGH and 8 * size <= row.most:
        size *= 2
        runs = [ran(program, row, size, folder, ends)]
    for factor in (2, 4):
        runs.append(ran(program, row, factor * size, folder, ends) if runs[-1] else None)
    if is_marked(growths([run and run.seconds for run in runs], COUNTS)):
        runs = [least(run, ran(program, row, factor * size, folder, ends)) for run, factor in zip(runs, (1, 2, 4))]
    return size, runs


def growths(values: list[float | None], least: float) -> list[float | None]:
    """How many times the one before it each one is. None unless it is above the least that counts."""
    return [after / before if before and after and after > least else None for before, after in zip(values, values[1:])]


def is_marked(found: list[float | None]) -> bool:
    """Whether they are above what a doubling should take: both together if both count, and else one."""
    counted = [it for it in found if it is not None]
    return bool(counted) and math.prod(counted) > MARKED ** len(counted)


def line_of(row: Row, size: int, runs: list[Run | None], floor: float) -> tuple[str, bool]:
    """A row of the table, and whether it is marked."""
    times = growths([run and run.seconds for run in runs], COUNTS)
    sizes = growths([run and run.megabytes for run in runs], max(2 * floor, 20))
    seconds = " ".join("%6.2f" % run.seconds if run else "     -" for run in runs)
    memory = " ".join(("%5.0f" % run.megabytes if run.megabytes > floor else "%5s" % ("<%.0f" % (floor + 1))) if run else "    -" for run in runs)
    grown = " ".join("%3.1f" % it if it else "  -" for it in times + sizes)
    marked = is_marked(times) or is_marked(sizes)
    return "%-8s%-52s%8d %s %s   %s %s  %s" % (row.kind, row.name, size, seconds, memory, grown, "*" if marked else " ", row.grows), marked


def table(program: str, rows: list[Row], seconds: float) -> int:
    """Prints the table; the exit status."""
    ends, marked, unexpected, floor = spent() + seconds, 0, 0, own_megabytes()
    print("%-8s%-52s%8s %20s %17s   %15s" % ("", "", "N", "seconds: N, 2N, 4N", "MB: N, 2N, 4N", "growth: s, MB"), flush=True)
    with tempfile.TemporaryDirectory(prefix="grow-") as folder:
        for place, row in enumerate(rows):
            left = max(ends - spent(), 0)
            try:
                size, runs = measured(program, row, folder, min(3 * left / (len(rows) - place), left))
            except Unexpected as why:
                print("%-8s%-52s unexpected: %s" % (row.kind, row.name, why), flush=True)
                unexpected += 1
                continue
            line, is_above = line_of(row, size, runs, floor)
            marked += is_above
            print(line, flush=True)
    print("%d rows, %d of them grow more than %.1f times by a doubling" % (len(rows), marked, MARKED))
    return 1 if unexpected else 0


def main(arguments: list[str]) -> int:
    """The command line, and its exit status."""
    parser = argparse.ArgumentParser(description="how the program's time and memory grow with each command, turn and list")
    parser.add_argument("program", nargs="?")
    parser.add_argument("--only", help="these rows, by name, with commas between them that have no blank after them")
    parser.add_argument("--seconds", type=float, default=300, help="of processor time for all rows together (300)")
    parser.add_argument("--list", action="store_true", help="print the rows and run nothing")
    given = parser.parse_args(arguments)
    rows = list(grow_rows.rows_named(re.split(",(?! )", given.only) if given.only else []))
    if given.list:
        print("\n".join("%-8s%-52s%s" % (row.kind, row.name, row.grows) for row in rows))
        return 0
    if not given.program or not os.access(given.program, os.X_OK):
        parser.error("no program: %s" % given.program)
    return table(os.path.abspath(given.program), rows, given.seconds)


if __name__ == "__main__":
    sys.exit(main(sys.argv[1:]))
