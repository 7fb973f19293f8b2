#!/usr/bin/env python3
"""Records what real servers answer to `orch import` and to `orch follow`, so that their tests need none.

    tools/rehearsal/record.py [--kind mysql|mariadb] [--gtids] [--only NAME ..] [--to FOLDER]
    tools/rehearsal/record.py --runs [--orch PROGRAM] [--kind mysql|mariadb] [--gtids] [--only NAME ..] [--to FOLDER]

It makes each set-up of setups.py on five servers of its own on 127.0.0.1 and imports it by the light and by the exact way. A file for each has
the version of the servers, the arguments, each server's answers, and what the import printed. With --runs it follows the plans of runs.py, first dry
and then with --execute, and keeps all answers. Ports are written as 3311 to 3315 (of links 3321 to 3325), the machine's name as `host`, and the
password as `secret`. It ends what it started, and removes its folder, also when it is interrupted.
"""
from __future__ import annotations

import argparse
import contextlib
import io
import json
import os
import re
import shutil
import socket
import sys
import tempfile
import unittest.mock
from collections.abc import Callable
from typing import Any

TOOLS = os.path.dirname(os.path.dirname(os.path.abspath(__file__)))
sys.path.insert(0, TOOLS)

from orch_tools import follow, importing
from orch_tools.client import Client
from rehearsal.ending import Over, ignore_all, take_signals
from rehearsal.farm import Farm
from rehearsal.kinds import BOSS, FETCHED, PROGRAM, REPLICATION, Missing
from rehearsal.runs import RUNS, Run
from rehearsal.setups import SETUPS, Setup
from rehearsal.story import Story

RECORDED = os.path.join(TOOLS, "tests", "recorded")
# Set-ups that are read by the light way alone, and those that are found from one server, too, by the name of that server.
LIGHT = ("example_two_centres", "example_trouble", "loaded")
FOUND = {"flat": "a", "three_levels": "e", "example_two_centres": "a"}


class Recording(Client):
    """The client, which keeps each answer that isn't the one before."""

    def __init__(self, program: str) -> None:
        Client.__init__(self, program, BOSS, ["--no-defaults"], BOSS)
        self.answers: dict[str, dict[str, list[Any]]] = {}

    def ran(self, host: str, port: int, statements: str) -> tuple[int, str, str]:
        """What the server answers now."""
        status, out, err = Client.ran(self, host, port, statements)
        kept = self.answers.setdefault("%s:%d" % (host, port), {}).setdefault(statements, [])
        if not kept or kept[-1] != [out, err, status]:
            kept.append([out, err, status])
        return status, out, err


def imported(client: Recording, words: list[str], folder: str) -> dict[str, Any]:
    """What an import with these arguments prints and writes, and what it was answered."""
    parser = argparse.ArgumentParser()
    importing.add_arguments(parser)
    out, err = os.path.join(folder, "now.json"), io.StringIO()
    for file in (out, out[:-5] + ".map.json", out[:-5] + ".notes.json"):
        if os.path.exists(file):
            os.remove(file)
    with contextlib.redirect_stderr(err):
        status = importing.run(parser.parse_args([*words, "--out", out]), lambda *_: client)
    found: dict[str, Any] = {"words": words, "status": status, "err": err.getvalue(), "answers": client.answers}
    if status == 0:
        for key, file in (("scenario", out), ("map", out[:-5] + ".map.json"), ("notes", out[:-5] + ".notes.json")):
            with open(file, encoding="utf-8") as text:
                found[key] = json.load(text)
    return found


class Keeping(Client):
    """The client, which keeps all answers in order."""

    def __init__(self, program: str) -> None:
        Client.__init__(self, program, BOSS, ["--no-defaults"], BOSS)
        self.answers: dict[str, dict[str, list[Any]]] = {}

    def ran(self, host: str, port: int, statements: str) -> tuple[int, str, str]:
        """What the server answers now."""
        status, out, err = Client.ran(self, host, port, statements)
        self.answers.setdefault("%s:%d" % (host, port), {}).setdefault(statements, []).append([out, err, status])
        return status, out, err


def followed(program: str, plan: str, words: list[str]) -> dict[str, Any]:
    """What a run of a plan with these arguments prints, and what it was answered."""
    parser, client, out, err = argparse.ArgumentParser(), Keeping(program), io.StringIO(), io.StringIO()
    follow.add_arguments(parser)
    with unittest.mock.patch("sys.stdin", io.StringIO(plan)), contextlib.redirect_stdout(out), contextlib.redirect_stderr(err):
        status = follow.run(parser.parse_args(words), lambda *_, **__: client)
    return {"words": words, "status": status, "out": out.getvalue(), "err": err.getvalue(), "answers": client.answers}


def record_run(farm: Farm, made: Run, given: argparse.Namespace) -> str:
    """Records one run, and prints how it went."""
    story = Story(farm, given.orch)
    try:
        plan, words = made.make(story)
        told: dict[str, Any] = {"server": farm.make.told(), "about": made.make.__doc__, "plan": plan}
        told["dry"] = followed(farm.make.client, plan, [*words])
        told["run"] = followed(farm.make.client, plan, [*words, "--execute", "--wait", "20"])
        text = json.dumps(speller(farm, story)(told), indent=0, sort_keys=True).replace("PASSWORD='%s'" % REPLICATION, "PASSWORD='secret'")
    finally:
        tidy(farm, story)
    path = os.path.join(given.to, "%s_%s%s.json" % (farm.make.kind, "gtids_" if given.gtids else "", made.make.__name__))
    with open(path, "w", encoding="utf-8") as file:
        file.write(text + "\n")
    return "dry %d, run %d %s" % (told["dry"]["status"], told["run"]["status"], told["run"]["err"].split("\n")[0])


def record_runs(farm: Farm, given: argparse.Namespace) -> None:
    """Records all runs that these servers have."""
    os.environ["REPLICATION_PASSWORD"] = REPLICATION
    for made in RUNS:
        if (made.on == "gtids") == given.gtids and (not given.only or made.make.__name__ in given.only):
            print("%s: %s" % (made.make.__name__, record_run(farm, made, given)))
            sys.stdout.flush()


def record_imports(farm: Farm, given: argparse.Namespace) -> None:
    """Records all set-ups that these servers have."""
    for made in SETUPS:
        fits = made.mariadb if given.kind == "mariadb" else made.with_gtids if given.gtids else made.without
        if fits and (not given.only or made.name in given.only):
            print("%s: %s" % (made.name, record(farm, made, given)))
            sys.stdout.flush()


def speller(farm: Farm, story: Story) -> Callable[[Any], Any]:
    """Writes texts, and all within lists and objects, with the ports and the name of every recording."""
    ports = {name.rpartition(":")[2]: str(3310 + number) for number, name in enumerate(farm.names, 1)}
    ports.update({str(proxy.port): str(3320 + farm.ids[name]) for name, proxy in story.proxies.items()})

    def spell(what: Any) -> Any:
        if isinstance(what, dict):
            return {spell(key): spell(value) for key, value in what.items()}
        if isinstance(what, list):
            return [spell(one) for one in what]
        if not isinstance(what, str):
            return what
        what = re.sub(r"\b(%s)\b" % "|".join(ports), lambda found: ports[found.group(1)], what)
        return re.sub(r"\b%s\b" % re.escape(socket.gethostname()), "host", what)
    return spell


def words_of(story: Story, made: Setup) -> list[str]:
    """The arguments of an import besides the servers, with these in place of their letters."""
    words = [re.sub(r"\b([a-e])\b", lambda found: story.n(found.group(1)), word) if "=" in word else word for word in made.words]
    return words + [word for link, name in story.servers_of_proxies.items() for word in ("--alias", "%s=%s" % (link, name))]


def record(farm: Farm, made: Setup, given: argparse.Namespace) -> str:
    """Records one set-up, and prints how it went."""
    story = Story(farm, "")
    try:
        command = made.make(story)
        names = sorted(story.used, key=farm.names.index)
        words = words_of(story, made)
        told: dict[str, Any] = {"server": farm.make.told(), "about": made.about, "letters": {story.letter(name): name for name in names}, "command": command}
        told["light"] = imported(Recording(farm.make.client), [*names, "--only-named", *words], farm.folder)
        if made.name not in LIGHT:
            told["exact"] = imported(Recording(farm.make.client), [*names, "--exact", "--only-named", *words], farm.folder)
        if made.name in FOUND:
            told["found"] = imported(Recording(farm.make.client), [story.n(FOUND[made.name]), *words], farm.folder)
        text = json.dumps(speller(farm, story)(told), indent=0, sort_keys=True)
    finally:
        if story.writer:
            story.writer.stop()
        tidy(farm, story)
    path = os.path.join(given.to, "%s_%s%s.json" % (farm.make.kind, "gtids_" if given.gtids else "", made.name))
    with open(path, "w", encoding="utf-8") as file:
        file.write(text + "\n")
    return "; ".join("%s %d" % (way, told[way]["status"]) for way in ("light", "exact", "found") if way in told)


def tidy(farm: Farm, story: Story) -> None:
    """Takes away what a set-up leaves besides the table."""
    story.close()
    for name in farm.names:
        if farm.is_up(name):
            farm.tell(name, "STOP REPLICA")
            farm.ask(name, "%sSET GLOBAL read_only=OFF; SET sql_log_bin=0; DROP DATABASE IF EXISTS own"
                     % ("" if farm.make.kind == "mariadb" else "SET GLOBAL super_read_only=OFF; "))


def options() -> argparse.ArgumentParser:
    """The arguments."""
    parser = argparse.ArgumentParser(description=__doc__, formatter_class=argparse.RawDescriptionHelpFormatter)
    parser.add_argument("--kind", default="mysql", choices=["mysql", "mariadb"], help="the kind of servers (%(default)s)")
    parser.add_argument("--gtids", action="store_true", help="MySQL in GTID mode")
    parser.add_argument("--only", nargs="*", default=[], metavar="NAME", help="these set-ups alone")
    parser.add_argument("--runs", action="store_true", help="of `orch follow`, and not of `orch import`")
    parser.add_argument("--orch", default=PROGRAM, metavar="PROGRAM", help="the program that prints plans (%(default)s)")
    parser.add_argument("--to", metavar="FOLDER", help="(tools/tests/recorded/import or follow)")
    parser.add_argument("--servers", default=FETCHED, metavar="FOLDER", help="where install.sh fetched servers into, by kind (%(default)s)")
    parser.add_argument("--minutes", type=float, default=30, help="how long it may take (%(default)d)")
    parser.set_defaults(run_as=None, appliers=1, binlog_format="ROW")
    return parser


def main() -> int:
    """The exit status."""
    given = options().parse_args()
    take_signals(given.minutes)
    folder = tempfile.mkdtemp(prefix="record.")
    given.to = given.to or os.path.join(RECORDED, "follow" if given.runs else "import")
    os.makedirs(given.to, exist_ok=True)
    try:
        farm = Farm(folder, 5, given)
        try:
            farm.start()
            (record_runs if given.runs else record_imports)(farm, given)
        finally:
            ignore_all()
            farm.end()
    except Missing as reason:
        print("skipped: %s" % reason)
    except Over as reason:
        print("ended: %s" % reason)
    finally:
        shutil.rmtree(folder, ignore_errors=True)
    return 0


if __name__ == "__main__":
    sys.exit(main())
