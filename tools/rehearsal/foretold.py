"""The light import on the set-ups of setups.py: what the program foretells of its scenario is what then happens on the servers."""
from __future__ import annotations

import argparse
from typing import Any

from rehearsal.both_ways import Checkpoints, answers_differ, heads_of, standing_differs
from rehearsal.farm import Farm
from rehearsal.play import Say, There, follow, played
from rehearsal.setups import SETUPS, Setup
from rehearsal.story import Differs, Story

# Set-ups whose command is refused, and by which refusal; and one in which the run of the plan stops, as the import notes.
REFUSED = {"errant": "Errant", "purged_gtids": "Purged", "old_master_back": "Errant"}
STOPPED = {"broken_applier": "its applier stopped: error"}


def foretold(s: Story, told: Any) -> tuple[str, Any, dict[str, list[str]]]:
    """The program's answer, and each server's table once nothing moves. Each command among the scenario's own turns has a job."""
    status, out, err = s.ran(s.words(*told), s.turns)
    job = 1 + sum(turn[0] == "command" for turn in s.turns)
    rounds = [["job", job], ["round"]] * 70 + [["round"]] * 30
    text = s.ran(["-c", "run"], [*s.turns, ["command", told[0], s.keys(*told[1:])], *rounds])[1]
    tables = {line.split()[1]: line.split() for line in text.split("\n") if line.startswith("server ")}
    if status == 0:
        return "done", out.split("\n")[:-1], tables
    kind, _, cause = (err or out).strip().partition(" ")
    return kind, cause, tables


def carried_out(s: Story, told: Any, done: Any) -> There:
    """The command on the servers: by the printed plan, or by hand where the program prints none. An import after a death knows no pairs that were
    polled before it, and compares coordinates as they are."""
    command, i, d = told
    status, text, err = s.ran(s.words(command, i, d) + ["--plan"], s.turns)
    if status == 0:
        return follow(s, text, lambda line: None, done)
    if command != "recover":
        raise Differs("no plan: status %d %s" % (status, err))
    source = {server["name"]: server.get("source") for server in s.scenario["servers"]}
    failed, job = s.n(i), s.job()
    job.places = None
    replicas = [name for name in source if source[name] == failed]
    if source[failed]:
        return job.run(job.recover_intermediate, failed, source[failed], replicas, s.bridges)
    return job.run(job.recover_master, failed, replicas, s.bridges)


def shape(words: list[str]) -> list[str]:
    """A line of a lost replica without its coordinate, which is another one at the end of a file."""
    return words[:2] + words[3:] if words[1:2] in (["behind"], ["ahead"]) else words


def tables_differ(s: Story, tables: dict[str, list[str]]) -> list[str]:
    """What differs between the tables and the servers: sources, threads, read_only, and who is detached."""
    bad = []
    for name, words in tables.items():
        if not s.farm.is_up(name):
            continue
        seen = s.state(name)
        mine = {"source": words[words.index("source") + 1], "read_only": words[3] == "ro", "detached": "detached" in words}
        there = {"source": seen.source or "none", "read_only": seen.read_only, "detached": seen.detached}
        if seen.source and mine["source"] == there["source"]:
            mine.update(receiver=words[words.index("io") + 1] == "on", applier=words[words.index("sql") + 1] == "on")
            there.update(receiver=seen.io != "No", applier=seen.sql)
        bad += ["%s %s %s, the server %s" % (s.letter(name), key, mine[key], there[key]) for key in mine if mine[key] != there[key]]
    return bad


def compared(s: Story, made: Setup, many: int, say: Say) -> list[str]:
    """What differs of a set-up: what happens, and, if that is asked for, answers of both ways of the import to each death and to some commands."""
    told = made.make(s)
    if told is None:
        return []
    said: list[str] = []
    bad = answers_differ(s, made, s.program, many, said) if many else []
    for line in said:
        say(line)
    s.poll()
    s.read_light(made.words)
    heads = heads_of(s)
    kind, got, tables = foretold(s, told)
    say("foretold of %s: %s %s" % (" ".join(word for word in told if word), kind, s.spell(got if isinstance(got, str) else "; ".join(got))))
    if kind == "refused":
        return bad + ([] if REFUSED.get(made.name, "-") in got.split() else ["refused " + got])
    there = carried_out(s, told, got)
    say("servers: %s %s" % (there[0], s.spell(there[1] if isinstance(there[1], str) else "; ".join(there[1]))))
    if made.name in STOPPED:
        return bad if there[0] == "failed" and STOPPED[made.name] in there[1] else ["the run was to stop"]
    if made.name in REFUSED or there[0] != kind:
        return ["%s, the servers %s" % (kind, there)]
    bad += ["line %s, the servers %s" % (mine, other) for mine, other in zip(got, there[1]) if shape(mine.split()) != shape(other.split())]
    s.quiet()
    bad += [] if len(got) == len(there[1]) else ["lines %s, the servers %s" % (got, there[1])]
    checkpoints = Checkpoints(s)
    bad += tables_differ(s, tables) + standing_differs(s, tables, heads, checkpoints)
    for line in checkpoints.seen:
        say("checkpoints: " + s.spell(line))
    return bad


def one_foretold(farm: Farm, given: argparse.Namespace, made: Setup) -> bool | None:
    """Whether what is foretold of a set-up happens."""
    return played(farm, given, "foretold " + made.name, made.about, lambda story, say: compared(story, made, given.questions, say))


def all_foretold(farm: Farm, given: argparse.Namespace, results: list[bool | None]) -> None:
    """All set-ups that these servers have."""
    for made in SETUPS:
        fits = made.mariadb and not farm.make.by_gtids if farm.make.kind == "mariadb" else made.with_gtids if farm.make.gtid else made.without
        wanted = not given.only or made.name in given.only or "foretold" in given.only
        if fits and wanted and not made.name.startswith(("example", "loaded")):
            results.append(one_foretold(farm, given, made))
