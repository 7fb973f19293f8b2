"""Single changes of a topology that may make a death cost less. Each is tried by a run of the program."""
from __future__ import annotations

import copy
import dataclasses
from typing import Any

from orch_tools.answers import Server, position_of
from orch_tools.deaths import Death, death_of, state_after
from orch_tools.losses import measured
from orch_tools.program import NoAnswer, Program, each_at_once, processors
from orch_tools.counting import Count
from orch_tools.scenario import MOST_TURNS, Scenario, edited, full, more_turns, short


MOST_RULES = 40


@dataclasses.dataclass
class Change:
    """One change: what is done, by which statement or command, and the scenario with it."""
    what: str
    how: str
    data: dict[str, Any]


@dataclasses.dataclass
class Trial:
    """A change with the death after it, or why it couldn't be tried."""
    change: Change
    death: Death | None
    reason: str = ""


def lag_of(before: dict[str, Server]) -> int:
    """The most fetches and applies that any server needs until it has all that its sources have."""
    most = max((server.executed for server in before.values()), default=0)
    least = min((server.executed for server in before.values() if server.source), default=most)
    files = max((position_of(server.end)[0] for server in before.values() if server.end != "none"), default=1)
    depth = len(before)
    return most - least + files + min(depth, 10)


def caught_up(data: dict[str, Any], before: dict[str, Server]) -> Change | None:
    """Nobody lags: every server with running threads has executed all that its source has."""
    rounds = lag_of(before)
    if not data.get("turns"):
        changed = level(data, before)
    elif rounds * 4 * len(before) <= MOST_TURNS:
        changed = more_turns(data, [["round"]] * rounds)
    else:
        return None
    return Change("no replica lags", "find out why replicas lag: long transactions, one applier, a slow disk", changed)


def level(data: dict[str, Any], before: dict[str, Server]) -> dict[str, Any]:
    """The scenario in which each server with running threads has executed all that its source has."""
    changed = copy.deepcopy(data)
    rows = {full(row["name"]): row for row in changed["servers"]}
    counts: dict[str, int] = {}

    def count(name: str) -> int:
        server = before[name]
        if name not in counts:
            counts[name] = server.executed
            if server.source and server.io == "on" and server.sql == "on" and server.is_up and before[server.source].is_up:
                counts[name] = max(server.executed, count(server.source))
        return counts[name]

    for name, row in rows.items():
        if count(name) != before[name].executed:
            row["executed"] = count(name)
            row.pop("at", None)
            row.pop("read", None)
    return changed


def with_gtids(data: dict[str, Any]) -> Change | None:
    """GTIDs with auto position everywhere."""
    if data.get("gtid"):
        return None
    changed = copy.deepcopy(data)
    changed["gtid"] = True
    for server in changed["servers"]:
        if "source" in server:
            server["auto"] = True
    return Change("GTIDs with auto position everywhere", "gtid_mode=ON, enforce_gtid_consistency=ON, SOURCE_AUTO_POSITION=1", changed)


def started(data: dict[str, Any], server: Server, before: dict[str, Server]) -> Change | None:
    """A stopped applier runs, and has executed all that was received."""
    if server.sql != "off" or server.detached or not server.is_up:
        return None
    source = before.get(server.source or "")
    steps = (source.executed - server.executed if source else 0) + position_of(server.read or server.end)[0] + 1
    turns = [["apply", server.name]] * max(1, steps)
    return Change("the applier of %s runs, and has executed what was received" % server.name, "on %s: START REPLICA SQL_THREAD" % short(server.name),
                  more_turns(edited(data, server.name, sql=True), turns))


def fetching(data: dict[str, Any], server: Server, before: dict[str, Server]) -> Change | None:
    """A stopped receiver runs, and the server has caught up."""
    rounds = lag_of(before)
    if server.io != "off" or server.sql != "on" or server.detached or not server.is_up or 2 * rounds > MOST_TURNS:
        return None
    turns = [["fetch", server.name], ["apply", server.name]] * rounds
    return Change("the receiver of %s runs, and has caught up" % server.name, "on %s: START REPLICA IO_THREAD" % short(server.name),
                  more_turns(edited(data, server.name, io=True), turns))


def logging(data: dict[str, Any], server: Server) -> Change | None:
    """A server that writes no log writes one."""
    if server.end != "none":
        return None
    return Change("%s logs what it applies" % server.name, "on %s: log_bin and log_replica_updates=ON in my.cnf, restart" % short(server.name),
                  edited(data, server.name, logs=True))


def ruled(data: dict[str, Any], name: str, rule: str) -> Change:
    """Another promotion rule for a server."""
    return Change("the promotion rule of %s is %s" % (name, rule),
                  "orch -c register-candidate -i %s --promotion-rule %s" % (short(name), rule), edited(data, name, rule=rule))


def rules_that_matter(data: dict[str, Any], now: Death) -> list[Change]:
    """Other promotion rules that may change who is lost or what is gone: the choice goes by what a replica has executed first. So they
    are those of replicas that must not be promoted, of the chosen one, and of the ones that have executed as much."""
    given = {full(server["name"]): server.get("rule", "neutral") for server in data["servers"]}
    found = []
    most = now.after[now.chosen].executed if now.chosen else 0
    for server in now.before.values():
        if server.source != now.dead:
            continue
        if given[server.name] == "must_not":
            found += [ruled(data, server.name, rule) for rule in ("neutral", "prefer")]
        elif server.name == now.chosen:
            found.append(ruled(data, server.name, "must_not"))
        elif given[server.name] != "prefer" and now.after[server.name].executed >= most:
            found.append(ruled(data, server.name, "prefer"))
    return found[:MOST_RULES]


def changes_of(data: dict[str, Any], now: Death) -> list[Change]:
    """The changes that are tried: of the whole topology, and of each replica of the server that dies."""
    before = now.before
    found: list[Change | None] = [with_gtids(data), caught_up(data, before)]
    for server in before.values():
        if server.source == now.dead:
            found += [started(data, server, before), fetching(data, server, before), logging(data, server)]
    return [change for change in found if change] + rules_that_matter(data, now)


def tried(program: Program, change: Change, told: Scenario, dead: str) -> Trial:
    """The death after one change."""
    try:
        return Trial(change, measured(told, death_of(program, change.data, state_after(program, change.data).servers, dead)))
    except NoAnswer as reason:
        return Trial(change, None, str(reason).splitlines()[0])


def trials_of(program: Program, told: Scenario, now: Death) -> list[Trial]:
    """Every change, tried."""
    changes = changes_of(told.data, now)
    with Count("orch outage: changes tried", len(changes)) as progress:
        return each_at_once(lambda change: tried(program, change, told, now.dead), changes, processors(), progress.step)


def helpful(trials: list[Trial], now: Death) -> list[tuple[Change, Death]]:
    """The changes after which the death costs less than now, with that death, the best first."""
    better = [(trial.change, trial.death) for trial in trials if trial.death and trial.death.cost < now.cost]
    return sorted(better, key=lambda pair: pair[1].cost)


def gain_text(death: Death) -> str:
    """What a death comes to after a change."""
    parts = ["promoted %s" % death.chosen, "%d follow" % len(death.outcome.below),
             "%d lost" % (len(death.lost) + len(death.cut_off)), death.gone_text]
    return ", ".join(parts)
