"""The death of servers, as the program recovers from it."""
from __future__ import annotations

import dataclasses
from typing import Any

from orch_tools.answers import Outcome, Server, Tables, outcome_of, tables_of
from orch_tools.near import counted
from orch_tools.program import NoAnswer, Program
from orch_tools.scenario import more_turns, short


@dataclasses.dataclass
class Death:
    """What becomes of a topology in which a server dies and is recovered. `refusal` is the program's line if nothing was done.
    `also` are the servers that die with it. `amount` is how much is gone, if a map has it."""
    dead: str
    also: tuple[str, ...]
    refusal: str | None
    outcome: Outcome
    before: dict[str, Server]
    after: dict[str, Server]
    amount: str = ""

    @property
    def chosen(self) -> str | None:
        """The server that the others are below when the recovery ends."""
        return self.outcome.chosen

    @property
    def gone(self) -> int:
        """How many transactions of a dead master the promoted server lacks."""
        if not self.outcome.promoted:
            return 0
        return max(0, self.before[self.dead].executed - self.after[self.outcome.promoted].executed)

    @property
    def gone_text(self) -> str:
        """How much is gone, as a text: what an import's map has of it, else transactions."""
        return "%s gone" % (self.amount or counted(self.gone, "transaction"))

    @property
    def lost(self) -> list[str]:
        """The lost replicas that didn't die."""
        return [name for name in self.outcome.lost if name not in self.also]

    @property
    def cut_off(self) -> list[str]:
        """The servers that stay below a lost one: they were below the dead one, and aren't below the chosen one."""
        if not self.chosen:
            return []
        below_before = [name for name in self.before if self.dead in sources_above(self.before, name)]
        return [name for name in below_before if name not in self.outcome.lost and name not in (self.chosen, *self.also)
                and self.chosen not in sources_above(self.after, name)]

    @property
    def had_replicas(self) -> bool:
        """Whether a server was below the dead one."""
        return any(server.source == self.dead for server in self.before.values())

    @property
    def cost(self) -> tuple[int, int, int]:
        """By which deaths are compared: nobody is promoted, transactions gone, servers lost."""
        return (0 if self.chosen else 1, self.gone, len(self.lost) + len(self.cut_off))

    def __str__(self) -> str:
        if not self.had_replicas:
            return "no replica is below it: nothing to recover"
        if not self.chosen:
            return "nobody is promoted: %s" % self.refusal
        head = "promoted %s" % self.outcome.promoted if self.outcome.promoted else "successor %s" % self.outcome.successor
        parts = [head, "%d follow" % len(self.outcome.below), "%d lost%s" % (len(self.lost), self.reasons())]
        parts += ["%d more below them" % len(self.cut_off)] if self.cut_off else []
        parts += [self.gone_text] if self.gone else []
        return ", ".join(parts)

    def reasons(self) -> str:
        """The lost replicas with their reasons, in brackets; nothing where nobody is lost."""
        found = ["%s %s" % (short(name), self.outcome.lost[name].why) for name in self.lost]
        return " (%s)" % "; ".join(found) if found else ""

    def as_json(self) -> dict[str, Any]:
        """The death as a report has it in JSON."""
        return {"server": self.dead, "also": list(self.also), "promoted": self.outcome.promoted, "successor": self.outcome.successor,
                "refused": self.refusal, "follow": self.outcome.below, "cut_off": self.cut_off, "gone": self.gone,
                "amount": self.gone_text.removesuffix(" gone"),
                "lost": [dataclasses.asdict(self.outcome.lost[name]) for name in self.lost]}

    def names(self) -> set[str]:
        """The servers that the answer names."""
        return {self.dead, *self.also, *self.outcome.below, *self.outcome.lost, *self.cut_off} | ({self.chosen} if self.chosen else set())


def sources_above(servers: dict[str, Server], name: str) -> list[str]:
    """The servers from which a server gets its transactions, through attached sources, from its own source up."""
    found: list[str] = []
    server = servers.get(name)
    while server and server.source and not server.detached and server.source not in found:
        found.append(server.source)
        server = servers.get(server.source)
    return found


def dying(data: dict[str, Any], names: tuple[str, ...]) -> dict[str, Any]:
    """The scenario in which these servers die, and orchestrator polls."""
    return more_turns(data, [["fail", name] for name in names] + [["polls"]])


def death_of(program: Program, data: dict[str, Any], before: dict[str, Server], dead: str, also: tuple[str, ...] = ()) -> Death:
    """The death of a server, with others, and its recovery by hand. NoAnswer where the scenario has a fault."""
    answer = program.report(dying(data, (dead, *also)), "-c", "recover", "-i", dead, "--tables")
    told = tables_of(answer.out)
    return Death(dead, also, answer.err.strip() or None, outcome_of(told.lines), before, told.servers)


def state_after(program: Program, data: dict[str, Any]) -> Tables:
    """The tables after the scenario's turns."""
    answer = program.ask(data, "-c", "run")
    if not answer.has_report:
        raise NoAnswer(answer.reason)
    return tables_of(answer.out)
