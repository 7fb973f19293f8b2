"""The program's commands and options in one table. Help, hints, completion and the man page are made from it."""
from __future__ import annotations

import dataclasses

FOLLOWER = ("move-up", "move-up-replicas", "move-below", "repoint", "take-siblings", "take-master", "move-gtid", "move-replicas-gtid",
            "enable-gtid", "disable-gtid", "relocate", "relocate-replicas", "match", "match-up", "match-replicas", "detach-replica",
            "reattach-replica", "reset-replica", "start-replica", "stop-replica", "restart-replica", "set-read-only", "set-writeable",
            "graceful-master-takeover")

RULES = ("prefer", "neutral", "prefer_not", "must_not")


@dataclasses.dataclass(frozen=True)
class Option:
    """An option of the program. `kind` is what its value reads as; a flag has the kind `flag`."""
    name: str
    kind: str
    value: str
    about: str
    low: int = 0
    high: int = 0


@dataclasses.dataclass(frozen=True)
class Command:
    """A command of the program: the options that it needs, those that it may use besides, and what it does."""
    name: str
    group: str
    needs: tuple[str, ...]
    uses: tuple[str, ...]
    about: str

    @property
    def begins_job(self) -> bool:
        """Whether it changes servers, and so takes --wait."""
        return self.group in ("move", "recover", "server")

    def synopsis(self) -> str:
        """Its command line."""
        words = ["orch -c " + self.name]
        words += [synopsis_of(name) for name in self.needs]
        words += ["[%s]" % synopsis_of(name) for name in self.uses]
        words += [] if self.name == "generate" else ["< SCENARIO"]
        return " ".join(words)


OPTIONS = (
    Option("-c", "command", "COMMAND", "the command"),
    Option("-i", "name", "HOST[:PORT]", "the server that the command is about"),
    Option("-d", "name", "HOST[:PORT]", "the destination: the new source, or the server to promote"),
    Option("--scenario", "path", "PATH", "the scenario's file; without it the scenario is read from standard input"),
    Option("--db", "path", "PATH", "the database file that keeps what orchestrator knows and decided; without it, memory"),
    Option("--pattern", "pattern", "REGEX", "a regular expression over HOST:PORT"),
    Option("--tables", "flag", "", "after the answer, print the tables of all servers and recoveries"),
    Option("--plan", "flag", "", "print the command's plan as SQL statements, and carry nothing out"),
    Option("--dump", "flag", "", "print the servers after the command as a new scenario, and the answer on standard error"),
    Option("--summary", "flag", "", "of a run, print four lines of counts instead of its replies and tables"),
    Option("--wait", "number", "N", "how many waits each waiting step has (1000)", 1, 10000),
    Option("--promotion-rule", "rule", "RULE", "prefer, neutral, prefer_not or must_not"),
    Option("--duration", "duration", "TIME", "digits and at most one of s, m, h, d, w (600 seconds)", 1, 31536000),
    Option("--reason", "text", "TEXT", "why, at most 255 bytes"),
    Option("--owner", "text", "TEXT", "by whom, at most 255 bytes"),
    Option("--pollers", "number", "N", "threads that poll in a live run (2)", 1, 16),
    Option("--workers", "number", "N", "threads that carry commands out in a live run (2)", 1, 16),
    Option("--seed", "number", "N", "the seed of the drawn scenario (1)", 0, 2**64 - 1),
    Option("--servers", "number", "N", "how many servers are drawn (10)", 1, 1000),
    Option("--turns", "number", "N", "how many turns are drawn (100)", 0, 1000000),
)

PLAN = ("--plan", "--dump", "--tables", "--wait")
SHOW = ("--dump", "--tables")

COMMANDS = (
    Command("run", "scenario", (), ("--summary", "--wait"), "run the scenario's turns, and print each reply and the tables"),
    Command("live", "scenario", (), ("--pollers", "--workers", "--wait"), "run the scenario in threads"),
    Command("dump", "scenario", (), (), "run the turns, and print the servers as a new scenario"),
    Command("generate", "scenario", (), ("--seed", "--servers", "--turns"), "draw a scenario: the same one for the same numbers"),
    Command("topology", "ask", ("-i",), SHOW, "print the trees of the server's cluster"),
    Command("clusters", "ask", (), SHOW, "print the label of each cluster"),
    Command("all-instances", "ask", (), SHOW, "print each server of the book"),
    Command("find", "ask", ("--pattern",), SHOW, "print each server whose HOST:PORT has the pattern"),
    Command("which-master", "ask", ("-i",), SHOW, "print the server's source, or none"),
    Command("which-replicas", "ask", ("-i",), SHOW, "print the servers that are attached to it"),
    Command("which-cluster", "ask", ("-i",), SHOW, "print the label of its cluster"),
    Command("which-cluster-instances", "ask", ("-i",), SHOW, "print the servers of its cluster"),
    Command("replication-analysis", "ask", (), SHOW, "print each server that has a problem, and its analysis code"),
    Command("audit-recoveries", "ask", (), SHOW, "print each recovery that was begun"),
    Command("check-global-recoveries", "ask", (), SHOW, "print whether recoveries may begin by themselves"),
    Command("discover", "decide", ("-i",), SHOW, "read the server, and put it into the book"),
    Command("forget", "decide", ("-i",), SHOW, "take the server out of the book"),
    Command("begin-downtime", "decide", ("-i",), ("--duration", "--reason", "--owner") + SHOW, "let no recovery of the server begin by itself"),
    Command("end-downtime", "decide", ("-i",), SHOW, "end the server's downtime"),
    Command("register-candidate", "decide", ("-i", "--promotion-rule"), SHOW, "set the server's promotion rule for an hour"),
    Command("disable-global-recoveries", "decide", (), SHOW, "let no recovery begin by itself"),
    Command("enable-global-recoveries", "decide", (), SHOW, "let recoveries begin by themselves again"),
    Command("ack-cluster-recoveries", "decide", ("-i",), SHOW, "acknowledge the recoveries of the server's cluster"),
    Command("move-up", "move", ("-i",), PLAN, "move the server up, below its source's source"),
    Command("move-up-replicas", "move", ("-i",), PLAN, "move each replica of the server up, below the server's source"),
    Command("move-below", "move", ("-i", "-d"), PLAN, "move the server below its sibling"),
    Command("repoint", "move", ("-i",), ("-d",) + PLAN, "attach the server to its source anew; with auto position to any other"),
    Command("take-siblings", "move", ("-i",), PLAN, "move each sibling of the server below it"),
    Command("take-master", "move", ("-i",), PLAN, "let the server and its source change places"),
    Command("move-gtid", "move", ("-i", "-d"), PLAN, "move the server below any other, by GTIDs"),
    Command("move-replicas-gtid", "move", ("-i", "-d"), PLAN, "move each replica of the server below the destination, by GTIDs"),
    Command("enable-gtid", "move", ("-i",), PLAN, "let the server find its position by GTIDs"),
    Command("disable-gtid", "move", ("-i",), PLAN, "let the server go on by coordinates"),
    Command("relocate", "move", ("-i", "-d"), PLAN, "move the server below the destination by whatever path there is"),
    Command("relocate-replicas", "move", ("-i", "-d"), PLAN, "move each replica of the server below the destination"),
    Command("match", "move", ("-i", "-d"), PLAN, "move the server below any other where their logs match (Pseudo-GTID)"),
    Command("match-up", "move", ("-i",), PLAN, "move the server up where the logs match"),
    Command("match-replicas", "move", ("-i", "-d"), PLAN, "move each replica of the server below the destination where the logs match"),
    Command("regroup-replicas", "move", ("-i",), PLAN, "gather the server's replicas below the best of them"),
    Command("regroup-replicas-pgtid", "move", ("-i",), PLAN, "gather the server's replicas where their logs match"),
    Command("recover", "recover", ("-i",), PLAN, "recover from the death of a master or an intermediate master"),
    Command("graceful-master-takeover", "recover", ("-i", "-d"), PLAN, "promote the replica -d in place of the living master -i"),
    Command("detach-replica", "server", ("-i",), PLAN, "stop the server's replication, and keep its source"),
    Command("reattach-replica", "server", ("-i",), PLAN, "attach a detached server again"),
    Command("reset-replica", "server", ("-i",), PLAN, "take the server's source away"),
    Command("start-replica", "server", ("-i",), PLAN, "start the server's replication threads"),
    Command("stop-replica", "server", ("-i",), PLAN, "stop the server's replication threads"),
    Command("restart-replica", "server", ("-i",), PLAN, "stop and start the server's replication threads"),
    Command("set-read-only", "server", ("-i",), PLAN, "let the server refuse clients' writes"),
    Command("set-writeable", "server", ("-i",), PLAN, "let the server take clients' writes"),
)

GROUPS = {"scenario": "Scenarios", "ask": "Questions", "decide": "Decisions", "move": "Moves", "recover": "Recoveries",
          "server": "One server"}

# What a stranger writes, and the argument that is meant.
INSTEAD = {"--help": "--help", "-h": "--help", "--instance": "-i", "--destination": "-d", "--command": "-c", "--file": "--scenario",
           "--input": "--scenario", "--database": "--db", "--table": "--tables", "--dry-run": "--plan", "--noop": "--plan",
           "--format": "--tables", "--json": "--tables", "--rule": "--promotion-rule", "--regex": "--pattern", "--timeout": "--wait",
           "match-below": "match", "rematch": "match-up", "match-up-replicas": "match-replicas", "move-replicas": "move-replicas-gtid",
           "failover": "recover", "force-master-failover": "recover", "force-master-takeover": "graceful-master-takeover",
           "takeover": "graceful-master-takeover", "promote": "graceful-master-takeover", "detach": "detach-replica",
           "reattach": "reattach-replica", "reset": "reset-replica", "start": "start-replica", "stop": "stop-replica",
           "restart": "restart-replica", "set-writable": "set-writeable", "start-slave": "start-replica", "stop-slave": "stop-replica",
           "reset-slave": "reset-replica", "detach-slave": "detach-replica", "reattach-slave": "reattach-replica",
           "restart-slave": "restart-replica", "which-slaves": "which-replicas", "relocate-slaves": "relocate-replicas",
           "regroup-slaves": "regroup-replicas", "analysis": "replication-analysis", "instances": "all-instances"}

BY_NAME = {command.name: command for command in COMMANDS}
OPTION_OF = {option.name: option for option in OPTIONS}


def synopsis_of(name: str) -> str:
    """An option with its value, as it is written in a command line."""
    option = OPTION_OF[name]
    return (option.name + " " + option.value).rstrip()


def has_plan(name: str) -> bool:
    """Whether the program that this table speaks of prints a plan of the command."""
    command = BY_NAME.get(name)
    return command is not None and "--plan" in command.uses
