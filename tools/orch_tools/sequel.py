"""Commands one after another: the state after one is the state before the next."""
from __future__ import annotations

import dataclasses
import json
import re
import shlex
from collections.abc import Callable
from typing import Any

from orch_tools.command_line import CommandLine, explained
from orch_tools.program import Answer, NoAnswer, Program
from orch_tools.scenario import full, more_turns

KEYS = {"-i": "i", "-d": "d", "--promotion-rule": "rule", "--duration": "duration", "--reason": "reason", "--owner": "owner",
        "--pattern": "pattern"}
JOB = re.compile(r"\d+ job (\d+): (\w+)")
FIRST_TURNS, MOST_JOB_TURNS = 32, 20000


class Unread(Exception):
    """A text is no command. The lines have the reason."""


@dataclasses.dataclass
class Step:
    """A command, what the program answered, and the scenario whose turns end with the command's."""
    words: list[str]
    answer: Answer
    data: dict[str, Any]

    @property
    def command(self) -> str:
        """The command as it was given."""
        return " ".join(self.words)

    @property
    def lines(self) -> list[str]:
        """The answer's lines: what was done, or why it wasn't."""
        return self.answer.out.splitlines() + self.answer.err.splitlines()

    @property
    def is_done(self) -> bool:
        """Whether the command was carried out."""
        return self.answer.status == 0

    def as_json(self) -> dict[str, Any]:
        """The step as a report has it in JSON."""
        return {"command": self.command, "status": self.answer.status, "lines": self.lines}


def words_of(text: str) -> list[str]:
    """The arguments of a command that is written as one text, with or without -c. Unread where the program wouldn't take them."""
    try:
        words = shlex.split(text)
    except ValueError as fault:
        raise Unread("`%s`: %s" % (text, fault)) from None
    if words and not words[0].startswith("-"):
        words = ["-c", *words]
    line = CommandLine(words)
    if line.every_mistake() or line.known is None:
        raise Unread("\n".join(["`%s`" % text, *explained(words)]))
    if line.known.group == "scenario":
        raise Unread("`%s`: `%s` is no command that follows another" % (text, line.command))
    return words


def turn_of(words: list[str]) -> list[Any]:
    """A command as a turn of a scenario."""
    line = CommandLine(words)
    values = {KEYS[name]: value for name, value in line.values.items() if name in KEYS}
    return ["command", line.command, {key: full(value) if key in "id" else value for key, value in values.items()}]


def job_begun(program: Program, data: dict[str, Any]) -> str | None:
    """The number of the job that the scenario's last turn began."""
    lines = [line for line in program.report(data, "-c", "run").out.splitlines() if re.match(r"\d+ ", line)]
    found = re.search(r": begun (\d+)$", lines[-1]) if lines else None
    return found[1] if found else None


def turns_of_job(program: Program, data: dict[str, Any], job: str) -> list[list[Any]]:
    """The turns by which a single command runs its job to its end: one of the job, and after each a round."""
    number = FIRST_TURNS
    while number <= MOST_JOB_TURNS:
        pairs: list[list[Any]] = [["job", int(job)], ["round"]] * number
        answer = program.report(more_turns(data, pairs), "-c", "run")
        told = [found[2] for found in map(JOB.match, answer.out.splitlines()) if found and found[1] == job]
        ended = [place for place, word in enumerate(told[-number:], 1) if word != "going"]
        if ended:
            return pairs[:2 * ended[0]]
        number *= 2
    raise NoAnswer("job %s goes on for more than %d turns" % (job, MOST_JOB_TURNS))


def step_of(program: Program, data: dict[str, Any], words: list[str]) -> Step:
    """One command on a state."""
    answer = program.report(data, *words)
    after, command = more_turns(data, [turn_of(words)]), CommandLine(words).known
    job = job_begun(program, after) if command and command.begins_job else None
    return Step(words, answer, more_turns(after, turns_of_job(program, after, job)) if job else after)


def steps_of(program: Program, data: dict[str, Any], commands: list[list[str]], ended: Callable[[], None]) -> list[Step]:
    """Commands one after another. The last step is the first one that wasn't carried out, if there is one."""
    steps: list[Step] = []
    for words in commands:
        steps.append(step_of(program, steps[-1].data if steps else data, words))
        ended()
        if not steps[-1].is_done:
            break
    return steps


def flat_step(program: Program, data: dict[str, Any], words: list[str]) -> Step:
    """One command, whose data are the servers after it as the program dumps them."""
    answer = program.report(data, *(word for word in words if word != "--tables"), "--dump")
    if not answer.out:
        raise NoAnswer(answer.reason)
    return Step(words, dataclasses.replace(answer, out=""), json.loads(answer.out))


def flat_steps_of(program: Program, data: dict[str, Any], commands: list[list[str]], ended: Callable[[], None]) -> list[Step]:
    """The same, and the data of the last step are the servers alone."""
    steps = steps_of(program, data, commands[:-1], ended)
    last = steps.pop().words if steps and not steps[-1].is_done else commands[-1]
    steps.append(flat_step(program, steps[-1].data if steps else data, last))
    ended()
    return steps
