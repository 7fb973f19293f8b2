"""What is wrong with a command line of the program. The program itself prints `usage` for each mistake."""
from __future__ import annotations

import dataclasses
import os
import re

from orch_tools import table
from orch_tools.near import did_you_mean, nearest

NAME = re.compile(r"[A-Za-z0-9._-]{1,255}(?::(?P<port>[1-9][0-9]{0,4}))?")
SECONDS = {"": 1, "s": 1, "m": 60, "h": 3600, "d": 86400, "w": 604800}
SUBCOMMANDS = ("import", "outage", "sweep", "compare", "then", "draw", "runbook", "follow", "explain", "completion", "man", "help")
LARGEST_DRAWN = 4000000


@dataclasses.dataclass(frozen=True)
class Mistake:
    """An argument that is wrong, and what is wrong with it."""
    word: str
    says: str


class CommandLine:
    """The arguments as they were given: the value of each option, and the mistakes of their form."""

    def __init__(self, words: list[str]) -> None:
        self.values: dict[str, str] = {}
        self.mistakes: list[Mistake] = []
        rest = list(words)
        while rest:
            self.take(rest.pop(0), rest)

    def take(self, word: str, rest: list[str]) -> None:
        """Takes one argument, and its value from those after it."""
        name, joined = split(word)
        option = table.OPTION_OF.get(name)
        if option is None:
            self.mistakes.append(Mistake(word, self.unknown(word, rest)))
        elif option.kind == "flag":
            self.give(option.name, "", "`%s` takes no value" % name if joined is not None else None)
        elif joined is not None:
            self.give(option.name, joined, None)
        elif not rest or (rest[0].startswith("-") and rest[0] != "-"):
            self.give(option.name, "", "`%s` has no value: %s" % (name, table.synopsis_of(name)))
        else:
            self.give(option.name, rest.pop(0), None)

    def give(self, name: str, value: str, fault: str | None) -> None:
        """Notes an option's value."""
        if fault:
            self.mistakes.append(Mistake(name, fault + "."))
        elif name in self.values:
            self.mistakes.append(Mistake(name, "`%s` is given twice." % name))
        self.values.setdefault(name, value)

    def unknown(self, word: str, rest: list[str]) -> str:
        """The explanation of an argument that no option has."""
        if word.startswith("-") and word != "-":
            meant = table.INSTEAD.get(word) or nearest(word, table.OPTION_OF)
            value = rest.pop(0) if rest and not rest[0].startswith("-") else ""
            if meant in table.OPTION_OF:
                self.values.setdefault(meant, value)
            return "there is no option `%s`.%s" % (word, " Did you mean `%s`?" % meant if meant else "")
        if word in table.BY_NAME or word in table.INSTEAD:
            return "a command is given after -c: did you mean `-c %s`?" % table.INSTEAD.get(word, word)
        if word.endswith(".json") or os.path.exists(word):
            return "`%s` isn't expected here: give a scenario's path as `--scenario %s`, or on standard input." % (word, word)
        return "`%s` isn't expected here.%s" % (word, did_you_mean(word, [*SUBCOMMANDS, *table.BY_NAME]))

    @property
    def command(self) -> str | None:
        """The text of -c."""
        return self.values.get("-c")

    @property
    def known(self) -> table.Command | None:
        """The command that -c names, if the program has it."""
        return table.BY_NAME.get(self.command or "")

    def reads_scenario(self) -> bool:
        """Whether the program reads a scenario: not for `generate`, nor where the arguments are wrong."""
        return self.command != "generate" and not self.every_mistake()

    def every_mistake(self) -> list[Mistake]:
        """All mistakes: of the form, of the command and of the values."""
        return self.mistakes + mistakes_of_command(self) + mistakes_of_values(self)


def split(word: str) -> tuple[str, str | None]:
    """An argument as an option and the value that is joined to it."""
    if word.startswith("--") and "=" in word:
        name, _, value = word.partition("=")
        return name, value
    if re.match(r"-[cid].", word):
        return word[:2], word[2:].removeprefix("=")
    return word, None


def mistakes_of_command(line: CommandLine) -> list[Mistake]:
    """What is wrong with the command, and with what it needs."""
    if line.command is None:
        asked = [mistake for mistake in line.mistakes if "after -c" in mistake.says]
        return [] if asked else [Mistake("-c", "the command is missing: -c COMMAND.")]
    command = table.BY_NAME.get(line.command)
    if command is None:
        meant = table.INSTEAD.get(line.command)
        question = " Did you mean `%s`?" % meant if meant else did_you_mean(line.command, table.BY_NAME)
        return [Mistake(line.command, "`%s` (after -c) is no command.%s" % (line.command, question))]
    found = [Mistake(name, "`%s` needs %s." % (command.name, table.synopsis_of(name))) for name in command.needs if name not in line.values]
    if "--plan" in line.values and not table.has_plan(command.name):
        found.append(Mistake("--plan", "`%s` has no plan (--plan): it moves and changes no server." % command.name))
    return found + mistakes_of_dump(line, command)


def mistakes_of_dump(line: CommandLine, command: table.Command) -> list[Mistake]:
    """What is wrong with --dump: `run` and its like have none, and nothing else may be asked for on standard output."""
    if "--dump" not in line.values:
        return []
    if command.group == "scenario":
        return [Mistake("--dump", "`%s` takes no --dump: `-c dump` prints the servers after the turns." % command.name)]
    return [Mistake(name, "`--dump` and `%s` don't go together: both are printed on standard output." % name)
            for name in ("--plan", "--tables") if name in line.values]


def mistakes_of_values(line: CommandLine) -> list[Mistake]:
    """What is wrong with the values of the options."""
    found = []
    for name, value in line.values.items():
        option = table.OPTION_OF[name]
        says = FAULTS[option.kind](value, option) if option.kind in FAULTS else None
        if says and not any(mistake.word == name for mistake in line.mistakes):
            found.append(Mistake(value, "`%s` (after %s) %s" % (value, name, says)))
    return found or drawn_too_large(line)


def drawn_too_large(line: CommandLine) -> list[Mistake]:
    """Of `generate`: that what is to be drawn is too large."""
    if line.command != "generate" or line.mistakes:
        return []
    servers, turns = int(line.values.get("--servers", "10")), int(line.values.get("--turns", "100"))
    size = servers * (20 * ((servers + 9) // 10) + turns)
    says = "the servers times 20 for each ten of them and the turns are %d; at most %d are drawn." % (size, LARGEST_DRAWN)
    return [Mistake("--turns", says)] if size > LARGEST_DRAWN else []


def name_fault(value: str, _option: table.Option) -> str | None:
    """What is wrong with a server's name."""
    found = NAME.fullmatch(value)
    if not found:
        odd = next((sign for sign in value if not re.match(r"[A-Za-z0-9._:-]", sign)), None)
        more = ": it has %s" % ("a blank" if odd == " " else "`%s`" % odd) if odd else ""
        return "is no server's name, HOST or HOST:PORT%s." % more
    return "has a port above 65535." if found["port"] and int(found["port"]) > 65535 else None


def whole(digits: str) -> int:
    """A number that may have any count of digits, cut off far above all that is taken."""
    return int(digits.lstrip("0")[:25] or "0")


def number_fault(value: str, option: table.Option) -> str | None:
    """What is wrong with a number."""
    if not re.fullmatch("[0-9]+", value):
        return "is no number: digits alone are taken."
    return None if option.low <= whole(value) <= option.high else "is out of range: %d to %d." % (option.low, option.high)


def duration_fault(value: str, option: table.Option) -> str | None:
    """What is wrong with a duration."""
    found = re.fullmatch("([0-9]+)([smhdw]?)", value)
    if not found:
        near = re.match(r"([0-9]+)\s*([smhdw])", value)
        return "is no duration: digits and at most one of s, m, h, d, w.%s" % (" Did you mean `%s%s`?" % near.groups() if near else "")
    seconds = whole(found[1]) * SECONDS[found[2]]
    return None if option.low <= seconds <= option.high else "is out of range: %d to %d seconds." % (option.low, option.high)


def rule_fault(value: str, _option: table.Option) -> str | None:
    """What is wrong with a promotion rule."""
    if value in table.RULES:
        return None
    if value == "must":
        return "is no promotion rule: `must` isn't taken. Did you mean `prefer`?"
    return "is no promotion rule: %s.%s" % (", ".join(table.RULES), did_you_mean(value, table.RULES))


def pattern_fault(value: str, _option: table.Option) -> str | None:
    """What is wrong with a regular expression, as far as Python's form of them agrees with the program's."""
    try:
        re.compile(value)
    except (re.error, RecursionError, OverflowError) as fault:
        return "is no regular expression: %s." % fault
    return None


def text_fault(value: str, _option: table.Option) -> str | None:
    """What is wrong with a text."""
    size = len(value.encode("utf-8", "surrogateescape"))
    return "has %d bytes; at most 255 are taken." % size if size > 255 else None


FAULTS = {"name": name_fault, "number": number_fault, "duration": duration_fault, "rule": rule_fault, "pattern": pattern_fault,
          "text": text_fault}


def meant_by(word: str) -> table.Command | None:
    """The command of this word, or the one that may have been meant."""
    return table.BY_NAME.get(word) or table.BY_NAME.get(table.INSTEAD.get(word) or nearest(word, table.BY_NAME) or "")


def explained(words: list[str]) -> list[str]:
    """The explanation of a command line that the program doesn't take."""
    line = CommandLine(words)
    mistakes = line.every_mistake()
    lines = ["orch: " + mistake.says for mistake in mistakes]
    command = meant_by(line.command or "")
    if not lines and command and "--plan" in line.values:
        lines.append("orch: this build of the program prints no plan of `%s` (--plan)." % command.name)
    if not lines:
        lines.append("orch: the program doesn't take these arguments: %s" % " ".join(words))
    if command:
        return lines + ["  " + command.synopsis(), "      " + command.about]
    return lines + ["  orch -c COMMAND [-i HOST[:PORT]] [-d HOST[:PORT]] [options] < SCENARIO", "  orch --help lists the commands."]
