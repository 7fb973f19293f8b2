"""What the built program answers to two scenarios of one topology, with coordinates as the servers have them."""
from __future__ import annotations

import json
import os
import random
import re
import subprocess
import sys
from collections.abc import Callable, Iterator
from typing import Any

TOOLS = os.path.dirname(os.path.dirname(os.path.abspath(__file__)))
sys.path.insert(0, TOOLS)

from orch_tools.light_map import LightMap

PROGRAM = os.environ.get("ORCH") or os.path.join(os.path.dirname(TOOLS), "crates", "orch_cli", "out", "orch_cli")

SINGLE = ("move-up", "move-up-replicas", "take-siblings", "take-master", "repoint", "enable-gtid", "disable-gtid", "regroup-replicas", "recover",
          "reattach-replica", "start-replica")
PAIRED = ("move-below", "relocate", "relocate-replicas", "graceful-master-takeover", "move-gtid", "move-replicas-gtid")

Question = tuple[list[str], list[Any]]
Answer = tuple[int, str, str]
Speak = Callable[[str, str], str]


def is_built() -> bool:
    """Whether there is a program to ask."""
    return os.access(PROGRAM, os.X_OK)


def answer(program: str, scenario: dict[str, Any], words: list[str], turns: list[Any] | None = None) -> Answer:
    """What the program answers: its status, standard output and standard error."""
    text = json.dumps(dict(scenario, turns=scenario["turns"] + (turns or [])))
    done = subprocess.run([program, *words], input=text, capture_output=True, text=True, timeout=120)
    return done.returncode, done.stdout, done.stderr


def questions(dice: random.Random, scenario: dict[str, Any], many: int) -> list[Question]:
    """Each source's death, and so many other commands."""
    names = [server["name"] for server in scenario["servers"]]
    asked: list[Question] = [(["-c", "replication-analysis"], [["polls"]]), (["-c", "topology", "-i", names[0]], [["polls"]])]
    for name in sorted({server["source"] for server in scenario["servers"] if "source" in server}):
        death: list[Any] = [["fail", name], ["polls"]]
        asked += [(["-c", "recover", "-i", name], death), (["-c", "regroup-replicas", "-i", name], death), (["-c", "replication-analysis"], death)]
    more: list[Question] = [(["-c", command, "-i", i], [["polls"]]) for command in SINGLE for i in names]
    more += [(["-c", command, "-i", i, "-d", d], [["polls"]]) for command in PAIRED for i in names for d in names if i != d]
    return asked + dice.sample(more, min(many, len(more)))


def about(words: list[str]) -> str:
    """The server that a command is about, whose log its answer speaks of."""
    return words[words.index("-i") + 1] if "-i" in words else ""


# ---- coordinates of a scenario as the servers have them


def light_speak(told: dict[str, Any]) -> Speak:
    """Those of a light import. In a root's log they are the server's own. In another they are by the map, if somebody is there."""
    found = LightMap(told)

    def speak(server: str, text: str) -> str:
        return found.real(server, text) or text
    return speak


def exact_speak(told: dict[str, Any]) -> Speak:
    """Those of an exact import, by its map: after a transaction, or after the head of a file."""
    places = {(name, row[1]): row[2] for name, log in told.items() for row in log["transactions"]}

    def speak(server: str, text: str) -> str:
        if (server, text) in places or server not in told:
            return places.get((server, text), text)
        file, _, position = text.partition(":")
        number = int(file.rsplit(".", 1)[1])
        head = told[server]["headers"].get(str(number))
        return "mysql-bin.%06d:%s" % (number + told[server]["first_file"] - 1, head if position == "4" and head else position)
    return speak


def spoken(told: Answer, speak: Speak, server: str) -> Answer:
    """An answer with the servers' coordinates."""
    def put(found: re.Match[str]) -> str:
        return speak(server, found.group(0))
    return told[0], *(re.sub(r"mysql-bin\.\d+:\d+", put, text) for text in told[1:])  # type: ignore[return-value]


def plain(told: Answer, heads: set[str]) -> Answer:
    """An answer in which the position after a file's head is that at its start. The numbers of errant transactions, which are the scenario's, are
    left out."""
    def put(found: re.Match[str]) -> str:
        return found.group(1) + ":4" if found.group(0) in heads else found.group(0)
    return told[0], *(re.sub(r"Errant [0-9a-f-]+:\S+", "Errant", re.sub(r"(mysql-bin\.\d+):\d+", put, text)) for text in told[1:])  # type: ignore[return-value]


def placed(exact: dict[str, Any]) -> Speak:
    """The servers' coordinates as places: events between transactions, as MariaDB's logs have them, take no room."""
    ends = {name: [coord_key(row[2]) for row in log["transactions"]] for name, log in exact["map"].items()}

    def speak(server: str, text: str) -> str:
        return "place %d" % sum(end <= coord_key(text) for end in ends[server]) if server in ends else text
    return speak


def coord_key(text: str) -> tuple[int, int]:
    """A coordinate as a pair that is compared."""
    file, _, position = text.partition(":")
    return int(file.rsplit(".", 1)[1]), int(position)


def differences(light: dict[str, Any], exact: dict[str, Any], many: int, loosely: str,
                program: str = PROGRAM) -> Iterator[tuple[str, Answer, Answer]]:
    """The questions that both scenarios answer differently, with the answers. Loosely compared are coordinates by `places`, or those of the logs of
    `replicas` not at all."""
    speaks = light_speak(light["map"]), exact_speak(exact["map"])
    heads = {"mysql-bin.%06d:%d" % (int(file) + log["first_file"] - 1, head) for log in exact["map"].values() for file, head in log["headers"].items()}
    roots = {server["name"] for server in light["scenario"]["servers"] if "source" not in server}
    for words, turns in questions(random.Random(1), light["scenario"], many):
        told = [spoken(answer(program, way["scenario"], words, turns), speak, about(words)) for way, speak in ((light, speaks[0]), (exact, speaks[1]))]
        if loosely == "places":
            told = [spoken(one, placed(exact), about(words)) for one in told]
        if loosely == "replicas" and about(words) not in roots:
            told = [spoken(one, lambda *_: "C", "") for one in told]
        if plain(told[0], heads) != plain(told[1], heads):
            yield "%s %s" % (" ".join(words), turns), told[0], told[1]
