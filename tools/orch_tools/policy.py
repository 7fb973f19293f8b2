"""Policies: what every death of a kind must come to."""
from __future__ import annotations

import dataclasses
import fnmatch
import json
from typing import Any

from orch_tools.clusters import labels
from orch_tools.deaths import Death
from orch_tools.json_text import plain
from orch_tools.near import counted, did_you_mean
from orch_tools.scenario import full

KINDS = ("masters", "intermediates", "all", "pairs")
KEYS = {"name": str, "deaths": str, "clusters": list, "servers": list, "promotes": bool, "promotes_in": list, "lost": int, "gone": int}


class Unread(Exception):
    """The file is no policy, for this reason."""


@dataclasses.dataclass
class Rule:
    """One rule: of which deaths it speaks, and what they must come to."""
    name: str
    deaths: str
    clusters: list[str]
    servers: list[str]
    promotes: bool
    promotes_in: list[str]
    lost: int | None
    gone: int | None

    def speaks_of(self, death: Death, cluster: str) -> bool:
        """Whether the rule is about this death."""
        is_master = death.before[death.dead].source is None
        kind = {"masters": is_master, "intermediates": not is_master, "all": True, "pairs": True}[self.deaths]
        return (death.had_replicas and kind and bool(death.also) == (self.deaths == "pairs")
                and any(fnmatch.fnmatchcase(cluster, form) for form in self.clusters)
                and any(fnmatch.fnmatchcase(death.dead, full(form)) for form in self.servers))

    def failures(self, death: Death, centres: dict[str, str]) -> list[str]:
        """What of the rule a death doesn't keep."""
        found = []
        if not death.chosen:
            return ["nobody is promoted: %s" % death.refusal] if self.promotes or self.promotes_in else []
        if self.promotes_in and centres.get(death.chosen, "") not in self.promotes_in:
            found.append("%s is in `%s`, not in %s" % (death.chosen, centres.get(death.chosen, ""), " or ".join(self.promotes_in)))
        lost = len(death.lost) + len(death.cut_off)
        if self.lost is not None and lost > self.lost:
            found.append("%d lost, at most %d" % (lost, self.lost))
        if self.gone is not None and death.gone > self.gone:
            found.append("%s gone, at most %d" % (counted(death.gone, "transaction"), self.gone))
        return found


def rule_of(row: Any, number: int) -> Rule:
    """A rule as it is written. Unread where it isn't one."""
    here = "rule %d" % number
    if not isinstance(row, dict):
        raise Unread("%s is no object" % here)
    for key, value in row.items():
        if key not in KEYS:
            raise Unread("%s: there is no key `%s`.%s" % (here, key, did_you_mean(key, KEYS)))
        if not isinstance(value, KEYS[key]) or isinstance(value, bool) != (KEYS[key] is bool):
            raise Unread("%s: `%s` can't be %s" % (here, key, json.dumps(value)))
        if isinstance(value, list) and not all(isinstance(text, str) for text in value):
            raise Unread("%s: `%s` is a list of texts" % (here, key))
    kind = row.get("deaths", "masters")
    if kind not in KINDS:
        raise Unread("%s: `deaths` is one of %s.%s" % (here, ", ".join(KINDS), did_you_mean(kind, KINDS)))
    return Rule(row.get("name", here), kind, row.get("clusters", ["*"]), row.get("servers", ["*:*"]), row.get("promotes", False),
                row.get("promotes_in", []), row.get("lost"), row.get("gone"))


def read(path: str) -> list[Rule]:
    """The rules of a policy's file. Unread where it isn't one."""
    try:
        with open(path, encoding="utf-8") as file:
            value = json.loads(plain(file.read()))
    except OSError as fault:
        raise Unread(fault.strerror) from None
    except ValueError as fault:
        raise Unread("not JSON: %s" % fault) from None
    if not isinstance(value, dict) or value.get("version") != 1 or not isinstance(value.get("rules"), list):
        raise Unread('a policy is {"version": 1, "rules": [..]}')
    return [rule_of(row, number) for number, row in enumerate(value["rules"], 1)]


def centres_of(data: dict[str, Any]) -> dict[str, str]:
    """For each server its data centre."""
    return {full(server["name"]): server.get("dc", "") for server in data["servers"]}


def failures_of(rules: list[Rule], deaths: list[Death], data: dict[str, Any]) -> list[dict[str, str]]:
    """Each rule with each death that doesn't keep it, and why."""
    cluster, centres = labels(data), centres_of(data)
    found = []
    for rule in rules:
        for death in deaths:
            if rule.speaks_of(death, cluster[death.dead]):
                why = "; ".join(rule.failures(death, centres))
                found += [{"rule": rule.name, "server": " with ".join((death.dead, *death.also)), "why": why}] if why else []
    return found
