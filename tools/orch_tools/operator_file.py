"""What no server knows and yet decides who is promoted: data centres, promotion rules, downtimes, filters, block periods and hooks, from a file of the
operator's own, or from orchestrator.conf.json."""
from __future__ import annotations

import dataclasses
import json
import re
from typing import Any

from orch_tools.client import address, full
from orch_tools.notes import Notes

RULES = ("prefer", "neutral", "prefer_not", "must_not")
HOOKS = ("pre_failover", "post_failover", "post_unsuccessful")
OWN_KEYS = ("servers", "filters", "block", "blocks", "aliases", "hooks")
SERVER_KEYS = ("dc", "rule", "downtime")
PLACEHOLDERS = ("failureType", "failedHost", "failedPort", "failureCluster", "failureClusterAlias", "successorHost", "successorPort", "isSuccessful")
DURATION = r"[0-9]+[smhdw]?"

# Settings of orchestrator that decide something and that no scenario has.
UNMODELLED = ("PreventCrossDataCenterMasterFailover", "PreventCrossRegionMasterFailover", "FailMasterPromotionOnLagMinutes",
              "FailMasterPromotionIfSQLThreadNotUpToDate", "DelayMasterPromotionIfSQLThreadNotUpToDate", "CoMasterRecoveryMustPromoteOtherCoMaster",
              "OnFailureDetectionProcesses", "PostIntermediateMasterFailoverProcesses", "DetectClusterAliasQuery", "DetectDataCenterQuery",
              "DetectPromotionRuleQuery", "PreGracefulTakeoverProcesses", "PostGracefulTakeoverProcesses")


class Unfit(Exception):
    """A file that isn't an operator's, or a value that can't be there."""


@dataclasses.dataclass
class Operator:
    """What the operator's files say. `servers` are what names or /patterns/ have, the later ones before the earlier; `settings` go into the scenario."""
    servers: list[tuple[str, dict[str, Any]]] = dataclasses.field(default_factory=list)
    settings: dict[str, Any] = dataclasses.field(default_factory=dict)
    alias_patterns: list[tuple[str, str]] = dataclasses.field(default_factory=list)
    centre_pattern: str | None = None
    notes: Notes = dataclasses.field(default_factory=Notes)

    def of(self, name: str, key: str) -> Any:
        """What a server has of `dc`, `rule` or `downtime`; None if nobody gives it."""
        for words, value in reversed(self.servers):
            if key in value and matches(words, name):
                return value[key]
        if key == "dc" and self.centre_pattern:
            found = re.search(self.centre_pattern, address(name)[0])
            return found.group(1) if found and found.groups() else None
        return None

    def aliases(self, labels: list[str]) -> dict[str, str]:
        """The aliases of these clusters, and those that name a cluster in full."""
        found = {label: alias for label in labels for pattern, alias in self.alias_patterns if re.search(pattern, label)}
        return {**found, **self.settings.get("aliases", {})}

    def put(self, scenario: dict[str, Any]) -> dict[str, Any]:
        """A scenario with all this: downtimes begin with it, after its own turns."""
        turns = list(scenario["turns"])
        for server in scenario["servers"]:
            name = server["name"]
            server.update({key: value for key, value in (("rule", self.of(name, "rule")), ("dc", self.of(name, "dc"))) if value})
            if self.of(name, "downtime"):
                turns.append(["command", "begin-downtime", {"i": name, **self.of(name, "downtime")}])
        aliases = self.aliases(sorted({server["cluster"] for server in scenario["servers"] if "cluster" in server}))
        head = {key: value for key, value in scenario.items() if key not in ("servers", "turns")}
        settings = {**self.settings, **({"aliases": aliases} if aliases else {})}
        return {**head, **settings, "servers": scenario["servers"], "turns": turns}

    def note_absent(self, names: list[str]) -> None:
        """Notes what isn't given for these servers, and what is given for others."""
        for words, _ in self.servers:
            if not any(matches(words, name) for name in names):
                self.notes.add("no operator's data", "%s is none of the servers" % words)
        absent = [what for key, what in (("dc", "data centres"), ("rule", "promotion rules")) if not any(self.of(name, key) for name in names)]
        absent += [what for key, what in (("filters", "filters of recoveries"), ("block", "a block period")) if key not in self.settings]
        if absent:
            self.notes.add("no operator's data", "not given: %s (--operator FILE, --rule, --dc). They decide who is promoted, and whether anybody is"
                           % " and ".join([", ".join(absent[:-1]), absent[-1]] if len(absent) > 1 else absent))


def matches(words: str, name: str) -> bool:
    """Whether a key of `servers` means a server: its name, or a pattern between slashes."""
    if len(words) > 1 and words[0] == words[-1] == "/":
        return bool(re.search(words[1:-1], name))
    return full(words) == name


def wanted(is_so: bool, where: str, what: str) -> None:
    """Unfit if it isn't so."""
    if not is_so:
        raise Unfit("%s: %s" % (where, what))


def check_pattern(pattern: Any, where: str) -> None:
    """A pattern must be one of Python's."""
    wanted(isinstance(pattern, str), where, "a text is wanted")
    try:
        re.compile(pattern)
    except re.error as reason:
        raise Unfit("%s: no pattern: %s (%s)" % (where, pattern, reason)) from None


def check_server(words: str, value: Any, where: str) -> None:
    """What a server may have."""
    wanted(isinstance(value, dict), where, "an object is wanted")
    for key in value:
        wanted(key in SERVER_KEYS, where, "unknown key %s; there are %s" % (key, ", ".join(SERVER_KEYS)))
    if words.startswith("/"):
        check_pattern(words.strip("/"), where)
    wanted(value.get("rule", "neutral") in RULES, where + ": rule", "one of %s" % ", ".join(RULES))
    wanted(isinstance(value.get("dc", ""), str), where + ": dc", "a text is wanted")
    downtime = value.get("downtime", {"duration": "1h"})
    is_fit = isinstance(downtime, dict) and re.fullmatch(DURATION, str(downtime.get("duration", ""))) and set(downtime) <= {"duration", "reason", "owner"}
    wanted(bool(is_fit), where + ": downtime", 'an object as {"duration": "2h", "reason": "..", "owner": ".."} is wanted')


def hooks_of(value: Any, where: str) -> list[list[Any]]:
    """Hooks as a scenario has them: each with its exit, 0 if none is given."""
    wanted(isinstance(value, list), where, "a list is wanted")
    found = [[one, 0] if isinstance(one, str) else one for one in value]
    for one in found:
        is_fit = isinstance(one, list) and len(one) == 2 and isinstance(one[0], str) and isinstance(one[1], int)
        wanted(is_fit, where, "a hook is a text, or a text and its exit")
    return found


def texts(value: Any, where: str) -> list[str]:
    """A list of texts."""
    wanted(isinstance(value, list) and all(isinstance(one, str) for one in value), where, "a list of texts is wanted")
    return [str(one) for one in value]


def take_own(operator: Operator, told: dict[str, Any], path: str) -> None:
    """A file of the operator's own."""
    for key in told:
        wanted(key in OWN_KEYS, path, "unknown key %s; there are %s" % (key, ", ".join(OWN_KEYS)))
    for words, value in told.get("servers", {}).items():
        check_server(words, value, "%s: %s" % (path, words))
        operator.servers.append((words, value))
    for key in ("block", "blocks", "aliases"):
        if key in told:
            is_fit = isinstance(told[key], int if key == "block" else dict)
            wanted(is_fit, "%s: %s" % (path, key), "a number is wanted" if key == "block" else "an object is wanted")
            operator.settings[key] = told[key]
    if "filters" in told:
        operator.settings["filters"] = {key: texts(value, "%s: filters: %s" % (path, key)) for key, value in told["filters"].items()}
    if "hooks" in told:
        for key in told["hooks"]:
            wanted(key in HOOKS, "%s: hooks" % path, "unknown key %s; there are %s" % (key, ", ".join(HOOKS)))
        operator.settings["hooks"] = {key: hooks_of(value, "%s: hooks: %s" % (path, key)) for key, value in told["hooks"].items()}


def take_orchestrators(operator: Operator, told: dict[str, Any], path: str) -> None:
    """orchestrator.conf.json. Without filters orchestrator recovers nothing by itself."""
    filters = {"master": "RecoverMasterClusterFilters", "intermediate": "RecoverIntermediateMasterClusterFilters"}
    operator.settings["filters"] = {key: texts(told.get(name) or [], "%s: %s" % (path, name)) for key, name in filters.items()}
    operator.settings["block"] = int(told.get("RecoveryPeriodBlockSeconds", 60 * told.get("RecoveryPeriodBlockMinutes", 60)))
    hooks = {"pre_failover": ["PreFailoverProcesses"], "post_failover": ["PostMasterFailoverProcesses", "PostFailoverProcesses"],
             "post_unsuccessful": ["PostUnsuccessfulFailoverProcesses"]}
    found = {key: [hook for name in names for hook in hooks_of(told.get(name) or [], "%s: %s" % (path, name))] for key, names in hooks.items()}
    operator.settings["hooks"] = {key: value for key, value in found.items() if value}
    for pattern in texts(told.get("PromotionIgnoreHostnameFilters") or [], path + ": PromotionIgnoreHostnameFilters"):
        check_pattern(pattern, path + ": PromotionIgnoreHostnameFilters")
        operator.servers.append(("/%s/" % pattern, {"rule": "must_not"}))
    for pattern, alias in (told.get("ClusterNameToAlias") or {}).items():
        check_pattern(pattern, path + ": ClusterNameToAlias")
        operator.alias_patterns.append((pattern, alias))
    if told.get("DataCenterPattern"):
        check_pattern(told["DataCenterPattern"], path + ": DataCenterPattern")
        operator.centre_pattern = told["DataCenterPattern"]
    left = [name for name in UNMODELLED if told.get(name)]
    if left:
        operator.notes.add("no operator's data", "%s has %s: a scenario's recoveries don't look at it" % (path, ", ".join(left)))


def note_placeholders(operator: Operator) -> None:
    """Prints which placeholders of hooks have no values."""
    found = {word for hooks in operator.settings.get("hooks", {}).values() for text, _ in hooks for word in re.findall(r"\{(\w+)\}", text)}
    left = sorted(found - set(PLACEHOLDERS))
    if left:
        operator.notes.add("operator's data", "no value for %s: these words of hooks stay as they are" % ", ".join("{%s}" % word for word in left))
    if operator.settings.get("hooks"):
        operator.notes.add("operator's data", "no hook runs in a scenario: each answers the exit that the operator's file gives it, 0 where it gives none")


def read_files(paths: list[str]) -> Operator:
    """What these files say, a later one over an earlier one. Unfit if one isn't an operator's."""
    operator = Operator()
    for path in paths:
        try:
            with open(path, encoding="utf-8") as file:
                told = json.load(file)
        except (OSError, ValueError) as reason:
            raise Unfit("%s: %s" % (path, reason)) from None
        wanted(isinstance(told, dict), path, "an object is wanted")
        is_orchestrators = any(re.match(r"[A-Z]", key) for key in told)
        (take_orchestrators if is_orchestrators else take_own)(operator, told, path)
    note_placeholders(operator)
    return operator
