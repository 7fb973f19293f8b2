"""The clusters of a scenario, and each of them as a scenario of its own: what happens in one doesn't touch the others."""
from __future__ import annotations

from typing import Any

from orch_tools.scenario import full

# The turns of which each part that names a server is known.
NAMED = {"write": [1], "fetch": [1], "apply": [1], "fail": [1], "heal": [1], "rotate": [1], "cut": [1], "join": [1], "purge": [1],
         "poll-read": [2]}
COMMON = ("tick", "polls", "round")
DECISIONS = ("register-candidate", "begin-downtime", "end-downtime")


def label_of(servers: dict[str, dict[str, Any]], name: str) -> str:
    """The label of a server's cluster: its own, or that of the root above it."""
    seen = set()
    while name not in seen:
        seen.add(name)
        server = servers[name]
        source = server.get("source")
        if "cluster" in server:
            return str(server["cluster"])
        if source is None or full(source) not in servers:
            return name
        name = full(source)
    return name


def labels(data: dict[str, Any]) -> dict[str, str]:
    """For each server the label of its cluster."""
    servers = {full(server["name"]): server for server in data["servers"]}
    return {name: label_of(servers, name) for name in servers}


def with_defaults(data: dict[str, Any]) -> list[dict[str, Any]]:
    """The servers, with what their places in the list decide."""
    return [{"uuid": "00000000-0000-0000-0000-%012x" % number, "server_id": number, **server}
            for number, server in enumerate(data["servers"], 1)]


def named_in(turn: list[Any]) -> set[str] | None:
    """The servers that a turn is about, none for one that is about all. None for a turn that may be about any: a job's number goes by
    all that began before it."""
    if turn[0] in COMMON:
        return set()
    if turn[0] == "command":
        return {full(turn[2]["i"])} if turn[1] in DECISIONS else None
    return {full(turn[part]) for part in NAMED[turn[0]]} if turn[0] in NAMED else None


def parts_of(data: dict[str, Any]) -> dict[str, dict[str, Any]]:
    """For each server the scenario in which its cluster is alone. It is the whole scenario if turns can't be assigned to a cluster."""
    label, turns = labels(data), data.get("turns", [])
    if data.get("nodes", 1) > 1 or any(named_in(turn) is None for turn in turns):
        return dict.fromkeys(label, data)
    servers = with_defaults(data)
    made: dict[str, dict[str, Any]] = {}
    for cluster in set(label.values()):
        inside = {name for name in label if label[name] == cluster}
        made[cluster] = {**data, "servers": [server for server in servers if full(server["name"]) in inside],
                         "turns": [turn for turn in turns if (named_in(turn) or set()) <= inside]}
    return {name: made[label[name]] for name in label}

