"""What may be at each place of a scenario, from docs/scenario.schema.json."""
from __future__ import annotations

import json
import os
import re
from typing import Any

from orch_tools.program import TOP

PATH = os.path.join(TOP, "docs", "scenario.schema.json")
KINDS = {"object": "an object", "array": "a list", "string": "a text", "integer": "a whole number", "boolean": "true or false"}
DURATION = "^[0-9]+[smhdw]?$"
FORMS = {"name": "SERVER", "keys": "{..}", "act": "TURN", "node": "N"}


class Schema:
    """The schema of scenarios."""

    def __init__(self, rules: dict[str, Any] | None = None) -> None:
        self.rules = read() if rules is None else rules

    def resolved(self, rule: Any) -> dict[str, Any]:
        """A rule, with the one that it refers to in its place."""
        if isinstance(rule, dict) and "$ref" in rule:
            return self.resolved(self.rules["definitions"][rule["$ref"].rsplit("/", 1)[1]])
        return rule if isinstance(rule, dict) else {}

    def at(self, path: str) -> dict[str, Any]:
        """The rule for the value that a JSON pointer names, empty where the schema has none. Turns have forms of their own."""
        rule = self.resolved(self.rules)
        keys = re.fullmatch(r"/turns/\d+(?:/2)?/2(/\w+)?", path)
        if keys:
            rule, path = self.resolved(self.rules["definitions"].get("keys", {})), keys[1] or ""
        for part in path.split("/")[1:]:
            items = rule.get("items")
            if part in rule.get("properties", {}):
                rule = rule["properties"][part]
            elif isinstance(items, list):
                rule = items[int(part)] if part.isdigit() and int(part) < len(items) else {}
            else:
                rule = items if part.isdigit() and items else rule.get("additionalProperties", {})
            rule = self.resolved(rule)
        return rule

    def keys(self, path: str) -> list[str]:
        """The keys that the object at this place may have."""
        return list(self.at(path).get("properties", {}))

    def only_below_a_source(self, key: str) -> bool:
        """Whether a server's key needs `source` beside it."""
        return "source" in self.resolved(self.rules["definitions"]["server"]).get("dependencies", {}).get(key, [])

    def wanted(self, path: str) -> str:
        """What may be at this place, as a text."""
        return wanted_by(self.at(path))

    def turns(self) -> dict[str, list[dict[str, Any]]]:
        """The forms of turns: from a turn's word to the rules of its parts, its word the first."""
        found: dict[str, list[dict[str, Any]]] = {}
        for form in self.forms(self.rules["definitions"]["turn"]):
            parts = [self.resolved(part) | name_of(part) for part in form["items"]]
            for word in [parts[0]["const"]] if "const" in parts[0] else parts[0]["enum"]:
                found[word] = parts
        return found

    def forms(self, rule: dict[str, Any]) -> list[dict[str, Any]]:
        """The lists among the alternatives of a rule."""
        found = []
        for form in self.resolved(rule)["oneOf"]:
            form = self.resolved(form)
            found += self.forms(form) if "oneOf" in form else [form]
        return found

    def turn_text(self, word: str) -> str:
        """A turn as it is written."""
        return "[%s]" % ", ".join(['"%s"' % word] + [part_text(part) for part in self.turns()[word][1:]])


def read() -> dict[str, Any]:
    """The schema's file, an empty schema where it isn't there."""
    try:
        with open(PATH, encoding="utf-8") as file:
            rules: dict[str, Any] = json.load(file)
            return rules
    except OSError:
        return {"definitions": {"turn": {"oneOf": []}, "server": {}}}


def name_of(part: dict[str, Any]) -> dict[str, Any]:
    """The name of the rule to which a part refers."""
    return {"form": part["$ref"].rsplit("/", 1)[1]} if "$ref" in part else {}


def part_text(part: dict[str, Any]) -> str:
    """A part of a turn as it is written."""
    if "enum" in part:
        return "|".join('"%s"' % word for word in part["enum"])
    return FORMS.get(part.get("form", ""), "N" if part.get("type") == "integer" else "TEXT")


def wanted_by(rule: dict[str, Any]) -> str:
    """What a rule asks for, as a text. It is empty if the rule asks for nothing."""
    if "const" in rule:
        return json.dumps(rule["const"])
    if "enum" in rule:
        return "one of " + ", ".join('"%s"' % word for word in rule["enum"])
    if rule.get("pattern") == DURATION:
        return "digits and at most one of s, m, h, d, w (1 to 31536000 seconds)"
    kind = KINDS.get(rule.get("type", ""), "")
    if "minimum" in rule and "maximum" in rule:
        return "%s, %d to %d" % (kind, rule["minimum"], rule["maximum"])
    if "minimum" in rule:
        return "%s, %d or more" % (kind, rule["minimum"])
    if "minItems" in rule and rule["minItems"] == rule.get("maxItems"):
        return "%s of %d items" % (kind, rule["minItems"])
    if "minItems" in rule and "maxItems" in rule:
        return "%s of %d to %d items" % (kind, rule["minItems"], rule["maxItems"])
    if "maxLength" in rule:
        return "%s of %d to %d characters" % (kind, rule.get("minLength", 0), rule["maxLength"])
    return kind
