"""Why a text isn't JSON: where, and what it looks like."""
from __future__ import annotations

import json
import re

MARKS = {b"\xef\xbb\xbf": "the text begins with a byte order mark (BOM): remove its first three bytes",
         b"\xff\xfe": "the text is UTF-16; it must be UTF-8", b"\xfe\xff": "the text is UTF-16; it must be UTF-8"}
DEEPEST = 127


class Odd(Exception):
    """A word that Python's reader takes and JSON hasn't."""


def odd_word(word: str) -> None:
    """Stops at NaN, Infinity and -Infinity."""
    raise Odd(word)


def reason(raw: bytes) -> tuple[int, int, str]:
    """The line, the column and what is wrong with a text that the program answers NotJson of."""
    mark = next((says for mark, says in MARKS.items() if raw.startswith(mark)), None)
    if mark:
        return 1, 1, mark
    if not raw.strip():
        return 1, 1, "the input is empty: a scenario is one JSON object"
    try:
        text = raw.decode("utf-8")
    except UnicodeDecodeError as fault:
        line = raw.count(b"\n", 0, fault.start) + 1
        return line, fault.start - (raw.rfind(b"\n", 0, fault.start) + 1) + 1, "a byte that isn't UTF-8"
    return reason_in(text)


def reason_in(text: str) -> tuple[int, int, str]:
    """The same of a text in UTF-8."""
    try:
        json.loads(text, parse_constant=odd_word)
    except Odd as fault:
        found = re.search(r"(?<![\w\"])%s(?![\w\"])" % re.escape(str(fault)), text)
        return *line_and_column(text, found.start() if found else 0), "`%s` is no JSON value" % fault
    except json.JSONDecodeError as fault:
        return fault.lineno, fault.colno, "%s%s" % (fault.msg[0].lower() + fault.msg[1:], looks_like(text, fault))
    except RecursionError:
        return 1, 1, "the text is nested too deeply"
    return deepest(text)


def deepest(text: str) -> tuple[int, int, str]:
    """The place at which brackets are nested too deeply, else what Python's reader doesn't see."""
    depth = 0
    for found in re.finditer(r'"(?:[^"\\]|\\.)*"|[\[{\]}]', text):
        depth += {"[": 1, "{": 1, "]": -1, "}": -1}.get(found.group(), 0)
        if depth > DEEPEST:
            return *line_and_column(text, found.start()), "nested more than %d deep" % DEEPEST
    return 1, 1, "a number or an escape that serde_json doesn't take"


def line_and_column(text: str, offset: int) -> tuple[int, int]:
    """The line and the column of an offset, from 1."""
    return text.count("\n", 0, offset) + 1, offset - (text.rfind("\n", 0, offset) + 1) + 1


def looks_like(text: str, fault: json.JSONDecodeError) -> str:
    """What the text at a fault looks like."""
    line = text.split("\n")[fault.lineno - 1]
    here = text[fault.pos:]
    if re.match(r"\s*(//|#|/\*)", here) or re.match(r"\s*(//|#|/\*)", line):
        return ": JSON has no comments; orch takes `//` comments"
    if re.match(r"\s*[A-Za-z_-]+\s*:", line):
        return ": this looks like YAML, and a scenario is JSON"
    if "'" in here[:2]:
        return ": JSON texts have double quotes"
    if re.match(r"\s*[\]}]", here) and text[:fault.pos].rstrip().endswith(","):
        return ": a comma before a closing bracket"
    if fault.msg == "Extra data":
        return ": something is after the object"
    if not here.strip():
        return ": the text ends too early"
    return ""
