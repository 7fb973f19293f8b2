"""Draws the trees of a scenario as an SVG picture of 800 pixels' width, as they are after its turns. With --command the trees
after that command are beside them.

  orch draw now.json > now.svg
  orch draw --command '-c recover -i db1' now.json > failover.svg

Each server has a box below its source: green takes writes, blue replicates, amber is stopped or detached, red is down. On the right
of a box is its lag in transactions, against the server of its cluster that has executed most. A bar on the left marks what
the command changed.
"""
from __future__ import annotations

import argparse
import dataclasses
import json
import sys
from html import escape

from orch_tools import scenario, sequel
from orch_tools.answers import Server, tables_of
from orch_tools.clusters import labels
from orch_tools.program import NoAnswer, Program

HELP = "draw the trees now, and after a command, as an SVG picture"
WIDTH, MARGIN, GAP = 800, 16, 24
TOP, BOX, STEP, INDENT = 44, 38, 48, 26
DEEPEST = 6
COLOURS = {"writes": "#2b7a3d", "replicates": "#1a56a0", "stopped": "#8a6d1d", "down": "#b3261e"}
LEGEND = {"writes": "takes writes", "replicates": "replicates", "stopped": "stopped or detached", "down": "down"}


@dataclasses.dataclass
class Box:
    """A server of a picture: how deep it is, its kind, its notes, its lag, and whether it was changed."""
    name: str
    depth: int
    above: int | None
    kind: str
    note: str
    lag: int
    changed: bool


def add_arguments(parser: argparse.ArgumentParser) -> None:
    """The subcommand's arguments."""
    scenario.add_scenario(parser)
    parser.add_argument("--command", action="append", default=[], metavar="'COMMAND [options]'",
                        help="draw the trees after this command beside them; may be repeated")


def kind_of(server: Server) -> str:
    """By what a server is coloured."""
    if not server.is_up:
        return "down"
    if server.source is None:
        return "writes" if server.mode == "rw" else "stopped"
    return "replicates" if not server.detached and server.io == "on" and server.sql == "on" else "stopped"


def note_of(server: Server) -> str:
    """What is written below a server's name."""
    words = ["down" if not server.is_up else "", "read only" if server.mode == "ro" and server.source is None else "",
             "takes writes" if server.mode == "rw" and server.is_up else "",
             "detached from %s" % scenario.short(server.source) if server.detached and server.source else "",
             "receiver off" if server.io == "off" and not server.detached else "",
             "applier off" if server.sql == "off" and not server.detached else "", "GTID" if server.auto else ""]
    return ", ".join([word for word in words if word] + ["executed %d" % server.executed])


def boxes_of(servers: dict[str, Server], label: dict[str, str], before: dict[str, Server] | None) -> list[Box]:
    """The boxes of a panel from its top down: each tree, the replicas in name order below their source."""
    most: dict[str, int] = {}
    for server in servers.values():
        most[label[server.name]] = max(most.get(label[server.name], 0), server.executed)
    found: list[Box] = []

    def put(server: Server, depth: int, above: int | None) -> None:
        changed = before is not None and before.get(server.name) != server
        found.append(Box(server.name, min(depth, DEEPEST), above, kind_of(server), note_of(server),
                         most[label[server.name]] - server.executed, changed))
        here = len(found) - 1
        for name in sorted(servers):
            if servers[name].source == server.name and not servers[name].detached and name not in {box.name for box in found}:
                put(servers[name], depth + 1, here)

    for server in servers.values():
        if server.source not in servers or server.detached:
            put(server, 0, None)
    return found


def text(left: float, top: float, words: str, size: int, **more: str) -> str:
    """A text of the picture."""
    attributes = "".join(' %s="%s"' % (key.replace("_", "-"), value) for key, value in more.items())
    return '<text x="%g" y="%g" font-size="%d"%s>%s</text>' % (left, top, size, attributes, escape(words))


def fitted(words: str, width: float, size: int) -> str:
    """A text that is cut off so that it fits into a width."""
    most = max(4, int(width / (size * 0.62)))
    return words if len(words) <= most else words[:most - 1] + "\u2026"


def panel(boxes: list[Box], left: float, width: float, title: str) -> list[str]:
    """A panel: its title, and its boxes with the lines between them."""
    found = [text(left, 26, fitted(title, width, 13), 13, font_weight="bold")]
    for row, box in enumerate(boxes):
        start, top = left + INDENT * box.depth, TOP + STEP * row
        wide, colour = width - INDENT * box.depth, COLOURS[box.kind]
        if box.above is not None:
            bend = left + INDENT * boxes[box.above].depth + INDENT / 2
            found.append('<path d="M%g %g V%g H%g" fill="none" stroke="#999"/>' % (bend, TOP + STEP * box.above + BOX, top + BOX / 2, start))
        found.append('<rect x="%g" y="%g" width="%g" height="%d" rx="5" fill="#fff" stroke="%s" stroke-width="1.5"/>' % (
            start, top, wide, BOX, colour))
        if box.changed:
            found.append('<rect x="%g" y="%g" width="6" height="%d" rx="2" fill="%s"/>' % (start, top, BOX, colour))
        lag = "%d behind" % box.lag if box.lag else ""
        found.append(text(start + 12, top + 16, fitted(scenario.short(box.name), wide - 90, 14), 14, font_weight="bold", fill=colour))
        found.append(text(start + 12, top + 31, fitted(box.note, wide - 20, 12), 12, fill="#444"))
        found += [text(start + wide - 8, top + 16, lag, 12, text_anchor="end", fill="#b3261e")] if lag else []
    return found


def legend(top: float, changes: bool) -> list[str]:
    """What the colours mean."""
    found, left = [], float(MARGIN)
    for kind, words in LEGEND.items():
        found.append('<rect x="%g" y="%g" width="12" height="12" rx="2" fill="%s"/>' % (left, top - 10, COLOURS[kind]))
        found.append(text(left + 18, top, words, 12, fill="#444"))
        left += 40 + 7.6 * len(words)
    if changes:
        found.append('<rect x="%g" y="%g" width="6" height="12" rx="2" fill="#444"/>' % (left, top - 10))
        found.append(text(left + 12, top, "changed", 12, fill="#444"))
    return found


def picture(panels: list[tuple[str, list[Box]]]) -> str:
    """The picture of one or two panels."""
    width = (WIDTH - 2 * MARGIN - GAP * (len(panels) - 1)) / len(panels)
    height = TOP + STEP * max(len(boxes) for _, boxes in panels) + 34
    body = [part for place, (title, boxes) in enumerate(panels) for part in panel(boxes, MARGIN + place * (width + GAP), width, title)]
    return "\n".join(['<svg xmlns="http://www.w3.org/2000/svg" width="%d" height="%d" viewBox="0 0 %d %d" '
                      'font-family="ui-monospace, Menlo, Consolas, monospace">' % (WIDTH, height, WIDTH, height),
                      '<rect width="%d" height="%d" fill="#fff"/>' % (WIDTH, height), *body, *legend(height - 14, len(panels) > 1), "</svg>"])


def panels_of(program: Program, told: scenario.Scenario, commands: list[list[str]]) -> list[tuple[str, list[Box]]]:
    """The panels: now, and after the commands."""
    now, label = tables_of(scenario.state_of(program, told).out).servers, labels(told.data)
    panels = [("now", boxes_of(now, label, None))]
    if commands:
        steps = sequel.steps_of(program, told.data, commands, lambda: None)
        if not steps[-1].is_done:
            raise NoAnswer("`%s`: %s" % (steps[-1].command, steps[-1].answer.reason))
        after = tables_of(program.report(steps[-1].data, "-c", "run").out).servers
        title = "after " + "; ".join(step.command.removeprefix("-c ") for step in steps)
        panels.append((title, boxes_of(after, label, now)))
    return panels


def run(given: argparse.Namespace) -> int:
    """The exit status."""
    try:
        commands = [sequel.words_of(words) for words in given.command]
    except sequel.Unread as reason:
        print("orch draw: %s" % reason, file=sys.stderr)
        return 2
    program, told = Program(), scenario.read(given.scenario, given.notes)
    panels = panels_of(program, told, commands)
    notes = told.repeated({box.name for _, boxes in panels for box in boxes})
    if given.json:
        print(json.dumps({"panels": [{"title": title, "servers": [dataclasses.asdict(box) for box in boxes]} for title, boxes in panels],
                          "notes": notes}, indent=1))
    else:
        print(picture(panels))
        print("".join("note: %s\n" % note for note in notes), end="", file=sys.stderr)
    return 0
