"""A set-up on real servers by both ways of the import, and what the light one foretells to the byte."""
from __future__ import annotations

from typing import Any

from orch_tools.client import Coord
from orch_tools.model_log import model_coord
from rehearsal.answers import differences
from rehearsal.record import Recording, imported, words_of
from rehearsal.setups import Setup
from rehearsal.story import Story

# Read while a client writes: the two ways read at two moments. And if they are known to report another coordinate of a replica's log.
MOVING, COARSE = ("loaded",), ("purged_files",)

Tables = dict[str, list[str]]
Heads = dict[str, dict[int, int]]


def answers_differ(story: Story, made: Setup, program: str, many: int, say: list[str]) -> list[str]:
    """The questions to which the scenarios of both ways have different answers: each death, and so many commands. None where the exact way refuses."""
    names = sorted(story.used, key=story.farm.names.index)
    words = [*names, "--only-named", *words_of(story, made)]
    light, exact = (imported(Recording(story.farm.make.client), [*words, *more], story.farm.folder) for more in ([], ["--exact"]))
    if light["status"] != 0:
        return ["the light import: " + light["err"]]
    if exact["status"] != 0:
        say.append("the exact way refuses: " + story.spell(exact["err"].strip())[:200])
        return []
    loosely = "places" if story.farm.make.kind == "mariadb" else "replicas" if made.name in COARSE else ""
    found = list(differences(light, exact, many, loosely, program))
    say.append("%d answers differ" % len(found))
    return [] if made.name in MOVING else ["%s: light %s, exact %s" % (question, one, other) for question, one, other in found]


def heads_of(story: Story) -> Heads:
    """The lengths of the heads of the files of each root's log, if it is up."""
    roots = [server["name"] for server in story.scenario["servers"] if "source" not in server]
    return {name: story.reading(name).headers for name in roots if story.farm.is_up(name)}


def word(words: list[str], key: str, behind: str = "server") -> str:
    """What follows a key in a server's line."""
    return words[words.index(key, words.index(behind)) + 1]


class Checkpoints:
    """What MariaDB itself writes into a log at any time after a rotation: Binlog_checkpoint events, one for each file that is safe from then on. No
    coordinate that was read before has them. `seen` are those that were found between a foretold coordinate and the server's own."""

    def __init__(self, story: Story) -> None:
        self.story = story
        self.seen: list[str] = []

    def are_between(self, name: str, low: Coord, high: Coord) -> bool:
        """Whether a log has only such events from one coordinate to another one of the same file."""
        if not self.story.farm.make.kind == "mariadb" or low.number != high.number or low >= high:
            return False
        rows = self.story.farm.ask(name, "SHOW BINLOG EVENTS IN 'mysql-bin.%06d' FROM %d" % (low.number, low.position))
        rows = [row for row in rows if low.position <= int(row["Pos"]) < high.position]
        steps = [low.position, *(int(row["End_log_pos"]) for row in rows)]
        is_whole = steps[:-1] == [int(row["Pos"]) for row in rows] and steps[-1] == high.position
        if not is_whole or any(row["Event_type"] != "Binlog_checkpoint" for row in rows):
            return False
        self.seen.append("%s:%06d from %d to %d: %d bytes are %d Binlog_checkpoint events (of %s)" % (
            name, low.number, low.position, high.position, high.position - low.position, len(rows), ", ".join(row["Info"] for row in rows)))
        return True


def standing_differs(story: Story, tables: Tables, heads: Heads, checkpoints: Checkpoints) -> list[str]:
    """Who is level with its source, auto position, and each coordinate of a root's log to the byte, as the tables foretell them and as they are. On
    MariaDB a coordinate may be after checkpoints that the foretold one is before."""
    bad = []

    def differ(name: str, what: str, mine: Any, real: Any) -> None:
        if mine != real:
            bad.append("%s %s %s, the server %s" % (story.letter(name), what, story.spell(str(mine)), story.spell(str(real))))
    for name, words in tables.items():
        seen = story.state(name) if story.farm.is_up(name) else None
        if seen is None or not seen.source or word(words, "source") != seen.source or not story.farm.is_up(seen.source):
            continue
        at, end = model_coord(word(words, "at", "source")), story.state(seen.source).end
        assert end
        differ(name, "level", at == model_coord(word(tables[seen.source], "end")),
               seen.exec == end or checkpoints.are_between(seen.source, seen.exec, end))
        if story.farm.make.gtid:
            differ(name, "auto", "auto" in words, seen.row.get("Auto_Position") == "1")
        if seen.source in heads:
            head = heads[seen.source].get(at.number, 4)
            mine, there = Coord(at.number, head if at.position == 4 else at.position), Coord(seen.exec.number, max(seen.exec.position, head))
            if not checkpoints.are_between(seen.source, mine, there):
                differ(name, "coordinate", mine, there)
    return bad
