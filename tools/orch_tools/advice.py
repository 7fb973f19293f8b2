"""What to do with each lost server, and what the choice of the promoted one doesn't look at."""
from __future__ import annotations

import re
import textwrap

from orch_tools.deaths import Death, sources_above
from orch_tools.losses import Gone
from orch_tools.near import listed
from orch_tools.notes import Notes
from orch_tools.scenario import Scenario, full

DEFAULT_VERSION = "8.0.36"


MANY = 12


def lost_lines(death: Death, notes: Notes) -> list[str]:
    """A line for each lost server: its reason, and who stays below it. Of many a line for each reason."""
    if len(death.lost) > MANY:
        return [line for why, names in by_reason(death).items() for line in wrapped("%s (%d): " % (why, len(names)), names)]
    lines = []
    for name in death.lost:
        lost = death.outcome.lost[name]
        why = lost.why + perhaps_level(death, notes) if lost.why == "behind" else lost.why
        words = " ".join(part for part in (why, lost.value) if part) + (", detached" if lost.detached else "")
        below = [other for other in death.cut_off if name in sources_above(death.after, other)]
        lines.append("%s, %s%s" % (name, words, "; %s stay%s below it" % (listed(below), "s" if len(below) == 1 else "") if below else ""))
    return lines


def perhaps_level(death: Death, notes: Notes) -> str:
    """What an import adds to a replica that is lost as `behind`. An earlier poll of the real orchestrator may have kept the pair of its position."""
    return " (or level, by a pair that was polled earlier)" if notes.about("earlier pairs unknown", server=death.dead) else ""


def follow_lines(death: Death) -> list[str]:
    """A line for each follower. Of many a line for each source."""
    below = death.outcome.below
    if len(below) <= MANY:
        return ["%s, below %s" % pair for pair in below.items()]
    found: dict[str, list[str]] = {}
    for name, source in below.items():
        found.setdefault(source, []).append(name)
    return [line for source, names in found.items() for line in wrapped("below %s (%d): " % (source, len(names)), names)]


def wrapped(head: str, names: list[str]) -> list[str]:
    """Names in lines of at most 100 characters."""
    return textwrap.wrap(", ".join(names), 100, initial_indent=head, subsequent_indent="  ", break_long_words=False, break_on_hyphens=False)


def by_reason(death: Death) -> dict[str, list[str]]:
    """The lost servers by their reasons."""
    found: dict[str, list[str]] = {}
    for name in death.lost:
        found.setdefault(death.outcome.lost[name].why, []).append(name)
    return found


def amounts(gone: Gone, names: list[str], form: str) -> list[str]:
    """For each server how many transactions it has more, or lacks. Many servers are in one row."""
    death = gone.death
    level = death.after[death.chosen].executed if death.chosen else 0
    counts = {name: gone.measure(*sorted((death.after[name].executed, level))) for name in names}
    if len(names) <= MANY:
        return [form % (name, counts[name], death.chosen) for name in names]
    rows = ["%s %s" % (name, re.sub(r" transactions?$", "", count)) for name, count in counts.items()]
    return wrapped(form % ("%d servers" % len(names), "transactions", death.chosen) + ", each so many: ", rows)


def behind(gone: Gone, names: list[str]) -> list[str]:
    """What to do with those that are lost as `behind`."""
    chosen = gone.death.chosen
    return [*amounts(gone, names, "%s: %s behind %s"),
            "  No kept pair of coordinates tells the position in the log of %s. Find the last transaction there" % chosen,
            "  (orch -c match does it by Pseudo-GTID marks), or rebuild it from a backup of %s." % chosen]


def ahead(gone: Gone, names: list[str]) -> list[str]:
    """What to do with those that are ahead."""
    silent = [name for name in names if gone.death.after[name].end == "none"]
    lines = [*amounts(gone, names, "%s: %s ahead of %s"), "  Don't attach a server that is ahead. Save its transactions first "
             "(mysqlbinlog), replay on %s" % gone.death.chosen, "  what you want, then rebuild it from that server."]
    return lines + (wrapped("  Without a binary log, so that only the data has them: ", silent) if silent else [])


def unreachable(gone: Gone, names: list[str]) -> list[str]:
    """What to do with those that weren't reached."""
    death = gone.death
    return [*wrapped("", names), "  Not reached, and still below %s. When it is back, compare what it has executed with %s." % (death.dead, death.chosen),
            "  Then move it below that server, or rebuild it."]


def moved(_gone: Gone, names: list[str]) -> list[str]:
    """What to do with those that were elsewhere."""
    return [*wrapped("", names), "  Below another source when the recovery looked, and left there. Find out who moved it."]


def not_logging(_gone: Gone, names: list[str]) -> list[str]:
    """What to do with those that don't log."""
    return [*wrapped("", names), "  Without a binary log nobody can be below it: log_bin and log_replica_updates=ON, and a restart."]


def must_not(_gone: Gone, names: list[str]) -> list[str]:
    """What to do with those that may not be promoted."""
    return [*wrapped("", names), "  Not to be promoted, by its rule: orch -c register-candidate -i SERVER --promotion-rule neutral."]


def purged(gone: Gone, names: list[str]) -> list[str]:
    """What to do with those whose next transactions are purged."""
    return [*wrapped("", names), "  It needs transactions that {0} has purged: rebuild it from a backup of {0}.".format(gone.death.chosen)]


TO_DO = {"behind": behind, "ahead": ahead, "unreachable": unreachable, "moved": moved, "not logging": not_logging, "must not": must_not,
         "purged": purged}


def to_do(gone: Gone) -> list[str]:
    """What to do with the lost servers, reason by reason, and with the dead one when it comes back."""
    death, lines = gone.death, []
    for why, names in by_reason(death).items() if death.chosen else ():
        lines += TO_DO[why](gone, names) if why in TO_DO else []
    if death.outcome.promoted:
        still = "it still takes writes, and has %s that %s lacks" % (gone.amount(), death.chosen)
        lines += ["%s, if it comes back" % death.dead, "  %s. Keep clients away, and rebuild it from %s." % (
            "I" + (still if death.gone else "it still takes writes")[1:], death.chosen)]
    return lines


def version_of(scenario: Scenario, name: str) -> tuple[int, int]:
    """A server's major and minor version."""
    text = next((server.get("version", DEFAULT_VERSION) for server in scenario.servers() if full(server["name"]) == name), DEFAULT_VERSION)
    major, minor, _ = (int(part) for part in text.split("."))
    return major, minor


def warnings_of(scenario: Scenario, death: Death) -> list[str]:
    """What the choice doesn't look at: versions, and the settings that the import noted."""
    lines = []
    for name, source in death.outcome.below.items():
        mine, above = version_of(scenario, name), version_of(scenario, source)
        if mine < above:
            lines.append("%s (%d.%d) follows %s (%d.%d): MySQL doesn't support a source of a higher version; the choice looks at no versions"
                         % (name, *mine, source, *above))
    if death.outcome.promoted and death.outcome.promoted != death.dead:
        mine, old = version_of(scenario, death.outcome.promoted), version_of(scenario, death.dead)
        if mine != old:
            lines.append("%s (%d.%d) takes the place of %s (%d.%d): another version" % (death.outcome.promoted, *mine, death.dead, *old))
    settings = [str(note) for note in scenario.notes.about("settings") if note.server is None or full(note.server) in death.names()]
    return lines + settings
