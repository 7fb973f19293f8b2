"""The statements and conditions of a printed plan, explained for an operator: what a step does, what to check after it, when to stop."""
from __future__ import annotations

import re

# What a statement does, and what shows that it did. {0} is the server.
STATEMENTS = (
    (r"STOP REPLICA IO_THREAD", "Stop the receiver.", "SHOW REPLICA STATUS: Replica_IO_Running is No."),
    (r"STOP REPLICA", "Stop both threads.", "SHOW REPLICA STATUS: Replica_IO_Running and Replica_SQL_Running are No."),
    (r"START REPLICA UNTIL .*", "Execute up to a coordinate.", "SHOW REPLICA STATUS: Until_Condition is Source."),
    (r"START REPLICA", "Start both threads.", "SHOW REPLICA STATUS: both threads are Yes, Last_IO_Error and Last_SQL_Error are empty."),
    (r"SHOW REPLICA STATUS", "Read.", ""),
    (r"SHOW BINARY LOG STATUS", "", ""),
    (r"SHOW BINLOG EVENTS", "", ""),
    (r"SELECT WAIT_FOR_EXECUTED_GTID_SET.*", "Wait until these GTIDs are executed.", "The statement answers 0."),
    (r"CHANGE REPLICATION SOURCE TO .*SOURCE_HOST='//.*", "Detach: with // in front of its source's host nobody starts it by mistake.",
     "SHOW REPLICA STATUS: Source_Host begins with //."),
    (r"CHANGE REPLICATION SOURCE TO .*SOURCE_AUTO_POSITION=1.*", "Give it its new source, by GTIDs.",
     "SHOW REPLICA STATUS: Source_Host and Source_Port are the new ones, Auto_Position is 1."),
    (r"CHANGE REPLICATION SOURCE TO .*", "Give it its source, at a coordinate.",
     "SHOW REPLICA STATUS: Source_Host, Source_Port, Relay_Source_Log_File and Exec_Source_Log_Pos are those of the statement."),
    (r"RESET REPLICA ALL", "Take its source away. From here on there is no way back: go on to the end.", "SHOW REPLICA STATUS answers no row."),
    (r"SET PERSIST super_read_only=ON", "Refuse writes.", "SELECT @@super_read_only answers 1."),
    (r"SET PERSIST super_read_only=OFF", "Take writes.", "SELECT @@super_read_only answers 0."),
    (r"SET PERSIST read_only=OFF", "", "SELECT @@read_only answers 0."),
)

LEGEND = ("Of each reading write down: exec (Relay_Source_Log_File, Exec_Source_Log_Pos), read (Source_Log_File, Read_Source_Log_Pos),",
          "end (File, Position), and with GTIDs gtids (Executed_Gtid_Set). <db2:3306 end file> stands for what you wrote down last.",
          "Coordinates are compared by the file's number, then by the position.")

ORDER = "Go on only if {0} is %s {1}."
ATTACHED = "Go on only if Source_Host of {0} %s with //, Auto_Position is %s, and both its threads are No."

# What a condition means. The groups are the servers' names. `V` is a noted coordinate.
CONDITIONS = (
    (r"note L", "Write down exec, read, end and gtids of {0}."),
    (r"must be below nothing", "Stop if it has a source: SHOW REPLICA STATUS answers a row."),
    (r"must be below L", "Stop if its source isn't {0}."),
    (r"again until V >= V", "Ask again until {0} is at or after {1}."),
    (r"again until it answers 0", "Send it again until it answers 0."),
    (r"until then its applier must be on", "Stop if Replica_SQL_Running isn't Yes before that."),
    (r"again until L\.exec = L\.read or its applier is off", "Ask again until {0} has executed what it has read, or its applier is off."),
    (r"not where V >= V", "Leave this step out if {0} is at or after {1} already."),
    (r"only where L is below L(\.source)? at V, stopped",
     "Look again, now. Go on only if the source of {0} is {1}{2}, it has executed up to {3}, and both its threads are No."),
    (r"only where L ends at V, stopped", "Look again, now. Go on only if the log of {0} ends at {1}, and both its threads are No."),
    (r"only where L\.gtids are in L\.gtids, stopped",
     "Look again, now. Go on only if all GTIDs that {0} has executed are among those of {1}, and both threads of {0} are No."),
    (r"only where L\.purged is in L\.gtids", "Go on only if {1} has executed all that {0} has purged (SELECT @@GLOBAL.gtid_purged)."),
    (r"only where L is attached by auto position, stopped", ATTACHED % ("doesn't begin", "1")),
    (r"only where L is detached by auto position, stopped", ATTACHED % ("begins", "1")),
    (r"only where L is attached, stopped", ATTACHED % ("doesn't begin", "0")),
    (r"only where L is detached, stopped", ATTACHED % ("begins", "0")),
    (r"only while it isn't reached", "Try to reach it, now. Stop if it answers: a server that is reached hasn't failed."),
    (r"only where V > V", ORDER % "after"),
    (r"only where V >= V", ORDER % "at or after"),
    (r"only where L stands as it did then, stopped", "Go on only if {0} has executed nothing since, and both its threads are No."),
    (r"chosen before L", "It is chosen, and not {0}."),
    (r"lost, unreachable", "It is lost: it isn't reached."),
    (r"lost, behind L", "It is lost: it is behind {0}, and nothing tells its position there."),
    (r"lost, ahead of L", "It is lost: it is ahead of {0}."),
    (r"lost, no kept pair of L", "It is lost: no kept pair of {0} tells its position."),
    (r"note L\.match, by hand: the place in the log of L behind (.*)",
     "By hand: find in the log of {1} (mysqlbinlog, SHOW BINLOG EVENTS) the position after {2}. Write it down as match of {0}."),
)

LETTER = r"([A-Z]\d*)"
VALUE = r"([A-Z]\d*\.(?:exec|read|end))"


def named(text: str, names: dict[str, str]) -> str:
    """A plan's text with the servers' names in place of their letters."""
    text = re.sub(r":([A-Z]\d*)\.(\w+)", lambda found: "<%s %s" % (names.get(found[1], found[1]), found[2]) + "\x00", text)
    text = re.sub(r"\x00((?:\.\w+)?)", lambda found: found[1].replace(".", " ") + ">", text)
    return re.sub(r"\b([A-Z]\d*)\.(exec|read|end|gtids|purged|match|source)\b", lambda found: "%s %s" % (
        names.get(found[1], found[1]), found[2]), text)


def form_of(pattern: str) -> re.Pattern[str]:
    """The form of a condition: L is a letter, V a noted coordinate."""
    return re.compile(re.sub(r"\bL\b", lambda _: LETTER, re.sub(r"\bV\b", lambda _: VALUE, pattern)))


FORMS = tuple((form_of(pattern), text) for pattern, text in CONDITIONS)


def word_of(group: str | None, names: dict[str, str]) -> str:
    """A group of a condition: a letter as its server's name, a coordinate as the server's exec, read or end."""
    if group is None:
        return ""
    letter, _, rest = group.partition(".")
    if letter in names:
        return "%s of %s" % (rest, names[letter]) if rest else names[letter]
    return "'s own source" if group == ".source" else hand_words(group, names)


def condition(text: str, names: dict[str, str]) -> str:
    """A condition, explained. One that isn't known stays as it is."""
    for form, says in FORMS:
        found = form.fullmatch(text)
        if found:
            return says.format(*(word_of(group, names) for group in found.groups()))
    return named(text, names)


def hand_words(text: str, names: dict[str, str]) -> str:
    """A text of a plan whose letters are alone, with the servers' names."""
    return re.sub(r"\b([A-Z]\d*)\b", lambda found: names.get(found[1], found[1]), named(text, names))


def texts_of(statements: list[str], part: int) -> list[str]:
    """For each statement one of its texts, if it has one."""
    rows = [next((row for row in STATEMENTS if re.fullmatch(row[0], statement, re.S)), ("", "", "")) for statement in statements]
    return [row[part] for row in rows if row[part]]


def purposes(statements: list[str]) -> list[str]:
    """What the statements of a step do."""
    return texts_of(statements, 1)


def checks(statements: list[str]) -> list[str]:
    """What shows that the statements did it: of a step that begins with a stop its last statement alone."""
    found = texts_of(statements, 2)
    return found[-1:] if statements[:1] == ["STOP REPLICA"] else found
