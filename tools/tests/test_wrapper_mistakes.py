"""A newcomer's mistakes: what the wrapper prints for each names the argument or the place that is wrong."""
from __future__ import annotations

import dataclasses

from wrapped import Told, WrapperTest, inside

SERVERS = '"servers":[{"name":"m","history":[["m",100,3]]},{"name":"r","source":"m","executed":2}]'
GOOD = '{"version":1,%s,"turns":[["polls"]]}' % SERVERS


@dataclasses.dataclass(frozen=True)
class Mistake:
    """A command line and a scenario, and what must be said of them, on either stream, with which status."""
    name: str
    words: tuple[str, ...]
    given: str | bytes
    status: int
    says: str

    def told(self) -> Told:
        """What the wrapper prints."""
        return inside("--explain", *self.words, given=self.given.encode() if isinstance(self.given, str) else self.given)


def line(name: str, words: str, status: int, says: str) -> Mistake:
    """A mistake in the command line, beside a scenario without a fault. `_` is a blank inside an argument."""
    return Mistake(name, tuple(word.replace("_", " ") if word == "r_" else word for word in words.split()), GOOD, status, says)


def text(name: str, given: str | bytes, says: str, status: int = 2) -> Mistake:
    """A mistake in the scenario, of which `-c run` is asked."""
    return Mistake(name, ("-c", "run"), given, status, says)


def server(name: str, keys: str, says: str) -> Mistake:
    """A mistake in the only server."""
    return text(name, '{"version":1,"servers":[{%s}]}' % keys, says)


def replica(name: str, keys: str, says: str) -> Mistake:
    """A mistake in a replica that has executed two of three transactions."""
    return text(name, GOOD.replace('"executed":2', keys), says)


def turn(name: str, turns: str, says: str) -> Mistake:
    """A mistake in the turns."""
    return text(name, '{"version":1,%s,"turns":[%s]}' % (SERVERS, turns), says)


ARGUMENTS = [
    line("no arguments", "", 1, "the command is missing: -c COMMAND"),
    line("--help", "--help", 0, "usage: orch SUBCOMMAND"),
    line("-h", "-h", 0, "usage: orch SUBCOMMAND"),
    line("help of a command", "help topology", 0, "usage: orch -c topology -i HOST[:PORT]"),
    line("--version", "--version", 0, "orch "),
    line("a command without -c", "run", 1, "did you mean `-c run`?"),
    line("an unknown command", "-c toplogy -i r", 1, "`toplogy` (after -c) is no command. Did you mean `topology`?"),
    line("a command of orchestrator alone", "-c match-below -i r -d m", 1, "`match-below` (after -c) is no command. Did you mean `match`?"),
    line("an underscore", "-c which_master -i r", 1, "`which_master` (after -c) is no command. Did you mean `which-master`?"),
    line("without -i", "-c topology", 1, "`topology` needs -i HOST[:PORT]"),
    line("without -d", "-c move-below -i r", 1, "`move-below` needs -d HOST[:PORT]"),
    line("an unknown option", "-c run --format json", 1, "there is no option `--format`"),
    line("--instance", "-c topology --instance r", 1, "there is no option `--instance`. Did you mean `-i`?"),
    line("--table", "-c move-up -i r --table", 1, "there is no option `--table`. Did you mean `--tables`?"),
    line("--dry-run", "-c relocate -i r -d m --dry-run", 1, "there is no option `--dry-run`. Did you mean `--plan`?"),
    line("--plan of a question", "-c topology -i m --plan", 1, "--plan"),
    line("--dump of a run", "-c run --dump", 1, "`run` takes no --dump: `-c dump` prints the servers after the turns"),
    line("--dump with --plan", "-c move-up -i r --dump --plan", 1, "`--dump` and `--plan` don't go together"),
    line("--dump with --tables", "-c topology -i m --dump --tables", 1, "`--dump` and `--tables` don't go together"),
    line("an option twice", "-c run -c run", 1, "`-c` is given twice"),
    line("an unknown server", "-c topology -i x", 7, "no server is called x:3306 (after -i)"),
    line("a wrong port", "-c topology -i r:3307", 7, "no server is called r:3307 (after -i). Did you mean `r:3306`?"),
    line("a blank in a name", "-c topology -i r_", 1, "`r ` (after -i) is no server's name, HOST or HOST:PORT: it has a blank"),
    line("10min", "-c begin-downtime -i r --duration 10min", 1, "`10min` (after --duration) is no duration"),
    line("the rule must", "-c register-candidate -i r --promotion-rule must", 1, "`must` (after --promotion-rule) is no promotion rule"),
    line("the rule prefer-not", "-c register-candidate -i r --promotion-rule prefer-not", 1, "Did you mean `prefer_not`?"),
    line("--wait 0", "-c run --wait 0", 1, "`0` (after --wait) is out of range: 1 to 10000"),
    line("too many servers", "-c generate --servers 5000", 1, "`5000` (after --servers) is out of range: 1 to 1000"),
    line("a pattern that isn't closed", "-c find --pattern db[", 1, "`db[` (after --pattern) is no regular expression"),
    line("a path as an argument", "-c run scenario.json", 1, "give a scenario's path as `--scenario scenario.json`"),
    line("no such file", "-c run --scenario ./nowhere.json", 3, "./nowhere.json (after --scenario): No such file"),
    line("a folder", "-c run --scenario .", 3, ". (after --scenario) is a folder"),
    line("no folder for the database", "-c run --db ./none/book", 5, "./none/book (after --db): there is no folder ./none"),
    line("another file as the database", "-c run --db test_plan.py", 5, "test_plan.py (after --db) is no database of SQLite"),
    line("a takeover without -d", "-c graceful-master-takeover -i m", 1, "`graceful-master-takeover` needs -d HOST[:PORT]"),
]

TEXTS = [
    text("empty", "", "standard input:1:1: the input is empty"),
    text("blanks", " \n", "standard input:1:1: the input is empty"),
    text("YAML", "version: 1\nservers:\n  - name: m\n", "standard input:1:1: expecting value: this looks like YAML"),
    text("a byte order mark", "\ufeff" + GOOD, "standard input:1:1: the text begins with a byte order mark"),
    text("a comment", "// my topology\n" + GOOD, "errant 0", 0),
    text("a comma at the end", GOOD[:-1] + ",}", "a comma before a closing bracket"),
    text("single quotes", GOOD.replace('"', "'"), "standard input:1:2: expecting property name"),
    text("cut off", GOOD[:60], "standard input:1:61: expecting ',' delimiter: the text ends too early"),
    text("two objects", GOOD + GOOD, "something is after the object"),
    text("UTF-16", GOOD.encode("utf-16"), "the text is UTF-16"),
    text("a list", "[%s]" % GOOD, "standard input:1:1: "),
    text("lines that end with CRLF", GOOD.replace(",", ",\r\n"), "errant 0", 0),
    text("NaN", '{"version":1,"now":NaN,%s}' % SERVERS, "standard input:1:20: `NaN` is no JSON value"),
    text("no version", '{"servers":[{"name":"m"}]}', "a needed key is missing: `version`"),
    text("a version as a text", '{"version":"1","servers":[{"name":"m"}]}', "1:2: \"1\" can't be here: 1 is wanted"),
    text("version 2", '{"version":2,"servers":[{"name":"m"}]}', "1:2: 2: this program reads scenarios of version 1"),
    text("no servers", '{"version":1}', "a needed key is missing: `servers`"),
    text("an empty list of servers", '{"version":1,"servers":[]}', "1:14: [] is out of range: a list of 1 to 1000 items is wanted"),
    text("servers as an object", '{"version":1,"servers":{"m":{}}}', "can't be here: a list of 1 to 1000 items is wanted"),
    text("turn", '{"version":1,"servers":[{"name":"m"}],"turn":[]}', "1:39: there is no key `turn` here. Did you mean `turns`?"),
    text("an unknown source", '{"version":1,"servers":[{"name":"m"},{"name":"r","source":"mm"}]}', 'no server is called "mm". Did you mean `m`?'),
    text("a name twice", '{"version":1,"servers":[{"name":"m"},{"name":"m:3306"}]}', '1:39: "m:3306": the server of line 1 has it already'),
    text("a loop", '{"version":1,"servers":[{"name":"a","source":"b"},{"name":"b","source":"a"}]}', "1:37: a is below itself"),
    text("a source that doesn't log", '{"version":1,"servers":[{"name":"m","logs":false},{"name":"r","source":"m"}]}',
         '1:63: the source "m" writes no binary log'),
]

SERVER_KEYS = [
    server("sorce", '"name":"m"},{"name":"r","sorce":"m"', "1:50: there is no key `sorce` here. Did you mean `source`?"),
    server("excuted", '"name":"m"},{"name":"r","source":"m","excuted":1', "there is no key `excuted` here. Did you mean `executed`?"),
    server("master", '"name":"m"},{"name":"r","master":"m"', "there is no key `master` here. Did you mean `source`?"),
    server("host", '"host":"m"', "1:26: there is no key `host` here. Did you mean `name`?"),
    text("an underscore in a name", '{"version":1,"servers":[{"name":"db_1"}]}', "server db_1:3306 up", 0),
    server("IPv6", '"name":"[::1]:3306"', '1:26: "[::1]:3306" is no server\'s name'),
    server("executed without a source", '"name":"m","executed":3', "1:37: the key `executed` is only for a server with a `source`"),
    server("a history as a number", '"name":"m","history":5', "1:37: 5 can't be here: a list is wanted"),
    server("a flat history", '"name":"m","history":["m",100,5]', "1:48: \"m\" can't be here: a list of 3 items is wanted"),
    server("size 0", '"name":"m","history":[["m",0,5]]', "1:53: 0 is out of range: a whole number, 1 to 1000000 is wanted"),
    server("version 8.0", '"name":"m","version":"8.0"', '1:37: "8.0" is no version: A.B.C'),
    server("a short UUID", '"name":"m","uuid":"abc"', '1:37: "abc" is no UUID'),
    server("read_only ON", '"name":"m","read_only":"ON"', "1:37: \"ON\" can't be here: true or false is wanted. Did you mean true?"),
    server("history on a replica", '"name":"m","history":[["m",100,3]]},{"name":"r","source":"m","history":[["m",100,2]]',
           "1:74: a server has either `history` or `source`, not both"),
    replica("executed too many", '"executed":7', "1:87: executed 7, but its source m:3306 has executed 3"),
    replica("executed as a text", '"executed":"2"', "1:87: \"2\" can't be here: a whole number, 0 or more is wanted. Did you mean 2, without quotes?"),
    replica("another log's name", '"executed":2,"at":"binlog.000001:204"', '1:100: "binlog.000001:204" is no coordinate'),
    replica("at no position", '"executed":2,"at":"mysql-bin.000001:205"', '1:100: "mysql-bin.000001:205" is no position of the source\'s log'),
    replica("the rule must in a scenario", '"executed":2,"rule":"must"', '1:100: "must" isn\'t one of the words that may be here'),
    replica("auto without gtid", '"executed":2,"auto":true', '1:100: `auto` needs `"gtid": true`'),
]

TURNS = [
    turn("a turn as a text", '"polls"', '"polls" can\'t be a turn: a turn is a list. Did you mean `["polls"]`?'),
    turn("a turn as an object", '{"fail":"m"}', 'a turn is a list. Did you mean `["fail", SERVER]`?'),
    turn("an unknown turn", '["kill","m"]', 'there is no turn `kill`. Did you mean ["fail", SERVER]?'),
    turn("a part too few", '["write","m"]', 'the turn `write` has 3 parts; here are 2: ["write", SERVER, N]'),
    turn("an unknown server in a turn", '["fail","x"]', '1:119: no server is called "x". There are: m, r.'),
    turn("a command as a turn", '["move-up","r"]', 'Did you mean ["command", "move-up", {"i": SERVER}]?'),
    turn("an unknown command in a turn", '["command","moveup",{"i":"r"}]', "1:122: `moveup` is no command. Did you mean `move-up`?"),
    turn("a command without i", '["command","move-up",{}]', "1:132: `move-up` needs the key `i`"),
    turn("a command with a name alone", '["command","move-up","r"]', "1:132: \"r\" can't be here: the turn is [\"command\", TEXT, {..}]"),
    turn("another link", '["cut","r","network"]', '1:122: "network" isn\'t one of the words that may be here: desk, feed.'),
    turn("bytes as a text", '["write","m","100"]', "1:124: \"100\" can't be here: the turn is [\"write\", SERVER, N]. Did you mean 100, without quotes?"),
    turn("a job as a text", '["job","1"]', "1:118: \"1\" can't be here"),
]

REFUSALS = [
    line("a living master", "-c recover -i m", 7, "after a death orchestrator has to poll"),
    Mistake("a death without polls", ("-c", "recover", "-i", "m"), '{"version":1,%s,"turns":[["fail","m"]]}' % SERVERS, 7,
            '["fail", SERVER] needs ["polls"] after it'),
    line("up from below the root", "-c move-up -i r", 7, "this is about the source of -i r:3306"),
    line("below itself", "-c relocate -i r -d r", 7, "this is about -i r:3306 and -d r:3306"),
    line("GTIDs that aren't used", "-c move-gtid -i r -d m", 7, "this is about -i r:3306; the scenario's `gtid` is false"),
]

MISTAKES = [*ARGUMENTS, *TEXTS, *SERVER_KEYS, *TURNS, *REFUSALS]


class MistakesTest(WrapperTest):
    """Each mistake."""

    def test_each_mistake_is_named(self) -> None:
        """The status is the program's or the wrapper's own, and what is said names what is wrong."""
        for mistake in MISTAKES:
            with self.subTest(mistake.name):
                told = mistake.told()
                self.assertIn(mistake.says, told.both)
                self.assertEqual(told.status, mistake.status, told.both)

    def test_there_are_as_many_as_were_collected(self) -> None:
        """No mistake is left out."""
        self.assertEqual(len({mistake.name for mistake in MISTAKES}), 96)
