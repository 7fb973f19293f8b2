"""The wrapper: what it gives to the program, what it explains, its help, completion and man page."""
from __future__ import annotations

import json
import os
import re
import subprocess
import sys
import unittest

from player import RECORDED
from record import remove_logs
from wrapped import HERE, PLAYER, SHOP, TOP, WRAPPER, WrapperTest

from orch_tools import answers, command_line, json_text, man, refusals, table, wrapper
from orch_tools.layout import Layout
from orch_tools.program import BUILT

CHAIN = '{"version":1,"servers":[{"name":"m","history":[["m",100,4]]},{"name":"s","source":"m","executed":4},{"name":"r","source":"s"}]}'
PURGED = ('{"version":1,"servers":[{"name":"m","history":[["m",100,3]],"limit":100},{"name":"r","source":"m","executed":1}],'
          '"turns":[["cut","r","feed"],["purge","m",3],["join","r","feed"],["fetch","r"],["command","move-up",{"i":"r"}]]}')


class HandedOnTest(WrapperTest):
    """Command lines of the program."""

    def test_bytes_and_status_come_back(self) -> None:
        """Without a terminal nothing is added, whatever the status is."""
        told = self.told(0, "-c", "topology", "-i", "m", given=CHAIN)
        self.assertEqual(told.out, "m:3306 [ok,8.0.36,rw]\n+ s:3306 [ok,8.0.36,ro]\n  + r:3306 [ok,8.0.36,ro]\n")
        self.assertEqual(self.told(1, "-c", "toplogy", given=CHAIN).err, "usage\n")
        self.assertEqual(self.told(7, "-c", "move-up", "-i", "s", given=CHAIN).err, "refused 11 SourceHasNoSource\n")
        self.assertEqual(self.told(2, "-c", "run", given="{}").err, "scenario fault 3 Missing\n")

    def test_no_input_is_read_where_the_program_reads_none(self) -> None:
        """What draws a scenario doesn't wait for one."""
        with subprocess.Popen([sys.executable, "-B", "-S", WRAPPER, "-c", "generate", "--servers", "2", "--turns", "0"], stdin=subprocess.PIPE,
                              stdout=subprocess.PIPE, cwd=HERE, env={**os.environ, "ORCH": PLAYER}) as process:
            self.assertIn(b'"servers":[', process.stdout.read())
            self.assertEqual(process.wait(), 0)

    def test_comments_and_schema_are_taken(self) -> None:
        """Comments, and `$schema` first, in the midst and last, are the same scenario; a text that looks like one stays."""
        plain = self.told(0, "-c", "run", given='{"version":1,"servers":[{"name":"m","dc":"//x"}]}').out
        for given in ('// a\n{"$schema":"s","version":1, // b\n"servers":[{"name":"m","dc":"//x"}]}',
                      '{"version":1,"$schema":"s","servers":[{"name":"m","dc":"//x"}]}',
                      '{"version":1,"servers":[{"name":"m","dc":"//x"}],"$schema":"s"}'):
            self.assertEqual(json.loads(json_text.plain(given)), {"version": 1, "servers": [{"name": "m", "dc": "//x"}]})
            self.assertEqual(self.told(0, "-c", "run", given=given).out, plain)

    def test_places_are_those_of_the_file(self) -> None:
        """After comments a fault's line and column are the file's, and its line is printed as it is."""
        told = self.told(2, "--explain", "-c", "run", given='// a\n{"version":1,\n "servers":[{"name":"m", // b\n  "sorce":"x"}]}')
        self.assert_lines(told.err, "scenario fault 5 UnknownKey /servers/0/sorce",
                          "standard input:4:3: there is no key `sorce` here. Did you mean `source`?", '      "sorce":"x"}]}', "      ^")

    def test_a_file_is_read_in_the_programs_place(self) -> None:
        """--scenario names a file that may have comments."""
        told = self.told(0, "-c", "clusters", "--scenario", SHOP)
        self.assertEqual(told.out, "db1:3306\n")
        self.assertEqual(self.told(0, "-c", "clusters", "--scenario=" + SHOP).out, told.out)

    def test_refused_replies_of_a_run_are_explained(self) -> None:
        """The replies come first, byte by byte, then the paragraphs."""
        told = self.told(7, "--explain", "-c", "run", given=PURGED)
        self.assertEqual(told.out, self.told(7, "-c", "run", given=PURGED).out)
        if refusals.Sections().texts:
            self.assertIn("refused 11 SourceHasNoSource (docs/REFUSALS.md):", told.err)

    def test_without_a_program_the_status_is_3(self) -> None:
        """And the reason has how to build it."""
        told = self.told(3, "-c", "run", given=CHAIN, ORCH="/nowhere/orch_cli")
        self.assertIn("/nowhere/orch_cli can't be run: No such file or directory", told.err)
        if not os.path.exists(BUILT):
            told = self.told(3, "outage", "m", given=CHAIN, ORCH="", PATH="/nowhere")
            self.assertIn("the program orch_cli isn't built. Build it:", told.err)

    def test_every_option_form_is_known(self) -> None:
        """Values after a blank, after `=` and joined to a letter."""
        for words in (["-c", "topology", "-i", "m"], ["-ctopology", "-im"], ["-c=topology", "-i=m"]):
            line = command_line.CommandLine(words)
            self.assertEqual((line.values, line.every_mistake()), ({"-c": "topology", "-i": "m"}, []))


class HelpTest(WrapperTest):
    """Help, version, completion and man page."""

    def test_version_is_the_repositorys(self) -> None:
        """One place has it."""
        with open(os.path.join(TOP, "VERSION"), encoding="utf-8") as file:
            self.assertEqual(self.told(0, "--version").out, "orch " + file.read())

    def test_each_subcommand_has_help(self) -> None:
        """By --help and by help, with the status 0; wrong arguments have the status 2."""
        for name in wrapper.SUBCOMMANDS:
            with self.subTest(name):
                self.assertIn("usage: orch " + name, self.told(0, name, "--help").out)
                self.assertIn("usage: orch " + name, self.told(0, "help", name).out)
                self.assertIn("usage: orch " + name, self.told(2, name, "--nothing-of-this-name").err)
        self.assertIn("Did you mean `outage`?", self.told(2, "help", "outagee").err)

    def test_each_command_of_the_program_has_help(self) -> None:
        """Its synopsis, and what it does."""
        for command in table.COMMANDS:
            self.assertTrue(wrapper.command_help(command.name).startswith("usage: orch -c %s" % command.name))
        self.assertIn("usage: orch -c relocate -i HOST[:PORT] -d HOST[:PORT]", self.told(0, "-c", "relocate", "--help").out)

    def test_the_table_has_the_programs_words(self) -> None:
        """Each command of the program's own list, and no other."""
        path = os.path.join(TOP, "crates", "commands", "src", "table.rt")
        with open(path, encoding="utf-8") as file:
            words = set(re.findall(r'Self::\w+ => \w+\(\s*"([a-z-]+)"', file.read()))
        self.assertEqual(words | {"run", "live", "dump", "generate"}, set(table.BY_NAME))

    def test_the_table_has_the_programs_options(self) -> None:
        """Each option of the program's own list, and no other."""
        path = os.path.join(TOP, "crates", "command_line", "src", "options.rt")
        with open(path, encoding="utf-8") as file:
            source = file.read()
        words = {"--" + word for word in re.findall(r'^    "([a-z-]+)",$', source, re.M) + re.findall(r'"(tables|summary|plan|dump)"\)', source)}
        self.assertEqual(words | {"-c", "-i", "-d"}, set(table.OPTION_OF))

    def test_completion_of_bash_completes(self) -> None:
        """Subcommands, commands, options and values."""
        script = self.told(0, "completion", "bash").out + (
            'try() { COMP_WORDS=("$@"); COMP_CWORD=$(($# - 1)); COMPREPLY=(); _orch; echo "${COMPREPLY[@]}"; }\n'
            "try orch outa; try orch -c move-b; try orch --promotion-rule prefer_; try orch sweep --pa; try orch completion z\n")
        done = subprocess.run(["bash"], input=script.encode(), capture_output=True, cwd=HERE, check=False)
        self.assertEqual(done.stdout.decode().splitlines(), ["outage", "move-below", "prefer_not", "--pairs", "zsh"], done.stderr)

    def test_completion_of_zsh_and_fish_names_all(self) -> None:
        """Each subcommand and each command."""
        for shell in ("zsh", "fish"):
            out = self.told(0, "completion", shell).out
            for name in [*wrapper.SUBCOMMANDS, *table.BY_NAME]:
                self.assertIn(name, out)

    def test_the_man_page_names_all(self) -> None:
        """Each subcommand, command and option; no line begins with a sign that troff takes for a request."""
        page = self.told(0, "man").out
        for name in [*wrapper.SUBCOMMANDS, *table.BY_NAME, *table.OPTION_OF]:
            self.assertIn(man.escaped(name), page)
        requests = {text.split()[0] for text in page.splitlines() if text.startswith(".")}
        self.assertEqual(requests, {".TH", ".SH", ".SS", ".B", ".I", ".br", ".TP", ".PP", ".nf", ".fi"})


class ExplainTest(WrapperTest):
    """The subcommand explain, and the document that it reads."""

    DOCUMENT = ["# R", "### refused 16 VersionLower", "", "A server that moves has a `lower` [version](X.md).", "", "**When.** Always.", "",
                "### refused 5 Unreachable", "one", "### failed Unreachable", "two", "### lost not logging", "three", "## Codes",
                "### analysis NoProblem", "four", "### refused 20 NotActionable", "five", "### scenario fault 13 TooMany", "six"]

    def sections(self) -> refusals.Sections:
        """The sections of a small document."""
        found = refusals.Sections("/nowhere")
        found.read(self.DOCUMENT)
        return found

    def test_lines_find_their_sections(self) -> None:
        """Whatever line of the program it is, and a name alone."""
        found = self.sections()
        for text, headings in (("refused 16 VersionLower db7:3306", ["refused 16 VersionLower"]),
                               ("7 command move-up r:3306: refused 5 Unreachable r:3306", ["refused 5 Unreachable"]),
                               ("9 job 1: failed Unreachable r:3306", ["failed Unreachable"]),
                               ("Unreachable", ["refused 5 Unreachable", "failed Unreachable"]),
                               ("b:3306 not logging detached", ["lost not logging"]), ("16 VersionLower", ["refused 16 VersionLower"]),
                               ("lost not logging", ["lost not logging"]), ("analysis NoProblem", ["analysis NoProblem"]),
                               ("refused 20 NotActionable NoProblem", ["refused 20 NotActionable", "analysis NoProblem"]),
                               ("scenario fault 13 TooMany /servers/1/executed", ["scenario fault 13 TooMany"]), ("nothing", [])):
            self.assertEqual(found.of(text), headings, text)

    def test_text_is_plain(self) -> None:
        """Signs of the document are taken out."""
        found = self.sections()
        self.assertEqual(found.plain("refused 16 VersionLower"), ["A server that moves has a lower version.", "", "When. Always."])
        self.assertEqual(found.first("refused 16 VersionLower"), ["A server that moves has a lower version."])

    @unittest.skipUnless(refusals.Sections().texts, "docs/REFUSALS.md isn't there")
    def test_the_document_has_every_name(self) -> None:
        """Refusals, codes and reasons that the program prints."""
        found = refusals.Sections()
        path = os.path.join(TOP, "docs", "SCENARIO.md")
        with open(path, encoding="utf-8") as file:
            faults = re.findall(r"\b\d+ ([A-Z]\w+)[,.]", file.read().split("## Faults")[-1])
        for name in faults:
            self.assertTrue(found.heading_of("scenario fault", name), name)
        for reason in ("ahead", "behind", "unreachable", "moved", "not logging", "must not", "purged"):
            self.assertTrue(found.heading_of("lost", reason), reason)
        told = self.told(0, "explain", "refused 16 VersionLower db7:3306")
        self.assertTrue(told.out.startswith("refused 16 VersionLower\n  "))
        self.assertIn("Did you mean `VersionLower`?", self.told(3, "explain", "VersionLowr").err)


class ValuesTest(unittest.TestCase):
    """Small parts of the tools."""

    def test_a_line_of_the_tables(self) -> None:
        """Each field of a server's line."""
        line = ("server a:3306 up ro executed 3 end mysql-bin.000002:4 source m:3306 detached at mysql-bin.000001:304 read mysql-bin.000001:404"
                " io off sql on until mysql-bin.000009:4 auto purged 2")
        server = answers.tables_of(line).servers["a:3306"]
        self.assertEqual((server.source, server.detached, server.at, server.read, server.io, server.sql, server.until, server.auto, server.purged),
                         ("m:3306", True, "mysql-bin.000001:304", "mysql-bin.000001:404", "off", "on", "mysql-bin.000009:4", True, 2))

    def test_lines_of_an_outcome(self) -> None:
        """Promoted, followers, lost ones with their reasons, and other lines."""
        told = answers.outcome_of(["promoted b:3306", "a:3306<b:3306", "c:3306 behind mysql-bin.000001:204 detached", "d:3306 must not detached",
                                   "e:3306 moved x:3306 mysql-bin.000001:4", "hook post_failover check exit 0"])
        self.assertEqual((told.promoted, told.below, told.others), ("b:3306", {"a:3306": "b:3306"}, ["hook post_failover check exit 0"]))
        self.assertEqual([(lost.why, lost.value, lost.detached) for lost in told.lost.values()],
                         [("behind", "mysql-bin.000001:204", True), ("must not", "", True), ("moved", "x:3306 mysql-bin.000001:4", False)])

    def test_a_log_is_laid_out(self) -> None:
        """By sizes, the limit and flushes, as the program does."""
        layout = Layout([["m:3306", 100, 2], ["a:3306", 50, 2]], 204, [3, 3], 4)
        self.assertEqual(layout.ends, [(1, 4), (1, 104), (1, 204), (2, 54), (4, 54)])
        self.assertEqual([layout.place(text) for text in ("x.000001:4", "x.000001:204", "x.000002:4", "x.000003:4", "x.000004:54")], [0, 2, 2, 3, 4])
        self.assertEqual([layout.origin(place) for place in (1, 3, 4)], [("m:3306", 1), ("a:3306", 1), ("a:3306", 2)])


class RecordedTest(unittest.TestCase):
    """The recorded answers."""

    @unittest.skipUnless(os.path.exists(BUILT), "the program isn't built")
    def test_the_program_still_gives_them(self) -> None:
        """Each of them, if the program is built. tools/tests/record.py records them anew."""
        self.addCleanup(remove_logs)
        with open(RECORDED, encoding="ascii") as file:
            rows = json.load(file).values()
        for row in rows:
            given = row["input"].encode("utf-8", "surrogateescape")
            done = subprocess.run([BUILT, *row["words"]], input=given, capture_output=True,
                                  cwd=HERE, check=False)
            with self.subTest(row["words"]):
                self.assertEqual((done.returncode, done.stdout.decode(), done.stderr.decode()), (row["status"], row["out"], row["err"]))


if __name__ == "__main__":
    unittest.main()
