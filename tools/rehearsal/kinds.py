"""The two kinds of servers: where one is found, and how it is made, started, logged into and emptied."""
from __future__ import annotations

import argparse
import dataclasses
import glob
import os
import re
import shutil
import subprocess
from typing import Any

BOSS, REPLICATION, APP = "boss", "repl", "app"
PROGRAM = os.path.join(os.path.dirname(os.path.dirname(os.path.dirname(os.path.abspath(__file__)))), "crates/orch_cli/out/orch_cli")
FETCHED = os.environ.get("ORCH_SERVERS") or os.path.expanduser("~/.cache/orch-servers")

GRANTS = """grant all on *.* to {boss}@'127.0.0.1' with grant option;
grant replication slave on *.* to {repl}@'127.0.0.1';
grant select, insert, create, drop, alter, lock tables on *.* to {app}@'127.0.0.1';
"""


class Missing(Exception):
    """No server of this kind can be had here."""


@dataclasses.dataclass(frozen=True)
class Programs:
    """A server, its client, and the folder of its files, if that isn't the one that it was built for."""
    server: str
    client: str
    base: str | None


def users(word: str) -> str:
    """The statements that make the rehearsal's users, each with its name as its password."""
    made = "".join("%s {%s}@'127.0.0.1' identified by '{%s}';\n" % (word, name, name) for name in ("boss", "repl", "app"))
    return ("set sql_log_bin=0;\n" + made + GRANTS).format(boss=BOSS, repl=REPLICATION, app=APP)


def version_of(program: str) -> str:
    """What a server prints of its version; nothing if it doesn't run."""
    try:
        done = subprocess.run([program, "--no-defaults", "--version"], capture_output=True, stdin=subprocess.DEVNULL, timeout=60)
    except (OSError, subprocess.TimeoutExpired):
        return ""
    return done.stdout.decode("utf-8", "replace") if done.returncode == 0 else ""


def on_path(name: str) -> str | None:
    """A program of the machine; a server is often where a user's path doesn't lead."""
    return shutil.which(name, path=os.environ.get("PATH", "") + os.pathsep + "/usr/sbin" + os.pathsep + "/usr/local/sbin")


def programs_of(kind: str, folder: str) -> Programs:
    """Those that install.sh fetched into this folder, else those of the machine. MySQL counts from 8.0.26 on."""
    server, client = ("mysqld", "mysql") if kind == "mysql" else ("mariadbd", "mariadb")
    fetched = [os.path.join(folder, kind, "bin", name) for name in (server, client)]
    if all(os.access(program, os.X_OK) for program in fetched):
        return Programs(*fetched, os.path.join(folder, kind, "root/usr"))
    own = [on_path(name) for name in (server, client)]
    if not all(own):
        raise Missing("no %s and no %s on this machine or in %s/%s" % (server, client, folder, kind))
    version = version_of(str(own[0]))
    numbers = re.search(r"Ver (\d+)\.(\d+)\.(\d+)", version)
    if kind == "mysql" and ("MariaDB" in version or not numbers or tuple(int(part) for part in numbers.groups()) < (8, 0, 26)):
        raise Missing("%s is no MySQL from 8.0.26 on: %s" % (own[0], version.strip() or "it doesn't run"))
    return Programs(str(own[0]), str(own[1]), None)


class Make:
    """How servers of a kind are made. `gtid`: they are in GTID mode as the program knows it, which MariaDB hasn't. `by_gtids`:
    replicas of MariaDB go by MariaDB's GTIDs. `login` goes after a login in a plan's statement, `login_words` after that of a story."""
    kind, empty, login, login_words = "", "", "", ""

    def __init__(self, programs: Programs, given: argparse.Namespace) -> None:
        self.programs, self.given, self.client = programs, given, programs.client
        self.gtid = self.by_gtids = False
        self.as_root = ["--user=root"] if os.geteuid() == 0 and not given.run_as else []

    def boot(self) -> str:
        """The statements of a server's first start."""
        raise NotImplementedError

    def make(self, template: str, as_user: dict[str, Any]) -> None:
        """Makes a data folder from which each server's is copied."""
        raise NotImplementedError

    def words(self, data: str) -> list[str]:
        """The first part of a server's command line."""
        raise NotImplementedError

    def told(self) -> str:
        """The kind, its version, and how its replicas go."""
        found = re.search(r"Ver (\S+)", version_of(self.programs.server))
        gtids = "with GTIDs" if self.gtid or self.by_gtids else "without GTIDs"
        return "%s %s %s" % ("MySQL" if self.kind == "mysql" else "MariaDB", found.group(1) if found else "of unknown version", gtids)


class MariaDB(Make):
    """MariaDB. Its data folder is made by its own statements, as mariadb-install-db does it."""
    kind = "mariadb"
    empty = ("STOP SLAVE; RESET SLAVE ALL; SET GLOBAL read_only=OFF; SET sql_log_bin=0; DROP DATABASE IF EXISTS d; "
             "RESET MASTER; SET GLOBAL gtid_slave_pos=''; SET GLOBAL max_binlog_size=1073741824")
    TABLES = ("system_tables", "performance_tables", "system_tables_data", "fill_help_tables", "gis_sp_bootstrap")

    def __init__(self, programs: Programs, given: argparse.Namespace) -> None:
        super().__init__(programs, given)
        self.by_gtids = given.gtids
        self.share = os.path.join(programs.base or "/usr", "share")
        self.base = ["--basedir=" + programs.base] if programs.base else []

    def boot(self) -> str:
        """The statements of a server's first start."""
        return users("create or replace user")

    def system_tables(self) -> str:
        """The statements that make the system's tables."""
        found = []
        for name in self.TABLES:
            files = [file for file in glob.glob(self.share + "/m*/*%s.sql" % name) if os.path.basename(os.path.dirname(file)) in ("mysql", "mariadb")]
            if not files:
                raise Missing("no *%s.sql in %s" % (name, self.share))
            with open(sorted(files)[0], encoding="utf-8") as file:
                found.append(file.read())
        return "create database if not exists mysql;\nuse mysql;\nset @auth_root_socket=NULL;\n" + "\n".join(found)

    def make(self, template: str, as_user: dict[str, Any]) -> None:
        """Makes the data folder by the system's own statements."""
        os.mkdir(template)
        if self.given.run_as:
            shutil.chown(template, self.given.run_as)
        words = [self.programs.server, "--no-defaults", *self.base, *self.as_root, "--bootstrap", "--datadir=" + template, "--plugin-dir=" + template,
                 "--innodb-log-file-size=4M", "--innodb-buffer-pool-size=8M", "--log-warnings=0", "--enforce-storage-engine=", "--max-allowed-packet=8M",
                 "--net-buffer-length=16K"]
        subprocess.run(words, input=self.system_tables().encode(), check=True, stdout=subprocess.DEVNULL, stderr=subprocess.DEVNULL, timeout=300, **as_user)

    def words(self, data: str) -> list[str]:
        """The first part of a server's command line."""
        return [self.programs.server, "--no-defaults", *self.base, *self.as_root, "--plugin-dir=" + data, "--log-slave-updates=1",
                "--innodb-buffer-pool-size=8M", "--innodb-log-file-size=4M", "--key-buffer-size=64K", "--aria-pagecache-buffer-size=1M",
                "--binlog-format=" + self.given.binlog_format, "--slave-net-timeout=10"]


class MySQL(Make):
    """MySQL from 8.0.26 on. A login goes by caching_sha2_password: a replica asks for its source's public key, or the first login without TLS is
    refused. From 8.4 on a receiver gives up after ten tries unless SOURCE_RETRY_COUNT is another number."""
    kind = "mysql"
    login, login_words = "GET_SOURCE_PUBLIC_KEY=1", ", GET_SOURCE_PUBLIC_KEY=1, SOURCE_RETRY_COUNT=86400"

    def __init__(self, programs: Programs, given: argparse.Namespace) -> None:
        super().__init__(programs, given)
        self.gtid = given.gtids
        self.mode = "ON" if given.gtids else "OFF"
        found = re.search(r"Ver (\d+)\.(\d+)", version_of(programs.server))
        newest = bool(found) and (int(found.group(1)), int(found.group(2))) >= (8, 2)
        self.empty = ("STOP REPLICA; RESET REPLICA ALL; SET GLOBAL super_read_only=OFF; SET GLOBAL read_only=OFF; RESET PERSIST; SET sql_log_bin=0; "
                      "DROP DATABASE IF EXISTS d; %s; SET GLOBAL max_binlog_size=1073741824" % ("RESET BINARY LOGS AND GTIDS" if newest else "RESET MASTER"))
        base = programs.base
        folders = ["--basedir=" + base, "--lc-messages-dir=" + base + "/share/mysql", "--character-sets-dir=" + base + "/share/mysql/charsets",
                   "--plugin-dir=" + base + "/lib/mysql/plugin"] if base else []
        self.base = [*folders, "--secure-file-priv=", *self.as_root]

    def boot(self) -> str:
        """The statements of a server's first start."""
        return users("create user if not exists")

    def make(self, template: str, as_user: dict[str, Any]) -> None:
        """Without auto.cnf each copy gets a UUID of its own. SET PERSIST is read again only with a file of options, so there is an empty one."""
        subprocess.run([self.programs.server, "--no-defaults", *self.base, "--initialize-insecure", "--datadir=" + template, "--innodb-buffer-pool-size=16M"],
                       check=True, stdin=subprocess.DEVNULL, stdout=subprocess.DEVNULL, stderr=subprocess.DEVNULL, timeout=300, **as_user)
        if os.path.exists(template + "/auto.cnf"):
            os.remove(template + "/auto.cnf")
        with open(os.path.join(os.path.dirname(template), "my.cnf"), "w", encoding="utf-8"):
            pass

    def words(self, data: str) -> list[str]:
        """The first part of a server's command line."""
        return [self.programs.server, "--defaults-file=" + os.path.join(os.path.dirname(data), "my.cnf"), *self.base, "--mysqlx=OFF",
                "--log-replica-updates=1", "--innodb-buffer-pool-size=16M", "--loose-innodb-redo-log-capacity=8M", "--binlog-format=ROW",
                "--replica-net-timeout=10", "--replica-parallel-workers=%d" % self.given.appliers, "--gtid-mode=" + self.mode,
                "--enforce-gtid-consistency=" + self.mode]


def make_of(given: argparse.Namespace) -> Make:
    """The kind that was asked for; Missing if it can't be had."""
    programs = programs_of(given.kind, given.servers)
    return MySQL(programs, given) if given.kind == "mysql" else MariaDB(programs, given)
