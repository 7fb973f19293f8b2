"""Servers of the rehearsal's own on the loopback address, and the links between them."""
from __future__ import annotations

import argparse
import concurrent.futures
import os
import random
import re
import shutil
import signal
import socket
import subprocess
import threading
import time
from collections.abc import Sequence
from typing import Any

from orch_tools.client import Down, Refused, Servers
from orch_tools.plan import for_server
from rehearsal.ending import held
from rehearsal.kinds import APP, BOSS, make_of
from rehearsal.sessions import Sessions


def is_free(port: int) -> bool:
    """Whether nobody has this port of the loopback address."""
    with socket.socket() as one:
        try:
            one.bind(("127.0.0.1", port))
        except OSError:
            return False
    return True


def free_ports(count: int) -> list[int]:
    """So many free ports. They are below those that a system gives to connections: else one of these might take it before the server does."""
    found: list[int] = []
    while len(found) < count:
        port = random.SystemRandom().randrange(20000, 32000)
        if port not in found and is_free(port):
            found.append(port)
    return sorted(found)


def end_quietly(one: socket.socket) -> None:
    """Ends a connection, whatever has become of it."""
    try:
        one.shutdown(socket.SHUT_RDWR)
    except OSError:
        pass


class Proxy:
    """The link of one replica to its source, which can be cut and joined, or cut after so many more bytes of the source, which are `left`."""

    def __init__(self, port: int, target: int) -> None:
        self.port, self.target, self.open = port, target, True
        self.left: int | None = None
        self.pairs: list[tuple[socket.socket, socket.socket]] = []
        self.server = socket.socket()
        self.server.setsockopt(socket.SOL_SOCKET, socket.SO_REUSEADDR, 1)
        self.server.bind(("127.0.0.1", port))
        self.server.listen(8)
        threading.Thread(target=self.accept, daemon=True).start()

    def accept(self) -> None:
        """Takes connections until the link is closed."""
        while True:
            try:
                near, _ = self.server.accept()
            except OSError:
                return
            far = self.reached() if self.open else None
            if far is None:
                near.close()
                continue
            self.pairs.append((near, far))
            threading.Thread(target=self.pump, args=(near, far, False), daemon=True).start()
            threading.Thread(target=self.pump, args=(far, near, True), daemon=True).start()

    def reached(self) -> socket.socket | None:
        """A connection to the source, if it takes one."""
        try:
            far = socket.create_connection(("127.0.0.1", self.target), timeout=3)
        except OSError:
            return None
        far.settimeout(None)
        return far

    def pump(self, near: socket.socket, far: socket.socket, is_source: bool) -> None:
        """Hands on what one end sends, to its end or as far as it may."""
        try:
            while data := near.recv(65536):
                if is_source and self.left is not None:
                    data, self.left, self.open = data[:self.left], max(0, self.left - len(data)), self.left > len(data)
                far.sendall(data)
                if not self.open:
                    break
        except OSError:
            pass
        end_quietly(near)
        end_quietly(far)

    def cut(self) -> None:
        """Ends all connections, and takes no other."""
        self.open = False
        for pair in self.pairs:
            for one in pair:
                end_quietly(one)
                one.close()
        self.pairs = []

    def join(self) -> None:
        """Takes connections again."""
        self.open, self.left = True, None

    def close(self) -> None:
        """Ends the link for good."""
        self.cut()
        self.server.close()


class Farm:
    """So many servers in a folder, each a process that is ended by its handle. A signal of the terminal doesn't reach them."""
    LETTERS = "abcdefgh"

    def __init__(self, folder: str, count: int, given: argparse.Namespace) -> None:
        self.folder, self.given, self.make = folder, given, make_of(given)
        self.names = ["127.0.0.1:%d" % port for port in free_ports(count)]
        self.ids = {name: number for number, name in enumerate(self.names, 1)}
        self.process: dict[str, "subprocess.Popen[bytes]"] = {}
        self.altered: dict[str, bool] = {}
        self.held: list["subprocess.Popen[bytes]"] = []
        self.client = Sessions(self.make.client, BOSS, ["--no-defaults"], BOSS)
        self.clients = Sessions(self.make.client, APP, ["--no-defaults"], APP)
        self.kinds = Servers(self.client)
        self.as_user: dict[str, Any] = dict(user=given.run_as, group=given.run_as, extra_groups=[]) if given.run_as else {}
        if given.run_as:
            shutil.chown(folder, given.run_as)

    def start(self) -> None:
        """Makes the servers' data, with the users of the rehearsal, and starts all."""
        template, boot = os.path.join(self.folder, "template"), os.path.join(self.folder, "boot.sql")
        self.make.make(template, self.as_user)
        with open(boot, "w", encoding="utf-8") as file:
            file.write(self.make.boot())
        os.chmod(boot, 0o644)
        for name in self.names:
            subprocess.run(["cp", "-a", template, self.data(name)], check=True, timeout=300)
            self.launch(name, ["--init-file=" + boot])
        for name in self.names:
            self.ready(name)
            self.quit(name)
            self.launch(name)
        for name in self.names:
            self.ready(name)

    def data(self, name: str) -> str:
        """A server's data folder."""
        return os.path.join(self.folder, "s%d" % self.ids[name])

    def words(self, name: str) -> list[str]:
        """A server's command line."""
        data = self.data(name)
        return self.make.words(data) + [
            "--datadir=" + data, "--socket=" + data + "/m.sock", "--port=" + name.rpartition(":")[2], "--bind-address=127.0.0.1",
            "--server-id=%d" % self.ids[name], "--log-bin=mysql-bin", "--relay-log=relay", "--performance-schema=0", "--skip-name-resolve",
            "--innodb-flush-log-at-trx-commit=2", "--sync-binlog=0", "--thread-cache-size=0", "--table-open-cache=64", "--max-connections=40",
            "--pid-file=" + data + "/pid", "--tmpdir=" + self.folder]

    def launch(self, name: str, more: Sequence[str] = ()) -> None:
        """Starts a server's process. What it is given besides the usual options holds until it is emptied."""
        self.altered[name] = bool(more)
        for client in (self.client, self.clients):
            client.end("127.0.0.1", int(name.rpartition(":")[2]))
        with open(os.path.join(self.folder, "s%d.log" % self.ids[name]), "ab") as out, held():
            self.process[name] = subprocess.Popen(self.words(name) + list(more), stdout=out, stderr=out, stdin=subprocess.DEVNULL,
                                                  start_new_session=True, **self.as_user)

    def ready(self, name: str) -> None:
        """Waits until a server answers."""
        for _ in range(1200):
            try:
                self.ask(name, "SELECT 1")
                return
            except (Down, Refused):
                if self.process[name].poll() is not None:
                    raise RuntimeError("%s ended: %s" % (name, self.last_words(name))) from None
                time.sleep(0.05)
        raise RuntimeError("%s is not ready" % name)

    def last_words(self, name: str) -> str:
        """The end of what a server printed."""
        with open(os.path.join(self.folder, "s%d.log" % self.ids[name]), encoding="utf-8", errors="replace") as file:
            return file.read()[-400:]

    def is_up(self, name: str) -> bool:
        """Whether a server's process runs."""
        return name in self.process and self.process[name].poll() is None

    def end_one(self, name: str, how: signal.Signals) -> None:
        """Sends a signal to a server, and waits for its end."""
        if self.is_up(name):
            self.process[name].send_signal(how)
            self.process[name].wait(60)

    def quit(self, name: str) -> None:
        """Ends a server in order."""
        self.end_one(name, signal.SIGTERM)

    def kill(self, name: str) -> None:
        """Ends a server at once."""
        self.end_one(name, signal.SIGKILL)

    def end(self) -> None:
        """Ends all processes."""
        self.let_go()
        self.client.close()
        self.clients.close()
        for name in self.names:
            self.kill(name)

    def restart(self, name: str) -> None:
        """Kills a server, and starts it again."""
        self.kill(name)
        self.launch(name)
        self.ready(name)

    def ask(self, name: str, statements: str) -> list[dict[str, str]]:
        """A server's answer to statements in its own syntax."""
        host, _, port = name.rpartition(":")
        return self.client.ask(host, int(port), statements)

    def tell(self, name: str, statement: str) -> list[dict[str, str]]:
        """The same for one statement in the syntax of MySQL 8."""
        words = for_server(self.kinds.kind(name), statement)
        return self.ask(name, words) if words else []

    def words_of_client(self, name: str, user: str) -> list[str]:
        """A client's command line."""
        return [self.make.client, "--no-defaults", "--protocol=TCP", "-h", "127.0.0.1", "-P", name.rpartition(":")[2], "-u", user]

    def app(self, name: str, statement: str) -> int:
        """An ordinary client's statement: the number of the error that it is answered, 0, or -1 if the server goes away."""
        host, _, port = name.rpartition(":")
        told = self.clients.by_session(host, int(port), statement)
        if told is None:
            return -1
        found = re.search(r"ERROR (\d+)", told[2])
        return int(found.group(1)) if found else 0

    def hold(self, name: str, seconds: float) -> None:
        """Nobody writes the table of this server for so long."""
        process = subprocess.Popen(self.words_of_client(name, BOSS) + ["-e", "LOCK TABLES d.t READ; SELECT SLEEP(%s)" % seconds],
                                   env=dict(os.environ, MYSQL_PWD=BOSS), stdout=subprocess.DEVNULL, stderr=subprocess.DEVNULL, stdin=subprocess.DEVNULL)
        self.held.append(process)
        time.sleep(0.3)

    def let_go(self) -> None:
        """Ends the clients that hold tables."""
        for process in self.held:
            process.kill()
            process.wait(60)
        self.held.clear()

    def fresh(self) -> None:
        """All servers are up and empty, with logs from the first file on."""
        for name in self.names:
            if not self.is_up(name):
                self.launch(name)
        with concurrent.futures.ThreadPoolExecutor(len(self.names)) as pool:
            list(pool.map(self.empty, self.names))

    def empty(self, name: str) -> None:
        """A server loses all that a story has left."""
        if self.altered[name]:
            self.restart(name)
        self.ready(name)
        self.ask(name, "SET GLOBAL server_id=%d" % self.ids[name])
        self.ask(name, self.make.empty)
