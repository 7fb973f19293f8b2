"""Whether a rehearsal that is interrupted leaves nothing: a second one is started, and gets Ctrl-C."""
from __future__ import annotations

import argparse
import glob
import os
import signal
import socket
import subprocess
import sys
import tempfile
import time
from collections.abc import Iterator

from rehearsal.play import tell

ABOUT = "a rehearsal that gets Ctrl-C while its servers run leaves no process, no port and no file"


def command_lines() -> Iterator[tuple[int, list[str]]]:
    """The number and the command line of each process."""
    for file_name in glob.glob("/proc/[0-9]*/cmdline"):
        try:
            with open(file_name, "rb") as file:
                yield int(file_name.split("/")[2]), file.read().decode("utf-8", "replace").split("\0")
        except OSError:
            continue


def servers_in(folder: str) -> dict[int, int]:
    """The process and the port of each server whose data are in a folder."""
    found = {}
    for number, words in command_lines():
        if any(word.startswith("--datadir=" + folder) for word in words):
            found.update({number: int(word[7:]) for word in words if word.startswith("--port=")})
    return found


def listens(port: int) -> bool:
    """Whether anybody takes connections at a port."""
    with socket.socket() as one:
        one.settimeout(2)
        return one.connect_ex(("127.0.0.1", port)) == 0


def left_over(folder: str, servers: dict[int, int]) -> list[str]:
    """What an ended rehearsal has left."""
    bad = ["process %d" % number for number, words in command_lines() if any(folder in word for word in words)]
    bad += ["port %d" % port for port in servers.values() if listens(port)]
    return bad + ["file %s" % name for name in os.listdir(folder)]


def interrupted(given: argparse.Namespace, folder: str) -> list[str]:
    """What is wrong."""
    words = [sys.executable, "-B", os.path.join(os.path.dirname(os.path.abspath(__file__)), "rehearse.py"), "--kind", given.kind, "--orch", given.orch,
             "--servers", given.servers, "--folder", folder, "--steps", "500", "--only", "walk"]
    if given.gtids:
        words.append("--gtids")
    servers: dict[int, int] = {}
    out: Any = tempfile.TemporaryFile()
    process = subprocess.Popen(words, stdout=out, stderr=out, stdin=subprocess.DEVNULL, start_new_session=True)
    try:
        until = time.monotonic() + 240
        while time.monotonic() < until and process.poll() is None and not (len(servers) == 5 and all(listens(port) for port in servers.values())):
            time.sleep(0.2)
            servers = servers_in(folder)
        if process.poll() is not None:
            out.seek(0)
            return ["it ended by itself: " + out.read().decode("utf-8", "replace")[-800:]]
        os.killpg(process.pid, signal.SIGINT)
        status = process.wait(120)
    finally:
        if process.poll() is None:
            process.send_signal(signal.SIGTERM)
            process.wait(120)
        out.close()
    bad = [] if len(servers) == 5 else ["%d servers were running" % len(servers)]
    bad += [] if status == 1 else ["the status was %d" % status]
    return bad + left_over(folder, servers)


def one_interrupted(given: argparse.Namespace) -> bool:
    """Whether nothing is left."""
    began = time.monotonic()
    with tempfile.TemporaryDirectory(prefix="interrupted.", dir=given.folder) as folder:
        bad = interrupted(given, folder)
    tell("FAILED" if bad else "passed", "interrupted", began, ABOUT, ["left: " + line for line in bad])
    return not bad
