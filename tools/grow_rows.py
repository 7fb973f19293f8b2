"""What tools/grow.py asks: for each command, turn and list of the format a scenario that grows with N."""
from __future__ import annotations

import dataclasses
import itertools
from collections.abc import Callable, Iterator
from typing import Any

Turn = list[Any]
Keys = dict[str, Any]
SUMMARY = ("-c", "run", "--summary")


@dataclasses.dataclass(frozen=True)
class Asked:
    """A command line and its scenario. `refused` is how many replies a summary counts as refused; None if that isn't looked at."""
    words: tuple[str, ...]
    scenario: Keys
    refused: int | None = 0


@dataclasses.dataclass(frozen=True)
class Row:
    """A generator. `start` is the least N, `most` the greatest one that the format takes."""
    kind: str
    name: str
    grows: str
    start: int
    most: int
    make: Callable[[int], Asked]


# ---- servers and turns

def star(replicas: int, size: int = 3, **more: Any) -> list[Keys]:
    """A master with so many transactions, and replicas that have executed them all."""
    return [{"name": "m", "history": [["m", 100, size]]}] + [{"name": "r%03d" % n, "source": "m", "executed": size, **more} for n in range(replicas)]


def pairs(count: int) -> list[Keys]:
    """So many masters with one replica each: the clusters m000:3306, m001:3306, .."""
    masters: list[Keys] = [{"name": "m%03d" % n, "history": [["m%03d" % n, 100, 1]]} for n in range(count)]
    return masters + [{"name": "r%03d" % n, "source": "m%03d" % n, "executed": 1} for n in range(count)]


def chain(count: int) -> list[Keys]:
    """So many servers, each the source of the next one."""
    return [{"name": "s%03d" % n, **({"source": "s%03d" % (n - 1)} if n else {})} for n in range(count)]


def asked(name: str, **keys: Any) -> Turn:
    """The turn of a command."""
    return ["command", name, keys]


def jobs(number: int, turns: int) -> list[Turn]:
    """So many turns of a job: those after its end are answered without a search."""
    return [["job", number]] * turns


def seen(*names: str) -> list[Turn]:
    """A poll of each of these servers."""
    return [turn for name in names for turn in (["poll-read", 0, name], ["poll-store", 0])]


def summary(servers: list[Keys], turns: list[Turn], refused: int | None = 0, **top: Any) -> Asked:
    """The summary of a run."""
    return Asked(SUMMARY, {"version": 1, "servers": servers, "turns": turns, **top}, refused)


def again(count: int, cycle: list[Turn], polled: tuple[str, ...], turns: int) -> list[Turn]:
    """So many commands that begin jobs, one after another: each is followed by the turns of its job and by polls."""
    steps: list[Turn] = [["polls"]]
    for number, command in zip(range(1, count + 1), itertools.cycle(cycle)):
        steps += [command, *jobs(number, turns), *seen(*polled)]
    return steps


def dead(count: int, recovered: Turn, after: list[Turn]) -> list[Turn]:
    """So many recoveries of the master, one after another, each ended by its job: it fails because the master is reached again."""
    steps: list[Turn] = [["fail", "m"], ["polls"]]
    for number in range(1, count + 1):
        steps += [recovered, ["heal", "m"], ["job", number], ["fail", "m"], *seen("m"), *after]
    return steps


# ---- rows

ROWS: list[Row] = []
Generator = Callable[[int], Asked]


def row(kind: str, name: str, grows: str, start: int, most: int) -> Callable[[Generator], Generator]:
    """Adds a generator to the rows."""
    def added(make: Generator) -> Generator:
        ROWS.append(Row(kind, name, grows, start, most, make))
        return make
    return added


def questions(name: str, keys: Keys, lines: int) -> None:
    """Adds a row that asks N times over 200 servers, and gets so many lines each time."""
    row("command", name, "questions, %d lines each" % lines, 64, 200000)(
        lambda count: summary(star(199), [["polls"], *[asked(name, **keys)] * count]))


def one_server(*names: str, **top: Any) -> None:
    """Adds a row of N jobs of one server, by turns these commands."""
    row("command", ", ".join(names), "jobs one after another", 64, 60000)(
        lambda count: summary(star(9), again(count, [asked(name, i="r000") for name in names], ("r000",), 12), **top))


def moved(name: str, cycle: list[Turn], servers: list[Keys], **top: Any) -> None:
    """Adds a row of N moves that undo one another."""
    row("command", name, "moves one after another", 64, 20000)(
        lambda count: summary(servers, again(count, cycle, tuple(it["name"] for it in servers), 40), **top))


def moved_replicas(name: str, turns: Callable[[int], list[Turn]], **top: Any) -> None:
    """Adds a row of one command over N replicas, by the turns of its job."""
    row("command", name, "replicas, by the turns of one job", 240, 960)(
        lambda count: summary(star(count), [["polls"], *turns(count)], **top))


def at_once(name: str, **keys: Any) -> Callable[[int], list[Turn]]:
    """A command and enough turns of its job for so many replicas."""
    return lambda count: [asked(name, **keys), *jobs(1, 14 * count + 60)]


for question, question_keys, line_count in (("topology", {"i": "m"}, 200), ("clusters", {}, 1), ("all-instances", {}, 200), ("which-master", {"i": "r007"}, 1),
                                            ("which-replicas", {"i": "m"}, 199), ("which-cluster", {"i": "r007"}, 1),
                                            ("which-cluster-instances", {"i": "r007"}, 200), ("replication-analysis", {}, 0),
                                            ("check-global-recoveries", {}, 1)):
    questions(question, question_keys, line_count)
one_server("stop-replica", "start-replica")
one_server("restart-replica")
one_server("set-writeable", "set-read-only")
one_server("detach-replica", "reattach-replica")
one_server("enable-gtid", "disable-gtid", gtid=True)
moved("move-up", [asked("move-below", i="r000", d="r001"), asked("move-up", i="r000")], star(2))
moved("move-below", [asked("move-below", i="r001", d="r000"), asked("move-up", i="r001")], star(2))
moved("repoint", [asked("repoint", i="r000")], star(2))
moved("take-master", [asked("take-master", i="s002"), asked("take-master", i="s001")], chain(3))
moved("move-gtid", [asked("move-gtid", i="r000", d="r001"), asked("move-gtid", i="r000", d="m")], star(2), gtid=True)
moved("relocate", [asked("relocate", i="r000", d="r001"), asked("relocate", i="r000", d="m")], star(2))
moved("match", [asked("match", i="r000", d="r001"), asked("match", i="r000", d="m")], star(2), pseudo=2)
moved("match-up", [asked("match", i="r000", d="r001"), asked("match-up", i="r000")], star(2), pseudo=2)
moved_replicas("take-siblings", at_once("take-siblings", i="r000"))
moved_replicas("move-replicas-gtid", at_once("move-replicas-gtid", i="m", d="r000"), gtid=True)
moved_replicas("relocate-replicas", at_once("relocate-replicas", i="m", d="r000"))
moved_replicas("match-replicas", at_once("match-replicas", i="m", d="r000"), pseudo=2)
moved_replicas("regroup-replicas", at_once("regroup-replicas", i="m"))
moved_replicas("regroup-replicas-pgtid", at_once("regroup-replicas-pgtid", i="m"), pseudo=2)
moved_replicas("graceful-master-takeover", at_once("graceful-master-takeover", i="m", d="r000"))


@row("command", "move-up-replicas", "replicas, by the turns of one job", 240, 960)
def move_up_replicas(count: int) -> Asked:
    """A server below the master has so many replicas."""
    servers = [*star(1), *({"name": "x%03d" % n, "source": "r000", "executed": 3} for n in range(count))]
    return summary(servers, [["polls"], *at_once("move-up-replicas", i="r000")(count)])


@row("command", "reset-replica", "servers, a job each", 240, 960)
def reset_replica(count: int) -> Asked:
    """Each replica loses its source."""
    return summary(star(count), [["polls"], *(turn for n in range(count) for turn in (asked("reset-replica", i="r%03d" % n), *jobs(n + 1, 20)))])


@row("command", "find", "questions of another pattern each, 200 servers", 32, 40000)
def find(count: int) -> Asked:
    """Patterns that end in another number each."""
    return summary(star(199), [asked("find", pattern="r[0-9]*%d$" % n) for n in range(count)])


@row("command", "discover, forget", "servers, 20 times each", 240, 960)
def discover_forget(count: int) -> Asked:
    """Each server is forgotten and discovered again."""
    return summary(star(count), [asked(name, i="r%03d" % n) for _ in range(20) for n in range(count) for name in ("forget", "discover")])


@row("command", "begin-downtime, end-downtime", "servers, 20 times each", 240, 960)
def downtimes(count: int) -> Asked:
    """Each server's downtime begins and ends."""
    return summary(star(count), [asked(name, i="r%03d" % n) for _ in range(20) for n in range(count) for name in ("begin-downtime", "end-downtime")])


@row("command", "register-candidate", "servers, 40 times each", 240, 960)
def register_candidate(count: int) -> Asked:
    """Each server is registered over and over."""
    return summary(star(count), [asked("register-candidate", i="r%03d" % n, rule="prefer") for _ in range(40) for n in range(count)])


@row("command", "disable-global-recoveries, enable-global-recoveries", "decisions", 512, 400000)
def switches(count: int) -> Asked:
    """The switch, off and on."""
    return summary(star(1), [asked("disable-global-recoveries"), asked("enable-global-recoveries")] * (count // 2))


@row("command", "recover", "recoveries one after another", 64, 50000)
def recover(count: int) -> Asked:
    """Each one is ended before the next one begins."""
    return summary(star(1), dead(count, asked("recover", i="m"), []), None, block=0)


@row("command", "ack-cluster-recoveries", "recoveries, and as many acknowledgements", 64, 50000)
def ack_cluster_recoveries(count: int) -> Asked:
    """The first acknowledges all, the others find nothing new."""
    return summary(star(1), [*dead(count, asked("recover", i="m"), []), *[asked("ack-cluster-recoveries", i="m")] * count], None, block=0)


@row("command", "audit-recoveries", "questions, 100 lines each", 64, 100000)
def audit_recoveries(count: int) -> Asked:
    """The same hundred recoveries each time."""
    return summary(star(1), [*dead(100, asked("recover", i="m"), []), *[asked("audit-recoveries")] * count], None, block=0)


@row("command", "run", "rounds of ten servers", 64, 25000)
def run(count: int) -> Asked:
    """With the report of all turns."""
    return Asked(("-c", "run"), {"version": 1, "servers": star(9), "turns": [["write", "m", 100], ["round"]] * count}, None)


@row("command", "live", "exchanges of ten servers", 512, 400000)
def live(count: int) -> Asked:
    """One poller and one worker."""
    turns = [turn for n in range(count // 3) for turn in (["write", "m", 100], ["fetch", "r%03d" % (n % 9)], ["apply", "r%03d" % (n % 9)])]
    return Asked(("-c", "live", "--pollers", "1", "--workers", "1"), {"version": 1, "servers": star(9), "turns": turns}, None)


@row("command", "dump", "parts of a history, ten servers", 256, 400000)
def dump(count: int) -> Asked:
    """Parts of two sizes."""
    servers = [{"name": "m", "history": [["m", 50 + n % 2, 1] for n in range(count)]}]
    return Asked(("-c", "dump"), {"version": 1, "servers": servers + [{"name": "r%d" % n, "source": "m", "executed": count} for n in range(9)]}, None)


@row("command", "generate", "turns of ten servers", 512, 390000)
def generate(count: int) -> Asked:
    """Reads no scenario."""
    return Asked(("-c", "generate", "--servers", "10", "--turns", str(count)), {}, None)


# ---- turns

def turns_of(name: str, servers: list[Keys], cycle: list[Turn], before: tuple[Turn, ...] = (), **top: Any) -> None:
    """Adds a row of N turns, these over and over."""
    row("turn", name, "turns", 1024, 800000)(
        lambda count: summary(servers, [*before, *itertools.islice(itertools.cycle(cycle), count)], None if top.get("nodes") else 0, **top))


turns_of("write", star(0), [["write", "m", 1]])
turns_of("fetch, apply", star(9), [["write", "m", 1], *([name, "r%03d" % n] for n in range(9) for name in ("fetch", "apply"))])
turns_of("fail, heal", star(9), [["fail", "r003"], ["heal", "r003"]])
turns_of("cut, join", star(9), [["cut", "r003", "feed"], ["join", "r003", "feed"]])
turns_of("rotate", star(1), [["rotate", "m"], ["fetch", "r000"]])
turns_of("tick", star(0), [["tick", 1]])
turns_of("poll-read, poll-store", star(199), seen(*("r%03d" % n for n in range(199))))
turns_of("command", star(9), [asked("which-master", i="r003")])
turns_of("job", star(1), [["job", 7]])
turns_of("scan", star(99), [["scan"]], (["fail", "m"], ["polls"]))
turns_of("claim, release", star(1), [["claim", 1], ["release", 1], ["claim", 2], ["release", 2]], nodes=2)
turns_of("as", star(1), [["as", 1, turn] for turn in seen("m", "r000")], (["claim", 1],), nodes=2)


def mixed(clusters: list[list[str]]) -> Iterator[Turn]:
    """Exchanges, polls, events, questions, decisions, jobs and recoveries, over and over. The last cluster's master is dead."""
    dead_one = clusters[-1][0]
    for number in itertools.count():
        master, *replicas = clusters[number % (len(clusters) - 1)]
        place = 3 + 10 * (number // (len(clusters) - 1) % 9)
        some, (first, second, third), away = replicas[place:place + 10], replicas[:3], number // (len(clusters) - 1) % 2 == 0
        yield from (["write", master, 100],) if number < 3900 else ()
        yield from (turn for name in some for turn in (["fetch", name], ["apply", name]))
        yield from (["tick", 1], ["rotate", master], ["fail", some[0]], ["heal", some[0]], ["cut", some[1], "feed"], ["join", some[1], "feed"])
        yield from seen(*some)
        yield from (asked(name, i=some[2]) for name in ("topology", "which-master", "which-replicas", "which-cluster", "which-cluster-instances"))
        yield from (asked("clusters"), asked("replication-analysis"), asked("find", pattern="^s%d[0-9]*7:" % (number % 10)), asked("check-global-recoveries"))
        yield from (asked(name, i=some[3]) for name in ("begin-downtime", "end-downtime", "forget", "discover"))
        yield from (asked("register-candidate", i=some[4], rule="prefer"), asked("disable-global-recoveries"), ["scan"], asked("enable-global-recoveries"))
        yield from (asked("stop-replica" if away else "start-replica", i=third), *jobs(3 * number + 1, 3), *seen(third))
        yield from (asked("relocate", i=first, d=second if away else master), *jobs(3 * number + 2, 40), *seen(master, first, second))
        yield from (asked("recover", i=dead_one), ["heal", dead_one], ["job", 3 * number + 3], ["fail", dead_one], *seen(dead_one))
        yield from (asked("ack-cluster-recoveries", i=dead_one),) if number % 2 else ()


@row("turn", "all kinds", "turns, 1,000 servers in ten clusters", 249000, 996000)
def all_kinds(count: int) -> Asked:
    """The polls at the start are 2,000 of them."""
    clusters = [["s%d%02d" % (k, n) for n in range(100)] for k in range(10)]
    servers = [{"name": name, **({"source": names[0]} if at else {"history": [[name, 100, 3]]})} for names in clusters for at, name in enumerate(names)]
    turns = [["fail", clusters[-1][0]], ["polls"], *itertools.islice(mixed(clusters), max(count - 2001, 0))]
    return summary(servers, turns, None, block=0)


@row("turn", "refused regroups", "refused commands, 1,000 servers", 64, 100000)
def regroup_refused(count: int) -> Asked:
    """A job has the leases: each later command that asks for them is refused."""
    return summary(star(999), [["polls"], *[asked("regroup-replicas", i="m")] * (count + 1)], count)


@row("turn", "polls", "times, 20 servers", 64, 25000)
def polls(count: int) -> Asked:
    """All servers over and over."""
    return summary(star(19), [["polls"]] * count)


@row("turn", "round", "times, 20 servers", 64, 12500)
def rounds(count: int) -> Asked:
    """With a write before each."""
    return summary(star(19), [["write", "m", 1], ["round"]] * count)


@row("turn", "purge", "times, with as many rotations", 256, 250000)
def purges(count: int) -> Asked:
    """Ten replicas read the log; none of them holds the first files."""
    return summary(star(9), [turn for n in range(count) for turn in (["rotate", "m"], ["purge", "m", n + 2])])


@row("turn", "restart", "times, 500 servers", 16, 100000)
def restarts(count: int) -> Asked:
    """Kept rows are loaded anew."""
    return summary(star(499), [["polls"], *[["restart"]] * count])


@row("turn", "restart of recoveries", "recoveries and restarts", 64, 50000)
def restarts_of_recoveries(count: int) -> Asked:
    """Each restart interrupts one."""
    return summary(star(1), [["fail", "m"], ["polls"], *[asked("recover", i="m"), ["restart"]] * count], None, block=0)


@row("turn", "job of a recovery", "replicas, eight turns each", 240, 960)
def job_of_recovery(count: int) -> Asked:
    """The master is dead."""
    return summary(star(count), [["fail", "m"], ["polls"], asked("recover", i="m"), *jobs(1, 8 * count)], None)


@row("turn", "scan of dead masters", "masters, 200 scans", 60, 480)
def scans(count: int) -> Asked:
    """The first begins all recoveries. The others find them begun."""
    return summary(pairs(count), [*(["fail", "m%03d" % n] for n in range(count)), ["polls"], *[["scan"]] * 200], None)


# ---- lists

@row("list", "turns", "turns", 4096, 1000000)
def turns(count: int) -> Asked:
    """The shortest."""
    return summary(star(0), [["tick", 0]] * count)


@row("list", "servers", "servers, 50 times polls", 240, 960)
def servers_listed(count: int) -> Asked:
    """Replicas of one master."""
    return summary(star(count - 1), [["polls"]] * 50)


@row("list", "history", "parts", 1024, 1000000)
def history(count: int) -> Asked:
    """Parts of two sizes."""
    return summary([{"name": "m", "history": [["m", 50 + n % 2, 1] for n in range(count)]}], [])


@row("list", "flushes", "flush points, and a fetch through all", 1024, 400000)
def flushes(count: int) -> Asked:
    """All after the first transaction."""
    servers = [{"name": "m", "history": [["m", 100, 1]], "flushes": [1] * count}, {"name": "r", "source": "m", "executed": 0}]
    return summary(servers, [["fetch", "r"]] * count)


@row("list", "blocks", "labels, and as many refused recoveries", 256, 250000)
def blocks(count: int) -> Asked:
    """No server has one of the labels."""
    return summary(star(1), [["polls"], *[asked("recover", i="m")] * count], None, blocks={"l%06d" % n: 5 for n in range(count)})


@row("list", "blocks, with restarts", "recoveries with a restart each, and 100 times as many labels", 16, 2500)
def blocks_restarts(count: int) -> Asked:
    """Kept recoveries are asked for their periods."""
    turns_taken = [["fail", "m"], ["polls"], *[asked("recover", i="m"), ["restart"]] * count]
    return summary(star(1), turns_taken, None, block=0, blocks={"l%06d" % n: 5 for n in range(100 * count)})


@row("list", "aliases", "labels, and as many recoveries", 64, 50000)
def aliases(count: int) -> Asked:
    """Each recovery gives its hooks an alias."""
    return summary(star(1), dead(count, asked("recover", i="m"), []), None, block=0, aliases={"l%06d" % n: "x" for n in range(count)})


def filtered(name: str) -> None:
    """Adds the rows of a list of filters: by patterns, and by clusters."""
    def scanned(patterns: int, clusters: int) -> Asked:
        other = "master" if name == "intermediate" else "intermediate"
        texts = ["^x%d.*z$" % n for n in range(patterns)]
        dead_ones: list[Turn] = [["fail", "m%03d" % n] for n in range(clusters)]
        return summary(pairs(clusters), [*dead_ones, ["polls"], ["scan"]], None, filters={name: texts, other: []})
    row("list", "filters.%s" % name, "patterns, 20 clusters", 16, 20000)(lambda count: scanned(count, 20))
    row("list", "filters.%s, clusters" % name, "clusters, 50 patterns", 120, 480)(lambda count: scanned(50, count))


filtered("master")
filtered("intermediate")


def hooked(name: str, recovered: int) -> None:
    """Adds the row of a list of hooks: as many as dead masters in one scan, and their recoveries by so many turns each."""
    def make(count: int) -> Asked:
        turns_taken = [*(["fail", "m%03d" % n] for n in range(count)), ["polls"], ["scan"]]
        turns_taken += [turn for n in range(count) for turn in jobs(n + 1, recovered)]
        return summary(pairs(count), turns_taken, None, hooks={name: [["x" * 990 + str(n), 0] for n in range(count)]})
    row("list", "hooks.%s" % name, "hooks of 1,000 bytes, and as many recoveries", 60, 480)(make)


hooked("pre_failover", 1)
hooked("post_failover", 1)
hooked("post_unsuccessful", 1)


@row("list", "hooks that run", "hooks full of placeholders, one recovery", 64, 50000)
def hooks_run(count: int) -> Asked:
    """Half before the recovery, half after it."""
    listed = [["{failureClusterAlias}" * 45, 0]] * (count // 2)
    turns_taken = [["fail", "m"], ["polls"], asked("recover", i="m"), *jobs(1, count + 60)]
    return summary(star(3), turns_taken, None, hooks={"pre_failover": listed, "post_failover": listed}, aliases={"m:3306": "z" * 255})


@row("list", "origins of GTID sets", "roots of one cluster, each with all origins before it; 400 polls", 24, 190)
def origins(count: int) -> Asked:
    """The last one has nine replicas."""
    roots = [{"name": "s%03d" % k, "cluster": "c", "history": [["s%03d" % n, 10, 1] for n in range(k + 1)]} for k in range(count)]
    last = [{"name": "r%d" % n, "source": "s%03d" % (count - 1), "executed": count, "auto": True} for n in range(9)]
    return summary(roots + last, [["polls"]] * 400, gtid=True)


# ---- kept rows in a database file

@row("kept", "polls", "polls of 20 servers, each kept", 16, 5000)
def kept_polls(count: int) -> Asked:
    """Each stored poll is a transaction of the file."""
    names = ["r%03d" % n for n in range(19)]
    turns_taken = [turn for n in range(count) for turn in ([["tick", 1]] + seen(names[n % 19]))]
    return Asked((*SUMMARY, "--db", "kept"), {"version": 1, "servers": star(19), "turns": turns_taken})


@row("kept", "recoveries", "recoveries, each kept and restarted", 8, 2000)
def kept_recoveries(count: int) -> Asked:
    """Each restart reads the file anew."""
    turns_taken = [["fail", "m"], ["polls"], *[asked("recover", i="m"), ["restart"]] * count]
    return Asked((*SUMMARY, "--db", "kept"), {"version": 1, "servers": star(1), "turns": turns_taken, "block": 0}, None)


@row("kept", "servers", "servers of a file, opened once", 240, 960)
def kept_servers(count: int) -> Asked:
    """The opening alone."""
    return Asked((*SUMMARY, "--db", "kept"), {"version": 1, "servers": star(count - 1), "turns": []})


def rows_named(names: list[str]) -> Iterator[Row]:
    """The rows of these names, or all."""
    for one in ROWS:
        if not names or one.name in names:
            yield one
