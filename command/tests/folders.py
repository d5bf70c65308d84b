"""Runs the command, kills it, and holds the folders of owners and hosts to the book.

  Runner     runs one command, whole or killed: by the shim at a call that changes a file, or by SIGKILL
  Owner      what an owner's folder must hold: the book, the change and the message
  File       one file under test: its owner, and what its host may hold (two states after a kill, until a command settles it)
  World      the scratch folder: one key, the files, and the checks after each command
"""
import json
import os
import random
import re
import signal
import subprocess
import time
import zlib
from dataclasses import dataclass, field

import book

STOPPED, BAD_FILE = 77, 4
REFUSED = frozenset((2, 3, 4))
ENDS = ("stop", "torn", "power")
ASIDE = re.compile(r"\.\d+$")
OWNER_NAMES = {"card", "card.sum", "change", "message", "committed", "journal"}
HOST_NAMES = {"blocks", "marks", "table", "stands", "reply", "journal"}
HALF = ("adding", "applying")  # files of a host that are there while a change is half in place
# What earlier commands lack: refusals that leave every byte, of owner and host; the checksum of the card; the receipt of a commit;
# `judge` that leaves a draw open, and --close; `draw --again`; `show` that settles; a change that supersedes a damaged `applying`; outputs that
# replace nothing else; the list of ids.
LACKS = ("owner", "host", "checksum", "receipt", "close", "again", "show", "supersede", "outputs", "ids")
FIRST_CALLS, MORE_CALLS, FIRST_DELAY = 6, 3, 0.002


class Failure(Exception):
    """Something differs from the book."""


def need(holds, *words):
    if not holds:
        raise Failure(" ".join(map(str, words)))


class Runner:
    def __init__(self, legbaro, shim, root, dice):
        self.legbaro, self.shim, self.root, self.dice = legbaro, shim, root, dice
        self.said = os.path.join(root, "said")
        self.calls, self.usual = {}, FIRST_DELAY  # calls that a command was seen to make, and the time that commands take

    def way(self):
        """A random way to kill: what the shim does, and where between 0 and 1 of the command's calls or time."""
        what = self.dice.choice(("kill", "kill", "stop", "torn", "power", "stop", "torn", "power", "full", "short", "interrupted"))
        return what, self.dice.random()

    def run(self, words, way):
        """Exit status, whether the command was killed (then its work is done or not begun), and where."""
        env, what = dict(os.environ), way[0] if way else None
        kind = words[2] if words[0] == "-C" else words[0]
        known = self.calls.get(kind, FIRST_CALLS)
        at = 1 + int(way[1] * (known + MORE_CALLS)) if way else 0
        if way and what != "kill":
            env.update(LD_PRELOAD=self.shim, SHIM_DO=what, SHIM_AT=str(at))
        began = time.monotonic()
        with open(self.said, "wb") as said:
            child = subprocess.Popen([self.legbaro, *words], cwd=self.root, stdout=said, stderr=said, stdin=subprocess.DEVNULL, env=env,
                                     close_fds=False)
            if what == "kill":
                time.sleep(way[1] * self.usual)
                child.send_signal(signal.SIGKILL)
            status = child.wait()
        if not way:
            self.usual = 0.9 * self.usual + 0.1 * (time.monotonic() - began)
        killed = {"kill": status == -signal.SIGKILL, "full": status == BAD_FILE}.get(what, what in ENDS and status == STOPPED)
        if killed and what in ENDS:
            self.calls[kind] = max(known, at)
        return status, killed, at


@dataclass(frozen=True)
class Owner:
    book: book.Book
    change: book.Change = None
    message: bytes = None

    def files(self):
        return {"card": self.book.card(), "change": self.change and self.change.file(), "message": self.message}


@dataclass
class File:
    name: str
    set_up: tuple  # words of the set-up, and the owner after it
    owner: Owner = None
    settled: bool = True  # the owner's folder, since the last kill
    damaged: bool = False  # the host's folder, from outside
    stale: dict = field(default_factory=lambda: {"change": {None}, "message": {None}})
    hosts: list = field(default_factory=lambda: [book.Host()])
    sent: list = field(default_factory=list)  # changes that were issued, the newest last
    cards: list = field(default_factory=list)  # (card, card.sum) as they were

    at = property(lambda self: self.name + "/owner")
    host_at = property(lambda self: self.name + "/host")


class World:
    """`lacks` names what an earlier command has not: LACKS."""

    def __init__(self, runner, lacks):
        self.runner, self.lacks, self.root = runner, lacks, runner.root
        self.files, self.seen, self.checked, self.killed = [], {}, 0, 0
        self.trace, self.receipts, self.halves = [], [], []  # receipts and half applied changes that were seen
        self.key = None
        self.snap = {}

    # ---- Files ----

    def path(self, name):
        return os.path.join(self.root, name)

    def write(self, name, content):
        """Writes a file, as somebody other than the command does; answers its name."""
        os.makedirs(os.path.dirname(self.path(name)), exist_ok=True)
        with open(self.path(name), "wb") as file:
            file.write(content)
        self.look()
        return name

    def put(self, name, content):
        """The same, or takes the file away where the content is None."""
        if content is not None:
            return self.write(name, content)
        if os.path.exists(self.path(name)):
            os.remove(self.path(name))
        self.look()
        return name

    def look(self):
        """Every file of the folders that are checked, with its content."""
        self.snap = {}
        for folder in ["keys", "pool"] + [at for f in self.files for at in (f.at, f.host_at)]:
            if os.path.isdir(self.path(folder)):
                for entry in os.scandir(self.path(folder)):
                    with open(entry.path, "rb") as file:
                        self.snap[folder + "/" + entry.name] = file.read()
        return self.snap

    def names(self, folder):
        return {name[len(folder) + 1:] for name in self.snap if name.startswith(folder + "/")}

    # ---- One command ----

    def command(self, words, folders, way):
        """Runs a command that may change those folders alone. Answers its status and whether it was killed."""
        before = self.snap
        status, killed, at = self.runner.run(words, way)
        self.trace.append((words, way and (way[0], at), status))
        self.checked, self.killed = self.checked + 1, self.killed + killed
        now = self.look()
        changed = sorted(name for name in before.keys() | now.keys() if before.get(name) != now.get(name))
        need(now.get("keys/key") == self.key and os.stat(self.path("keys/key")).st_mode & 0o777 == 0o600, "the key has changed")
        if not killed and status >= 2:
            lax = tuple(side for side in ("owner", "host") if side in self.lacks)
            need(not [name for name in changed if name.split("/")[1] not in lax], "a refused command changed", *changed)
        for name in changed:
            need(name.startswith(("keys/key.ids",) + tuple(folder + "/" for folder in folders)), name, "is changed by another's command")
        for name, content in now.items():
            if re.fullmatch(r"[^/]*/owner/change(\.\d+)?", name) and book.sealed_in(content):
                self.seals_once(*book.sealed_in(content))
        return status, killed

    def seals_once(self, name, counter, table):
        need(self.seen.setdefault((name, counter), table) == table, name, "has two tables of counter", counter)

    # ---- Owners ----

    def owner_step(self, words, after, statuses, way=None):
        """An owner's command: `after` has the owner of each file that it changes; statuses are those that it may end with."""
        status, killed = self.command(words, [f.at for f in after_files(after)], way)
        if killed:
            for f, owner in after:
                self.decide(f, owner)
            return status, True
        need(status in statuses, "status", status, "in place of", *sorted(statuses))
        for f, owner in after:
            if status < 2:
                self.become(f, owner)
                f.settled = True
                f.stale = {"change": set(), "message": set()}
            if f.owner:
                self.check_owner(f)
        return status, False

    def become(self, f, owner):
        if f.owner is not owner:
            if owner.change and owner.change not in f.sent:
                f.sent = f.sent[-3:] + [owner.change]
            f.owner = owner
            f.cards.append((self.snap.get(f.at + "/card"), self.snap.get(f.at + "/card.sum")))

    def decide(self, f, after):
        """After a kill the card says whether the command is done."""
        card = self.snap.get(f.at + "/card")
        f.settled = False
        before = f.owner.files() if f.owner else {"card": None, "change": None, "message": None}
        if card != before["card"]:
            need(after and card == after.book.card(), f.name, "has a card that is neither as before nor as after")
            for name, stale in f.stale.items():
                stale.add(before[name])
            self.become(f, after)
        if f.owner:
            self.check_owner(f)

    def check_owner(self, f):
        """Until it is settled, a file that the card knows may lie there prepared, and an older one in its place."""
        names = self.names(f.at)
        for name, want in f.owner.files().items():
            now, prepared = self.snap.get(f.at + "/" + name), self.snap.get(f.at + "/" + name + ".new")
            late = not f.settled and name != "card" and now in f.stale[name] and (want is None or prepared == want)
            need(now == want or late, f.at, "has another", name, "than the book")
            need(not f.settled or prepared is None, f.at, "has a prepared", name, "that was settled")
        if f.settled:
            self.check_journal(f, f.at, "card")
        unknown = {name for name in names - OWNER_NAMES if not name.endswith(".new") and not ASIDE.search(name)}
        need(not unknown, f.at, "has unknown files", *unknown)

    def check_journal(self, f, folder, name):
        """The last line of a journal has the checksum of what stands, and no line has the key. Where the disk was full, the line may be
        missing until a later command writes the journal: that never stops a command."""
        journal, stands = self.snap.get(folder + "/journal", b""), self.snap.get(folder + "/" + name)
        need(self.key not in journal and self.key.hex().encode() not in journal, folder, "has the key in its journal")
        try:
            last = json.loads(journal.splitlines()[-1]) if journal else {}
        except ValueError:
            last = {}
        fits = last.get(name) == f"{zlib.crc32(stands):08x}"
        way = self.trace[-1][1]
        f.line_missing = not fits and (bool(way and way[0] == "full") or getattr(f, "line_missing", False))
        need(fits or f.line_missing, folder, "has a journal whose last line is of another", name)

    # ---- Hosts ----

    def host_step(self, f, words, outcome, way=None):
        """A host's command: `outcome` says for each state that the host may be in which statuses and what state come of it."""
        results = [(host,) + outcome(host) for host in f.hosts]
        status, killed = self.command(words, [f.host_at], way)
        if killed:
            self.halves += [self.snap[f.host_at + "/applying"]] if f.host_at + "/applying" in self.snap else []
            f.hosts = distinct(f.hosts + [after for _, _, after in results])
            self.check_torn_host(f)
            return status, True
        fits = [(host, after) for host, statuses, after in results if status in statuses]
        need(fits, "status", status, "in place of", *sorted(set().union(*(statuses for _, statuses, _ in results))))
        if status >= 2 and set(HALF) & self.names(f.host_at):
            return status, False  # what is half in place was left so
        f.hosts = distinct([after if status < 2 else host for host, after in fits])
        if status < 2:
            f.hosts = [host for host in f.hosts if self.host_is(f, host)]
            need(f.hosts, f.host_at, "is not as the book has it:", *self.host_differs(f, fits[0][1]))
        elif len(f.hosts) == 1 and self.host_at_rest(f):
            need(self.host_is(f, f.hosts[0]), f.host_at, "is not as the book has it")
        return status, False

    def host_at_rest(self, f):
        return not {name for name in self.names(f.host_at) if name in HALF or name.endswith(".new")}

    def host_differs(self, f, host):
        wants = {name: getattr(host, name) for name in ("stands", "blocks", "marks", "table", "reply")}
        wants["applying"] = None
        return [name for name, want in wants.items() if self.snap.get(f.host_at + "/" + name) != want]

    def host_is(self, f, host):
        unknown = {name for name in self.names(f.host_at) - HOST_NAMES if not name.endswith(".new") and not ASIDE.search(name)}
        need(not unknown, f.host_at, "has unknown files", *unknown)
        differs = self.host_differs(f, host)
        return not differs if host.header else not {"stands", "reply"} & set(differs)

    def check_torn_host(self, f):
        """After a kill: what stands, table and reply are of before or after; so are the blocks, while nothing is being applied."""
        for name in ("stands", "table", "reply"):
            now = self.snap.get(f.host_at + "/" + name)
            need(any(now == getattr(host, name) for host in f.hosts), f.host_at, "has", name, "neither of before nor of after")
        if f.host_at + "/applying" in self.snap:
            return
        for name in ("blocks", "marks"):
            now = self.snap.get(f.host_at + "/" + name, b"")
            need(any(now.startswith(getattr(host, name) or b"") for host in f.hosts), f.host_at, "has other", name)

    def visible_host(self, f):
        """The state of the host that an owner sees who fetches its files now."""
        stands = self.snap.get(f.host_at + "/stands")
        return next((host for host in f.hosts if host.stands == stands), f.hosts[0])


def after_files(after):
    return [f for f, _ in after]


def distinct(hosts):
    return [host for at, host in enumerate(hosts) if host not in hosts[:at]]


def new_world(legbaro, shim, root, seed, lacks=()):
    """A world with a key, which is random by its seed."""
    dice = random.Random(seed)
    world = World(Runner(legbaro, shim, root, dice), lacks)
    world.key = dice.randbytes(32)
    world.write("keys/key", world.key)
    os.chmod(world.path("keys/key"), 0o600)
    world.look()
    return world
