"""The commands of a soak: each with random words, now and then wrong ones, and with what the book expects of it."""
import os
from dataclasses import replace

import book
from folders import REFUSED, File, Owner, need

DONE, REJECTED = 0, 1


class Workload:
    """The commands, each with what the book expects of it."""

    def __init__(self, world):
        self.w, self.dice, self.count = world, world.runner.dice, 0

    def way(self, chance=0.5):
        return self.w.runner.way() if self.dice.random() < chance else None

    def blocks(self, f_book, count):
        return [self.dice.choice((bytes(f_book.size), self.dice.randbytes(f_book.size))) for _ in range(count)]

    # ---- The owner's commands ----

    def new_file(self):
        self.count += 1
        name, dice = "f%d" % self.count, self.dice
        rows = dice.choice((1, 2, 3, 5, 8, 12, 17))
        numbers = (dice.choice((1, 2, 3, 3)), dice.choice((1, 7, 16, 33, 64)), rows, dice.choice((rows, rows, dice.randint(1, rows))),
                   dice.randint(2, 6))
        blocks = [dice.randbytes(numbers[1]) for _ in range(dice.randint(1, 2 * rows))]
        after = Owner(*book.set_up(self.w.key, name, numbers, blocks))
        options = zip(("--version", "--block-bytes", "--rows", "--positions", "--tokens"), map(str, numbers))
        words = ["set-up", "--key", "keys/key", "--id", name, *(word for pair in options for word in pair),
                 self.w.write("sent/" + name, b"".join(blocks))]
        f = File(name, (words, after))
        os.makedirs(self.w.path(f.at))
        self.w.files.append(f)
        while f.owner is None:
            self.w.owner_step(["-C", f.at, *words], [(f, after)], {DONE}, self.way())

    def change(self, f, plain=False):
        """A change in one step or asked, now and then a wrong one."""
        now, dice = f.owner.book, self.dice
        asked = not plain and dice.random() < (0.6 if now.version == 3 else 0.05)
        kind = dice.choice(("append", "load", "update", "delete", "batch"))
        words, made = getattr(self, "make_" + kind)(now, asked)
        wrong = None if plain or dice.random() < 0.9 else dice.choice(("role", "host", "words"))
        host = dice.choice(("sent", "f0/host")) if wrong == "host" else f.host_at
        words = ["-C", f.at, *(["ask"] if asked else []), kind, "--key", "keys/key", "--host", host, *words]
        words += ["--role", "manager"] if wrong == "role" else ["--blocks"] if wrong == "words" else []
        may = made and not wrong and not now.open and (now.version == 3 or not asked)
        statuses = self.with_host(f) if may else REFUSED
        return self.w.owner_step(words, [(f, Owner(*made) if made else f.owner)], statuses, None if plain else self.way())

    def with_host(self, f):
        """How a change ends that only the host's files can refuse. Where a host was stopped, they may be of before or of after."""
        now, seen = f.owner.book, self.w.visible_host(f)
        if len(f.hosts) > 1:
            return {DONE} | REFUSED
        fits = seen.header and seen.header[7] == now.ctr and (seen.table == now.table() or now.opens(seen.table))
        return {DONE} if fits else REFUSED

    def wrong(self):
        return self.dice.random() < 0.06

    def make_append(self, now, asked):
        block = b"".join(self.blocks(now, 1))
        if self.wrong():
            return [self.w.write("sent/new", block + b"x")], None
        return [self.w.write("sent/new", block)], now.added([block], asked) if not now.asked else None

    def make_load(self, now, asked):
        blocks = self.blocks(now, self.dice.randint(1, 5))
        if self.wrong():
            return [self.w.write("sent/new", self.dice.choice((b"", b"".join(blocks)[:-1] if now.size > 1 else b"")))], None
        return [self.w.write("sent/new", b"".join(blocks))], now.added(blocks, asked) if not now.asked else None

    def make_update(self, now, asked):
        number, block = self.dice.randint(1, len(now.blocks)), self.blocks(now, 1)[0]
        words = [self.w.write("sent/new", block)]
        if self.wrong():
            return [str(self.dice.choice((0, len(now.blocks) + 1, "none")))] + words, None
        return [str(number)] + words, now.corrected([(number, block)], asked) if not now.asked else None

    def make_delete(self, now, asked):
        number = self.dice.randint(1, len(now.blocks))
        if self.wrong():
            return [str(self.dice.choice((0, len(now.blocks) + 1)))], None
        return [str(number)], now.corrected([(number, None)], asked) if not now.asked else None

    def make_batch(self, now, asked):
        numbers = sorted(self.dice.sample(range(1, len(now.blocks) + 1), min(len(now.blocks), self.dice.randint(1, 4))))
        items = [(number, self.dice.choice((None, self.blocks(now, 1)[0]))) for number in numbers]
        lines = ["delete %d" % number if block is None else "update %d %s" % (number, self.w.write("sent/item%d" % at, block))
                 for at, (number, block) in enumerate(items)]
        if self.wrong():
            return [self.w.write("sent/list", "\n".join(lines + lines).encode())], None
        return [self.w.write("sent/list", "\n".join(lines).encode())], now.corrected(items, asked) if not now.asked else None

    def commit(self, f):
        now = f.owner.book
        after = replace(f.owner, book=now.committed()) if now.asked else f.owner
        _, killed = self.w.owner_step(["-C", f.at, "commit"], [(f, after)], {DONE} if now.asked else REFUSED, self.way())
        if now.asked and not killed and "receipt" not in self.w.lacks:
            need(f.at + "/committed" in self.w.snap, "a commit left no receipt")
            self.w.receipts.append(self.w.snap[f.at + "/committed"])

    def drop(self, f):
        now = f.owner.book
        after = Owner(now.dropped()) if now.asked else f.owner
        self.w.owner_step(["-C", f.at, "drop"], [(f, after)], {DONE} if now.asked else REFUSED, self.way())

    def draw(self, f):
        now = f.owner.book
        may, wrong = not now.open and not now.asked and now.next <= now.tokens, self.dice.random() < 0.03
        after = replace(f.owner, book=now.drawn(), message=now.drawn().message()) if may else f.owner
        words = ["-C", f.at, "draw", "--key", "keys/key"] + (["--role", "surveyor"] if wrong else [])
        self.w.owner_step(words, [(f, after)], {DONE} if may and not wrong else REFUSED, self.way())

    def reply(self, f):
        """A reply for the owner: the host's, now and then another one. Its path and bytes."""
        path = f.host_at + "/reply"
        good = self.w.snap.get(path)
        if good is not None and self.dice.random() < 0.9:
            return path, good
        bad = self.dice.choice((b"", bytes(book.REPLY), good[:-1] if good else b"x", flipped(good, self.dice) if good else b"y"))
        return self.w.write("sent/reply", bad), bad

    def judge(self, f):
        path, reply = self.reply(f)
        now = f.owner.book
        cause, close = now.cause(reply), "close" not in self.w.lacks and self.dice.random() < 0.1
        closes = now.open and (cause in (0, 6) or close or "close" in self.w.lacks)
        status = {REJECTED if cause else DONE} if closes else REFUSED
        after = replace(f.owner, book=now.judged(), message=None) if closes else f.owner
        words = ["-C", f.at, "judge", "--key", "keys/key", path] + (["--close"] if close else [])
        return self.w.owner_step(words, [(f, after)], status, self.way())

    def cause(self, f):
        path, reply = self.reply(f)
        status = REFUSED if not f.owner.book.open else {REJECTED if f.owner.book.cause(reply) else DONE}
        words = ["-C", f.at, "cause", "--key", "keys/key", path]
        if "show" in self.w.lacks:
            return self.w.owner_step(words, [(f, f.owner)], status, self.way())
        return self.reads(words, status)

    def show(self, f):
        self.reads(["-C", f.host_at, "show"], {DONE} if f.hosts[0].header and len(f.hosts) == 1 else {DONE} | REFUSED)
        self.settle_owner(f)

    def reads(self, words, statuses):
        """A command that writes nothing."""
        status, killed = self.w.command(words, [], self.way())
        need(killed or status in statuses, "status", status, "in place of", *sorted(statuses))

    def settle_owner(self, f):
        """A command that settles the owner's folder and changes nothing else."""
        if "show" not in self.w.lacks:
            return self.w.owner_step(["-C", f.at, "show"], [(f, f.owner)], {DONE}, self.way(0.2))
        nothing = self.w.write("sent/nothing", b"")
        self.w.owner_step(["-C", f.at, "cause", "--key", "keys/key", nothing], [(f, f.owner)], {REJECTED} | REFUSED)
        f.settled, f.stale = True, {"change": set(), "message": set()}
        return self.w.check_owner(f)

    # ---- The host's commands ----

    def prove(self, f):
        others = [g.at for g in self.w.files if g is not f and g.at + "/message" in self.w.snap]
        at = self.dice.choice(others) if others and self.dice.random() < 0.05 else f.at
        message = self.w.snap.get(at + "/message")

        def outcome(host):
            reply = message and (host.answer(message) or not host.header and f.sent[0].header[4] == 0 and
                                 book.Host().applied(f.sent[0]).answer(message))
            if not host.header:  # a first apply that was stopped may have left all that a proof needs
                return {DONE} | REFUSED, replace(host, reply=reply or host.reply)
            return ({DONE}, replace(host, reply=reply)) if reply else (REFUSED, host)
        return self.w.host_step(f, ["-C", f.host_at, "prove", at + "/message"], outcome, self.way())

    def receipt(self, f, stands):
        """The words by which a host says that an asked change is committed; of one that is not, with the receipt of another."""
        if "receipt" in self.w.lacks:
            return ["--committed"] if stands else []
        if not stands and self.w.receipts:
            return ["--committed", self.w.write("sent/committed", self.dice.choice(self.w.receipts))]
        return ["--committed", f.at + "/committed"] if stands else []

    def apply(self, f, check=False):
        """The owner's change as it is there, now and then an older one or a damaged one."""
        while not f.settled and f.owner.change and f.owner.change.asked:
            self.settle_owner(f)
        path, now = f.at + "/change", f.owner.book
        change = next((c for c in f.sent if c.file() == self.w.snap.get(path)), None)
        if f.sent and self.dice.random() < 0.15:
            change = self.dice.choice(f.sent)
            path = self.w.write("sent/change", change.file())
        damaged = change and self.dice.random() < 0.05
        if damaged:
            path = self.w.write("sent/change", self.dice.choice((change.file()[:-1], flipped(change.file(), self.dice), b"")))
        stands = change is not None and change.counter <= now.ctr and change == f.owner.change
        receipt = self.receipt(f, stands) if change and change.asked and not check else []

        def outcome(host):
            if not change or damaged or (not host.header and change.header[4]):
                return REFUSED, host
            if host.stands == change.stands():
                return {DONE} | REFUSED if change.asked and not stands or f.damaged else {DONE}, host
            if not host.follows(change) or (change.asked and not check and not (stands and receipt)):
                return REFUSED, host
            return {DONE} | (set() if host.header else REFUSED) if check else {DONE}, host if check else host.applied(change)
        words = ["-C", f.host_at, "apply", *(["--check"] if check else []), *receipt, path]
        if check and "host" not in self.w.lacks:
            return self.reads(words, set().union(*(outcome(host)[0] for host in f.hosts)))
        return self.w.host_step(f, words, outcome, self.way())

    def check(self, f):
        return self.apply(f, check=True)

    def go_on(self, f):
        """Goes on with what is half in place, without a change."""
        return self.w.host_step(f, ["-C", f.host_at, "apply"], lambda host: ({DONE} if host.header else {DONE} | REFUSED, host), self.way())


def flipped(content, dice):
    at = dice.randrange(len(content))
    return content[:at] + bytes([content[at] ^ dice.randint(1, 255)]) + content[at + 1:]
