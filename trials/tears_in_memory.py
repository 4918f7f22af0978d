"""Chains of torn crashes of a store in memory, by `trial_programs tears`, which says in its head what its lines are. `trials/tears --memory` runs them.

A chain makes a store, puts, deletes and sweeps, and writes back until the power fails: between any two writes, also of the making and of an opening.
Each page that was being written is lost, kept or torn: from one byte up to another, or by sectors, each of them old, new or noise. Where a page is written that an earlier
crash of the chain tore it is mostly torn again, at times by what the earlier crash lost of it. Then the store is opened for writing, which fences what it passes over."""
import os
import random
import subprocess

import files
from pairs import pairs_by

NAMES = [files.identifier(number) for number in range(10, 16)]
SECTOR, PAGE = 512, 4096
# How often a command is refused before a store is given up.
TRIES = 40


class Wrong(Exception):
    """A promise that isn't kept."""


class Program:
    """The program, to which lines are said one by one. Each is answered by one."""

    def __init__(self, path):
        self.process = subprocess.Popen([path, "tears"], stdin=subprocess.PIPE, stdout=subprocess.PIPE, text=True, bufsize=1)
        self.lines = []

    def say(self, line):
        self.lines.append(line)
        self.process.stdin.write(line + "\n")
        self.process.stdin.flush()
        answer = self.process.stdout.readline()
        if not answer.endswith("\n"):
            raise Wrong(f"the program ended at {line!r}, status {self.process.wait()}")
        return answer.rstrip()

    def end(self):
        self.process.stdin.close()
        return self.process.wait()


class Counts(dict):
    def add(self, what, count=1):
        self[what] = self.get(what, 0) + count


class Store:
    """A store in the program, and what it may hold: the map after each command since the opening, and how many of them were acknowledged."""

    def __init__(self, program, counts, extents, pages, sections):
        self.program, self.counts = program, counts
        self.shape = (extents, pages, sections)
        self.half_of = {number: pair for pair in pairs_by(*self.shape) for number in pair}
        self.base, self.maps, self.acknowledged = 0, [{}], 0
        # Whether the power failed, whether a store may be missing since its making was cut, and whether it is.
        self.is_dark = self.may_be_none = self.is_none = False
        # What was made of each page that a crash of this chain tore, and those that may be passed over at the next opening.
        self.torn, self.suspects = {}, set()

    def make(self, calls=None):
        """Makes the store; with `calls` the power may fail meanwhile."""
        answer = self.program.say("new 4 %d %d %d" % self.shape + ("" if calls is None else f" {calls}"))
        self.is_dark = self.may_be_none = answer == "refused 1 DeviceFault" and calls is not None
        if answer != "made" and not self.is_dark:
            raise Wrong(f"no store is made: {answer}")

    # ---- events

    def ask(self, line):
        """An event. The power may have failed."""
        answer = self.program.say(line)
        self.is_dark |= answer in ("refused 1 DeviceFault", "refused 40 Halted")
        return answer

    def put(self, name, bytes_):
        return self.command(f"put {name} {bytes_.hex() or '-'}", name, bytes_.hex() or "-")

    def delete(self, name):
        return self.command(f"del {name}", name, None)

    def command(self, line, name, value):
        answer = self.ask(line)
        if not answer.startswith("accepted"):
            return False
        after = {key: held for key, held in self.maps[-1].items() if key != name}
        if value is not None:
            after[name] = value
        self.maps.append(after)
        if answer != f"accepted {len(self.maps) - 1}":
            raise Wrong(f"the number of {line!r} is another: {answer}")
        return True

    def rounds(self):
        """Writes back what is staged, and gives after each write the page that it goes to, as it shows, and after each flush None."""
        while not self.is_dark and self.ask("begin").startswith("begun"):
            answer = self.ask("issue")
            while answer.startswith("issued"):
                yield int(answer.split()[1])
                answer = self.ask("issue")
            if self.is_dark:
                return
            answer = self.ask("end")
            if not answer.startswith("ended"):
                return
            self.acknowledged = int(answer.split()[1])
            yield None

    def sync(self):
        self.ask("stage")
        for _ in self.rounds():
            pass

    # ---- crashes

    def stop(self):
        """The power fails. It gives the pages of the device that are volatile, oldest first."""
        answer = self.program.say("stop").split()
        if answer[0] != "volatile":
            raise Wrong(f"nothing stopped: {answer}")
        self.is_dark = True
        return [int(page) for page in answer[1:]]

    def tear(self, pages, fates):
        """What becomes of these pages."""
        answer = self.program.say(" ".join(["tear", *fates])) if fates else "torn"
        if answer != "torn":
            raise Wrong(f"no crash: {answer}")
        self.counts.add("crashes")
        for page, fate in zip(pages, fates):
            if fate not in ("l", "k"):
                self.counts.add("pages torn")
                self.counts.add("pages torn again", page in self.torn)
                self.torn[page] = fate
                self.suspects.add(page)
            elif self.may_be_none:
                # What is lost of a making leaves zeros, which are neither whole nor a fence.
                self.suspects.add(page)
        if self.may_be_none:
            # So does what the making hadn't written yet, of the two halves of section 0.
            self.suspects.update((0, max(self.half_of)))

    def open(self, calls=None):
        """Opens the store for writing, and looks at what it holds. It gives the pages that were passed over; None where the power failed, or there is no store."""
        answer = self.program.say("open" if calls is None else f"open {calls}")
        words = answer.split()
        self.is_dark = words[0] != "open"
        if self.is_dark:
            return self.not_opened(answer, calls)
        at = words.index("left")
        passed, left = [int(page) for page in words[6:at]], words[at + 1:]
        if left:
            raise Wrong(f"pages are passed over that were fenced: {left}")
        if not set(passed) <= self.suspects & set(self.half_of):
            raise Wrong(f"pages are passed over that no crash tore: {passed}, torn were {sorted(self.suspects)}")
        self.counts.add("openings")
        self.counts.add("pages passed over", len(passed))
        self.suspects.clear()
        self.may_be_none = False
        self.look(int(words[2]), int(words[4]))
        return passed

    def not_opened(self, answer, calls):
        if answer == "refused 1 DeviceFault" and calls is not None:
            self.counts.add("openings cut")
            return None
        if self.may_be_none and answer.split()[1] in ("20", "21", "22", "23", "24", "43"):
            self.counts.add("makings that left no store")
            self.is_none = True
            return None
        raise Wrong(f"not opened: {answer}")

    def look(self, commands, shards):
        """What the store holds, and after how many commands since the last opening it held that."""
        n = commands - self.base
        if not self.acknowledged <= n < len(self.maps):
            raise Wrong(f"opened after {n} commands: {self.acknowledged} were acknowledged, {len(self.maps) - 1} accepted")
        found = {}
        for name in NAMES:
            answer = self.program.say(f"get {name}").split()
            if answer[0] == "value":
                found[name] = answer[1]
            elif answer != ["absent"]:
                raise Wrong(f"{name}: {' '.join(answer)}")
        if found != self.maps[n] or shards != len(found):
            raise Wrong(f"it holds {sorted(found)}, {shards} shards, and held {sorted(self.maps[n])} after command {n}")
        self.counts.add("as of a command before the last", n < len(self.maps) - 1)
        self.base, self.maps, self.acknowledged = commands, [found], 0


class Chain:
    """A store of random shape, and what is done to it at random."""

    def __init__(self, program, counts, rng):
        self.rng = rng
        extents, pages = rng.choice([5, 6, 6, 8, 8, 12]), rng.choice([2, 2, 3])
        self.store = Store(program, counts, extents, pages, rng.choice([1, 1, 2, 3]))

    def run(self):
        """Up to six crashes."""
        rng, store = self.rng, self.store
        store.make(rng.randrange(12) if rng.random() < 0.2 else None)
        for _ in range(rng.choice([2, 3, 4, 5, 6, 6])):
            if not store.is_dark:
                self.go_on()
            pages = store.stop()
            store.tear(pages, self.fates(pages))
            store.open(rng.randrange(10) if rng.random() < 0.3 else None)
            if store.is_none:
                return
        if store.is_dark:
            pages = store.stop()
            store.tear(pages, ["k"] * len(pages))
            store.open()

    def go_on(self):
        """Some commands, and then some writes up to a moment at which the power fails."""
        rng, store = self.rng, self.store
        for _ in range(TRIES):
            for _ in range(rng.randrange(1, 5)):
                self.command()
            if rng.random() < 0.3:
                store.sync()
                continue
            store.ask("stage")
            for page in store.rounds():
                if self.is_moment(page):
                    return
            if store.is_dark:
                return

    def is_moment(self, page):
        """Whether the power fails after this write, or, without one, after a flush. Mostly so where the page or its other copy was torn before."""
        store = self.store
        if page is None:
            return self.rng.random() < 0.03
        again = any(half in store.torn for half in store.half_of.get(page, ()))
        return self.rng.random() < (0.5 if again else 0.1 if page in store.half_of else 0.04)

    def command(self):
        rng, store = self.rng, self.store
        name = rng.choice(NAMES)
        if rng.random() < 0.3:
            store.delete(name)
        elif not store.put(name, rng.randbytes(rng.choice([0, 1, 5, 40, 300]))) and not store.is_dark:
            self.make_room()

    def make_room(self):
        """Without room a shard goes, and an extent is swept."""
        self.store.delete(self.rng.choice(NAMES))
        self.store.ask(f"sweep {self.rng.randrange(self.store.shape[0])}")
        self.store.sync()

    # ---- what becomes of pages

    def fates(self, pages):
        """What becomes of each of these pages: one of them at least is torn."""
        rng = self.rng
        again = [at for at, page in enumerate(pages) if page in self.store.torn]
        halves = [at for at, page in enumerate(pages) if page in self.store.half_of]
        chosen = rng.choice(again or halves or range(len(pages))) if pages else None
        way = rng.choice(["before", "none", "all", "random"])
        kept = {"before": lambda at: at < chosen, "none": lambda at: False, "all": lambda at: True, "random": lambda at: rng.random() < 0.5}[way]
        return [self.torn_fate(page) if at == chosen or rng.random() < 0.1 else "k" if kept(at) else "l" for at, page in enumerate(pages)]

    def torn_fate(self, page):
        """A torn page: of one that was torn before at times the other part is kept."""
        before = self.store.torn.get(page)
        if before is not None and self.rng.random() < 0.5:
            return other_part(before)
        if self.rng.random() < 0.5:
            cut = self.byte()
            return self.rng.choice([f"t:0:{cut}", f"t:{cut}:{PAGE}", "t:%d:%d" % tuple(sorted([cut, self.byte()]))])
        return "s:" + ".".join(self.rng.choice(["o", "o", "n", "n", f"{self.rng.randrange(256):02x}"]) for _ in range(PAGE // SECTOR))

    def byte(self):
        """A byte of a page, mostly one of its front, where its text is."""
        return self.rng.choice([self.rng.randrange(1, 24), self.rng.randrange(1, 120), SECTOR * self.rng.randrange(1, 8), self.rng.randrange(1, PAGE)])


def other_part(fate):
    """The fate that keeps of a page what this one lost, and has what was there of the rest."""
    kind, *rest = fate.split(":")
    if kind == "s":
        return "s:" + ".".join("o" if word == "n" else "n" for word in rest[0].split("."))
    start, end = map(int, rest)
    return f"t:{end}:{PAGE}" if start == 0 else f"t:0:{start}"


# ---- rows: two crashes that brought a lost version of the root back

def lost_by_noise(store):
    """Two crashes of one page. The first leaves all of the root's text and noise in the last sector. The second leaves the first sectors as they were."""
    return two_crashes(store, "s:n.n.n.n.n.n.n.a5", "s:o.o.o.o.o.o.o.n")


def lost_by_versions(store):
    """Two crashes of one page. The first leaves 15 bytes of what was there, and the rest of the root. The second leaves its own first 15 bytes, which are the same."""
    return two_crashes(store, "t:15:4096", "t:0:15")


def two_crashes(store, first, second):
    """A deletion whose root the first crash tears, and then a put whose root the second one tears on the same page."""
    store.make()
    for number, name in enumerate(NAMES[:2]):
        store.put(name, bytes([number]))
        store.sync()
    store.delete(NAMES[0])
    torn = tear_root(store, first)
    passed = [store.open()]
    store.put(NAMES[2], b"\2")
    if tear_root(store, second) != torn:
        raise Wrong("another page of the root is written")
    passed.append(store.open())
    if passed != [[torn], []] and passed != [[torn], [torn]]:
        raise Wrong(f"passed over: {passed}, torn: {torn}")


def tear_root(store, fate):
    """Writes back up to the root, of which the crash leaves this. All other pages are kept."""
    store.ask("stage")
    for page in store.rounds():
        if page == 1:
            break
    pages = store.stop()
    store.tear(pages, ["k"] * (len(pages) - 1) + [fate])
    return pages[-1]


ROWS = [(lost_by_noise, (8, 2, 1)), (lost_by_versions, (6, 2, 3))]


def say_lines(program, why):
    """What is printed of a chain that went wrong: the lines that bring it about."""
    at = max(number for number, line in enumerate(program.lines) if line.startswith("new"))
    return f"{why}; the lines were:\n" + "\n".join(program.lines[at:])


def run(path, chains, seed):
    """Runs the rows, and so many chains. It gives what was counted, and what went wrong, if something did."""
    program, counts = Program(path), Counts()
    try:
        for row, shape in ROWS:
            row(Store(program, counts, *shape))
            counts.add("rows")
        for number in range(chains):
            Chain(program, counts, random.Random(seed + number)).run()
            counts.add("chains")
            if number % 100 == 99:
                program.lines.clear()
    except Wrong as why:
        return counts, say_lines(program, why)
    status = program.end()
    return counts, None if status == 0 else f"the program ended with status {status}"


def main(options):
    if not os.access(options.trials, os.X_OK):
        raise SystemExit(f"tears: there is no {options.trials}: `trials/build trials/program` builds it")
    counts, wrong = run(options.trials, options.chains, options.seed)
    print(", ".join(f"{count} {what}" for what, count in counts.items()))
    if wrong:
        raise SystemExit(f"tears: seed {options.seed + counts.get('chains', 0)}: {wrong}")
