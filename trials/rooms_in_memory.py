"""The runs of trials/rooms over the typed store in memory: `reclaim` of the library until it finds nothing to sweep, with syncs between or none.

The lines are those of `calls` of trials/program, or are answered by the second store (calls_model.py) in its place."""
import collections
import random
import subprocess
import sys

import files
import shares
from calls_model import Trial
from rules import FULL, RULES, Refused

FORM, LIMIT = 4, 65536
PUTS = 120
REFUSED = str(Refused(*FULL))


class Program:
    """trials/program, which is told a line at a time. What it prints for a line ends where it prints the numbers, which are asked for after each."""

    def __init__(self, path):
        self.process = subprocess.Popen([path, "calls"], stdin=subprocess.PIPE, stdout=subprocess.PIPE, text=True)

    def answer(self, line):
        self.process.stdin.write(f"{line}\nnumbers\n")
        self.process.stdin.flush()
        printed = []
        while True:
            text = self.process.stdout.readline()
            if not text:
                sys.exit(f"rooms: the program ended at {line[:80]!r}")
            if text.startswith("accepted ") and printed:
                return printed
            printed.append(text.rstrip("\n"))

    def end(self):
        self.process.stdin.close()
        self.process.wait()


class Model(Trial):
    """The second store."""

    def make(self, *numbers):
        printed = super().make(*numbers)
        self.store.plans_once = True
        return printed

    def end(self):
        pass


class Run:
    """One run."""

    def __init__(self, calls, seed):
        self.calls, self.rng, self.rules = calls, random.Random(seed), RULES[FORM]
        self.found, self.puts, self.sweeps, self.name = collections.Counter(), 0, 0, f"run {seed}"
        while True:
            extents, pages = self.rng.choice(shares.GEOMETRIES)
            self.share = shares.Share(extents, pages, 2 if extents >= 16 else 1)
            self.lengths = shares.lengths_of(self.rng, self.rules, pages)
            if all(self.share.has_room(sum(sizes), sizes) for sizes in self.lengths.values()):
                break
        most = max(self.share.below(sizes) for sizes in self.lengths.values())
        self.names = [files.identifier(number) for number in range(shares.names_of(self.rng, self.rules, pages, self.lengths, most))]
        # Whether there is a sync before the sweeps, and one after each.
        self.syncs = self.rng.random() < 0.5, self.rng.random() < 0.5
        # The map after each command since the opening, each name with how many pages it takes.
        self.maps = [{}]
        self.base = 0

    def stop(self, why):
        sys.exit(f"rooms: {self.name}, {self.share}, {sorted(self.lengths.items())}: {why}")

    def ask(self, line):
        """Does a line, and counts a refusal for want of room."""
        answer = self.calls.answer(line)
        if answer[-1] == REFUSED:
            self.found[line.split()[0]] += 1
        return answer[-1]

    def must(self, line, begin):
        answer = self.ask(line)
        if not answer.startswith(begin) and answer != REFUSED:
            self.stop(f"{line[:80]!r} is answered {answer!r}")
        return answer

    def uses(self):
        """How the extents of chunks are used, by `stats`."""
        lines = [line.split() for line in self.calls.answer("stats")]
        runs = {int(words[2]) for words in lines if words[0] == "run"}
        rows = [words for words in lines if words[0] == "pointer"]
        return shares.uses_of([(int(words[1]), int(words[9])) for extent, words in enumerate(rows) if words[1] != "0" and extent not in runs])

    # ---- what is done

    def step(self):
        """A put after which no more lives than may, or else a deletion. Whether the store isn't stuck."""
        live, name = self.maps[-1], self.rng.choice(self.names)
        used = sum(live.values())
        for length in self.rng.sample(sorted(self.lengths), len(self.lengths)):
            if self.share.has_room(used, self.lengths[length]):
                return self.put(name, length)
        self.delete(self.rng.choice(sorted(live)))
        return True

    def put(self, name, length):
        self.puts += 1
        line, sizes = f"put {name} {self.rng.randbytes(length).hex() or '-'}", self.lengths[length]
        if self.must(line, "put ") == REFUSED:
            self.see_full(sizes)
            self.make_room()
            if self.must(line, "put ") == REFUSED:
                return False
        self.maps.append(self.maps[-1] | {name: sum(sizes)})
        return True

    def delete(self, name):
        if self.must(f"del {name}", "del ") != REFUSED:
            self.maps.append({each: pages for each, pages in self.maps[-1].items() if each != name})

    def see_full(self, sizes):
        """A put that was refused for want of room doesn't fit beside what lives and what is dead."""
        uses = self.uses()
        if uses.live != sum(self.maps[-1].values()):
            self.stop(f"{uses.live} pages live, and {sum(self.maps[-1].values())} were put")
        if self.share.has_room(uses.given, sizes):
            self.found["early"] += 1

    def make_room(self):
        """Reclaims until there is nothing to sweep. There are at most as many sweeps as extents have dead pages, and two for each extent that is gained."""
        if self.syncs[0]:
            self.must("sync", "persistent")
        before, count = self.uses(), 0
        while self.must("reclaim", ("extent", "none")) not in ("none", REFUSED):
            count += 1
            if self.syncs[1]:
                self.must("sync", "persistent")
        after = self.uses()
        self.sweeps += count
        self.found["many sweeps"] += count + after.measure() > before.measure()
        self.found["dead"] += after.dead > 0

    def open_anew(self):
        """Closes the store or lets it crash, mostly with what waits: its map is that after some of the commands."""
        if self.rng.random() < 0.5:
            self.must("sync", "persistent")
        answer = self.must(self.rng.choice(["close 0", "crash - 0"]), "open").split()
        count = int(answer[2]) - self.base
        if not 0 <= count < len(self.maps):
            self.stop(f"opened after {count} of {len(self.maps) - 1} commands")
        self.maps, self.base = [self.maps[count]], int(answer[2])

    def play(self):
        """Whether the store isn't stuck before so many puts are made."""
        self.must(f"make {self.share.extents} {self.share.pages} {LIMIT} {FORM}", "made")
        until_sync, until_close = self.rng.randrange(1, 10), self.rng.randrange(1, 41)
        while self.puts < PUTS:
            if not self.step():
                return False
            until_sync, until_close = until_sync - 1, until_close - 1
            if until_sync == 0:
                self.must("sync", "persistent")
                until_sync = self.rng.randrange(1, 10)
            if until_close == 0:
                self.open_anew()
                until_close = self.rng.randrange(1, 41)
        return True


def play_all(calls, runs, seed):
    """So many runs, and the exit status."""
    found = collections.Counter()
    for number in range(seed, seed + runs):
        run = Run(calls, number)
        found["stuck"] += not run.play()
        found.update({"puts": run.puts, "sweeps": run.sweeps})
        found.update({f"runs {word}": run.found[word] > 0 for word in ("put", "sync", "del", "reclaim", "early", "many sweeps", "dead")})
    calls.end()
    print(f"in memory: {runs} runs, {found['puts']} puts, {found['sweeps']} sweeps, {found['runs put']} runs with a put that was refused 30")
    wrong = {"stuck": "stuck", "runs sync": "a sync refused 30", "runs del": "a deletion refused 30", "runs reclaim": "a reclaim refused 30",
             "runs early": "a put refused 30 that fits beside what lives and is dead", "runs many sweeps": "more sweeps than promised",
             "runs dead": "a dead page left"}
    print("runs with: " + ", ".join(f"{name} {found[word]}" for word, name in wrong.items()))
    return 1 if any(found[word] for word in wrong) else 0
