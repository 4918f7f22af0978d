"""A second store, written from the rules in docs/ alone and sharing nothing with the first: it answers scripts line by line.

It keeps sets where the program keeps levels, and counts everything anew at each plan, so it is slow and short. What differs by format stands in rules.py,
and where frames go in places.py."""
import bisect
import itertools
import json

from places import PUT, RUN, MERGE, Places
from rules import (FULL, IN_FLIGHT, INDEX_FULL, LETTERS, MOST_CHUNKS, ROOT_LOST, RULES, TOO_LARGE, Refused, cut, frame_pages, head_bytes, head_of,
                   most_weight, run_bytes, shard_bytes, weigh)


class BadLine(Exception):
    pass


class Disk:
    """A disk by what it shows. `twins` has the other page of each that lies twice on the device below, and `turned` those whose newest half lies there: a write goes
    to the half that isn't the newest."""

    def __init__(self, durable=(), twins=(), turned=()):
        self.durable, self.volatile = dict(durable), []
        self.twins, self.turned = dict(twins), set(turned)

    def write(self, page, content):
        self.volatile.append((page, content))

    def flush(self):
        self.crash([True] * len(self.volatile))

    def crash(self, kept):
        for (page, content), keep in zip(self.volatile, kept):
            if keep:
                self.durable[page] = content
                self.turned ^= {page} & set(self.twins)
        self.volatile = []

    def half_of(self, page):
        """The page below to which a write of this one goes."""
        return self.twins[page] if page in self.twins and page not in self.turned else page


class Element:
    """A page write: a plain one (family "w") or a version; it needs the plain writes of its section, or of all where it has none, through a number, and
    versions up to one each."""

    def __init__(self, family, number, page, content, section=None, through=0, versions=()):
        self.family, self.number, self.page, self.content = family, number, page, content
        self.section, self.through, self.versions = section, through, versions
        self.name = f"{family}{number}"

    def needs(self, other):
        if other.family == "w":
            return self.section in (None, other.section) and other.number <= self.through
        return other.number <= self.versions[LETTERS.index(other.family)]


class Store(Places):
    def __init__(self, extents, pages, sections=1, form=2):
        self.extents, self.pages, self.sections = extents, pages, sections
        self.form, self.rules = form, RULES[form]
        self.families = LETTERS[:sections + 1]
        self.disk = Disk()
        self.disk.durable = {1: (1, 0, [])}
        for section in range(sections):
            there = len(self.extents_of(section))
            self.disk.durable[self.section_page(section)] = (1, 0, [0] * there, [0] * there)
        # whether a sync takes its rounds from one plan; else each is counted anew
        self.plans_once = False
        self.open()

    def extents_of(self, section):
        most = -(-self.extents // self.sections)
        return range(section * most, min(self.extents, (section + 1) * most))

    def section_of(self, extent):
        return extent // -(-self.extents // self.sections)

    def section_page(self, section):
        return 0 if section == 0 else 1 + self.extents * self.pages + section

    def family_of(self, section):
        return 0 if section == 0 else section + 1

    def open(self):
        root, count, locators = self.disk.durable[1]
        self.latest = [0, root] + [0] * (self.sections - 1)
        pointer, generation = [], []
        for section in range(self.sections):
            version, recorded, pointers, generations = self.disk.durable[self.section_page(section)]
            if self.rules.records and root < recorded:
                raise Refused(*ROOT_LOST)
            self.latest[self.family_of(section)] = version
            pointer += pointers
            generation += generations
        self.found_places(pointer, generation)
        self.persistent = list(self.latest)
        self.persistent_plain = set()
        self.written = 0
        self.elements = []
        self.base, self.accepted = count, 0
        self.runs = [(self.read_run(locator), locator) for locator in locators]
        self.table = {}
        self.root_counts = {root: 0}
        self.round = None
        if self.rules.apart:
            self.of_runs = {locator[0] for locator in locators}
            self.free_blank(root)
        return count, len(self.live())

    def read_run(self, locator):
        return dict(self.disk.durable[self.page_of(locator)][1])

    def page_of(self, locator):
        extent, page, generation = locator
        assert self.generation[extent] == generation and page < self.pointer[extent]
        return 2 + extent * self.pages + page

    # ---- the index

    def lookup(self, name):
        for entries in [self.table] + [run for run, _ in reversed(self.runs)]:
            if name in entries:
                return entries[name]
        return None

    def named(self):
        return set(self.table).union(*(run for run, _ in self.runs))

    def entries(self):
        """The newest entry of each identifier, also of one that was deleted."""
        return {name: self.lookup(name) for name in self.named()}

    def live(self):
        return {name: found for name, found in self.entries().items() if found}

    # ---- staging

    def weight(self):
        """What the newest entries count of what may be named."""
        return sum(weigh(self.rules, len(found)) for found in self.entries().values())

    def dead_weight(self):
        """What those count of them that name nothing which lives."""
        return (len(self.named()) - len(self.live())) * weigh(self.rules, 0)

    def is_heavy(self, name, chunks):
        """Whether the newest entries count more than they may with one of so many chunks in place of what the name has. Where all may have as many chunks as
        there may be, nothing is counted."""
        most = most_weight(self.rules, self.pages)
        named = self.named()
        if (len(named) + 1) * weigh(self.rules, MOST_CHUNKS) <= most:
            return False
        before = weigh(self.rules, len(self.lookup(name))) if name in named else 0
        return most < self.weight() - before + weigh(self.rules, chunks)

    def stage(self, element):
        """Stages a version, which needs what the one before it needs too."""
        before = [e for e in self.elements if e.family == element.family]
        if before:
            last = before[-1]
            element.through = max(element.through, last.through)
            element.versions = [max(a, b) for a, b in zip(element.versions, last.versions)]
        self.elements.append(element)

    def stage_pages(self, place, size, content):
        """Stages the pages of a frame, the first with what it has. They need the root under which the extent was emptied."""
        extent, page, _ = place
        for step in range(size):
            self.written += 1
            where = 2 + extent * self.pages + page + step
            needs = self.versions_with(1, self.reset_root[extent])
            section = self.section_of(extent)
            self.elements.append(Element("w", self.written, where, content if step == 0 else None, section, 0, needs))

    def versions_with(self, family, version):
        """Versions up to this one of a family, and none of the others."""
        return [version if number == family else 0 for number in range(len(self.families))]

    def stage_section(self, section):
        family = self.family_of(section)
        self.latest[family] += 1
        there = self.extents_of(section)
        record = (self.latest[family], self.persistent[1], [self.pointer[e] for e in there], [self.generation[e] for e in there])
        needs = self.versions_with(1, max(self.reset_root[e] for e in there))
        page = self.section_page(section)
        through = self.written if self.rules.pages_first else 0
        self.stage(Element(self.families[family], self.latest[family], page, record, section, through, needs))

    def stage_root(self):
        self.latest[1] += 1
        record = (self.latest[1], self.base + self.accepted, [locator for _, locator in self.runs])
        needs = [0 if number == 1 else latest for number, latest in enumerate(self.latest)]
        through = 0 if self.rules.pages_first else self.written
        self.stage(Element("r", self.latest[1], 1, record, None, through, needs))
        self.root_counts[self.latest[1]] = self.accepted
        return self.latest[1]

    def stage_takes(self):
        """How many of the newest runs a Stage merges with the table. By size: those that have at most twice as many entries as what is merged so far, one
        after another, and as many more as a root has no place for; all where a quarter of the names that there may be are of nothing that lives."""
        if not self.rules.by_size:
            return 0 if len(self.runs) < self.rules.most_runs else len(self.runs)
        if 4 * self.dead_weight() >= most_weight(self.rules, self.pages):
            return len(self.runs)
        count, size = 0, len(self.table)
        for left in range(len(self.runs), 0, -1):
            entries = len(self.runs[left - 1][0])
            if entries > 2 * size and left < self.rules.most_runs:
                break
            count, size = count + 1, size + entries
        return count

    def part(self, count):
        """The entries of the table and of so many of the newest runs, without its deletions where all runs take part. By the older rule these stay where
        there is no run."""
        entries = {}
        for run, _ in self.runs[len(self.runs) - count:]:
            entries.update(run)
        entries.update(self.table)
        goes = count == len(self.runs) and (self.rules.by_size or count > 0)
        return {name: list(found) for name, found in entries.items() if found or not goes}

    def stage_run(self, entries, count, purpose):
        """Stages a run of these entries in place of the table and of so many of the newest runs, or none where there is no entry."""
        older = self.runs[:len(self.runs) - count]
        if entries:
            older = older + [(entries, self.append(run_bytes(self.rules, entries), ("run", dict(entries)), purpose))]
        self.runs, self.table = older, {}

    def stage_merged(self, purpose):
        """Stages one run of all that lives, and the root over it."""
        self.stage_run({name: list(found) for name, found in self.live().items()}, len(self.runs), purpose)
        return self.stage_root()

    def stage_newest(self):
        """Stages the table with as many of the newest runs as a Stage takes, and the root. Where chunks and runs lie apart and that run goes nowhere, all
        become one on an empty extent; and what the root leaves blank is freed."""
        count = self.stage_takes() if self.table else 0
        try:
            self.stage_run(self.part(count), count, RUN)
        except Refused:
            if not self.rules.apart:
                raise
            self.stage_run(self.part(len(self.runs)), len(self.runs), MERGE)
        root = self.stage_root()
        if self.rules.apart:
            self.free_blank(root)
        return root

    def stage_table(self):
        return self.stage_newest() if self.table or self.left_over() else None

    # ---- commands

    def put(self, name, data):
        if len(data) > shard_bytes(self.rules, self.pages):
            raise Refused(*TOO_LARGE)
        ends = [0, *itertools.accumulate(cut(self.rules, self.pages, len(data)))]
        pieces = [data[begin:end] for begin, end in itertools.pairwise(ends)]
        if self.is_heavy(name, len(pieces)):
            raise Refused(*INDEX_FULL)
        command = self.base + self.accepted + 1
        chunks = [piece + head_of(self.rules, name, number, len(pieces), command) for number, piece in enumerate(pieces)]
        if self.room(PUT, [frame_pages(len(chunk)) for chunk in chunks]) is None:
            raise Refused(*FULL)
        self.table[name] = [self.append(len(chunk), ("chunk", chunk), PUT) for chunk in chunks]
        self.accepted += 1
        return self.accepted

    def get(self, name):
        found = self.lookup(name)
        return None if not found else b"".join(self.piece_of(self.read_chunk(locator)) for locator in found)

    def piece_of(self, chunk):
        """A chunk without its head."""
        return chunk[:len(chunk) - head_bytes(self.rules)]

    def read_chunk(self, locator):
        """A chunk with its head."""
        page = self.page_of(locator)
        for element in reversed(self.elements):
            if element.page == page and not self.is_persistent(element):
                return element.content[1]
        for where, content in reversed(self.disk.volatile):
            if where == page:
                return content[1]
        return self.disk.durable[page][1]

    def delete(self, name):
        if not self.lookup(name):
            return None
        self.table[name] = []
        self.accepted += 1
        return self.accepted

    # ---- plans

    def is_persistent(self, element):
        if element.family == "w":
            return element.number in self.persistent_plain
        return element.number <= self.persistent[LETTERS.index(element.family)]

    def waiting(self):
        return [e for e in self.elements if not self.is_persistent(e)]

    def frontier(self):
        return self.root_counts[self.persistent[1]]

    def forget(self):
        """Lets go of what is persistent, but for the last version of each family, whose needs the next one has too. No answer changes."""
        last = {e.family: e for e in self.elements if e.family != "w"}
        self.elements = [e for e in self.elements if not self.is_persistent(e) or last.get(e.family) is e]
        self.persistent_plain &= {e.number for e in self.elements if e.family == "w"}
        self.root_counts = {version: count for version, count in self.root_counts.items() if version >= self.persistent[1]}

    def plan(self):
        if self.round is not None:
            raise Refused(*IN_FLIGHT)
        waiting = self.waiting()
        level = self.levels(waiting)
        rounds = []
        for height in range(1, max(level.values(), default=0) + 1):
            members = [e for e in waiting if level[e] == height]
            chosen = [e for e in members if e.family == "w"]
            for family in self.families:
                chosen += [e for e in members if e.family == family][-1:]
            rounds.append(chosen)
        chain = []
        if rounds:
            chain = [pick([e for e in waiting if level[e] == len(rounds)])]
        while chain and level[chain[0]] > 1:
            first = chain[0]
            of = first if first.family == "w" else next(
                e for e in waiting if e.family == first.family and level[e] == level[first])
            chain.insert(0, pick([e for e in waiting if level[e] == level[first] - 1 and of.needs(e)]))
        return rounds, chain

    def levels(self, waiting):
        """The level of each of these, which are in staging order: one more than the greatest of what it needs."""
        level, seen = {}, {}
        for element in waiting:
            needed = [(("w", element.section), element.through)] + list(zip(self.families, element.versions))
            greatest = 0
            for of, through in needed:
                numbers, tops = seen.get(of, ([], []))
                count = bisect.bisect_right(numbers, through)
                greatest = max(greatest, tops[count - 1] if count else 0)
            level[element] = 1 + greatest
            for of in [("w", element.section), ("w", None)] if element.family == "w" else [element.family]:
                numbers, tops = seen.setdefault(of, ([], []))
                numbers.append(element.number)
                tops.append(max(level[element], tops[-1] if tops else 0))
        return level

    # ---- writeback

    def begin(self, planned=None):
        rounds = self.plan()[0] if planned is None else planned
        if not rounds:
            return None
        self.round, self.issued = rounds[0], 0
        return self.round

    def issue(self):
        element = self.round[self.issued]
        self.issued += 1
        self.disk.write(element.page, element.content)
        return element

    def end(self):
        self.disk.flush()
        for element in self.round:
            if element.family == "w":
                self.persistent_plain.add(element.number)
            else:
                self.persistent[LETTERS.index(element.family)] = element.number
        self.round = None
        return self.frontier()

    # ---- sweeps

    def sweep(self, extent):
        self.begin_sweep(extent)
        try:
            live = self.lives_on(extent)
            for name, number in live:
                self.move(name, number)
            return len(live), self.retire(extent)
        except Refused:
            self.abandon(extent)
            raise

    # ---- lines

    def answer(self, line):
        """The lines that one line of a script prints."""
        printed = []
        try:
            for text in self.lines_of(line.split(" ")):
                printed.append(text)
        except Refused as refused:
            printed.append(str(refused))
        except BadLine:
            printed.append("bad line")
        return printed

    def lines_of(self, words):
        words = [word for word in words if word]
        if words[0] == "put":
            yield f"put {self.put(words[1], bytes_of(words[2]))}"
        elif words[0] == "get":
            found = self.get(words[1])
            yield "absent" if found is None else f"value {found.hex() or '-'}"
        elif words[0] == "del":
            number = self.delete(words[1])
            yield "absent" if number is None else f"del {number}"
        elif words[0] == "sweep":
            moved, root = self.sweep(int(words[1]))
            yield f"sweep {words[1]} moved {moved} root r{root}"
        elif words[0] == "plan":
            if self.round is not None:
                raise Refused(*IN_FLIGHT)
            self.stage_table()
            rounds, chain = self.plan()
            yield from (round_line(number, members) for number, members in enumerate(rounds, 1))
            yield chain_line(chain)
            yield f"flushes {len(rounds)}"
        elif words[0] == "sync":
            yield from self.sync_lines()
        elif words[0] == "step":
            if self.round is not None and self.issued < len(self.round):
                element = self.issue()
                yield f"issue {element.name} page {element.page}"
            elif self.round is not None:
                yield f"end acknowledged {self.end()}"
            else:
                members = self.begin()
                yield "idle" if members is None else "begin: " + names(members)
        elif words[0] == "crash":
            bits = "" if words[1] == "-" else words[1]
            if len(bits) != len(self.disk.volatile):
                raise BadLine
            self.disk.crash([bit == "1" for bit in bits])
            yield f"crash kept {bits.count('1')} of {len(bits)}"
            count, live = self.open()
            yield f"open commands {count} shards {live}"
        elif words[0] == "document":
            yield self.document()
        else:
            raise BadLine

    def sync_lines(self):
        if self.round is not None:
            while self.issued < len(self.round):
                self.issue()
            yield f"end acknowledged {self.end()}"
        self.stage_table()
        rounds, chain = self.plan()
        number = 0
        while True:
            members = self.begin(rounds[number:] if self.plans_once else None)
            if members is None:
                break
            number += 1
            for _ in members:
                self.issue()
            self.end()
            yield round_line(number, members)
        yield chain_line(chain)
        yield f"flushes {len(rounds)}"
        yield f"acknowledged {self.frontier()}"

    def document(self):
        rounds, chain = self.plan()
        waiting = self.waiting()

        def listed(needs):
            found = [e.name for e in waiting if e.family == "w" and needs(e)]
            for family in self.families:
                found += [e.name for e in waiting if e.family == family and needs(e)][-1:]
            return found

        return json.dumps({
            "chain": [e.name for e in chain],
            "elements": [{"e": e.name, "needs": listed(e.needs)} for e in waiting],
            "families": list(self.families),
            "format": 1,
            "persistent": self.persistent,
            "rounds": [[e.name for e in members] for members in rounds],
            "target": listed(lambda e: True),
        }, separators=(",", ":"))


def pick(elements):
    plain = [e for e in elements if e.family == "w"]
    if plain:
        return plain[0]
    for family in LETTERS:
        versions = [e for e in elements if e.family == family]
        if versions:
            return versions[-1]
    raise AssertionError("nothing to pick")


def names(elements):
    return " ".join(e.name for e in elements)


def round_line(number, members):
    return f"round {number}: {names(members)}"


def chain_line(chain):
    return "chain: " + (names(chain) or "-")


def bytes_of(text):
    if text == "-":
        return b""
    try:
        return bytes.fromhex(text)
    except ValueError:
        raise BadLine from None
