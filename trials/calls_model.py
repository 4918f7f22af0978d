"""The typed store by the rules of docs/API.md, over the store of store_model.py: what its calls answer, with the count of its events, its device calls, of
which one may fail, and its openings. It answers the lines of `calls` of trials/program, and shares nothing with that program."""
from rules import (BAD_GEOMETRY, DEVICE_FAULT, HALTED, HISTORY_FULL, NOT_SWEEPABLE, RULES, Refused, frame_pages, head_bytes, most_weight, run_bytes,
                   run_pages)
from store_model import Store, bytes_of


def truth(fact):
    return "true" if fact else "false"


class Calls(Store):
    """A typed store."""

    def __init__(self, extents, pages, limit, sections=1, form=2):
        self.limit, self.fails = limit, 0
        super().__init__(extents, pages, sections, form)

    # ---- the device

    def device_call(self):
        """A read, a write or a flush: the one that is to fail does."""
        if self.fails > 0:
            self.fails -= 1
            if self.fails == 0:
                raise Refused(*DEVICE_FAULT)

    def read_pages(self, page, count):
        """Reads pages, those that wait for a sync from memory."""
        for number in range(page, page + count):
            if number not in self.newest:
                self.device_call()

    def payload_of(self, locator):
        """How many bytes a frame's payload has, which its first page says."""
        kind, content = self.content_of(self.page_of(locator))
        return len(content) if kind == "chunk" else run_bytes(self.rules, content)

    def content_of(self, page):
        if page in self.newest:
            return self.newest[page].content
        for where, content in reversed(self.disk.volatile):
            if where == page:
                return content
        return self.disk.durable[page]

    def read_first(self, locator):
        """Reads the first page of a frame."""
        self.read_pages(self.page_of(locator), 1)
        return frame_pages(self.payload_of(locator))

    def read_frame(self, locator):
        self.read_pages(self.page_of(locator), 1)
        self.read_pages(self.page_of(locator) + 1, frame_pages(self.payload_of(locator)) - 1)

    def read_chunk(self, locator):
        self.read_frame(locator)
        return self.content_of(self.page_of(locator))[1]

    def open(self):
        """Opens what is on the disk: looks whether it is of two stores, by page 0 and, if that is of format 4, by the last page. It looks
        at page 0 for the geometry and flushes. In format 4 it reads both pages of each pair, for the findings and then for the newest. It
        flushes again, and reads the superblock, the root and the runs."""
        heads = self.sections + 1
        for _ in range(5 + 5 * heads if self.rules.apart else 4 + heads):
            self.device_call()
        self.disk.flush()
        self.newest, self.halted, self.events = {}, False, 0
        # where the chunks lie whose lengths are in memory: those that were put or moved since, or whose first page was read for a survey
        self.known = set()
        self.opened = super().open()
        for entries, locator in self.runs:
            first = self.page_of(locator)
            self.read_pages(first, run_pages(self.rules, entries))
        return self.opened

    # ---- events

    def ask(self, limited=False):
        """An event that is kept, also where it is refused then; where as many are kept as may be some aren't taken."""
        if limited and self.events >= self.limit:
            raise Refused(*HISTORY_FULL)
        self.events += 1

    def is_settled(self):
        return not self.table and self.round is None and not any(not self.is_persistent(e) for e in self.elements)

    def make_ready(self):
        """Takes a checkpoint where half of the limit is used and nothing waits; where all is used, syncs and takes one."""
        if 2 * self.events >= self.limit and self.is_settled():
            self.events = 0
        if self.events < self.limit:
            return
        self.write_back()
        self.events = 0

    def must_go_on(self):
        if self.halted:
            raise Refused(*HALTED)

    def append(self, payload_bytes, content, purpose):
        count = len(self.elements)
        locator = super().append(payload_bytes, content, purpose)
        if content[0] == "chunk":
            self.known.add(locator)
        for element in self.elements[count:]:
            if element.family == "w":
                self.newest[element.page] = element
        return locator

    def or_halt(self):
        """A write or a flush."""
        self.ask()
        try:
            self.device_call()
        except Refused:
            self.halted = True
            raise

    def write_back(self):
        """Stages the index's changes, and writes round after round until nothing waits."""
        self.ask()
        self.stage_table()
        planned = self.plan()[0] if self.plans_once else None
        while True:
            members = self.begin(planned)
            if members is None:
                break
            self.ask()
            for _ in members:
                self.or_halt()
                self.issue()
            self.or_halt()
            self.end()
            self.let_go(members)
            planned = planned and planned[1:]
        self.forget()

    def let_go(self, members):
        for element in members:
            if self.newest.get(element.page) is element:
                del self.newest[element.page]

    # ---- calls

    def call_put(self, name, text):
        self.must_go_on()
        self.make_ready()
        self.ask(limited=True)
        return f"put {self.put(name, bytes_of(text))}"

    def call_get(self, name):
        found = self.get(name)
        return "absent" if found is None else f"value {found.hex() or '-'}"

    def call_del(self, name):
        self.must_go_on()
        self.make_ready()
        self.ask(limited=True)
        number = self.delete(name)
        return "absent" if number is None else f"del {number}"

    def call_contains(self, name):
        return truth(self.lookup(name))

    def call_size(self, name):
        found = self.lookup(name)
        if not found:
            return "absent"
        return f"size {sum(self.size_of_chunk(locator) for locator in found)}"

    def size_of_chunk(self, locator):
        self.read_first(locator)
        return self.payload_of(locator) - head_bytes(self.rules)

    def call_sync(self):
        self.must_go_on()
        self.write_back()
        return f"persistent {self.frontier()}"

    def call_ids(self):
        return self.listed(sorted(self.live()))

    def call_from(self, name, most):
        return self.listed([each for each in sorted(self.live()) if each >= name][:int(most)])

    def listed(self, names):
        return "\n".join([f"ids {len(names)}", *names])

    def uses(self):
        """Of each extent how many pages the chunks have that live there, and how many chunks' headers weren't read."""
        live, unreadable, _ = self.survey()
        return live, unreadable

    def survey(self):
        """The same, and how many pages the greatest chunk has whose header was read. A header is read once after an opening."""
        live, unreadable, greatest = [0] * self.extents, [0] * self.extents, 0
        for _, _, locator in self.chunks():
            try:
                if locator not in self.known:
                    self.read_pages(self.page_of(locator), 1)
                self.known.add(locator)
                pages = frame_pages(self.payload_of(locator))
                live[locator[0]] += pages
                greatest = max(greatest, pages)
            except Refused:
                unreadable[locator[0]] += 1
        return live, unreadable, greatest

    def chunks(self):
        return [(name, number, locator) for name, found in sorted(self.live().items()) for number, locator in enumerate(found)]

    def call_stats(self):
        live, unreadable = self.uses()
        lines = [f"{self.look(e)} live {live[e]} dead {self.pointer[e] - live[e]} unreadable {unreadable[e]}" for e in range(self.extents)]
        lines += [f"run extent {extent} page {page} entries {len(entries)}" for entries, (extent, page, _) in self.runs]
        lines.append(f"empty {self.pointer.count(0)} named {len(self.named())} weight {self.weight()} of {most_weight(self.rules, self.pages)}"
                     f" shards {len(self.live())} chunks {len(self.chunks())}")
        lines.append(f"events {self.events} of {self.limit} accepted {self.accepted} persistent {self.frontier()}")
        return "\n".join(lines)

    def look(self, extent):
        is_open = truth(extent == self.open_extent)
        return f"pointer {self.pointer[extent]} generation {self.generation[extent]} open {is_open} swept false"

    def call_scrub(self):
        """Nothing is damaged here, so what isn't read is what the device refused."""
        chunks = self.chunks()
        lines = []
        for what, locator in [(f"{name} chunk {number}", locator) for name, number, locator in chunks] + [("run", locator) for _, locator in self.runs]:
            try:
                self.read_frame(locator)
            except Refused as refused:
                lines.append(f"damaged {what} extent {locator[0]} page {locator[1]} {refused}")
        return "\n".join([*lines, f"read chunks {len(chunks)} runs {len(self.runs)}"])

    def call_sweep(self, extent):
        moved, root = self.sweep(int(extent))
        return f"moved {moved} root {root}"

    def sweep(self, extent):
        self.must_go_on()
        self.make_ready()
        self.ask(limited=True)
        self.begin_sweep(extent)
        try:
            moved = self.move_all(extent)
            self.ask()
            return moved, self.retire(extent)
        except Refused:
            self.ask()
            self.abandon(extent)
            raise

    def move_all(self, extent):
        live = self.lives_on(extent)
        for name, number in live:
            self.ask(limited=True)
            self.move(name, number)
        self.ask(limited=True)
        return len(live)

    def call_abandon(self, _extent):
        """A sweep that is refused is abandoned by itself, unless memory for that is refused: so no extent is marked."""
        self.must_go_on()
        self.ask()
        raise Refused(*NOT_SWEEPABLE)

    def call_reclaim(self):
        """Sweeps the extent that is worth it."""
        self.must_go_on()
        extent, dead = self.next_apart() if self.rules.apart else self.worth_beside()
        if extent is None:
            return "none"
        moved, root = self.sweep(extent)
        return f"extent {extent} dead {dead} moved {moved} root {root}"

    def worth_beside(self):
        """The extent with most pages that no shard has, the first of several, where they are more than the index takes; and how many they are."""
        live, _ = self.uses()
        garbage = [0 if e == self.open_extent else self.pointer[e] - live[e] for e in range(self.extents)]
        extent = garbage.index(max(garbage))
        return (extent, garbage[extent]) if garbage[extent] > run_pages(self.rules, self.entries()) else (None, 0)

    def worth_apart(self):
        """The extent of chunks with fewest live pages, the first of several, but not the one to which the last copy of a sweep went, where these pages and
        those of another one have room on one extent; and how many of its pages no shard has."""
        live, unreadable = self.uses()
        extent = self.one_of_two(live, self.movable(live, unreadable))
        return (None, 0) if extent is None else (extent, self.pointer[extent] - live[extent])

    def next_apart(self):
        """The extent of chunks that is swept next, up to the brim: one of two that fit on one; else the one with fewest live pages of those with dead pages;
        else the one with fewest live pages, where all of them are sure to go to others; and how many of its pages no shard has."""
        live, unreadable, greatest = self.survey()
        movable = self.movable(live, unreadable)
        extent = self.one_of_two(live, movable)
        if extent is None:
            extent = next((e for _, e in movable if self.pointer[e] > live[e]), None)
        if extent is None and movable and movable[0][0]:
            few, extent = movable[0]
            sure = sum(max(0, self.pages - self.pointer[e] - max(0, greatest - 1)) for _, e in movable if e != extent)
            extent = extent if few <= sure else None
        return (None, 0) if extent is None else (extent, self.pointer[extent] - live[extent])

    def movable(self, live, unreadable):
        """The extents of chunks off which all may be moved, those with fewest live pages first."""
        return sorted((live[e], e) for e in range(self.extents)
                      if self.pointer[e] and e not in self.of_runs and e not in self.swept and not unreadable[e])

    def one_of_two(self, live, movable):
        """The first of these, but not the last copy's, where it and another one have room on one extent."""
        extent = next((e for _, e in movable if e != self.last), None)
        other = next((e for _, e in movable if e != extent), None)
        return None if extent is None or other is None or live[extent] + live[other] > self.pages else extent

    def call_numbers(self):
        return (f"accepted {self.accepted} persistent {self.frontier()} events {self.events} limit {self.limit} halted {truth(self.halted)}"
                f" found {self.opened[0]} {self.opened[1]}")

    def call_room(self):
        return f"extents {self.extents} pages {self.pages} sections {self.sections} empty {self.pointer.count(0)}"

    def call_extent(self, extent):
        return self.look(int(extent)) if int(extent) < self.extents else "absent"

    def call_first(self, extent):
        """The first chunk that lives on an extent, by identifier and then by number."""
        return next((f"first {name} {number}" for name, number, locator in self.chunks() if locator[0] == int(extent)), "none")


class Trial:
    """What the lines are played on: no store yet, one that is open, or one that couldn't be opened."""

    def __init__(self):
        self.store, self.is_open = None, False

    def answer(self, line):
        """The lines that one line prints."""
        words = line.split(" ")
        try:
            if words[0] == "make":
                return self.make(*(int(word) for word in words[1:]))
            if words[0] in ("close", "crash"):
                return self.reopen(words)
            if not self.is_open:
                return ["no store"]
            return getattr(self.store, f"call_{words[0]}")(*words[1:]).split("\n")
        except Refused as refused:
            return [str(refused)]

    def make(self, extents, pages, limit, form=2):
        self.store, self.is_open = None, False
        if extents not in RULES[form].extents or pages not in RULES[form].pages:
            raise Refused(*BAD_GEOMETRY)
        self.store, self.is_open = Calls(extents, pages, limit, 1, form), True
        return ["made"]

    def reopen(self, words):
        """Closes the store, lets its disk crash where that is asked for, and opens what is left."""
        if self.store is None:
            return ["no store"]
        printed, store = [], self.store
        if words[0] == "crash":
            printed.append(self.crash("" if words[1] == "-" else words[1]))
        store.disk.flush()
        store.fails = int(words[-1])
        try:
            count, live = store.open()
            self.is_open = True
            return [*printed, f"open commands {count} shards {live}"]
        except Refused as refused:
            self.is_open = False
            return [*printed, str(refused)]

    def crash(self, bits):
        volatile = len(self.store.disk.volatile)
        if len(bits) != volatile:
            return f"no crash of {volatile}"
        self.store.disk.crash([bit == "1" for bit in bits])
        return f"crash kept {bits.count('1')} of {volatile}"
