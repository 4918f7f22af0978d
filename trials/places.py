"""Where the frames of the second store go, by both rules of room; it shares nothing with the program."""
from rules import FULL, NOT_SWEEPABLE, Refused, frame_pages

# What a frame is appended for: a chunk of a put, a run that a Stage writes, a chunk that a sweep moves and the run behind it, and one run of all.
PUT, RUN, MOVE, MERGE = range(4)
# How many extents stay empty where one is opened for it, where chunks and runs may lie on one extent.
SPARE = {PUT: 2, RUN: 1, MOVE: 0, MERGE: 0}


class Places:
    """The extents of a store: how many pages of each are given, and what goes to which."""

    def found_places(self, pointer, generation):
        """The extents as an opening finds them."""
        self.pointer, self.generation = pointer, generation
        self.reset_root = [0] * self.extents
        self.open_extent, self.swept = None, set()
        # Where chunks and runs lie apart: which extents hold runs, how many pages of each were given at the opening, the copies of the sweep that
        # isn't done, each with what was copied and where it lay, the extent that the sweep opened, and the one to which the last copy of any went.
        self.of_runs, self.found, self.copies, self.fresh, self.last = set(), list(pointer), [], None, None

    def most_run_extents(self):
        return 2 if self.extents >= 16 else 1

    def first_empty(self):
        return next((e for e in range(self.extents) if self.pointer[e] == 0), None)

    # ---- which extent

    def place(self, purpose, size):
        """The extent that a frame of so many pages goes to, or None."""
        return self.place_apart(purpose, size) if self.rules.apart else self.place_beside(purpose, size)

    def place_beside(self, purpose, size):
        """The open extent where it has room, else the first empty one, where enough others stay empty."""
        if self.open_extent is not None and self.pointer[self.open_extent] + size <= self.pages:
            return self.open_extent
        return self.first_empty() if self.pointer.count(0) > SPARE[purpose] else None

    def place_apart(self, purpose, size):
        """Behind the last frame of its kind, else behind others on the first extent where it fits, else the first empty one, where one may be opened."""
        noted = {PUT: self.open_extent, MOVE: self.last}.get(purpose)
        if noted is not None and self.takes(purpose, noted, size):
            return noted
        behind = next((e for e in range(self.extents) if self.takes(purpose, e, size)), None)
        if behind is None and self.may_open(purpose):
            return self.first_empty()
        return behind

    def takes(self, purpose, extent, size):
        """Whether so many pages fit behind the frames on an extent, which are of the kind."""
        if purpose == MERGE or self.pointer[extent] == 0 or self.pointer[extent] + size > self.pages:
            return False
        if (extent in self.of_runs) != (purpose == RUN) or (self.found[extent] > 0 and not self.rules.fills):
            return False
        return purpose == RUN or (extent not in self.swept and (purpose == MOVE or extent != self.fresh))

    def may_open(self, purpose):
        """Whether an empty extent may be taken: for a put while two stay empty beside those that may hold runs, the one that a sweep opened not counted."""
        chunks, runs = self.chunk_extents(), self.run_extents()
        return {
            PUT: chunks + 1 + self.most_run_extents() + 2 <= self.extents + (self.fresh is not None),
            RUN: runs < self.most_run_extents(),
            MOVE: self.fresh is None,
            MERGE: True,
        }[purpose]

    def chunk_extents(self):
        return sum(1 for e in range(self.extents) if self.pointer[e] and e not in self.of_runs)

    def run_extents(self):
        return sum(1 for e in range(self.extents) if self.pointer[e] and e in self.of_runs)

    def take(self, purpose, extent, size):
        """Gives so many pages of an extent."""
        was_empty = self.pointer[extent] == 0
        self.pointer[extent] += size
        if not self.rules.apart:
            self.open_extent = None if self.pointer[extent] == self.pages else extent
        elif purpose == PUT:
            self.open_extent = extent
        elif purpose == MOVE:
            self.fresh, self.last = extent if was_empty else self.fresh, extent
        else:
            self.of_runs.add(extent)

    def room(self, purpose, sizes):
        """The extents that frames of so many pages go to, one after another, or None where one is refused. Nothing is given."""
        kept = list(self.pointer), self.open_extent, set(self.of_runs), self.fresh, self.last
        places = []
        for size in sizes:
            extent = self.place(purpose, size)
            if extent is None:
                break
            places.append(extent)
            self.take(purpose, extent, size)
        self.pointer, self.open_extent, self.of_runs, self.fresh, self.last = kept
        return places if len(places) == len(sizes) else None

    # ---- resets

    def reset(self, extent, root):
        """Empties an extent under a root that names nothing on it."""
        self.pointer[extent] = 0
        self.generation[extent] += 1
        self.reset_root[extent] = root
        if self.rules.apart:
            self.found[extent] = 0
            self.of_runs.discard(extent)
            self.forget_place(extent)

    def forget_place(self, extent):
        """Nothing goes there only since something went there before."""
        self.open_extent = None if self.open_extent == extent else self.open_extent
        self.last = None if self.last == extent else self.last

    def free_blank(self, root):
        """Where chunks and runs lie apart, and all that is live stands in runs: resets each extent on which nothing lives and no run lies. That of an
        unfinished sweep stays, and those to which it wrote."""
        if not self.swept:
            self.copies, self.fresh = [], None
        held = self.swept | {place[0] for _, _, _, place in self.copies}
        names = {place[0] for places in self.live().values() for place in places} | {place[0] for _, place in self.runs}
        for extent in range(self.extents):
            if self.pointer[extent] and extent not in names | held:
                self.reset(extent, root)

    # ---- sweeps

    def begin_sweep(self, extent):
        if extent >= self.extents or self.pointer[extent] == 0 or not self.may_sweep(extent):
            raise Refused(*NOT_SWEEPABLE)
        self.swept.add(extent)
        if self.rules.apart:
            self.forget_place(extent)

    def may_sweep(self, extent):
        """Whether a sweep of an extent with frames may begin: of none that is being filled or swept; or, where chunks and runs lie apart, of one of chunks
        while no other is going on or left over."""
        if self.rules.apart:
            return extent not in self.of_runs and not self.swept and not self.copies
        return extent != self.open_extent and extent not in self.swept

    def lives_on(self, extent):
        """Each chunk that lives there, by identifier and number. What is moved doesn't go there, so the order is that of the first look."""
        return [(name, number) for name, found in sorted(self.live().items())
                for number, place in enumerate(found) if place[0] == extent]

    def move(self, name, number):
        """Copies a chunk. Where chunks and runs lie apart it counts where it lay until the sweep ends."""
        found = list(self.lookup(name))
        data = self.read_chunk(found[number])
        place = self.append(len(data), ("chunk", data), MOVE)
        if self.rules.apart:
            self.copies.append((name, number, found[number], place))
            return
        found[number] = place
        self.table[name] = found

    def retire(self, extent):
        """Ends a sweep: what lives is staged where it is now, and the extent is emptied."""
        self.swept.discard(extent)
        if self.rules.apart:
            self.settle()
            return self.stage_newest()
        root = self.stage_merged(MOVE)
        self.reset(extent, root)
        return root

    def settle(self):
        """What was copied counts where its copy is, if it still lies where it was copied from."""
        for name, number, was, place in self.copies:
            found = list(self.lookup(name) or [])
            if found[number:number + 1] == [was]:
                found[number] = place
                self.table[name] = found
        self.copies = []

    def abandon(self, extent):
        """Gives up a sweep. What was copied is garbage where chunks and runs lie apart, and else stays moved."""
        self.swept.discard(extent)

    def left_over(self):
        """Whether a sweep was given up whose copies are noted until the next root."""
        return self.rules.apart and not self.swept and bool(self.copies)

    # ---- appends

    def append(self, payload_bytes, content, purpose):
        """Stages a frame, a write for each of its pages, and the version of the superblock behind it, and gives its place."""
        size = frame_pages(payload_bytes)
        extent = self.place(purpose, size)
        if extent is None:
            raise Refused(*FULL)
        place = (extent, self.pointer[extent], self.generation[extent])
        self.stage_pages(place, size, content)
        self.take(purpose, extent, size)
        self.stage_section(self.section_of(extent))
        return place
