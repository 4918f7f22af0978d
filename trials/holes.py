"""What is left of a store of which pages can't be read, or aren't whole.

The reader goes by one whole half of section 0, by the root and by the runs alone. The other sections aren't needed. For a
salvage it finds the frames of shards that lie anywhere.
"""
import collections
import struct
from typing import NamedTuple

import pairs
import reader

PAGE = reader.PAGE
# What a store, a run or a shard is refused of which a page can't be read.
UNREADABLE = 1


class Refused(Exception):
    """Why a store isn't opened, or a shard isn't read."""

    def __init__(self, number):
        super().__init__(f"refused {number}")
        self.number = number


def number_of(why):
    """The number of a refusal of the second reader."""
    return int(str(why).split()[1])


def without(image, gone):
    """The bytes with zeros on these pages, which are whole in no format."""
    seen = bytearray(image)
    for page in gone:
        seen[PAGE * page:PAGE * (page + 1)] = bytes(PAGE)
    return bytes(seen)


class Left:
    """A store of these bytes of which these pages can't be read. Raises `Refused` if it isn't opened."""

    def __init__(self, image, gone=(), as_of=False):
        self.image, self.gone = bytes(image), frozenset(gone)
        # Of extents whose pointer counts, where the frames end that begin below it. On the others they end with the extent.
        self.pointers = {}
        seen = without(image, gone)
        first = pairs.section_on(pairs.page_of(seen, 0), None)
        self.passed, self.made, self.is_older = [], [], False
        if first is not None and first.form == 2:
            self.open_older(seen, first)
        else:
            self.open_pairs(seen, as_of)
        self.entries = {}
        for place in self.root.runs:
            payload = self.payload(place, 1)
            self.entries.update(self.entries_of(payload))
        self.names = sorted(name for name, places in self.entries.items() if places)

    def open_older(self, seen, first):
        """Format 2: each page of the superblock and the root has one copy."""
        self.form, self.extents, self.pages, self.sections, _, self.store = first.of_store()
        needed = [0, 1, *(1 + self.extents * self.pages + number for number in range(1, self.sections))]
        if self.gone & set(needed):
            raise Refused(UNREADABLE)
        try:
            self.root = reader.root(pairs.page_of(seen, 1), 2)
        except reader.Unread as why:
            raise Refused(number_of(why)) from why

    def open_pairs(self, seen, as_of):
        """Format 4: of each pair the half that counts, by those that can be read and are whole."""
        found = pairs.pairs_of(seen)
        if found.two is not None or found.named is None:
            raise Refused(UNREADABLE if self.gone & {0, found.count - 1} else 43)
        self.form, self.extents, self.pages, self.sections, _, self.store = found.named
        recorded = 0
        for own, newest, other in found.newest():
            version = found.version(own, newest)
            lost = [page for page in (own, other, newest) if found.version(own, page) == 0 and not self.is_fence(page)]
            self.passed += sorted(set(lost))
            if own == pairs.ROOT:
                if version == 0:
                    raise Refused(UNREADABLE if self.gone & {own, other, newest} else 21)
                self.root, self.is_older = reader.root(found.page(newest), 4), lost != []
            elif version == 0:
                self.made.append(own)
            else:
                recorded = max(recorded, reader.section(found.page(newest), 4).recorded)
        if self.root.version < recorded and not as_of:
            raise Refused(27)

    def is_fence(self, page):
        return page not in self.gone and pairs.page_of(self.image, page) == pairs.FENCE

    def first_page(self, place):
        return 2 + place.extent * self.pages + place.page

    def end_page(self, place):
        """The page of the device before which the frame at a place ends at the latest."""
        return 2 + place.extent * self.pages + self.pointers.get(place.extent, self.pages)

    def span(self, place):
        """The pages that the frame at a place takes, by its header, up to where it ends at the latest."""
        first, end = self.first_page(place), self.end_page(place)
        length = struct.unpack(">I", self.image[PAGE * first + 5:PAGE * first + 9])[0]
        return range(first, min(end, first + -(-(41 + length) // PAGE)))

    def payload(self, place, kind):
        """What a frame says, if each of its pages can be read and all of it is whole."""
        if self.gone & {self.first_page(place), *self.span(place)}:
            raise Refused(UNREADABLE)
        first, end = self.first_page(place), self.end_page(place)
        try:
            return reader.frame(self.image[PAGE * first:PAGE * end], kind, place.mark, self.form)
        except reader.Unread as why:
            raise Refused(number_of(why)) from why

    def entries_of(self, payload):
        try:
            return reader.packed_run(payload, self.store) if self.form == 4 else reader.run(payload)
        except reader.Unread as why:
            raise Refused(number_of(why)) from why

    def shard(self, name):
        """The bytes of a shard. Raises `Refused` if one of its chunks can't be read."""
        pieces = [self.payload(place, 0) for place in self.entries[name]]
        return b"".join(piece[:len(piece) - reader.HEADS[self.form]] for piece in pieces)

    def shards(self):
        """Of each shard its bytes, or why they can't be read."""
        found = {}
        for name in self.names:
            try:
                found[reader.spelled(name)] = self.shard(name)
            except Refused as why:
                found[reader.spelled(name)] = why
        return found


def is_there(record, place):
    """Whether an extent with this record has had the frame at a place."""
    return place.generation == record[1] and place.page < record[0]


def sections_made(image):
    """The pages of a store of format 4 on which a section is made from the index, and the store that opens by them. Raises `Refused`
    if none is lost, or if the store doesn't open by them. An extent of a section that is made is full, if something lives on it.
    The pointers of the other sections count as ever."""
    left, found, made = Left(image), pairs.pairs_of(image), []
    if left.form == 2:
        raise Refused(43)
    named = [*left.root.runs, *(place for places in left.entries.values() for place in places)]
    for own, newest, other in found.newest():
        if own == pairs.ROOT:
            continue
        if found.version(own, newest) > 0:
            section = reader.section(found.page(newest), 4)
            records = dict(enumerate(section.records, section_start(left, section.number)))
            its = [place for place in named if place.extent in records]
            is_past = any(place.generation < records[place.extent][1] for place in its)
            if section.recorded > left.root.version or is_past or all(is_there(records[place.extent], place) for place in its):
                left.pointers.update({extent: pointer for extent, (pointer, _) in records.items()})
                continue
        lost = [page for page in (newest, other) if found.version(own, page) == 0]
        if not lost:
            raise Refused(43)
        made += lost
    if not made:
        raise Refused(43)
    return sorted(made), left


def section_start(store, number):
    """The first extent whose record stands in a section."""
    return number * reader.geometry_of(4, store.extents, store.pages, store.sections)


class Uses(NamedTuple):
    """What the pages of a store are for: its pairs, the runs that its root names, each shard's chunks, and their first pages."""

    pairs: list
    runs: dict
    chunks: dict
    heads: set


def uses_of(image):
    """What each page of a whole store is there for."""
    left = Left(image)
    kept = pairs.pairs_of(image).pairs
    if left.form == 2:
        kept = [(page,) for page in (0, 1, *(1 + left.extents * left.pages + number for number in range(1, left.sections)))]
    runs = {page: place for place in left.root.runs for page in left.span(place)}
    chunks = {page: reader.spelled(name) for name in left.names for place in left.entries[name] for page in left.span(place)}
    heads = {left.first_page(place) for name in left.names for place in left.entries[name]}
    return Uses(kept, runs, chunks, heads)


class Frame(NamedTuple):
    """A whole chunk that lies somewhere: its pages, its head and its payload."""

    span: range
    head: reader.Head
    payload: bytes


def frames_of(image, shape, front):
    """The whole chunks of a store of format 4 that begin on any page of its extents, as far as the bytes go."""
    extents, pages = shape
    found = []
    for first in range(2, min(2 + extents * pages, len(image) // PAGE)):
        end = 2 + ((first - 2) // pages + 1) * pages
        try:
            payload = reader.frame(image[PAGE * first:PAGE * end], 0, None)
        except (reader.Unread, struct.error, IndexError):
            continue
        head = reader.head(payload)
        if head.front == front and head.number < head.count <= 8:
            found.append(Frame(range(first, first + -(-(41 + len(payload)) // PAGE)), head, bytes(payload)))
    return found


def newest_whole(frames, gone=frozenset()):
    """Of each identifier the bytes of the newest put of which all frames are there: no page of theirs is gone."""
    puts = collections.defaultdict(lambda: collections.defaultdict(dict))
    for it in frames:
        if not any(page in gone for page in it.span):
            pieces = puts[reader.spelled(it.head.name)][it.head.command, it.head.count]
            pieces[it.head.number] = it.payload[:len(it.payload) - reader.HEADS[4]]
    found = {}
    for name, each in puts.items():
        whole = [key for key, pieces in each.items() if len(pieces) == key[1]]
        if whole:
            command, count = max(whole)
            found[name] = b"".join(each[command, count][number] for number in range(count))
    return found
