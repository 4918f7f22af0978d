"""A second reader of a store's bytes, written from docs/FORMATS.md and docs/OLDER-FORMATS.md alone.

It says what is opened, what is refused, and which frames can't be read.
"""
import hashlib
import struct
from typing import NamedTuple

PAGE = 4096
NAMES = {6: "OddLength", 20: "BadMagic", 21: "BadDigest", 22: "BadLength", 23: "BadPadding", 24: "BadVersion", 25: "OutOfOrder", 26: "Misplaced",
         27: "RootLost", 43: "NotAStore"}
GREATEST = 2**63
# Of each format the least and the greatest number of extents, the greatest of their pages, of sections and of runs.
BOUNDS = {2: (4, 2048, 256, 8, 4), 4: (5, 7680, 65535, 15, 24)}
# How many bytes the head of a chunk takes, which stands after the bytes of the shard.
HEADS = {2: 0, 4: 34}
# How many bytes of the identity stand at the front of a run.
FRONTS = {2: 0, 4: 8}


class Unread(Exception):
    """Why something can't be read."""

    def __init__(self, number):
        super().__init__(f"refused {number} {NAMES[number]}")


def must(fact, number):
    if not fact:
        raise Unread(number)


def has_digest(text):
    return hashlib.sha256(text[:-32]).digest() == text[-32:]


def geometry_of(form, extents, pages, sections):
    """How many extents a section has, None where there is no such geometry of this format."""
    least, most, longest, parts, _ = BOUNDS[form]
    if not least <= extents <= most or not 2 <= pages <= longest or not 1 <= sections <= parts:
        return None
    most = -(-extents // sections)
    return most if most <= 512 and (sections - 1) * most < extents else None


class Section(NamedTuple):
    """A section of the superblock: which one of what store, and how long its device was when the store was made. Then the version
    of the root that was persistent when the section was staged, and the pointer and the generation of each of its extents. In the
    older formats there is no identity, the device is just as long as it has to be, and the record is 0."""

    form: int
    extents: int
    pages: int
    sections: int
    device: int
    store: bytes
    number: int
    recorded: int
    records: list

    def of_store(self):
        """What all sections of a store say."""
        return self[:6]


def device_pages(form, extents, pages, sections):
    """The pages of the file of a store."""
    return (2 + extents * pages + 2 * sections) if form == 4 else 1 + extents * pages + sections


def section(page, form=None):
    """Page 0 says the format by its fourth byte. Another page has to be of it."""
    must(page[:3] == b"CSS", 20)
    must(page[3:4] in (b"1", b"2", b"4") if form is None else page[3] == 48 + form, 24)
    form = 4 if page[3:4] == b"4" else 2
    version, extents, pages = struct.unpack(">QHH", page[4:16])
    sections, number, at = (1, 0, 16) if page[3:4] == b"1" else (page[16], page[17], 18)
    device, store, recorded = device_pages(form, extents, pages, sections), b"", 0
    least = device
    if form == 4:
        device, store, recorded = struct.unpack(">Q16sQ", page[18:50])
        at = 50
    most = geometry_of(form, extents, pages, sections)
    must(most is not None and number < sections and device >= least, 22)
    count = min(most, extents - number * most)
    end = at + 6 * count + 32
    must(has_digest(page[:end]), 21)
    must(1 <= version < GREATEST, 24)
    records = [struct.unpack(">HI", page[at + 6 * k:at + 6 * k + 6]) for k in range(count)]
    must(all(pointer <= pages for pointer, _ in records), 22)
    must(not any(page[end:]), 23)
    return Section(form, extents, pages, sections, device, store, number, recorded, records)


class Place(NamedTuple):
    """Where a frame lies, and the mark of the frame that is meant, which format 2 doesn't have."""

    extent: int
    page: int
    generation: int
    mark: int | None


def place_bytes(form):
    return 16 if form == 4 else 8


def places_in(form, text):
    """The places that these bytes spell."""
    size = place_bytes(form)
    texts = [text[at:at + size] for at in range(0, len(text), size)]
    return [Place(*struct.unpack(">HHIQ", each)) if form == 4 else Place(*struct.unpack(">HHI", each), None) for each in texts]


class Root(NamedTuple):
    """A root: its version, how many commands, of which store, and where the runs lie, oldest first."""

    version: int
    commands: int
    store: bytes
    runs: list


def root(page, form):
    must(page[:3] == b"CSR", 20)
    must(page[3:4] == (b"4" if form == 4 else b"1"), 24)
    version, commands = struct.unpack(">QQ", page[4:20])
    at = 36 if form == 4 else 20
    store, count = bytes(page[20:at]), page[at]
    must(count <= BOUNDS[form][4], 22)
    end = at + 1 + place_bytes(form) * count + 32
    must(has_digest(page[:end]), 21)
    must(1 <= version < GREATEST and commands < GREATEST, 24)
    must(not any(page[end:]), 23)
    return Root(version, commands, store, places_in(form, page[at + 1:end - 32]))


def frame(pages, kind, mark, form=4):
    """The payload of a frame that begins where these bytes begin, and ends where they end at the latest. If there is a mark, it has
    to be the frame's. A chunk is at least as long as its head."""
    must(pages[:3] == b"CSF", 20)
    must(pages[3:4] == (b"4" if form == 4 else b"1") and pages[4] == kind, 24)
    length = struct.unpack(">I", pages[5:9])[0]
    must(41 + length <= len(pages), 22)
    payload = pages[41:41 + length]
    must(hashlib.sha256(payload).digest() == pages[9:41], 21)
    must(not any(pages[41 + length:-(-(41 + length) // PAGE) * PAGE]), 23)
    must(mark in (None, struct.unpack(">Q", pages[9:17])[0]), 26)
    must(kind != 0 or length >= HEADS[form], 22)
    return payload


class Head(NamedTuple):
    """What a chunk ends with: whose it is, which of how many, the number of the command that put it, and the front of the store's
    identity."""

    name: bytes
    number: int
    count: int
    command: int
    front: bytes


def head(payload):
    return Head(*struct.unpack(">16sBBQ8s", payload[len(payload) - HEADS[4]:]))


def packed_run(payload, store):
    """The places of each identifier in a run of this store, whose entries take the bytes that they need."""
    must(len(payload) >= FRONTS[4], 22)
    must(payload[:FRONTS[4]] == store[:FRONTS[4]], 26)
    must(len(payload) >= FRONTS[4] + 4, 22)
    count = struct.unpack(">I", payload[FRONTS[4]:FRONTS[4] + 4])[0]
    must(count >= 1, 22)
    entries, last, at = {}, b"", FRONTS[4] + 4
    for _ in range(count):
        must(at + 17 <= len(payload), 22)
        name, places = bytes(payload[at:at + 16]), payload[at + 16]
        must(last < name, 25)
        must(places <= 8, 22)
        end = at + 17 + 16 * places
        must(end <= len(payload), 22)
        entries[name] = places_in(4, payload[at + 17:end])
        last, at = name, end
    must(at == len(payload), 22)
    return entries


def run(payload):
    """The places of each identifier in a run of format 2; none where it was deleted."""
    must(len(payload) >= 4, 22)
    count = struct.unpack(">I", payload[:4])[0]
    must(count >= 1 and len(payload) == 4 + 81 * count, 22)
    entries, last = {}, b""
    for at in range(4, len(payload), 81):
        name, places = bytes(payload[at:at + 16]), payload[at + 16]
        must(last < name, 25)
        must(places <= 8, 22)
        must(not any(payload[at + 17 + 8 * places:at + 81]), 23)
        entries[name] = places_in(2, payload[at + 17:at + 17 + 8 * places])
        last = name
    return entries


class Store:
    """The store that these bytes are, each page of superblock and root where it shows. Raises `Unread` if it can't be opened."""

    def __init__(self, image):
        must(len(image) % PAGE == 0, 6)
        must(len(image) >= 10 * PAGE, 43)
        self.image = image
        first = section(self.page(0))
        self.form, self.extents, self.pages, self.sections, self.device, self.store = first.of_store()
        # A device that is longer now is opened, but not in format 2.
        long_enough = PAGE * self.device <= len(image) if self.form == 4 else PAGE * self.device == len(image)
        must(first.number == 0 and long_enough, 43)
        self.records, recorded = list(first.records), first.recorded
        for number in range(1, self.sections):
            found = section(self.page(1 + self.extents * self.pages + number), self.form)
            must(found.of_store() == first.of_store() and found.number == number, 43)
            self.records += found.records
            recorded = max(recorded, found.recorded)
        self.version, self.commands, store, self.runs = root(self.page(1), self.form)
        must(store == self.store, 43)
        must(self.version >= recorded, 27)
        self.entries, held = {}, []
        for place in self.runs:
            must(self.is_there(place), 43)
            payload = frame(self.rest(place), 1, place.mark, self.form)
            held.append(packed_run(payload, self.store) if self.form == 4 else run(payload))
            self.entries.update(held[-1])
        # What they take in one run: in format 2 all the same.
        taken = sum(17 + (16 * len(places) if self.form == 4 else 64) for places in self.entries.values())
        must(taken <= PAGE * self.pages - 45 - FRONTS[self.form], 43)
        # An entry that a newer run hides may name what isn't there any more, but not in format 2.
        asked = [self.entries] if self.form == 4 else held
        must(all(self.is_there(place) for entries in asked for places in entries.values() for place in places), 43)

    def page(self, number):
        return self.image[PAGE * number:PAGE * (number + 1)]

    def is_there(self, place):
        return place.extent < self.extents and (place.page < self.records[place.extent][0] and place.generation == self.records[place.extent][1])

    def rest(self, place):
        """The pages of an extent from a place on, as far as a frame may reach: to the pointer, in format 2 to the end."""
        first = 2 + place.extent * self.pages
        end = self.records[place.extent][0] if self.form == 4 else self.pages
        return self.image[PAGE * (first + place.page):PAGE * (first + end)]

    def chunks(self):
        """Each chunk of each shard that is there, by rising identifiers."""
        return [(name, number, place) for name, places in sorted(self.entries.items()) for number, place in enumerate(places)]

    def why_not(self, place, kind):
        """Why a frame can't be read, None where it can."""
        try:
            frame(self.rest(place), kind, place.mark, self.form)
        except Unread as why:
            return why
        return None

    def chunk(self, place):
        """The head of a chunk, None in format 2, and the bytes that it has of a shard."""
        payload = frame(self.rest(place), 0, place.mark, self.form)
        return (head(payload) if self.form == 4 else None), payload[:len(payload) - HEADS[self.form]]

    def damages(self):
        """The lines of a scrub, and which shards are damaged."""
        lines, names = [], []
        for name, number, place in self.chunks():
            why = self.why_not(place, 0)
            if why is not None:
                lines.append(f"shard {spelled(name)} chunk {number} at extent {place.extent} page {place.page} {why}")
                names.append((spelled(name), str(why)))
        for place in self.runs:
            why = self.why_not(place, 1)
            if why is not None:
                lines.append(f"run at extent {place.extent} page {place.page} {why}")
        lines.append(f"read {len(self.chunks())} chunks and {len(self.runs)} runs, {len(lines)} damaged")
        return lines, names


def spelled(name):
    digits = name.hex()
    return "-".join([digits[:8], digits[8:12], digits[12:16], digits[16:20], digits[20:]])
