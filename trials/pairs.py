"""Which of two pages counts in a store, by the second reader, written from docs/FORMATS.md alone."""
from typing import NamedTuple

import reader

PAGE = reader.PAGE
ROOT = 1
# What a half is filled with once it was passed over.
FENCE = b"\xff" * PAGE


class Passed(NamedTuple):
    """A page that is neither whole nor a fence, that of its other copy, and the version that this one has."""

    page: int
    other: int
    version: int


def page_of(image, number):
    return bytes(image[number * PAGE:(number + 1) * PAGE])


def pairs_by(extents, pages, sections, device=None):
    """The pages of each pair of a store: those of section 0, of the root, and of the other sections. The device has as many pages
    as the store needs if nothing else is said."""
    count = reader.device_pages(4, extents, pages, sections) if device is None else device
    return [(k if k < 2 else extents * pages + k, count - 1 - k) for k in range(sections + 1)]


def section_on(page, form):
    """The section that a page spells, None if it spells none."""
    try:
        return reader.section(page, form)
    except reader.Unread:
        return None


class Pairs:
    """The pages that a device of so many pages has twice, if a store of format 4 is on it; `page` gives the bytes of one."""

    def __init__(self, count, page):
        self.count, self.page = count, page
        first, last = section_on(page(0), None), section_on(page(count - 1), 4)
        # The identities of page 0 and of the last page, if they are of two stores.
        self.two = None
        if first and last and first.form == 4 and first.store != last.store:
            self.two = first.store, last.store
        self.named = self.named_by(first, last)
        self.pairs = [] if self.named is None else pairs_by(*self.named[1:5])

    def named_by(self, first, last):
        """What the sections of the store say: page 0 says it if it is whole in whatever format, else the last page."""
        if first is not None:
            fits = first.form == 4 and first.number == 0 and first.device <= self.count
            return first.of_store() if fits and self.two is None else None
        return last.of_store() if last is not None and last.number == 0 and last.device == self.count else None

    def version(self, own, number):
        """The version of what a half holds of the pair that shows as its own page, 0 if it isn't whole."""
        page, (_, extents, pages, _, _, store) = self.page(number), self.named
        try:
            if own == ROOT:
                found = reader.root(page, 4)
                return found.version if found.store == store else 0
            found = reader.section(page, 4)
        except reader.Unread:
            return 0
        which = 0 if own == 0 else own - 1 - extents * pages
        return int.from_bytes(page[4:12], "big") if found.of_store() == self.named and found.number == which else 0

    def newest(self):
        """Of each pair its own page, the half that counts, and the other one."""
        for own, twin in self.pairs:
            yield (own, own, twin) if self.version(own, own) > self.version(own, twin) else (own, twin, own)

    def passed(self):
        """Of each pair the half that is neither whole nor a fence, beside one that is whole."""
        for own, newest, other in self.newest():
            version = self.version(own, newest)
            if version > 0 and self.version(own, other) == 0 and self.page(other) != FENCE:
                yield Passed(other, newest, version)

    def passed_over(self):
        """The pages of these halves."""
        return sorted(it.page for it in self.passed())


def pairs_of(image):
    """The pairs of the store that these bytes are."""
    return Pairs(len(image) // PAGE, lambda number: page_of(image, number))


def shown(image):
    """A store's bytes as they show: of each pair the half that counts, on its own page, and zeros on its twin."""
    if len(image) % PAGE != 0 or len(image) < 10 * PAGE:
        return image
    pairs = pairs_of(image)
    shows = bytearray(image)
    for own, newest, _ in pairs.newest():
        shows[own * PAGE:(own + 1) * PAGE] = pairs.page(newest)
    for _, twin in pairs.pairs:
        shows[twin * PAGE:(twin + 1) * PAGE] = bytes(PAGE)
    return shows


def chosen(image, store):
    """A device's bytes with zeros on page 0 or on the last page, the first that is of another store than this one."""
    for number in (0, len(image) // PAGE - 1):
        found = section_on(page_of(image, number), 4)
        if found is not None and found.store != store:
            return image[:number * PAGE] + bytes(PAGE) + image[(number + 1) * PAGE:]
    return image


class Opened(reader.Store):
    """The store that these bytes are, by the half of each pair that counts. Raises `reader.Unread` if it can't be opened."""

    def __init__(self, image):
        reader.must(len(image) % PAGE == 0, 6)
        reader.must(len(image) < 10 * PAGE or pairs_of(image).two is None, 43)
        super().__init__(shown(image))


def page_lines(image):
    """What `scrub` prints of the halves that are passed over."""
    return [f"page {it.page} not whole, page {it.other} has version {it.version}" for it in pairs_of(image).passed()]


def greatest_command(image):
    """The greatest number of a command that the head of a whole chunk of the store has, wherever it lies in the extents, 0 if there
    is none."""
    _, extents, pages, _, _, store = pairs_of(image).named
    greatest = 0
    for extent in range(extents):
        for page in range(pages):
            first, end = 2 + extent * pages + page, 2 + (extent + 1) * pages
            try:
                found = reader.head(reader.frame(image[first * PAGE:end * PAGE], 0, None))
            except reader.Unread:
                continue
            if found.front == store[:reader.FRONTS[4]]:
                greatest = max(greatest, found.command)
    return greatest


def root_warnings(image, page, newest):
    """What is told where a page of the root isn't whole and the store is opened as of the other one: as of which, and which commands may be lost."""
    version, commands = reader.root(page_of(image, newest), 4)[:2]
    greatest = greatest_command(image)
    if greatest == commands + 1:
        lost = f"command {greatest} may be lost, or was never acknowledged (found)"
    elif greatest > commands:
        lost = f"commands {commands + 1} to {greatest} may be lost, or were never acknowledged (found)"
    else:
        lost = f"no put after command {commands} was found; deletions after it may be lost"
    return [f"warning: THE NEWEST ROOT MAY BE LOST: page {page} is not whole; the store opens as of root {version}, with {commands} commands", f"warning: {lost}"]


def warnings(image, is_opened):
    """What is told of a store's pairs: as of which root the store is opened where a page of the root isn't whole, then which half is passed over, and which pair has
    no half that is whole."""
    pairs, first, told = pairs_of(image), [], []
    passed = pairs.passed_over()
    for own, newest, other in pairs.newest():
        if other in passed:
            told.append(f"warning: page {other} is not whole; its other copy is used")
        if pairs.version(own, newest) == 0:
            told.append(f"warning: neither page {own} nor its other copy, page {newest}, is whole")
        if other in passed and own == ROOT and is_opened:
            first = root_warnings(image, other, newest)
    return first + told
