"""How much may live in a store of format 4 so that puts find room: what law_room proves, as docs/PROVED.md has it.

It is what trials/rooms and trials/rooms_in_memory.py hold the program to. It shares nothing with the program."""
from typing import NamedTuple

from rules import PAGE, chunk_bytes, cut, cut_pages, most_weight, weigh

# Of so many extents of so many pages.
GEOMETRIES = [(6, 2), (8, 2), (12, 2), (24, 2), (6, 4), (8, 4), (12, 4), (24, 4), (12, 8), (16, 8), (24, 8), (8, 16), (20, 16), (7, 40)]


class Share(NamedTuple):
    """A store of so many extents of so many pages, of which so many extents may hold runs."""

    extents: int
    pages: int
    runs: int

    def below(self, sizes):
        """If chunks of these pages are put: what lives, what is dead and the put have to be fewer pages than this."""
        most = max(sizes)
        return (self.extents - self.runs - 2) * (self.pages - most + 1) + most

    def has_room(self, used, sizes):
        """Whether chunks of these pages are sure to find room beside so many pages that live or are dead."""
        return self.extents >= self.runs + 3 and used + sum(sizes) < self.below(sizes)

    def filled(self, sizes):
        """How many extents chunks of these pages fill in their order, if each takes as many as fit."""
        count, given = 1, 0
        for size in sizes:
            count, given = (count, given + size) if given + size <= self.pages else (count + 1, size)
        return count

    def most_by_pairs(self, count):
        """How many pages may live so that pairs of sweeps make room for a put that fills so many extents, 0 if fewer than two extents are left."""
        left = self.extents - self.runs - 1 - count
        return (left * (self.pages + 1) - 1) // 2 if left >= 2 else 0


class Uses(NamedTuple):
    """How the extents are used that hold chunks: of each its pages that are given and those that live."""

    given: int
    live: int
    dead: int
    # How many of them have a dead page, and how many there are.
    dead_extents: int
    extents: int

    def measure(self):
        """What a sweep by the rule makes smaller: by 1 at least, but for the first of each pair of sweeps."""
        return self.dead_extents + 2 * self.extents


def uses_of(rows):
    """The same of rows of an extent of chunks each: how many of its pages are given, and how many live."""
    dead = [given - live for given, live in rows]
    return Uses(sum(given for given, _ in rows), sum(live for _, live in rows), sum(dead), sum(each > 0 for each in dead), len(rows))


def bytes_in(rules, size, pages):
    """How many bytes take so many pages, if they are cut in as few pieces as may be."""
    chunks, rest = divmod(size, pages)
    return chunks * chunk_bytes(rules, pages) + (0 if rest == 0 else PAGE * (rest - 1) + 1)


def lengths_of(rng, rules, pages):
    """How many bytes the shards of a run have, and the pages of their chunks."""
    kinds = rng.choice([[1], [1, 1, 2], [1, pages // 2 + 1], [pages // 2 + 1], [pages], [1, 2, pages], [1, pages, pages + 1], [2 * pages, 1], [3 * pages, 2], []])
    lengths = [bytes_in(rules, size, pages) for size in kinds] or [rng.randrange(rng.choice([2, 4]) * chunk_bytes(rules, pages)) for _ in range(4)]
    return {length: cut_pages(rules, cut(rules, pages, length)) for length in lengths}


def names_of(rng, rules, pages, lengths, most):
    """How many identifiers: a few, or so many that all the pages live that may. The index has room for all of them."""
    least = min(sum(sizes) for sizes in lengths.values())
    return min(rng.choice([2, 4, 12, most // least + 2, most // least + 2]), most_weight(rules, pages) // weigh(rules, 8))
