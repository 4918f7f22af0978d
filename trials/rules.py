"""What the second store is measured by: its numbers, its refusals, and the rules of each format, written from docs/ alone."""
from typing import NamedTuple

PAGE = 4096
HEADER = 41
MOST_CHUNKS = 8
# How many bytes of the store's identity stand at the front of a run and at the end of a head.
FRONT = 8
# The families by number: section 0 of the superblock, the root, and the sections behind the first one.
LETTERS = "srabcdefghijklmn"


class Rules(NamedTuple):
    """What the stores of a format go by."""

    # Which numbers of extents, of their pages and of sections there are, and how many runs a root has at most.
    extents: range
    pages: range
    sections: range
    most_runs: int
    # A version of the superblock needs the page writes that it counts; else it needs none, and a root needs all.
    pages_first: bool
    # A Stage merges the newest runs by their sizes; else it merges none of up to three and all of four.
    by_size: bool
    # Chunks and runs lie on extents of their own, an extent that nothing names is emptied under each root and at opening, and what a sweep copied counts from
    # its end on.
    apart: bool
    # Where they lie apart: an extent that had room left as the store was opened is filled on.
    fills: bool
    # A run's entry takes its identifier, its count and its places, each with the mark of its frame; else all have the same size.
    marks: bool
    # A chunk ends with its head: whose it is, its number, of how many, the number of the command that put it, and the front of
    # the store's identity. A run begins with that front.
    heads: bool
    # A section of the superblock records the version of the root that was persistent as it was staged.
    records: bool
    # The root and each section of the superblock have two pages in a file, of which a version goes to the one that isn't the newest.
    twice: bool
    # A shard is cut in chunks of an eighth of an extent, or in as many as there may be; else in as few as may be.
    evenly: bool


RULES = {
    2: Rules(extents=range(4, 2049), pages=range(2, 257), sections=range(1, 9), most_runs=4,
             pages_first=True, by_size=False, apart=False, fills=False, marks=False, heads=False, records=False, twice=False, evenly=False),
    4: Rules(extents=range(5, 7681), pages=range(2, 65536), sections=range(1, 16), most_runs=24,
             pages_first=False, by_size=True, apart=True, fills=True, marks=True, heads=True, records=True, twice=True, evenly=True),
}


class Refused(Exception):
    def __init__(self, number, name):
        super().__init__(f"refused {number} {name}")


DEVICE_FAULT = (1, "DeviceFault")
IN_FLIGHT = (5, "InFlight")
BAD_GEOMETRY = (7, "BadGeometry")
ROOT_LOST = (27, "RootLost")
FULL = (30, "Full")
TOO_LARGE = (31, "TooLarge")
INDEX_FULL = (32, "IndexFull")
NOT_SWEEPABLE = (33, "NotSweepable")
HALTED = (40, "Halted")
HISTORY_FULL = (41, "HistoryFull")


def frame_pages(payload):
    """How many pages a frame has whose payload has so many bytes: a header stands before it."""
    return -(-(HEADER + payload) // PAGE)


def head_of(rules, name, number, count, command):
    """What a chunk ends with, in a store whose identity is zeros."""
    if not rules.heads:
        return b""
    return bytes.fromhex(name.replace("-", "")) + bytes([number, count]) + command.to_bytes(8, "big") + bytes(FRONT)


def head_bytes(rules):
    """How many bytes a chunk's head takes."""
    return 16 + 1 + 1 + 8 + FRONT if rules.heads else 0


def chunk_bytes(rules, pages):
    """How many bytes of a shard a chunk has at most, of extents of so many pages."""
    return PAGE * pages - HEADER - head_bytes(rules)


def shard_bytes(rules, pages):
    """How many bytes a shard has at most."""
    return MOST_CHUNKS * chunk_bytes(rules, pages)


def cut_by(length, size):
    """The lengths of the pieces, if each but the last has this size."""
    full = max(0, -(-length // size) - 1)
    return [size] * full + [length - size * full]


def cut_pages(rules, lengths):
    """How many pages the chunk of each of these pieces has."""
    return [frame_pages(length + head_bytes(rules)) for length in lengths]


def cut(rules, pages, length):
    """The lengths of the pieces of a shard that isn't too large, on extents of so many pages.

    The fewest pieces are as long as may be. Where a shard is cut evenly, so many pieces are wanted that each chunk has an eighth of an extent's pages at most, or
    one, else eight. Of the numbers up to that one the greatest is taken whose chunks have at most a sixteenth more pages than the fewest pieces."""
    fewest = cut_by(length, chunk_bytes(rules, pages))
    if not rules.evenly:
        return fewest
    cuts = {count: cut_by(length, max(1, -(-length // count))) for count in range(len(fewest), MOST_CHUNKS + 1)}
    small = [count for count, lengths in cuts.items() if max(cut_pages(rules, lengths)) <= max(1, pages // 8)]
    wanted = min(small, default=MOST_CHUNKS)
    most = 17 * sum(cut_pages(rules, fewest))
    cheap = [count for count, lengths in cuts.items() if count <= wanted and 16 * sum(cut_pages(rules, lengths)) <= most]
    return cuts[max(cheap)] if cheap else fewest


def shard_pages(rules, pages, length):
    """How many pages all chunks of a shard of so many bytes have."""
    return sum(cut_pages(rules, cut(rules, pages, length)))


def entry_bytes(rules, chunks):
    """How many bytes an entry of so many chunks takes in a run: an identifier, a count, and a place each; without marks there is room for eight places."""
    return 17 + 16 * chunks if rules.marks else 17 + 8 * MOST_CHUNKS


def run_head(rules):
    """How many bytes of a run stand before its entries: their count, and the front of the identity."""
    return 4 + (FRONT if rules.heads else 0)


def run_bytes(rules, entries):
    """How many bytes the payload of the run has whose entries these are, of each identifier its places."""
    return run_head(rules) + sum(entry_bytes(rules, len(places)) for places in entries.values())


def run_pages(rules, entries):
    """How many pages that run has."""
    return frame_pages(run_bytes(rules, entries))


def weigh(rules, chunks):
    """What an entry of so many chunks counts of what a store may name: its bytes in a run, and one where all have the same size."""
    return entry_bytes(rules, chunks) if rules.marks else 1


def most_weight(rules, pages):
    """What all entries may count together, each identifier's newest: so that one run of them fits in one extent."""
    room = PAGE * pages - HEADER - run_head(rules)
    return room if rules.marks else room // entry_bytes(rules, 0)
