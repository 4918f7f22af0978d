"""A disk of which some pages fail, for a program that is run: eio.c, by its settings."""
import collections

from files import identifier
from rules import RULES, chunk_bytes


def failing(trial, path, log=None, **settings):
    """The environment in which pages of a file fail. `read`, `write` and `flush` list pages; `times`, `after`, `heals` are numbers."""
    found = {"LD_PRELOAD": str(trial.eio), "EIO_FILE": str(path)}
    for name, value in settings.items():
        text = str(value) if isinstance(value, (int, str)) else ",".join(map(str, sorted(value)))
        if text:
            found[f"EIO_{name.upper()}"] = text
    if log is not None:
        log.unlink(missing_ok=True)
        found["EIO_LOG"] = str(log)
    return found


def failed(log):
    """How often each call on a page failed, by its kind and its page, as ("read", 3)."""
    lines = log.read_text().splitlines() if log.exists() else []
    return collections.Counter((kind, int(page)) for kind, page in (line.split() for line in lines if " " in line) if kind != "written")


def written(log):
    """The pages that were written, and None for each flush, in their order."""
    lines = log.read_text().splitlines() if log.exists() else []
    return [None if line == "flushed" else int(line.split()[1]) for line in lines if line == "flushed" or line.startswith("written ")]


def script_of(rng, form, shards, pages):
    """Puts of so many shards, a dozen more that are deleted, a dozen that are put twice, and syncs that leave several runs."""
    names = [identifier(number * 7919) for number in range(shards + 12)]
    page, chunk = (chunk_bytes(RULES[form], count) for count in (1, pages))
    rng.shuffle(names)
    # In format 2 each fourth sync leaves one run alone.
    lines, syncs = [], {shards * 3 // 4, shards * 9 // 10, *([shards, shards + 9] if form == 4 else [])}
    again = rng.sample(names[:shards // 2], 24)
    for number, name in enumerate(names):
        if number in syncs:
            lines.append("sync")
        if number == shards * 3 // 4:
            lines += [f"del {name}" for name in again[:12]] + [f"put {name} {rng.randbytes(50).hex()}" for name in again[12:]]
        size = rng.choice([0, 1, 100, page, page + 1, 6000])
        if number % 50 == 3:
            size = chunk + rng.choice([0, 1, 5000])
        lines.append(f"put {name} {rng.randbytes(size).hex() or '-'}")
    return [*lines, "sync"]
