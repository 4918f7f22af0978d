"""Part `halves` of trials/failing: pages of superblock and root that aren't whole."""
import random
import re

import eio
import holes
import noted
import pairs
from failing_pages import LOUD, NEW, WHY, is_object, numbers, prints_nothing
from files import identifier
from stores import DAMAGED, DONE, NO_STORE, PAGE

EXTENTS, PAGES, SECTIONS = 6, 2, 3
BITS = 8 * PAGE
NAMES = [identifier(number) for number in (10, 11, 12)]
KEPT = pairs.pairs_by(EXTENTS, PAGES, SECTIONS)


class Made:
    """A small store, and what it holds by its newest root and by the root before. A section may record its newest root."""

    def __init__(self, trial, folder, is_recorded):
        self.trial, self.path, self.is_recorded = trial, folder / f"store{is_recorded:d}", is_recorded
        self.name = "a store of which a section records the newest root" if is_recorded else "a store of which no section records the newest root"
        trial.make(self.path, 4, extents=EXTENTS, pages=PAGES, sections=SECTIONS)
        trial.play(self.path, [f"put {NAMES[0]} {'cd' * 5000}", f"put {NAMES[1]} 01", "sync", f"del {NAMES[1]}", "sync"])
        self.before = holes.Left(self.path.read_bytes()).shards()
        # The last root is written, and nothing after it.
        image, calls = self.play(folder, [f"put {NAMES[2]} 0405", "sync"])
        self.image = noted.laid(image, calls[:noted.last_write(calls, KEPT[1]) + 1])
        self.path.write_bytes(self.image)
        self.now = holes.Left(self.image).shards()
        if is_recorded:
            # A section was written behind it, and the root of that sync is lost.
            image, calls = self.play(folder, [f"del {NAMES[2]}", "sync"])
            self.image = noted.laid(image, calls[:noted.last_write(calls, KEPT[1])])
            for page in KEPT[1]:
                self.image = self.image[:PAGE * page] + pairs.page_of(image, page) + self.image[PAGE * (page + 1):]
            self.path.write_bytes(self.image)
        self.newest = {newest for _, newest, _ in pairs.pairs_of(self.image).newest()}
        if holes.Left(self.image).shards() != self.now or self.now == self.before or pairs.pairs_of(self.image).passed_over():
            raise SystemExit("not the store that was to be made")

    def play(self, folder, lines):
        image = self.path.read_bytes()
        ran, calls = noted.noted(self.trial, folder, "run", "--file", self.path, given="".join(f"{it}\n" for it in lines).encode())
        if ran.status or "refused" in ran.text:
            raise SystemExit(f"a script isn't taken: {ran}")
        return image, calls


class Damaged:
    """A store of which pages aren't whole, or can't be read, and what it is by these bytes."""

    def __init__(self, made, what, image, gone=()):
        self.made, self.trial, self.what, self.image, self.gone = made, made.trial, what, image, gone
        self.about = f"{made.name}, {what}"
        try:
            self.left = holes.Left(image, gone)
            self.shards = self.left.shards()
        except holes.Refused as why:
            self.left, self.number = None, why.number
        made.path.write_bytes(image)

    def see(self, what, fact, ran):
        return self.trial.see(what, fact, (self.about, ran))

    def run(self, *words, given=b"ab", **settings):
        return self.trial.run(*words, self.made.path, given=given, env=eio.failing(self.trial, self.made.path, read=self.gone, **settings))

    def look(self, with_all):
        """`export`, and with all also each other command."""
        ran = self.run("export")
        if self.left is None:
            seen = pairs.pairs_of(holes.without(self.image, self.gone))
            root_is_gone = any(seen.version(pairs.ROOT, page) == 0 for page in KEPT[1])
            self.see("only a newest root that is gone and recorded refuses a reader", root_is_gone and self.made.is_recorded, ran)
            self.see("then it is refused 27", (ran.status, ran.out) == (NO_STORE, b"") and numbers(ran) == {self.number} == {27}, ran)
            if with_all:
                self.refused()
            return "refused 27"
        self.see("a reader is never refused", ran.status == DONE, ran)
        found = {line.split()[1]: line.split()[2] for line in ran.text.splitlines() if line.startswith("put ")}
        held = self.made.before if self.left.is_older and self.shards == self.made.before else self.made.now
        self.see("each shard is right, or as of the older root", found == hexed(self.shards) == hexed(held), ran)
        self.told(ran)
        if with_all:
            self.read()
            self.write()
        self.trial.see("no reader changes the file", self.made.path.read_bytes() == self.image, self.about)
        return "as of the root before" if held is self.made.before else "all as it was"

    def told(self, ran):
        self.see("each half that isn't whole is named", all(re.search(rf"\bpage {page}\b", ran.said) for page in self.left.passed), ran)
        self.see("it is said of a page that it can't be read", WHY.search(ran.said) or not self.gone, ran)
        self.see("an opening as of an older root says so loudly", bool(LOUD.search(ran.said)) == self.left.is_older, ran)
        self.see("nothing is said of what is whole", self.left.passed or ran.said == "", ran)

    def read(self):
        ran = self.run("list")
        self.see("list has all shards", (ran.status, ran.text.split()) == (DONE, sorted(self.shards)), ran)
        self.told(ran)
        for name in sorted(self.shards):
            ran = self.run("get", name)
            self.see("get has the bytes", (ran.status, ran.out) == (DONE, self.shards[name]), ran)
        ran = self.run("stat")
        self.see("stat ends with 0", ran.status == DONE, ran)
        ran = self.run("scrub")
        right = ran.status == (DAMAGED if self.left.passed else DONE) and all(re.search(rf"\bpage {page}\b", ran.text) for page in self.left.passed)
        self.see("scrub names each half that isn't whole", right, ran)
        ran = self.run("doctor")
        self.see("doctor ends with 0 or 5", ran.status == (DAMAGED if self.left.passed else DONE), ran)
        self.see("doctor names each half that isn't whole", all(re.search(rf"\bpage {page}\b", ran.text) for page in self.left.passed), ran)
        ran = self.run("doctor", "--json")
        self.see("doctor --json prints an object", is_object(ran.text), ran)

    def write(self):
        """A command that writes fences what was passed over, and goes on; `--repair` writes it anew."""
        for words, given in ((["put", NEW], b"ab"), (["run", "--file"], f"put {NEW} 6162\nsync\n".encode())):
            ran = self.run(*words, given=given)
            if self.gone and (ran.status, 29 in numbers(ran)) == (NO_STORE, True):
                self.see("a writer that is refused 29 writes nothing", self.made.path.read_bytes() == self.image, ran)
                continue
            self.see("a writer goes on", ran.status == DONE, ran)
            self.see("and the store holds what it should", self.trial.held(self.made.path) == {**hexed(self.shards), NEW: "6162"}, ran)
            after = self.trial.run("list", self.made.path)
            self.see("and nothing warns any more", (after.status, after.said) == (DONE, ""), (ran, after))
            self.restore()
        ran = self.run("scrub", "--repair", heals=1)
        if self.gone and ran.status != DONE:
            right = (ran.status == NO_STORE and 29 in numbers(ran)) or ran.status == DAMAGED
            self.see("a repair of a page that can't be read is refused 29, or ends with 5", right and self.made.path.read_bytes() == self.image, ran)
        elif self.left.is_older:
            self.see("a repair that may lose commands ends with 5", ran.status == DAMAGED and self.made.path.read_bytes() == self.image, ran)
        if self.gone or self.left.is_older:
            ran = self.run("scrub", "--repair", "--accept-loss", heals=1)
        self.see("a repair ends with 0", ran.status == DONE, ran)
        after = self.trial.run("list", self.made.path)
        self.see("after a repair nothing warns", (after.status, after.said) == (DONE, ""), (ran, after))
        self.see("after a repair the store holds what it held", self.trial.held(self.made.path) == hexed(self.shards), ran)
        self.restore()

    def refused(self):
        for words in (["list"], ["get", NAMES[0]], ["stat"], ["scrub"], ["put", NEW], ["del", NAMES[0]], ["reclaim"], ["scrub", "--repair"], ["run", "--file"]):
            ran = self.run(*words)
            # Of a page that can't be read a writer doesn't know what it holds.
            why = {29} if self.gone and words[0] in ("put", "del", "reclaim", "run") or "--repair" in words and self.gone else {27}
            right = ran.status == NO_STORE and prints_nothing(ran) and numbers(ran) in ({27}, why) and self.made.path.read_bytes() == self.image
            self.see("each command is refused 27 (a writer 29 where a page can't be read), and writes nothing", right, (words, ran))
        ran = self.run("export", "--as-of")
        found = {line.split()[1]: line.split()[2] for line in ran.text.splitlines() if line.startswith("put ")}
        left = holes.Left(self.image, self.gone, as_of=True).shards()
        wanted = {name: text.hex() or "-" for name, text in left.items() if not isinstance(text, holes.Refused)}
        # What the older root names may be gone: then a shard is refused, or the opening is.
        right = (ran.status in (DONE, DAMAGED) and found.items() <= wanted.items()) or (ran.status, ran.out) == (NO_STORE, b"")
        self.see("--as-of reads what is left, or nothing", right, ran)
        ran = self.run("doctor")
        self.see("doctor of a store that is refused ends with 3", ran.status == NO_STORE and "27" in ran.text + ran.said, ran)

    def restore(self):
        self.made.path.write_bytes(self.image)
        for it in self.made.path.parent.glob(f"{self.made.path.name}.page-*"):
            it.unlink()


def hexed(shards):
    return {name: text.hex() or "-" for name, text in shards.items()}


def turned(image, bit):
    image = bytearray(image)
    image[bit // 8] ^= 1 << bit % 8
    return bytes(image)


def with_pages(image, pages):
    """The bytes with these pages in the place of what lies there."""
    image = bytearray(image)
    for page, text in pages.items():
        image[PAGE * page:PAGE * (page + 1)] = text
    return bytes(image)


def unreadable():
    """Pages that can't be read: each, both of each section but section 0, and all of these."""
    sections = [pair for own, pair in enumerate(KEPT) if own > 1]
    yield from ([page] for pair in KEPT for page in pair)
    yield from (list(pair) for pair in sections)
    yield [page for pair in sections for page in pair]


def damages(made, rng):
    """Pages that are zeroed, overwritten by noise, torn or a fence, and both pages of sections."""
    kinds = {
        "zeroed": lambda page: bytes(PAGE),
        "noise": lambda page: rng.randbytes(PAGE),
        "a bit turned": lambda page: turned(pairs.page_of(made.image, page), rng.randrange(8 * 60)),
        "its first sector zeroed": lambda page: bytes(512) + pairs.page_of(made.image, page)[512:],
        "bytes of 255": lambda page: pairs.FENCE,
    }
    sections = [pair for own, pair in enumerate(KEPT) if own > 1]
    for name, change in kinds.items():
        is_fence = name == "bytes of 255"
        for page in (page for pair in KEPT for page in pair):
            # No half that counts is ever a fence.
            if not is_fence or page not in made.newest:
                yield f"page {page}: {name}", with_pages(made.image, {page: change(page)})
        for pair in sections if not is_fence else []:
            yield f"pages {pair}: {name}", with_pages(made.image, {page: change(page) for page in pair})
        every = [page for pair in sections for page in pair if not is_fence or page not in made.newest]
        yield f"pages {every}: {name}", with_pages(made.image, {page: change(page) for page in every})


def look(trial, folder):
    rng = random.Random(trial.options.seed)
    for is_recorded in (False, True):
        made, counts = Made(trial, folder, is_recorded), {}

        def try_one(what, image, with_all, gone=()):
            found = Damaged(made, what, image, gone).look(with_all)
            counts[found] = counts.get(found, 0) + 1

        for pages in unreadable():
            try_one(f"pages {pages} can't be read", made.image, True, pages)

        for what, image in damages(made, rng):
            try_one(what, image, True)
        for page in (page for pair in KEPT for page in pair):
            bits = range(BITS)
            if not trial.is_all:
                bits = [*rng.sample(range(BITS), trial.options.bits), *(rng.randrange(8 * 120) for _ in range(trial.options.bits))]
            for number, bit in enumerate(bits):
                try_one(f"page {page} bit {bit}", turned(made.image, BITS * page + bit), number % (1024 if trial.is_all else 16) == 0)
        print(f"{made.name}: " + ", ".join(f"{count} {what}" for what, count in sorted(counts.items())), flush=True)
        made.path.write_bytes(made.image)
