"""Part `seals` of trials/failing: after a clean end the last write of the root is lost, or damaged later."""
import random

import holes
import noted
import pairs
from failing_pages import numbers, prints_nothing
from files import identifier
from stores import DONE, NO_STORE, PAGE

NAMES = [identifier(number) for number in range(1, 20)]
# How many sessions are made over one store.
SESSIONS = 50
WAYS = ("lost", "lost", "zeroed", "a bit turned", "noise")


def session_of(rng, held):
    """The words of a session that ends as it should, and its input."""
    choice, name = rng.random(), rng.choice(NAMES)
    text = rng.randbytes(rng.choice([0, 1, 40, 1000, 5000]))
    if choice < 0.3 and held:
        return ["del", rng.choice(sorted(held))], b""
    return ["put", name], text


def script_of(rng):
    """A script, which leaves its last root without a record."""
    lines = []
    for _ in range(rng.choice([1, 2, 3])):
        lines += [f"put {rng.choice(NAMES)} {rng.randbytes(rng.choice([1, 40, 3000])).hex()}"] * rng.choice([1, 1, 2]) + ["sync"]
    return "".join(f"{it}\n" for it in lines).encode()


class Store:
    def __init__(self, trial, folder, rng):
        self.trial, self.folder, self.rng = trial, folder, rng
        self.path, self.work = folder / "store", folder / "work"
        self.extents, self.pages, self.sections = rng.choice([(6, 4, 1), (16, 4, 2), (40, 4, 3), (64, 8, 1)])
        self.path.unlink(missing_ok=True)
        trial.make(self.path, 4, extents=self.extents, pages=self.pages, sections=self.sections)
        self.roots = pairs.pairs_by(self.extents, self.pages, self.sections)[1]

    def look(self):
        """One session, and then the last write of the root is lost. Returns whether a root was written, None if it is full."""
        if self.rng.random() < 0.4:
            ran = self.trial.run("run", "--file", self.path, given=script_of(self.rng))
            if ran.status != DONE or "refused" in ran.text:
                return None
        image = self.path.read_bytes()
        held = self.trial.held(self.path)
        words, given = session_of(self.rng, held)
        ran, calls = noted.noted(self.trial, self.folder, *words, self.path, given=given)
        if ran.status != DONE or "refused" in ran.text:
            return None
        last = noted.last_write(calls, self.roots)
        if last is None:
            return False
        way = self.rng.choice(WAYS)
        page, after = calls[last][1], noted.laid(image, calls)
        before = pairs.page_of(noted.laid(image, calls[:last]), page)
        lost = {"lost": before, "zeroed": bytes(PAGE), "noise": self.rng.randbytes(PAGE)}.get(way) or turned(self.rng, after, page)
        damaged = after[:PAGE * page] + lost + after[PAGE * (page + 1):]
        about = f"{self.extents} extents of {self.pages} pages, {self.sections} sections, {' '.join(map(str, words[:1]))}, the root on page {page} {way}"
        self.trial.see("the session left its bytes", self.path.read_bytes() == after, about)
        self.trial.see("the last root is recorded: by the second reader the store is refused 27", is_refused(damaged), about)
        self.trial.see("a section is written after the last root, and nothing else", self.is_sealed(calls[last:]), (about, [it[:2] for it in calls[last:]]))
        self.refused(about, damaged)
        self.goes_on(about, after)
        return True

    def is_sealed(self, calls):
        """After the last root a flush, then one page, of a section, and its flush."""
        halves = {page for own, pair in enumerate(pairs.pairs_by(self.extents, self.pages, self.sections)) if own != 1 for page in pair}
        kinds = [it[0] if it[0] == "flush" or it[1] not in halves else "section" for it in calls[1:]]
        return kinds == ["flush", "section", "flush"]

    def refused(self, about, damaged):
        self.work.write_bytes(damaged)
        commands = [["list"], ["get", NAMES[0]], ["export"], ["stat"], ["scrub"], ["put", NAMES[0]], ["del", NAMES[0]], ["reclaim"], ["scrub", "--repair"], ["run", "--file"]]
        all_refused = True
        for words in [["list"], *self.rng.sample(commands, 2)]:
            ran = self.trial.run(*words, self.work)
            is_it = ran.status == NO_STORE and prints_nothing(ran) and numbers(ran) == {27}
            all_refused &= is_it
            self.trial.see("each command is refused 27", is_it, (about, ran))
        self.trial.see("a last root that is lost after a clean end is refused 27", all_refused, about)
        self.trial.see("and nothing is written", self.work.read_bytes() == damaged, about)

    def goes_on(self, about, after):
        """The store as it was left opens without a word."""
        ran = self.trial.run("list", self.path)
        self.trial.see("a store that was sealed opens without a word", (ran.status, ran.said) == (DONE, ""), (about, ran))
        self.trial.see("and holds what the second reader says", self.trial.held(self.path) == {name: text.hex() or "-" for name, text in holes.Left(after).shards().items()}, about)


def turned(rng, image, page):
    text = bytearray(pairs.page_of(image, page))
    text[rng.randrange(60)] ^= 1 << rng.randrange(8)
    return bytes(text)


def is_refused(image):
    try:
        holes.Left(image)
    except holes.Refused as why:
        return why.number == 27
    return False


def look(trial, folder):
    rng = random.Random(trial.options.seed)
    seals = 0
    while seals < trial.options.seals:
        store = Store(trial, folder, rng)
        for _ in range(SESSIONS):
            if seals == trial.options.seals:
                break
            found = store.look()
            if found is None:
                break
            seals += found
    print(f"{seals} sessions that ended as they should", flush=True)
