"""Part `pages` of trials/failing: pages that can't be read, in each command over a store in a file."""
import json
import random
import re
import shutil

import eio
import holes
import pairs
import reader
from files import identifier
from stores import DAMAGED, DONE, NO_STORE, PAGE, REFUSED

EXTENTS, PAGES, SECTIONS, SHARDS = 64, 8, 3, 200
NEW = identifier(1 << 40)
LOUD = re.compile(r"^warning: THE NEWEST ROOT MAY BE LOST", re.M)
REFUSAL = re.compile(r"refused (\d+) [A-Z]\w+")
WHY = re.compile(r"can't be read|cannot be read|unreadable|couldn't be read", re.I)
# What a command is refused of which a run can't be read.
OF_A_RUN = {1, 20, 21, 22, 23, 24, 25, 26}


class Made:
    """A whole store, and what it holds."""

    def __init__(self, trial, folder, form, sealed=True):
        rng = random.Random(trial.options.seed)
        self.form, self.path, self.work, self.log, self.to = form, folder / f"store{form}", folder / "work", folder / "log", folder / "made"
        trial.make(self.path, form, extents=EXTENTS, pages=PAGES, sections=SECTIONS)
        trial.play(self.path, eio.script_of(rng, form, SHARDS, PAGES))
        self.image = self.path.read_bytes()
        self.uses, self.left = holes.uses_of(self.image), holes.Left(self.image)
        self.held = self.left.shards()
        if len(self.held) != SHARDS or any(isinstance(text, holes.Refused) for text in self.held.values()):
            raise SystemExit(f"not the store that was to be made: {len(self.held)} shards")
        self.frames = holes.frames_of(self.image, (EXTENTS, PAGES), self.left.store[:8]) if form == 4 else []
        self.first = sorted(self.held)[0]
        living = len(self.uses.runs) + len(self.uses.chunks)
        print(f"format {form}: {len(self.image) // PAGE} pages, {len(self.uses.runs)} of runs, {len(self.uses.chunks)} of chunks, {living} in all", flush=True)

    def copy(self):
        shutil.copyfile(self.path, self.work)
        return self.work

    def kind(self, page):
        for name, pages in (("a run", self.uses.runs), ("a chunk", self.uses.chunks)):
            if page in pages:
                return name
        return "a half" if any(page in pair for pair in self.uses.pairs) else "nothing"


def numbers(ran):
    return {int(number) for number in REFUSAL.findall(ran.said + ran.text)}


def prints_nothing(ran):
    """Whether a command printed nothing. `run` prints what a line is refused, and so what its store is."""
    return ran.out == b"" or (ran.words[0] == "run" and ran.text.startswith("refused "))


def lines_of(shards):
    """What `export` prints: of each shard its bytes, or the beginning of a remark."""
    return [f"# {name} refused" if isinstance(text, holes.Refused) else f"put {name} {text.hex() or '-'}" for name, text in sorted(shards.items())] + ["sync"]


class Case:
    """A store of which these pages can't be read: each command on it."""

    def __init__(self, trial, made, gone):
        self.trial, self.made, self.gone = trial, made, frozenset(gone)
        self.kind = made.kind(min(gone))
        self.about = f"format {made.form}, pages {sorted(gone)} ({self.kind}) can't be read"
        try:
            self.left = holes.Left(made.image, gone)
            self.shards, self.number = self.left.shards(), None
        except holes.Refused as why:
            self.left, self.shards, self.number = None, {}, why.number
        self.hit = sorted(name for name, text in self.shards.items() if isinstance(text, holes.Refused))

    def run(self, *words, path=None, more=(), given=b"ab", **settings):
        path = path or self.made.path
        env = eio.failing(self.trial, path, self.made.log, read=self.gone, **settings)
        return self.trial.run(*words, path, *more, given=given, env=env)

    def see(self, what, fact, ran):
        return self.trial.see(f"{self.what()}: {what}", fact, (self.about, ran))

    def what(self):
        if self.kind != "a half":
            return f"a page of {self.kind}" if self.kind != "nothing" else "a page on which nothing lives"
        if self.made.form == 2:
            return "a page of superblock or root of format 2"
        return "both halves" if len(self.gone) > 1 else "a half"

    # ---- readers

    def look(self):
        if self.left is None:
            self.refused()
        else:
            self.read()
            self.tell()
        self.salvage()
        self.doctor()
        self.trial.see("no reader changes the file", self.made.path.read_bytes() == self.made.image, self.about)

    def refused(self):
        """The store isn't opened: each command says so, and writes nothing."""
        wanted = OF_A_RUN if self.kind == "a run" else {self.number}
        for words in (["list"], ["get", self.made.first], ["stat"], ["scrub"], ["export"], ["run", "--file"]):
            ran = self.run(*words)
            is_it = ran.status == NO_STORE and prints_nothing(ran) and numbers(ran) & wanted
            self.see("a store that isn't opened is refused by name", is_it, ran)
        ran = self.run("copy", more=[self.made.to])
        self.see("a store that isn't opened isn't copied", ran.status == NO_STORE and not self.made.to.exists(), ran)
        for words in (["put", NEW], ["del", self.made.first], ["reclaim"], ["scrub", "--repair"], ["scrub", "--repair", "--accept-loss"], ["run", "--file"]):
            ran = self.run(*words, path=self.made.copy(), given=f"put {NEW} 61\nsync\n".encode())
            right = ran.status == NO_STORE and self.made.work.read_bytes() == self.made.image
            self.see("a command that writes is refused, and writes nothing", right, ran)

    def read(self):
        """The store is opened: each command prints what can be read, and names what can't."""
        names = sorted(self.shards)
        for more in ([], ["--as-of"]) if self.made.form == 4 else ([],):
            ran = self.run("list", *more)
            self.see("list has all shards", (ran.status, ran.text.split()) == (DONE, names), ran)
            ran = self.run("export", *more)
            found = [" ".join(line.split()[:3]) if line.startswith("#") else line for line in ran.text.splitlines()]
            self.see("export has all shards, and a remark for one that can't be read", (ran.status, found) == (DAMAGED if self.hit else DONE, lines_of(self.shards)), ran)
            self.get(*more)
        if self.made.form == 4 or not self.hit:
            self.get("--salvage")
        ran = self.run("list", "--salvage")
        self.see("list --salvage has all shards", (ran.status, ran.text.split()) == (DONE, names), ran)
        ran = self.run("scrub")
        damaged = sorted(set(re.findall(r"^shard (\S+) chunk", ran.text, re.M)))
        self.see("scrub names just the shards that can't be read", (ran.status, damaged) == (DAMAGED if self.hit or self.left.passed else DONE, self.hit), ran)
        self.see("scrub names the halves that can't be read", all(re.search(rf"\bpage {page}\b", ran.text) for page in self.left.passed), ran)
        ran = self.run("stat")
        is_missed = bool(self.gone & self.made.uses.heads)
        self.see("stat ends with 5 if a header can't be read", (ran.status, "unreadable" in ran.text) == (DAMAGED if is_missed else DONE, is_missed), ran)
        ran = self.run("create")
        self.see("no store is made over it", ran.status == REFUSED and numbers(ran) == {46}, ran)
        ran = self.run("copy", more=[self.made.to])
        self.see("copy is whole, or none", (ran.status, self.made.to.exists()) == ((DAMAGED, False) if self.hit else (DONE, True)), ran)
        self.made.to.unlink(missing_ok=True)
        lines = "".join(f"get {name}\n" for name in [self.made.first, *self.hit])
        ran = self.run("run", "--file", given=lines.encode()) if not self.left.passed else None
        if ran is not None:
            values = ["refused" if name in self.hit else f"value {self.shards[name].hex() or '-'}" for name in [self.made.first, *self.hit]]
            found = ["refused" if line.startswith("refused ") else line for line in ran.text.splitlines()]
            self.see("a script gets all others", (ran.status, found) == (DONE, values), ran)

    def get(self, *more):
        """`get` of each shard that can't be read, and of another one."""
        other = next(name for name in sorted(self.shards) if name not in self.hit)
        ran = self.run("get", other, *more)
        self.see("get of another shard has its bytes", (ran.status, ran.out) == (DONE, self.shards[other]), ran)
        for name in self.hit:
            ran = self.run("get", name, *more)
            right = ran.status in (REFUSED, DAMAGED) and self.made.held[name].startswith(ran.out) and numbers(ran) & OF_A_RUN
            self.see("get of a shard that can't be read is refused", right, ran)

    def tell(self):
        """What is said of halves that can't be read, by each command that opens the store."""
        for words in (["list"], ["get", self.made.first], ["stat"], ["export"], ["list", "--as-of"]):
            if self.made.form == 2 and "--as-of" in words:
                continue
            ran = self.run(*words)
            if not self.left.passed:
                self.see("nothing is said of pages that weren't asked for", self.hit or not re.search(r"\bpage \d", ran.said), ran)
                continue
            self.see("each half that can't be read is named", all(re.search(rf"\bpage {page}\b", ran.said) for page in self.left.passed), ran)
            self.see("it is said why: it can't be read", WHY.search(ran.said), ran)
            self.see("an opening as of an older root says so loudly", bool(LOUD.search(ran.said)) == self.left.is_older, ran)

    # ---- writers

    def write(self):
        """The commands that write, on a store that is opened."""
        if self.left is None:
            return
        script = f"put {NEW} 6162\nsync\n".encode()
        writers = [(["put", NEW], b"ab"), (["del", self.made.first], b""), (["run", "--file"], script), (["scrub", "--repair"], b"")]
        if self.kind != "nothing" or min(self.gone) % 10 == 0:
            writers.append((["reclaim"], b""))
        for words, given in writers:
            ran = self.run(*words, path=self.made.copy(), given=given)
            if self.left.passed and (ran.status, 29 in numbers(ran)) == (NO_STORE, True):
                self.see("a writer that is refused 29 writes nothing", self.made.work.read_bytes() == self.made.image, ran)
                continue
            failed = eio.failed(self.made.log)
            wanted = {DONE}
            if words[0] == "reclaim" and failed and not self.left.passed:
                # The page may have been asked for ahead of need.
                wanted = {DONE, REFUSED, DAMAGED}
            if words[0] == "scrub" and self.hit:
                wanted = {DAMAGED}
            if words[0] == "scrub" and self.left.passed:
                wanted = {DONE, DAMAGED}
            self.see(f"{words[0]} does what it says", ran.status in wanted, ran)
            self.after(words, ran)
        if self.left.passed:
            self.accept()

    def after(self, words, ran):
        """What the store holds once the pages can be read again."""
        wanted = {name: text.hex() or "-" for name, text in (self.made.held if not self.left.is_older else self.shards).items()}
        if words[0] in ("put", "run"):
            wanted[NEW] = b"ab".hex()
        if words[0] == "del":
            wanted.pop(self.made.first, None)
        if ran.status in (DONE, DAMAGED):
            self.see(f"after {words[0]} the store holds what it should", self.trial.held(self.made.work) == wanted, ran)

    def accept(self):
        """`scrub --repair --accept-loss` fences a half that can't be read, and goes on. Written anew it can be read."""
        ran = self.run("scrub", "--repair", "--accept-loss", path=self.made.copy(), heals=1)
        wanted = {name: text.hex() or "-" for name, text in self.shards.items()}
        self.see("--accept-loss goes on", ran.status == DONE, ran)
        after = self.trial.run("list", self.made.work)
        self.see("then nothing warns any more", (after.status, after.said) == (DONE, ""), (ran, after))
        self.see("and the store holds what it held", self.trial.held(self.made.work) == wanted, ran)
        put = self.trial.run("put", NEW, self.made.work, given=b"ab")
        self.see("and is written again", put.status == DONE, (ran, put))
        for it in self.made.work.parent.glob(f"{self.made.work.name}.page-*"):
            it.unlink()

    # ---- the rest

    def doctor(self):
        ran = self.run("doctor")
        wanted = NO_STORE if self.left is None else DAMAGED if self.hit or self.left.passed else DONE
        self.see("doctor ends with 0, 5 or 3", ran.status == wanted, ran)
        if self.left is not None:
            self.see("doctor names the halves that can't be read", all(re.search(rf"\bpage {page}\b", ran.text + ran.said) for page in self.left.passed), ran)
        ran = self.run("doctor", "--json")
        self.see("doctor --json prints an object", ran.status == wanted and is_object(ran.text), ran)

    def salvage(self):
        """What `--salvage` reads on: by newer runs, and by the frames alone."""
        if self.left is None and self.kind == "a run":
            self.newer_runs()
        geometry = []
        if self.made.form == 4 and self.gone >= set(self.made.uses.pairs[0]):
            geometry = ["--extents", EXTENTS, "--pages", PAGES, "--sections", SECTIONS]
        ran = self.run("export", "--salvage", more=geometry)
        if self.made.form == 2:
            self.see("a store of format 2 is refused a salvage by frames", ran.status == NO_STORE and numbers(ran) <= {1, 43} and not ran.out, ran)
            return
        found = dict(line.split()[1:] for line in ran.text.splitlines() if line.startswith("put "))
        newest = {name: text.hex() or "-" for name, text in holes.newest_whole(self.made.frames, self.gone).items()}
        held = {name: text.hex() or "-" for name, text in self.made.held.items()}
        needed = {name: text for name, text in newest.items() if held.get(name) == text}
        self.see("a salvage prints all other shards", needed.items() <= found.items(), ran)
        self.see("a salvage prints nothing but the newest whole shards", found.items() <= newest.items(), ran)
        is_read = self.kind != "a half" or geometry
        self.see("a salvage ends with 5", ran.status == DAMAGED if is_read else ran.status in (DONE, DAMAGED), ran)
        if self.kind != "a half":
            self.see("a salvage names each page that can't be read", all(re.search(rf"\bpage {page}\b", ran.said) for page in self.gone), ran)
        # A scan asks once; a disk in a file reads stretches of pages, and if one fails the page alone.
        self.see("a salvage has the system asked for a page five times at most", max(eio.failed(self.made.log).values(), default=0) <= 5, (ran, eio.failed(self.made.log)))

    def newer_runs(self):
        """`list --salvage` and `get --salvage` of a store of which a run can't be read."""
        lost = max(number for number, place in enumerate(self.made.left.root.runs) if self.gone & set(self.made.left.span(place)))
        named = {}
        for place in self.made.left.root.runs[lost + 1:]:
            named.update(self.made.left.entries_of(self.made.left.payload(place, 1)))
        living = sorted(reader.spelled(name) for name, places in named.items() if places)
        ran = self.run("list", "--salvage")
        self.see("list --salvage has what newer runs name", (ran.status, ran.text.split()) == (DAMAGED, living), ran)
        place = self.made.left.root.runs[lost]
        self.see("list --salvage names the run", f"extent {place.extent} page {place.page}" in ran.said, ran)
        for name in living[:1]:
            ran = self.run("get", name, "--salvage")
            self.see("get --salvage of what newer runs name has the bytes", (ran.status, ran.out) == (DONE, self.made.held[name]), ran)
        unknown = next(name for name in sorted(self.made.held) if name not in living)
        ran = self.run("get", unknown, "--salvage")
        self.see("get --salvage of all else is refused 28", (ran.status, ran.out) == (DAMAGED, b"") and 28 in numbers(ran), ran)


def is_object(text):
    try:
        return isinstance(json.loads(text), dict)
    except ValueError:
        return False


def look_at_all(trial, made):
    """A device that fails every read."""
    case = Case(trial, made, {0})
    case.gone = frozenset(range(len(made.image) // PAGE))
    for words in (["list"], ["get", made.first], ["stat"], ["scrub"], ["export"], ["list", "--salvage"], ["export", "--salvage"], ["put", NEW], ["del", made.first], ["reclaim"], ["scrub", "--repair"], ["run", "--file"]):
        ran = case.run(*words)
        trial.see("a device that fails every read is refused 1", ran.status == NO_STORE and prints_nothing(ran) and numbers(ran) == {1}, (words, ran))
    ran = case.run("doctor")
    trial.see("doctor of a device that fails every read ends with 3", ran.status == NO_STORE, ran)
    trial.see("no command changes a device that fails every read", made.path.read_bytes() == made.image)


def look_at_commands(trial, made):
    """A page of the root is damaged, and pages of chunks can't be read: the other chunks are looked through for the commands that may be lost."""
    newest, other = next((newest, other) for own, newest, other in pairs.pairs_of(made.image).newest() if own == pairs.ROOT)
    image = bytearray(made.image)
    image[PAGE * other + 20] ^= 1
    last = max(made.frames, key=lambda it: it.head.command)
    pages = random.Random(trial.options.seed).sample(sorted(made.uses.chunks), 6)
    for gone in ([last.span[0]], [last.span[-1]], *([page] for page in pages), [last.span[0], *pages]):
        made.work.write_bytes(image)
        ran = trial.run("list", made.work, env=eio.failing(trial, made.work, made.log, read=frozenset(gone)))
        said = pairs.root_warnings(holes.without(image, gone), other, newest)
        said.append(f"warning: {len(set(gone))} pages of the extents cannot be read: the commands that they name are not known")
        trial.see("the commands of all other chunks are found, and the pages that can't be read are counted", all(line in ran.said.splitlines() for line in said), (gone, said, ran))


def look_at_times(trial, made):
    """Each page fails some times, early or late: whatever is printed is what was put, and status 0 means all of it."""
    whole = {name: {text.hex() or "-"} for name, text in made.held.items()}
    every = f"0-{len(made.image) // PAGE - 1}"
    texts = texts_of(made)
    pages = sorted(random.Random(trial.options.seed).sample(sorted(made.uses.chunks), 12))
    choices = [(every, after, times) for after in range(4) for times in (1, 2, 3)] + [(str(page), after, times) for page in pages for after in range(3) for times in (1, 1000)]
    for listed, after, times in choices:
        env = eio.failing(trial, made.path, made.log, read=listed, after=after, times=times)
        about = f"format {made.form}, pages {listed} fail {times} times after {after}"
        for words in (["export"], ["export", "--salvage"]):
            ran = trial.run(*words, made.path, env=env)
            found = [line.split()[1:] for line in ran.text.splitlines() if line.startswith("put ")]
            known = texts if "--salvage" in words else whole
            trial.see("what is printed of pages that fail at times was put", all(text in known.get(name, ()) for name, text in found), (about, ran))
            if ran.status == DONE:
                trial.see("and with status 0 it is all", {name for name, _ in found} >= set(made.held), (about, ran))
        asked = [made.uses.chunks[int(listed)]] if listed != every else sorted(made.held)[::40]
        for name in asked:
            for more in ([], ["--salvage"]):
                ran = trial.run("get", name, *more, made.path, env=env)
                right = ran.out == made.held[name] if ran.status == DONE else made.held[name].startswith(ran.out)
                trial.see("what is got of pages that fail at times was put", right, (about, ran))


def texts_of(made):
    """Of each identifier the bytes of each whole put that lies somewhere."""
    found = {}
    commands = sorted({it.head.command for it in made.frames})
    for command in commands:
        for name, text in holes.newest_whole([it for it in made.frames if it.head.command == command]).items():
            found.setdefault(name, set()).add(text.hex() or "-")
    return found


def look(trial, folder):
    for form in trial.formats:
        made = Made(trial, folder, form)
        for page in range(len(made.image) // PAGE):
            if made.kind(page) in ("nothing", "a chunk") and page % trial.options.every:
                continue
            case = Case(trial, made, {page})
            case.look()
            case.write()
        for pair in made.uses.pairs:
            if len(pair) == 2:
                case = Case(trial, made, pair)
                case.look()
                case.write()
        look_at_all(trial, made)
        look_at_times(trial, made)
        if form == 4:
            look_at_commands(trial, made)
