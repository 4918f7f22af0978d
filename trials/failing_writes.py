"""Part `writes` of trials/failing: pages that can't be written, in scripts of several sessions."""
import random
import re

import eio
import pairs
from failing_pages import numbers
from files import identifier
from stores import DONE, PAGE, REFUSED

EXTENTS, PAGES = 16, 8
SESSIONS = 12
NAMES = [identifier(number) for number in range(1, 13)]
PAIRS = pairs.pairs_by(EXTENTS, PAGES, 1)
KEPT = {page: own for own, pair in enumerate(PAIRS) for page in pair}


def sessions_of(rng):
    """Each is a script, or one put or deletion alone: its lines, the last of which is a sync."""
    found, there = [], set()
    for number in range(SESSIONS):
        lines = []
        for _ in range(rng.choice([1, 1, 2, 4])):
            name = rng.choice(NAMES)
            if name in there and rng.random() < 0.25:
                lines.append(f"del {name}")
                there.discard(name)
            else:
                lines.append(f"put {name} {rng.randbytes(rng.choice([1, 40, 1000, 4021, 4022, 9000])).hex()}")
                there.add(name)
        found.append([*lines, "sync"])
    return found


class Script:
    """A script of several sessions over a store in a file, and the state of the file before each of them."""

    def __init__(self, trial, folder, seed):
        self.trial, self.rng, self.about = trial, random.Random(seed), f"script {seed}"
        self.path, self.work, self.log, self.to = folder / "store", folder / "work", folder / "log", folder / "made"
        self.sessions = sessions_of(self.rng)
        # By which of two ways a page fails: its write, or the flush that follows.
        self.way = "write" if seed % 2 else "flush"
        self.path.unlink(missing_ok=True)
        trial.make(self.path, 4, extents=EXTENTS, pages=PAGES)
        self.images, self.maps, self.written = [self.path.read_bytes()], [{}], []
        for lines in self.sessions:
            ran, log = self.session(self.path, lines)
            if not is_taken(ran):
                raise SystemExit(f"a session isn't taken: {ran}")
            self.images.append(self.path.read_bytes())
            self.maps.append(after(self.maps[-1], lines)[-1])
            self.written.append({page for page in log if page is not None})

    def session(self, path, lines, more=(), **settings):
        """Runs a session, one command by itself as such. Returns how it ended, and what was written."""
        env = eio.failing(self.trial, path, self.log, **settings)
        word, *rest = lines[0].split()
        if len(lines) == 2:
            given = bytes.fromhex(rest[1]) if word == "put" else b""
            ran = self.trial.run(word, rest[0], path, *more, given=given, env=env)
        else:
            ran = self.trial.run("run", "--file", path, *more, given="".join(f"{it}\n" for it in lines).encode(), env=env)
        return ran, eio.written(self.log)

    def see(self, what, fact, *about):
        return self.trial.see(what, fact, (self.about, self.way, *about))

    def try_page(self, page):
        """The script with a page that can't be written, from the first session on that writes it."""
        at = next((number for number, pages in enumerate(self.written) if page in pages), None)
        if at is None:
            return "never written"
        self.work.write_bytes(self.images[at])
        bad = {self.way: [page]}
        ran, _ = self.session(self.work, self.sessions[at], **bad)
        refused = 1 in numbers(ran) and (ran.status == REFUSED or "refused 1 " in ran.text)
        # A command that did all but its seal is done.
        unsealed = ran.status == DONE and "the newest root is not on record (1 " in ran.said
        self.see("a sync that can't write a page is refused 1, and a seal is reported", refused or unsealed, page, ran)
        if self.way == "flush" and page % 2:
            # What was written there never came to the device.
            with open(self.work, "r+b") as store:
                store.seek(PAGE * page)
                store.write(pairs.page_of(self.images[at], page))
        held = self.held(page, at, ran)
        if page in KEPT:
            return self.read_only(page, at, held, bad)
        return self.left_out(page, at, held, bad)

    def held(self, page, at, ran):
        """What the store holds after a session that was refused: what it held after some of its commands."""
        states = after(self.maps[at], self.sessions[at])
        found = self.trial.held(self.work)
        acknowledged = max((int(line.split()[1]) for line in ran.text.splitlines() if line.startswith("acknowledged ")), default=0)
        self.see("nothing that was acknowledged is lost", found in states[acknowledged:], page, ran, found)
        return found

    def read_only(self, page, at, held, bad):
        """A half of a pair can't be written: the store is read, and copied."""
        ran, _ = self.session(self.work, self.sessions[at], **bad)
        if is_taken(ran):
            # The other half is the older one by now.
            return "a half of a pair, written by the other half"
        word, *rest = self.sessions[at][0].split()
        if word == "del" and ran.status == REFUSED and not numbers(ran) and rest[0] not in held:
            return "a deletion that came to the device before its flush failed"
        self.see("a half that can't be written: the advice is `copy`", numbers(ran) and re.search(r"`(?:cs_cli )?copy\b", ran.said), page, ran)
        self.see("and nothing that was acknowledged is lost", self.trial.held(self.work) in [held, *after(self.maps[at], self.sessions[at])], page, ran)
        before = self.trial.held(self.work)
        env = eio.failing(self.trial, self.work, **bad)
        ran = self.trial.run("copy", self.work, self.to, env=env)
        self.see("the store is copied", ran.status == DONE and self.trial.held(self.to) == before, page, ran)
        self.to.unlink(missing_ok=True)
        return "a half of a pair, read only"

    def left_out(self, page, at, held, bad):
        """The extent of the page is left out: each session ends as if all pages could be written."""
        extent = (page - 2) // PAGES
        own = range(2 + extent * PAGES, 2 + (extent + 1) * PAGES)
        doctor = self.trial.run("doctor", self.work)
        self.see("doctor reads the store", doctor.status in (DONE, 5), page, doctor)
        done = next(number for number, state in enumerate(after(self.maps[at], self.sessions[at])) if state == held) if held is not None else 0
        rest = self.sessions[at][:-1][done:]
        for number, lines in enumerate([[*rest, "sync"] if rest else None, *self.sessions[at + 1:]]):
            if lines is None:
                continue
            ran, log = self.session(self.work, lines, ["--skip-extent", extent], **bad)
            right = is_taken(ran)
            self.see("with the extent left out a session ends as it should", right, page, extent, lines[0][:60], ran)
            self.see("nothing is written on an extent that is left out", not set(own) & {it for it in log if it is not None}, page, extent, ran)
            if not right:
                break
            wanted = self.maps[at + 1 + number]
            self.see("with the extent left out a session leaves all that it put", self.trial.held(self.work) == wanted, page, extent, ran)
        return "left out"


def is_taken(ran):
    """Whether a session did all that it was to do. A script ends with 0 also if lines were refused."""
    return ran.status == DONE and "refused" not in ran.text


def after(held, lines):
    """What is held after each of the commands."""
    states = [dict(held)]
    for word, *rest in (line.split() for line in lines):
        if word == "put":
            states.append({**states[-1], rest[0]: rest[1]})
        elif word == "del":
            states.append({name: text for name, text in states[-1].items() if name != rest[0]})
    return states


def look(trial, folder):
    counts = {}
    pages = 2 + EXTENTS * PAGES + 2
    for number in range(trial.options.scripts):
        script = Script(trial, folder, trial.options.seed * 1000 + number)
        for page in range(pages):
            if page not in KEPT and page % trial.options.every:
                continue
            end = script.try_page(page)
            counts[end] = counts.get(end, 0) + 1
        for it in folder.glob("work.page-*"):
            it.unlink()
    print(f"{trial.options.scripts} scripts, {pages} pages each: " + ", ".join(f"{count} {end}" for end, count in sorted(counts.items())), flush=True)
