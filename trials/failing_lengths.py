"""Part `lengths` of trials/failing: files of a wrong length, files that can't be written or read, and `doctor`."""
import fcntl
import os
import random
import re
import shutil
import subprocess

import eio
import holes
import pairs
import stores
from failing_pages import is_object
from files import identifier
from stores import DAMAGED, DONE, IN_USE, NO_STORE, NOT_THERE, PAGE

EXTENTS, PAGES, SECTIONS, SHARDS = 16, 4, 2, 20
MOST = 40
# A command of the program in what doctor prints.
COMMAND = re.compile(r"\bcs_cli ([a-z]+)\b")


class Made:
    def __init__(self, trial, folder, form):
        rng = random.Random(trial.options.seed)
        self.trial, self.form, self.path, self.work = trial, form, folder / f"store{form}", folder / "work"
        trial.make(self.path, form, stores.some_shards(rng, SHARDS, 4000), extents=EXTENTS, pages=PAGES, sections=SECTIONS)
        trial.play(self.path, [f"del {identifier(2)}", f"put {identifier(3)} 33", "sync"])
        self.image = self.path.read_bytes()
        left = holes.Left(self.image)
        self.held = {name: text.hex() or "-" for name, text in left.shards().items()}
        self.front, self.store = left.store[:8], left.store


def sized(image, size):
    return image[:size] + bytes(max(0, size - len(image)))


def doctor(made, about, statuses, path=None, has=(), **how):
    """What `doctor` says, with and without --json: a status of these, what it is, and what to do."""
    trial, path = made.trial, path or made.work
    before = path.read_bytes() if path.is_file() and not how.get("nobody") else None
    ran = trial.run("doctor", path, **how)
    trial.see("doctor ends with the status that is wanted", ran.status in statuses, (about, statuses, ran))
    for word in has:
        trial.see("doctor says what it is", word in ran.text + ran.said, (about, word, ran))
    if ran.status not in (DONE, stores.COMMAND_LINE):
        commands = set(COMMAND.findall(ran.text + ran.said))
        trial.see("doctor ends with commands that are there", commands and commands <= known(trial), (about, commands, ran))
        trial.see("no advice of doctor makes a store over it", not re.search(r"--new\b|create --force", ran.text + ran.said), (about, ran))
    by_json = trial.run("doctor", path, "--json", **how)
    trial.see("doctor --json ends with the same status, and prints an object", by_json.status == ran.status and is_object(by_json.text or by_json.said), (about, by_json))
    trial.see("doctor changes nothing", before is None or path.read_bytes() == before, (about, ran))
    return ran


def known(trial):
    """The commands that the program has."""
    if not hasattr(trial, "known"):
        said = trial.run("help")
        trial.known = set(re.findall(r"^  ([a-z]+)\b", said.text + said.said, re.M))
    return trial.known


def salvaged(made, about, image):
    """`export --salvage` of these bytes: all shards whose frames are there, and 5 if that isn't all."""
    trial = made.trial
    ran = trial.run("export", "--salvage", made.work)
    if made.form == 2:
        trial.see("a store of format 2 is refused a salvage by frames", ran.status == NO_STORE and not ran.out, (about, ran))
        return
    found = dict(line.split()[1:] for line in ran.text.splitlines() if line.startswith("put "))
    whole = image[:len(image) // PAGE * PAGE]
    newest = texts(holes.newest_whole(holes.frames_of(whole, (EXTENTS, PAGES), made.front)))
    allowed = texts(holes.newest_whole(holes.frames_of(image + bytes(-len(image) % PAGE), (EXTENTS, PAGES), made.front)))
    needed = {name: text for name, text in newest.items() if made.held.get(name) == text}
    trial.see("a salvage prints what is there", needed.items() <= found.items(), (about, ran))
    trial.see("a salvage prints nothing but whole shards", all(text in (newest.get(name), allowed.get(name)) for name, text in found.items()), (about, ran))
    trial.see("a salvage ends with 5 where anything is missing or may be wrong", ran.status == DAMAGED or (ran.status == DONE and found == made.held), (about, ran))
    trial.see("a salvage writes nothing", made.work.read_bytes() == image, about)


def texts(found):
    return {name: text.hex() or "-" for name, text in found.items()}


def look_at_lengths(made):
    """Shorter and longer by 1 to 40 pages, and by as many bytes."""
    trial, size = made.trial, len(made.image)
    for count in range(1, MOST + 1):
        for name, to in (("pages shorter", size - PAGE * count), ("pages longer", size + PAGE * count), ("bytes shorter", size - count), ("bytes longer", size + count)):
            image, about = sized(made.image, to), f"format {made.form}, {count} {name}"
            made.work.write_bytes(image)
            listed = trial.run("list", made.work)
            is_longer = name == "pages longer" and made.form == 4
            trial.see("only a store of format 4 that is whole pages longer opens", (listed.status == DONE) == is_longer, (about, listed))
            is_odd = to % PAGE != 0
            has = [str(to // PAGE), str(size // PAGE)] if not is_odd else [str(to)]
            doctor(made, about, {DONE, DAMAGED} if is_longer else {NO_STORE}, has=has)
            if is_longer:
                ran = trial.run("export", made.work)
                found = dict(line.split()[1:] for line in ran.text.splitlines() if line.startswith("put "))
                trial.see("a longer store holds what it held", found == made.held, (about, ran))
            salvaged(made, about, image)


def look_at_superblocks(made):
    """Both copies of section 0 gone: the dimensions are given."""
    trial = made.trial
    image = holes.without(made.image, {0, len(made.image) // PAGE - 1})
    made.work.write_bytes(image)
    about = f"format {made.form}, both copies of section 0 gone"
    doctor(made, about, {NO_STORE})
    ran = trial.run("export", "--salvage", made.work, "--extents", EXTENTS, "--pages", PAGES, "--sections", SECTIONS)
    found = dict(line.split()[1:] for line in ran.text.splitlines() if line.startswith("put "))
    newest = texts(holes.newest_whole(holes.frames_of(image, (EXTENTS, PAGES), made.front)))
    needed = {name: text for name, text in newest.items() if made.held.get(name) == text}
    trial.see("with its dimensions a store without section 0 is salvaged", ran.status == DAMAGED and needed.items() <= found.items() <= newest.items(), (about, ran))
    for half in (0, len(made.image) // PAGE - 1):
        image = holes.without(made.image, {half})
        for count in (1, 2, MOST):
            cut = sized(image, len(image) - PAGE * count)
            made.work.write_bytes(cut)
            about = f"format {made.form}, page {half} gone, {count} pages shorter"
            doctor(made, about, {NO_STORE})
            more = ["--extents", EXTENTS, "--pages", PAGES, "--sections", SECTIONS] if half == 0 else []
            ran = trial.run("export", "--salvage", made.work, *more)
            found = dict(line.split()[1:] for line in ran.text.splitlines() if line.startswith("put "))
            newest = texts(holes.newest_whole(holes.frames_of(cut, (EXTENTS, PAGES), made.front)))
            needed = {name: text for name, text in newest.items() if made.held.get(name) == text}
            trial.see("a short file is salvaged as far as it goes", ran.status == DAMAGED and needed.items() <= found.items() <= newest.items(), (about, ran))


def look_from_page(made):
    """A salvage that goes on from a page has what lies from there on."""
    trial = made.trial
    made.work.write_bytes(made.image)
    frames = holes.frames_of(made.image, (EXTENTS, PAGES), made.front)
    for page in (0, 2, 2 + PAGES, 2 + 3 * PAGES + 1, 2 + EXTENTS * PAGES):
        ran = trial.run("export", "--salvage", "--from-page", page, made.work)
        found = dict(line.split()[1:] for line in ran.text.splitlines() if line.startswith("put "))
        newest = texts(holes.newest_whole([it for it in frames if it.span[0] >= page]))
        needed = {name: text for name, text in newest.items() if made.held.get(name) == text}
        right = ran.status in (DONE, DAMAGED) and needed.items() <= found.items() <= newest.items()
        trial.see("--from-page goes on from there", right, (f"from page {page}", ran))


def look_at_zeros(made):
    """Runs whose digest is right and whose zeros aren't are read by a salvage."""
    trial, left = made.trial, holes.Left(made.image)
    place = left.root.runs[-1]
    last = left.span(place)[-1]
    image = bytearray(made.image)
    image[PAGE * last + PAGE - 1] ^= 1
    made.work.write_bytes(image)
    for name in sorted(made.held)[:3]:
        ran = trial.run("get", name, "--salvage", made.work)
        trial.see("a run is read whose digest is right and whose zeros aren't", (ran.status, ran.out.hex() or "-") == (DONE, made.held[name]), ran)
    ran = trial.run("list", "--salvage", made.work)
    trial.see("a run is read whose digest is right and whose zeros aren't", ran.text.split() == sorted(made.held), ran)


def look_at_files(made, folder):
    """No file, a folder, no store, a file in use, files that can't be written or read, and a read-only mount."""
    trial, about = made.trial, f"format {made.form}"
    doctor(made, f"{about}, no such file", {NOT_THERE}, folder / "none")
    doctor(made, f"{about}, a folder", {NOT_THERE}, folder)
    for name, text in (("empty", b""), ("a text", b"a letter\n" * 10_000), ("20 pages of noise", random.Random(5).randbytes(20 * PAGE)), ("20 pages of zeros", bytes(20 * PAGE))):
        made.work.write_bytes(text)
        doctor(made, f"{about}, {name}", {NO_STORE})
    made.work.write_bytes(made.image)
    sound = doctor(made, f"{about}, sound", {DONE}, has=[f"{EXTENTS}", f"{PAGES}", *([made.store.hex()] if made.form == 4 else [])])
    log = folder / "calls"
    trial.run("doctor", made.work, under=["strace", "-f", "-e", "trace=openat,open", "-o", log])
    opened = [line for line in log.read_text().splitlines() if f'"{made.work}"' in line]
    trial.see("doctor opens for reading alone", opened and all("O_RDONLY" in line for line in opened), opened[:3])
    deep = trial.run("doctor", "--deep", made.work)
    trial.see("doctor --deep says what is there", deep.status == DONE and str(len(made.held)) in deep.text, deep)
    with open(made.work, "r+b") as held:
        fcntl.flock(held, fcntl.LOCK_EX)
        doctor(made, f"{about}, in use", {IN_USE}, has=[str(len(made.image) // PAGE)])
        fcntl.flock(held, fcntl.LOCK_SH)
        doctor(made, f"{about}, read by another", {DONE})
    if os.geteuid() != 0:
        print("left out: another user's files and mounts, for which root is needed")
        return
    for mode, statuses in ((0o444, {DONE}), (0o400, {NOT_THERE})):
        os.chmod(made.work, mode)
        ran = doctor(made, f"{about}, of mode {mode:o}", statuses, nobody=True)
        trial.see("doctor says the same of a file that can't be written", mode != 0o444 or ran.out == sound.out, ran)
    os.chmod(made.work, 0o644)
    if not stores.may_mount():
        print("left out: read-only mounts, as nothing can be mounted here")
        return
    newest = next(new for own, new, _ in pairs.pairs_of(made.image).newest() if own == 1) if made.form == 4 else None
    with stores.mounted(folder / "mount", "-t", "tmpfs", "tmpfs") as at:
        shutil.copyfile(made.path, at / "store")
        (at / "short").write_bytes(made.image[:-7 * PAGE])
        if newest is not None:
            (at / "damaged").write_bytes(holes.without(made.image, {sum(pairs.pairs_of(made.image).pairs[1]) - newest}))
        subprocess.run(["mount", "-o", "remount,ro", at], check=True)
        doctor(made, f"{about}, on a read-only mount", {DONE}, at / "store")
        doctor(made, f"{about}, short, on a read-only mount", {NO_STORE}, at / "short")
        if newest is not None:
            doctor(made, f"{about}, damaged, on a read-only mount", {DAMAGED}, at / "damaged")
            ran = trial.run("export", "--salvage", at / "short")
            trial.see("a salvage reads on a read-only mount", ran.status == DAMAGED and ran.text.count("put ") > 0, ran)
        put = trial.run("put", identifier(70), at / "store", given=b"a")
        trial.see("nothing is put on a read-only mount", put.status == NOT_THERE, put)


def look_at_failing_reads(made):
    """Pages that can't be read are named by doctor; one that nothing names only with --deep."""
    trial, uses = made.trial, holes.uses_of(made.image)
    made.work.write_bytes(made.image)
    for page in range(len(made.image) // PAGE):
        env = eio.failing(trial, made.work, read=[page])
        deep = trial.run("doctor", "--deep", made.work, env=env)
        is_pair = any(page in pair for pair in uses.pairs)
        wanted = {NO_STORE} if page in uses.runs or (is_pair and made.form == 2) else {DAMAGED, *([NO_STORE] if is_pair else [])} if page in uses.chunks or is_pair else {DONE, DAMAGED}
        trial.see("doctor --deep ends with 5 or 3 if a page can't be read that is needed", deep.status in wanted, (f"page {page}", deep))


def look(trial, folder):
    for form in trial.formats:
        made = Made(trial, folder, form)
        print(f"format {form}: {len(made.image) // PAGE} pages, {len(made.held)} shards", flush=True)
        look_at_lengths(made)
        look_at_files(made, folder)
        look_at_failing_reads(made)
        if form == 4:
            look_at_superblocks(made)
            look_from_page(made)
            look_at_zeros(made)
