"""What the trials of commands share: a program that is run on stores in files, stores of both formats, and what is counted."""
import argparse
import contextlib
import hashlib
import os
import pathlib
import subprocess
import tempfile

from files import identifier

TOP = pathlib.Path(__file__).resolve().parent.parent
PAGE = 4096
NOBODY = 65534
FORMATS = (2, 4)
# The statuses of all commands but run, race, check.
DONE, REFUSED, COMMAND_LINE, NO_STORE, STREAM, DAMAGED, IN_USE, NOT_THERE = range(8)
# Each extents of so many pages.
EXTENTS, PAGES = 16, 4


class Ran:
    """What a run of the program printed, and its status."""

    def __init__(self, words, done):
        self.words, self.status, self.out = words, done.returncode, done.stdout
        self.text, self.said = done.stdout.decode(errors="replace"), done.stderr.decode(errors="replace")

    def __repr__(self):
        return f"{' '.join(map(str, self.words))}: status {self.status}, printed {self.text[:400]!r}, said {self.said[:800]!r}"


def without_reserve(words):
    """The words of a command, where a put takes all the room that there is unless they say how much it leaves."""
    return [*words, "--reserve", "0"] if words[:1] in (("put",), ["put"]) and "--reserve" not in words else words


class Trial:
    """A program under trial: it is run, and what is seen of it is counted."""

    def __init__(self, doc, *more):
        parser = argparse.ArgumentParser(description=doc.split("\n", maxsplit=1)[0])
        parser.add_argument("--program", default=TOP / "crates/cs_cli/out/cs_cli")
        parser.add_argument("--folder", default=None)
        for name, default in more:
            parser.add_argument(f"--{name}", type=type(default), default=default)
        self.options = parser.parse_args()
        self.program = os.path.abspath(self.options.program)
        self.counts, self.wrong = {}, 0

    def run(self, *words, given=b"", closed=(), nobody=False, under=(), env=None, cwd=None, seconds=120):
        """Runs the program: `given` is its input, bytes or an open file; `closed` are the descriptors that it has closed. A put leaves no reserve
        unless its words ask for one."""
        words = without_reserve(words)
        line = [self.program, *map(str, words)]
        if closed:
            line = ["sh", "-c", 'exec "$0" "$@" ' + " ".join(("0<&-", "1>&-", "2>&-")[it] for it in closed), *line]
        if nobody:
            line = ["setpriv", f"--reuid={NOBODY}", f"--regid={NOBODY}", "--clear-groups", *line]
        how = {"input": given} if isinstance(given, bytes) else {"stdin": given}
        environment = {key: value for key, value in os.environ.items() if key != "NUGGETLOCH_FILE"}
        done = subprocess.run([*map(str, under), *line], capture_output=True, check=False, timeout=seconds, cwd=cwd, env={**environment, **(env or {})}, **how)
        return Ran(words, done)

    def see(self, what, fact, about=""):
        """Counts a fact, and prints one that isn't."""
        self.counts[what] = self.counts.get(what, 0) + bool(fact)
        if not fact:
            self.wrong += 1
            print(f"WRONG: {what}: {about}", flush=True)
        return bool(fact)

    def end(self):
        for what, count in self.counts.items():
            print(f"{count} times: {what}")
        print(f"{sum(self.counts.values())} seen, {self.wrong} wrong")
        return 1 if self.wrong else 0

    @contextlib.contextmanager
    def room(self):
        """A folder for stores, which another user may enter."""
        with tempfile.TemporaryDirectory(dir=self.options.folder) as folder:
            os.chmod(folder, 0o755)
            yield pathlib.Path(folder)

    def make(self, path, form, puts=(), extents=EXTENTS, pages=PAGES, sections=1, syncs=3):
        """Makes a store with these shards, (number, bytes), with a sync after every so many and at the end."""
        geometry = ["--extents", extents, "--pages", pages, "--sections", sections]
        if form == 4:
            made = self.run("create", path, *geometry)
        else:
            made = self.run("run", "--file", path, "--new", "--format", form, *geometry)
        if made.status:
            raise SystemExit(f"no store is made: {made}")
        lines = []
        for at, (number, text) in enumerate(puts):
            lines += [f"put {identifier(number)} {text.hex() or '-'}"] + ["sync"] * (at % syncs == syncs - 1)
        self.play(path, [*lines, "sync"])
        return path

    def play(self, path, lines):
        """Runs a script that is to be taken whole."""
        ran = self.run("run", "--file", path, given="".join(f"{it}\n" for it in lines).encode())
        if ran.status or "refused" in ran.text or "bad line" in ran.text:
            raise SystemExit(f"a script isn't taken: {ran}")
        return ran

    def held(self, path, *words):
        """What a store holds, by `export`: of each identifier its bytes as hex digits. None where that doesn't end with 0."""
        ran = self.run("export", path, *words)
        if ran.status:
            return None
        return {line.split()[1]: line.split()[2] for line in ran.text.splitlines() if line.startswith("put ")}


def some_shards(rng, count, most=6000):
    """Shards of no byte to some thousand, under the identifiers 1, 2, .."""
    sizes = [0, 1, *(rng.randrange(1, most) for _ in range(max(count - 2, 0)))][:count]
    return [(number, rng.randbytes(size)) for number, size in enumerate(sizes, 1)]


def map_of(puts):
    return {identifier(number): text.hex() or "-" for number, text in puts}


def digest(path):
    return hashlib.sha256(pathlib.Path(path).read_bytes()).hexdigest()


def flip(path, page, byte, bit=0):
    """Turns a bit of a page of a file."""
    with open(path, "r+b") as store:
        store.seek(page * PAGE + byte)
        turned = store.read(1)[0] ^ (1 << bit)
        store.seek(page * PAGE + byte)
        store.write(bytes([turned]))


def zero(path, page):
    with open(path, "r+b") as store:
        store.seek(page * PAGE)
        store.write(bytes(PAGE))


@contextlib.contextmanager
def mounted(at, *words):
    """A file system of its own at a folder, for root alone: of memory, or by the words of `mount`."""
    at.mkdir(exist_ok=True)
    subprocess.run(["mount", *words, at], check=True)
    try:
        yield at
    finally:
        subprocess.run(["umount", at], check=True)


def may_mount():
    return os.geteuid() == 0 and subprocess.run(["unshare", "-m", "true"], capture_output=True, check=False).returncode == 0
