"""What `trials/file_faults` looks at: scripts of the two programs of trials/file_edits over files, with what each line has to print and which calls of the
system it may make.

A row of a script is `LINE > ANSWER > CALLS`. Calls that aren't given aren't compared. A call is a word and the file's name:

    open NAME r|rw ..   with what the opening may do: create, new (it must be a new one), truncate
    lock NAME, share NAME, unlock NAME     an exclusive lock, a shared one, none
    write NAME P+N, read NAME P+N          so many whole pages from page P on; else bytes: 5:100
    cut NAME N                             its length is set to N bytes
    data NAME, sync NAME, seek NAME, close NAME, and sleep

A call that the system refuses ends with its error. Several calls are parted by commas; `-` stands for none."""
import contextlib
import fcntl
import os
import re
import shutil
import stat
import subprocess

PAGE = 4096
# The word that names a part of the program.
PART = "0"
CALL = re.compile(r"^(?:\d+ +)?(\w+)\((.*)\) += (-?\d+|\?)(?: (E\w+))?")
TRACED = "open,openat,creat,flock,ftruncate,truncate,pwrite64,pwritev,pwritev2,write,writev,pread64,preadv,preadv2,fsync,fdatasync,sync_file_range,fallocate,lseek,close,unlink,unlinkat,rename,renameat,renameat2,fchmod,chmod,nanosleep,clock_nanosleep,sync,syncfs,mmap"
WAYS = {"O_CREAT": "create", "O_TRUNC": "truncate", "O_EXCL": "new", "O_APPEND": "append"}


class Played:
    """What came of a script: of each line what it printed and which calls it made."""

    def __init__(self, lines, said, status):
        self.lines, self.said, self.status = lines, said, status


def place(offset, size):
    if offset % PAGE == 0 and size % PAGE == 0:
        return f"{offset // PAGE}+{size // PAGE}"
    return f"{offset}:{size}"


class Reader:
    """Reads the log of strace."""

    def __init__(self, folder):
        self.folder, self.names, self.lines, self.calls, self.text = folder, {}, [], [], ""

    def name_of(self, path):
        """The name of a file of the folder, or of a device, else None."""
        path = os.path.join(self.folder, path)
        if path.startswith("/dev/") and path not in ("/dev/null", "/dev/tty"):
            return path
        return os.path.relpath(path, self.folder) if path == self.folder or path.startswith(f"{self.folder}/") else None

    def read(self, log):
        with open(log, errors="replace") as lines:
            for line in lines:
                call = CALL.match(line)
                if call:
                    self.note(call[1], call[2], call[3], call[4])
        return self.lines

    def note(self, name, given, result, error):
        words = given.split(", ")
        end = f" {error}" if error else ""
        if name in ("open", "openat", "creat"):
            return self.opened(name, given, result, end)
        if name in ("nanosleep", "clock_nanosleep"):
            return self.calls.append("sleep")
        if name in ("unlink", "unlinkat", "rename", "renameat", "renameat2", "chmod", "truncate"):
            path = re.search(r'"([^"]*)"', given)
            return self.calls.append(f"{name} {self.name_of(path[1])}{end}") if path else None
        if name == "write" and words[0] == "1":
            return self.printed(re.search(r'"((?:[^"\\]|\\.)*)"', given)[1])
        file = self.names.get(words[4] if name == "mmap" and len(words) > 4 else words[0])
        if file is None:
            return None
        return self.of_file(name, file, words, result, end)

    def opened(self, name, given, result, end):
        path = re.search(r'"([^"]*)"', given)[1]
        file = self.name_of(path)
        if file is None:
            return
        flags = given[given.index(f'"{path}"') + len(path) + 2 :]
        way = "rw" if "O_RDWR" in flags or name == "creat" else "w" if "O_WRONLY" in flags else "r"
        more = [word for flag, word in WAYS.items() if flag in flags]
        self.calls.append(" ".join(["open", file, way, *more]) + end)
        if not end:
            self.names[result] = file

    def of_file(self, name, file, words, result, end):
        match name:
            case "flock":
                kind = "lock" if "LOCK_EX" in words[1] else "share" if "LOCK_SH" in words[1] else "unlock"
                self.calls.append(f"{kind} {file}{end}")
            case "ftruncate":
                self.calls.append(f"cut {file} {words[1]}{end}")
            case "pwrite64" | "pread64":
                self.calls.append(f"{'write' if name == 'pwrite64' else 'read'} {file} {place(int(words[-1]), int(words[-2]))}{end}")
            case "fsync" | "fdatasync" | "lseek":
                self.calls.append(f"{ {'fsync': 'sync', 'fdatasync': 'data', 'lseek': 'seek'}[name]} {file}{end}")
            case "close":
                self.calls.append(f"close {file}")
                del self.names[words[0]]
            case _:
                self.calls.append(f"{name} {file}{end}")

    def printed(self, text):
        self.text += text.encode().decode("unicode_escape")
        while "\n" in self.text:
            line, self.text = self.text.split("\n", maxsplit=1)
            self.lines.append((line, self.calls))
            self.calls = []


def library(folder):
    """The library that refuses reads, unreadable.c, made in a folder."""
    made = os.path.join(folder, "unreadable.so")
    if not os.path.exists(made):
        source = os.path.join(os.path.dirname(os.path.abspath(__file__)), "unreadable.c")
        subprocess.run(["cc", "-shared", "-fPIC", "-o", made, source, "-ldl"], check=True)
    return made


def play(program, folder, script, inject=(), most=None, unread=None):
    """Plays a script with a program in a folder. `inject` are words of strace that refuse a call, `most` is how long a file may become, and a page of
    which each read fails is `unread`."""
    log = f"{folder}.calls"
    strace = ["strace", "-f", "-s", "256", "-o", log, "-e", f"trace={TRACED}", *(word for it in inject for word in ("-e", f"inject={it}"))]
    # (a file that would become too long is to be refused, and not to end the program by a signal)
    limits = ["sh", "-c", 'trap "" XFSZ; exec prlimit --fsize="$@"', "sh", str(most)] if most is not None else []
    if unread is not None:
        strace += ["-E", f"LD_PRELOAD={library(os.path.dirname(folder))}", "-E", f"UNREADABLE={unread * PAGE}"]
    done = subprocess.run([*strace, *limits, program, PART], cwd=folder, input="".join(f"{it}\n" for it in script), capture_output=True, text=True, check=False, timeout=120)
    lines = Reader(str(folder)).read(log)
    os.remove(log)
    return Played(lines, done.stderr, done.returncode)


class Look:
    """A look: a script with what it has to print and to do, what stands in its folder before, and what has to stand there after."""

    def __init__(self, name, rows, before=None, after=None, inject=(), most=None, around=None, needs=None, unread=None):
        self.name, self.before, self.after, self.inject, self.most, self.around, self.needs, self.unread = name, before, after, inject, most, around, needs, unread
        self.rows = [[it.strip() for it in row.split(">")] for row in rows.strip().splitlines()]

    def faults(self, program, folder):
        """What is otherwise than it has to be, as a list of texts."""
        shutil.rmtree(folder, ignore_errors=True)
        os.mkdir(folder)
        if self.before:
            self.before(folder)
        with (self.around or contextlib.nullcontext)(folder) as names:
            rows = [[it.replace("$DEVICE", names or "") for it in row] for row in self.rows]
            played = play(program, folder, [row[0] for row in rows], self.inject, self.most, self.unread)
            found = list(differences(rows, played))
            if self.after and not self.after(folder):
                found.append("what is left in the folder is otherwise")
        shutil.rmtree(folder, ignore_errors=True)
        return found


def differences(rows, played):
    for at, (line, wanted, *calls) in enumerate(rows):
        if at >= len(played.lines):
            yield f"`{line}` printed nothing: {played.said[-300:]}"
            return
        said, made = played.lines[at]
        if said.strip() != wanted:
            yield f"`{line}` printed `{said}`, and not `{wanted}`"
        if calls and calls[0] != (", ".join(made) or "-"):
            yield f"`{line}` made the calls `{', '.join(made) or '-'}`, and not `{calls[0]}`"
    if played.status:
        yield f"it ended with {played.status}: {played.said[-300:]}"


# What stands in a folder before a look, or after it.


def pages(count, first=1):
    """Bytes of so many pages, each of a byte of its own."""
    return b"".join(bytes([(first + it) % 256]) * PAGE for it in range(count))


def files(**texts):
    """Makes files of these bytes."""

    def make(folder):
        for name, text in texts.items():
            with open(os.path.join(folder, name), "wb") as file:
                file.write(text)
            os.chmod(os.path.join(folder, name), 0o600)

    return make


def hold(**texts):
    """These files have just these bytes; None stands for a file that isn't there."""

    def look(folder):
        for name, text in texts.items():
            path = os.path.join(folder, name)
            if text is None:
                if os.path.lexists(path):
                    return False
                continue
            with open(path, "rb") as file:
                if file.read() != text:
                    return False
        return True

    return look


def all_of(*looks):
    return lambda folder: all(look(folder) for look in looks)


def mode(name, wanted):
    return lambda folder: stat.S_IMODE(os.stat(os.path.join(folder, name)).st_mode) == wanted


def blocks(name, least):
    """A file takes at least so many bytes on the device."""
    return lambda folder: os.stat(os.path.join(folder, name)).st_blocks * 512 >= least


def locked(name, kind):
    """Another process has a file locked."""

    @contextlib.contextmanager
    def around(folder):
        with open(os.path.join(folder, name), "rb") as held:
            fcntl.flock(held, kind)
            yield None

    return around


def may_loop():
    return os.geteuid() == 0 and shutil.which("losetup") and os.path.exists("/dev/loop-control")


def loop(size):
    """A block device of so many bytes, each page of its own byte."""

    @contextlib.contextmanager
    def around(folder):
        image = f"{folder}.image"
        with open(image, "wb") as file:
            file.write(pages(size // PAGE + 1)[:size])
        device = subprocess.run(["losetup", "--find", "--show", image], capture_output=True, text=True, check=True).stdout.strip()
        try:
            yield device
        finally:
            subprocess.run(["losetup", "--detach", device], check=True)
            os.remove(image)

    return around
