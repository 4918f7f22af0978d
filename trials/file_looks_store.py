"""The looks of `trials/file_faults` at stores in files: at the module `file_openers` of cs_store, and at the methods of `OpenOptions` that open files.

The stores have 6 extents of 4 pages: 28 pages, of which 0 and 27 are section 0's, 1 and 26 the root's."""
import contextlib
import fcntl
import os
import pathlib
import stat
import threading

from file_looks import PAGE, Look, all_of, files, hold, locked, may_loop, mode, pages

EIGHT = pages(8)
STORE = 28
MADE = {}


def make_stores(program, folder, play):
    """Makes the stores that looks begin with: two of a shard each, by the program itself."""
    for name in ("one", "two"):
        path = pathlib.Path(folder) / name
        path.mkdir(parents=True)
        played = play(program, path, ["create_file a", "put 1", "sync", "close"])
        if [line for line, _ in played.lines] != ["open", "Ok(1)", "Ok(1)", "closed"]:
            return f"no store is made: {played.lines} {played.said}"
        MADE[name] = (path / "a").read_bytes()
    return None


def store(name="one", more=b"", page=None, bytes_of=None):
    """A store is in the file `a`, with more bytes after it, or another page in place of one."""

    def make(folder):
        text = MADE[name]
        if page is not None:
            new = bytes_of() if bytes_of else bytes([7]) * PAGE
            text = text[: page * PAGE] + new + text[(page + 1) * PAGE :]
        files(a=text + more)(folder)

    return make


def two_stores(folder):
    """A store of which the last page of a longer file is another one's."""
    files(a=MADE["one"] + bytes(2 * PAGE) + MADE["two"][:PAGE])(folder)


def same(before):
    """The file `a` has the bytes that it had before."""

    def look(folder):
        now = (pathlib.Path(folder) / "a").read_bytes()
        before(folder)
        return (pathlib.Path(folder) / "a").read_bytes() == now

    return look


def let_go(name, seconds):
    """Another process has a file locked, for so long."""

    @contextlib.contextmanager
    def around(folder):
        with open(os.path.join(folder, name), "rb") as held:
            fcntl.flock(held, fcntl.LOCK_EX)
            timer = threading.Timer(seconds, fcntl.flock, (held, fcntl.LOCK_UN))
            timer.start()
            yield None
            timer.join()

    return around


def nodes(folder):
    os.mkfifo(f"{folder}/pipe")
    os.mkdir(f"{folder}/sub")
    files(a=EIGHT)(folder)
    if os.geteuid() == 0:
        os.mknod(f"{folder}/disk", stat.S_IFBLK | 0o600, os.makedev(7, 0))


def are_halves_found():
    """Halves of pairs that can't be read are found."""
    return not (pathlib.Path(__file__).parent.parent / "crates/cs_store/src/stand_in.rt").exists()


def is_root():
    return os.geteuid() == 0


TRIED = "open a rw, lock a EAGAIN, close a"

LOOKS = [
    Look(
        "a file is opened for what is asked, and neither made nor written",
        """
        open_waiting a write 0 > open 8 > open a rw, lock a
        open_waiting a read 0 > System(InUse) > open a r, share a EAGAIN, close a
        open_waiting a unlocked 0 > open 8
        close > closed
        open_waiting a read 0 > open 8 > close a, open a r, share a
        write 1 > Err(DeviceFault) > -
        fault > Some(ReadOnly)
        open_waiting b write 0 > System(NotThere) > open b rw ENOENT
        open_waiting b write 5 > System(NotThere) > open b rw ENOENT
        """,
        files(a=EIGHT),
        all_of(hold(a=EIGHT, b=None)),
    ),
    Look("a file that is in use is waited for", "open_waiting a write 20 > open 8", files(a=EIGHT), hold(a=EIGHT), around=let_go("a", 1.5)),
    Look("a file that stays in use is given up", f"open_waiting a write 0 > System(InUse) > {TRIED}\nopen_waiting a write 1 > System(InUse) > " + f"{TRIED}, sleep, " * 20 + TRIED, files(a=EIGHT), around=locked("a", fcntl.LOCK_EX)),
    Look(
        "the first pages alone are read",
        """
        open_waiting a write 0 > open 8
        first_pages 3 > pages 3
        read 1 > bytes 2 2
        read 2 > bytes 3 3 > read a 2+1
        """,
        files(a=EIGHT),
    ),
    Look(
        "what the system said is told of each disk over a file",
        """
        open_waiting a read 0 > open 8
        fault > None
        write 1 > Err(DeviceFault)
        fault > Some(ReadOnly)
        show > shown
        fault > Some(ReadOnly)
        """,
        files(a=EIGHT),
    ),
    Look(
        "a new file takes no other's place",
        """
        create_new a 2 > NotEmpty > open a rw create new EEXIST, open a rw, lock a, close a
        create_new b 2 > open 2 > open b rw create new, lock b, write b 0+1, write b 1+1, sync b, open . r, sync ., close .
        """,
        files(a=EIGHT),
        all_of(hold(a=EIGHT, b=bytes(2 * PAGE)), mode("b", 0o640)),
    ),
    Look(
        "a file is emptied where it is, once it is locked",
        "create_emptied a 2 > open 2 > open a rw create, lock a, cut a 0, write a 0+1, write a 1+1, sync a, open . r, sync ., close .",
        files(a=EIGHT),
        all_of(hold(a=bytes(2 * PAGE)), mode("a", 0o600)),
    ),
    Look("a file that is in use isn't emptied", f"create_emptied a 2 > DeviceFault > open a rw create, lock a EAGAIN, close a", files(a=EIGHT), hold(a=EIGHT), around=locked("a", fcntl.LOCK_EX)),
    Look(
        "a file that plays a device is whole pages, and stays as it is",
        """
        open_device a > OddLength > -
        open_device b > open 8 > open b rw, lock b
        open_device c > System(NotThere)
        """,
        files(a=EIGHT[:-100], b=EIGHT),
        hold(a=EIGHT[:-100], b=EIGHT, c=None),
    ),
    Look(
        "of a file of an odd length the whole pages are opened, and it stays as it is",
        """
        open_whole_pages a write > open 7 > open a rw, lock a
        read 6 > bytes 7 7 > read a 6+1
        open_whole_pages a read > open 7 > open a r, share a
        read 6 > bytes 7 7 > read a 6+1
        open_whole_pages c write > System(NotThere) > close a, open c rw ENOENT
        """,
        files(a=EIGHT[:-100]),
        hold(a=EIGHT[:-100], c=None),
    ),
    # What is under a name.
    Look("a pipe is special, and no file, folder or device is", "is_special pipe > true > -\nis_special a > false > -\nis_special sub > false\nis_special none > false\nis_special /dev/null > true", nodes),
    Look("a block device is one, and nothing else", "is_block_device pipe > false > -\nis_block_device a > false\nis_block_device sub > false\nis_block_device none > false", nodes),
    Look("a node of a block device is one", "is_block_device disk > true > -\nis_special disk > false > -", nodes, needs=is_root),
    Look(
        "the folder of a file is synced",
        """
        sync_folder a > true > open . r, sync ., close .
        sync_folder sub/a > true > open sub r, sync sub, close sub
        sync_folder none/a > false
        """,
        nodes,
    ),
    Look("a folder that can't be synced is told", "sync_folder a > false > open . r, sync . EIO, close .", nodes, inject=["fsync:error=EIO:when=1"]),
    # The library's own openers.
    Look(
        "a new store is in a new file of its own",
        """
        create_file b > open
        put 2 > Ok(1)
        sync > Ok(1)
        get 2 > there true
        create_file a > NotEmpty > open a rw create new EEXIST, open a rw, lock a, close a
        create_file none/a > DeviceFault
        """,
        files(a=EIGHT),
        all_of(hold(a=EIGHT), mode("b", 0o644)),
    ),
    Look("no store is made in place of one", "create_file a > NotEmpty > open a rw create new EEXIST, open a rw, lock a, close a", store(), same(store())),
    Look(
        "a store's file is opened, and not written but by what is put",
        f"""
        open_file a > open
        get 1 > there true
        findings > None None > -
        close > closed
        """,
        store(),
        same(store()),
    ),
    Look(
        "a page that was passed over is filled before anything else, and told",
        """
        open_file a > open
        findings > Some(27) None > -
        get 1 > there true
        close > closed
        open_file a > open
        findings > None None > -
        close > closed
        """,
        store(page=27),
        lambda folder: (pathlib.Path(folder) / "a").read_bytes() == MADE["one"][: 27 * PAGE] + bytes([255]) * PAGE,
    ),
    Look("an opening as of an older root tells what it passed over", "open_older_file a > open\nfindings > Some(27) None", store(page=27), same(store(page=27))),
    Look("a store that isn't there isn't made", "open_file b > DeviceFault > open b rw ENOENT\nopen_older_file b > DeviceFault > open b rw ENOENT", after=hold(b=None)),
    Look("a file that is in use isn't opened as a store", f"open_file a > DeviceFault > {TRIED}\nopen_older_file a > DeviceFault > {TRIED}", store(), same(store()), around=locked("a", fcntl.LOCK_EX)),
    Look("a store's file of which page 0 can't be read stays as it is", "open_file a > Unreadable\nopen_older_file a > DeviceFault", store(), same(store()), unread=0, needs=are_halves_found),
    Look("a store's file of which page 26 can't be read stays as it is", "open_file a > Unreadable\nopen_older_file a > DeviceFault", store(), same(store()), unread=26, needs=are_halves_found),
    Look(
        "a page that can't be read is given up where that is accepted, and no other",
        "open_file a loss > DeviceFault",
        store(),
        lambda folder: (pathlib.Path(folder) / "a").read_bytes() == MADE["one"][: 27 * PAGE] + bytes([255]) * PAGE,
        unread=27,
        needs=are_halves_found,
    ),
    Look("a file that holds no store stays as it is", "open_file a > NotAStore\nopen_older_file a > NotAStore", files(a=EIGHT), hold(a=EIGHT)),
    Look("a file of an odd length stays as it is", "open_file a > OddLength\nopen_older_file a > OddLength", store(more=b"more"), same(store(more=b"more"))),
    Look(
        "of a longer file the store's pages alone are used",
        """
        open_file a > open
        put 2 > Ok(1)
        sync > Ok(1)
        get 2 > there true
        close > closed
        open_older_file a > open
        get 2 > there true
        """,
        store(more=EIGHT),
        lambda folder: (pathlib.Path(folder) / "a").read_bytes()[STORE * PAGE :] == EIGHT,
    ),
    Look("a longer file of which the last page can't be read is refused, and stays as it is", "open_file a > DeviceFault", store(more=EIGHT), same(store(more=EIGHT)), unread=STORE + 7),
    Look("a longer file of two stores is refused, and stays as it is", "open_file a > NotAStore\nopen_older_file a > NotAStore", two_stores, same(two_stores)),
    Look(
        "an opening as of an older root writes nothing",
        """
        open_older_file a > open
        get 1 > there true
        put 2 > Ok(1)
        sync > Err(DeviceFault)
        """,
        store(),
        same(store()),
    ),
]
