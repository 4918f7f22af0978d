"""The looks of `trials/file_faults` at disks in files: at the modules `file`, `ahead` and `unflushed` of cs_disk."""
import fcntl
import os

from file_looks import PAGE, Look, all_of, blocks, files, hold, locked, loop, may_loop, mode, pages

ZEROS = bytes(PAGE)
EIGHT = pages(8)
LARGE = 262_145


def sub_folder(folder):
    os.mkdir(f"{folder}/sub")


def is_sparse(folder):
    return not blocks("a", LARGE * PAGE // 2)(folder)


LOOKS = [
    # Openings: what they are opened for, and how they are locked.
    Look(
        "an opening to write locks the file before it looks at it, and writes nothing",
        """
        open_for a write > open 8 > open a rw, lock a
        close > closed > close a
        open a > open 8 > open a rw, lock a
        open_device a write > System(InUse) > open a rw, lock a EAGAIN, close a
        """,
        files(a=EIGHT),
        hold(a=EIGHT),
    ),
    Look(
        "an opening to read can't write, and shares the file",
        """
        open_for a read > open 8 > open a r, share a
        read 7 > bytes 8 8 > read a 7+1
        write 7 1 > Err(DeviceFault) > -
        last_fault > Some(ReadOnly)
        failures > failures 1
        flush > Ok(()) > -
        read 7 > bytes 8 8
        """,
        files(a=EIGHT),
        hold(a=EIGHT),
    ),
    Look("an opening without a lock asks for none", "open_for a unlocked > open 8 > open a r\nwrite 0 1 > Err(DeviceFault)", files(a=EIGHT), hold(a=EIGHT)),
    Look(
        "a file that isn't there isn't made",
        """
        open_for a write > System(NotThere) > open a rw ENOENT
        open_for a read > System(NotThere)
        open a > DeviceFault
        open_device a write > System(NotThere) > open a rw ENOENT
        """,
        after=hold(a=None),
    ),
    Look("what is no file isn't opened", "open_for . read > System(Folder)\nopen_for . write > System(Folder)\nopen . > DeviceFault"),
    Look(
        "a file has as many pages as its length",
        """
        open_for a read > OddLength
        open a > OddLength
        open_device a write > open 2 > open a rw, lock a
        read 1 > bytes 2 2
        write 1 2 > Ok(())
        close > closed
        open_device a read > open 2 > open a r, share a
        read 1 > bytes 2 2
        write 1 2 > Err(DeviceFault)
        close > closed
        open_for b write > open 0
        """,
        files(a=pages(3)[: 2 * PAGE + 100], b=b""),
        hold(a=pages(3)[: 2 * PAGE + 100], b=b""),
    ),
    Look(
        "nobody opens a file that is locked",
        """
        open_for a write > System(InUse) > open a rw, lock a EAGAIN, close a
        open_for a read > System(InUse) > open a r, share a EAGAIN, close a
        open a > DeviceFault
        open_device a write > System(InUse)
        create a 2 > DeviceFault
        create_new a 2 > System(InUse)
        open_for a unlocked > open 8
        """,
        files(a=EIGHT),
        hold(a=EIGHT),
        around=locked("a", fcntl.LOCK_EX),
    ),
    Look(
        "readers share a file, and nobody writes it meanwhile",
        """
        open_for a write > System(InUse)
        open_for a read > open 8
        open_for a read > open 8
        create a 2 > DeviceFault
        """,
        files(a=EIGHT),
        hold(a=EIGHT),
        around=locked("a", fcntl.LOCK_SH),
    ),
    Look(
        "an empty file that another process has isn't taken",
        "create_new b 2 > System(InUse)",
        files(b=b""),
        hold(b=b""),
        around=locked("b", fcntl.LOCK_EX),
    ),
    Look(
        "the first pages alone are read, and as far as they go ahead",
        """
        open_for a write > open 8
        first_pages 4 > pages 4
        read 0 > bytes 1 1 > read a 0+1
        read 1 > bytes 2 2 > read a 1+2
        read 2 > bytes 3 3 > -
        read 3 > bytes 4 4 > read a 3+1
        """,
        files(a=EIGHT),
        hold(a=EIGHT),
    ),
    # Reads.
    Look(
        "pages one after another are read ahead, each once",
        """
        open_for a read > open 200
        read 9 > bytes 10 10 > read a 9+1
        read 10 > bytes 11 11 > read a 10+2
        read 11 > bytes 12 12 > -
        read 12 > bytes 13 13 > read a 12+4
        read 13 > bytes 14 14 > -
        read 14 > bytes 15 15 > -
        read 15 > bytes 16 16 > -
        read 16 > bytes 17 17 > read a 16+8
        read 3 > bytes 4 4 > read a 3+1
        read 4 > bytes 5 5 > read a 4+2
        read 199 > bytes 200 200 > read a 199+1
        """,
        files(a=pages(200)),
        hold(a=pages(200)),
    ),
    Look(
        "what the file doesn't give isn't read",
        """
        open_for a write > open 8
        read 0 > bytes 1 1
        read 1 > bytes 2 2
        cut a 16384 > true
        read 2 > bytes 3 3 > -
        read 3 > bytes 4 4 > read a 3+4
        read 4 > DeviceFault
        last_fault > Some(Failed)
        failures > failures 1
        read 1 > bytes 2 2
        """,
        files(a=EIGHT),
    ),
    Look(
        "a read that the device refuses is refused, and counted",
        """
        open_for a read > open 8
        read 4 > bytes 5 5
        read 5 > DeviceFault
        last_fault > Some(Failed)
        failures > failures 1
        read 6 > bytes 7 7
        """,
        files(a=EIGHT),
        unread=5,
    ),
    # Writes and flushes.
    Look(
        "what is written waits for the flush, which writes the last of each page in order and syncs then",
        """
        open_for a write > open 8
        write 5 50 > Ok(()) > -
        write 1 10 > Ok(()) > -
        write 2 20 > Ok(()) > -
        write 5 55 > Ok(()) > -
        read 5 > bytes 55 55 > -
        read 1 > bytes 10 10 > -
        read 0 > bytes 1 1 > read a 0+1
        flush > Ok(()) > write a 1+2, write a 5+1, data a
        read 5 > bytes 55 55 > read a 5+1
        flush > Ok(()) > data a
        """,
        files(a=EIGHT),
        hold(a=EIGHT[:PAGE] + bytes([10]) * PAGE + bytes([20]) * PAGE + EIGHT[3 * PAGE : 5 * PAGE] + bytes([55]) * PAGE + EIGHT[6 * PAGE :]),
    ),
    Look(
        "what was read ahead is forgotten at a flush",
        """
        open_for a write > open 8
        read 0 > bytes 1 1
        read 1 > bytes 2 2 > read a 1+2
        write 2 30 > Ok(())
        flush > Ok(())
        read 2 > bytes 30 30 > read a 2+1
        """,
        files(a=EIGHT),
    ),
    Look("what isn't flushed isn't there", "open_for a write > open 8\nwrite 1 9 > Ok(())\nclose > closed > close a", files(a=EIGHT), hold(a=EIGHT)),
    Look(
        "a crash of a file can't be tried",
        "open_for a write > open 8\nwrite 1 9 > Ok(())\nvolatile > false 0\ncrash > crashed\nread 1 > bytes 9 9",
        files(a=EIGHT),
        hold(a=EIGHT),
    ),
    Look(
        "where the sync is refused the flush is, and the next one writes all again",
        """
        open_for a write > open 8
        write 1 10 > Ok(())
        flush > Err(DeviceFault) > write a 1+1, data a EIO
        last_fault > Some(Failed)
        failures > failures 1
        read 1 > bytes 10 10 > -
        flush > Ok(()) > write a 1+1, data a
        flush > Ok(()) > data a
        """,
        files(a=EIGHT),
        inject=["fdatasync:error=EIO:when=1"],
    ),
    Look(
        "where a write is refused the flush is, and nothing is synced",
        """
        open_for a write > open 8
        write 1 10 > Ok(())
        write 5 50 > Ok(())
        flush > Err(DeviceFault) > write a 1+1 ENOSPC
        last_fault > Some(NoRoom)
        flush > Ok(()) > write a 1+1, write a 5+1, data a
        """,
        files(a=EIGHT),
        hold(a=EIGHT[:PAGE] + bytes([10]) * PAGE + EIGHT[2 * PAGE : 5 * PAGE] + bytes([50]) * PAGE + EIGHT[6 * PAGE :]),
        inject=["pwrite64:error=ENOSPC:when=1"],
    ),
    # New files.
    Look(
        "a file is emptied once it is locked, filled, and synced with its folder",
        """
        create a 18 > open 18 > open a rw create, lock a, cut a 0, write a 0+16, write a 16+1, write a 17+1, sync a, open . r, sync ., close .
        open a > DeviceFault
        close > closed > close a
        open a > open 18
        """,
        files(a=pages(20)),
        all_of(hold(a=ZEROS * 18), blocks("a", 18 * PAGE)),
    ),
    Look(
        "a new file is one that wasn't there, locked before it is filled",
        """
        create_new a 18 > open 18 > open a rw create new, lock a, write a 0+16, write a 16+1, write a 17+1, sync a, open . r, sync ., close .
        open a > DeviceFault
        """,
        after=all_of(hold(a=ZEROS * 18), mode("a", 0o640), blocks("a", 18 * PAGE)),
    ),
    Look(
        "an empty file is taken, its permissions stay, and nothing else is lost",
        """
        create_new b 1 > open 1 > open b rw create new EEXIST, open b rw, lock b, write b 0+1, sync b, open . r, sync ., close .
        create_new a 1 > NotEmpty > open a rw create new EEXIST, open a rw, lock a, close a
        create_new . 1 > System(Folder)
        create_new /dev/null 1 > NotEmpty
        create_new sub/c 1 > System(NotThere)
        """,
        files(a=EIGHT, b=b""),
        all_of(hold(a=EIGHT, b=ZEROS), mode("b", 0o600)),
    ),
    Look("the folder of a file is synced", "create sub/a 1 > open 1 > open sub/a rw create, lock sub/a, cut sub/a 0, write sub/a 0+1, sync sub/a, open sub r, sync sub, close sub", sub_folder),
    Look("a file that has no room is left empty", "create_new a 4 > System(NoRoom)\nopen_for a read > open 0", after=hold(a=b""), most=2 * PAGE),
    Look("a file that can't be synced isn't made", "create_new a 1 > System(Failed)\ncreate b 1 > open 1", inject=["fsync:error=EIO:when=1"]),
    Look("a folder that can't be synced makes no file", "create a 1 > DeviceFault\ncreate_new b 1 > open 1", inject=["fsync:error=EIO:when=2"]),
    Look("a file above a gibibyte gets its length alone", f"create_new a {LARGE} > open {LARGE} > open a rw create new, lock a, cut a {LARGE * PAGE}, sync a, open . r, sync ., close .", after=is_sparse),
    Look("no file has more pages than there are bytes", "create_new a 1152921504606846976 > System(NoRoom) > -\ncreate a 1152921504606846976 > DeviceFault > -", after=hold(a=None)),
    # Block devices.
    Look(
        "a block device has as many whole pages as it has, and its size stays",
        """
        open_device $DEVICE write > open 5 > open $DEVICE rw, lock $DEVICE, seek $DEVICE
        write 4 9 > Ok(())
        flush > Ok(()) > write $DEVICE 4+1, data $DEVICE
        close > closed
        open_for $DEVICE read > open 5
        read 4 > bytes 9 9
        """,
        around=loop(5 * PAGE + 512),
        needs=may_loop,
    ),
]
