/* Loaded ahead of the C library: plays a disk of which some pages fail. LIST has numbers of pages of the file EIO_FILE,
   as in `3,7-9`, counted from 0.

   EIO_FILE=PATH     the file; calls on other files are as ever
   EIO_READ=LIST     these pages can't be read
   EIO_WRITE=LIST    these pages can't be written
   EIO_FLUSH=LIST    these pages can be written, and the next flush fails. The flush after it succeeds, as of the system
   EIO_AFTER=N       each page does well N times before it fails (default: 0)
   EIO_TIMES=N       each page fails N times, and does well from then on (default: it fails always)
   EIO_HEALS=1       a page that was written can be read from then on
   EIO_LOG=PATH      notes each page that failed, as `read 3`, `write 3` or `flush 3`, each page that was written, as
                     `written 3`, and each flush, as `flushed`

   Each page fails, and is counted, on its own. A call over several pages does those before the first one that fails, and
   returns how many bytes these are. If it is the very first page the call fails with EIO. */
#define _GNU_SOURCE
#include <errno.h>
#include <fcntl.h>
#include <stdatomic.h>
#include <stdio.h>
#include <stdlib.h>
#include <string.h>
#include <sys/stat.h>
#include <sys/syscall.h>
#include <sys/uio.h>
#include <unistd.h>

#define PAGE 4096

enum kind { READ, WRITE, FLUSH, KINDS };

static const char *const lists[KINDS] = {"EIO_READ", "EIO_WRITE", "EIO_FLUSH"};
static const char *const names[KINDS] = {"read", "write", "flush"};

/* A page that may be listed: how often it was asked for, and whether it was written. Pages from `pages` on aren't. */
struct page {
    char is_listed[KINDS], is_dirty, is_healed;
    long asked[KINDS];
};

static struct page *table;
static off_t pages;
static long after, times;
static int heals, notes = -1;
static atomic_flag lock = ATOMIC_FLAG_INIT;

static long setting(const char *name, long otherwise) {
    const char *text = getenv(name);
    return text ? atol(text) : otherwise;
}

/* Goes over a list, and marks its pages; without a table it only finds the greatest one. */
static void mark(enum kind kind) {
    const char *text = getenv(lists[kind]);
    while (text && *text) {
        char *rest;
        long first = strtol(text, &rest, 10), last = first;
        if (rest == text) {
            abort();
        }
        if (*rest == '-') {
            last = strtol(rest + 1, &rest, 10);
        }
        for (long page = first; table && page <= last; page++) {
            table[page].is_listed[kind] = 1;
        }
        if (!table && last >= pages) {
            pages = last + 1;
        }
        text = *rest == ',' ? rest + 1 : rest;
    }
}

static void begin(void) {
    static int has_begun;
    if (has_begun) {
        return;
    }
    has_begun = 1;
    after = setting("EIO_AFTER", 0);
    times = setting("EIO_TIMES", -1);
    heals = setting("EIO_HEALS", 0) != 0;
    for (enum kind kind = READ; kind < KINDS; kind++) {
        mark(kind);
    }
    table = calloc(pages + 1, sizeof *table);
    if (!table) {
        abort();
    }
    for (enum kind kind = READ; kind < KINDS; kind++) {
        mark(kind);
    }
    const char *log = getenv("EIO_LOG");
    if (log) {
        notes = syscall(SYS_openat, AT_FDCWD, log, O_WRONLY | O_CREAT | O_APPEND | O_CLOEXEC, 0644);
    }
}

static void note(const char *what, long page) {
    char text[48];
    int length = page < 0 ? snprintf(text, sizeof text, "%s\n", what) : snprintf(text, sizeof text, "%s %ld\n", what, page);
    if (notes >= 0 && syscall(SYS_write, notes, text, length) != length) {
        abort();
    }
}

/* Whether a call is on the file. Its descriptor may be any, also one that was closed and opened anew. */
static int is_it(int file) {
    const char *path = getenv("EIO_FILE");
    struct stat here, there;
    return path && fstat(file, &here) == 0 && stat(path, &there) == 0 && here.st_dev == there.st_dev && here.st_ino == there.st_ino;
}

/* Whether a page fails as it is asked for now. */
static int fails(enum kind kind, off_t page) {
    if (page >= pages || !table[page].is_listed[kind] || (kind == READ && heals && table[page].is_healed)) {
        return 0;
    }
    long asked = table[page].asked[kind]++;
    if (asked < after || (times >= 0 && asked >= after + times)) {
        return 0;
    }
    note(names[kind], page);
    return 1;
}

/* How many of these bytes come ahead of the first page that fails. */
static size_t before_fault(enum kind kind, size_t length, off_t offset) {
    for (off_t page = offset / PAGE; page * PAGE < offset + (off_t)length; page++) {
        if (fails(kind, page)) {
            return page * PAGE > offset ? page * PAGE - offset : 0;
        }
    }
    return length;
}

static void written(ssize_t length, off_t offset) {
    for (off_t page = offset / PAGE; page * PAGE < offset + length; page++) {
        note("written", page);
        if (page < pages) {
            table[page].is_dirty = table[page].is_healed = 1;
        }
    }
}

static void enter(void) {
    while (atomic_flag_test_and_set(&lock)) {
    }
    begin();
}

static void leave(void) { atomic_flag_clear(&lock); }

/* How much of a call on the file may be done: `length`, less, or none, which is EIO. */
static size_t allowed(enum kind kind, size_t length, off_t offset) {
    enter();
    size_t part = before_fault(kind, length, offset);
    leave();
    return part;
}

static ssize_t fault(void) {
    errno = EIO;
    return -1;
}

ssize_t pread(int file, void *bytes, size_t length, off_t offset) {
    size_t part = is_it(file) ? allowed(READ, length, offset) : length;
    return length && !part ? fault() : syscall(SYS_pread64, file, bytes, part, offset);
}

ssize_t pread64(int file, void *bytes, size_t length, off_t offset) { return pread(file, bytes, length, offset); }

ssize_t read(int file, void *bytes, size_t length) {
    if (!is_it(file)) {
        return syscall(SYS_read, file, bytes, length);
    }
    size_t part = allowed(READ, length, lseek(file, 0, SEEK_CUR));
    return length && !part ? fault() : syscall(SYS_read, file, bytes, part);
}

ssize_t pwrite(int file, const void *bytes, size_t length, off_t offset) {
    if (!is_it(file)) {
        return syscall(SYS_pwrite64, file, bytes, length, offset);
    }
    size_t part = allowed(WRITE, length, offset);
    if (length && !part) {
        return fault();
    }
    ssize_t answer = syscall(SYS_pwrite64, file, bytes, part, offset);
    enter();
    written(answer, offset);
    leave();
    return answer;
}

ssize_t pwrite64(int file, const void *bytes, size_t length, off_t offset) { return pwrite(file, bytes, length, offset); }

ssize_t write(int file, const void *bytes, size_t length) {
    if (!is_it(file)) {
        return syscall(SYS_write, file, bytes, length);
    }
    ssize_t answer = pwrite(file, bytes, length, lseek(file, 0, SEEK_CUR));
    if (answer > 0) {
        lseek(file, answer, SEEK_CUR);
    }
    return answer;
}

static int flush(int file, long call) {
    if (!is_it(file)) {
        return syscall(call, file);
    }
    enter();
    int is_lost = 0;
    for (off_t page = 0; page < pages; page++) {
        is_lost |= table[page].is_dirty && fails(FLUSH, page);
        table[page].is_dirty = 0;
    }
    if (!is_lost) {
        note("flushed", -1);
    }
    leave();
    int answer = syscall(call, file);
    return is_lost ? fault() : answer;
}

int fsync(int file) { return flush(file, SYS_fsync); }

int fdatasync(int file) { return flush(file, SYS_fdatasync); }
