/* Loaded ahead of the C library: kills the program (`SIGKILL`) at one of its page writes and flushes. They are counted from 1, each page of a `pwrite` and
   each `fsync` or `fdatasync`, so a write of several pages may be cut off behind any of them.

   KILL=N       at the N-th
   AHEAD=1      just ahead of it; else just behind it
   KEPT=BITS    of the pages that were written since the last flush those whose bit is 0 are lost, as a device may lose them: the file has there what it had
                at that flush. The bits stand in the order of the writes; a page without one is kept */
#define _GNU_SOURCE
#include <signal.h>
#include <stdlib.h>
#include <string.h>
#include <sys/syscall.h>
#include <unistd.h>

#define PAGE 4096

/* A page that was written since the last flush: where, what was there, and what is there now. */
struct written {
    int file;
    size_t length;
    off_t offset;
    char before[PAGE], after[PAGE];
};

static struct written *unflushed;
static size_t count;
static long made;

static long setting(const char *name) {
    const char *text = getenv(name);
    return text ? atol(text) : 0;
}

static void put(const struct written *page, const char *bytes) {
    if (syscall(SYS_pwrite64, page->file, bytes, page->length, page->offset) != (ssize_t)page->length) {
        abort();
    }
}

/* Takes all back that was written since the last flush, writes what is kept once more, and ends the program. */
static void end(void) {
    const char *kept = getenv("KEPT");
    size_t bits = kept ? strlen(kept) : 0;
    for (size_t i = count; i-- > 0;) {
        put(&unflushed[i], unflushed[i].before);
    }
    for (size_t i = 0; i < count; i++) {
        if (i >= bits || kept[i] == '1') {
            put(&unflushed[i], unflushed[i].after);
        }
    }
    kill(getpid(), SIGKILL);
    pause();
}

static void go_ahead(void) {
    if (setting("AHEAD") && made + 1 == setting("KILL")) {
        end();
    }
}

static void have_made_one(void) {
    made++;
    if (!setting("AHEAD") && made == setting("KILL")) {
        end();
    }
}

/* Notes what is at a place, and what comes there. */
static void note(int file, const char *bytes, size_t length, off_t offset) {
    struct written *more = realloc(unflushed, (count + 1) * sizeof *more);
    if (!more || syscall(SYS_pread64, file, more[count].before, length, offset) != (ssize_t)length) {
        abort();
    }
    unflushed = more;
    unflushed[count].file = file;
    unflushed[count].length = length;
    unflushed[count].offset = offset;
    memcpy(unflushed[count].after, bytes, length);
    count++;
}

ssize_t pwrite(int file, const void *bytes, size_t length, off_t offset) {
    size_t done = 0;
    while (done < length) {
        size_t part = length - done < PAGE ? length - done : PAGE;
        const char *page = (const char *)bytes + done;
        go_ahead();
        note(file, page, part, offset + done);
        put(&unflushed[count - 1], page);
        have_made_one();
        done += part;
    }
    return done;
}

ssize_t pwrite64(int file, const void *bytes, size_t length, off_t offset) { return pwrite(file, bytes, length, offset); }

static int flush(int file, long call) {
    go_ahead();
    int answer = syscall(call, file);
    count = 0;
    have_made_one();
    return answer;
}

int fsync(int file) { return flush(file, SYS_fsync); }

int fdatasync(int file) { return flush(file, SYS_fdatasync); }
