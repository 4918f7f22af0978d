/* Loaded before the C library: counts what a program writes to files and how often it flushes them, and makes each
   flush take longer.

   FLUSHES_REPORT=PATH   a file of sizeof(struct report) bytes, in which the counts stand at any time
   FLUSHES_MICROS=N      each flush between the two marks takes N microseconds more (default: 0)
   FLUSHES_ALWAYS=1      each flush takes more, also before the first mark and without marks
   FLUSHES_ABSENT=1      a line `absent` on standard output is a mark. Other programs call `flushes_mark`

   A flush is a call of fsync, fdatasync, syncfs or sync, msync with MS_SYNC, sync_file_range that waits, or a write to
   a descriptor opened with O_DSYNC or O_SYNC. A sync_file_range that only starts to write is counted by itself, and
   isn't slowed. What counts as written is each write to a regular file or a block device. An msync counts its whole
   range, since nothing says how much of it has changed. Bytes that the C library writes for itself, as by fprintf,
   aren't seen. Each write costs two system calls more, which ask what its descriptor is. */
#define _GNU_SOURCE
#include <fcntl.h>
#include <stdatomic.h>
#include <stdint.h>
#include <stdlib.h>
#include <string.h>
#include <sys/mman.h>
#include <sys/prctl.h>
#include <sys/resource.h>
#include <sys/stat.h>
#include <sys/syscall.h>
#include <sys/uio.h>
#include <time.h>
#include <unistd.h>

/* What a program did so far. The driver reads these numbers in this order. */
struct figures {
    uint64_t nanos, user_micros, system_micros;
    _Atomic uint64_t written, mapped, flushes, started;
};

/* The figures at the first mark, at the second mark, and now. Of the last one only the counts are kept up. */
struct report {
    _Atomic uint64_t marks;
    struct figures at[3];
};

static struct report unread, *report = &unread;
static long delay_micros;
static int absent_is_mark, is_always_slow;

static int is_set(const char *name) {
    const char *text = getenv(name);
    return text && *text == '1';
}

__attribute__((constructor)) static void begin(void) {
    const char *path = getenv("FLUSHES_REPORT"), *micros = getenv("FLUSHES_MICROS");
    delay_micros = micros ? atol(micros) : 0;
    absent_is_mark = is_set("FLUSHES_ABSENT");
    is_always_slow = is_set("FLUSHES_ALWAYS");
    if (path) {
        int file = syscall(SYS_openat, AT_FDCWD, path, O_RDWR | O_CLOEXEC);
        void *memory = mmap(NULL, sizeof unread, PROT_READ | PROT_WRITE, MAP_SHARED, file, 0);
        if (file < 0 || memory == MAP_FAILED) {
            abort();
        }
        report = memory;
        syscall(SYS_close, file);
    }
}

static uint64_t micros_of(struct timeval time) { return time.tv_sec * 1000000ull + time.tv_usec; }

/* Notes the time and the counts. */
void flushes_mark(void) {
    uint64_t number = report->marks;
    if (number > 1) {
        return;
    }
    struct figures *mark = &report->at[number], *now = &report->at[2];
    mark->written = now->written;
    mark->mapped = now->mapped;
    mark->flushes = now->flushes;
    mark->started = now->started;
    struct rusage used;
    getrusage(RUSAGE_SELF, &used);
    mark->user_micros = micros_of(used.ru_utime);
    mark->system_micros = micros_of(used.ru_stime);
    struct timespec time;
    clock_gettime(CLOCK_MONOTONIC, &time);
    mark->nanos = time.tv_sec * 1000000000ull + time.tv_nsec;
    report->marks = number + 1;
}

static void count_flush(void) {
    report->at[2].flushes++;
    if (delay_micros > 0 && (is_always_slow || report->marks == 1)) {
        struct timespec time = {delay_micros / 1000000, delay_micros % 1000000 * 1000};
        prctl(PR_SET_TIMERSLACK, 1000);
        clock_nanosleep(CLOCK_MONOTONIC, 0, &time, NULL);
    }
}

/* Whether writes to this descriptor count. */
static int is_counted(int file) {
    struct stat about;
    return file > 2 && fstat(file, &about) == 0 && (S_ISREG(about.st_mode) || S_ISBLK(about.st_mode));
}

/* Counts a write after it was done. */
static ssize_t after_write(int file, ssize_t answer, int is_synced) {
    if (answer > 0 && is_counted(file)) {
        report->at[2].written += answer;
        if (is_synced || (syscall(SYS_fcntl, file, F_GETFL) & O_DSYNC)) {
            count_flush();
        }
    }
    return answer;
}

ssize_t write(int file, const void *bytes, size_t length) {
    ssize_t answer = syscall(SYS_write, file, bytes, length);
    if (absent_is_mark && file == 1 && length >= 6 && memcmp(bytes, "absent", 6) == 0) {
        flushes_mark();
    }
    return after_write(file, answer, 0);
}

ssize_t pwrite(int file, const void *bytes, size_t length, off_t offset) {
    return after_write(file, syscall(SYS_pwrite64, file, bytes, length, offset), 0);
}

ssize_t pwrite64(int file, const void *bytes, size_t length, off_t offset) {
    return pwrite(file, bytes, length, offset);
}

ssize_t writev(int file, const struct iovec *pieces, int count) {
    return after_write(file, syscall(SYS_writev, file, pieces, count), 0);
}

ssize_t pwritev2(int file, const struct iovec *pieces, int count, off_t offset, int flags) {
    ssize_t answer = syscall(SYS_pwritev2, file, pieces, count, (long)offset, (long)0, flags);
    return after_write(file, answer, flags & (RWF_DSYNC | RWF_SYNC));
}

ssize_t pwritev64v2(int file, const struct iovec *pieces, int count, off_t offset, int flags) {
    return pwritev2(file, pieces, count, offset, flags);
}

ssize_t pwritev(int file, const struct iovec *pieces, int count, off_t offset) {
    return after_write(file, syscall(SYS_pwritev, file, pieces, count, (long)offset, (long)0), 0);
}

ssize_t pwritev64(int file, const struct iovec *pieces, int count, off_t offset) {
    return pwritev(file, pieces, count, offset);
}

static int flush(int file, long call) {
    int answer = syscall(call, file);
    count_flush();
    return answer;
}

int fsync(int file) { return flush(file, SYS_fsync); }

int fdatasync(int file) { return flush(file, SYS_fdatasync); }

int syncfs(int file) { return flush(file, SYS_syncfs); }

void sync(void) {
    syscall(SYS_sync);
    count_flush();
}

int msync(void *address, size_t length, int flags) {
    int answer = syscall(SYS_msync, address, length, flags);
    if (flags & MS_SYNC) {
        report->at[2].mapped += length;
        count_flush();
    }
    return answer;
}

int sync_file_range(int file, off64_t offset, off64_t length, unsigned flags) {
    int answer = syscall(SYS_sync_file_range, file, offset, length, flags);
    if (flags & (SYNC_FILE_RANGE_WAIT_BEFORE | SYNC_FILE_RANGE_WAIT_AFTER)) {
        count_flush();
    } else {
        report->at[2].started++;
    }
    return answer;
}
