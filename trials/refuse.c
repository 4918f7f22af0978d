/* Loaded ahead of the C library: refuses one request for memory, by malloc, calloc, realloc or an aligned form. Each of them counts, also a realloc that
   makes a block smaller.

   REFUSE=N              the N-th request of the program, from 1
   REFUSE=N CALL=K       the N-th request within its K-th call: a program that marks its calls writes `[` by itself to standard output ahead of
                         each, and `]` behind it
   COUNTS=FD             tells on this descriptor, as each marked call ends, how many requests it made

   What was refused is told on standard error. */
#define _GNU_SOURCE
#include <errno.h>
#include <stdatomic.h>
#include <stdint.h>
#include <stdlib.h>
#include <string.h>
#include <sys/syscall.h>
#include <unistd.h>

/* Of glibc: what the functions of these names do, whoever stands in for them. */
void *__libc_malloc(size_t);
void *__libc_calloc(size_t, size_t);
void *__libc_realloc(void *, size_t);
void *__libc_memalign(size_t, size_t);

static atomic_long requests, requests_in_call, calls;
static atomic_int is_in_call;

static long setting(const char *name, long otherwise) {
    const char *text = getenv(name);
    return text ? atol(text) : otherwise;
}

static void say(int where, const char *text, size_t length) {
    (void)!syscall(SYS_write, where, text, length);
}

static int is_refused(void) {
    static long number = -1, call;
    if (number < 0) {
        call = setting("CALL", 0);
        number = setting("REFUSE", 0);
    }
    long here = atomic_fetch_add(&requests, 1) + 1;
    long in_call = is_in_call ? atomic_fetch_add(&requests_in_call, 1) + 1 : 0;
    int is_it = call ? in_call == number && calls == call : here == number;
    if (number && is_it) {
        say(2, "refused\n", 8);
        errno = ENOMEM;
        return 1;
    }
    return 0;
}

static void tell_count(long count) {
    static int where = -2;
    if (where == -2) {
        where = setting("COUNTS", -1);
    }
    if (where < 0) {
        return;
    }
    char text[24];
    int at = sizeof text;
    text[--at] = '\n';
    do {
        text[--at] = '0' + count % 10;
        count /= 10;
    } while (count);
    say(where, text + at, sizeof text - at);
}

ssize_t write(int where, const void *bytes, size_t length) {
    int is_mark = where == 1 && length == 1;
    if (is_mark && *(const char *)bytes == ']') {
        is_in_call = 0;
        tell_count(requests_in_call);
    }
    ssize_t written = syscall(SYS_write, where, bytes, length);
    if (is_mark && *(const char *)bytes == '[') {
        requests_in_call = 0;
        calls++;
        is_in_call = 1;
    }
    return written;
}

void *malloc(size_t size) { return is_refused() ? NULL : __libc_malloc(size); }

void *calloc(size_t count, size_t size) { return is_refused() ? NULL : __libc_calloc(count, size); }

void *realloc(void *block, size_t size) { return is_refused() ? NULL : __libc_realloc(block, size); }

void *reallocarray(void *block, size_t count, size_t size) {
    size_t whole;
    if (__builtin_mul_overflow(count, size, &whole)) {
        errno = ENOMEM;
        return NULL;
    }
    return realloc(block, whole);
}

void *memalign(size_t alignment, size_t size) { return is_refused() ? NULL : __libc_memalign(alignment, size); }

void *aligned_alloc(size_t alignment, size_t size) { return memalign(alignment, size); }

void *valloc(size_t size) { return memalign(sysconf(_SC_PAGESIZE), size); }

int posix_memalign(void **block, size_t alignment, size_t size) {
    if (alignment % sizeof(void *) || (alignment & (alignment - 1))) {
        return EINVAL;
    }
    *block = memalign(alignment, size);
    return *block ? 0 : ENOMEM;
}
