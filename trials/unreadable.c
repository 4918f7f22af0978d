/* Loaded ahead of the C library: a page of a file can't be read. Each read of any of the 4,096 bytes from UNREADABLE on fails with EIO, and nothing is read. */
#define _GNU_SOURCE
#include <errno.h>
#include <stdlib.h>
#include <sys/syscall.h>
#include <sys/uio.h>
#include <unistd.h>

#define PAGE 4096

static int is_hit(off_t offset, size_t length) {
    const char *text = getenv("UNREADABLE");
    off_t at = text ? atoll(text) : -PAGE;
    if (text && offset < at + PAGE && at < offset + (off_t)length) {
        errno = EIO;
        return 1;
    }
    return 0;
}

ssize_t pread(int file, void *bytes, size_t length, off_t offset) {
    return is_hit(offset, length) ? -1 : syscall(SYS_pread64, file, bytes, length, offset);
}

ssize_t pread64(int file, void *bytes, size_t length, off_t offset) { return pread(file, bytes, length, offset); }
