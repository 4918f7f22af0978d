/* Loaded ahead of the C library: notes in the file LOG, in their order, each page that the program writes to a file (`W`, its offset as eight bytes, the
   lowest first, and its 4,096 bytes), each flush (`F`), and what it prints on standard output (`P`, its length in the same way, and its bytes). A piece of
   a page counts as a page with what is around it. */
#define _GNU_SOURCE
#include <fcntl.h>
#include <stdint.h>
#include <stdlib.h>
#include <string.h>
#include <sys/syscall.h>
#include <unistd.h>

#define PAGE 4096

static int notes = -1;

static void note(const void *bytes, size_t length) {
    if (notes < 0) {
        notes = syscall(SYS_openat, AT_FDCWD, getenv("LOG"), O_WRONLY | O_CREAT | O_APPEND, 0644);
    }
    if (syscall(SYS_write, notes, bytes, length) != (ssize_t)length) {
        abort();
    }
}

static void note_number(char kind, uint64_t number) {
    note(&kind, 1);
    note(&number, sizeof number);
}

ssize_t pwrite(int file, const void *bytes, size_t length, off_t offset) {
    ssize_t answer = syscall(SYS_pwrite64, file, bytes, length, offset);
    if (answer > 0) {
        for (off_t page = offset / PAGE; page * PAGE < offset + answer; page++) {
            char whole[PAGE];
            if (syscall(SYS_pread64, file, whole, PAGE, page * PAGE) != PAGE) {
                abort();
            }
            note_number('W', page * PAGE);
            note(whole, PAGE);
        }
    }
    return answer;
}

ssize_t pwrite64(int file, const void *bytes, size_t length, off_t offset) { return pwrite(file, bytes, length, offset); }

ssize_t write(int file, const void *bytes, size_t length) {
    ssize_t answer = syscall(SYS_write, file, bytes, length);
    if (file == 1 && answer > 0) {
        note_number('P', answer);
        note(bytes, answer);
    }
    return answer;
}

static int flush(int file, long call) {
    int answer = syscall(call, file);
    note("F", 1);
    return answer;
}

int fsync(int file) { return flush(file, SYS_fsync); }

int fdatasync(int file) { return flush(file, SYS_fdatasync); }
