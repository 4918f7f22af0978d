/* Plays a trace on a peer: PROGRAM TRACE FOLDER. PROGRAM alone prints the settings.

   A trace is a list of records. The bytes of a put stand after its record. A get has to find the bytes that stand at
   its place: those of an earlier record, or those after its own. */
#include "peer.h"
#include <dlfcn.h>
#include <fcntl.h>
#include <stdint.h>
#include <stdio.h>
#include <stdlib.h>
#include <string.h>
#include <sys/mman.h>
#include <sys/stat.h>
#include <unistd.h>

/* `p` is a put, `g` a get, `c` a commit, `m` a mark. */
struct record {
    uint32_t kind, length;
    unsigned char id[ID];
    /* Where in the trace the bytes begin. */
    uint64_t place;
};

static const void *wanted;
static size_t wanted_length;
static int is_found;

void fail(const char *what, const char *why) {
    fprintf(stderr, "%s: %s\n", what, why ? why : "");
    exit(1);
}

void got(const void *bytes, size_t length) {
    if (length != wanted_length || memcmp(bytes, wanted, length) != 0) {
        fail("get", "other bytes than the trace has");
    }
    is_found = 1;
}

static void play(const char *text, const struct record *record, void (*mark)(void)) {
    switch (record->kind) {
    case 'p':
        peer_put(record->id, text + record->place, record->length);
        break;
    case 'g':
        wanted = text + record->place;
        wanted_length = record->length;
        is_found = 0;
        peer_get(record->id);
        if (!is_found) {
            fail("get", "nothing is there");
        }
        break;
    case 'c':
        peer_commit();
        break;
    case 'm':
        if (mark) {
            mark();
        }
        break;
    default:
        fail("trace", "a record of no kind");
    }
}

int main(int count, char **words) {
    if (count != 3) {
        puts(peer_settings());
        return 0;
    }
    int file = open(words[1], O_RDONLY);
    struct stat about;
    if (file < 0 || fstat(file, &about) != 0) {
        fail("trace", "can't be read");
    }
    const char *text = mmap(NULL, about.st_size, PROT_READ, MAP_PRIVATE | MAP_POPULATE, file, 0);
    if (text == MAP_FAILED) {
        fail("trace", "can't be mapped");
    }
    void (*mark)(void);
    *(void **)&mark = dlsym(RTLD_DEFAULT, "flushes_mark");
    peer_open(words[2]);
    for (uint64_t at = 0; at + sizeof(struct record) <= (uint64_t)about.st_size;) {
        struct record record;
        memcpy(&record, text + at, sizeof record);
        at += sizeof record;
        if (record.place == at) {
            at += record.length;
        }
        if (record.place + record.length > (uint64_t)about.st_size) {
            fail("trace", "it ends within a shard");
        }
        play(text, &record, mark);
    }
    peer_close();
    return 0;
}
