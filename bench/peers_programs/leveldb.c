#include "peer.h"
#include <leveldb/c.h>
#include <stdlib.h>

static leveldb_t *database;
static leveldb_writebatch_t *batch;
static leveldb_writeoptions_t *writing;
static leveldb_readoptions_t *reading;

const char *peer_settings(void) {
    return "WriteOptions.sync, a WriteBatch for each commit, verify_checksums and paranoid_checks on, no compression, "
           "a filter of 10 bits an identifier, other options by default (write buffer 4 MiB, block cache 8 MiB)";
}

static void need(char *error) {
    if (error) {
        fail("leveldb", error);
    }
}

void peer_open(const char *folder) {
    leveldb_options_t *options = leveldb_options_create();
    leveldb_options_set_create_if_missing(options, 1);
    leveldb_options_set_paranoid_checks(options, 1);
    leveldb_options_set_compression(options, leveldb_no_compression);
    leveldb_options_set_filter_policy(options, leveldb_filterpolicy_create_bloom(10));
    char *error = NULL;
    database = leveldb_open(options, folder, &error);
    need(error);
    leveldb_options_destroy(options);
    batch = leveldb_writebatch_create();
    writing = leveldb_writeoptions_create();
    leveldb_writeoptions_set_sync(writing, 1);
    reading = leveldb_readoptions_create();
    leveldb_readoptions_set_verify_checksums(reading, 1);
}

void peer_put(const void *id, const void *bytes, size_t length) {
    leveldb_writebatch_put(batch, id, ID, bytes, length);
}

void peer_commit(void) {
    char *error = NULL;
    leveldb_write(database, writing, batch, &error);
    need(error);
    leveldb_writebatch_clear(batch);
}

void peer_get(const void *id) {
    char *error = NULL;
    size_t length;
    char *bytes = leveldb_get(database, reading, id, ID, &length, &error);
    need(error);
    if (bytes) {
        got(bytes, length);
        leveldb_free(bytes);
    }
}

void peer_close(void) {
    leveldb_readoptions_destroy(reading);
    leveldb_writeoptions_destroy(writing);
    leveldb_writebatch_destroy(batch);
    leveldb_close(database);
}
