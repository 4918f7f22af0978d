#include "peer.h"
#include <rocksdb/c.h>

static rocksdb_t *database;
static rocksdb_writebatch_t *batch;
static rocksdb_writeoptions_t *writing;
static rocksdb_readoptions_t *reading;

const char *peer_settings(void) {
    return "WriteOptions.sync, a WriteBatch for each commit, verify_checksums and paranoid_checks on, no compression, "
           "a filter of 10 bits an identifier, other options by default (write buffer 64 MiB, block cache 8 MiB)";
}

static void need(char *error) {
    if (error) {
        fail("rocksdb", error);
    }
}

void peer_open(const char *folder) {
    rocksdb_options_t *options = rocksdb_options_create();
    rocksdb_options_set_create_if_missing(options, 1);
    rocksdb_options_set_paranoid_checks(options, 1);
    rocksdb_options_set_compression(options, rocksdb_no_compression);
    rocksdb_block_based_table_options_t *tables = rocksdb_block_based_options_create();
    rocksdb_block_based_options_set_filter_policy(tables, rocksdb_filterpolicy_create_bloom_full(10));
    rocksdb_options_set_block_based_table_factory(options, tables);
    char *error = NULL;
    database = rocksdb_open(options, folder, &error);
    need(error);
    rocksdb_block_based_options_destroy(tables);
    rocksdb_options_destroy(options);
    batch = rocksdb_writebatch_create();
    writing = rocksdb_writeoptions_create();
    rocksdb_writeoptions_set_sync(writing, 1);
    reading = rocksdb_readoptions_create();
    rocksdb_readoptions_set_verify_checksums(reading, 1);
}

void peer_put(const void *id, const void *bytes, size_t length) {
    rocksdb_writebatch_put(batch, id, ID, bytes, length);
}

void peer_commit(void) {
    char *error = NULL;
    rocksdb_write(database, writing, batch, &error);
    need(error);
    rocksdb_writebatch_clear(batch);
}

void peer_get(const void *id) {
    char *error = NULL;
    rocksdb_pinnableslice_t *slice = rocksdb_get_pinned(database, reading, id, ID, &error);
    need(error);
    if (slice) {
        size_t length;
        const char *bytes = rocksdb_pinnableslice_value(slice, &length);
        got(bytes, length);
        rocksdb_pinnableslice_destroy(slice);
    }
}

void peer_close(void) {
    rocksdb_readoptions_destroy(reading);
    rocksdb_writeoptions_destroy(writing);
    rocksdb_writebatch_destroy(batch);
    rocksdb_close(database);
}
