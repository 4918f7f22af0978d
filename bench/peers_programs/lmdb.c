#include "peer.h"
#include <lmdb.h>
#include <sys/stat.h>

static MDB_env *environment;
static MDB_dbi database;
/* The transaction of the batch, or none before its first put. */
static MDB_txn *batch;
/* One transaction for all gets, renewed for each. */
static MDB_txn *reading;

const char *peer_settings(void) {
    return "the default sync (fdatasync, and a page written with O_DSYNC), a transaction for each commit and for each "
           "get. LMDB has no checksums";
}

static void need(int status) {
    if (status) {
        fail("lmdb", mdb_strerror(status));
    }
}

void peer_open(const char *folder) {
    mkdir(folder, 0700);
    need(mdb_env_create(&environment));
    need(mdb_env_set_mapsize(environment, (size_t)1 << 30));
    need(mdb_env_open(environment, folder, 0, 0600));
    MDB_txn *first;
    need(mdb_txn_begin(environment, NULL, 0, &first));
    need(mdb_dbi_open(first, NULL, 0, &database));
    need(mdb_txn_commit(first));
    need(mdb_txn_begin(environment, NULL, MDB_RDONLY, &reading));
    mdb_txn_reset(reading);
}

void peer_put(const void *id, const void *bytes, size_t length) {
    if (!batch) {
        need(mdb_txn_begin(environment, NULL, 0, &batch));
    }
    MDB_val key = {ID, (void *)id}, value = {length, (void *)bytes};
    need(mdb_put(batch, database, &key, &value, 0));
}

void peer_commit(void) {
    need(mdb_txn_commit(batch));
    batch = NULL;
}

void peer_get(const void *id) {
    need(mdb_txn_renew(reading));
    MDB_val key = {ID, (void *)id}, value;
    int status = mdb_get(reading, database, &key, &value);
    if (status != MDB_NOTFOUND) {
        need(status);
        got(value.mv_data, value.mv_size);
    }
    mdb_txn_reset(reading);
}

void peer_close(void) {
    mdb_txn_abort(reading);
    mdb_env_close(environment);
}
