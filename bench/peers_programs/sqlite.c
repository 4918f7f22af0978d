#include "peer.h"
#include <sqlite3.h>
#include <stdio.h>
#include <sys/stat.h>

static sqlite3 *database;
static sqlite3_stmt *putting, *getting, *beginning, *committing;
static int is_begun;

const char *peer_settings(void) {
    return "journal_mode=WAL, synchronous=FULL, a transaction for each commit, other settings by default (pages of "
           "4,096 bytes, a checkpoint at 1,000 pages of the WAL). Checksums are those of the WAL alone";
}

static void need(int is_done) {
    if (!is_done) {
        fail("sqlite", database ? sqlite3_errmsg(database) : "");
    }
}

static sqlite3_stmt *prepared(const char *text) {
    sqlite3_stmt *statement;
    need(sqlite3_prepare_v2(database, text, -1, &statement, NULL) == SQLITE_OK);
    return statement;
}

static void once(sqlite3_stmt *statement) {
    need(sqlite3_step(statement) == SQLITE_DONE);
    sqlite3_reset(statement);
}

void peer_open(const char *folder) {
    char path[4096];
    mkdir(folder, 0700);
    snprintf(path, sizeof path, "%s/shards", folder);
    need(sqlite3_open(path, &database) == SQLITE_OK);
    need(sqlite3_exec(database, "PRAGMA journal_mode=WAL; PRAGMA synchronous=FULL;"
                                "CREATE TABLE IF NOT EXISTS shards (id BLOB PRIMARY KEY, bytes BLOB)",
                      NULL, NULL, NULL) == SQLITE_OK);
    putting = prepared("INSERT INTO shards VALUES (?, ?) ON CONFLICT (id) DO UPDATE SET bytes = excluded.bytes");
    getting = prepared("SELECT bytes FROM shards WHERE id = ?");
    beginning = prepared("BEGIN IMMEDIATE");
    committing = prepared("COMMIT");
}

void peer_put(const void *id, const void *bytes, size_t length) {
    if (!is_begun) {
        once(beginning);
        is_begun = 1;
    }
    sqlite3_bind_blob(putting, 1, id, ID, SQLITE_STATIC);
    sqlite3_bind_blob(putting, 2, bytes, length, SQLITE_STATIC);
    once(putting);
}

void peer_commit(void) {
    once(committing);
    is_begun = 0;
}

void peer_get(const void *id) {
    sqlite3_bind_blob(getting, 1, id, ID, SQLITE_STATIC);
    if (sqlite3_step(getting) == SQLITE_ROW) {
        const void *bytes = sqlite3_column_blob(getting, 0);
        got(bytes, sqlite3_column_bytes(getting, 0));
    }
    sqlite3_reset(getting);
}

void peer_close(void) {
    sqlite3_finalize(putting);
    sqlite3_finalize(getting);
    sqlite3_finalize(beginning);
    sqlite3_finalize(committing);
    need(sqlite3_close(database) == SQLITE_OK);
}
