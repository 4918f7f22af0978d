#include "peer.h"
#include <sys/stat.h>
#include <wiredtiger.h>

static WT_CONNECTION *connection;
static WT_SESSION *session;
static WT_CURSOR *cursor;
static int is_begun;

const char *peer_settings(void) {
    return "log on in files of 16 MB, transaction_sync with method=fsync, a transaction with sync=on for each commit, "
           "checksum=on for all blocks, no compression, other settings by default (cache 100 MB, no checkpoint until "
           "the close)";
}

static void need(int status) {
    if (status) {
        fail("wiredtiger", wiredtiger_strerror(status));
    }
}

void peer_open(const char *folder) {
    mkdir(folder, 0700);
    const char *settings = "create,log=(enabled=true,file_max=16MB),transaction_sync=(enabled=true,method=fsync)";
    need(wiredtiger_open(folder, NULL, settings, &connection));
    need(connection->open_session(connection, NULL, NULL, &session));
    need(session->create(session, "table:shards", "key_format=u,value_format=u,checksum=on"));
    need(session->open_cursor(session, "table:shards", NULL, NULL, &cursor));
}

static void set_key(const void *id) {
    WT_ITEM key = {.data = id, .size = ID};
    cursor->set_key(cursor, &key);
}

void peer_put(const void *id, const void *bytes, size_t length) {
    if (!is_begun) {
        need(session->begin_transaction(session, NULL));
        is_begun = 1;
    }
    WT_ITEM value = {.data = bytes, .size = length};
    set_key(id);
    cursor->set_value(cursor, &value);
    need(cursor->insert(cursor));
}

void peer_commit(void) {
    need(session->commit_transaction(session, "sync=on"));
    is_begun = 0;
}

void peer_get(const void *id) {
    set_key(id);
    int status = cursor->search(cursor);
    if (status != WT_NOTFOUND) {
        WT_ITEM value;
        need(status);
        need(cursor->get_value(cursor, &value));
        got(value.data, value.size);
    }
    need(cursor->reset(cursor));
}

void peer_close(void) { need(connection->close(connection, NULL)); }
