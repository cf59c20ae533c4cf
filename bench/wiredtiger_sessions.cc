// Durable commits a second of many threads with WiredTiger: its log is on, and a commit syncs it. A
// transaction puts one row of 100 bytes with a key and a sort, and its place by (sort, key).
//
//     g++ -std=c++17 -O2 -pthread -o out wiredtiger_sessions.cc -lwiredtiger
//     ./out FOLDER THREADS COMMITS
//
// FOLDER must be there and empty. On Debian the library is in libwiredtiger-dev.
#include <wiredtiger.h>

#include <cstring>

#include "sessions.h"

static void check(int status, const char *what) {
    if (status != 0) {
        std::fprintf(stderr, "%s: %s\n", what, wiredtiger_strerror(status));
        std::exit(1);
    }
}

static void commit_all(WT_CONNECTION *connection, uint64_t first, uint64_t commits) {
    WT_SESSION *session;
    WT_CURSOR *rows, *sorts;
    check(connection->open_session(connection, nullptr, nullptr, &session), "session");
    check(session->open_cursor(session, "table:rows", nullptr, nullptr, &rows), "cursor");
    check(session->open_cursor(session, "table:sorts", nullptr, nullptr, &sorts), "cursor");
    char bytes[108] = {};
    WT_ITEM value;
    std::memset(&value, 0, sizeof value);
    value.data = bytes;
    value.size = sizeof bytes;
    for (uint64_t key = first; key < first + commits; key++) {
        check(session->begin_transaction(session, "isolation=snapshot"), "begin");
        rows->set_key(rows, key);
        rows->set_value(rows, &value);
        check(rows->insert(rows), "insert a row");
        sorts->set_key(sorts, key, key);
        sorts->set_value(sorts, (uint8_t)0);
        check(sorts->insert(sorts), "insert a sort");
        check(session->commit_transaction(session, nullptr), "commit");
    }
}

int main(int count, char **words) {
    if (count != 4) return 2;
    WT_CONNECTION *connection;
    const char *how = "create,log=(enabled=true),transaction_sync=(enabled=true,method=fsync)";
    check(wiredtiger_open(words[1], nullptr, how, &connection), "open");
    WT_SESSION *session;
    check(connection->open_session(connection, nullptr, nullptr, &session), "session");
    check(session->create(session, "table:rows", "key_format=Q,value_format=u"), "rows");
    check(session->create(session, "table:sorts", "key_format=QQ,value_format=B"), "sorts");
    uint64_t threads = std::strtoull(words[2], nullptr, 10);
    uint64_t commits = std::strtoull(words[3], nullptr, 10);
    time_threads(threads, commits, [=](uint64_t first, uint64_t each) {
        commit_all(connection, first, each);
    });
    return connection->close(connection, nullptr);
}
