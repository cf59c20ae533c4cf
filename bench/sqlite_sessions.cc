// Durable commits a second of many threads with SQLite, in WAL mode with synchronous=FULL: a commit
// syncs the log. Each thread has a connection of its own. A transaction puts one row of 100 bytes
// with a key and a sort, on which there is an index.
//
//     g++ -std=c++17 -O2 -pthread -o out sqlite_sessions.cc -lsqlite3
//     ./out FOLDER THREADS COMMITS
//
// FOLDER must be there and empty. On Debian the library is in libsqlite3-dev.
#include <sqlite3.h>

#include <string>

#include "sessions.h"

static void run(sqlite3 *base, const char *text) {
    char *why = nullptr;
    if (sqlite3_exec(base, text, nullptr, nullptr, &why) != SQLITE_OK) {
        std::fprintf(stderr, "%s: %s\n", text, why);
        std::exit(1);
    }
}

static sqlite3 *open(const std::string &path) {
    sqlite3 *base;
    if (sqlite3_open(path.c_str(), &base) != SQLITE_OK) std::exit(1);
    sqlite3_busy_timeout(base, 600000);
    run(base, "pragma journal_mode=wal");
    run(base, "pragma synchronous=full");
    return base;
}

static void commit_all(const std::string &path, uint64_t first, uint64_t commits) {
    sqlite3 *base = open(path);
    sqlite3_stmt *insert;
    sqlite3_prepare_v2(base, "insert into rows values(?, ?, zeroblob(100))", -1, &insert, nullptr);
    for (uint64_t key = first; key < first + commits; key++) {
        run(base, "begin immediate");
        sqlite3_bind_int64(insert, 1, key);
        sqlite3_bind_int64(insert, 2, key);
        if (sqlite3_step(insert) != SQLITE_DONE) std::exit(1);
        sqlite3_reset(insert);
        run(base, "commit");
    }
    sqlite3_finalize(insert);
    sqlite3_close(base);
}

int main(int count, char **words) {
    if (count != 4) return 2;
    std::string path = std::string(words[1]) + "/base";
    sqlite3 *base = open(path);
    run(base, "create table rows(key integer primary key, sort integer, data blob)");
    run(base, "create index sorts on rows(sort, key)");
    uint64_t threads = std::strtoull(words[2], nullptr, 10);
    uint64_t commits = std::strtoull(words[3], nullptr, 10);
    time_threads(threads, commits, [&](uint64_t first, uint64_t each) {
        commit_all(path, first, each);
    });
    sqlite3_close(base);
}
