// SQLite: a B-tree with one writer. In memory: ":memory:", which has one session. As a file: a
// write-ahead log without syncs.
#include <sqlite3.h>

#include "harness.h"

static void check(int status, const char *what) {
    if (status != SQLITE_OK) stop(what, status);
}

struct SqliteSession : Session {
    sqlite3 *database;
    bool owns_database;
    sqlite3_stmt *begins_reading, *begins_writing, *commits, *reads, *inserts, *updates, *scans;

    sqlite3_stmt *prepared(const char *text) {
        sqlite3_stmt *statement;
        check(sqlite3_prepare_v3(database, text, -1, SQLITE_PREPARE_PERSISTENT, &statement, nullptr),
              text);
        return statement;
    }

    void prepare() {
        begins_reading = prepared("BEGIN");
        begins_writing = prepared("BEGIN IMMEDIATE");
        commits = prepared("COMMIT");
        reads = prepared("SELECT sort, data FROM rows WHERE key = ?");
        inserts = prepared("INSERT INTO rows VALUES (?, ?, ?)");
        updates = prepared("UPDATE rows SET sort = ?2, data = ?3 WHERE key = ?1");
        scans = prepared("SELECT sort, data FROM rows WHERE sort BETWEEN ? AND ?"
                         " ORDER BY sort, key");
    }

    ~SqliteSession() {
        for (auto *statement :
             {begins_reading, begins_writing, commits, reads, inserts, updates, scans}) {
            sqlite3_finalize(statement);
        }
        if (owns_database) sqlite3_close(database);
    }

    bool once(sqlite3_stmt *statement) {
        int status = sqlite3_step(statement);
        sqlite3_reset(statement);
        return status == SQLITE_DONE;
    }

    void begin(bool only) override {
        if (!once(only ? begins_reading : begins_writing)) stop("begin");
    }

    void take_row(sqlite3_stmt *statement, Row &row) {
        row.sort = sqlite3_column_int64(statement, 0);
        std::memcpy(row.bytes, sqlite3_column_blob(statement, 1), DATA_LEN);
    }

    bool read(uint64_t key, Row &row) override {
        sqlite3_bind_int64(reads, 1, key);
        bool found = sqlite3_step(reads) == SQLITE_ROW;
        if (found) take_row(reads, row);
        sqlite3_reset(reads);
        return found;
    }

    bool put(sqlite3_stmt *statement, uint64_t key, const Row &row) {
        sqlite3_bind_int64(statement, 1, key);
        sqlite3_bind_int64(statement, 2, row.sort);
        sqlite3_bind_blob(statement, 3, row.bytes, DATA_LEN, SQLITE_STATIC);
        return once(statement);
    }

    bool insert(uint64_t key, const Row &row) override { return put(inserts, key, row); }

    bool update(uint64_t key, const Row &row) override { return put(updates, key, row); }

    void scan(uint64_t low, uint64_t high, Checksum &sum) override {
        sqlite3_bind_int64(scans, 1, low);
        sqlite3_bind_int64(scans, 2, high);
        Row row;
        while (sqlite3_step(scans) == SQLITE_ROW) {
            take_row(scans, row);
            sum.add(row);
        }
        sqlite3_reset(scans);
    }

    bool commit() override { return once(commits); }
};

struct Sqlite : Engine {
    sqlite3 *database = nullptr;
    std::string path;
    bool in_memory;

    const char *name() override { return "sqlite"; }

    sqlite3 *opened() {
        sqlite3 *database;
        int flags = SQLITE_OPEN_READWRITE | SQLITE_OPEN_CREATE | SQLITE_OPEN_NOMUTEX;
        check(sqlite3_open_v2(path.c_str(), &database, flags, nullptr), "open");
        sqlite3_busy_timeout(database, 60000);
        const char *memory = "PRAGMA cache_size = -4000000; PRAGMA temp_store = 2;";
        const char *log = "PRAGMA journal_mode = WAL; PRAGMA synchronous = OFF;";
        check(sqlite3_exec(database, memory, 0, 0, 0), "pragma");
        if (!in_memory) check(sqlite3_exec(database, log, 0, 0, 0), "pragma");
        return database;
    }

    void open(const std::string &folder, bool only_memory) override {
        in_memory = only_memory;
        path = in_memory ? ":memory:" : folder + "/rows";
        database = opened();
        const char *tables = "CREATE TABLE rows (key INTEGER PRIMARY KEY, sort INTEGER, data BLOB);"
                             "CREATE INDEX sorts ON rows (sort, key);";
        check(sqlite3_exec(database, tables, 0, 0, 0), "create");
    }

    Session *session() override {
        auto *session = new SqliteSession;
        session->owns_database = !in_memory;
        session->database = in_memory ? database : opened();
        session->prepare();
        return session;
    }

    void close() override { sqlite3_close(database); }
};

int main(int count, char **words) {
    Sqlite engine;
    return run_peer(engine, count, words);
}
