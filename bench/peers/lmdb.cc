// LMDB: a B+tree, copied on write, with one writer. In memory: no syncs, a writable map, and the
// folder is to stand in memory. As a file: no syncs.
#include <lmdb.h>

#include "harness.h"

static void check(int status, const char *what) {
    if (status) stop(what, status);
}

struct LmdbSession : Session {
    MDB_env *environment;
    MDB_dbi rows, sorts;
    MDB_txn *transaction = nullptr, *reader = nullptr;
    bool reads_only = false;

    ~LmdbSession() {
        if (reader) mdb_txn_abort(reader);
    }

    void begin(bool only) override {
        reads_only = only;
        if (!only) {
            check(mdb_txn_begin(environment, nullptr, 0, &transaction), "begin");
            return;
        }
        if (reader) check(mdb_txn_renew(reader), "renew");
        else check(mdb_txn_begin(environment, nullptr, MDB_RDONLY, &reader), "begin");
        transaction = reader;
    }

    bool read(uint64_t key, Row &row) override {
        MDB_val place{8, &key}, value;
        if (mdb_get(transaction, rows, &place, &value)) return false;
        read_value(value.mv_data, row);
        return true;
    }

    bool put(uint64_t key, const Row &row, unsigned flags) {
        MDB_val place{8, &key}, value{VALUE_LEN, nullptr};
        if (mdb_put(transaction, rows, &place, &value, MDB_RESERVE | flags)) return false;
        write_value(value.mv_data, row);
        return true;
    }

    bool insert(uint64_t key, const Row &row) override {
        char bytes[16];
        write_ordered(bytes, row.sort);
        write_ordered(bytes + 8, key);
        MDB_val place{16, bytes}, value{0, nullptr};
        return put(key, row, MDB_NOOVERWRITE) && !mdb_put(transaction, sorts, &place, &value, 0);
    }

    bool update(uint64_t key, const Row &row) override { return put(key, row, 0); }

    void scan(uint64_t low, uint64_t high, Checksum &sum) override {
        char first[16] = {}, last[16];
        write_ordered(first, low);
        write_ordered(last, high);
        write_ordered(last + 8, ~0ull);
        MDB_cursor *cursor;
        check(mdb_cursor_open(transaction, sorts, &cursor), "cursor");
        MDB_val place{16, first}, value;
        Row row;
        int status = mdb_cursor_get(cursor, &place, &value, MDB_SET_RANGE);
        while (!status && std::memcmp(place.mv_data, last, 16) <= 0) {
            read_row(*this, read_ordered((char *)place.mv_data + 8), row, sum);
            status = mdb_cursor_get(cursor, &place, &value, MDB_NEXT);
        }
        mdb_cursor_close(cursor);
    }

    bool commit() override {
        if (!reads_only) return mdb_txn_commit(transaction) == 0;
        mdb_txn_reset(reader);
        return true;
    }
};

struct Lmdb : Engine {
    MDB_env *environment;
    MDB_dbi rows, sorts;

    const char *name() override { return "lmdb"; }

    void open(const std::string &folder, bool in_memory) override {
        check(mdb_env_create(&environment), "environment");
        mdb_env_set_mapsize(environment, 16ull << 30);
        mdb_env_set_maxdbs(environment, 4);
        mdb_env_set_maxreaders(environment, 2048);
        unsigned flags = MDB_NOTLS | MDB_NOSYNC | (in_memory ? MDB_WRITEMAP : 0);
        check(mdb_env_open(environment, folder.c_str(), flags, 0644), "open");
        MDB_txn *transaction;
        check(mdb_txn_begin(environment, nullptr, 0, &transaction), "begin");
        check(mdb_dbi_open(transaction, "rows", MDB_CREATE | MDB_INTEGERKEY, &rows), "rows");
        check(mdb_dbi_open(transaction, "sorts", MDB_CREATE, &sorts), "sorts");
        check(mdb_txn_commit(transaction), "commit");
    }

    Session *session() override {
        auto *session = new LmdbSession;
        session->environment = environment;
        session->rows = rows;
        session->sorts = sorts;
        return session;
    }

    void close() override { mdb_env_close(environment); }
};

int main(int count, char **words) {
    Lmdb engine;
    return run_peer(engine, count, words);
}
