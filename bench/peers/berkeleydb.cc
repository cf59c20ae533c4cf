// Berkeley DB: B-trees under two-phase locking, with readers by snapshot. In memory: a private
// environment, its log in memory, and databases without a file. As a file: a log without syncs.
#include <db.h>

#include "harness.h"

static void check(int status, const char *what) {
    if (status) stop(what, status);
}

// A place of so many bytes for a key or a value.
static DBT place_of(void *bytes, uint32_t length) {
    DBT place;
    std::memset(&place, 0, sizeof place);
    place.data = bytes;
    place.size = length;
    place.ulen = length;
    place.flags = DB_DBT_USERMEM;
    return place;
}

struct BerkeleySession : Session {
    DB_ENV *environment;
    DB *rows, *sorts;
    DB_TXN *transaction = nullptr;
    bool reads_only = false;

    void begin(bool only) override {
        reads_only = only;
        uint32_t flags = only ? DB_TXN_SNAPSHOT : 0;
        check(environment->txn_begin(environment, nullptr, &transaction, flags), "begin");
    }

    bool read(uint64_t key, Row &row) override {
        char bytes[8], found[VALUE_LEN];
        write_ordered(bytes, key);
        DBT place = place_of(bytes, sizeof bytes), value = place_of(found, sizeof found);
        if (rows->get(rows, transaction, &place, &value, reads_only ? 0 : DB_RMW)) return false;
        read_value(found, row);
        return true;
    }

    bool put(uint64_t key, const Row &row, uint32_t flags) {
        char bytes[8], content[VALUE_LEN];
        write_ordered(bytes, key);
        write_value(content, row);
        DBT place = place_of(bytes, sizeof bytes), value = place_of(content, sizeof content);
        return rows->put(rows, transaction, &place, &value, flags) == 0;
    }

    bool insert(uint64_t key, const Row &row) override {
        if (!put(key, row, DB_NOOVERWRITE)) return false;
        char bytes[16];
        write_ordered(bytes, row.sort);
        write_ordered(bytes + 8, key);
        DBT place = place_of(bytes, sizeof bytes), value = place_of(nullptr, 0);
        return sorts->put(sorts, transaction, &place, &value, 0) == 0;
    }

    bool update(uint64_t key, const Row &row) override { return put(key, row, 0); }

    void scan(uint64_t low, uint64_t high, Checksum &sum) override {
        char bytes[16] = {}, last[16];
        write_ordered(bytes, low);
        write_ordered(last, high);
        write_ordered(last + 8, ~0ull);
        DBC *cursor;
        check(sorts->cursor(sorts, transaction, &cursor, 0), "cursor");
        DBT place = place_of(bytes, sizeof bytes), value;
        std::memset(&value, 0, sizeof value);
        Row row;
        int status = cursor->get(cursor, &place, &value, DB_SET_RANGE);
        while (!status && std::memcmp(bytes, last, 16) <= 0) {
            read_row(*this, read_ordered(bytes + 8), row, sum);
            status = cursor->get(cursor, &place, &value, DB_NEXT);
        }
        cursor->close(cursor);
    }

    bool commit() override { return transaction->commit(transaction, 0) == 0; }
};

struct Berkeley : Engine {
    DB_ENV *environment;
    DB *rows, *sorts;

    const char *name() override { return "berkeleydb"; }

    void set_limits() {
        environment->set_errfile(environment, stderr);
        environment->set_cachesize(environment, 6, 0, 1);
        environment->set_lk_max_locks(environment, 400000);
        environment->set_lk_max_objects(environment, 400000);
        environment->set_lk_max_lockers(environment, 20000);
        environment->set_tx_max(environment, 8000);
        environment->set_lk_detect(environment, DB_LOCK_DEFAULT);
    }

    DB *table(const char *name) {
        DB *table;
        check(db_create(&table, environment, 0), name);
        table->set_pagesize(table, 4096);
        uint32_t flags = DB_CREATE | DB_AUTO_COMMIT | DB_THREAD | DB_MULTIVERSION;
        check(table->open(table, nullptr, name, nullptr, DB_BTREE, flags, 0644), "open");
        return table;
    }

    void open(const std::string &folder, bool in_memory) override {
        check(db_env_create(&environment, 0), "environment");
        set_limits();
        if (in_memory) {
            environment->log_set_config(environment, DB_LOG_IN_MEMORY, 1);
            environment->set_lg_bsize(environment, 256 << 20);
        } else {
            environment->set_lg_max(environment, 128 << 20);
            environment->set_lg_bsize(environment, 1 << 20);
            environment->set_flags(environment, DB_TXN_NOSYNC, 1);
        }
        uint32_t flags = DB_CREATE | DB_INIT_MPOOL | DB_INIT_TXN | DB_INIT_LOCK | DB_INIT_LOG |
                         DB_PRIVATE | DB_THREAD;
        check(environment->open(environment, folder.c_str(), flags, 0644), "environment");
        rows = table(in_memory ? nullptr : "rows");
        sorts = table(in_memory ? nullptr : "sorts");
    }

    Session *session() override {
        auto *session = new BerkeleySession;
        session->environment = environment;
        session->rows = rows;
        session->sorts = sorts;
        return session;
    }

    void close() override {
        rows->close(rows, 0);
        sorts->close(sorts, 0);
        environment->close(environment, 0);
    }
};

int main(int count, char **words) {
    Berkeley engine;
    return run_peer(engine, count, words);
}
