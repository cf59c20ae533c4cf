// WiredTiger: a B-tree with versions, under snapshot isolation, which isn't serializable. In
// memory: `in_memory`. As a file: a log without syncs.
#include <wiredtiger.h>

#include "harness.h"

static void check(int status, const char *what) {
    if (status) stop(what, status);
}

struct WiredTigerSession : Session {
    WT_SESSION *session;
    WT_CURSOR *rows, *sorts;

    ~WiredTigerSession() { session->close(session, nullptr); }

    void begin(bool) override {
        check(session->begin_transaction(session, "isolation=snapshot"), "begin");
    }

    bool read(uint64_t key, Row &row) override {
        rows->set_key(rows, key);
        if (rows->search(rows)) return false;
        WT_ITEM value;
        check(rows->get_value(rows, &value), "value");
        read_value(value.data, row);
        return true;
    }

    bool put(uint64_t key, const Row &row) {
        char bytes[VALUE_LEN];
        write_value(bytes, row);
        WT_ITEM value;
        std::memset(&value, 0, sizeof value);
        value.data = bytes;
        value.size = sizeof bytes;
        rows->set_key(rows, key);
        rows->set_value(rows, &value);
        return rows->insert(rows) == 0;
    }

    // It asks first whether a row is there.
    bool insert(uint64_t key, const Row &row) override {
        Row old;
        if (read(key, old) || !put(key, row)) return false;
        sorts->set_key(sorts, row.sort, key);
        sorts->set_value(sorts, (uint8_t)0);
        return sorts->insert(sorts) == 0;
    }

    bool update(uint64_t key, const Row &row) override { return put(key, row); }

    void scan(uint64_t low, uint64_t high, Checksum &sum) override {
        uint64_t sort, key;
        int where;
        Row row;
        sorts->set_key(sorts, low, (uint64_t)0);
        int status = sorts->search_near(sorts, &where);
        if (!status && where < 0) status = sorts->next(sorts);
        while (!status) {
            check(sorts->get_key(sorts, &sort, &key), "key");
            if (sort > high) break;
            read_row(*this, key, row, sum);
            status = sorts->next(sorts);
        }
        sorts->reset(sorts);
    }

    bool commit() override { return session->commit_transaction(session, nullptr) == 0; }
};

struct WiredTiger : Engine {
    WT_CONNECTION *connection;

    const char *name() override { return "wiredtiger"; }

    WT_SESSION *opened() {
        WT_SESSION *session;
        check(connection->open_session(connection, nullptr, nullptr, &session), "session");
        return session;
    }

    void open(const std::string &folder, bool in_memory) override {
        std::string options = "create,cache_size=6GB,session_max=4000,";
        options += in_memory ? "in_memory=true"
                             : "log=(enabled=true),transaction_sync=(enabled=false)";
        check(wiredtiger_open(folder.c_str(), nullptr, options.c_str(), &connection), "open");
        WT_SESSION *session = opened();
        check(session->create(session, "table:rows", "key_format=Q,value_format=u"), "rows");
        check(session->create(session, "table:sorts", "key_format=QQ,value_format=B"), "sorts");
        session->close(session, nullptr);
    }

    WT_CURSOR *cursor(WT_SESSION *session, const char *table) {
        WT_CURSOR *cursor;
        check(session->open_cursor(session, table, nullptr, nullptr, &cursor), table);
        return cursor;
    }

    Session *session() override {
        auto *made = new WiredTigerSession;
        made->session = opened();
        made->rows = cursor(made->session, "table:rows");
        made->sorts = cursor(made->session, "table:sorts");
        return made;
    }

    void close() override { connection->close(connection, nullptr); }
};

int main(int count, char **words) {
    WiredTiger engine;
    return run_peer(engine, count, words);
}
