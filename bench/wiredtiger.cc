// Durable commits of 1, 100 and 1,000 rows with WiredTiger: its log is on, and a commit syncs it.
// A row has a key, a sort and 100 bytes, and stands in a second table by (sort, key). The median
// time of a transaction goes to standard output.
//
//     g++ -std=c++17 -O2 -o wiredtiger wiredtiger.cc -lwiredtiger && ./wiredtiger FOLDER ROUNDS
//
// FOLDER must be there and empty. On Debian the library is in libwiredtiger-dev.
#include <wiredtiger.h>

#include <algorithm>
#include <chrono>
#include <cstdint>
#include <cstdio>
#include <cstdlib>
#include <cstring>
#include <vector>

static void check(int status, const char *what) {
    if (status != 0) {
        std::fprintf(stderr, "%s: %s\n", what, wiredtiger_strerror(status));
        std::exit(1);
    }
}

static uint64_t now() {
    auto time = std::chrono::steady_clock::now().time_since_epoch();
    return std::chrono::duration_cast<std::chrono::nanoseconds>(time).count();
}

struct Tables {
    WT_SESSION *session;
    WT_CURSOR *rows, *sorts;

    void insert(uint64_t key) {
        char bytes[108];
        std::memset(bytes, (int)key, sizeof bytes);
        std::memcpy(bytes, &key, 8);
        WT_ITEM value;
        std::memset(&value, 0, sizeof value);
        value.data = bytes;
        value.size = sizeof bytes;
        rows->set_key(rows, key);
        rows->set_value(rows, &value);
        check(rows->insert(rows), "insert a row");
        sorts->set_key(sorts, key, key);
        sorts->set_value(sorts, (uint8_t)0);
        check(sorts->insert(sorts), "insert a sort");
    }

    uint64_t commit(uint64_t first, uint64_t count) {
        uint64_t start = now();
        check(session->begin_transaction(session, "isolation=snapshot"), "begin");
        for (uint64_t key = first; key < first + count; key++) insert(key);
        check(session->commit_transaction(session, nullptr), "commit");
        return now() - start;
    }
};

int main(int count, char **words) {
    if (count != 3) return 2;
    WT_CONNECTION *connection;
    const char *how = "create,log=(enabled=true),transaction_sync=(enabled=true,method=fsync)";
    check(wiredtiger_open(words[1], nullptr, how, &connection), "open");
    Tables tables;
    check(connection->open_session(connection, nullptr, nullptr, &tables.session), "session");
    WT_SESSION *session = tables.session;
    check(session->create(session, "table:rows", "key_format=Q,value_format=u"), "rows");
    check(session->create(session, "table:sorts", "key_format=QQ,value_format=B"), "sorts");
    check(session->open_cursor(session, "table:rows", nullptr, nullptr, &tables.rows), "cursor");
    check(session->open_cursor(session, "table:sorts", nullptr, nullptr, &tables.sorts), "cursor");
    uint64_t rounds = std::strtoull(words[2], nullptr, 10), key = 0;
    for (uint64_t rows : {1, 100, 1000}) {
        std::vector<uint64_t> times;
        for (uint64_t round = 0; round < rounds; round++, key += rows) {
            times.push_back(tables.commit(key, rows));
        }
        std::sort(times.begin(), times.end());
        uint64_t median = times[times.size() / 2];
        std::printf("groups of %lu: p50 %lu ns, %lu rows a second\n", rows, median,
                    rows * 1000000000 / median);
    }
    connection->close(connection, nullptr);
    return 0;
}
