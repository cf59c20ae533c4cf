// One harness for all peers: the workloads of `crates/bench_core`, with the same keys, rows and
// loops. A peer is a store behind `Engine` and `Session`. Checksums go to standard output, one line
// of JSON for each figure to standard error.
//
//     PEER folder=FOLDER [mode=memory|file] [rows=N] [transactions=N] [fewer=N] [hot=N] [open=N]
//         [load] [reads] [reads_uniform] [reads_zipf] [updates] [scans] [mixed] [hot] [open]
//
// FOLDER must be there and empty. In the mode `memory` nothing is kept over a stop; `file` is a
// log without syncs. Without a workload all of them run. `reads` is both of the two behind it.
#pragma once

#include <unistd.h>

#include <algorithm>
#include <chrono>
#include <cinttypes>
#include <cstdint>
#include <cstdio>
#include <cstdlib>
#include <cstring>
#include <memory>
#include <string>
#include <vector>

#include "power.h"

static const int DATA_LEN = 100;
static const int VALUE_LEN = 8 + DATA_LEN;
// The round stands in eight bytes from here on.
static const int ROUND = 8;
// The byte that an update changes.
static const int CHANGED = 20;

struct Row {
    uint64_t sort;
    unsigned char bytes[DATA_LEN];
};

static inline void stop(const char *what, int status = 0) {
    std::fprintf(stderr, "%s: %d\n", what, status);
    std::exit(1);
}

// The number of an index, well mixed.
static inline uint64_t mixed(uint64_t index) {
    uint64_t a = index * 0x9e3779b97f4a7c15;
    uint64_t b = a ^ (a >> 32);
    uint64_t c = b * 0xd6e8feb86659fd93;
    return c ^ (c >> 32);
}

// A sort below 2^62.
static inline uint64_t sort_of(uint64_t key) { return mixed(key) >> 2; }

// Writes a number so that bytes and numbers have one order.
static inline void write_ordered(void *place, uint64_t number) {
    uint64_t turned = __builtin_bswap64(number);
    std::memcpy(place, &turned, 8);
}

static inline uint64_t read_ordered(const void *place) {
    uint64_t turned;
    std::memcpy(&turned, place, 8);
    return __builtin_bswap64(turned);
}

// A row as the value that most stores keep.
static inline void write_value(void *place, const Row &row) {
    std::memcpy(place, &row.sort, 8);
    std::memcpy((char *)place + 8, row.bytes, DATA_LEN);
}

static inline void read_value(const void *place, Row &row) {
    std::memcpy(&row.sort, place, 8);
    std::memcpy(row.bytes, (const char *)place + 8, DATA_LEN);
}

// A number by which the rows that two programs read are compared, in their order.
struct Checksum {
    uint64_t sum = 0;

    void add(const Row &row) {
        uint64_t weight = row.sort + row.bytes[ROUND] + row.bytes[CHANGED];
        sum = ((sum << 1) | (sum >> 63)) + weight;
    }
};

// One transaction at a time. A false answer to anything ends the run.
struct Session {
    virtual ~Session() {}
    virtual void begin(bool reads_only) = 0;
    virtual bool read(uint64_t key, Row &row) = 0;
    virtual bool insert(uint64_t key, const Row &row) = 0;
    virtual bool update(uint64_t key, const Row &row) = 0;
    // The rows with low <= sort <= high, by sort and then by key.
    virtual void scan(uint64_t low, uint64_t high, Checksum &sum) = 0;
    virtual bool commit() = 0;
};

struct Engine {
    virtual ~Engine() {}
    virtual const char *name() = 0;
    virtual void open(const std::string &folder, bool in_memory) = 0;
    virtual Session *session() = 0;
    virtual void close() = 0;
};

struct Config {
    uint64_t rows = 1000000;
    // Transactions of one or two rows.
    uint64_t transactions = 300000;
    // Transactions of ten or a hundred rows.
    uint64_t fewer = 10000;
    // Updates of the hot key.
    uint64_t hot = 100000;
    // Transactions that stay open.
    uint64_t open = 1000;
    std::string folder;
    bool in_memory = true;
    std::vector<std::string> works;

    // So many keys are drawn for transactions of one row and of ten.
    uint64_t drawn() const { return std::max(transactions, fewer * 10); }

    bool has(const char *work) const {
        return works.empty() || std::find(works.begin(), works.end(), work) != works.end();
    }

    void set(const std::string &name, const std::string &value) {
        if (name == "folder") {
            folder = value;
        } else if (name == "mode") {
            in_memory = value == "memory";
        } else {
            set_number(name, std::strtoull(value.c_str(), nullptr, 10));
        }
    }

    void set_number(const std::string &name, uint64_t value) {
        if (name == "rows") rows = value;
        else if (name == "transactions") transactions = value;
        else if (name == "fewer") fewer = value;
        else if (name == "hot") hot = value;
        else if (name == "open") open = value;
        else stop("no number has this name");
    }

    void take(const std::string &word) {
        size_t at = word.find('=');
        if (at == std::string::npos) works.push_back(word);
        else set(word.substr(0, at), word.substr(at + 1));
    }
};

// The bytes of memory that the process has.
static uint64_t resident() {
    FILE *file = std::fopen("/proc/self/statm", "r");
    uint64_t all = 0, pages = 0;
    if (file && std::fscanf(file, "%" SCNu64 " %" SCNu64, &all, &pages) != 2) pages = 0;
    if (file) std::fclose(file);
    return pages * 4096;
}

static inline uint64_t now() {
    auto time = std::chrono::steady_clock::now().time_since_epoch();
    return std::chrono::duration_cast<std::chrono::nanoseconds>(time).count();
}

// Ranks by YCSB's zipf distribution: small ones come often.
struct Zipf {
    double theta = 0.99, rows, zeta = 0.0, alpha, eta;

    explicit Zipf(uint64_t count) {
        for (uint64_t rank = 0; rank < count; rank++) {
            zeta = zeta + 1.0 / power((double)(rank + 1), theta);
        }
        rows = (double)count;
        double first_two = 1.0 + 1.0 / power(2.0, theta);
        eta = (1.0 - power(2.0 / rows, 1.0 - theta)) / (1.0 - first_two / zeta);
        alpha = 1.0 / (1.0 - theta);
    }

    // The rank of a number of 53 bits, which are drawn uniformly.
    uint64_t rank(uint64_t bits) const {
        double unit = (double)bits / 9007199254740992.0;
        double share = unit * zeta;
        if (share < 1.0) return 0;
        if (share < 1.0 + power(0.5, theta)) return 1;
        return (uint64_t)(rows * power(eta * unit - eta + 1.0, alpha));
    }
};

// Keys in the order in which a workload takes them. They are drawn ahead, so that drawing takes no
// time of the workload.
struct Keys {
    // The keys come again behind so many.
    static const uint64_t MOST = 1 << 20;
    std::vector<uint64_t> keys;

    // So many keys, each of the rows as often as any other.
    static Keys uniform(uint64_t rows, uint64_t seed, uint64_t count) {
        Keys drawn;
        for (uint64_t at = 0; at < std::min(count, MOST + 0); at++) {
            drawn.keys.push_back(mixed(seed * 77777777 + at) % rows);
        }
        return drawn;
    }

    // So many keys, few of them often. Which ones is scattered over the rows.
    static Keys zipf(uint64_t rows, uint64_t seed, uint64_t count) {
        Keys drawn;
        Zipf ranks(rows);
        for (uint64_t at = 0; at < std::min(count, MOST + 0); at++) {
            drawn.keys.push_back(mixed(ranks.rank(mixed(seed * 999983 + at) >> 11)) % rows);
        }
        return drawn;
    }

    uint64_t at(uint64_t index) const { return keys[index % MOST]; }
};

// A workload that runs: its name, and when it began.
struct Figure {
    const char *engine, *name;
    uint64_t rows, start;

    Figure(Engine &store, const Config &config, const char *name)
        : engine(store.name()), name(name), rows(config.rows), start(now()) {}

    // Prints the checksum, and the nanoseconds for one of so many operations.
    void tell(uint64_t operations, const Checksum &sum, const std::string &more = "") const {
        uint64_t each = operations ? (now() - start) / operations : 0;
        std::printf("%s %" PRIu64 ": %" PRIu64 "\n", name, rows, sum.sum);
        std::fprintf(stderr, "{\"engine\":\"%s\",\"name\":\"%s\",\"rows\":%" PRIu64, engine, name, rows);
        std::fprintf(stderr, ",\"operations\":%" PRIu64 ",\"ns\":%" PRIu64 "%s}\n", operations, each,
                     more.c_str());
        std::fflush(stdout);
    }
};

// The row that is loaded at a key.
static inline Row loaded(uint64_t key) {
    Row row;
    row.sort = sort_of(key);
    std::memset(row.bytes, (int)(key & 0xff), DATA_LEN);
    std::memcpy(row.bytes, &key, 8);
    std::memset(row.bytes + ROUND, 0, 8);
    return row;
}

static void read_row(Session &session, uint64_t key, Row &row, Checksum &sum) {
    if (!session.read(key, row)) stop("a row is missing");
    sum.add(row);
}

static void update_row(Session &session, uint64_t key, const Row &row) {
    if (!session.update(key, row)) stop("a row isn't updated");
}

static void commit(Session &session) {
    if (!session.commit()) stop("a transaction isn't committed");
}

static void insert_some(Session &session, uint64_t from, uint64_t to, Checksum &sum) {
    session.begin(false);
    for (uint64_t key = from; key < to; key++) {
        Row row = loaded(key);
        sum.add(row);
        if (!session.insert(key, row)) stop("a row isn't inserted");
    }
    commit(session);
}

static void run_load(Engine &engine, const Config &config, Session &session) {
    uint64_t before = resident();
    Figure figure(engine, config, "load");
    Checksum sum;
    for (uint64_t from = 0; from < config.rows; from += 100) {
        insert_some(session, from, std::min(from + 100, config.rows), sum);
    }
    uint64_t bytes = resident() - before;
    figure.tell(config.rows, sum, ",\"bytes_a_row\":" + std::to_string(bytes / config.rows));
}

static void read_one(Session &session, uint64_t key, Checksum &sum) {
    Row row;
    session.begin(true);
    read_row(session, key, row, sum);
    commit(session);
}

static void update_one(Session &session, uint64_t key, Checksum &sum) {
    Row row;
    session.begin(false);
    read_row(session, key, row, sum);
    row.bytes[CHANGED]++;
    update_row(session, key, row);
    commit(session);
}

// So many transactions, each of which reads so many rows.
static void read_all(Engine &engine, const Config &config, Session &session, const char *name,
                     const Keys &keys, uint64_t count, uint64_t each) {
    Figure figure(engine, config, name);
    Checksum sum;
    Row row;
    for (uint64_t at = 0; at < count; at++) {
        session.begin(true);
        for (uint64_t index = 0; index < each; index++) {
            read_row(session, keys.at(at * each + index), row, sum);
        }
        commit(session);
    }
    figure.tell(count, sum);
}

static void run_reads(Engine &engine, const Config &config, Session &session) {
    uint64_t one = config.transactions, ten = config.fewer, count = config.drawn();
    if (config.has("reads") || config.has("reads_uniform")) {
        Keys uniform = Keys::uniform(config.rows, 1, count);
        read_all(engine, config, session, "read1_uniform", uniform, one, 1);
        read_all(engine, config, session, "read10_uniform", uniform, ten, 10);
    }
    if (config.has("reads") || config.has("reads_zipf")) {
        Keys zipf = Keys::zipf(config.rows, 1, count);
        read_all(engine, config, session, "read1_zipf", zipf, one, 1);
        read_all(engine, config, session, "read10_zipf", zipf, ten, 10);
    }
}

static void update_two(Session &session, uint64_t one, uint64_t other, uint64_t round,
                       Checksum &sum) {
    Row first, second;
    session.begin(false);
    read_row(session, one, first, sum);
    read_row(session, other, second, sum);
    first.bytes[CHANGED]++;
    second.bytes[CHANGED]--;
    std::memcpy(first.bytes + ROUND, &round, 8);
    update_row(session, one, first);
    update_row(session, other, second);
    commit(session);
}

static void run_updates(Engine &engine, const Config &config, Session &session, const char *name,
                        uint64_t seed) {
    Keys keys = Keys::uniform(config.rows, seed, 2 * config.transactions);
    Figure figure(engine, config, name);
    Checksum sum;
    for (uint64_t round = 0; round < config.transactions; round++) {
        uint64_t one = keys.at(2 * round), other = keys.at(2 * round + 1);
        update_two(session, one, one == other ? one ^ 1 : other, round, sum);
    }
    figure.tell(config.transactions, sum);
}

static void run_scans(Engine &engine, const Config &config, Session &session) {
    Keys keys = Keys::uniform(config.rows, 3, config.fewer);
    uint64_t width = (1ull << 62) / config.rows * 100;
    Figure figure(engine, config, "scan100");
    Checksum sum;
    for (uint64_t at = 0; at < config.fewer; at++) {
        uint64_t low = sort_of(keys.at(at));
        session.begin(true);
        session.scan(low, low + width, sum);
        commit(session);
    }
    figure.tell(config.fewer, sum);
}

static void run_mixed(Engine &engine, const Config &config, Session &session) {
    Keys keys = Keys::zipf(config.rows, 4, config.drawn());
    Figure figure(engine, config, "mixed_zipf");
    Checksum sum;
    for (uint64_t at = 0; at < config.transactions; at++) {
        if (mixed(at) % 5 == 0) update_one(session, keys.at(at), sum);
        else read_one(session, keys.at(at), sum);
    }
    figure.tell(config.transactions, sum);
}

// Updates one key again and again beside an old reader.
static void run_hot(Engine &engine, const Config &config, Session &session) {
    const uint64_t key = 7, old_reads = 100;
    std::unique_ptr<Session> old(engine.session());
    Row row;
    Checksum updates, old_sum, new_sum;
    old->begin(true);
    if (!old->read(key, row)) stop("a row is missing");
    Figure updating(engine, config, "hot_update");
    for (uint64_t at = 0; at < config.hot; at++) update_one(session, key, updates);
    updating.tell(config.hot, updates);
    Figure old_reading(engine, config, "hot_old_read");
    for (uint64_t at = 0; at < old_reads; at++) read_row(*old, key, row, old_sum);
    old_reading.tell(old_reads, old_sum);
    Figure new_reading(engine, config, "hot_new_read");
    for (uint64_t at = 0; at < config.hot; at++) read_one(session, key, new_sum);
    new_reading.tell(config.hot, new_sum);
    commit(*old);
}

// Reads two rows and updates both, beside many readers that stay open.
static void run_beside_open(Engine &engine, const Config &config, Session &session) {
    std::vector<std::unique_ptr<Session>> open;
    Row row;
    for (uint64_t key = 0; key < config.open; key++) {
        open.emplace_back(engine.session());
        open.back()->begin(true);
        if (!open.back()->read(key, row)) stop("a row is missing");
    }
    run_updates(engine, config, session, "open_read2_update2", 5);
    for (auto &reader : open) commit(*reader);
}

static void run_all(Engine &engine, const Config &config) {
    engine.open(config.folder, config.in_memory);
    std::unique_ptr<Session> session(engine.session());
    run_load(engine, config, *session);
    run_reads(engine, config, *session);
    if (config.has("updates")) run_updates(engine, config, *session, "read2_update2", 2);
    if (config.has("scans")) run_scans(engine, config, *session);
    if (config.has("mixed")) run_mixed(engine, config, *session);
    if (config.has("hot")) run_hot(engine, config, *session);
    if (config.has("open")) run_beside_open(engine, config, *session);
    session.reset();
    engine.close();
}

static int run_peer(Engine &engine, int count, char **words) {
    Config config;
    for (int at = 1; at < count; at++) config.take(words[at]);
    if (config.folder.empty()) stop("the folder is missing");
    if (config.rows % 2 || config.rows <= std::max<uint64_t>(config.open, 8)) {
        stop("rows has to be even, and more than 8 and than open");
    }
    run_all(engine, config);
    return 0;
}
