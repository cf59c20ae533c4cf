// RocksDB with optimistic transactions: a skip list in memory. A row stands at 'r' and its key, and
// at 's', its sort and its key stands nothing. Reads of writers are validated; those that only read
// do it by a snapshot. In memory: no log, and one table of 4 GB. As a file: a log without syncs.
#include <rocksdb/db.h>
#include <rocksdb/options.h>
#include <rocksdb/utilities/optimistic_transaction_db.h>
#include <rocksdb/utilities/transaction.h>

#include "harness.h"

struct RocksSession : Session {
    rocksdb::OptimisticTransactionDB *database;
    rocksdb::WriteOptions writing;
    rocksdb::ReadOptions in_transaction, in_snapshot;
    rocksdb::OptimisticTransactionOptions options;
    rocksdb::Transaction *transaction = nullptr;
    rocksdb::PinnableSlice value;
    bool reads_only = false;

    ~RocksSession() { delete transaction; }

    void begin(bool only) override {
        reads_only = only;
        if (only) {
            in_snapshot.snapshot = database->GetSnapshot();
            return;
        }
        options.set_snapshot = true;
        transaction = database->BeginTransaction(writing, options, transaction);
        in_transaction.snapshot = transaction->GetSnapshot();
    }

    bool read(uint64_t key, Row &row) override {
        char bytes[9] = {'r'};
        write_ordered(bytes + 1, key);
        rocksdb::Slice place(bytes, sizeof bytes);
        auto *family = database->DefaultColumnFamily();
        value.Reset();
        auto status = reads_only ? database->Get(in_snapshot, family, place, &value)
                                 : transaction->GetForUpdate(in_transaction, family, place, &value);
        if (!status.ok()) return false;
        read_value(value.data(), row);
        return true;
    }

    bool put(uint64_t key, const Row &row) {
        char bytes[9] = {'r'}, content[VALUE_LEN];
        write_ordered(bytes + 1, key);
        write_value(content, row);
        rocksdb::Slice place(bytes, sizeof bytes);
        return transaction->Put(place, rocksdb::Slice(content, sizeof content)).ok();
    }

    // It asks first whether a row is there.
    bool insert(uint64_t key, const Row &row) override {
        Row old;
        if (read(key, old) || !put(key, row)) return false;
        char bytes[17] = {'s'};
        write_ordered(bytes + 1, row.sort);
        write_ordered(bytes + 9, key);
        return transaction->Put(rocksdb::Slice(bytes, sizeof bytes), rocksdb::Slice()).ok();
    }

    bool update(uint64_t key, const Row &row) override { return put(key, row); }

    void scan(uint64_t low, uint64_t high, Checksum &sum) override {
        char first[9] = {'s'}, behind[9] = {'s'};
        write_ordered(first + 1, low);
        write_ordered(behind + 1, high + 1);
        rocksdb::Slice bound(behind, sizeof behind);
        rocksdb::ReadOptions reading = reads_only ? in_snapshot : in_transaction;
        reading.iterate_upper_bound = &bound;
        std::unique_ptr<rocksdb::Iterator> walk(reads_only ? database->NewIterator(reading)
                                                           : transaction->GetIterator(reading));
        Row row;
        for (walk->Seek(rocksdb::Slice(first, sizeof first)); walk->Valid(); walk->Next()) {
            read_row(*this, read_ordered(walk->key().data() + 9), row, sum);
        }
    }

    bool commit() override {
        if (!reads_only) return transaction->Commit().ok();
        database->ReleaseSnapshot(in_snapshot.snapshot);
        in_snapshot.snapshot = nullptr;
        return true;
    }
};

struct Rocks : Engine {
    rocksdb::OptimisticTransactionDB *database = nullptr;
    bool in_memory;

    const char *name() override { return "rocksdb"; }

    void open(const std::string &folder, bool only_memory) override {
        in_memory = only_memory;
        rocksdb::Options options;
        options.create_if_missing = true;
        options.compression = rocksdb::kNoCompression;
        options.max_background_jobs = 1;
        options.write_buffer_size = 4ull << 30;
        options.arena_block_size = 32 << 20;
        if (!rocksdb::OptimisticTransactionDB::Open(options, folder, &database).ok()) stop("open");
    }

    Session *session() override {
        auto *session = new RocksSession;
        session->database = database;
        session->writing.disableWAL = in_memory;
        return session;
    }

    void close() override { delete database; }
};

int main(int count, char **words) {
    Rocks engine;
    return run_peer(engine, count, words);
}
