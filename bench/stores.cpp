// The work of `slate - gen ROUNDS SEED` by other stores, for bench/run: the same rounds of the same draws, and the same line.
//
// `sqlite ROUNDS SEED` does them by SQLite in memory, where a flush has nothing to do. `rocksdb FOLDER ROUNDS SEED` does them by RocksDB
// with its defaults, in a folder that isn't there yet, and `rocksdb-unflushed FOLDER ROUNDS SEED` leaves its flushes out. WITH_SQLITE and
// WITH_ROCKSDB say which store is built in, so that a program of one loads no library of the other.
#include <cstdint>
#include <iostream>
#include <memory>
#include <stdexcept>
#include <string>
#include <vector>

#ifdef WITH_SQLITE
#include <sqlite3.h>

class Sqlite {
    struct Close {
        void operator()(sqlite3 *database) const { sqlite3_close(database); }
        void operator()(sqlite3_stmt *statement) const { sqlite3_finalize(statement); }
    };
    using Statement = std::unique_ptr<sqlite3_stmt, Close>;

    std::unique_ptr<sqlite3, Close> database;
    Statement beginning, getting, putting, committing;

    void expect(bool is_well) const {
        if (!is_well) throw std::runtime_error(sqlite3_errmsg(database.get()));
    }

    Statement prepare(const char *text) const {
        sqlite3_stmt *prepared = nullptr;
        expect(sqlite3_prepare_v3(database.get(), text, -1, SQLITE_PREPARE_PERSISTENT, &prepared, nullptr) == SQLITE_OK);
        return Statement(prepared);
    }

    void lend(const Statement &statement, int place, const std::string &blob) const {
        expect(sqlite3_bind_blob(statement.get(), place, blob.data(), static_cast<int>(blob.size()), SQLITE_STATIC) == SQLITE_OK);
    }

    // Runs a statement up to its first row, and says whether it has one, whose first field goes into `value`.
    bool run(const Statement &statement, std::string *value = nullptr) const {
        const int status = sqlite3_step(statement.get());
        expect(status == SQLITE_ROW || status == SQLITE_DONE);
        if (value && status == SQLITE_ROW) {
            const void *bytes = sqlite3_column_blob(statement.get(), 0);
            value->assign(static_cast<const char *>(bytes), sqlite3_column_bytes(statement.get(), 0));
        }
        sqlite3_reset(statement.get());
        return status == SQLITE_ROW;
    }

  public:
    Sqlite() {
        sqlite3 *opened = nullptr;
        const int status = sqlite3_open(":memory:", &opened);
        database.reset(opened);
        expect(status == SQLITE_OK);
        run(prepare("CREATE TABLE pairs (key BLOB PRIMARY KEY, value BLOB NOT NULL) WITHOUT ROWID"));
        beginning = prepare("BEGIN IMMEDIATE");
        getting = prepare("SELECT value FROM pairs WHERE key = ?");
        putting = prepare("INSERT OR REPLACE INTO pairs VALUES (?, ?)");
        committing = prepare("COMMIT");
    }

    void begin() { run(beginning); }
    void commit() { run(committing); }
    void flush() {}
    bool get(const std::string &key, std::string &value) {
        lend(getting, 1, key);
        return run(getting, &value);
    }
    void put(const std::string &key, const std::string &value) {
        lend(putting, 1, key);
        lend(putting, 2, value);
        run(putting);
    }
};
#endif

#ifdef WITH_ROCKSDB
#include <rocksdb/utilities/optimistic_transaction_db.h>
#include <rocksdb/utilities/transaction.h>

class RocksDb {
    const bool flushes;
    std::unique_ptr<rocksdb::OptimisticTransactionDB> database;
    std::unique_ptr<rocksdb::Transaction> transaction;

    static void expect(const rocksdb::Status &status) {
        if (!status.ok()) throw std::runtime_error(status.ToString());
    }

  public:
    RocksDb(const std::string &folder, bool flushes) : flushes(flushes) {
        rocksdb::Options options;
        options.create_if_missing = options.error_if_exists = true;
        rocksdb::OptimisticTransactionDB *opened = nullptr;
        expect(rocksdb::OptimisticTransactionDB::Open(options, folder, &opened));
        database.reset(opened);
    }

    // It reads what is there at its begin, and takes over the object of the one before.
    void begin() {
        rocksdb::OptimisticTransactionOptions options;
        options.set_snapshot = true;
        transaction.reset(database->BeginTransaction(rocksdb::WriteOptions(), options, transaction.release()));
    }

    void commit() { expect(transaction->Commit()); }
    void flush() { expect(flushes ? database->Flush(rocksdb::FlushOptions()) : rocksdb::Status::OK()); }

    // As for an update, so that the commit is refused where the key has been written since the begin.
    bool get(const std::string &key, std::string &value) {
        rocksdb::ReadOptions options;
        options.snapshot = transaction->GetSnapshot();
        const rocksdb::Status status = transaction->GetForUpdate(options, key, &value);
        if (!status.IsNotFound()) expect(status);
        return status.ok();
    }

    void put(const std::string &key, const std::string &value) { expect(transaction->Put(key, value)); }
};
#endif

static std::uint64_t drawn(std::uint64_t x) { return x * 6364136223846793005 + 1442695040888963407; }
static std::string key_of(std::uint64_t x) { return "k" + std::to_string((x >> 33) % 1000); }

// Does the rounds, and writes how many replies slate would give, how many commits there were, and how many gets found a row.
template <class Store> static int do_rounds(Store store, std::uint64_t rounds, std::uint64_t x) {
    std::uint64_t replies = 0, committed = 0, hits = 0;
    std::string value;
    while (committed < rounds) {
        const std::uint64_t read = drawn(x);
        x = drawn(read);
        store.begin();
        hits += store.get(key_of(read), value);
        store.put(key_of(x), "v" + std::to_string(++committed));
        store.commit();
        replies += 4;
        if (committed % 64 == 0) {
            store.flush();
            replies++;
        }
    }
    store.flush();
    std::cout << "replies " << replies + 1 << " committed " << committed << " hits " << hits << '\n';
    return 0;
}

int main(int count, char **given) {
    const std::vector<std::string> words(given + 1, given + count);
    try {
#ifdef WITH_SQLITE
        if (words.size() == 3 && words[0] == "sqlite") return do_rounds(Sqlite(), std::stoull(words[1]), std::stoull(words[2]));
#endif
#ifdef WITH_ROCKSDB
        const bool flushes = words.size() == 4 && words[0] == "rocksdb";
        if (flushes || (words.size() == 4 && words[0] == "rocksdb-unflushed"))
            return do_rounds(RocksDb(words[1], flushes), std::stoull(words[2]), std::stoull(words[3]));
#endif
    } catch (const std::exception &error) {
        std::cerr << "stores: " << error.what() << '\n';
        return 1;
    }
    return 2;
}
