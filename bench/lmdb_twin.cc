// The workloads of crates/bench over LMDB, for bench/run others (twin.h says how it is called).
//
// LMDB keeps one tree of pages of 4,096 bytes in a mapped file, and a write puts new pages into it
// at once. There is no log, buffer, cache, filter or checksum, and nothing to compact, so `settle`
// does nothing. Each write is its own transaction, without a sync (MDB_NOSYNC: LMDB promises
// nothing then after a power loss). Each get, iteration and seek has its own transaction, and sees
// what is there when it begins. A pair is lent from the map.

#include <lmdb.h>

#include <functional>
#include <map>
#include <string>
#include <string_view>

#include "twin.h"

namespace {

using twin::Keys;
using twin::Tally;

// The most that the file may take; only addresses are set aside for it.
constexpr size_t kMapBytes = size_t{64} << 30;

struct Database {
  MDB_env* env = nullptr;
  MDB_dbi tree = 0;
};

using Workload = std::function<int(const Database&, uint64_t, Tally*)>;

MDB_val Cut(std::string_view bytes) { return {bytes.size(), const_cast<char*>(bytes.data())}; }
std::string_view Seen(const MDB_val& bytes) { return {static_cast<const char*>(bytes.mv_data), bytes.mv_size}; }

// ---- writes

// Begins a transaction that writes, and commits it if the writes return 0.
template <typename Writes>
int Written(const Database& db, Writes writes) {
  MDB_txn* txn = nullptr;
  const int begun = mdb_txn_begin(db.env, nullptr, 0, &txn);
  if (begun != 0) return begun;
  const int fault = writes(txn);
  if (fault == 0) return mdb_txn_commit(txn);
  mdb_txn_abort(txn);
  return fault;
}

int Put(const Database& db, MDB_txn* txn, std::string_view key, std::string_view value, Tally* tally) {
  MDB_val key_bytes = Cut(key), value_bytes = Cut(value);
  tally->Count(key, value);
  return mdb_put(txn, db.tree, &key_bytes, &value_bytes, 0);
}

// Puts so many entries, some at once, and leaves out those that don't fill a batch. Syncs after
// each batch if asked.
int PutEach(const Database& db, Keys keys, uint64_t count, uint64_t batched, bool sync, Tally* tally) {
  twin::Values values;
  for (uint64_t i = 0; i < count / batched; i++) {
    int fault = Written(db, [&](MDB_txn* txn) {
      int put = 0;
      for (uint64_t j = 0; j < batched && put == 0; j++) put = Put(db, txn, keys.NextKey(), values.NextValue(), tally);
      return put;
    });
    if (fault == 0 && sync) fault = mdb_env_sync(db.env, 1);
    if (fault != 0) return fault;
  }
  return 0;
}

int DeleteEach(const Database& db, Keys keys, uint64_t count, Tally* tally) {
  for (uint64_t i = 0; i < count; i++) {
    const std::string_view key = keys.NextKey();
    tally->Count(key, {});
    const int fault = Written(db, [&](MDB_txn* txn) {
      MDB_val key_bytes = Cut(key);
      const int deleted = mdb_del(txn, db.tree, &key_bytes, nullptr);
      return deleted == MDB_NOTFOUND ? 0 : deleted;
    });
    if (fault != 0) return fault;
  }
  return 0;
}

// ---- reads

// A transaction that reads; it begins anew for each read.
class Reader {
 public:
  explicit Reader(const Database& db) : db_(db) { fault_ = mdb_txn_begin(db.env, nullptr, MDB_RDONLY, &txn_); }
  ~Reader() {
    if (txn_ != nullptr) mdb_txn_abort(txn_);
  }

  int fault() const { return fault_; }
  int Get(MDB_val* key, MDB_val* value) { return mdb_get(txn_, db_.tree, key, value); }
  int Cursor(MDB_cursor** made) { return mdb_cursor_open(txn_, db_.tree, made); }
  int Renew() {
    mdb_txn_reset(txn_);
    return mdb_txn_renew(txn_);
  }

 private:
  const Database& db_;
  MDB_txn* txn_ = nullptr;
  int fault_ = 0;
};

int GetEach(const Database& db, Keys keys, twin::Next next, uint64_t count, Tally* tally) {
  Reader reader(db);
  int fault = reader.fault();
  for (uint64_t i = 0; i < count && fault == 0; i++) {
    const std::string_view key = (keys.*next)();
    MDB_val key_bytes = Cut(key), value;
    fault = reader.Get(&key_bytes, &value);
    if (fault == 0) tally->Count(key, Seen(value));
    if (fault == 0 || fault == MDB_NOTFOUND) fault = reader.Renew();
  }
  return fault;
}

// Counts a pair and those after it, at most so many, and returns what ended that, or 0.
int CountOn(MDB_cursor* cursor, MDB_val key, MDB_cursor_op first, MDB_cursor_op next, uint64_t most, Tally* tally) {
  MDB_val value;
  int fault = mdb_cursor_get(cursor, &key, &value, first);
  for (uint64_t i = 0; i < most && fault == 0; i++) {
    tally->Count(Seen(key), Seen(value));
    if (i + 1 < most) fault = mdb_cursor_get(cursor, &key, &value, next);
  }
  return fault == MDB_NOTFOUND ? 0 : fault;
}

int Walk(const Database& db, MDB_cursor_op first, MDB_cursor_op next, Tally* tally) {
  Reader reader(db);
  MDB_cursor* cursor = nullptr;
  int fault = reader.fault();
  if (fault == 0) fault = reader.Cursor(&cursor);
  if (fault == 0) fault = CountOn(cursor, {}, first, next, UINT64_MAX, tally);
  if (cursor != nullptr) mdb_cursor_close(cursor);
  return fault;
}

int SeekEach(const Database& db, Keys keys, uint64_t count, Tally* tally) {
  Reader reader(db);
  int fault = reader.fault();
  for (uint64_t i = 0; i < count && fault == 0; i++) {
    MDB_cursor* cursor = nullptr;
    fault = reader.Cursor(&cursor);
    if (fault == 0) fault = CountOn(cursor, Cut(keys.NextKey()), MDB_SET_RANGE, MDB_NEXT, twin::kStepsASeek + 1, tally);
    if (cursor != nullptr) mdb_cursor_close(cursor);
    if (fault == 0) fault = reader.Renew();
  }
  return fault;
}

// ---- by their names (crates/bench/src/workload.rt)

Workload Putting(uint64_t seed) {
  return [seed](const Database& db, uint64_t n, Tally* tally) { return PutEach(db, Keys::Drawn(seed, n), n, 1, false, tally); };
}

Workload Getting(uint64_t parts, twin::Next next) {
  return [parts, next](const Database& db, uint64_t n, Tally* tally) { return GetEach(db, Keys::Drawn(twin::kRead, n / parts), next, n, tally); };
}

Workload Walking(MDB_cursor_op first, MDB_cursor_op next) {
  return [first, next](const Database& db, uint64_t, Tally* tally) { return Walk(db, first, next, tally); };
}

const Workload kNothing = [](const Database&, uint64_t, Tally*) { return 0; };

const std::map<std::string, Workload>& Workloads() {
  static const std::map<std::string, Workload> workloads = {
      {"fillseq", [](const Database& db, uint64_t n, Tally* tally) { return PutEach(db, Keys::Rising(), n, 1, false, tally); }},
      {"fillbatch", [](const Database& db, uint64_t n, Tally* tally) { return PutEach(db, Keys::Rising(), n, twin::kBatched, false, tally); }},
      {"fillrandom", Putting(twin::kWritten)},
      {"fillsync",
       [](const Database& db, uint64_t n, Tally* tally) { return PutEach(db, Keys::Drawn(twin::kWritten, n), twin::kSyncedWrites, 1, true, tally); }},
      {"overwrite", Putting(twin::kRewritten)},
      {"deleterandom", [](const Database& db, uint64_t n, Tally* tally) { return DeleteEach(db, Keys::Drawn(twin::kRewritten, n), n, tally); }},
      {"readrandom", Getting(1, &Keys::NextKey)},
      {"readmissing", Getting(1, &Keys::NextMissing)},
      {"readnear", Getting(1, &Keys::NextNear)},
      {"readhot", Getting(100, &Keys::NextKey)},
      {"readseq", Walking(MDB_FIRST, MDB_NEXT)},
      {"readreverse", Walking(MDB_LAST, MDB_PREV)},
      {"seekrandom", [](const Database& db, uint64_t n, Tally* tally) { return SeekEach(db, Keys::Drawn(twin::kRead, n), n / 10, tally); }},
      {"settle", kNothing},
      {"open", kNothing},
  };
  return workloads;
}

// ---- one run

int Opened(const std::string& folder, Database* db) {
  int fault = mdb_env_create(&db->env);
  if (fault == 0) fault = mdb_env_set_mapsize(db->env, kMapBytes);
  if (fault == 0) fault = mdb_env_open(db->env, folder.c_str(), MDB_NOSYNC, 0644);
  if (fault != 0) return fault;
  return Written(*db, [db](MDB_txn* txn) { return mdb_dbi_open(txn, nullptr, 0, &db->tree); });
}

std::string Run(const Workload& workload, const twin::Asked& asked, Tally* tally) {
  Database db;
  int fault = Opened(asked.folder, &db);
  if (fault == 0) fault = workload(db, asked.number, tally);
  if (db.env != nullptr) mdb_env_close(db.env);
  return fault == 0 ? "" : mdb_strerror(fault);
}

}  // namespace

int main(int count, char** words) {
  return twin::Main<Workload>("lmdb_twin", {words + 1, words + count}, Workloads(), {}, Run);
}
