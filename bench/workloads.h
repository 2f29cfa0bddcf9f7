// The workloads of crates/bench over LevelDB's public interface, which RocksDB took over. `Of`
// names the types of the one or the other.
#ifndef BENCH_WORKLOADS_H_
#define BENCH_WORKLOADS_H_

#include <functional>
#include <map>
#include <memory>
#include <string>
#include <string_view>

#include "twin.h"

namespace twin {

template <typename Of>
struct Workloads {
  using DB = typename Of::DB;
  using Slice = typename Of::Slice;
  using Status = typename Of::Status;
  using Iterator = typename Of::Iterator;
  using Reading = typename Of::ReadOptions;
  using Writing = typename Of::WriteOptions;
  using Batch = typename Of::WriteBatch;
  using Workload = std::function<Status(DB*, const Reading&, uint64_t, Tally*)>;

  static Slice Cut(std::string_view bytes) { return Slice(bytes.data(), bytes.size()); }
  static std::string_view Seen(const Slice& bytes) { return {bytes.data(), bytes.size()}; }

  static Writing Synced(bool sync) {
    Writing options;
    options.sync = sync;
    return options;
  }

  static Status PutEach(DB* db, Keys keys, uint64_t count, bool sync, Tally* tally) {
    Values values;
    for (uint64_t i = 0; i < count; i++) {
      const std::string_view key = keys.NextKey(), value = values.NextValue();
      tally->Count(key, value);
      const Status status = db->Put(Synced(sync), Cut(key), Cut(value));
      if (!status.ok()) return status;
    }
    return Status::OK();
  }

  static Status PutBatches(DB* db, Keys keys, uint64_t count, Tally* tally) {
    Values values;
    for (uint64_t i = 0; i < count / kBatched; i++) {
      Batch batch;
      for (uint64_t j = 0; j < kBatched; j++) {
        const std::string_view key = keys.NextKey(), value = values.NextValue();
        batch.Put(Cut(key), Cut(value));
        tally->Count(key, value);
      }
      const Status status = db->Write(Synced(false), &batch);
      if (!status.ok()) return status;
    }
    return Status::OK();
  }

  static Status DeleteEach(DB* db, Keys keys, uint64_t count, Tally* tally) {
    for (uint64_t i = 0; i < count; i++) {
      const std::string_view key = keys.NextKey();
      tally->Count(key, {});
      const Status status = db->Delete(Synced(false), Cut(key));
      if (!status.ok()) return status;
    }
    return Status::OK();
  }

  static Status GetEach(DB* db, const Reading& reading, Keys keys, Next next, uint64_t count, Tally* tally) {
    std::string value;
    for (uint64_t i = 0; i < count; i++) {
      const std::string_view key = (keys.*next)();
      const Status status = db->Get(reading, Cut(key), &value);
      if (status.ok()) {
        tally->Count(key, value);
      } else if (!status.IsNotFound()) {
        return status;
      }
    }
    return Status::OK();
  }

  static Status Walk(DB* db, const Reading& reading, bool backwards, Tally* tally) {
    std::unique_ptr<Iterator> pairs(db->NewIterator(reading));
    if (backwards) {
      for (pairs->SeekToLast(); pairs->Valid(); pairs->Prev()) tally->Count(Seen(pairs->key()), Seen(pairs->value()));
    } else {
      for (pairs->SeekToFirst(); pairs->Valid(); pairs->Next()) tally->Count(Seen(pairs->key()), Seen(pairs->value()));
    }
    return pairs->status();
  }

  static Status SeekEach(DB* db, const Reading& reading, Keys keys, uint64_t count, Tally* tally) {
    for (uint64_t i = 0; i < count; i++) {
      std::unique_ptr<Iterator> pairs(db->NewIterator(reading));
      pairs->Seek(Cut(keys.NextKey()));
      for (int step = 0; pairs->Valid(); step++) {
        tally->Count(Seen(pairs->key()), Seen(pairs->value()));
        if (step == kStepsASeek) break;
        pairs->Next();
      }
      if (!pairs->status().ok()) return pairs->status();
    }
    return Status::OK();
  }

  static Workload Putting(Keys (*keys)(uint64_t), bool sync) {
    return [keys, sync](DB* db, const Reading&, uint64_t n, Tally* tally) { return PutEach(db, keys(n), sync ? kSyncedWrites : n, sync, tally); };
  }

  static Workload Getting(uint64_t parts, Next next) {
    return [parts, next](DB* db, const Reading& reading, uint64_t n, Tally* tally) {
      return GetEach(db, reading, Keys::Drawn(kRead, n / parts), next, n, tally);
    };
  }

  static Workload Walking(bool backwards) {
    return [backwards](DB* db, const Reading& reading, uint64_t, Tally* tally) { return Walk(db, reading, backwards, tally); };
  }

  static Keys Rising(uint64_t) { return Keys::Rising(); }
  static Keys Written(uint64_t n) { return Keys::Drawn(kWritten, n); }
  static Keys Rewritten(uint64_t n) { return Keys::Drawn(kRewritten, n); }

  // By their names (crates/bench/src/workload.rt), all but what is only one database's.
  static std::map<std::string, Workload> Shared() {
    return {
        {"fillseq", Putting(&Rising, false)},
        {"fillrandom", Putting(&Written, false)},
        {"fillsync", Putting(&Written, true)},
        {"overwrite", Putting(&Rewritten, false)},
        {"fillbatch", [](DB* db, const Reading&, uint64_t n, Tally* tally) { return PutBatches(db, Keys::Rising(), n, tally); }},
        {"deleterandom", [](DB* db, const Reading&, uint64_t n, Tally* tally) { return DeleteEach(db, Rewritten(n), n, tally); }},
        {"readrandom", Getting(1, &Keys::NextKey)},
        {"readmissing", Getting(1, &Keys::NextMissing)},
        {"readnear", Getting(1, &Keys::NextNear)},
        {"readhot", Getting(100, &Keys::NextKey)},
        {"readseq", Walking(false)},
        {"readreverse", Walking(true)},
        {"seekrandom",
         [](DB* db, const Reading& reading, uint64_t n, Tally* tally) { return SeekEach(db, reading, Keys::Drawn(kRead, n), n / 10, tally); }},
        {"open", [](DB*, const Reading&, uint64_t, Tally*) { return Status::OK(); }},
    };
  }
};

}  // namespace twin

#endif  // BENCH_WORKLOADS_H_
