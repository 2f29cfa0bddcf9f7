// The workloads of crates/bench over LevelDB itself, by its public interface, for bench/run (twin.h
// says how it is called).
//
// It compresses nothing and verifies checksums. HOW changes only how tables are read:
//
//   unverified    without verifying checksums, LevelDB's default
//   pread         by pread into memory, kept in the cache, as this database does; LevelDB maps them
//
// `latency` prints how long the slowest writes of drawn keys took, in nanoseconds, as
// `bench latency` does; its other line says nothing. `dump` prints each table and log of a folder
// as LevelDB does, without opening the database. `filllog` is `fillrandom` with a write buffer that
// takes all of it, so that a long log is left for both to open.

#include <fcntl.h>
#include <unistd.h>

#include <algorithm>
#include <cerrno>
#include <chrono>
#include <cstdint>
#include <cstdio>
#include <cstring>
#include <iostream>
#include <map>
#include <memory>
#include <string>
#include <vector>

#include "leveldb/cache.h"
#include "leveldb/db.h"
#include "leveldb/dumpfile.h"
#include "leveldb/env.h"
#include "leveldb/filter_policy.h"
#include "leveldb/iterator.h"
#include "leveldb/options.h"
#include "leveldb/write_batch.h"
#include "twin.h"
#include "workloads.h"

namespace {

using leveldb::DB;
using leveldb::Slice;
using leveldb::Status;
using twin::Keys;
using twin::Tally;

struct LevelDb {
  using DB = leveldb::DB;
  using Slice = leveldb::Slice;
  using Status = leveldb::Status;
  using Iterator = leveldb::Iterator;
  using ReadOptions = leveldb::ReadOptions;
  using WriteOptions = leveldb::WriteOptions;
  using WriteBatch = leveldb::WriteBatch;
};

using Over = twin::Workloads<LevelDb>;
constexpr auto Cut = Over::Cut;
using Reading = Over::Reading;
constexpr auto Synced = Over::Synced;
using Workload = Over::Workload;

// ---- tables that are read by pread

class ReadFile : public leveldb::RandomAccessFile {
 public:
  ReadFile(std::string name, int file) : name_(std::move(name)), file_(file) {}
  ~ReadFile() override { close(file_); }

  Status Read(uint64_t offset, size_t n, Slice* result, char* scratch) const override {
    const ssize_t got = pread(file_, scratch, n, static_cast<off_t>(offset));
    *result = Slice(scratch, got < 0 ? 0 : static_cast<size_t>(got));
    return got < 0 ? Status::IOError(name_, std::strerror(errno)) : Status::OK();
  }

 private:
  const std::string name_;
  const int file_;
};

// (LevelDB's own Env reads this way once a thousand files are mapped: util/env_posix.cc,
// `PosixRandomAccessFile`)
class ReadingEnv : public leveldb::EnvWrapper {
 public:
  ReadingEnv() : EnvWrapper(leveldb::Env::Default()) {}

  Status NewRandomAccessFile(const std::string& name, leveldb::RandomAccessFile** made) override {
    const int file = open(name.c_str(), O_RDONLY | O_CLOEXEC);
    *made = file < 0 ? nullptr : new ReadFile(name, file);
    return file < 0 ? Status::IOError(name, std::strerror(errno)) : Status::OK();
  }
};

// ---- the workloads that RocksDB's twin doesn't have

// Prints nanoseconds of writes: so many of a thousand took no longer (crates/bench/src/latency.rt).
Status PutTimed(DB* db, Keys keys, uint64_t count, Tally* tally) {
  using Clock = std::chrono::steady_clock;
  twin::Values values;
  std::vector<uint64_t> times;
  for (uint64_t i = 0; i < count; i++) {
    const std::string_view key = keys.NextKey(), value = values.NextValue();
    leveldb::WriteBatch batch;
    batch.Put(Cut(key), Cut(value));
    const Clock::time_point begun = Clock::now();
    const Status status = db->Write(Synced(false), &batch);
    times.push_back(std::chrono::duration_cast<std::chrono::nanoseconds>(Clock::now() - begun).count());
    if (!status.ok()) return status;
    tally->Count(key, value);
  }
  std::sort(times.begin(), times.end());
  const auto at = [&times](size_t thousandths) { return times[std::min(times.size() / 1000 * thousandths, times.size() - 1)]; };
  std::cout << "latency p50=" << at(500) << " p99=" << at(990) << " p99.9=" << at(999) << " slowest=" << times.back() << "\n";
  return Status::OK();
}

Status PutAndLookBack(DB* db, Reading reading, Keys keys, uint64_t count, Tally* tally) {
  twin::Values values;
  std::string before;
  for (uint64_t i = 0; i < count; i++) {
    const std::string_view key = keys.NextKey(), value = values.NextValue();
    reading.snapshot = db->GetSnapshot();
    Status status = db->Put(Synced(false), Cut(key), Cut(value));
    if (status.ok()) {
      status = db->Get(reading, Cut(key), &before);
      if (status.ok()) tally->Count(key, before);
    }
    db->ReleaseSnapshot(reading.snapshot);
    if (!status.ok() && !status.IsNotFound()) return status;
  }
  return Status::OK();
}

class Printed : public leveldb::WritableFile {
 public:
  Status Append(const Slice& text) override {
    return std::fwrite(text.data(), 1, text.size(), stdout) == text.size() ? Status::OK() : Status::IOError("standard output");
  }
  Status Close() override { return Status::OK(); }
  Status Flush() override { return Status::OK(); }
  Status Sync() override { return Status::OK(); }
};

bool EndsWith(const std::string& name, const std::string& end) {
  return name.size() >= end.size() && name.compare(name.size() - end.size(), end.size(), end) == 0;
}

// Does what `leveldbutil dump` does with these files; Debian has no such command.
Status Dump(const std::string& folder) {
  leveldb::Env* env = leveldb::Env::Default();
  std::vector<std::string> names;
  Status status = env->GetChildren(folder, &names);
  Printed printed;
  for (const std::string& name : names) {
    if (status.ok() && (EndsWith(name, ".ldb") || EndsWith(name, ".log"))) status = leveldb::DumpFile(env, folder + "/" + name, &printed);
  }
  return status;
}

const std::map<std::string, Workload>& Workloads() {
  static const std::map<std::string, Workload> workloads = [] {
    std::map<std::string, Workload> all = Over::Shared();
    all["filllog"] = all["fillrandom"];
    all["dump"] = nullptr;
    all["latency"] = [](DB* db, const Reading&, uint64_t n, Tally* tally) { return PutTimed(db, Over::Written(n), n, tally); };
    all["snapshotreads"] = [](DB* db, const Reading& reading, uint64_t n, Tally* tally) {
      return PutAndLookBack(db, reading, Over::Rewritten(n), n, tally);
    };
    all["settle"] = [](DB* db, const Reading&, uint64_t, Tally*) {
      db->CompactRange(nullptr, nullptr);
      return Status::OK();
    };
    return all;
  }();
  return workloads;
}

// ---- one run

leveldb::Options Sized(const std::string& workload) {
  leveldb::Options options;
  options.create_if_missing = true;
  options.write_buffer_size = workload == "filllog" ? 64 << 20 : 4 << 20;
  options.block_size = 4096;
  options.max_file_size = 2097152;
  options.compression = leveldb::kNoCompression;
  // (level 0 is compacted from 4 files on and level 1 above 10 MB; no option changes that)
  return options;
}

Status RunOver(const Workload& workload, const twin::Asked& asked, Tally* tally) {
  const std::unique_ptr<leveldb::Cache> cache(leveldb::NewLRUCache(8 << 20));
  const std::unique_ptr<const leveldb::FilterPolicy> filter(leveldb::NewBloomFilterPolicy(10));
  ReadingEnv env;
  leveldb::Options options = Sized(asked.workload);
  options.block_cache = cache.get();
  options.filter_policy = filter.get();
  if (asked.how == "pread") options.env = &env;
  DB* opened = nullptr;
  const Status status = DB::Open(options, asked.folder, &opened);
  const std::unique_ptr<DB> db(opened);
  Reading reading;
  reading.verify_checksums = asked.how != "unverified";
  return status.ok() ? workload(db.get(), reading, asked.number, tally) : status;
}

std::string Run(const Workload& workload, const twin::Asked& asked, Tally* tally) {
  const Status status = asked.workload == "dump" ? Dump(asked.folder) : RunOver(workload, asked, tally);
  return status.ok() ? "" : status.ToString();
}

}  // namespace

int main(int count, char** words) {
  return twin::Main<Workload>("leveldb_twin", {words + 1, words + count}, Workloads(), {"unverified", "pread"}, Run);
}
