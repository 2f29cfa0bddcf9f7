// The workloads of crates/bench over RocksDB, by its public interface, for bench/run others (twin.h
// says how it is called).
//
// Sizes, cache, filter and checksums are those of the other sides; all else is RocksDB's default.

#include <map>
#include <memory>
#include <string>

#include "rocksdb/cache.h"
#include "rocksdb/db.h"
#include "rocksdb/filter_policy.h"
#include "rocksdb/options.h"
#include "rocksdb/table.h"
#include "rocksdb/write_batch.h"
#include "twin.h"
#include "workloads.h"

namespace {

using rocksdb::DB;
using rocksdb::Status;
using twin::Tally;

struct RocksDb {
  using DB = rocksdb::DB;
  using Slice = rocksdb::Slice;
  using Status = rocksdb::Status;
  using Iterator = rocksdb::Iterator;
  using ReadOptions = rocksdb::ReadOptions;
  using WriteOptions = rocksdb::WriteOptions;
  using WriteBatch = rocksdb::WriteBatch;
};

using Over = twin::Workloads<RocksDb>;
using Workload = Over::Workload;

const std::map<std::string, Workload>& Workloads() {
  static const std::map<std::string, Workload> workloads = [] {
    std::map<std::string, Workload> all = Over::Shared();
    all["settle"] = [](DB* db, const Over::Reading&, uint64_t, Tally*) { return db->CompactRange({}, nullptr, nullptr); };
    return all;
  }();
  return workloads;
}

rocksdb::Options Sized() {
  rocksdb::BlockBasedTableOptions tables;
  tables.block_size = 4096;
  tables.block_cache = rocksdb::NewLRUCache(8 << 20);
  tables.filter_policy.reset(rocksdb::NewBloomFilterPolicy(10));
  tables.checksum = rocksdb::kCRC32c;
  rocksdb::Options options;
  options.create_if_missing = true;
  options.write_buffer_size = 4 << 20;
  options.target_file_size_base = 2097152;
  options.max_bytes_for_level_base = 10485760;
  options.level0_file_num_compaction_trigger = 4;
  options.compression = rocksdb::kNoCompression;
  options.table_factory.reset(rocksdb::NewBlockBasedTableFactory(tables));
  return options;
}

std::string Run(const Workload& workload, const twin::Asked& asked, Tally* tally) {
  DB* opened = nullptr;
  Status status = DB::Open(Sized(), asked.folder, &opened);
  const std::unique_ptr<DB> db(opened);
  if (!status.ok()) return status.ToString();
  rocksdb::ReadOptions reading;
  reading.verify_checksums = true;
  status = workload(db.get(), reading, asked.number, tally);
  return status.ok() ? "" : status.ToString();
}

}  // namespace

int main(int count, char** words) {
  return twin::Main<Workload>("rocksdb_twin", {words + 1, words + count}, Workloads(), {}, Run);
}
