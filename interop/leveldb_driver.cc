// LevelDB itself, by its public interface, for the checks of this folder.
//
//     leveldb_driver version                 the version of LevelDB, as 1.23
//     leveldb_driver dump FLAGS FOLDER       opens a database and prints its pairs, one line each
//     leveldb_driver get FLAGS FOLDER        prints the value of each key of its input, or "none"
//     leveldb_driver seek FLAGS FOLDER       prints the first pair not before each key, or "end"
//     leveldb_driver write FLAGS FOLDER      applies the lines of standard input
//     leveldb_driver script FLAGS FOLDER     answers the lines of a script of `ldbtool run`
//     leveldb_driver maps FLAGS              prints the pairs of each folder that its input names
//     leveldb_driver history FLAGS FOLDER    makes a database by a random history
//     leveldb_driver file FLAGS FILE         prints a MANIFEST, a log or a table (DumpFile)
//     leveldb_driver compact FLAGS FOLDER    compacts all of a database (CompactRange)
//     leveldb_driver repair FLAGS FOLDER     makes a database of a folder's files (RepairDB)
//     leveldb_driver hold FLAGS FOLDER       opens, prints "held", and closes at its input's end
//
// Keys and values are in hexadecimal, "-" for the empty string. The lines of `write` are "put KEY
// VALUE" and "del KEY"; those between "begin" and "end" are one batch. `write` and `maps` make a
// database if there is none. After each folder `maps` prints "end", or "refused" and why. A history
// has opens, writes, deletes, batches, snapshots and compactions, each open with its own options. A
// script may have open, close, put, del, write, compact all and work. LevelDB works by itself, so
// `work` is answered "idle".
//
// The status is 1 if LevelDB refuses, with its words on standard error, and 2 if the command line
// or a line of input is wrong. Every database is opened with paranoid_checks, read with
// verify_checksums, and without compression and filter policy if no flag says otherwise. FLAGS are
//
//     --reuse              goes on with the log and the MANIFEST that are there (reuse_logs); without
//                          it LevelDB moves what the logs hold into a table
//     --other-comparator   orders the keys by a comparator of another name
//     --reverse            orders the keys by reversed bytes, as `ldbtool --order reverse` does
//     --filter             a Bloom filter of 10 bits a key
//     --snappy             compression by Snappy
//     --block-bytes=N      block_size
//     --restarts=N         block_restart_interval
//     --file-bytes=N       max_file_size
//     --write-buffer=N     write_buffer_size (LevelDB takes 65,536 for less)
//     --lenient            no paranoid_checks
//     --unverified         no verify_checksums
//     --on                 `get` prints "refused" for a key that is refused, and goes on
//     --backwards          `dump` goes from the last pair to the first
//     --seed=N             which history
//     --operations=N       how many operations a history has (10000)

#include <unistd.h>

#include <cstdint>
#include <cstdlib>
#include <iostream>
#include <memory>
#include <random>
#include <sstream>
#include <string>
#include <vector>

#include "leveldb/comparator.h"
#include "leveldb/db.h"
#include "leveldb/dumpfile.h"
#include "leveldb/env.h"
#include "leveldb/filter_policy.h"
#include "leveldb/iterator.h"
#include "leveldb/options.h"
#include "leveldb/write_batch.h"

namespace {

constexpr int kRefused = 1;
constexpr int kMisused = 2;

int Refuse(const leveldb::Status& status) {
  std::cerr << status.ToString() << "\n";
  return kRefused;
}

std::string ToHex(const leveldb::Slice& bytes) {
  if (bytes.empty()) return "-";
  static const char digits[] = "0123456789abcdef";
  std::string text;
  for (size_t i = 0; i < bytes.size(); i++) {
    const unsigned char byte = static_cast<unsigned char>(bytes[i]);
    text.push_back(digits[byte >> 4]);
    text.push_back(digits[byte & 15]);
  }
  return text;
}

bool FromHex(const std::string& text, std::string* bytes) {
  bytes->clear();
  if (text == "-") return true;
  if (text.empty() || text.size() % 2 != 0 ||
      text.find_first_not_of("0123456789abcdef") != std::string::npos) {
    return false;
  }
  for (size_t i = 0; i < text.size(); i += 2) {
    bytes->push_back(static_cast<char>(std::stoi(text.substr(i, 2), nullptr, 16)));
  }
  return true;
}

// LevelDB's own order under another name.
class OtherComparator : public leveldb::Comparator {
 public:
  int Compare(const leveldb::Slice& a, const leveldb::Slice& b) const override { return a.compare(b); }
  const char* Name() const override { return "interop.OtherComparator"; }
  void FindShortestSeparator(std::string*, const leveldb::Slice&) const override {}
  void FindShortSuccessor(std::string*) const override {}
};

// LevelDB's own order reversed, so that a proper prefix comes last, under the name that
// `ldbtool --order reverse` records. No key is shortened: what lies between two keys in one order
// doesn't in the other.
class ReverseComparator : public leveldb::Comparator {
 public:
  int Compare(const leveldb::Slice& a, const leveldb::Slice& b) const override { return b.compare(a); }
  const char* Name() const override { return "ldbtool.ReverseBytewiseComparator"; }
  void FindShortestSeparator(std::string*, const leveldb::Slice&) const override {}
  void FindShortSuccessor(std::string*) const override {}
};

struct Database {
  std::string folder;
  leveldb::Options options;
  leveldb::ReadOptions reads;
  bool backwards = false;
  bool goes_on = false;
  uint64_t seed = 0;
  int operations = 10000;
};

// Holds what the flags say of a database. The comparator and the filter policy live to the end of
// the program.
bool TakeFlag(const std::string& flag, Database* database) {
  static const OtherComparator other;
  static const ReverseComparator reverse;
  static const leveldb::FilterPolicy* const bloom = leveldb::NewBloomFilterPolicy(10);
  const size_t equals = flag.find('=');
  const std::string name = flag.substr(0, equals);
  const long number = equals == std::string::npos ? 0 : std::atol(flag.c_str() + equals + 1);
  leveldb::Options& options = database->options;
  if (name == "--reuse") {
    options.reuse_logs = true;
  } else if (name == "--other-comparator") {
    options.comparator = &other;
  } else if (name == "--reverse") {
    options.comparator = &reverse;
  } else if (name == "--filter") {
    options.filter_policy = bloom;
  } else if (name == "--snappy") {
    options.compression = leveldb::kSnappyCompression;
  } else if (name == "--block-bytes" && number > 0) {
    options.block_size = number;
  } else if (name == "--restarts" && number > 0) {
    options.block_restart_interval = number;
  } else if (name == "--file-bytes" && number > 0) {
    options.max_file_size = number;
  } else if (name == "--write-buffer" && number > 0) {
    options.write_buffer_size = number;
  } else if (name == "--lenient") {
    options.paranoid_checks = false;
  } else if (name == "--unverified") {
    database->reads.verify_checksums = false;
  } else if (name == "--on") {
    database->goes_on = true;
  } else if (name == "--backwards") {
    database->backwards = true;
  } else if (name == "--seed") {
    database->seed = number;
  } else if (name == "--operations" && number > 0) {
    database->operations = number;
  } else {
    return false;
  }
  return true;
}

leveldb::Status Open(const Database& database, bool may_create, std::unique_ptr<leveldb::DB>* db) {
  leveldb::Options options = database.options;
  options.create_if_missing = may_create;
  leveldb::DB* opened = nullptr;
  const leveldb::Status status = leveldb::DB::Open(options, database.folder, &opened);
  db->reset(opened);
  return status;
}

leveldb::Status Print(const Database& database, bool may_create) {
  std::unique_ptr<leveldb::DB> db;
  leveldb::Status status = Open(database, may_create, &db);
  if (!status.ok()) return status;
  std::unique_ptr<leveldb::Iterator> pairs(db->NewIterator(database.reads));
  if (database.backwards) {
    pairs->SeekToLast();
  } else {
    pairs->SeekToFirst();
  }
  while (pairs->Valid()) {
    std::cout << ToHex(pairs->key()) << " " << ToHex(pairs->value()) << "\n";
    if (database.backwards) {
      pairs->Prev();
    } else {
      pairs->Next();
    }
  }
  return pairs->status();
}

int Dump(const Database& database) {
  const leveldb::Status status = Print(database, false);
  return status.ok() ? 0 : Refuse(status);
}

int Maps(Database database) {
  while (std::getline(std::cin, database.folder)) {
    const leveldb::Status status = Print(database, true);
    std::cout << (status.ok() ? "end" : "refused " + status.ToString()) << std::endl;
  }
  return 0;
}

// Reads the key of the next line, if there is one. A line without a key is told, and is the last.
bool NextKey(std::string* key, int* ended) {
  std::string line;
  if (!std::getline(std::cin, line)) return false;
  if (FromHex(line, key)) return true;
  std::cerr << "no key: " << line << "\n";
  *ended = kMisused;
  return false;
}

int Get(const Database& database) {
  std::unique_ptr<leveldb::DB> db;
  leveldb::Status status = Open(database, false, &db);
  if (!status.ok()) return Refuse(status);
  int ended = 0;
  for (std::string key, value; NextKey(&key, &ended);) {
    status = db->Get(database.reads, key, &value);
    const bool refused = !status.ok() && !status.IsNotFound();
    if (refused && !database.goes_on) return Refuse(status);
    std::cout << (refused ? "refused" : status.ok() ? ToHex(value) : "none") << "\n";
  }
  return ended;
}

int Seek(const Database& database) {
  std::unique_ptr<leveldb::DB> db;
  const leveldb::Status status = Open(database, false, &db);
  if (!status.ok()) return Refuse(status);
  std::unique_ptr<leveldb::Iterator> pairs(db->NewIterator(database.reads));
  int ended = 0;
  for (std::string key; NextKey(&key, &ended);) {
    pairs->Seek(key);
    if (!pairs->status().ok()) return Refuse(pairs->status());
    std::cout << (pairs->Valid() ? ToHex(pairs->key()) + " " + ToHex(pairs->value()) : "end") << "\n";
  }
  return ended;
}

int Compact(const Database& database) {
  std::unique_ptr<leveldb::DB> db;
  const leveldb::Status status = Open(database, false, &db);
  if (!status.ok()) return Refuse(status);
  db->CompactRange(nullptr, nullptr);
  return 0;
}

int Repair(const Database& database) {
  const leveldb::Status status = leveldb::RepairDB(database.folder, database.options);
  return status.ok() ? 0 : Refuse(status);
}

// Adds the operation that a line spells.
bool AddLine(const std::string& line, leveldb::WriteBatch* batch) {
  std::istringstream words(line);
  std::string verb, first, second, key, value;
  words >> verb >> first >> second;
  if (verb == "put" && FromHex(first, &key) && FromHex(second, &value)) {
    batch->Put(key, value);
    return true;
  }
  if (verb == "del" && FromHex(first, &key) && second.empty()) {
    batch->Delete(key);
    return true;
  }
  return false;
}

int Write(const Database& database) {
  std::unique_ptr<leveldb::DB> db;
  leveldb::Status status = Open(database, true, &db);
  if (!status.ok()) return Refuse(status);
  leveldb::WriteBatch batch;
  bool in_batch = false;
  for (std::string line; std::getline(std::cin, line);) {
    if (line == "begin" || line == "end") {
      in_batch = line == "begin";
    } else if (!AddLine(line, &batch)) {
      std::cerr << "no line of a script: " << line << "\n";
      return kMisused;
    }
    if (in_batch) continue;
    status = db->Write(leveldb::WriteOptions(), &batch);
    if (!status.ok()) return Refuse(status);
    batch.Clear();
  }
  return 0;
}

// A database that the lines of a script open and close.
class Scripted {
 public:
  explicit Scripted(const Database& database) : database_(database) {}

  // Returns the answer to a line, or nothing if it is no line of a script.
  std::string Answer(const std::string& line) {
    std::istringstream words(line);
    std::string verb, rest;
    words >> verb;
    if (verb == "open") return Told(Open(database_, true, &db_));
    if (verb == "close") {
      db_.reset();
      return "ok";
    }
    if (!db_) return "";
    if (verb == "work") return "idle";
    if (verb == "compact") {
      db_->CompactRange(nullptr, nullptr);
      return "ok";
    }
    leveldb::WriteBatch batch;
    leveldb::WriteOptions how;
    how.sync = line.compare(0, 10, "write sync") == 0;
    std::getline(words, rest);
    if (!AddWords(verb == "write" ? rest : line, &batch)) return "";
    return Told(db_->Write(how, &batch));
  }

 private:
  static std::string Told(const leveldb::Status& status) { return status.ok() ? "ok" : "refused " + status.ToString(); }

  // Adds operations that stand one after the other.
  static bool AddWords(const std::string& text, leveldb::WriteBatch* batch) {
    std::istringstream words(text);
    for (std::string verb, key, value; words >> verb;) {
      if (verb == "sync") continue;
      words >> key;
      if (verb == "put") words >> value;
      if (!AddLine(verb == "put" ? verb + " " + key + " " + value : verb + " " + key, batch)) return false;
    }
    return true;
  }

  const Database database_;
  std::unique_ptr<leveldb::DB> db_;
};

int Script(const Database& database) {
  Scripted scripted(database);
  for (std::string line; std::getline(std::cin, line);) {
    const std::string answer = scripted.Answer(line);
    if (answer.empty()) {
      std::cerr << "no line of a script: " << line << "\n";
      return kMisused;
    }
    // (by the call that tools/faults/recording_calls.c sees)
    const std::string text = answer + "\n";
    if (write(STDOUT_FILENO, text.data(), text.size()) < 0) return kRefused;
  }
  return 0;
}

// Draws the choices of a history.
class Chance {
 public:
  explicit Chance(uint64_t seed) : bits_(seed) {}

  uint64_t Below(uint64_t n) { return bits_() % n; }

  template <typename T, size_t N>
  T OneOf(const T (&choices)[N]) {
    return choices[Below(N)];
  }

  std::string Bytes(size_t length) {
    std::string bytes;
    while (bytes.size() < length) bytes.push_back(static_cast<char>(Below(256)));
    return bytes;
  }

  // Draws one of some thousand keys: most share prefixes, some have any bytes, one is empty.
  std::string Key() {
    const uint64_t n = Below(4000);
    if (n == 0) return "";
    if (n % 7 == 0) return Chance(n).Bytes(1 + n % 19);
    std::string digits = std::to_string(n);
    return (n % 2 == 0 ? "key" : "another-key/") + std::string(6 - digits.size(), '0') + digits;
  }

  std::string Value() {
    const uint64_t n = Below(100);
    if (n < 5) return "";
    return Bytes(n < 97 ? Below(400) : Below(9000));
  }

 private:
  std::mt19937_64 bits_;
};

leveldb::Options ChosenOptions(const leveldb::Options& given, Chance* chance) {
  static const leveldb::FilterPolicy* const bloom = leveldb::NewBloomFilterPolicy(10);
  leveldb::Options options = given;
  options.create_if_missing = true;
  options.reuse_logs = chance->Below(2) == 0;
  options.write_buffer_size = chance->OneOf({64 << 10, 64 << 10, 96 << 10, 256 << 10});
  options.max_file_size = 1 << 20;
  options.block_size = chance->OneOf({512, 1024, 2048, 4096, 16384});
  options.block_restart_interval = chance->OneOf({1, 2, 5, 16, 32});
  options.filter_policy = chance->Below(2) == 0 ? bloom : nullptr;
  return options;
}

void CompactSome(leveldb::DB* db, const leveldb::Comparator* comparator, Chance* chance) {
  std::string first = chance->Key(), last = chance->Key();
  if (comparator->Compare(last, first) < 0) std::swap(first, last);
  const leveldb::Slice begin = first, end = last;
  const bool all = chance->Below(4) == 0;
  db->CompactRange(all ? nullptr : &begin, all ? nullptr : &end);
}

void AddSome(leveldb::WriteBatch* batch, Chance* chance, uint64_t count) {
  for (uint64_t i = 0; i < count; i++) {
    if (chance->Below(5) == 0) {
      batch->Delete(chance->Key());
    } else {
      batch->Put(chance->Key(), chance->Value());
    }
  }
}

// Does one open with so many writes. Snapshots keep old versions of keys through the compactions
// meanwhile.
leveldb::Status Live(leveldb::DB* db, const leveldb::Comparator* comparator, Chance* chance, int operations) {
  std::vector<const leveldb::Snapshot*> snapshots;
  leveldb::Status status;
  for (int done = 0; done < operations && status.ok();) {
    const uint64_t count = chance->Below(20) == 0 ? chance->Below(60) : 1;
    leveldb::WriteBatch batch;
    AddSome(&batch, chance, count);
    leveldb::WriteOptions how;
    how.sync = chance->Below(500) == 0;
    status = db->Write(how, &batch);
    done += count;
    if (chance->Below(600) == 0) CompactSome(db, comparator, chance);
    if (chance->Below(200) == 0) snapshots.push_back(db->GetSnapshot());
    if (chance->Below(400) == 0 && !snapshots.empty()) {
      db->ReleaseSnapshot(snapshots.back());
      snapshots.pop_back();
    }
  }
  for (const leveldb::Snapshot* snapshot : snapshots) db->ReleaseSnapshot(snapshot);
  return status;
}

int History(const Database& database) {
  Chance chance(database.seed);
  const int opens = 1 + chance.Below(6);
  for (int i = 0; i < opens; i++) {
    leveldb::DB* opened = nullptr;
    leveldb::Status status = leveldb::DB::Open(ChosenOptions(database.options, &chance), database.folder, &opened);
    std::unique_ptr<leveldb::DB> db(opened);
    if (status.ok()) status = Live(db.get(), database.options.comparator, &chance, database.operations / opens);
    if (!status.ok()) return Refuse(status);
  }
  return 0;
}

// A file that is standard output.
class Output : public leveldb::WritableFile {
 public:
  leveldb::Status Append(const leveldb::Slice& data) override {
    std::cout.write(data.data(), data.size());
    return leveldb::Status::OK();
  }
  leveldb::Status Close() override { return leveldb::Status::OK(); }
  leveldb::Status Flush() override { return leveldb::Status::OK(); }
  leveldb::Status Sync() override { return leveldb::Status::OK(); }
};

int File(const Database& database) {
  Output output;
  const leveldb::Status status = leveldb::DumpFile(leveldb::Env::Default(), database.folder, &output);
  return status.ok() ? 0 : Refuse(status);
}

int Hold(const Database& database) {
  std::unique_ptr<leveldb::DB> db;
  const leveldb::Status status = Open(database, false, &db);
  if (!status.ok()) return Refuse(status);
  std::cout << "held" << std::endl;
  std::cin.ignore(1 << 20, EOF);
  return 0;
}

}  // namespace

int main(int argc, char** argv) {
  const std::string verb = argc > 1 ? argv[1] : "";
  if (verb == "version" && argc == 2) {
    std::cout << leveldb::kMajorVersion << "." << leveldb::kMinorVersion << "\n";
    return 0;
  }
  Database database;
  database.options.paranoid_checks = true;
  database.reads.verify_checksums = true;
  database.options.compression = leveldb::kNoCompression;
  bool misused = false;
  for (int i = 2; i < argc; i++) {
    const std::string word = argv[i];
    if (word.compare(0, 2, "--") != 0) {
      database.folder = word;
    } else if (!TakeFlag(word, &database)) {
      misused = true;
    }
  }
  if (!misused && database.folder.empty() && verb == "maps") return Maps(database);
  if (!misused && !database.folder.empty()) {
    if (verb == "dump") return Dump(database);
    if (verb == "get") return Get(database);
    if (verb == "seek") return Seek(database);
    if (verb == "write") return Write(database);
    if (verb == "script") return Script(database);
    if (verb == "history") return History(database);
    if (verb == "file") return File(database);
    if (verb == "compact") return Compact(database);
    if (verb == "repair") return Repair(database);
    if (verb == "hold") return Hold(database);
  }
  std::cerr << "usage: leveldb_driver version, or dump, get, seek, write, script, history, compact, repair, hold or file, then flags "
               "and a folder, or a file; or maps, then flags\n";
  return kMisused;
}
