// What the twins of crates/bench share: the keys and the values of the workloads, the sum over what
// was written or found, and the command line.
//
//   TWIN WORKLOAD N DIR [HOW]    runs a workload over the database of an existing folder
//
// HOW is one of the words that the twin names. Keys, values, their order and the printed line are
// those of crates/bench. The status is 1 if the database refuses, with its words on standard error,
// and 2 if the command line is wrong.
#ifndef BENCH_TWIN_H_
#define BENCH_TWIN_H_

#include <sys/stat.h>

#include <cstdint>
#include <cstdlib>
#include <cstring>
#include <iostream>
#include <map>
#include <set>
#include <string>
#include <string_view>
#include <vector>

namespace twin {

// ---- keys and values (crates/bench/src/entries.rt)

constexpr size_t kKeyBytes = 16;
constexpr size_t kValueBytes = 100;
constexpr size_t kNoiseBytes = 1 << 20;
constexpr uint64_t kNoiseSeed = 301;

inline uint64_t Stepped(uint64_t state) { return state * 6364136223846793005u + 1442695040888963407u; }

// A key is valid until the next one is asked for.
class Keys {
 public:
  static Keys Rising() { return Keys(false, 0, 0); }
  static Keys Drawn(uint64_t seed, uint64_t below) { return Keys(true, seed, below); }

  std::string_view NextKey() {
    uint64_t rest = NextNumber();
    for (size_t i = kKeyBytes; i > 0; i--) {
      text_[i - 1] = static_cast<char>('0' + rest % 10);
      rest /= 10;
    }
    return {text_, kKeyBytes};
  }

  std::string_view NextMissing() {
    NextKey();
    return {text_, kKeyBytes - 1};
  }

  std::string_view NextNear() {
    NextKey();
    text_[kKeyBytes - 1] = '.';
    return {text_, kKeyBytes};
  }

 private:
  Keys(bool drawn, uint64_t state, uint64_t below) : drawn_(drawn), state_(state), below_(below) {}

  uint64_t NextNumber() {
    if (drawn_) {
      state_ = Stepped(state_);
      return below_ == 0 ? 0 : (state_ >> 33) % below_;
    }
    return state_++;
  }

  bool drawn_;
  uint64_t state_;
  uint64_t below_;
  char text_[kKeyBytes];
};

// Makes the keys to look for of the next number.
using Next = std::string_view (Keys::*)();

class Values {
 public:
  Values() {
    noise_.reserve(kNoiseBytes);
    uint64_t state = kNoiseSeed;
    for (size_t i = 0; i < kNoiseBytes; i++) {
      state = Stepped(state);
      noise_.push_back(static_cast<char>(state >> 56));
    }
  }

  std::string_view NextValue() {
    if (noise_.size() - place_ < kValueBytes) place_ = 0;
    const std::string_view value(noise_.data() + place_, kValueBytes);
    place_ += kValueBytes;
    return value;
  }

 private:
  std::vector<char> noise_;
  size_t place_ = 0;
};

// ---- what was written or found (crates/bench/src/tally.rt)

inline uint64_t SumOf(std::string_view bytes) {
  uint64_t sum = 0;
  size_t i = 0;
  for (; i + 8 <= bytes.size(); i += 8) {
    uint64_t word;
    std::memcpy(&word, bytes.data() + i, 8);  // (on a little-endian machine)
    sum += word;
  }
  for (; i < bytes.size(); i++) sum += static_cast<unsigned char>(bytes[i]);
  return sum;
}

struct Tally {
  uint64_t entries = 0;
  uint64_t sum = 0;

  void Count(std::string_view key, std::string_view value) {
    entries++;
    sum += SumOf(key) + SumOf(value);
  }
};

// ---- the workloads' sizes (crates/bench/src/runner.rt)

constexpr uint64_t kWritten = 1;
constexpr uint64_t kRewritten = 2;
constexpr uint64_t kRead = 3;
constexpr uint64_t kSyncedWrites = 1000;
constexpr uint64_t kBatched = 1000;
constexpr int kStepsASeek = 10;

// ---- the command line

struct Asked {
  std::string workload;
  uint64_t number;
  std::string folder;
  std::string how;  // empty if nothing is said
};

constexpr int kDone = 0;
constexpr int kFailed = 1;
constexpr int kMisused = 2;

inline bool IsFolder(const std::string& path) {
  struct stat file;
  return stat(path.c_str(), &file) == 0 && S_ISDIR(file.st_mode);
}

// Returns what the words ask for, or the number 0 if they are no such words.
inline Asked Parted(const std::vector<std::string>& words) {
  if (words.size() != 3 && words.size() != 4) return {"", 0, "", ""};
  return {words[0], std::strtoull(words[1].c_str(), nullptr, 10), words[2], words.size() == 4 ? words[3] : ""};
}

// Runs the workload that the words name; `run` returns the words of a refusal, or none. `ways` are
// the words that may be the last.
template <typename Workload>
int Main(const std::string& program, const std::vector<std::string>& words, const std::map<std::string, Workload>& workloads,
         const std::set<std::string>& ways, std::string (*run)(const Workload&, const Asked&, Tally*)) {
  const Asked asked = Parted(words);
  const auto found = workloads.find(asked.workload);
  if (found == workloads.end() || asked.number == 0 || (!asked.how.empty() && ways.count(asked.how) == 0)) {
    std::cerr << "usage: " << program << " WORKLOAD N DIR [HOW], N from 1 on\n";
    return kMisused;
  }
  if (!IsFolder(asked.folder)) {
    std::cerr << program << ": " << asked.folder << ": there is no such folder\n";
    return kFailed;
  }
  Tally tally;
  const std::string refused = run(found->second, asked, &tally);
  if (!refused.empty()) {
    std::cerr << program << ": " << asked.workload << ": " << refused << "\n";
    return kFailed;
  }
  std::cout << asked.workload << " " << asked.number << " entries=" << tally.entries << " sum=" << tally.sum << "\n";
  return kDone;
}

}  // namespace twin

#endif  // BENCH_TWIN_H_
