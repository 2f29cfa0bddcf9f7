// Workloads of crates/bench through the C library, for bench/run library (twin.h says how it is
// called). Keys, values, options and pieces of work are those of crates/bench, so that what differs
// is the border. `readfill` is `readseq` by wch_iter_fill.
#include <functional>
#include <map>
#include <string>
#include <string_view>

#include "../include/wachuspi.h"
#include "twin.h"

namespace {

using twin::Keys;
using twin::Tally;

constexpr uint64_t kBlocks = 2048;
constexpr uint64_t kPiece = 2000;
constexpr uint32_t kShare = 6;

using Workload = std::function<int32_t(wch_db*, uint64_t, Tally*)>;
using Move = int32_t (*)(wch_db*, uint64_t, uint8_t*, size_t, wch_pair*);

const uint8_t* At(std::string_view bytes) { return reinterpret_cast<const uint8_t*>(bytes.data()); }
std::string_view Seen(const uint8_t* at, size_t length) { return {reinterpret_cast<const char*>(at), length}; }

int32_t PutEach(wch_db* db, Keys keys, uint64_t count, Tally* tally) {
  twin::Values values;
  uint32_t idle = 0;
  for (uint64_t i = 0; i < count; i++) {
    const std::string_view key = keys.NextKey(), value = values.NextValue();
    tally->Count(key, value);
    int32_t answer = wch_put(db, At(key), key.size(), At(value), value.size(), 0);
    if (answer == WCH_OK && i % kPiece == kPiece - 1) answer = wch_work(db, kPiece * kShare, &idle);
    if (answer != WCH_OK) return answer;
  }
  return WCH_OK;
}

int32_t GetEach(wch_db* db, Keys keys, uint64_t count, Tally* tally) {
  uint8_t room[256];
  for (uint64_t i = 0; i < count; i++) {
    const std::string_view key = keys.NextKey();
    size_t length = 0;
    const int32_t answer = wch_get(db, At(key), key.size(), 0, room, sizeof room, &length);
    if (answer == WCH_OK) tally->Count(key, Seen(room, length));
    if (answer != WCH_OK && answer != WCH_NOT_FOUND) return answer;
  }
  return WCH_OK;
}

int32_t Walk(wch_db* db, Move begin, Move step, Tally* tally) {
  uint8_t room[256];
  wch_pair pair;
  uint64_t it = 0;
  int32_t answer = wch_iter_new(db, 0, &it);
  if (answer == WCH_OK) answer = begin(db, it, room, sizeof room, &pair);
  while (answer == WCH_OK) {
    tally->Count(Seen(room, pair.key_length), Seen(room + pair.key_length, pair.value_length));
    answer = step(db, it, room, sizeof room, &pair);
  }
  return answer == WCH_NOT_FOUND ? WCH_OK : answer;
}

uint32_t LengthAt(const uint8_t* at) {
  uint32_t length;
  std::memcpy(&length, at, 4);  // (on a little-endian machine)
  return length;
}

int32_t Fill(wch_db* db, Tally* tally) {
  std::vector<uint8_t> room(1 << 16);
  wch_pair pair;
  wch_filled filled;
  uint64_t it = 0;
  int32_t answer = wch_iter_new(db, 0, &it);
  if (answer == WCH_OK) answer = wch_iter_first(db, it, room.data(), 0, &pair);
  while (answer == WCH_OK) {
    answer = wch_iter_fill(db, it, 0, room.data(), room.size(), &filled);
    const uint8_t* at = room.data();
    for (size_t i = 0; i < filled.pairs; i++) {
      const uint32_t key = LengthAt(at), value = LengthAt(at + 4);
      tally->Count(Seen(at + 8, key), Seen(at + 8 + key, value));
      at += 8 + key + value;
    }
  }
  return answer == WCH_NOT_FOUND ? WCH_OK : answer;
}

const std::map<std::string, Workload> kWorkloads = {
    {"fillseq", [](wch_db* db, uint64_t n, Tally* t) { return PutEach(db, Keys::Rising(), n, t); }},
    {"fillrandom", [](wch_db* db, uint64_t n, Tally* t) { return PutEach(db, Keys::Drawn(twin::kWritten, n), n, t); }},
    {"readrandom", [](wch_db* db, uint64_t n, Tally* t) { return GetEach(db, Keys::Drawn(twin::kRead, n), n, t); }},
    {"readhot", [](wch_db* db, uint64_t n, Tally* t) { return GetEach(db, Keys::Drawn(twin::kRead, n / 100), n, t); }},
    {"readseq", [](wch_db* db, uint64_t, Tally* t) { return Walk(db, wch_iter_first, wch_iter_next, t); }},
    {"readreverse", [](wch_db* db, uint64_t, Tally* t) { return Walk(db, wch_iter_last, wch_iter_prev, t); }},
    {"readfill", [](wch_db* db, uint64_t, Tally* t) { return Fill(db, t); }},
};

std::string Run(const Workload& workload, const twin::Asked& asked, Tally* tally) {
  wch_options options;
  wch_trouble trouble;
  wch_db db = WCH_NONE;
  wch_default_options(&options);
  options.cache_blocks = kBlocks;
  int32_t answer = wch_open(At(asked.folder), asked.folder.size(), &options, WCH_ANY, &db, &trouble);
  if (answer == WCH_OK) answer = workload(&db, asked.number, tally);
  wch_close(&db);
  return answer == WCH_OK ? "" : "answer " + std::to_string(answer);
}

}  // namespace

int main(int argc, char** argv) { return twin::Main("library_twin", {argv + 1, argv + argc}, kWorkloads, {}, Run); }
