/* Checks of the C library, under valgrind by tools/library: checks FOLDER, which is empty.
 * Each call of the header is made, and each misuse that the header allows. */
#include "wachuspi.h"
#include <stdio.h>
#include <stdlib.h>
#include <string.h>

#define B(text) (const uint8_t *)(text), strlen(text)
#define CHECK(is) ((is) ? (void)0 : failed(__LINE__, #is))

static const uint8_t *folder;
static size_t folder_length;
static wch_options options;
static wch_trouble trouble;
static uint8_t room[4096];

static void failed(int line, const char *text) {
  fprintf(stderr, "checks.c:%d: not so: %s\n", line, text);
  exit(1);
}

static int32_t open_as(uint32_t mode, wch_db *db) {
  return wch_open(folder, folder_length, &options, mode, db, &trouble);
}

static bool has(const char *text, size_t length) {
  return length == strlen(text) && memcmp(room, text, length) == 0;
}

static void checks_opening(void) {
  wch_db db = WCH_NONE, second = WCH_NONE;
  wch_options wrong = options;
  CHECK(wch_version() == WCH_VERSION);
  CHECK(wch_open(B("/nonexistent/folder"), &options, WCH_ANY, &db, &trouble) == WCH_NO_DATABASE);
  CHECK(trouble.words_length > 0 && !db.holds);
  CHECK(open_as(WCH_EXISTING, &db) == WCH_NO_DATABASE);
  CHECK(open_as(9, &db) == WCH_MISUSED && trouble.words_length > 0);
  wrong.write_buffer = 0;
  CHECK(wch_open(folder, folder_length, &wrong, WCH_ANY, &db, &trouble) == WCH_MISUSED);
  CHECK(trouble.words_length > 0);
  CHECK(wch_open(B("not utf-8: \xff"), &options, WCH_ANY, &db, &trouble) == WCH_MISUSED);
  CHECK(trouble.words_length > 20 && memcmp(trouble.words, "the path isn't UTF-8", 20) == 0);
  CHECK(wch_check(folder, folder_length, &trouble) == WCH_NOT_FOUND);
  CHECK(open_as(WCH_NEW, &db) == WCH_OK && db.holds);
  CHECK(open_as(WCH_ANY, &db) == WCH_MISUSED && db.holds);
  CHECK(open_as(WCH_ANY, &second) == WCH_LOCKED && !second.holds);
  CHECK(wch_close(&db) == WCH_OK && !db.holds);
  CHECK(wch_close(&db) == WCH_CLOSED);
  CHECK(open_as(WCH_NEW, &db) == WCH_EXISTS);
}

static void checks_closed(void) {
  wch_db db = WCH_NONE;
  wch_batch batch = WCH_NONE;
  size_t length;
  uint64_t id = 7;
  uint32_t idle;
  wch_pair pair;
  wch_filled filled;
  CHECK(wch_put(&db, B("a"), B("b"), 0) == WCH_CLOSED);
  CHECK(wch_delete(&db, B("a"), 0) == WCH_CLOSED);
  CHECK(wch_write(&db, &batch, 0) == WCH_CLOSED);
  CHECK(wch_get(&db, B("a"), 0, room, 4, &length) == WCH_CLOSED && length == 0);
  CHECK(wch_snapshot(&db, &id) == WCH_CLOSED && id == 7);
  CHECK(wch_release(&db, 1) == WCH_CLOSED);
  CHECK(wch_iter_new(&db, 0, &id) == WCH_CLOSED && id == 7);
  CHECK(wch_iter_free(&db, 1) == WCH_CLOSED);
  CHECK(wch_iter_first(&db, 1, room, 4, &pair) == WCH_CLOSED && pair.key_length == 0);
  CHECK(wch_iter_pair(&db, 1, room, 4, &pair) == WCH_CLOSED);
  CHECK(wch_iter_fill(&db, 1, 0, room, 4, &filled) == WCH_CLOSED && filled.pairs == 0);
  CHECK(wch_work(&db, 1, &idle) == WCH_CLOSED && idle == 0);
  CHECK(wch_settle(&db, 1) == WCH_CLOSED);
  CHECK(wch_compact(&db, 0) == WCH_CLOSED);
  CHECK(wch_tables(&db, 0) == -1);
  CHECK(wch_last_trouble(&db, &trouble) == WCH_CLOSED && trouble.words_length == 0);
  wch_batch_free(&batch);
}

static void checks_reading_and_writing(wch_db *db) {
  uint64_t snapshot;
  size_t length;
  CHECK(wch_put(db, B("apple"), B("red"), WCH_SYNC) == WCH_OK);
  CHECK(wch_put(db, B("lemon"), B("yellow"), 0) == WCH_OK);
  CHECK(wch_put(db, B("plum"), B("blue"), WCH_WORK) == WCH_OK);
  CHECK(wch_put(db, B(""), B(""), 0) == WCH_OK);
  CHECK(wch_get(db, B(""), 0, room, 0, &length) == WCH_OK && length == 0);
  CHECK(wch_delete(db, B(""), 0) == WCH_OK);
  CHECK(wch_snapshot(db, &snapshot) == WCH_OK);
  CHECK(wch_delete(db, B("lemon"), 0) == WCH_OK);
  CHECK(wch_get(db, B("lemon"), 0, room, sizeof room, &length) == WCH_NOT_FOUND && length == 0);
  CHECK(wch_get(db, B("lemon"), snapshot, room, sizeof room, &length) == WCH_OK);
  CHECK(has("yellow", length));
  memset(room, '.', 4);
  CHECK(wch_get(db, B("apple"), 0, room, 2, &length) == WCH_OK && length == 3);
  CHECK(memcmp(room, "re..", 4) == 0);
  CHECK(wch_get(db, B("apple"), 99, room, sizeof room, &length) == WCH_NO_SNAPSHOT);
  CHECK(wch_release(db, snapshot) == WCH_OK);
  CHECK(wch_release(db, snapshot) == WCH_NO_SNAPSHOT && wch_release(db, 0) == WCH_NO_SNAPSHOT);
}

static void checks_batches(wch_db *db) {
  wch_batch batch = WCH_NONE;
  uint8_t *large = calloc(1, 70000);
  size_t length;
  CHECK(large != NULL && wch_write(db, &batch, WCH_SYNC) == WCH_OK);
  CHECK(wch_batch_put(&batch, B("fig"), B("")) == WCH_OK);
  CHECK(wch_batch_put(&batch, large, 70000, B("x")) == WCH_KEY_TOO_LONG);
  CHECK(wch_batch_delete(&batch, large, 70000) == WCH_KEY_TOO_LONG);
  CHECK(wch_batch_delete(&batch, B("apple")) == WCH_OK);
  CHECK(wch_put(db, large, 70000, B("x"), 0) == WCH_KEY_TOO_LONG);
  CHECK(wch_write(db, &batch, WCH_WORK) == WCH_OK && wch_write(db, &batch, 0) == WCH_OK);
  CHECK(wch_get(db, B("fig"), 0, room, sizeof room, &length) == WCH_OK && length == 0);
  CHECK(wch_get(db, B("apple"), 0, room, sizeof room, &length) == WCH_NOT_FOUND);
  wch_batch_free(&batch);
  wch_batch_free(&batch);
  CHECK(!batch.holds && wch_batch_put(&batch, B("nut"), B("brown")) == WCH_OK);
  wch_batch_free(&batch);
  CHECK(wch_get(db, B("nut"), 0, room, sizeof room, &length) == WCH_NOT_FOUND);
  free(large);
}

static bool stands_on(const char *key, const char *value, wch_pair pair) {
  return pair.key_length == strlen(key) && pair.value_length == strlen(value)
      && memcmp(room, key, pair.key_length) == 0
      && memcmp(room + pair.key_length, value, pair.value_length) == 0;
}

static void checks_iterators(wch_db *db) {
  uint64_t it, other;
  wch_pair pair;
  CHECK(wch_iter_new(db, 99, &it) == WCH_NO_SNAPSHOT);
  CHECK(wch_iter_new(db, 0, &it) == WCH_OK && wch_iter_new(db, 0, &other) == WCH_OK);
  CHECK(it != other && wch_put(db, B("zebra"), B("striped"), 0) == WCH_OK);
  CHECK(wch_iter_pair(db, it, room, sizeof room, &pair) == WCH_NOT_FOUND);
  CHECK(wch_iter_next(db, it, room, sizeof room, &pair) == WCH_NO_PLACE);
  CHECK(wch_iter_first(db, it, room, sizeof room, &pair) == WCH_OK && stands_on("fig", "", pair));
  CHECK(wch_iter_next(db, it, room, sizeof room, &pair) == WCH_OK);
  CHECK(stands_on("plum", "blue", pair));
  CHECK(wch_iter_next(db, it, room, sizeof room, &pair) == WCH_NOT_FOUND && pair.key_length == 0);
  CHECK(wch_iter_prev(db, it, room, sizeof room, &pair) == WCH_NO_PLACE);
  CHECK(wch_iter_last(db, it, room, 5, &pair) == WCH_OK && pair.key_length == 4);
  CHECK(pair.value_length == 4 && memcmp(room, "plumb", 5) == 0);
  CHECK(wch_iter_pair(db, it, room, sizeof room, &pair) == WCH_OK);
  CHECK(stands_on("plum", "blue", pair));
  CHECK(wch_iter_prev(db, it, room, 0, &pair) == WCH_OK && pair.key_length == 3);
  CHECK(wch_iter_seek(db, other, B("g"), room, sizeof room, &pair) == WCH_OK);
  CHECK(stands_on("plum", "blue", pair));
  CHECK(wch_iter_pair(db, it, room, sizeof room, &pair) == WCH_OK && stands_on("fig", "", pair));
  CHECK(wch_iter_free(db, it) == WCH_OK && wch_iter_free(db, it) == WCH_NO_ITERATOR);
  CHECK(wch_iter_first(db, it, room, sizeof room, &pair) == WCH_NO_ITERATOR);
  CHECK(wch_iter_pair(db, it, room, sizeof room, &pair) == WCH_NO_ITERATOR);
}

static void checks_filling(wch_db *db) {
  uint64_t it;
  wch_pair pair;
  wch_filled filled;
  const char *all = "\3\0\0\0\0\0\0\0fig\4\0\0\0\4\0\0\0plumblue\5\0\0\0\7\0\0\0zebrastriped";
  CHECK(wch_iter_new(db, 0, &it) == WCH_OK);
  CHECK(wch_iter_fill(db, it, 0, room, sizeof room, &filled) == WCH_NOT_FOUND && filled.used == 0);
  CHECK(wch_iter_first(db, it, room, 0, &pair) == WCH_OK);
  CHECK(wch_iter_fill(db, it, 0, room, 30, &filled) == WCH_OK);
  CHECK(filled.pairs == 2 && filled.used == 27 && memcmp(room, all, 27) == 0);
  CHECK(wch_iter_fill(db, it, 0, room, 19, &filled) == WCH_OK && filled.pairs == 0);
  CHECK(wch_iter_fill(db, it, 0, room, 20, &filled) == WCH_NOT_FOUND && filled.pairs == 1);
  CHECK(filled.used == 20 && memcmp(room, all + 27, 20) == 0);
  CHECK(wch_iter_fill(db, it, 0, room, sizeof room, &filled) == WCH_NOT_FOUND && filled.pairs == 0);
  CHECK(wch_iter_last(db, it, room, 0, &pair) == WCH_OK);
  CHECK(wch_iter_fill(db, it, 1, room, sizeof room, &filled) == WCH_NOT_FOUND);
  CHECK(filled.pairs == 3 && memcmp(room, all + 27, 20) == 0);
  CHECK(wch_iter_fill(db, 99, 0, room, sizeof room, &filled) == WCH_NO_ITERATOR);
  CHECK(wch_iter_fill(db, 99, 0, room, 4, &filled) == WCH_NO_ITERATOR && filled.pairs == 0);
}

static void checks_upkeep(wch_db *db) {
  uint32_t idle;
  int64_t tables = 0;
  CHECK(wch_work(db, 0, &idle) == WCH_OK && idle <= 1 && wch_settle(db, 1000) == WCH_OK);
  CHECK(wch_compact(db, 0) == WCH_OK && wch_compact(db, 6) == WCH_BAD_LEVEL);
  CHECK(wch_compact(db, WCH_ALL_LEVELS) == WCH_OK && wch_tables(db, 7) == -1);
  for (uint32_t level = 0; level < 7; level++) tables += wch_tables(db, level);
  CHECK(tables == 1);
  CHECK(wch_settle(db, 1000) == WCH_OK && wch_work(db, 1, &idle) == WCH_OK && idle == 1);
  CHECK(wch_last_trouble(db, &trouble) == WCH_OK);
}

static void checks_names(void) {
  CHECK(has("NotFound", wch_explain(WCH_NOT_FOUND, room, sizeof room)));
  CHECK(has("Ok", wch_explain(WCH_OK, room, sizeof room)));
  CHECK(has("Closed", wch_explain(WCH_CLOSED, room, sizeof room)));
  CHECK(has("OutOfMemory", wch_explain(WCH_WORK_REFUSED + WCH_OUT_OF_MEMORY, room, sizeof room)));
  CHECK(has("Unknown", wch_explain(-7, room, sizeof room)));
  CHECK(wch_explain(WCH_BROKEN, room, 2) == 6 && memcmp(room, "Br", 2) == 0);
}

/* Adds zeros to the end of a file, as a power loss can. */
static void adds_zeros(const char *name, size_t count) {
  char path[600];
  snprintf(path, sizeof path, "%s/%s", (const char *)folder, name);
  FILE *file = fopen(path, "ab");
  CHECK(file != NULL);
  for (size_t n = 0; n < count; n++) putc(0, file);
  CHECK(fclose(file) == 0);
}

static int32_t mends(uint32_t flags, wch_cut *cuts, size_t cuts_length, size_t *count) {
  return wch_mend(folder, folder_length, flags, cuts, cuts_length, count, &trouble);
}

static void checks_mending(void) {
  wch_db db = WCH_NONE;
  wch_cut cuts[2] = {{0, 0, 0, 0, 0}, {0, 0, 0, 0, 0}};
  size_t count;
  char name[64];
  CHECK(wch_mend(B("/nonexistent/folder"), 0, cuts, 2, &count, &trouble) == WCH_NO_DATABASE);
  CHECK(wch_mend(B("not utf-8: \xff"), 0, cuts, 2, &count, &trouble) == WCH_MISUSED);
  CHECK(mends(0, cuts, 2, &count) == WCH_OK && count == 0);
  CHECK(open_as(WCH_EXISTING, &db) == WCH_OK && wch_put(&db, B("nut"), B("brown"), 0) == WCH_OK);
  CHECK(mends(0, cuts, 2, &count) == WCH_LOCKED && count == 0 && wch_close(&db) == WCH_OK);
  /* what CURRENT names, and the log of that MANIFEST */
  snprintf(name, sizeof name, "%s/CURRENT", (const char *)folder);
  FILE *current = fopen(name, "rb");
  CHECK(current != NULL && fgets(name, sizeof name, current) != NULL && fclose(current) == 0);
  name[strcspn(name, "\n")] = 0;
  unsigned long number = strtoul(name + strlen("MANIFEST-"), NULL, 10);
  adds_zeros(name, 9);
  CHECK(open_as(WCH_EXISTING, &db) == WCH_CORRUPT);
  CHECK(mends(WCH_DRY_RUN, cuts, 2, &count) == WCH_OK && count == 1);
  CHECK(cuts[0].kind == WCH_MANIFEST && cuts[0].number == number && cuts[0].zeros == 9);
  CHECK(cuts[0].at + 9 == cuts[0].length && open_as(WCH_EXISTING, &db) == WCH_CORRUPT);
  CHECK(mends(WCH_HOLES, cuts, 0, &count) == WCH_OK && count == 1);
  CHECK(mends(0, cuts, 2, &count) == WCH_OK && count == 0);
  CHECK(open_as(WCH_EXISTING, &db) == WCH_OK);
  CHECK(wch_get(&db, B("nut"), 0, room, sizeof room, &count) == WCH_OK && has("brown", count));
  CHECK(wch_close(&db) == WCH_OK);
}

int main(int argc, char **argv) {
  wch_db db = WCH_NONE;
  uint64_t left;
  size_t length;
  if (argc != 2) return 2;
  folder = (const uint8_t *)argv[1];
  folder_length = strlen(argv[1]);
  wch_default_options(&options);
  CHECK(options.write_buffer == 4194304 && options.cache_blocks == 1024);
  checks_opening();
  checks_closed();
  CHECK(open_as(WCH_ANY, &db) == WCH_OK);
  checks_reading_and_writing(&db);
  checks_batches(&db);
  checks_iterators(&db);
  checks_filling(&db);
  checks_upkeep(&db);
  CHECK(wch_snapshot(&db, &left) == WCH_OK && wch_iter_new(&db, left, &left) == WCH_OK);
  CHECK(wch_close(&db) == WCH_OK && wch_check(folder, folder_length, &trouble) == WCH_OK);
  CHECK(open_as(WCH_EXISTING, &db) == WCH_OK);
  CHECK(wch_get(&db, B("plum"), 0, room, sizeof room, &length) == WCH_OK && has("blue", length));
  CHECK(wch_close(&db) == WCH_OK);
  checks_mending();
  checks_names();
  puts("the C checks passed");
  return 0;
}
