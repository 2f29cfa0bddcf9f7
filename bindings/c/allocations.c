/* Each allocation of a session is refused in turn: allocations FOLDER, linked with refusing.c.
 * Nothing that was answered is lost, a second try succeeds, and the answers are counted: an answer
 * other than WCH_OUT_OF_MEMORY is printed. */
#include "wachuspi.h"
#include <dirent.h>
#include <stdio.h>
#include <stdlib.h>
#include <string.h>
#include <unistd.h>

extern long refused_at, asked;

enum { ENTRIES = 24, LENGTH = 199 };

static const char *folder;
static long others[300];
static uint8_t room[4096];

static void failed(const char *what, int32_t answer) {
  refused_at = -1;
  fprintf(stderr, "%s: answered %d, allocation %ld refused\n", what, (int)answer, asked);
  exit(1);
}

static int32_t seen(const char *what, int32_t answer) {
  if (answer > 0 && (answer & 255) != WCH_OUT_OF_MEMORY) {
    others[answer & 255]++;
    if (getenv("TELL")) fprintf(stderr, "%s: %d at allocation %ld\n", what, (int)answer, asked);
  }
  return answer;
}

/* One refusal may come, so the second try must succeed. */
#define TWICE(what, call)                                          \
  do {                                                             \
    int32_t answer = seen(what, call);                                \
    if (answer > 0 && answer < WCH_WORK_REFUSED) answer = (call);  \
    if (answer > 0 && answer < WCH_WORK_REFUSED) failed(what, answer); \
  } while (0)

static void empties(void) {
  char path[512];
  DIR *listing = opendir(folder);
  struct dirent *entry;
  if (listing == NULL) failed("opendir", 0);
  while ((entry = readdir(listing)) != NULL) {
    if (entry->d_name[0] == '.') continue;
    snprintf(path, sizeof path, "%s/%s", folder, entry->d_name);
    unlink(path);
  }
  closedir(listing);
}

static size_t key_of(int index, char *key) { return (size_t)sprintf(key, "key%03d", index); }

static void writes(wch_db *db) {
  uint8_t value[LENGTH];
  char key[16];
  wch_batch batch = WCH_NONE;
  memset(value, 'x', sizeof value);
  for (int i = 0; i < ENTRIES; i++) {
    size_t length = key_of(i, key);
    TWICE("put", wch_put(db, (uint8_t *)key, length, value, sizeof value, WCH_WORK));
  }
  TWICE("batch", wch_batch_put(&batch, (const uint8_t *)"zz", 2, value, 1));
  TWICE("write", wch_write(db, &batch, 0));
  wch_batch_free(&batch);
}

static void reads(wch_db *db, uint64_t snapshot) {
  char key[16];
  size_t found;
  for (int i = 0; i < ENTRIES; i++) {
    size_t length = key_of(i, key);
    TWICE("get", wch_get(db, (uint8_t *)key, length, snapshot, room, sizeof room, &found));
    if (found != LENGTH) failed("get", (int32_t)found);
  }
}

static void walks(wch_db *db, uint64_t it) {
  wch_pair pair;
  int count = 0;
  int32_t answer = seen("first", wch_iter_first(db, it, room, sizeof room, &pair));
  if (answer > 0) answer = wch_iter_first(db, it, room, sizeof room, &pair);
  while (answer == WCH_OK) {
    count++;
    answer = seen("next", wch_iter_next(db, it, room, sizeof room, &pair));
    if (answer > 0) answer = wch_iter_next(db, it, room, sizeof room, &pair);
  }
  if (answer != WCH_NOT_FOUND || count != ENTRIES + 1) failed("next", count);
}

static void session(const wch_options *options, wch_db *db) {
  wch_trouble trouble;
  uint64_t snapshot = 0, it = 0;
  const uint8_t *path = (const uint8_t *)folder;
  TWICE("open", wch_open(path, strlen(folder), options, WCH_ANY, db, &trouble));
  writes(db);
  TWICE("snapshot", wch_snapshot(db, &snapshot));
  reads(db, snapshot);
  TWICE("iter_new", wch_iter_new(db, 0, &it));
  walks(db, it);
  TWICE("iter_free", wch_iter_free(db, it));
  TWICE("release", wch_release(db, snapshot));
  TWICE("settle", wch_settle(db, 100));
  TWICE("compact", wch_compact(db, WCH_ALL_LEVELS));
}

int main(int argc, char **argv) {
  wch_options options;
  wch_trouble trouble;
  long refused = 0;
  bool ended = false;
  if (argc != 2) return 2;
  folder = argv[1];
  wch_default_options(&options);
  options.write_buffer = 2000;
  while (!ended) {
    wch_db db = WCH_NONE;
    empties();
    asked = 0;
    refused_at = ++refused;
    session(&options, &db);
    ended = asked < refused;
    refused_at = -1;
    if (wch_close(&db) != WCH_OK) failed("close", 0);
    if (wch_open((const uint8_t *)folder, strlen(folder), &options, WCH_EXISTING, &db, &trouble))
      failed("open once more", 0);
    reads(&db, 0);
    wch_close(&db);
  }
  printf("%ld allocations were refused in turn, and nothing was lost", refused - 1);
  for (int i = 0; i < 300; i++)
    if (others[i]) printf("; %ld of them were answered by %d", others[i], i);
  puts("");
  return 0;
}
