/* wachuspi.h: a database in LevelDB's format, for programs that are not written in Rattle.
 * This is version 1 of the interface. docs/LIBRARY.md has how to build and link it, and examples.
 *
 * ANSWERS
 *   A call that returns int32_t returns WCH_OK, WCH_NOT_FOUND or the number of an error.
 *   After an error everything that can be read is as it was, unless the comment of the call says
 *   otherwise. A failed write can break the open database: WCH_BROKEN then comes from every call
 *   until you close it and open it again. What was written with WCH_OK is in the files.
 *   What a call writes through a pointer (a length, an id) is set by every call, and is 0 unless
 *   the call returns WCH_OK. The exceptions are named.
 *
 * OWNERSHIP
 *   wch_db and wch_batch are structs of yours. Set them to WCH_NONE, and pass them to these calls
 *   alone: never write to their fields, and never copy one that is in use.
 *   They own memory of the library from wch_open until wch_close, and from the first
 *   wch_batch_put or wch_batch_delete until wch_batch_free.
 *   Keys, values and paths are read during the call, and never kept. Nothing is lent: what is read
 *   is copied into a room of yours. A room that is too small gets as many bytes as fit, and the
 *   lengths say how many there are.
 *   A pointer is never NULL, also where its length is 0. Rooms, keys and structs of one call don't
 *   overlap, unless both are only read.
 *
 * THREADS
 *   An open database stays on the thread that opened it, and so does a batch on the thread of its
 *   first operation. Two databases share nothing. Make no call from a signal handler, and none
 *   in a forked child of a process with threads.
 *
 * FILES
 *   One handle at a time has a folder, in this process and in others (LevelDB's own lock).
 *   A forked child must not use the handle of its parent.
 *
 * MEMORY
 *   The library calls malloc, realloc and free of the program, which have to be of one allocator.
 *   It never throws, prints, aborts or exits. */
#ifndef WACHUSPI_H
#define WACHUSPI_H

#include <stdbool.h>
#include <stddef.h>
#include <stdint.h>

#ifdef __cplusplus
extern "C" {
#endif

#define WCH_VERSION 1

enum {
  WCH_OK = 0,
  WCH_NOT_FOUND = -1,      /* no such key; the iterator stands nowhere; no database to check */
  WCH_OUT_OF_MEMORY = 1,
  WCH_IO = 2,              /* a call of the system failed */
  WCH_NO_DATABASE = 3,     /* there is no folder, or WCH_EXISTING found no database in it */
  WCH_EXISTS = 4,          /* WCH_NEW found a database */
  WCH_CORRUPT = 5,         /* a file contradicts the format */
  WCH_UNSUPPORTED = 6,     /* a compressed block, another comparator, or a size above the limits */
  WCH_BROKEN = 7,          /* an earlier write failed: close, and open again */
  WCH_NO_SNAPSHOT = 8,     /* no snapshot has this id */
  WCH_NO_ITERATOR = 9,     /* no iterator has this id */
  WCH_NO_PLACE = 10,       /* next or prev of an iterator that stands nowhere */
  WCH_KEY_TOO_LONG = 11,   /* above 65,535 bytes */
  WCH_VALUE_TOO_LONG = 12, /* above 2^28 bytes */
  WCH_BATCH_TOO_LARGE = 13, /* above 2^29 bytes or 2^20 operations */
  WCH_SEQUENCE_FULL = 14,  /* sequence numbers are used up */
  WCH_NUMBERS_SPENT = 15,  /* file numbers or ids are used up */
  WCH_LOCKED = 18,         /* another handle has the folder */
  WCH_BAD_LEVEL = 19,      /* wch_compact of a level above 5 */
  WCH_MISUSED = 64,        /* a mode, option or path out of range; the handle is open already */
  WCH_CLOSED = 65,         /* the handle has no open database */
  WCH_WORK_REFUSED = 256   /* 256 + n: the write succeeded, and the work after it failed with n */
};

/* How wch_open opens: the database must exist, must not, or is made if there is none. */
enum { WCH_EXISTING = 0, WCH_NEW = 1, WCH_ANY = 2 };

/* Flags of a write. WCH_SYNC: the log is on disk before the call returns.
 * WCH_WORK: the write does its share of the merging, so that you need not call wch_work. */
enum { WCH_SYNC = 1, WCH_WORK = 2 };

enum { WCH_ALL_LEVELS = 7 };

/* A database and a batch. The fields are the library's. */
typedef struct wch_db { void *at; bool holds; } wch_db;
typedef struct wch_batch { void *at; bool holds; } wch_batch;

/* The value of a wch_db or wch_batch that holds nothing: wch_db db = WCH_NONE; */
#define WCH_NONE { NULL, false }

/* Sizes. wch_default_options fills in LevelDB's, and a cache of 1,024 blocks. */
typedef struct wch_options {
  uint64_t write_buffer; /* bytes of a memory table, 1 to 2^30 */
  uint64_t block_bytes;  /* bytes of a block, 1 to 2^20 */
  uint64_t file_bytes;   /* bytes of a table file, 1 to 2^30 */
  uint64_t level0_files; /* files that make level 0 be compacted, 1 to 1,024 */
  uint64_t base_bytes;   /* bytes of level 1, 1 to 2^40 */
  uint64_t cache_blocks; /* blocks in the cache, 1 to 65,536 */
} wch_options;

typedef struct wch_pair { size_t key_length, value_length; } wch_pair;
typedef struct wch_filled { size_t used, pairs; } wch_filled;

/* Where the last error came from. */
typedef struct wch_trouble {
  uint32_t has;                        /* which fields count: 1 at, 2 found, 4 wanted, 8 code */
  int32_t code;                        /* the system's errno */
  uint64_t at, found, wanted;          /* a byte in the file; what stands there; what should */
  uint64_t count;                      /* grows by one with each error that was noted */
  uint64_t name_length, words_length;
  uint8_t name[48], words[160];        /* a file's name; a line in English. Not zero-terminated */
} wch_trouble;

/* The version of the library: WCH_VERSION, if header and library belong together. */
uint32_t wch_version(void);
void wch_default_options(wch_options *options);

/* Opens the database of a folder that exists. *db must be WCH_NONE or closed. On an error it stays
 * closed, and *trouble says more in words, after WCH_MISUSED too. The path must be UTF-8, and so
 * must each folder's name that the system finds on the way, through links as well. */
int32_t wch_open(const uint8_t *path, size_t path_length, const wch_options *options, uint32_t mode,
                 wch_db *db, wch_trouble *trouble);

/* Closes a database, and frees its snapshots and iterators. Nothing is flushed: what was written is
 * in the files already. WCH_CLOSED if it was closed before. */
int32_t wch_close(wch_db *db);

/* One operation. Delete succeeds whether or not the key is there. */
int32_t wch_put(wch_db *db, const uint8_t *key, size_t key_length, const uint8_t *value,
                size_t value_length, uint32_t flags);
int32_t wch_delete(wch_db *db, const uint8_t *key, size_t key_length, uint32_t flags);

/* Adds an operation to a batch. On an error the batch is as it was. */
int32_t wch_batch_put(wch_batch *batch, const uint8_t *key, size_t key_length,
                      const uint8_t *value, size_t value_length);
int32_t wch_batch_delete(wch_batch *batch, const uint8_t *key, size_t key_length);
/* Frees the memory of a batch, which has no operations then and can be used again. */
void wch_batch_free(wch_batch *batch);
/* Writes all operations of a batch or none. The batch stays as it is. */
int32_t wch_write(wch_db *db, wch_batch *batch, uint32_t flags);

/* Copies the value of a key into the room. *length is the length of the value.
 * snapshot is an id, or 0 for now. */
int32_t wch_get(wch_db *db, const uint8_t *key, size_t key_length, uint64_t snapshot, uint8_t *room,
                size_t room_length, size_t *length);

/* Makes a snapshot of what is read now. It keeps memory and files until wch_release or wch_close.
 * wch_snapshot leaves *id alone on an error. */
int32_t wch_snapshot(wch_db *db, uint64_t *id);
int32_t wch_release(wch_db *db, uint64_t id);

/* Makes an iterator over now (0) or a snapshot. It sees the same pairs whatever is written, and
 * stands nowhere until it is moved. wch_iter_new leaves *iter alone on an error. */
int32_t wch_iter_new(wch_db *db, uint64_t snapshot, uint64_t *iter);
int32_t wch_iter_free(wch_db *db, uint64_t iter);

/* Moves an iterator, and copies the pair to which it came into the room: the key, and the value
 * right after it. WCH_NOT_FOUND: there is no pair, and it stands nowhere.
 * On an error it stands where it stood. Seek goes to the first key that is not below this one. */
int32_t wch_iter_first(wch_db *db, uint64_t iter, uint8_t *room, size_t room_length,
                       wch_pair *pair);
int32_t wch_iter_last(wch_db *db, uint64_t iter, uint8_t *room, size_t room_length, wch_pair *pair);
int32_t wch_iter_seek(wch_db *db, uint64_t iter, const uint8_t *key, size_t key_length,
                      uint8_t *room, size_t room_length, wch_pair *pair);
int32_t wch_iter_next(wch_db *db, uint64_t iter, uint8_t *room, size_t room_length, wch_pair *pair);
int32_t wch_iter_prev(wch_db *db, uint64_t iter, uint8_t *room, size_t room_length, wch_pair *pair);

/* Copies the pair on which an iterator stands once more, say into a larger room. */
int32_t wch_iter_pair(wch_db *db, uint64_t iter, uint8_t *room, size_t room_length, wch_pair *pair);

/* Copies the pair on which an iterator stands and the ones after it (before it, if backwards isn't
 * 0), as many as fit whole. Each is the length of its key and of its value (4 bytes, lowest first),
 * its key and its value. The iterator then stands on the first pair that had no room.
 * WCH_NOT_FOUND: there are no more pairs, and it stands nowhere. *filled counts in each case.
 * WCH_OK with no pair: the pair needs a larger room.
 * On an error the pairs in the room are good, and the iterator stands on the last one of them. */
int32_t wch_iter_fill(wch_db *db, uint64_t iter, uint32_t backwards, uint8_t *room,
                      size_t room_length, wch_filled *filled);

/* Does one piece of work of so many entries: a memory table or a compaction. *idle is 1 if there
 * was nothing to do. wch_settle works until there is nothing to do. */
int32_t wch_work(wch_db *db, uint32_t budget, uint32_t *idle);
int32_t wch_settle(wch_db *db, uint32_t budget);
/* Compacts level 0 to 5 into the next one, or everything (WCH_ALL_LEVELS). */
int32_t wch_compact(wch_db *db, uint32_t level);
/* Returns how many tables a level has, or -1: no such level, or a closed database. */
int64_t wch_tables(wch_db *db, uint32_t level);

/* Tells where the last error of this database came from. */
int32_t wch_last_trouble(wch_db *db, wch_trouble *trouble);
/* Copies the name of an answer, as "NotFound", into the room, and returns its length. */
size_t wch_explain(int32_t answer, uint8_t *room, size_t room_length);

/* Checks the files of a folder that no process has open. WCH_OK: a consistent database.
 * WCH_NOT_FOUND: none at all. WCH_CORRUPT and WCH_UNSUPPORTED: *trouble says where. */
int32_t wch_check(const uint8_t *path, size_t path_length, wch_trouble *trouble);

/* Flags of wch_mend. WCH_DRY_RUN: no file is changed. WCH_HOLES: a broken fragment is cut off also
 * if other bytes than zeros follow it. Whole records after it go with it. */
enum { WCH_DRY_RUN = 1, WCH_HOLES = 2 };
enum { WCH_LOG = 1, WCH_MANIFEST = 2 };

/* A file that is cut: NUMBER.log or MANIFEST-NUMBER, each number with six digits or more. Of its
 * length bytes the first `at` stay, and it ends with so many zeros. */
typedef struct wch_cut { uint32_t kind; uint64_t number, at, length, zeros; } wch_cut;

/* Cuts off the zeros with which a power loss can end the MANIFEST and logs. For these wch_open
 * returns WCH_CORRUPT. All these files are read before one is written, and each is replaced whole,
 * so a crash leaves it as it was or mended. No record is cut off, unless with WCH_HOLES.
 * *count is how many files are cut. The room has them as far as they fit, the MANIFEST first.
 * WCH_NOT_FOUND: there is no database. WCH_LOCKED: a handle has the folder.
 * WCH_CORRUPT and WCH_UNSUPPORTED: it is damaged in another way, and no file was changed. After
 * another error some of the files may be mended: call it again. */
int32_t wch_mend(const uint8_t *path, size_t path_length, uint32_t flags, wch_cut *cuts,
                 size_t cuts_length, size_t *count, wch_trouble *trouble);

#ifdef __cplusplus
}
#endif

#endif
