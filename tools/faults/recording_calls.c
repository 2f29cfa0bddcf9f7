// Records a program's system calls that change files of one folder, beneath it by LD_PRELOAD. They
// stand in their order, with what the program writes to its standard output between them.
// tools/faults/recorded.py builds this and reads the record.
//
//   RECORD_FILE=FILE     where the record is appended
//   FOLDER=PATH          the folder, by the path that the program is given
//   SLOW_SYNC=N          a sync of a table takes N milliseconds more, as on a slow device
//
// A file is told by its inode. Only what succeeded is recorded. A call and its entry are one step
// to all other threads.
#define _GNU_SOURCE
#include <dlfcn.h>
#include <errno.h>
#include <fcntl.h>
#include <pthread.h>
#include <stdarg.h>
#include <stdint.h>
#include <stdio.h>
#include <stdlib.h>
#include <string.h>
#include <sys/stat.h>
#include <sys/syscall.h>
#include <sys/uio.h>
#include <unistd.h>

enum kind { OPENED = 1, WROTE, MOVED, REMOVED, SYNCED, PRINTED, LOCKED };

struct entry {
  uint32_t kind;
  uint32_t flags;   // of an open: whether it empties the file
  uint64_t file;    // the inode
  uint64_t place;   // where in the file bytes were written
  uint32_t first;   // how many bytes of text follow: a name, or what was written
  uint32_t second;  // and how many of a second name
};

// -1 until the program's own code begins
static int record = -1;
static const char *folder;
static useconds_t slow_sync;
static pthread_mutex_t one_at_a_time = PTHREAD_MUTEX_INITIALIZER;

#define NEXT(type, name) ((type)dlsym(RTLD_NEXT, name))

__attribute__((constructor)) static void begin(void) {
  const char *name = getenv("RECORD_FILE");
  const char *slow = getenv("SLOW_SYNC");
  folder = getenv("FOLDER");
  if (!name || !folder) abort();
  slow_sync = slow ? 1000 * atoi(slow) : 0;
  int file = syscall(SYS_openat, AT_FDCWD, name, O_WRONLY | O_CREAT | O_APPEND | O_CLOEXEC, 0644);
  if (file < 0) abort();
  record = file;
}

static void note(struct entry entry, const void *first, const void *second) {
  struct iovec parts[] = {{&entry, sizeof entry}, {(void *)first, entry.first}, {(void *)second, entry.second}};
  if (syscall(SYS_writev, record, parts, 3) != (long)(sizeof entry + entry.first + entry.second)) abort();
}

// Returns the name of a file in the folder, or null.
static const char *name_of(const char *path) {
  size_t length = folder ? strlen(folder) : 0;
  return length && strncmp(path, folder, length) == 0 && path[length] == '/' ? path + length + 1 : NULL;
}

static uint64_t inode_of(int file) {
  struct stat found;
  return fstat(file, &found) == 0 ? found.st_ino : 0;
}

// Ends a call: returns its answer, with errno as it left it.
#define DONE(result)                        \
  do {                                      \
    int error = errno;                      \
    pthread_mutex_unlock(&one_at_a_time);   \
    errno = error;                          \
    return result;                          \
  } while (0)

static int opened(int file, const char *path, int flags) {
  const char *name = name_of(path);
  if (file >= 0 && record >= 0 && name && (flags & (O_CREAT | O_TRUNC))) {
    note((struct entry){OPENED, (flags & O_TRUNC) != 0, inode_of(file), 0, strlen(name), 0}, name, "");
  }
  DONE(file);
}

#define OPEN_AT(call)                                                                          \
  int call(int at, const char *path, int flags, ...) {                                         \
    va_list rest;                                                                              \
    va_start(rest, flags);                                                                     \
    mode_t mode = va_arg(rest, mode_t);                                                        \
    va_end(rest);                                                                              \
    pthread_mutex_lock(&one_at_a_time);                                                        \
    return opened(NEXT(int (*)(int, const char *, int, mode_t), #call)(at, path, flags, mode), path, flags); \
  }

#define OPEN(call)                                                                             \
  int call(const char *path, int flags, ...) {                                                 \
    va_list rest;                                                                              \
    va_start(rest, flags);                                                                     \
    mode_t mode = va_arg(rest, mode_t);                                                        \
    va_end(rest);                                                                              \
    pthread_mutex_lock(&one_at_a_time);                                                        \
    return opened(NEXT(int (*)(const char *, int, mode_t), #call)(path, flags, mode), path, flags); \
  }

OPEN_AT(openat)
OPEN_AT(openat64)
OPEN(open)
OPEN(open64)

static ssize_t wrote(ssize_t count, int file, const void *bytes) {
  if (count > 0 && record >= 0 && file != 2) {
    enum kind kind = file == 1 ? PRINTED : WROTE;
    uint64_t place = file == 1 ? 0 : (uint64_t)(lseek(file, 0, SEEK_CUR) - count);
    note((struct entry){kind, 0, file == 1 ? 0 : inode_of(file), place, count, 0}, bytes, "");
  }
  DONE(count);
}

ssize_t write(int file, const void *bytes, size_t count) {
  pthread_mutex_lock(&one_at_a_time);
  return wrote(NEXT(ssize_t(*)(int, const void *, size_t), "write")(file, bytes, count), file, bytes);
}

ssize_t __write(int file, const void *bytes, size_t count) {
  pthread_mutex_lock(&one_at_a_time);
  return wrote(NEXT(ssize_t(*)(int, const void *, size_t), "__write")(file, bytes, count), file, bytes);
}

// Says whether it is a table, by the name of its file.
static int is_table(int file) {
  char link[64], path[4096];
  snprintf(link, sizeof link, "/proc/self/fd/%d", file);
  ssize_t length = readlink(link, path, sizeof path - 1);
  return length > 4 && memcmp(path + length - 4, ".ldb", 4) == 0;
}

static int synced(int (*call)(int), int file) {
  if (slow_sync && is_table(file)) usleep(slow_sync);
  pthread_mutex_lock(&one_at_a_time);
  int result = call(file);
  if (result == 0 && record >= 0) note((struct entry){SYNCED, 0, inode_of(file), 0, 0, 0}, "", "");
  DONE(result);
}

int fsync(int file) { return synced(NEXT(int (*)(int), "fsync"), file); }

int fdatasync(int file) { return synced(NEXT(int (*)(int), "fdatasync"), file); }

int rename(const char *from, const char *to) {
  pthread_mutex_lock(&one_at_a_time);
  int result = NEXT(int (*)(const char *, const char *), "rename")(from, to);
  const char *first = name_of(from), *second = name_of(to);
  if (result == 0 && record >= 0 && first && second) {
    note((struct entry){MOVED, 0, 0, 0, strlen(first), strlen(second)}, first, second);
  }
  DONE(result);
}

int unlink(const char *path) {
  pthread_mutex_lock(&one_at_a_time);
  int result = NEXT(int (*)(const char *), "unlink")(path);
  const char *name = name_of(path);
  if (result == 0 && record >= 0 && name) note((struct entry){REMOVED, 0, 0, 0, strlen(name), 0}, name, "");
  DONE(result);
}

// Records a lock that was taken by fcntl, whose third word is an address or a number.
static int locked(int result, int file, int command, void *word) {
  int takes = (command == F_SETLK || command == F_OFD_SETLK) && ((struct flock *)word)->l_type == F_WRLCK;
  if (result == 0 && record >= 0 && takes) note((struct entry){LOCKED, 0, inode_of(file), 0, 0, 0}, "", "");
  DONE(result);
}

#define FCNTL(call)                                                                                        \
  int call(int file, int command, ...) {                                                                   \
    va_list rest;                                                                                          \
    va_start(rest, command);                                                                               \
    void *word = va_arg(rest, void *);                                                                     \
    va_end(rest);                                                                                          \
    pthread_mutex_lock(&one_at_a_time);                                                                    \
    return locked(NEXT(int (*)(int, int, void *), #call)(file, command, word), file, command, word);       \
  }

FCNTL(fcntl)
FCNTL(fcntl64)
