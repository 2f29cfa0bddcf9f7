// Beneath ldbtool, by LD_PRELOAD: the call of the system of one number fails with EIO, and all are
// counted. tools/faults/refusals builds and uses it. A call counts if it concerns files of one
// folder: by a path in it, or by a descriptor that isn't a standard stream.
//
//   REFUSED_NUMBER=N     the Nth call fails and does nothing, none if N is 0.
//   STOPS=1              That call doesn't fail: the program stops before it (tools/faults/turns).
//   COUNTS_FILE=FILE     It has two words of 64 bits: how many calls there were, and failed.
//   FOLDER=PATH          The folder.
//
// COUNTS_FILE is mapped, so that the words are there however the program ends.
#define _GNU_SOURCE
#include <dlfcn.h>
#include <errno.h>
#include <fcntl.h>
#include <signal.h>
#include <stdarg.h>
#include <stdint.h>
#include <stdlib.h>
#include <string.h>
#include <sys/mman.h>
#include <sys/stat.h>
#include <unistd.h>

struct counts {
  uint64_t made;
  uint64_t failed;
};

// null until the program's own code begins
static struct counts *counts;
static uint64_t refused_number;
static int stops;
static const char *folder;

__attribute__((constructor)) static void begin(void) {
  const char *name = getenv("COUNTS_FILE");
  const char *number = getenv("REFUSED_NUMBER");
  folder = getenv("FOLDER");
  int file = name ? open(name, O_RDWR) : -1;
  if (file < 0 || !number || !folder) abort();
  void *words = mmap(NULL, sizeof(struct counts), PROT_READ | PROT_WRITE, MAP_SHARED, file, 0);
  if (words == MAP_FAILED) abort();
  close(file);
  refused_number = strtoull(number, NULL, 10);
  stops = getenv("STOPS") != NULL;
  counts = words;
}

static int is_refused(void) {
  if (!counts) return 0;
  counts->made += 1;
  if (counts->made != refused_number) return 0;
  if (stops) {
    raise(SIGSTOP);
    return 0;
  }
  counts->failed += 1;
  errno = EIO;
  return 1;
}

static int in_folder(const char *path) { return folder && strncmp(path, folder, strlen(folder)) == 0; }

#define NEXT(type, name) ((type)dlsym(RTLD_NEXT, name))

int openat(int at, const char *path, int flags, ...) {
  va_list rest;
  va_start(rest, flags);
  mode_t mode = va_arg(rest, mode_t);
  va_end(rest);
  if (in_folder(path) && is_refused()) return -1;
  return NEXT(int (*)(int, const char *, int, mode_t), "openat")(at, path, flags, mode);
}

int open(const char *path, int flags, ...) {
  va_list rest;
  va_start(rest, flags);
  mode_t mode = va_arg(rest, mode_t);
  va_end(rest);
  if (in_folder(path) && is_refused()) return -1;
  return NEXT(int (*)(const char *, int, mode_t), "open")(path, flags, mode);
}

ssize_t write(int file, const void *bytes, size_t count) {
  if (file > 2 && is_refused()) return -1;
  return NEXT(ssize_t(*)(int, const void *, size_t), "write")(file, bytes, count);
}

ssize_t __write(int file, const void *bytes, size_t count) {
  if (file > 2 && is_refused()) return -1;
  return NEXT(ssize_t(*)(int, const void *, size_t), "__write")(file, bytes, count);
}

ssize_t pread(int file, void *bytes, size_t count, off_t at) {
  if (is_refused()) return -1;
  return NEXT(ssize_t(*)(int, void *, size_t, off_t), "pread")(file, bytes, count, at);
}

ssize_t getdents64(int file, void *bytes, size_t count) {
  if (is_refused()) return -1;
  return NEXT(ssize_t(*)(int, void *, size_t), "getdents64")(file, bytes, count);
}

int fdatasync(int file) { return is_refused() ? -1 : NEXT(int (*)(int), "fdatasync")(file); }

int fsync(int file) { return is_refused() ? -1 : NEXT(int (*)(int), "fsync")(file); }

int ftruncate(int file, off_t length) { return is_refused() ? -1 : NEXT(int (*)(int, off_t), "ftruncate")(file, length); }

int rename(const char *from, const char *to) { return is_refused() ? -1 : NEXT(int (*)(const char *, const char *), "rename")(from, to); }

int unlink(const char *path) { return in_folder(path) && is_refused() ? -1 : NEXT(int (*)(const char *), "unlink")(path); }

int statx(int at, const char *restrict path, int flags, unsigned int mask, struct statx *restrict found) {
  if ((in_folder(path) || at > 2) && is_refused()) return -1;
  return NEXT(int (*)(int, const char *, int, unsigned int, struct statx *), "statx")(at, path, flags, mask, found);
}
