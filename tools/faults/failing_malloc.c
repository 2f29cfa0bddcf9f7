// Refuses the allocation of one number, beneath a program by LD_PRELOAD, and counts all.
// tools/allocations builds and uses it.
//
//   REFUSED_NUMBER=N     the Nth allocation returns null; 0 refuses none
//   COUNTS_FILE=FILE     two words of 64 bits: how many allocations, and how many were refused
//
// COUNTS_FILE is mapped, so that the words stand there however the program ends.
#include <errno.h>
#include <fcntl.h>
#include <stddef.h>
#include <stdint.h>
#include <stdlib.h>
#include <sys/mman.h>
#include <unistd.h>

// glibc's own, by names that nothing overrides
extern void *__libc_malloc(size_t size);
extern void *__libc_calloc(size_t count, size_t size);
extern void *__libc_realloc(void *block, size_t size);

struct counts {
  uint64_t made;
  uint64_t refused;
};

// null until the program's own code begins: what the loader allocates isn't counted
static struct counts *counts;
static uint64_t refused_number;

__attribute__((constructor)) static void begin(void) {
  const char *name = getenv("COUNTS_FILE");
  const char *number = getenv("REFUSED_NUMBER");
  int file = name ? open(name, O_RDWR) : -1;
  if (file < 0 || !number) abort();
  void *words = mmap(NULL, sizeof(struct counts), PROT_READ | PROT_WRITE, MAP_SHARED, file, 0);
  if (words == MAP_FAILED) abort();
  close(file);
  refused_number = strtoull(number, NULL, 10);
  counts = words;
}

static int is_refused(void) {
  if (!counts) return 0;
  counts->made += 1;
  if (counts->made != refused_number) return 0;
  counts->refused += 1;
  errno = ENOMEM;
  return 1;
}

void *malloc(size_t size) { return is_refused() ? NULL : __libc_malloc(size); }

void *calloc(size_t count, size_t size) { return is_refused() ? NULL : __libc_calloc(count, size); }

void *realloc(void *block, size_t size) { return is_refused() ? NULL : __libc_realloc(block, size); }
