/* malloc and realloc of which one call is refused: the one of number refused_at, counted from 1. */
#define _GNU_SOURCE
#include <errno.h>
#include <stddef.h>

extern void *__libc_malloc(size_t);
extern void *__libc_realloc(void *, size_t);

long refused_at = -1, asked = 0;

static int refuses(void) {
  if (refused_at < 0 || ++asked != refused_at) return 0;
  errno = ENOMEM;
  return 1;
}

void *malloc(size_t size) { return refuses() ? NULL : __libc_malloc(size); }
void *realloc(void *block, size_t size) { return refuses() ? NULL : __libc_realloc(block, size); }
