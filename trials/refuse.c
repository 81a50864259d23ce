// A library to preload into a program of one thread. It makes allocations fail.
//
//   cc -shared -fPIC -o refuse.so refuse.c
//   LD_PRELOAD=./refuse.so REFUSE=12 REFUSE_COUNT=FILE PROGRAM ..      the 12th allocation fails
//   LD_PRELOAD=./refuse.so REFUSE=12- REFUSE_COUNT=FILE PROGRAM ..     the 12th and all later ones fail
//
// Without REFUSE no allocation fails. The library counts the allocations since it was loaded. At the program's end it writes
// two numbers to FILE: the allocations, and how many of them failed. Random bytes are the same in each run, so that equal
// runs leave equal files. The library needs the GNU C library, whose own functions have names that begin with __libc.
#define _GNU_SOURCE
#include <errno.h>
#include <fcntl.h>
#include <limits.h>
#include <malloc.h>
#include <stdio.h>
#include <stdlib.h>
#include <string.h>
#include <unistd.h>

void *__libc_malloc(size_t size);
void *__libc_calloc(size_t count, size_t size);
void *__libc_realloc(void *block, size_t size);
void *__libc_memalign(size_t alignment, size_t size);
void *__libc_valloc(size_t size);
void *__libc_pvalloc(size_t size);

static unsigned long allocations, failures;
static unsigned long first = ULONG_MAX, last = ULONG_MAX;

__attribute__((constructor)) static void begin(void) {
  const char *setting = getenv("REFUSE");
  char *rest;
  allocations = 0;
  if (setting) {
    first = strtoul(setting, &rest, 10);
    last = *rest == '-' ? ULONG_MAX : first;
  }
}

__attribute__((destructor)) static void end(void) {
  const char *name = getenv("REFUSE_COUNT");
  char line[64];
  int length = snprintf(line, sizeof line, "%lu %lu\n", allocations, failures);
  int file = name ? open(name, O_WRONLY | O_CREAT | O_TRUNC, 0666) : -1;
  if (name && (file < 0 || write(file, line, length) != length)) {
    _exit(125);
  }
}

static int must_fail(void) {
  allocations += 1;
  if (allocations < first || allocations > last) {
    return 0;
  }
  failures += 1;
  errno = ENOMEM;
  return 1;
}

void *malloc(size_t size) { return must_fail() ? NULL : __libc_malloc(size); }

void *calloc(size_t count, size_t size) { return must_fail() ? NULL : __libc_calloc(count, size); }

void *realloc(void *block, size_t size) { return must_fail() ? NULL : __libc_realloc(block, size); }

void *reallocarray(void *block, size_t count, size_t size) {
  size_t bytes;
  if (__builtin_mul_overflow(count, size, &bytes)) {
    errno = ENOMEM;
    return NULL;
  }
  return realloc(block, bytes);
}

void *memalign(size_t alignment, size_t size) { return must_fail() ? NULL : __libc_memalign(alignment, size); }

void *aligned_alloc(size_t alignment, size_t size) { return memalign(alignment, size); }

int posix_memalign(void **result, size_t alignment, size_t size) {
  if (alignment % sizeof(void *) || alignment & (alignment - 1) || !alignment) {
    return EINVAL;
  }
  void *found = memalign(alignment, size);
  if (!found) {
    return ENOMEM;
  }
  *result = found;
  return 0;
}

void *valloc(size_t size) { return must_fail() ? NULL : __libc_valloc(size); }

void *pvalloc(size_t size) { return must_fail() ? NULL : __libc_pvalloc(size); }

int getentropy(void *bytes, size_t size) {
  memset(bytes, 7, size);
  return 0;
}
