// Loaded before the C library (LD_PRELOAD), this makes one allocation of a program fail: the one whose
// number, from 1, stands in FAIL_AT. Where COUNT_TO names a file, the number of allocations that the
// program asked for is written there when it ends, also by _exit, which runs no destructor.
#define _GNU_SOURCE
#include <dlfcn.h>
#include <errno.h>
#include <stddef.h>
#include <stdio.h>
#include <stdlib.h>

static unsigned long asked;

static int fails(void) {
  static unsigned long at;
  static int known;
  if (!known) {
    const char *word = getenv("FAIL_AT");
    at = word ? strtoul(word, NULL, 10) : 0;
    known = 1;
  }
  return ++asked == at;
}

void *malloc(size_t size) {
  static void *(*next)(size_t);
  if (!next) next = (void *(*)(size_t))dlsym(RTLD_NEXT, "malloc");
  if (fails()) { errno = ENOMEM; return NULL; }
  return next(size);
}

void *realloc(void *old, size_t size) {
  static void *(*next)(void *, size_t);
  if (!next) next = (void *(*)(void *, size_t))dlsym(RTLD_NEXT, "realloc");
  if (fails()) { errno = ENOMEM; return NULL; }
  return next(old, size);
}

__attribute__((destructor)) static void tell(void) {
  const char *path = getenv("COUNT_TO");
  unsigned long count = asked;
  if (!path) return;
  FILE *out = fopen(path, "w");
  if (!out) return;
  fprintf(out, "%lu\n", count);
  fclose(out);
}

__attribute__((noreturn)) void _exit(int status) {
  void (*next)(int) = (void (*)(int))dlsym(RTLD_NEXT, "_exit");
  tell();
  next(status);
  __builtin_unreachable();
}
