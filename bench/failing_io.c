// Loaded before the C library (LD_PRELOAD), this makes each read and write of a program move one byte, and one of them
// fail: the read from standard input whose number, from 1, stands in FAIL_READ_AT, or the write to standard output whose
// number stands in FAIL_WRITE_AT.
#define _GNU_SOURCE
#include <dlfcn.h>
#include <errno.h>
#include <stdlib.h>
#include <unistd.h>

static int fails(const char *name, unsigned long number) {
  const char *word = getenv(name);
  return word && strtoul(word, NULL, 10) == number;
}

ssize_t read(int file, void *to, size_t count) {
  static ssize_t (*next)(int, void *, size_t);
  static unsigned long number;
  if (!next) next = (ssize_t (*)(int, void *, size_t))dlsym(RTLD_NEXT, "read");
  if (file != 0) return next(file, to, count);
  if (fails("FAIL_READ_AT", ++number)) { errno = EIO; return -1; }
  return next(file, to, count < 1 ? count : 1);
}

ssize_t write(int file, const void *from, size_t count) {
  static ssize_t (*next)(int, const void *, size_t);
  static unsigned long number;
  if (!next) next = (ssize_t (*)(int, const void *, size_t))dlsym(RTLD_NEXT, "write");
  if (file != 1) return next(file, from, count);
  if (fails("FAIL_WRITE_AT", ++number)) { errno = EIO; return -1; }
  return next(file, from, count < 1 ? count : 1);
}
