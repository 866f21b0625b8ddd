/* What a program could get wrong about its input and output, preloaded into a right one. WRONG says which. */
#define _GNU_SOURCE
#include <dlfcn.h>
#include <stdint.h>
#include <unistd.h>

enum {
  ERROR_IS_END,         /* a failed read is the end of the input */
  ERROR_IS_SKIPPED,     /* a failed read is tried again */
  SHORT_READ_IS_ALL,    /* after a read that took less than was asked the input ends */
  UNWRITTEN_IS_WRITTEN, /* a failed write is taken for a whole one */
  SHORT_WRITE_IS_ALL,   /* so is a write that took less than was asked */
  STATUS_IS_ZERO,       /* the status is always 0 */
  NOTHING_IS_SAID,      /* nothing goes to standard error */
};

static ssize_t next_read(int descriptor, void *buffer, size_t count) {
  return ((ssize_t(*)(int, void *, size_t))(intptr_t)dlsym(RTLD_NEXT, "read"))(descriptor, buffer, count);
}

static ssize_t next_write(int descriptor, const void *buffer, size_t count) {
  return ((ssize_t(*)(int, const void *, size_t))(intptr_t)dlsym(RTLD_NEXT, "write"))(descriptor, buffer, count);
}

ssize_t read(int descriptor, void *buffer, size_t count) {
  static int ended;
  if (ended)
    return 0;
  ssize_t got = next_read(descriptor, buffer, count);
  if (WRONG == ERROR_IS_END && got < 0)
    return 0;
  if (WRONG == ERROR_IS_SKIPPED && got < 0)
    return next_read(descriptor, buffer, count);
  if (WRONG == SHORT_READ_IS_ALL && got >= 0 && (size_t)got < count)
    ended = 1;
  return got;
}

ssize_t write(int descriptor, const void *buffer, size_t count) {
  if (WRONG == NOTHING_IS_SAID && descriptor == STDERR_FILENO)
    return (ssize_t)count;
  ssize_t put = next_write(descriptor, buffer, count);
  if (WRONG == UNWRITTEN_IS_WRITTEN && put < 0)
    return (ssize_t)count;
  if (WRONG == SHORT_WRITE_IS_ALL && put > 0)
    return (ssize_t)count;
  return put;
}

__attribute__((destructor)) static void end(void) {
  if (WRONG == STATUS_IS_ZERO)
    _exit(0);
}
