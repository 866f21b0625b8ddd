/* Faults of standard input and standard output, preloaded into a program. The environment says which:

     FAULT_READ_SIZE=N    a read takes at most N bytes
     FAULT_READ_AT=N      a read after the first N bytes fails
     FAULT_READ_ERROR=E   with this error, otherwise with EIO

   and the same with WRITE. EINTR and EAGAIN come once: another try would go on. The other errors stay. The error NOTHING is a call
   that answers 0. */
#include <errno.h>
#include <stdint.h>
#include <stdlib.h>
#include <string.h>
#include <sys/syscall.h>
#include <unistd.h>

struct stream {
  const char *size, *at, *error; /* the names of the variables */
  size_t moved;                  /* how many bytes went through */
  int failed;
};

static struct stream input = {"FAULT_READ_SIZE", "FAULT_READ_AT", "FAULT_READ_ERROR", 0, 0};
static struct stream output = {"FAULT_WRITE_SIZE", "FAULT_WRITE_AT", "FAULT_WRITE_ERROR", 0, 0};

static const struct {
  const char *name;
  int number;
  int stays;
} errors[] = {
    {"EIO", EIO, 1}, {"ENOSPC", ENOSPC, 1}, {"EINTR", EINTR, 0}, {"EAGAIN", EAGAIN, 0}, {"NOTHING", 0, 1},
};

/* The number of the variable, or no limit. */
static size_t limit(const char *variable) {
  const char *value = getenv(variable);
  return value ? strtoull(value, NULL, 10) : SIZE_MAX;
}

static size_t least(size_t a, size_t b) { return a < b ? a : b; }

/* The call fails, unless its error came before and does not stay. */
static int fails(struct stream *s) {
  const char *wanted = getenv(s->error);
  for (size_t i = 0; i < sizeof errors / sizeof *errors; i++) {
    if (strcmp(errors[i].name, wanted ? wanted : "EIO") == 0) {
      int now = errors[i].stays || !s->failed;
      s->failed = 1;
      errno = errors[i].number;
      return now;
    }
  }
  abort(); /* the variable names another error */
}

static ssize_t move(struct stream *s, long call, int descriptor, void *buffer, size_t count) {
  size_t at = limit(s->at);
  if (s->moved >= at) {
    if (fails(s))
      return errno == 0 ? 0 : -1;
    at = SIZE_MAX;
  }
  ssize_t moved = syscall(call, descriptor, buffer, least(least(count, limit(s->size)), at - s->moved));
  if (moved > 0)
    s->moved += (size_t)moved;
  return moved;
}

ssize_t read(int descriptor, void *buffer, size_t count) {
  if (descriptor == STDIN_FILENO)
    return move(&input, SYS_read, descriptor, buffer, count);
  return syscall(SYS_read, descriptor, buffer, count);
}

ssize_t write(int descriptor, const void *buffer, size_t count) {
  if (descriptor == STDOUT_FILENO)
    return move(&output, SYS_write, descriptor, (void *)buffer, count);
  return syscall(SYS_write, descriptor, buffer, count);
}
