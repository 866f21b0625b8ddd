/* The program `cardcheck` through the library. It takes the first 65,535 bytes of standard input as a card and prints one line: refusal
   (0 for none), records and active directives. Its status is 0, or 2 where input or output fails. */
#include "newelsage.h"
#include <inttypes.h>
#include <stdio.h>
#include <unistd.h>

enum { FAILED = 2 };

static int fail(const char *what) {
  perror(what);
  return FAILED;
}

/* Reads until the buffer is full or the input ends: how many bytes, or -1 where a read fails. A read that is interrupted has failed. */
static ssize_t fill(uint8_t *buffer, size_t size) {
  size_t done = 0;
  while (done < size) {
    ssize_t got = read(STDIN_FILENO, buffer + done, size - done);
    if (got < 0)
      return -1;
    if (got == 0)
      break;
    done += (size_t)got;
  }
  return (ssize_t)done;
}

/* Writes all of the text; whether it is written. */
static int put(const char *text, size_t size) {
  while (size > 0) {
    ssize_t written = write(STDOUT_FILENO, text, size);
    if (written <= 0)
      return 0;
    text += written;
    size -= (size_t)written;
  }
  return 1;
}

int main(int argc, char **argv) {
  static uint8_t card[65535];
  newelsage_memory memory;
  newelsage_answer answer;
  char line[80];
  (void)argv;
  if (argc != 1) {
    fputs("usage: cardcheck < CARD\n", stderr);
    return FAILED;
  }
  ssize_t length = fill(card, sizeof card);
  if (length < 0)
    return fail("standard input");
  uint64_t status = newelsage_read(newelsage_in(&memory), sizeof memory, card, (size_t)length, &answer);
  if (status >= NEWELSAGE_MALFORMED) {
    fputs("cardcheck: the library is not the one of its header\n", stderr);
    return FAILED;
  }
  uint64_t records = status == NEWELSAGE_ACCEPTED ? answer.values[0] : 0;
  uint64_t directives = status == NEWELSAGE_ACCEPTED ? answer.values[1] : 0;
  int size = snprintf(line, sizeof line, "%" PRIu64 " %" PRIu64 " %" PRIu64 "\n", status, records, directives);
  if (!put(line, (size_t)size) || close(STDOUT_FILENO) != 0)
    return fail("standard output");
  return 0;
}
