/* The program `replay` through the library. It reads a card and a list of calls from standard input and prints a line for each, at once.
   Its status is 0, also for a malformed replay, or 2 where input or output fails: then it prints nothing more. */
#include "newelsage.h"
#include <stdio.h>
#include <string.h>
#include <unistd.h>

enum { FAILED = 2, LONGEST = 65535 };

typedef enum part { ENDED, CUT, BROKEN, WHOLE } part;

static newelsage_memory memory;
static newelsage_answer answer;
static uint8_t value[LONGEST], lent[LONGEST];

/* The line at hand: a status, at most six values and the longest buffer in hexadecimal. */
static char line[7 * 21 + 2 * LONGEST + 1];
static size_t line_size;

static int fail(const char *what) {
  perror(what);
  return FAILED;
}

static int fail_library(void) {
  fputs("replay: the library is not the one of its header\n", stderr);
  return FAILED;
}

/* Reads until the buffer is full or the input ends: how many bytes, or -1 where a read fails. A read that is interrupted has failed. */
static ssize_t fill(uint8_t *buffer, size_t size) {
  size_t done = 0;
  while (done < size) {
    ssize_t got = read(STDIN_FILENO, buffer + done, size - done);
    if (got < 0)
      return -1;
    if (got == 0)
      break;
    done += (size_t)got;
  }
  return (ssize_t)done;
}

/* Reads a head, and the value whose length the head's last two bytes give. */
static part read_part(uint8_t *head, size_t head_size, size_t *length) {
  ssize_t got = fill(head, head_size);
  if (got <= 0)
    return got < 0 ? BROKEN : ENDED;
  if ((size_t)got < head_size)
    return CUT;
  *length = (size_t)head[head_size - 2] << 8 | head[head_size - 1];
  got = fill(value, *length);
  if (got < 0)
    return BROKEN;
  return (size_t)got < *length ? CUT : WHOLE;
}

static void add_text(const char *text) {
  size_t size = strlen(text);
  memcpy(line + line_size, text, size);
  line_size += size;
}

static void add_number(uint64_t number) {
  char digits[21];
  size_t at = sizeof digits;
  digits[--at] = '\0';
  do {
    digits[--at] = (char)('0' + number % 10);
    number /= 10;
  } while (number != 0);
  if (line_size > 0)
    line[line_size++] = ' ';
  add_text(digits + at);
}

static void add_bytes(const uint8_t *bytes, size_t size) {
  static const char digits[] = "0123456789abcdef";
  line[line_size++] = ' ';
  for (size_t i = 0; i < size; i++) {
    line[line_size++] = digits[bytes[i] >> 4];
    line[line_size++] = digits[bytes[i] & 15];
  }
}

/* Writes the line with its end, and begins the next; whether it is written. */
static int put_line(void) {
  const char *at = line;
  line[line_size++] = '\n';
  while (line_size > 0) {
    ssize_t written = write(STDOUT_FILENO, at, line_size);
    if (written <= 0)
      return 0;
    at += written;
    line_size -= (size_t)written;
  }
  return 1;
}

static int end(void) { return close(STDOUT_FILENO) == 0 ? 0 : fail("standard output"); }

static int end_malformed(void) {
  add_text("malformed");
  return put_line() ? end() : fail("standard output");
}

/* The tags below 0x10 are the library's own, and none of a replay. */
static uint64_t run_call(uint8_t tag, size_t length) {
  if (tag < NEWELSAGE_TAG_COMMIT)
    return NEWELSAGE_MALFORMED;
  if (tag <= NEWELSAGE_TAG_ISSUE)
    return newelsage_call(newelsage_in(&memory), sizeof memory, tag, value, length, &answer);
  return newelsage_ask(newelsage_in(&memory), sizeof memory, tag, value, length, lent, sizeof lent, &answer);
}

static void add_card(void) {
  int accepted = answer.status == NEWELSAGE_ACCEPTED;
  add_number(answer.status);
  add_number(accepted ? answer.values[0] : 0);
  add_number(accepted ? answer.values[1] : 0);
}

static void add_answer(uint8_t tag) {
  add_number(answer.status);
  for (size_t i = 0; i < answer.count; i++)
    add_number(answer.values[i]);
  if (tag == NEWELSAGE_TAG_WRITE && answer.status == NEWELSAGE_ACCEPTED)
    add_bytes(lent, answer.values[0]);
}

int main(int argc, char **argv) {
  uint8_t card_head[2], head[3];
  size_t length = 0;
  (void)argv;
  if (argc != 1) {
    fputs("usage: replay < REPLAY\n", stderr);
    return FAILED;
  }
  part card = read_part(card_head, sizeof card_head, &length);
  if (card == BROKEN)
    return fail("standard input");
  if (card != WHOLE)
    return end_malformed();
  if (newelsage_read(newelsage_in(&memory), sizeof memory, value, length, &answer) >= NEWELSAGE_MALFORMED)
    return fail_library();
  add_card();
  while (put_line()) {
    part call = read_part(head, sizeof head, &length);
    if (call == BROKEN)
      return fail("standard input");
    if (call == ENDED)
      return end();
    uint64_t status = call == CUT ? NEWELSAGE_MALFORMED : run_call(head[0], length);
    if (status == NEWELSAGE_MALFORMED)
      return end_malformed();
    if (status > NEWELSAGE_MALFORMED)
      return fail_library();
    add_answer(head[0]);
  }
  return fail("standard output");
}
