/* What a caller of the library relies on. Each test runs twice: ledger, value, buffer and answer end where a page begins that cannot be
   touched, and then they begin where such a page ends. So a byte that is touched beyond them ends the program. The last line is
   'N passed, M failed'. */
#define _DEFAULT_SOURCE
#include "newelsage.h"
#include <inttypes.h>
#include <signal.h>
#include <stdarg.h>
#include <stdbool.h>
#include <stdio.h>
#include <stdlib.h>
#include <string.h>
#include <sys/mman.h>
#include <unistd.h>

/* --- the tests and their count --- */

static const char *running = "the start";
static bool good;
static unsigned expectations, passed, failed;

static void expect(bool holds, const char *format, ...) {
  expectations++;
  if (holds)
    return;
  if (good) {
    va_list arguments;
    va_start(arguments, format);
    printf("%s: ", running);
    vprintf(format, arguments);
    printf("\n");
    va_end(arguments);
  }
  good = false;
}

static void say(const char *text) {
  if (write(STDOUT_FILENO, text, strlen(text)) < 0)
    _exit(1);
}

/* A page that cannot be touched was, or a call does not end: there is no count. */
static void stop(int number) {
  say(number == SIGALRM ? "failed: no end: " : "failed: memory beyond is touched: ");
  say(running);
  say("\n");
  _exit(1);
}

/* --- memory between two pages that cannot be touched --- */

enum { PAGE = 4096, LONG = 70000 };

typedef struct area {
  uint8_t *start;
  size_t size;
} area;

static area ledger_area, other_area, value_area, lent_area, answer_area;
static bool at_front;

static area new_area(size_t size) {
  size_t pages = (size + PAGE - 1) / PAGE * PAGE;
  uint8_t *all = mmap(NULL, pages + 2 * PAGE, PROT_NONE, MAP_PRIVATE | MAP_ANONYMOUS, -1, 0);
  if (all == MAP_FAILED || mprotect(all + PAGE, pages, PROT_READ | PROT_WRITE) != 0) {
    perror("mmap");
    exit(2);
  }
  return (area){all + PAGE, pages};
}

/* So many bytes of it, against the one guard or the other. */
static uint8_t *place(area a, size_t size) { return at_front ? a.start : a.start + a.size - size; }

/* --- bytes --- */

/* The bytes that a text has in hexadecimal; blanks are skipped. */
static size_t unhex(const char *text, uint8_t *bytes) {
  size_t digits = 0;
  for (; *text != '\0'; text++) {
    if (*text == ' ')
      continue;
    unsigned digit = (unsigned)(*text <= '9' ? *text - '0' : (*text | 0x20) - 'a' + 10);
    bytes[digits / 2] = (uint8_t)(digits % 2 == 0 ? digit << 4 : bytes[digits / 2] | digit);
    digits++;
  }
  return digits / 2;
}

/* Put one number after another, high byte first. */
static uint8_t *put(uint8_t *at, unsigned size, uint64_t number) {
  while (size-- > 0)
    *at++ = (uint8_t)(number >> 8 * size);
  return at;
}

static bool all_are(const uint8_t *bytes, size_t size, uint8_t byte) {
  for (size_t i = 0; i < size; i++)
    if (bytes[i] != byte)
      return false;
  return true;
}

/* Random numbers, the same ones in every run. */
static uint64_t random_state;

static uint64_t next_random(void) {
  random_state += 0x9E3779B97F4A7C15u;
  uint64_t z = random_state;
  z = (z ^ z >> 30) * 0xBF58476D1CE4E5B9u;
  z = (z ^ z >> 27) * 0x94D049BB133111EBu;
  return z ^ z >> 31;
}

static unsigned below(unsigned limit) { return (unsigned)(next_random() % limit); }

static void fill_random(uint8_t *bytes, size_t size) {
  for (size_t i = 0; i < size; i++)
    bytes[i] = (uint8_t)next_random();
}

/* --- calls on the ledger at hand --- */

enum { SIZE = NEWELSAGE_SIZE, DRAFT = 25, PAINT = 0xEE };

static newelsage_ledger *ledger;
static newelsage_answer *answer;
static uint8_t *lent;
static size_t lent_length;

static uint8_t *ledger_bytes(void) { return (uint8_t *)ledger; }

static newelsage_ledger *ledger_in(area a) { return (newelsage_ledger *)(void *)place(a, SIZE); }

static void paint_answer(void) {
  answer = (newelsage_answer *)(void *)place(answer_area, sizeof *answer);
  memset(answer, PAINT, sizeof *answer);
}

/* The answer is one: the status that was returned, and no more values than there are. */
static uint64_t answered(uint64_t status) {
  expect(answer->status == status, "returned %" PRIu64 ", answered %" PRIu64, status, answer->status);
  expect(answer->count <= 6, "%" PRIu64 " values", answer->count);
  return status;
}

static const uint8_t *value_of(const uint8_t *bytes, size_t length) {
  uint8_t *value = place(value_area, length);
  memmove(value, bytes, length);
  return value;
}

static uint64_t read_bytes(size_t size, const uint8_t *card, size_t length) {
  paint_answer();
  return answered(newelsage_read(ledger, size, value_of(card, length), length, answer));
}

static uint64_t call_bytes(size_t size, unsigned tag, const uint8_t *bytes, size_t length) {
  paint_answer();
  return answered(newelsage_call(ledger, size, (uint8_t)tag, value_of(bytes, length), length, answer));
}

/* The buffer is painted and lent: `lent_length` bytes, none if not set before. */
static uint64_t ask_bytes(size_t size, unsigned tag, const uint8_t *bytes, size_t length) {
  paint_answer();
  lent = place(lent_area, lent_length);
  memset(lent, PAINT, lent_length);
  return answered(newelsage_ask(ledger, size, (uint8_t)tag, value_of(bytes, length), length, lent, lent_length, answer));
}

static uint8_t scratch[PAGE];

static uint64_t read_card(const char *card) { return read_bytes(SIZE, scratch, unhex(card, scratch)); }
static uint64_t call(newelsage_tag tag, const char *value) { return call_bytes(SIZE, tag, scratch, unhex(value, scratch)); }
static uint64_t ask(newelsage_tag tag, const char *value) { return ask_bytes(SIZE, tag, scratch, unhex(value, scratch)); }

/* The answer as a line: the status and the values. */
static void is(uint64_t status, const char *line) {
  char text[7 * 21 + 1];
  int size = snprintf(text, sizeof text, "%" PRIu64, status);
  for (size_t i = 0; i < answer->count && i < 6; i++)
    size += snprintf(text + size, sizeof text - (size_t)size, " %" PRIu64, answer->values[i]);
  expect(strcmp(text, line) == 0, "answered '%s', not '%s'", text, line);
}

/* The same for a call that is not accepted: no byte of the ledger changes. */
static uint8_t kept[SIZE];

static void keep(void) { memcpy(kept, ledger, SIZE); }
static bool unchanged(void) { return memcmp(kept, ledger, SIZE) == 0; }

static void is_refused(newelsage_tag tag, const char *value, const char *line) {
  keep();
  is(call(tag, value), line);
  expect(unchanged(), "refused with %s, and the ledger is another", line);
}

/* --- document 01's examples --- */

#define HEAD "01 0007 02 0007 000003E8 "
#define REGISTER HEAD "02 0004 00000100 03 000A 00 01F4 0001 0001 00 0000 03 000A 00 01F5 0003 0001 00 0004 03 000A 01 01F6 0002 0003 00 0800 "
#define SAMPLE HEAD "02 0001 00 03 000A 00 01F4 0001 0001 00 0000"
#define REST " FFFF FFFF FF 07FF "
#define A "0001 00 01 0001 FFFF 00 02" REST "000003E8 000007D0"
#define Q "0258 0001 01 01 00"

static void sample_register(void) { is(read_card(REGISTER), "0 3 0"); }

static void sample_register_with_a(void) {
  sample_register();
  is(call(NEWELSAGE_TAG_COMMIT, A), "0");
}

static void k1(void) {
  sample_register();
  is(ask(NEWELSAGE_TAG_DECIDE, Q), "0 1 4");
  is(ask(NEWELSAGE_TAG_DECIDE, "0258 0001 01 01 01"), "0 0 4");
}

static void k2(void) {
  sample_register_with_a();
  is(ask(NEWELSAGE_TAG_DECIDE, Q), "0 0 3 1");
  is(ask(NEWELSAGE_TAG_DECIDE, "0258 0003 01 01 00"), "0 1 4");
}

static void k3(void) {
  sample_register_with_a();
  is(ask(NEWELSAGE_TAG_DECIDE, "01F5 0001 01 01 00"), "0 1 2");
  is(ask(NEWELSAGE_TAG_DECIDE, "0007 0001 01 01 00"), "0 1 1");
}

static void k5(void) {
  sample_register_with_a();
  is(call(NEWELSAGE_TAG_COMMIT, "0002 01 00 0258 FFFF 01 00" REST "000005DC 000009C4"), "13 1");
  is(call(NEWELSAGE_TAG_COMMIT, "0002 01 00 0258 FFFF 01 00" REST "000007D0 000009C4"), "0");
}

static void k10(void) {
  sample_register();
  is(call(NEWELSAGE_TAG_ISSUE, "0009 0258 01 0000001E"), "0");
  is(ask(NEWELSAGE_TAG_BRIEF, "0009 0258"), "0 2 0 1");
  is(call(NEWELSAGE_TAG_ADVANCE, "00000405"), "0 0 0");
  is(ask(NEWELSAGE_TAG_BRIEF, "0009 0258"), "0 2 0 1");
  is(call(NEWELSAGE_TAG_ADVANCE, "00000406"), "0 0 1");
  is(ask(NEWELSAGE_TAG_BRIEF, "0009 0258"), "22");
}

/* --- a ledger's life --- */

static void size_and_version(void) {
  expect(newelsage_size() == NEWELSAGE_SIZE, "newelsage_size() is %zu", newelsage_size());
  expect(newelsage_version() == NEWELSAGE_VERSION, "newelsage_version() is %" PRIu64, newelsage_version());
  expect(sizeof(newelsage_memory) == NEWELSAGE_SIZE, "a newelsage_memory has %zu bytes", sizeof(newelsage_memory));
}

static void empty(void) {
  memset(ledger, PAINT, SIZE);
  expect(newelsage_empty(ledger, SIZE) == NEWELSAGE_ACCEPTED, "not made");
  is(ask(NEWELSAGE_TAG_COUNTS, ""), "0 0 0 0 0 0");
  is(ask(NEWELSAGE_TAG_TOKEN, "00"), "22");
  is(ask(NEWELSAGE_TAG_DECIDE, "0000 0000 00 00 00"), "17");
  is(call(NEWELSAGE_TAG_COMMIT, A), "8");
  is(call(NEWELSAGE_TAG_ADVANCE, "FFFFFFFF"), "0 0 0");
  is(ask(NEWELSAGE_TAG_COUNTS, ""), "0 0 4294967295 0 0 0");
}

static void counts_and_tokens(void) {
  sample_register_with_a();
  is(ask(NEWELSAGE_TAG_COUNTS, ""), "0 7 1000 3 1 0");
  is(ask(NEWELSAGE_TAG_TOKEN, "00"), "22");
  is(call(NEWELSAGE_TAG_ISSUE, "0009 0258 01 0000001E"), "0");
  is(call(NEWELSAGE_TAG_ISSUE, "0003 0259 C0 000000F0"), "0");
  is(ask(NEWELSAGE_TAG_COUNTS, ""), "0 7 1000 3 1 2");
  is(ask(NEWELSAGE_TAG_TOKEN, "00"), "0 9 600 1 1030");
  is(ask(NEWELSAGE_TAG_TOKEN, "01"), "0 3 601 192 1240");
  is(ask(NEWELSAGE_TAG_TOKEN, "02"), "22");
  is(ask(NEWELSAGE_TAG_TOKEN, "FF"), "22");
  is(call(NEWELSAGE_TAG_ADVANCE, "00000406"), "0 0 1");
  is(ask(NEWELSAGE_TAG_TOKEN, "00"), "0 3 601 192 1240");
  is(ask(NEWELSAGE_TAG_COUNTS, ""), "0 7 1030 3 1 1");
  is(call(NEWELSAGE_TAG_REVOKE, "0001"), "0");
  is(ask(NEWELSAGE_TAG_COUNTS, ""), "0 7 1030 3 0 1");
}

static void previews(void) {
  sample_register();
  is(ask(NEWELSAGE_TAG_PREVIEW, "0258 0001 01 00" A), "0 6 0 2");
  is(ask(NEWELSAGE_TAG_PREVIEW, "0258 0003 01 00" A), "0 0 0 0");
  is(ask(NEWELSAGE_TAG_PREVIEW, "0258 0004 01 00" A), "17");
  is(ask(NEWELSAGE_TAG_PREVIEW, "0258 0001 01 00"), "6");
  is(call(NEWELSAGE_TAG_COMMIT, A), "0");
  is(ask(NEWELSAGE_TAG_PREVIEW, "0258 0001 01 00" A), "10");
  is(ask(NEWELSAGE_TAG_PREVIEW, "0258 0001 01 00 0002 01 00 0258 FFFF 01 00" REST "000005DC 000009C4"), "13 1");
}

/* A refused card gives the empty ledger, whatever stood there. */
static void refused_cards(void) {
  static const struct {
    const char *card, *line;
  } rows[] = {
      {"", "5"},
      {"01", "1"},
      {"02 0001 00", "2"},
      {HEAD "02 0002 00 01", "4"},
      {REGISTER "04 0019 " A " 04 0019 0002 01 01 0002 FFFF 00 02" REST "000003E8 000007D0", "13 1"},
      {REGISTER "04 0019 " A " 04 0019 " A, "10"},
  };
  for (size_t i = 0; i < sizeof rows / sizeof *rows; i++) {
    sample_register_with_a();
    is(call(NEWELSAGE_TAG_ISSUE, "0009 0258 01 0000001E"), "0");
    is(read_card(rows[i].card), rows[i].line);
    is(ask(NEWELSAGE_TAG_COUNTS, ""), "0 0 0 0 0 0");
    is(ask(NEWELSAGE_TAG_BRIEF, "0009 0258"), "22");
  }
  static const uint8_t zeros[LONG];
  is(read_bytes(SIZE, zeros, LONG), "2");
  is(read_card(REGISTER "04 0019 " A), "0 3 1");
}

/* --- refused calls --- */

static void refused_calls(void) {
  sample_register_with_a();
  is_refused(NEWELSAGE_TAG_COMMIT, "", "6");
  is_refused(NEWELSAGE_TAG_COMMIT, A " 00", "6");
  is_refused(NEWELSAGE_TAG_COMMIT, "0002 02 01 0001 FFFF 00 02" REST "000003E8 000007D0", "7");
  is_refused(NEWELSAGE_TAG_COMMIT, "0002 00 01 0004 FFFF 00 02" REST "000003E8 000007D0", "8");
  is_refused(NEWELSAGE_TAG_COMMIT, "0002 00 01 0001 FFFF 03 02" REST "000003E8 000007D0", "8");
  is_refused(NEWELSAGE_TAG_COMMIT, "0002 00 01 0001 FFFF 00 02" REST "00000000 000003E8", "9");
  is_refused(NEWELSAGE_TAG_COMMIT, A, "10");
  is_refused(NEWELSAGE_TAG_COMMIT, "0002 00 00 01F6 FFFF 01 01" REST "000003E8 000007D0", "12");
  is_refused(NEWELSAGE_TAG_COMMIT, "0002 01 00 0258 FFFF 01 00" REST "000005DC 000009C4", "13 1");
  is_refused(NEWELSAGE_TAG_COMMIT, "0002 00 01 0002 FFFF 01 01" REST "000003E8 000007D0", "14");
  is_refused(NEWELSAGE_TAG_REVOKE, "0002", "15");
  is_refused(NEWELSAGE_TAG_ADVANCE, "000003E7", "16");
  is_refused(NEWELSAGE_TAG_ISSUE, "0009 0258 00 0000001E", "18");
  is_refused(NEWELSAGE_TAG_ISSUE, "0009 0258 01 00000000", "19");
  is_refused(NEWELSAGE_TAG_ISSUE, "0009 0258 01 000000F1", "19");
  for (unsigned number = 1; number <= 4; number++) {
    put(put(put(put(scratch, 2, number), 2, 600), 1, 1), 4, 30);
    is(call_bytes(SIZE, NEWELSAGE_TAG_ISSUE, scratch, 9), "0");
  }
  is_refused(NEWELSAGE_TAG_ISSUE, "0004 0258 01 0000001E", "20");
  is_refused(NEWELSAGE_TAG_ISSUE, "0005 0258 01 0000001E", "21");
}

/* Denies of record 1 for the persons 601 to 632 and one more. */
static void full_list(void) {
  uint8_t draft[DRAFT];
  sample_register();
  unhex("0000 00 00 0000 FFFF 01 00" REST "000003E8 000007D0", draft);
  for (unsigned number = 1; number <= 33; number++) {
    put(draft, 2, number);
    put(draft + 4, 2, 600 + number);
    keep();
    is(call_bytes(SIZE, NEWELSAGE_TAG_COMMIT, draft, sizeof draft), number <= 32 ? "0" : "11");
  }
  expect(unchanged(), "refused with 11, and the ledger is another");
  is(ask(NEWELSAGE_TAG_COUNTS, ""), "0 7 1000 3 32 0");
  is(call(NEWELSAGE_TAG_ADVANCE, "000007D0"), "0 32 0");
}

/* --- calls that are not made --- */

static const uint8_t call_tags[] = {NEWELSAGE_TAG_COMMIT, NEWELSAGE_TAG_REVOKE, NEWELSAGE_TAG_ADVANCE, NEWELSAGE_TAG_ISSUE};
static const uint8_t ask_tags[] = {NEWELSAGE_TAG_COUNTS, NEWELSAGE_TAG_TOKEN, NEWELSAGE_TAG_DECIDE, NEWELSAGE_TAG_BRIEF, NEWELSAGE_TAG_WRITE, NEWELSAGE_TAG_PREVIEW};

/* The length of each tag's value, and whether a draft follows, of any length. */
static const struct {
  uint8_t tag, length;
  bool draft;
} lengths[] = {
    {NEWELSAGE_TAG_COUNTS, 0, false},  {NEWELSAGE_TAG_TOKEN, 1, false}, {NEWELSAGE_TAG_COMMIT, 0, true}, {NEWELSAGE_TAG_REVOKE, 2, false},
    {NEWELSAGE_TAG_ADVANCE, 4, false}, {NEWELSAGE_TAG_ISSUE, 9, false}, {NEWELSAGE_TAG_DECIDE, 7, false}, {NEWELSAGE_TAG_BRIEF, 4, false},
    {NEWELSAGE_TAG_WRITE, 2, false},   {NEWELSAGE_TAG_PREVIEW, 6, true},
};

static size_t length_of(unsigned tag) {
  for (size_t i = 0; i < sizeof lengths / sizeof *lengths; i++)
    if (lengths[i].tag == tag)
      return (size_t)lengths[i].length + (lengths[i].draft ? DRAFT : 0);
  return 0;
}

static bool fits(const uint8_t *tags, size_t tag_count, unsigned tag, size_t length) {
  if (memchr(tags, (int)tag, tag_count) == NULL)
    return false;
  for (size_t i = 0; i < sizeof lengths / sizeof *lengths; i++)
    if (lengths[i].tag == tag)
      return lengths[i].draft ? length >= lengths[i].length : length == lengths[i].length;
  return false;
}

static bool lent_is_kept(void) { return all_are(lent, lent_length, PAINT); }

/* A call that was not made has no value. */
static void is_not_made(uint64_t status, newelsage_status expected, unsigned tag, size_t length) {
  expect(status == expected && answer->count == 0, "tag %#x, %zu bytes: %" PRIu64 " and %" PRIu64 " values", tag, length, status, answer->count);
}

/* Every tag with values of zeros: those that are not malformed are refused, or change nothing. */
static void malformed(void) {
  static const uint8_t zeros[LONG];
  sample_register_with_a();
  is(call(NEWELSAGE_TAG_ISSUE, "0009 0258 01 0000001E"), "0");
  keep();
  lent_length = 26;
  for (unsigned tag = 0; tag < 256; tag++) {
    for (size_t i = 0; i <= 42; i++) {
      size_t length = i <= 40 ? i : i == 41 ? 65535 : LONG;
      uint64_t status = call_bytes(SIZE, tag, zeros, length);
      if (fits(call_tags, sizeof call_tags, tag, length))
        expect(status > 0 && status < NEWELSAGE_MALFORMED, "call %#x, %zu bytes: %" PRIu64, tag, length, status);
      else
        is_not_made(status, NEWELSAGE_MALFORMED, tag, length);
      expect(unchanged(), "call %#x, %zu bytes: another ledger", tag, length);
      status = ask_bytes(SIZE, tag, zeros, length);
      if (fits(ask_tags, sizeof ask_tags, tag, length))
        expect(status < NEWELSAGE_MALFORMED, "ask %#x, %zu bytes: %" PRIu64, tag, length, status);
      else
        is_not_made(status, NEWELSAGE_MALFORMED, tag, length);
      expect(unchanged() && lent_is_kept(), "ask %#x, %zu bytes: another ledger or buffer", tag, length);
    }
  }
}

/* The ledger is a page that cannot be touched. */
static void too_short(void) {
  static const uint8_t zeros[64];
  uint8_t *guard = mmap(NULL, PAGE, PROT_NONE, MAP_PRIVATE | MAP_ANONYMOUS, -1, 0);
  expect(guard != MAP_FAILED, "no memory");
  ledger = (newelsage_ledger *)(void *)guard;
  lent_length = 64;
  for (size_t size = 0; size < SIZE; size++) {
    expect(newelsage_empty(ledger, size) == NEWELSAGE_MEMORY_TOO_SHORT, "empty takes %zu bytes", size);
    size_t length = unhex(SAMPLE, scratch);
    is_not_made(read_bytes(size, scratch, length), NEWELSAGE_MEMORY_TOO_SHORT, 0, size);
    for (unsigned tag = 0; tag < 0x20; tag++) {
      is_not_made(call_bytes(size, tag, zeros, length_of(tag)), NEWELSAGE_MEMORY_TOO_SHORT, tag, size);
      is_not_made(ask_bytes(size, tag, zeros, length_of(tag)), NEWELSAGE_MEMORY_TOO_SHORT, tag, size);
      expect(lent_is_kept(), "the buffer is written");
    }
  }
  munmap(guard, PAGE);
}

/* Memory that is longer than a ledger: the rest is not the ledger's. */
static void longer_memory(void) {
  memset(ledger_area.start, PAINT, ledger_area.size);
  ledger = (newelsage_ledger *)(void *)ledger_area.start;
  size_t length = unhex(REGISTER, scratch);
  is(read_bytes(ledger_area.size, scratch, length), "0 3 0");
  length = unhex(A, scratch);
  is(call_bytes(ledger_area.size, NEWELSAGE_TAG_COMMIT, scratch, length), "0");
  length = unhex(Q, scratch);
  is(ask_bytes(ledger_area.size, NEWELSAGE_TAG_DECIDE, scratch, length), "0 0 3 1");
  expect(all_are(ledger_area.start + SIZE, ledger_area.size - SIZE, PAINT), "bytes after the ledger are written");
  is(ask(NEWELSAGE_TAG_DECIDE, Q), "0 0 3 1");
}

/* No call is made on these bytes. */
static void is_no_ledger(const char *what) {
  static const uint8_t zeros[64];
  keep();
  lent_length = 64;
  for (unsigned tag = 0; tag < 0x20; tag++) {
    uint64_t status = call_bytes(SIZE, tag, zeros, length_of(tag));
    expect(status == NEWELSAGE_NOT_A_LEDGER && answer->count == 0, "%s: call %#x: %" PRIu64, what, tag, status);
    status = ask_bytes(SIZE, tag, zeros, length_of(tag));
    expect(status == NEWELSAGE_NOT_A_LEDGER && answer->count == 0, "%s: ask %#x: %" PRIu64, what, tag, status);
    expect(lent_is_kept(), "%s: the buffer is written", what);
  }
  expect(unchanged(), "%s: the bytes change", what);
}

static void not_a_ledger(void) {
  memset(ledger, 0, SIZE);
  is_no_ledger("zeros");
  memset(ledger, 0xFF, SIZE);
  is_no_ledger("ones");
  for (unsigned i = 0; i < 1000; i++) {
    fill_random(ledger_bytes(), SIZE);
    is_no_ledger("random bytes");
  }
  sample_register_with_a();
  for (unsigned bit = 0; bit < 64; bit++) {
    ledger_bytes()[bit / 8] ^= (uint8_t)(1u << bit % 8);
    is_no_ledger("a changed stamp");
    ledger_bytes()[bit / 8] ^= (uint8_t)(1u << bit % 8);
  }
  for (unsigned byte = 0; byte < 8; byte++) {
    uint8_t right = ledger_bytes()[byte];
    ledger_bytes()[byte] = (uint8_t)~right;
    is_no_ledger("a changed stamp");
    ledger_bytes()[byte] = right;
  }
  is(ask(NEWELSAGE_TAG_DECIDE, Q), "0 0 3 1");
  memset(ledger, 0, SIZE);
  sample_register();
}

/* --- asking and writing --- */

/* The ledger stands in memory that cannot be written. */
static void asking_changes_nothing(void) {
  sample_register_with_a();
  is(call(NEWELSAGE_TAG_ISSUE, "0009 0258 01 0000001E"), "0");
  keep();
  mprotect(ledger_area.start, ledger_area.size, PROT_READ);
  is(ask(NEWELSAGE_TAG_COUNTS, ""), "0 7 1000 3 1 1");
  is(ask(NEWELSAGE_TAG_TOKEN, "00"), "0 9 600 1 1030");
  is(ask(NEWELSAGE_TAG_TOKEN, "01"), "22");
  is(ask(NEWELSAGE_TAG_DECIDE, Q), "0 0 3 1");
  is(ask(NEWELSAGE_TAG_DECIDE, "0258 0004 01 01 00"), "17");
  is(ask(NEWELSAGE_TAG_BRIEF, "0009 0258"), "0 2 0 1");
  is(ask(NEWELSAGE_TAG_BRIEF, "0009 0259"), "22");
  is(ask(NEWELSAGE_TAG_PREVIEW, "0258 0001 01 00 0002 01 00 0258 FFFF 00 00" REST "000003E8 000009C4"), "0 1 0 1");
  is(ask(NEWELSAGE_TAG_PREVIEW, "0258 0001 01 00 0002 00 01 0002 FFFF 01 01" REST "000003E8 000007D0"), "14");
  is(ask(NEWELSAGE_TAG_WRITE, "FFFF"), "24");
  is(ask(NEWELSAGE_TAG_WRITE, ""), "101");
  is(ask(NEWELSAGE_TAG_COMMIT, A), "101");
  lent_length = 200;
  is(ask(NEWELSAGE_TAG_WRITE, "FFFF"), "0 84");
  expect(unchanged(), "another ledger");
  mprotect(ledger_area.start, ledger_area.size, PROT_READ | PROT_WRITE);
}

/* Writes the sample card's 27 bytes into so long a buffer, of which the value lends a part. */
static void write_into(size_t length, const char *value, const char *line) {
  uint8_t card[27];
  lent_length = length;
  is(ask(NEWELSAGE_TAG_WRITE, value), line);
  size_t written = answer->status == NEWELSAGE_ACCEPTED ? unhex(SAMPLE, card) : 0;
  expect(memcmp(lent, card, written) == 0, "%s of %zu bytes: not the card", value, length);
  expect(all_are(lent + written, length - written, PAINT), "%s of %zu bytes: the rest is written", value, length);
}

static void writing(void) {
  is(read_card(SAMPLE), "0 1 0");
  write_into(27, "001B", "0 27");
  write_into(27, "FFFF", "0 27");
  write_into(40, "001B", "0 27");
  write_into(40, "001C", "0 27");
  write_into(LONG, "FFFF", "0 27");
  write_into(40, "001A", "24");
  write_into(40, "0000", "24");
  write_into(26, "001A", "24");
  write_into(26, "FFFF", "24");
  write_into(0, "0000", "24");
  write_into(0, "FFFF", "24");
  expect(newelsage_empty(ledger, SIZE) == NEWELSAGE_ACCEPTED, "not made");
  write_into(40, "0028", "23");
  write_into(0, "0000", "23");
}

/* --- the bytes of a ledger --- */

/* A draft that often is in range and accepted. */
static void random_draft(uint8_t *at) {
  at = put(at, 2, below(40));
  at = put(at, 1, below(2));
  unsigned role = below(2);
  at = put(at, 1, role);
  at = put(at, 2, role ? below(5) : 600 + below(4));
  at = put(at, 2, below(3) ? 0xFFFF : next_random() | 1);
  at = put(at, 1, below(16) ? below(4) : below(256));
  at = put(at, 1, below(16) ? below(3) : below(256));
  at = put(at, 2, below(3) ? 0xFFFF : next_random() | 1);
  at = put(at, 2, below(3) ? 0xFFFF : next_random() | 1);
  at = put(at, 1, below(3) ? 0xFF : next_random() | 1);
  at = put(at, 2, below(3) ? 0x07FF : (next_random() & 0x07FF) | 1);
  unsigned from = 1000 + below(200);
  at = put(at, 4, from);
  put(at, 4, from + 1 + below(100));
}

/* A value for the tag, most often of the right length. */
static size_t random_value(unsigned tag, uint8_t *value) {
  fill_random(value, 64);
  switch (tag) {
  case NEWELSAGE_TAG_COMMIT:
    random_draft(value);
    break;
  case NEWELSAGE_TAG_PREVIEW:
    put(put(put(put(value, 2, 600 + below(4)), 2, below(5)), 1, below(17)), 1, below(12));
    random_draft(value + 6);
    break;
  case NEWELSAGE_TAG_REVOKE:
    put(value, 2, below(40));
    break;
  case NEWELSAGE_TAG_ADVANCE:
    put(value, 4, 1000 + below(300));
    break;
  case NEWELSAGE_TAG_ISSUE:
    put(put(put(put(value, 2, below(8)), 2, 600 + below(4)), 1, below(256)), 4, below(250));
    break;
  case NEWELSAGE_TAG_DECIDE:
    put(put(put(put(put(value, 2, 600 + below(4)), 2, below(5)), 1, below(17)), 1, below(132)), 1, below(12));
    break;
  case NEWELSAGE_TAG_BRIEF:
    put(put(value, 2, below(8)), 2, 600 + below(4));
    break;
  case NEWELSAGE_TAG_TOKEN:
    put(value, 1, below(6));
    break;
  default:
    break;
  }
  return below(32) ? length_of(tag) : below(64);
}

/* The same calls in two memories that differ in every bit and in their place in a page: their bytes are equal after each. */
static void no_padding(void) {
  uint8_t value[64];
  newelsage_ledger *one = ledger, *two = (newelsage_ledger *)(void *)(other_area.start + 312);
  unsigned accepted = 0;
  for (unsigned round = 0; round < 40; round++) {
    /* later rounds read over the ledger before */
    if (round == 0) {
      memset(one, 0xA5, SIZE);
      memset(two, 0x5A, SIZE);
    }
    if (round % 4 == 1)
      memset(two, 0x5A, SIZE);
    const char *card = round % 8 == 7 ? "01" : REGISTER;
    ledger = one;
    uint64_t status = read_card(card);
    ledger = two;
    expect(read_card(card) == status && memcmp(one, two, SIZE) == 0, "other bytes after a card with status %" PRIu64, status);
    for (unsigned i = 0; i < 200; i++) {
      unsigned tag = call_tags[below(8) ? below(2) : below(4)];
      size_t length = random_value(tag, value);
      ledger = one;
      status = call_bytes(SIZE, tag, value, length);
      newelsage_answer first = *answer;
      ledger = two;
      call_bytes(SIZE, tag, value, length);
      expect(memcmp(&first, answer, 16 + 8 * answer->count) == 0, "tag %#x: another answer", tag);
      expect(memcmp(one, two, SIZE) == 0, "other bytes after tag %#x with status %" PRIu64, tag, status);
      accepted += status == NEWELSAGE_ACCEPTED;
    }
  }
  expect(accepted > 400, "only %u calls are accepted", accepted);
  expect(newelsage_empty(one, SIZE) == newelsage_empty(two, SIZE) && memcmp(one, two, SIZE) == 0, "other bytes of the empty ledger");
}

/* A ledger is saved while a token is live, and goes on elsewhere. */
static void saved_in_an_emergency(void) {
  sample_register_with_a();
  is(call(NEWELSAGE_TAG_ADVANCE, "000003F2"), "0 0 0");
  is(call(NEWELSAGE_TAG_ISSUE, "0009 0258 01 0000001E"), "0");
  FILE *file = tmpfile();
  expect(file != NULL && fwrite(ledger, 1, SIZE, file) == SIZE && fseek(file, 0, SEEK_SET) == 0, "not saved");
  memset(ledger, 0, SIZE);
  is(ask(NEWELSAGE_TAG_BRIEF, "0009 0258"), "103");
  ledger = ledger_in(other_area);
  memset(ledger, PAINT, SIZE);
  expect(file != NULL && fread(ledger, 1, SIZE, file) == SIZE && fclose(file) == 0, "not brought back");
  is(ask(NEWELSAGE_TAG_COUNTS, ""), "0 7 1010 3 1 1");
  is(ask(NEWELSAGE_TAG_TOKEN, "00"), "0 9 600 1 1040");
  is(ask(NEWELSAGE_TAG_BRIEF, "0009 0258"), "0 2 0 1");
  is(call(NEWELSAGE_TAG_ISSUE, "0009 0258 01 0000001E"), "20");
  is(ask(NEWELSAGE_TAG_DECIDE, Q), "0 0 3 1");
  is(call(NEWELSAGE_TAG_ADVANCE, "0000040F"), "0 0 0");
  is(ask(NEWELSAGE_TAG_BRIEF, "0009 0258"), "0 2 0 1");
  is(call(NEWELSAGE_TAG_ADVANCE, "00000410"), "0 0 1");
  is(ask(NEWELSAGE_TAG_BRIEF, "0009 0258"), "22");
}

/* --- ledgers that the library did not make --- */

/* Every tag on the bytes: each call ends with an answer, and a question changes nothing. */
static void put_every_tag(void) {
  uint8_t value[64];
  for (size_t i = 0; i < sizeof call_tags; i++) {
    size_t length = random_value(call_tags[i], value);
    call_bytes(SIZE, call_tags[i], value, length);
  }
  for (size_t i = 0; i < sizeof ask_tags; i++) {
    unsigned tag = ask_tags[i];
    size_t length = random_value(tag, value);
    lent_length = below(4) ? 2589 : below(2700);
    keep();
    uint64_t status = ask_bytes(SIZE, tag, value, length);
    expect(unchanged(), "ask %#x: another ledger", tag);
    if (tag == NEWELSAGE_TAG_WRITE && status == NEWELSAGE_ACCEPTED)
      expect(answer->values[0] <= lent_length, "%" PRIu64 " bytes are written into %zu", answer->values[0], lent_length);
    else
      expect(lent_is_kept(), "ask %#x: the buffer is written", tag);
  }
}

static void random_after_the_stamp(void) {
  for (unsigned i = 0; i < 5000; i++) {
    expect(newelsage_empty(ledger, SIZE) == NEWELSAGE_ACCEPTED, "not made");
    fill_random(ledger_bytes() + 8, SIZE - 8);
    put_every_tag();
  }
}

static void one_byte_after_the_stamp(void) {
  for (unsigned byte = 0; byte < 256; byte++) {
    expect(newelsage_empty(ledger, SIZE) == NEWELSAGE_ACCEPTED, "not made");
    memset(ledger_bytes() + 8, (int)byte, SIZE - 8);
    put_every_tag();
  }
}

/* Ledgers of which some bytes are changed, so that the rest is plausible. */
static void damaged_ledgers(void) {
  uint8_t draft[DRAFT];
  sample_register();
  for (unsigned i = 0; i < 60; i++) {
    random_draft(draft);
    call_bytes(SIZE, NEWELSAGE_TAG_COMMIT, draft, sizeof draft);
  }
  is(call(NEWELSAGE_TAG_ISSUE, "0001 0258 41 0000001E"), "0");
  uint8_t right[SIZE];
  memcpy(right, ledger, SIZE);
  for (size_t byte = 8; byte < SIZE; byte++) {
    memcpy(ledger, right, SIZE);
    ledger_bytes()[byte] = (uint8_t)next_random();
    put_every_tag();
  }
  for (unsigned i = 0; i < 5000; i++) {
    memcpy(ledger, right, SIZE);
    for (unsigned changes = 1 + below(60); changes > 0; changes--)
      ledger_bytes()[8 + below(SIZE - 8)] = (uint8_t)(below(2) ? next_random() : below(4));
    put_every_tag();
  }
}

/* --- all of them --- */

static const struct {
  const char *name;
  void (*body)(void);
} tests[] = {
    {"size and version are the header's", size_and_version},
    {"K1: the default consent", k1},
    {"K2: a directive", k2},
    {"K3: author and patient", k3},
    {"K5: a conflict, and minutes that meet", k5},
    {"K10: an emergency token and its end", k10},
    {"the empty ledger", empty},
    {"counts and tokens", counts_and_tokens},
    {"previews", previews},
    {"a refused card gives the empty ledger", refused_cards},
    {"a refused call leaves every byte", refused_calls},
    {"32 directives and one more", full_list},
    {"tags and lengths that are malformed", malformed},
    {"memory that is too short is not touched", too_short},
    {"memory that is longer", longer_memory},
    {"bytes that are no ledger", not_a_ledger},
    {"asking changes no byte", asking_changes_nothing},
    {"writing, and the rest of the buffer", writing},
    {"equal calls give equal bytes", no_padding},
    {"saved and brought back in an emergency", saved_in_an_emergency},
    {"random bytes after the stamp", random_after_the_stamp},
    {"one byte all over after the stamp", one_byte_after_the_stamp},
    {"damaged ledgers", damaged_ledgers},
};

static void run(const char *name, void (*body)(void)) {
  running = name;
  good = true;
  expectations = 0;
  random_state = 20261117;
  lent_length = 0;
  ledger = ledger_in(ledger_area);
  body();
  expect(expectations > 0, "nothing is tested");
  if (good) {
    passed++;
  } else {
    failed++;
    printf("failed: %s, memory at the %s\n", name, at_front ? "front" : "end");
  }
}

int main(void) {
  signal(SIGSEGV, stop);
  signal(SIGBUS, stop);
  signal(SIGALRM, stop);
  alarm(60);
  ledger_area = new_area(SIZE);
  other_area = new_area(SIZE);
  value_area = new_area(LONG);
  lent_area = new_area(LONG);
  answer_area = new_area(sizeof(newelsage_answer));
  for (int front = 0; front < 2; front++) {
    at_front = front;
    for (size_t i = 0; i < sizeof tests / sizeof *tests; i++)
      run(tests[i].name, tests[i].body);
  }
  printf("%u passed, %u failed\n", passed, failed);
  return fclose(stdout) == 0 && failed == 0 ? 0 : 1;
}
