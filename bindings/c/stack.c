/* The stack that each function of the library needs, in bytes: stack [LIMIT]
   A call runs in a thread whose stack is painted, and the deepest byte that it changes is looked for. The calls are the most demanding ones
   that we know: full cards, chains of 16 roles and 128 records, a long search for redundancy. A line for each function has the
   most that its calls need. Status 1 where that is above LIMIT or a call is not answered as meant. */
#define _DEFAULT_SOURCE
#include "newelsage.h"
#include <pthread.h>
#include <stdio.h>
#include <stdlib.h>
#include <string.h>
#include <sys/mman.h>

enum { STACK = 1 << 20, PAINT = 0x5C, ROLES = 16, RECORDS = 128, CLOCK = 1000, FULL_CARD = 2589, DRAFT = 25 };

static void give_up(const char *what) {
  fprintf(stderr, "stack: %s\n", what);
  exit(1);
}

/* --- cards and drafts --- */

typedef struct directive {
  unsigned number, effect, role, subject, subject_origins, record, reach, po, ps, pt, purposes, from, until;
} directive;

/* A permit of all records below the first for every role. */
static const directive everything = {0, 1, 1, 0, 0xFFFF, 0, 2, 0xFFFF, 0xFFFF, 0xFF, 0x07FF, CLOCK, 2000};

typedef struct bytes {
  uint8_t at[FULL_CARD];
  size_t length;
} bytes;

static void put(bytes *to, unsigned size, uint64_t number) {
  while (size-- > 0)
    to->at[to->length++] = (uint8_t)(number >> 8 * size);
}

static void put_directive(bytes *to, directive d) {
  put(to, 2, d.number);
  put(to, 1, d.effect);
  put(to, 1, d.role);
  put(to, 2, d.subject);
  put(to, 2, d.subject_origins);
  put(to, 1, d.record);
  put(to, 1, d.reach);
  put(to, 2, d.po);
  put(to, 2, d.ps);
  put(to, 1, d.pt);
  put(to, 2, d.purposes);
  put(to, 4, d.from);
  put(to, 4, d.until);
}

static void put_field(bytes *to, unsigned tag, unsigned length) {
  put(to, 1, tag);
  put(to, 2, length);
}

static void put_on_card(bytes *card, directive d) {
  put_field(card, 0x04, DRAFT);
  put_directive(card, d);
}

/* Patient 7, a chain of roles, and a chain of records that type and origins tell apart. */
static bytes new_card(void) {
  bytes card = {.length = 0};
  put_field(&card, 0x01, 7);
  put(&card, 1, 2);
  put(&card, 2, 7);
  put(&card, 4, CLOCK);
  put_field(&card, 0x02, ROLES);
  for (unsigned role = 0; role < ROLES; role++)
    put(&card, 1, role == 0 ? 0 : role - 1);
  for (unsigned record = 0; record < RECORDS; record++) {
    put_field(&card, 0x03, 10);
    put(&card, 1, record == 0 ? 0 : record - 1);
    put(&card, 2, 500 + record);
    put(&card, 2, 1u << record / 8);
    put(&card, 2, record == RECORDS - 1 ? 0x8000 : 1u << record % 15);
    put(&card, 1, record % 8);
    put(&card, 2, 1u << record % 12);
  }
  return card;
}

/* In turn a permit and a deny that share all but the records: 32 of them. */
static bytes full_card(void) {
  bytes card = new_card();
  for (unsigned i = 0; i < 32; i++) {
    directive d = everything;
    d.number = i + 1;
    d.effect = i % 2 == 0;
    d.subject = d.effect ? 0 : ROLES - 1;
    d.pt = d.effect ? 0x55 : 0xAA;
    d.until = 2000 + i;
    put_on_card(&card, d);
  }
  return card;
}

/* The members of a set of this width whose number has this digit. */
static unsigned with_digit(unsigned width, unsigned digit, unsigned value) {
  unsigned set = 0;
  for (unsigned member = 0; member < width; member++)
    if ((member >> digit & 1) == value)
      set |= 1u << member;
  return set;
}

/* The half of everything by one digit of the type, the record's origins, the subject's origins or the purpose. */
static directive half(unsigned digit, unsigned value) {
  directive d = everything;
  if (digit < 3)
    d.pt = with_digit(8, digit, value);
  else if (digit < 7)
    d.po = with_digit(16, digit - 3, value);
  else if (digit < 11)
    d.subject_origins = with_digit(16, digit - 7, value);
  else
    d.purposes = with_digit(11, digit - 11, value);
  return d;
}

/* 31 permits that only together cover a permit of everything over sixteen times ten minutes. */
static bytes covering_card(void) {
  bytes card = new_card();
  unsigned number = 1;
  for (unsigned part = 0; part < 16; part++) {
    unsigned from = CLOCK + 10 * part;
    for (unsigned value = 0; value < (part < 15 ? 2u : 1u); value++) {
      directive d = part < 15 ? half(part, value) : everything;
      d.number = number++;
      d.from = from;
      d.until = from + 10 + value;
      put_on_card(&card, d);
    }
  }
  return card;
}

/* 31 denies of everything, of which the last alone selects the last record. */
static bytes opposing_card(void) {
  bytes card = new_card();
  for (unsigned i = 0; i < 31; i++) {
    directive d = everything;
    d.number = i + 1;
    d.effect = 0;
    d.ps = i < 30 ? 0x7FFF : 0xFFFF;
    d.until = 2000 + i;
    put_on_card(&card, d);
  }
  return card;
}

/* 31 permits that leave purpose 1 on the records of odd type. */
static bytes permitting_card(void) {
  bytes card = new_card();
  for (unsigned i = 0; i < 31; i++) {
    directive d = everything;
    d.number = i + 1;
    d.pt = i % 2 == 0 ? 0x55 : 0xAA;
    d.purposes = i % 2 == 0 ? 0x07FF : 0x07FD;
    d.until = 2000 + i;
    put_on_card(&card, d);
  }
  return card;
}

static bytes draft(directive d) {
  bytes value = {.length = 0};
  d.number = 999;
  put_directive(&value, d);
  return value;
}

/* Person 600 in the last role, at origin 3, for purpose 1, and the draft. */
static bytes preview(directive d) {
  bytes value = {.length = 0}, drafted = draft(d);
  put(&value, 2, 600);
  put(&value, 2, ROLES - 1);
  put(&value, 1, 3);
  put(&value, 1, 1);
  memcpy(value.at + value.length, drafted.at, drafted.length);
  value.length += drafted.length;
  return value;
}

/* Numbers of these sizes, ended by a size of 0. */
typedef struct part {
  unsigned size;
  uint64_t number;
} part;

static bytes value_of(const part *parts) {
  bytes value = {.length = 0};
  for (; parts->size > 0; parts++)
    put(&value, parts->size, parts->number);
  return value;
}

#define VALUE(...) value_of((const part[]){__VA_ARGS__, {0, 0}})

/* --- a call on a painted stack --- */

typedef enum function { F_SIZE, F_VERSION, F_EMPTY, F_READ, F_CALL, F_ASK, FUNCTIONS } function;

static const char *const names[FUNCTIONS] = {
    "newelsage_size", "newelsage_version", "newelsage_empty", "newelsage_read", "newelsage_call", "newelsage_ask",
};

static newelsage_memory memory;
static newelsage_answer answer;
static uint8_t lent[FULL_CARD];
static uint8_t *stack;
static size_t most[FUNCTIONS];

typedef struct task {
  function function;
  newelsage_tag tag;
  const bytes *value;
  uint64_t status;
  size_t depth;
} task;

static uint64_t run(const task *t) {
  newelsage_ledger *ledger = newelsage_in(&memory);
  switch (t->function) {
  case F_SIZE:
    return newelsage_size() != NEWELSAGE_SIZE;
  case F_VERSION:
    return newelsage_version() != NEWELSAGE_VERSION;
  case F_EMPTY:
    return newelsage_empty(ledger, sizeof memory);
  case F_READ:
    return newelsage_read(ledger, sizeof memory, t->value->at, t->value->length, &answer);
  case F_CALL:
    return newelsage_call(ledger, sizeof memory, (uint8_t)t->tag, t->value->at, t->value->length, &answer);
  default:
    return newelsage_ask(ledger, sizeof memory, (uint8_t)t->tag, t->value->at, t->value->length, lent, sizeof lent, &answer);
  }
}

/* The thread: what stands below its own frame after the call. What its start painted over counts too, some hundred bytes. */
static void *measure(void *argument) {
  task *t = argument;
  volatile uint8_t here = 0;
  t->status = run(t);
  const uint8_t *deepest = stack;
  while (*deepest == PAINT)
    deepest++;
  t->depth = (size_t)((uintptr_t)&here - (uintptr_t)deepest);
  return NULL;
}

/* The function's call, and the status that it is meant to have. */
static void call(function f, newelsage_tag tag, const bytes *value, uint64_t status) {
  task t = {f, tag, value, 0, 0};
  pthread_attr_t attributes;
  pthread_t thread;
  memset(stack, PAINT, STACK);
  if (pthread_attr_init(&attributes) != 0 || pthread_attr_setstack(&attributes, stack, STACK) != 0 ||
      pthread_create(&thread, &attributes, measure, &t) != 0 || pthread_join(thread, NULL) != 0)
    give_up("no thread");
  pthread_attr_destroy(&attributes);
  if (t.status != status) {
    fprintf(stderr, "stack: %s, tag %#x: status %d, not %d\n", names[f], (unsigned)tag, (int)t.status, (int)status);
    exit(1);
  }
  if (t.depth > most[f])
    most[f] = t.depth;
}

/* The same on the ledger of this card. */
static void on(const bytes *card, function f, newelsage_tag tag, bytes value, uint64_t status) {
  if (newelsage_read(newelsage_in(&memory), sizeof memory, card->at, card->length, &answer) != NEWELSAGE_ACCEPTED)
    give_up("a card is refused");
  call(f, tag, &value, status);
}

static void all_calls(void) {
  static const bytes nothing;
  const bytes full = full_card(), covering = covering_card(), opposing = opposing_card(), permitting = permitting_card();
  directive covered = everything, opposed = everything;
  covered.from = CLOCK + 1;
  covered.until = CLOCK + 160;
  opposed.subject = ROLES - 1;
  opposed.record = 126;
  opposed.from = CLOCK + 1;
  call(F_SIZE, 0, &nothing, 0);
  call(F_VERSION, 0, &nothing, 0);
  call(F_EMPTY, 0, &nothing, NEWELSAGE_ACCEPTED);
  call(F_READ, 0, &nothing, NEWELSAGE_INCOMPLETE);
  call(F_READ, 0, &full, NEWELSAGE_ACCEPTED);
  call(F_READ, 0, &covering, NEWELSAGE_ACCEPTED);
  call(F_READ, 0, &opposing, NEWELSAGE_ACCEPTED);
  on(&full, F_CALL, NEWELSAGE_TAG_COMMIT, draft(everything), NEWELSAGE_LIST_FULL);
  on(&covering, F_CALL, NEWELSAGE_TAG_COMMIT, draft(covered), NEWELSAGE_REDUNDANT);
  on(&covering, F_CALL, NEWELSAGE_TAG_COMMIT, draft(everything), NEWELSAGE_ACCEPTED);
  on(&opposing, F_CALL, NEWELSAGE_TAG_COMMIT, draft(opposed), NEWELSAGE_CONFLICT);
  on(&permitting, F_CALL, NEWELSAGE_TAG_COMMIT, draft(everything), NEWELSAGE_ACCEPTED);
  on(&full, F_CALL, NEWELSAGE_TAG_REVOKE, VALUE({2, 1}), NEWELSAGE_ACCEPTED);
  on(&full, F_CALL, NEWELSAGE_TAG_ADVANCE, VALUE({4, 2015}), NEWELSAGE_ACCEPTED);
  on(&full, F_CALL, NEWELSAGE_TAG_ISSUE, VALUE({2, 9}, {2, 600}, {1, 0xFF}, {4, 240}), NEWELSAGE_ACCEPTED);
  on(&full, F_CALL, NEWELSAGE_TAG_DECIDE, nothing, NEWELSAGE_MALFORMED);
  on(&full, F_ASK, NEWELSAGE_TAG_COUNTS, nothing, NEWELSAGE_ACCEPTED);
  on(&full, F_ASK, NEWELSAGE_TAG_DECIDE, VALUE({2, 600}, {2, ROLES - 1}, {1, 3}, {1, 127}, {1, 0}), NEWELSAGE_ACCEPTED);
  on(&full, F_ASK, NEWELSAGE_TAG_WRITE, VALUE({2, FULL_CARD}), NEWELSAGE_ACCEPTED);
  on(&permitting, F_ASK, NEWELSAGE_TAG_PREVIEW, preview(everything), NEWELSAGE_ACCEPTED);
  on(&covering, F_ASK, NEWELSAGE_TAG_PREVIEW, preview(covered), NEWELSAGE_REDUNDANT);
  on(&opposing, F_ASK, NEWELSAGE_TAG_PREVIEW, preview(opposed), NEWELSAGE_CONFLICT);
  on(&full, F_CALL, NEWELSAGE_TAG_ISSUE, VALUE({2, 9}, {2, 600}, {1, 0xFF}, {4, 240}), NEWELSAGE_ACCEPTED);
  const bytes brief = VALUE({2, 9}, {2, 600}), place = VALUE({1, 0});
  call(F_ASK, NEWELSAGE_TAG_BRIEF, &brief, NEWELSAGE_ACCEPTED);
  call(F_ASK, NEWELSAGE_TAG_TOKEN, &place, NEWELSAGE_ACCEPTED);
}

int main(int argc, char **argv) {
  size_t limit = argc > 1 ? strtoull(argv[1], NULL, 10) : STACK;
  int above = 0;
  stack = mmap(NULL, STACK, PROT_READ | PROT_WRITE, MAP_PRIVATE | MAP_ANONYMOUS, -1, 0);
  if (stack == MAP_FAILED)
    give_up("no memory");
  all_calls();
  for (size_t f = 0; f < FUNCTIONS; f++) {
    printf("%s %zu\n", names[f], most[f]);
    above |= most[f] > limit;
  }
  return fclose(stdout) == 0 && !above ? 0 : 1;
}
