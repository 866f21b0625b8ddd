/* Ledgers used from several threads at once: threads N ROUNDS REPLAY..
   First one thread runs each replay and keeps all that the library answers. Then N threads run them at the same time, each with a ledger of
   its own and in each round another replay; and all of them ask one ledger at the same time. Each must get what the one thread got. A
   thread is two tests: its own ledgers, and the ones that all ask. The last line is 'N passed, M failed'. */
#define _POSIX_C_SOURCE 200809L
#include "newelsage.h"
#include <pthread.h>
#include <stdio.h>
#include <stdlib.h>
#include <string.h>

enum { LENT = 65535 };

/* Bytes that grow. */
typedef struct text {
  uint8_t *bytes;
  size_t length, room;
} text;

typedef struct replay {
  const char *name;
  text input;
  text answers;           /* of a whole run, and the ledger's bytes after it */
  newelsage_memory after; /* that ledger */
  text asked;             /* what it answers, when all calls are put to newelsage_ask */
} replay;

static replay *replays;
static size_t replay_count;
static unsigned rounds;
static pthread_barrier_t together;

typedef struct worker {
  pthread_t thread;
  unsigned number;
  int own_good, shared_good; /* whether every round gave what it must */
} worker;

static void give_up(const char *what) {
  fprintf(stderr, "threads: %s\n", what);
  exit(2);
}

static void add(text *to, const void *bytes, size_t length) {
  if (length > to->room - to->length) {
    to->room = 2 * to->room + length;
    to->bytes = realloc(to->bytes, to->room);
    if (to->bytes == NULL)
      give_up("no memory");
  }
  memcpy(to->bytes + to->length, bytes, length);
  to->length += length;
}

static int same(const text *a, const text *b) { return a->length == b->length && memcmp(a->bytes, b->bytes, a->length) == 0; }

static void add_answer(text *to, uint8_t tag, const newelsage_answer *answer, const uint8_t *lent) {
  add(to, &answer->status, sizeof answer->status);
  add(to, &answer->count, sizeof answer->count);
  add(to, answer->values, answer->count * sizeof answer->values[0]);
  if (tag == NEWELSAGE_TAG_WRITE && answer->status == NEWELSAGE_ACCEPTED)
    add(to, lent, answer->values[0]);
}

static size_t length_at(const text *input, size_t at) {
  if (input->length - at < 2)
    give_up("a replay is cut");
  size_t length = (size_t)input->bytes[at] << 8 | input->bytes[at + 1];
  if (input->length - at - 2 < length)
    give_up("a replay is cut");
  return length;
}

/* All calls of the replay: by newelsage_call those that it has, unless nothing may change; the others by newelsage_ask. */
static void run_calls(const text *input, newelsage_memory *memory, int change, text *answers) {
  newelsage_ledger *ledger = newelsage_in(memory);
  newelsage_answer answer;
  uint8_t *lent = malloc(LENT);
  if (lent == NULL)
    give_up("no memory");
  for (size_t at = 2 + length_at(input, 0); at < input->length;) {
    uint8_t tag = input->bytes[at];
    size_t length = length_at(input, at + 1);
    const uint8_t *value = input->bytes + at + 3;
    if (!change || newelsage_call(ledger, sizeof *memory, tag, value, length, &answer) == NEWELSAGE_MALFORMED)
      newelsage_ask(ledger, sizeof *memory, tag, value, length, lent, LENT, &answer);
    add_answer(answers, tag, &answer, lent);
    at += 3 + length;
  }
  free(lent);
}

/* The whole replay; its card has to be accepted. */
static void run(const text *input, newelsage_memory *memory, text *answers) {
  newelsage_answer answer;
  if (newelsage_read(newelsage_in(memory), sizeof *memory, input->bytes + 2, length_at(input, 0), &answer) != NEWELSAGE_ACCEPTED)
    give_up("a card is refused");
  add_answer(answers, 0, &answer, NULL);
  run_calls(input, memory, 1, answers);
  add(answers, memory, sizeof *memory);
}

/* Whether the answers are the expected ones; where they are not, it says whose. */
static int expected(const text *answers, const text *wanted, const char *name, const char *whose, unsigned thread, unsigned round) {
  if (same(answers, wanted))
    return 1;
  printf("failed: thread %u, round %u: %s gives other answers on %s\n", thread, round, name, whose);
  return 0;
}

static void *work(void *argument) {
  worker *self = argument;
  newelsage_memory memory;
  text answers = {0};
  self->own_good = self->shared_good = 1;
  for (unsigned round = 0; round < rounds; round++) {
    const replay *own = &replays[(self->number + round) % replay_count];
    memset(&memory, (int)(self->number + round), sizeof memory);
    pthread_barrier_wait(&together);
    answers.length = 0;
    run(&own->input, &memory, &answers);
    self->own_good &= expected(&answers, &own->answers, own->name, "a ledger of its own", self->number, round);
    replay *shared = &replays[round % replay_count];
    pthread_barrier_wait(&together);
    answers.length = 0;
    run_calls(&shared->input, &shared->after, 0, &answers);
    self->shared_good &= expected(&answers, &shared->asked, shared->name, "the shared ledger", self->number, round);
  }
  free(answers.bytes);
  return NULL;
}

static void read_file(const char *name, text *to) {
  uint8_t part[4096];
  FILE *file = fopen(name, "rb");
  if (file == NULL)
    give_up(name);
  for (size_t got; (got = fread(part, 1, sizeof part, file)) > 0;)
    add(to, part, got);
  if (ferror(file))
    give_up(name);
  fclose(file);
}

static unsigned number_of(const char *digits) {
  char *end;
  unsigned long number = strtoul(digits, &end, 10);
  if (*end != '\0' || number < 1 || number > 1000000)
    give_up("usage: threads N ROUNDS REPLAY..");
  return (unsigned)number;
}

int main(int argc, char **argv) {
  if (argc < 4)
    give_up("usage: threads N ROUNDS REPLAY..");
  unsigned worker_count = number_of(argv[1]);
  rounds = number_of(argv[2]);
  replay_count = (size_t)argc - 3;
  replays = calloc(replay_count, sizeof *replays);
  worker *workers = calloc(worker_count, sizeof *workers);
  if (replays == NULL || workers == NULL || pthread_barrier_init(&together, NULL, worker_count) != 0)
    give_up("no memory");
  for (size_t i = 0; i < replay_count; i++) {
    replay *one = &replays[i];
    one->name = argv[i + 3];
    read_file(one->name, &one->input);
    run(&one->input, &one->after, &one->answers);
    run_calls(&one->input, &one->after, 0, &one->asked);
  }
  for (unsigned i = 0; i < worker_count; i++) {
    workers[i].number = i;
    if (pthread_create(&workers[i].thread, NULL, work, &workers[i]) != 0)
      give_up("no thread");
  }
  unsigned passed = 0;
  for (unsigned i = 0; i < worker_count; i++) {
    pthread_join(workers[i].thread, NULL);
    passed += (unsigned)(workers[i].own_good + workers[i].shared_good);
  }
  printf("%u passed, %u failed\n", passed, 2 * worker_count - passed);
  return fclose(stdout) == 0 && passed == 2 * worker_count ? 0 : 1;
}
