/* May person 600, in role 0 at origin 0, read record 0 for treatment? decision CARD prints what the card's ledger decides. */
#include "newelsage.h"
#include <stdio.h>

int main(int argc, char **argv) {
  static const char *const basis[] = {"", "the patient asks", "the author asks", "directive", "default consent"};
  static const uint8_t request[7] = {0x02, 0x58, 0, 0, 0, 0, 0}; /* person 600, role, origin, record, purpose */
  uint8_t card[2590], none[1]; /* an accepted card has at most 2,589 bytes, so that none is cut here */
  newelsage_memory memory;
  newelsage_ledger *ledger = newelsage_in(&memory);
  newelsage_answer answer;
  if (argc != 2)
    return fputs("usage: decision CARD\n", stderr), 2;
  FILE *file = fopen(argv[1], "rb");
  size_t length = file ? fread(card, 1, sizeof card, file) : 0;
  if (!file || ferror(file))
    return perror(argv[1]), 2;
  if (newelsage_read(ledger, sizeof memory, card, length, &answer) != NEWELSAGE_ACCEPTED)
    return fprintf(stderr, "card refused: question %d\n", (int)answer.status), 1;
  if (newelsage_ask(ledger, sizeof memory, NEWELSAGE_TAG_DECIDE, request, sizeof request, none, 0, &answer) != NEWELSAGE_ACCEPTED)
    return fprintf(stderr, "request refused: question %d\n", (int)answer.status), 1;
  printf("person 600 %s read record 0: %s", answer.values[0] == 1 ? "may" : "may not", basis[answer.values[1]]);
  if (answer.values[1] == 3)
    printf(" %d", (int)answer.values[2]);
  putchar('\n');
  return fclose(stdout) ? perror("standard output"), 2 : 0;
}
