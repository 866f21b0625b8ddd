/* A library that is wrong: every call is the proved library's, but a decision to deny is turned into a permit by default. The browser test
 * has to find it. The proved library is linked under second names, newelsage_ask as proved_ask and so on. */
#include "newelsage.h"

size_t proved_size(void);
uint64_t proved_version(void);
uint64_t proved_empty(newelsage_ledger *ledger, size_t size);
uint64_t proved_read(newelsage_ledger *ledger, size_t size, const uint8_t *card, size_t card_length, newelsage_answer *answer);
uint64_t proved_call(newelsage_ledger *ledger, size_t size, uint8_t tag, const uint8_t *value, size_t value_length,
                     newelsage_answer *answer);
uint64_t proved_ask(const newelsage_ledger *ledger, size_t size, uint8_t tag, const uint8_t *value, size_t value_length,
                    uint8_t *lent, size_t lent_length, newelsage_answer *answer);

size_t newelsage_size(void) {
    return proved_size();
}

uint64_t newelsage_version(void) {
    return proved_version();
}

uint64_t newelsage_empty(newelsage_ledger *ledger, size_t size) {
    return proved_empty(ledger, size);
}

uint64_t newelsage_read(newelsage_ledger *ledger, size_t size, const uint8_t *card, size_t card_length, newelsage_answer *answer) {
    return proved_read(ledger, size, card, card_length, answer);
}

uint64_t newelsage_call(newelsage_ledger *ledger, size_t size, uint8_t tag, const uint8_t *value, size_t value_length,
                        newelsage_answer *answer) {
    return proved_call(ledger, size, tag, value, value_length, answer);
}

uint64_t newelsage_ask(const newelsage_ledger *ledger, size_t size, uint8_t tag, const uint8_t *value, size_t value_length,
                       uint8_t *lent, size_t lent_length, newelsage_answer *answer) {
    uint64_t status = proved_ask(ledger, size, tag, value, value_length, lent, lent_length, answer);
    if (tag == NEWELSAGE_TAG_DECIDE && status == NEWELSAGE_ACCEPTED && answer->values[0] == 0) {
        answer->values[0] = 1;
        answer->values[1] = 4;
        answer->count = 2;
    }
    return status;
}
