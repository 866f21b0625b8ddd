/* The consent gateway as a library: one ledger serves one patient.
 *
 * The caller owns each ledger's memory: newelsage_size() bytes, aligned as a uint64_t. Nothing is allocated and nothing is global, so
 * any number of ledgers may be used from any number of threads, each ledger by one thread at a time (several may ask at once, as
 * newelsage_ask changes no byte of the ledger).
 *
 * A ledger is made by newelsage_empty or newelsage_read, and changed by newelsage_read and newelsage_call alone. Its bytes may be copied,
 * saved and restored: they hold all of it, the emergency tokens too, which a card does not. There are no pointers in them, and every
 * byte is determined: ledgers that were made by the same calls have equal bytes. Bytes that the library did not make are refused
 * (NEWELSAGE_NOT_A_LEDGER) unless they begin as a ledger does; then some answer is given, and a call may change them even where it is
 * refused. No byte beyond those that are lent is read or written, whatever they hold.
 *
 * newelsage_empty, newelsage_read, newelsage_call and newelsage_ask return a status, 0 where the call was accepted. No pointer may be NULL, even
 * if its length is 0 (the data() of an empty C++ vector may be: pass the address of any byte). What a function writes (ledger, lent, answer) may not
 * overlap anything else that it is given.
 *
 * docs/LIBRARY.md has the guide, docs/FORMATS.md the bytes of a card, of a call's value and of a draft. */
#ifndef NEWELSAGE_H
#define NEWELSAGE_H

#include <stddef.h>
#include <stdint.h>

#ifdef __cplusplus
extern "C" {
#endif

/* What this header was written for; compare it with what the library says of itself. */
#define NEWELSAGE_VERSION 1u
#define NEWELSAGE_SIZE 2928u

/* No card that the library writes is longer. */
#define NEWELSAGE_LONGEST_CARD 2589u

/* The memory of a ledger. Its fields are the library's own. */
typedef struct newelsage_ledger newelsage_ledger;

/* Memory for a ledger where a malloc is not wanted: a newelsage_memory m is handed on as newelsage_in(&m), sizeof m. */
typedef union newelsage_memory {
    uint64_t words[NEWELSAGE_SIZE / 8];
    uint8_t bytes[NEWELSAGE_SIZE];
} newelsage_memory;

static inline newelsage_ledger *newelsage_in(newelsage_memory *memory) {
    return (newelsage_ledger *)(void *)memory;
}

/* The status of a call: 0, or the number of the first question of document 01 or 02 that the input misses, or why the call was not made. A
 * status fits a byte; functions return it as a uint64_t, which C++ wants cast to this type. */
typedef enum newelsage_status {
    NEWELSAGE_ACCEPTED = 0,
    /* a card */
    NEWELSAGE_FIELD_NOT_WHOLE = 1,
    NEWELSAGE_FIELD_MISPLACED = 2, /* or it has another length */
    NEWELSAGE_TOO_MANY_RECORDS = 3,
    NEWELSAGE_OUT_OF_RANGE = 4, /* edition, roles or record */
    NEWELSAGE_INCOMPLETE = 5,
    /* a draft; 7 to 13 also of a card's directive */
    NEWELSAGE_DRAFT_LENGTH = 6,
    NEWELSAGE_DRAFT_OUT_OF_RANGE = 7,
    NEWELSAGE_NOT_IN_REGISTER = 8,
    NEWELSAGE_NO_MINUTES = 9,
    NEWELSAGE_NUMBER_TAKEN = 10,
    NEWELSAGE_LIST_FULL = 11,
    NEWELSAGE_BREAKS_BASELINE = 12,
    NEWELSAGE_CONFLICT = 13, /* values[0]: the lowest number of an active directive that it conflicts with */
    NEWELSAGE_REDUNDANT = 14,
    /* the other calls */
    NEWELSAGE_NOT_ACTIVE = 15,          /* revoke */
    NEWELSAGE_BEFORE_CLOCK = 16,        /* advance */
    NEWELSAGE_REQUEST_OUT_OF_RANGE = 17, /* decide and preview */
    NEWELSAGE_NO_STATE = 18,            /* issue */
    NEWELSAGE_WRONG_MINUTES = 19,       /* issue */
    NEWELSAGE_TOKEN_TAKEN = 20,         /* issue */
    NEWELSAGE_TOKENS_FULL = 21,         /* issue */
    NEWELSAGE_NO_TOKEN = 22,            /* brief; and the library's own NEWELSAGE_TAG_TOKEN: none at that place */
    NEWELSAGE_NO_RECORD = 23,           /* write */
    NEWELSAGE_BUFFER_TOO_SHORT = 24,    /* write */
    /* the call was not made. 102, 103: only the answer was written. 101: a ledger that the library made is unchanged */
    NEWELSAGE_MALFORMED = 101,        /* the function has no such tag, or the value's length is wrong for the tag */
    NEWELSAGE_MEMORY_TOO_SHORT = 102, /* size is below newelsage_size(): no byte of the ledger was touched */
    NEWELSAGE_NOT_A_LEDGER = 103      /* the memory does not begin as a ledger of this version does */
} newelsage_status;

/* The tags: those of the replay format, and below 0x10 the library's own. */
typedef enum newelsage_tag {
    /* newelsage_ask: what the ledger holds, and one of its tokens */
    NEWELSAGE_TAG_COUNTS = 0x00, /* value: none. values: patient, clock, records, active directives, tokens */
    NEWELSAGE_TAG_TOKEN = 0x01,  /* value: place 1, from 0 in order of issue. values: number, person, state set, until */
    /* newelsage_call */
    NEWELSAGE_TAG_COMMIT = 0x10,  /* value: a draft, of any length */
    NEWELSAGE_TAG_REVOKE = 0x11,  /* value: number 2 */
    NEWELSAGE_TAG_ADVANCE = 0x12, /* value: minute 4. values: directives dropped, tokens dropped */
    NEWELSAGE_TAG_ISSUE = 0x13,   /* value: number 2, person 2, state set 1, length 4 */
    /* newelsage_ask */
    NEWELSAGE_TAG_DECIDE = 0x14, /* value: person 2, role 2, origin 1, record 1, purpose 1. values: effect (1 permit, 0 deny), basis,
                                and for basis 3 the directive's number */
    NEWELSAGE_TAG_BRIEF = 0x15,  /* value: number 2, person 2. values: the two words, the count */
    NEWELSAGE_TAG_WRITE = 0x16,  /* value: at most so many bytes of the buffer are used 2. values: the card's length; the card stands in the buffer */
    NEWELSAGE_TAG_PREVIEW = 0x17 /* value: person 2, role 2, origin 1, purpose 1, then a draft. values: the two words, the count */
} newelsage_tag;

/* An answer: the status, and the first `count` of `values`, at most 6; what stands behind them has no meaning. */
typedef struct newelsage_answer {
    uint64_t status;
    uint64_t count;
    uint64_t values[6];
} newelsage_answer;

/* How many bytes a ledger has, and the version of these bytes: saved ledgers of another version are refused. */
size_t newelsage_size(void);
uint64_t newelsage_version(void);

/* Makes the empty ledger: patient 0, clock 0 and nothing else. */
uint64_t newelsage_empty(newelsage_ledger *ledger, size_t size);

/* Reads a card into the ledger, whatever stood there. values: records, active directives; where the card is refused, the ledger is the
 * empty one, and with NEWELSAGE_CONFLICT values[0] is the number that it names. */
uint64_t newelsage_read(newelsage_ledger *ledger, size_t size, const uint8_t *card, size_t card_length, newelsage_answer *answer);

/* A call that can change the ledger. Where it is refused, the ledger is as it was. */
uint64_t newelsage_call(newelsage_ledger *ledger, size_t size, uint8_t tag, const uint8_t *value, size_t value_length,
                        newelsage_answer *answer);

/* A call that changes nothing of the ledger. `lent` is written by NEWELSAGE_TAG_WRITE alone, and only where that is accepted; bytes after the
 * card keep their content. */
uint64_t newelsage_ask(const newelsage_ledger *ledger, size_t size, uint8_t tag, const uint8_t *value, size_t value_length,
                       uint8_t *lent, size_t lent_length, newelsage_answer *answer);

#ifdef __cplusplus
}
#endif

#endif
