/*
 * What include/rvstm.h says of a block whose calls all run script.s, by a second way: all calls are run again from the first one each
 * time, over the answers so far.
 */
#ifndef MODEL_H
#define MODEL_H

#include <stdbool.h>
#include <stddef.h>
#include <stdint.h>

enum { KEYS = 12, ENTRY_LENGTH = 40, MOST_CALLS = 1024, LONGEST_INPUT = 4096, LONGEST_VALUE = 256 };

/* Ascending by their bytes. */
extern const uint8_t keys[KEYS][32];

/* What is at a key, or what a call or a block does to it. */
struct cell {
    enum { UNTOUCHED, VALUE, GONE, SUM } kind;
    uint64_t amount;
    uint32_t length;
    uint8_t value[LONGEST_VALUE];
};

struct call {
    uint32_t gas, length;
    uint8_t input[LONGEST_INPUT + LONGEST_VALUE]; /* zeros follow the input, as in a contract's memory */
};

/* What a call did: as rvstm_receipt, with the one register that matters, its output, and a cell of each key. */
struct did {
    uint32_t end, gas, pc, gathered, length;
    uint8_t first; /* of the buffer of READ */
    uint8_t output[LONGEST_VALUE];
    struct cell cells[KEYS];
};

struct model {
    enum { SHUT, CALLS, RUN, RESULT } stage;
    uint32_t rules;
    size_t count;
    struct call calls[MOST_CALLS];
    struct cell bases[KEYS]; /* UNTOUCHED if the key was not answered */
    bool is_asked;
    int asked;               /* the key, by its index */
    struct did did[MOST_CALLS];
    struct cell changes[KEYS];
};

/*
 * Runs the calls. Returns the keys one of which is asked for next, a bit for each index; 0 if all calls have ended, and `did` and
 * `changes` have the result.
 */
uint32_t run_model(struct model *model);

#endif
