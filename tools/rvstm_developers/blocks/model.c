#include "model.h"

#include <string.h>

#include "rvstm.h"

enum { READ, WRITE, REMOVE, RETURN, REVERT, ADD };
enum { SECOND = 0x10004, MAKE = 0x10050, DONE = 0x1007c }; /* addresses of script.s */
static const uint32_t ABSENT = 0xffffffff, LONGER = 0xfffffffe;

const uint8_t keys[KEYS][32] = {
    {0}, {[31] = 1}, {[31] = 0x80}, {[30] = 1}, {[15] = 7, [16] = 1}, {[15] = 7, [16] = 2}, {1}, {1, [31] = 1}, {0x7f, 0xff}, {0x80},
    {0xff}, {0xff, [31] = 0xff},
};

static uint32_t word(const uint8_t *bytes)
{
    return bytes[0] | (uint32_t)bytes[1] << 8 | (uint32_t)bytes[2] << 16 | (uint32_t)bytes[3] << 24;
}

/* ---- cells */

static void set(struct cell *cell, const uint8_t *value, uint32_t length)
{
    memset(cell, 0, sizeof *cell);
    cell->kind = VALUE;
    cell->length = length;
    memcpy(cell->value, value, length);
}

static void add(struct cell *cell, uint64_t amount)
{
    uint8_t number[8];
    if (cell->kind == UNTOUCHED || cell->kind == SUM) {
        cell->kind = SUM;
        cell->amount += amount;
        return;
    }
    if (cell->kind == VALUE && cell->length == 8) amount += word(cell->value) | (uint64_t)word(cell->value + 4) << 32;
    for (int at = 0; at < 8; at++) number[at] = (uint8_t)(amount >> 8 * at);
    set(cell, number, 8);
}

static void apply(struct cell *cell, const struct cell *change)
{
    if (change->kind == SUM) add(cell, change->amount);
    else if (change->kind != UNTOUCHED) *cell = *change;
}

static bool is_sure(const struct cell *cell)
{
    return cell->kind == VALUE || cell->kind == GONE;
}

/* What a call sees at a key, of which earlier calls and it itself did some. False if that needs a base that is not known. */
static bool see(const struct cell *base, const struct cell *earlier, const struct cell *own, struct cell *seen)
{
    *seen = *base;
    if (!is_sure(base) && !is_sure(earlier) && !is_sure(own)) return false;
    apply(seen, earlier);
    apply(seen, own);
    return true;
}

/* ---- calls */

static int index_of(const uint8_t *key)
{
    int at = 0;
    while (memcmp(keys[at], key, 32)) at++;
    return at;
}

static void end(struct did *did, uint32_t how, uint32_t pc)
{
    did->end = how;
    did->pc = pc;
}

/* The instructions of an entry up to its ecall, loads by two. */
static uint32_t cost_before(uint32_t number)
{
    uint32_t cost = 13 + (number == READ) + 2 * (number == ADD);
    if (number >= RETURN) cost += 2 + 2 * (number <= REVERT);
    return cost;
}

/* Makes a storage call. Returns whether the call goes on. */
static bool make(const struct model *model, const uint8_t *entry, const struct cell *seen, struct did *did)
{
    uint32_t number = word(entry), count = word(entry + 4), limit = model->rules == 1 ? 64 : LONGEST_VALUE;
    struct cell *cell = number <= REMOVE || number == ADD ? &did->cells[index_of(entry + 8)] : NULL;
    bool has_output = number == RETURN || number == REVERT;
    did->gas += cost_before(number);
    if (number > ADD || (number == ADD && model->rules < 3)) return end(did, RVSTM_END_UNKNOWN_CALL, MAKE), false;
    if ((number <= WRITE && count > limit) || (has_output && count > LONGEST_VALUE)) return end(did, RVSTM_END_BAD_LENGTH, MAKE), false;
    if (has_output) {
        did->gas += 10 + count;
        did->length = count;
        memcpy(did->output, entry, count);
        return end(did, number == RETURN ? RVSTM_END_RETURNED : RVSTM_END_REVERTED, MAKE), false;
    }
    did->gas += number == READ ? 200 : number == WRITE ? 400 + 4 * count : 300;
    if (number == WRITE) set(cell, entry, count);
    if (number == REMOVE) *cell = (struct cell){.kind = GONE};
    if (number == ADD) add(cell, (uint64_t)(int64_t)(int32_t)count);
    if (number == READ) {
        bool fits = seen->kind == VALUE && seen->length <= count;
        if (fits && seen->length) did->first = seen->value[0];
        if (fits && model->rules > 1) did->gas += seen->length;
        did->gathered = did->gathered * 31 + (fits ? seen->length : seen->kind == GONE ? ABSENT : LONGER) + did->first;
        did->gas += 6;
    }
    did->gas += 3;
    return true;
}

/* Runs a call. Returns the index of the key that it asks for, or -1. */
static int run_call(const struct model *model, const struct call *call, const struct cell *earlier, struct did *did)
{
    memset(did, 0, sizeof *did);
    did->gas = 2;
    if (call->gas == 1) {
        did->gas = 1;
        end(did, RVSTM_END_OUT_OF_GAS, SECOND);
        return -1;
    }
    for (uint32_t at = 0; at < call->length; at += ENTRY_LENGTH) {
        const uint8_t *entry = call->input + at;
        struct cell seen = {0};
        if (word(entry) == READ && word(entry + 4) <= (model->rules == 1 ? 64 : LONGEST_VALUE)) {
            int key = index_of(entry + 8);
            if (!see(&model->bases[key], &earlier[key], &did->cells[key], &seen)) return key;
        }
        if (!make(model, entry, &seen, did)) return -1;
    }
    did->gas += 13;
    end(did, RVSTM_END_RETURNED, DONE);
    return -1;
}

uint32_t run_model(struct model *model)
{
    uint32_t wanted = 0;
    struct cell earlier[KEYS] = {0};
    for (size_t number = 0; number < model->count; number++) {
        struct did *did = &model->did[number];
        int key = run_call(model, &model->calls[number], earlier, did);
        if (key >= 0) return UINT32_C(1) << key;
        if (did->end != RVSTM_END_RETURNED) memset(did->cells, 0, sizeof did->cells);
        for (int at = 0; at < KEYS; at++) apply(&earlier[at], &did->cells[at]);
    }
    for (int at = 0; at < KEYS; at++) {
        static const struct cell nothing;
        model->changes[at] = nothing;
        if (earlier[at].kind == UNTOUCHED) continue;
        if (!see(&model->bases[at], &earlier[at], &nothing, &model->changes[at])) wanted |= UINT32_C(1) << at;
    }
    return wanted;
}
