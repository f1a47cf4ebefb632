/*
 * Random sequences of the calls for blocks over the caller's own storage (include/rvstm.h), right and wrong ones, with a heap that
 * refuses at random. Each status, and each struct that is filled, is compared with a model.
 *
 * usage: misuse SCRIPT SEED COUNT, with the program of script.s. Prints how often each status came. At the first difference it prints
 * that, and ends with status 1.
 */
#include <inttypes.h>
#include <stdio.h>
#include <stdlib.h>
#include <string.h>

#include "heap.h"
#include "model.h"
#include "rvstm.h"

enum { IMAGES = 3, BLOCKS = 3, STATUSES = 19, UNSET = 0xee, GUARD = 16, MOST_FILE = 131072, ENOUGH = 2000 };
/* One of so many sequences has a block of 1,024 calls. */
enum { FULL_IN = 64 };

struct image {
    rvstm_image *handle;
    bool is_open;
};

struct block {
    rvstm_block *handle;
    struct model model;
};

static struct image images[IMAGES];
static struct block blocks[BLOCKS];
static uint8_t script[MOST_FILE + 1], outside[LONGEST_INPUT + 1];
static size_t script_length;
static uint64_t first_seed, seed, came_by_status[STATUSES];
static long number;
static const char *called;

static uint32_t below(uint32_t bound)
{
    return random_below(&seed, bound);
}

static void differ(const char *what, uint64_t came, uint64_t wanted)
{
    printf("seed %" PRIu64 ", sequence %ld, %s: %s %" PRIu64 ", and not %" PRIu64 "\n", first_seed, number, called, what, came, wanted);
    exit(1);
}

static void same(const char *what, uint64_t came, uint64_t wanted)
{
    if (came != wanted) differ(what, came, wanted);
}

static void same_bytes(const char *what, const void *came, const void *wanted, size_t length)
{
    if (memcmp(came, wanted, length)) differ(what, 1, 0);
}

/* All bytes are as they were before the call. */
static void untouched(const void *bytes, size_t length)
{
    for (size_t at = 0; at < length; at++) same("a byte", ((const uint8_t *)bytes)[at], UNSET);
}

/* Begins a call, in which the heap may refuse. */
static void begin(const char *name, bool may_refuse)
{
    called = name;
    heap.one_in = may_refuse && below(3) == 0 ? 1 + below(24) : 0;
    heap.refused = false;
}

/*
 * Compares a status. In place of the one that is wanted, the one for want of memory may come, if there is one, and the heap refused.
 * Returns whether the wanted one came.
 */
static bool is_wanted(uint32_t came, uint32_t wanted, uint32_t for_memory)
{
    heap.one_in = 0;
    if (came < STATUSES) came_by_status[came]++;
    if (came == wanted) return true;
    if (!for_memory || !heap.refused || came != for_memory) differ("status", came, wanted);
    return false;
}

static void *room(size_t length)
{
    void *bytes = malloc(length);
    if (!bytes) exit(2);
    memset(bytes, UNSET, length);
    return bytes;
}

/* ---- images and blocks are opened, moved and closed */

static void open_image(struct image *image, bool may_refuse)
{
    rvstm_refusal_parts parts;
    static const rvstm_refusal_parts zeros;
    uint32_t kind = may_refuse ? below(6) : 0;
    size_t length = kind == 1 ? below((uint32_t)script_length) : kind == 2 ? MOST_FILE + 1 : script_length;
    bool is_program = length == script_length;
    memset(&parts, UNSET, sizeof parts);
    begin("rvstm_image_open", may_refuse);
    uint32_t status = rvstm_image_open(image->handle, script, length, &parts);
    uint32_t wanted = image->is_open ? RVSTM_ALREADY_OPEN : is_program ? RVSTM_DONE : RVSTM_REFUSED;
    bool came = is_wanted(status, wanted, image->is_open ? 0 : RVSTM_NO_MEMORY);
    if (came && status == RVSTM_DONE) image->is_open = true;
    if (came && status == RVSTM_REFUSED) {
        const char *name = kind == 2 ? "file" : "elf";
        same_bytes("the area", parts.area, name, strlen(name) + 1);
        same("a line", parts.line, 0);
        if (!parts.number || !*parts.name) differ("no number or name", 0, 1);
    } else {
        same("a line", parts.line, 0);
        same("a number", parts.number, 0);
        same_bytes("the area", parts.area, zeros.area, sizeof parts.area);
        same_bytes("the name", parts.name, zeros.name, sizeof parts.name);
    }
}

static void close_image(struct image *image)
{
    begin("rvstm_image_close", true);
    is_wanted(rvstm_image_close(image->handle), image->is_open ? RVSTM_DONE : RVSTM_CLOSED, 0);
    image->is_open = false;
}

static void open_block(struct block *block)
{
    static const uint32_t choices[] = {1, 1, 2, 2, 3, 3, 3, 3, 0, 4, UINT32_MAX};
    uint32_t rules = choices[below(sizeof choices / sizeof *choices)];
    struct model *model = &block->model;
    bool is_open = model->stage != SHUT, is_bad = rules - 1 > 2;
    begin("rvstm_block_open", true);
    uint32_t status = rvstm_block_open(block->handle, rules);
    if (!is_wanted(status, is_open ? RVSTM_ALREADY_OPEN : is_bad ? RVSTM_BAD_RULES : RVSTM_DONE, is_open || is_bad ? 0 : RVSTM_NO_MEMORY))
        return;
    if (status != RVSTM_DONE) return;
    model->stage = CALLS;
    model->rules = rules;
    model->count = 0;
    model->is_asked = false;
    memset(model->bases, 0, sizeof model->bases);
}

static void close_block(struct block *block)
{
    begin("rvstm_block_close", true);
    is_wanted(rvstm_block_close(block->handle), block->model.stage != SHUT ? RVSTM_DONE : RVSTM_CLOSED, 0);
    block->model.stage = SHUT;
}

/* A handle gets another place; its old one is no handle any more. */
static void *moved(void *handle, size_t size)
{
    void *place = room(size);
    memcpy(place, handle, size);
    memset(handle, UNSET, size);
    free(handle);
    return place;
}

/* ---- calls */

/* Entries of script.s: most are such that the next one is made, too. */
static uint32_t draw_input(uint8_t *input)
{
    static const uint8_t kinds[] = {0, 0, 0, 0, 0, 1, 1, 1, 1, 2, 3, 4, 5, 5, 5};
    static const uint32_t counts[] = {0, 1, 7, 8, 8, 8, 20, 64, 64, 64, 65, 200, 256, 256, 257, 0x7fffffff, 0xffffffff};
    uint32_t entries = below(40) ? below(6) : LONGEST_INPUT / ENTRY_LENGTH;
    for (uint32_t at = 0; at < entries; at++) {
        uint8_t *entry = input + at * ENTRY_LENGTH;
        uint32_t kind = below(24) ? kinds[below(sizeof kinds)] : below(8);
        uint32_t count = counts[below(kind == 5 ? sizeof counts / sizeof *counts : below(4) ? 10 : sizeof counts / sizeof *counts)];
        memset(entry, 0, 8);
        entry[0] = (uint8_t)kind;
        for (int byte = 0; byte < 4; byte++) entry[4 + byte] = (uint8_t)(count >> 8 * byte);
        memcpy(entry + 8, keys[below(KEYS)], sizeof keys[0]);
    }
    return entries * ENTRY_LENGTH;
}

static void add_call(struct block *block, struct image *image, bool is_empty)
{
    static const uint32_t limits[] = {1, 10000000, 10000000, 10000000, 10000000, 10000000, 0, 10000001, UINT32_MAX};
    struct model *model = &block->model;
    struct call *call = &model->calls[model->count % MOST_CALLS];
    static uint8_t input[LONGEST_INPUT + LONGEST_VALUE];
    memset(input, 0, sizeof input);
    uint32_t gas = limits[below(is_empty ? 2 : sizeof limits / sizeof *limits)], length = is_empty ? 0 : draw_input(input);
    bool is_long = !is_empty && below(12) == 0, is_open = model->stage != SHUT && image->is_open;
    begin("rvstm_calls_add", !is_empty);
    uint32_t status = is_long ? rvstm_calls_add(block->handle, image->handle, gas, outside, sizeof outside)
                              : rvstm_calls_add(block->handle, image->handle, gas, input, length);
    uint32_t wanted = !is_open ? RVSTM_CLOSED : model->stage != CALLS ? RVSTM_WRONG_STAGE
        : model->count == MOST_CALLS ? RVSTM_TOO_MANY_CALLS : gas - 1 >= 10000000 ? RVSTM_BAD_GAS
        : is_long ? RVSTM_LONG_INPUT : RVSTM_DONE;
    if (!is_wanted(status, wanted, wanted == RVSTM_DONE ? RVSTM_FAILED : 0) || status != RVSTM_DONE) return;
    call->gas = gas;
    call->length = length;
    memcpy(call->input, input, sizeof input);
    model->count++;
}

/* ---- the run */

static void go(struct block *block, bool may_refuse)
{
    struct model *model = &block->model;
    rvstm_key key;
    memset(&key, UNSET, sizeof key);
    begin("rvstm_run_go", may_refuse);
    uint32_t status = rvstm_run_go(block->handle, &key);
    uint32_t asked = model->stage == SHUT || model->stage == RESULT ? 0 : model->is_asked ? UINT32_C(1) << model->asked : run_model(model);
    uint32_t wanted = model->stage == SHUT ? RVSTM_CLOSED : asked ? RVSTM_KEY : RVSTM_ENDED;
    bool came = is_wanted(status, wanted, model->stage == SHUT || model->stage == RESULT || model->is_asked ? 0 : RVSTM_PAUSED);
    if (model->stage == CALLS) model->stage = RUN;
    if (!came || status != RVSTM_KEY) untouched(&key, sizeof key);
    if (came && status == RVSTM_ENDED) model->stage = RESULT;
    if (!came || status != RVSTM_KEY) return;
    int at = 0;
    while (at < KEYS && memcmp(keys[at], key.bytes, sizeof key)) at++;
    if (at == KEYS || !(asked >> at & 1)) differ("the key", (uint64_t)at, asked);
    model->is_asked = true;
    model->asked = at;
}

static void answer(struct block *block, bool is_right)
{
    static const uint32_t lengths[] = {0, 1, 7, 8, 8, 8, 8, 9, 64, 65, 256, 257, 4097};
    struct model *model = &block->model;
    bool present = below(4) != 0, is_asked = model->stage == RUN && model->is_asked;
    uint32_t length = lengths[below(is_right ? 11 : sizeof lengths / sizeof *lengths)];
    uint8_t *value = room(length ? length : 1);
    for (uint32_t at = 0; at < length; at++) value[at] = (uint8_t)below(256);
    begin("rvstm_run_base", !is_right);
    uint32_t status = rvstm_run_base(block->handle, present, value, length);
    bool is_long = present && length > LONGEST_VALUE;
    uint32_t wanted = model->stage == SHUT ? RVSTM_CLOSED : !is_asked ? RVSTM_NOT_ASKED : is_long ? RVSTM_LONG_VALUE : RVSTM_DONE;
    if (is_wanted(status, wanted, wanted == RVSTM_DONE ? RVSTM_FAILED : 0) && status == RVSTM_DONE) {
        struct cell *base = &model->bases[model->asked];
        *base = (struct cell){.kind = present ? VALUE : GONE, .length = present ? length : 0};
        memcpy(base->value, value, base->length);
        model->is_asked = false;
    }
    memset(value, UNSET, length);
    free(value);
}

/* ---- the result */

/* What a call for the result returns, if there is such an entry. */
static uint32_t of_result(const struct model *model, bool is_entry)
{
    return model->stage == SHUT ? RVSTM_CLOSED : model->stage != RESULT ? RVSTM_WRONG_STAGE : is_entry ? RVSTM_DONE : RVSTM_NO_ENTRY;
}

/* The index of the cell that has the entry of a number, of those that are touched; KEYS if there is none. */
static size_t place_of(const struct cell *cells, size_t entry)
{
    size_t at = 0;
    for (; at < KEYS; at++)
        if (cells[at].kind != UNTOUCHED && entry-- == 0) break;
    return at;
}

static uint32_t number_of(const struct cell *cells)
{
    uint32_t found = 0;
    while (place_of(cells, found) < KEYS) found++;
    return found;
}

static void read_counts(struct block *block)
{
    rvstm_result_entries entries;
    memset(&entries, UNSET, sizeof entries);
    begin("rvstm_result_counts", true);
    uint32_t status = rvstm_result_counts(block->handle, &entries);
    is_wanted(status, of_result(&block->model, true), 0);
    if (status != RVSTM_DONE) {
        untouched(&entries, sizeof entries);
        return;
    }
    same("receipts", entries.receipts, block->model.count);
    same("changes", entries.changes, number_of(block->model.changes));
}

static void read_receipt(struct block *block, size_t call)
{
    rvstm_receipt receipt;
    memset(&receipt, UNSET, sizeof receipt);
    begin("rvstm_result_receipt", true);
    uint32_t status = rvstm_result_receipt(block->handle, call, &receipt);
    is_wanted(status, of_result(&block->model, call < block->model.count), 0);
    if (status != RVSTM_DONE) {
        untouched(&receipt, sizeof receipt);
        return;
    }
    const struct did *did = &block->model.did[call];
    same("the end", receipt.end, did->end);
    same("gas", receipt.gas, did->gas);
    same("pc", receipt.pc, did->pc);
    same("x0", receipt.registers[0], 0);
    same("s2", receipt.registers[18], did->gathered);
    same("the length", receipt.output_length, did->length);
    same("writes", receipt.writes, number_of(did->cells));
}

static void read_output(struct block *block, size_t call, size_t length)
{
    const struct model *model = &block->model;
    uint8_t *buffer = room(length + GUARD);
    uint32_t had = call < model->count ? model->did[call].length : 0, wanted = of_result(model, call < model->count);
    if (wanted == RVSTM_DONE && length < had) wanted = RVSTM_SHORT_BUFFER;
    begin("rvstm_result_output", true);
    uint32_t status = rvstm_result_output(block->handle, call, buffer, length);
    is_wanted(status, wanted, 0);
    if (status != RVSTM_DONE) had = 0;
    else same_bytes("the output", buffer, model->did[call].output, had);
    untouched(buffer + had, length + GUARD - had);
    free(buffer);
}

static void read_write(struct block *block, size_t call, size_t index)
{
    rvstm_write write;
    const struct model *model = &block->model;
    bool is_call = model->stage == RESULT && call < model->count;
    size_t at = is_call ? place_of(model->did[call].cells, index) : KEYS;
    memset(&write, UNSET, sizeof write);
    begin("rvstm_result_write", true);
    uint32_t status = rvstm_result_write(block->handle, call, index, &write);
    is_wanted(status, of_result(model, at < KEYS), 0);
    if (status != RVSTM_DONE) {
        untouched(&write, sizeof write);
        return;
    }
    const struct cell *cell = &model->did[call].cells[at];
    same("the kind", write.kind, cell->kind == VALUE ? RVSTM_WRITE_VALUE : cell->kind == GONE ? RVSTM_WRITE_GONE : RVSTM_WRITE_SUM);
    same("the amount", write.amount, cell->amount);
    same("the length", write.length, cell->length);
    same_bytes("the key", write.key, keys[at], sizeof write.key);
    same_bytes("the value", write.value, cell->value, sizeof write.value);
}

static void read_change(struct block *block, size_t index)
{
    rvstm_change change;
    const struct model *model = &block->model;
    size_t at = model->stage == RESULT ? place_of(model->changes, index) : KEYS;
    memset(&change, UNSET, sizeof change);
    begin("rvstm_result_change", true);
    uint32_t status = rvstm_result_change(block->handle, index, &change);
    is_wanted(status, of_result(model, at < KEYS), 0);
    if (status != RVSTM_DONE) {
        untouched(&change, sizeof change);
        return;
    }
    const struct cell *cell = &model->changes[at];
    same("present", change.present, cell->kind == VALUE);
    same("the length", change.length, cell->length);
    same_bytes("the key", change.key, keys[at], sizeof change.key);
    same_bytes("the value", change.value, cell->value, sizeof change.value);
}

/* Runs a block to its end, and reads its whole result, and one entry more of each kind. */
static void finish(struct block *block)
{
    while (block->model.stage != RESULT) {
        go(block, false);
        if (block->model.is_asked) answer(block, true);
    }
    read_counts(block);
    for (size_t call = 0; call <= block->model.count; call++) {
        read_receipt(block, call);
        read_output(block, call, LONGEST_VALUE);
        if (call == block->model.count) break;
        for (size_t index = 0; index <= number_of(block->model.did[call].cells); index++) read_write(block, call, index);
    }
    for (size_t index = 0; index <= number_of(block->model.changes); index++) read_change(block, index);
}

/* ---- sequences */

/* An index that most likely is of an entry. */
static size_t some_index(size_t count)
{
    return below(16) ? below((uint32_t)count + 1) : below(2) ? SIZE_MAX : (size_t)below(UINT32_MAX) << 32;
}

/* A block, most likely at a stage. */
static struct block *some_block(int stage)
{
    struct block *block = &blocks[below(BLOCKS)];
    for (int tries = 0; tries < 4 && (int)block->model.stage != stage; tries++) block = &blocks[below(BLOCKS)];
    return block;
}

static void read_result(struct block *block)
{
    size_t call = some_index(block->model.count);
    switch (below(5)) {
    case 0: read_counts(block); break;
    case 1: read_receipt(block, call); break;
    case 2: read_output(block, call, below(3) ? below(LONGEST_VALUE + 1) : below(10)); break;
    case 3: read_write(block, call, some_index(3)); break;
    default: read_change(block, some_index(3));
    }
}

static void step(void)
{
    struct image *image = &images[below(IMAGES)];
    struct block *block = &blocks[below(BLOCKS)];
    bool is_over = block->model.stage == RESULT, is_open = block->model.stage != SHUT;
    switch (below(30)) {
    case 0: case 1: open_image(image, true); break;
    case 2: if (below(3) == 0) close_image(image); break;
    case 3: case 4: open_block(some_block(SHUT)); break;
    case 5: if (is_over || below(6) == 0) close_block(block); break;
    case 6: image->handle = moved(image->handle, sizeof *image->handle); break;
    case 7: block->handle = moved(block->handle, sizeof *block->handle); break;
    case 8: if (is_open && below(4) == 0) finish(block); break;
    case 9: case 10: case 11: case 12: read_result(some_block(RESULT)); break;
    case 13: case 14: case 15: case 16: case 17: go(some_block(RUN), true); break;
    case 18: case 19: case 20: case 21: answer(some_block(RUN), false); break;
    case 22: go(some_block(CALLS), true); break;
    default: add_call(some_block(CALLS), image, false);
    }
}

/* Adds calls until the block is full, and one more. */
static void fill(struct block *block, struct image *image)
{
    if (!image->is_open) open_image(image, false);
    if (block->model.stage == SHUT) open_block(block);
    if (block->model.stage != CALLS) return;
    while (block->model.count < MOST_CALLS) add_call(block, image, true);
    add_call(block, image, true);
}

static void run_sequence(void)
{
    for (int at = 0; at < IMAGES; at++) images[at] = (struct image){calloc(1, sizeof(rvstm_image)), false};
    for (int at = 0; at < BLOCKS; at++) blocks[at].handle = calloc(1, sizeof(rvstm_block));
    for (int at = 0; at < IMAGES; at++)
        if (below(4)) open_image(&images[at], false);
    for (int at = 0; at < BLOCKS; at++)
        if (below(4)) open_block(&blocks[at]);
    for (uint32_t steps = 8 + below(120); steps > 0; steps--) step();
    if (below(FULL_IN) == 0) fill(&blocks[0], &images[0]);
    for (int at = 0; at < IMAGES; at++)
        for (int again = 0; again < 2; again++) close_image(&images[at]);
    for (int at = 0; at < BLOCKS; at++) {
        if (blocks[at].model.stage != SHUT && below(2)) finish(&blocks[at]);
        for (int again = 0; again < 2; again++) close_block(&blocks[at]);
        free(blocks[at].handle);
    }
    for (int at = 0; at < IMAGES; at++) free(images[at].handle);
    called = "the end";
    same("blocks of the heap", heap.blocks, 0);
}

/* Whether a status can come: those of sessions can't. Without heap.c below the library, as under valgrind, memory is never refused. */
static bool can_come(uint32_t status)
{
    bool is_for_memory = status == RVSTM_FAILED || status == RVSTM_NO_MEMORY || status == RVSTM_PAUSED;
    return status != RVSTM_BAD_SETTINGS && (!is_for_memory || heap.most_bytes);
}

/* In many sequences each status comes that can. */
static void print_statuses(long count)
{
    for (uint32_t status = 0; status < STATUSES; status++) {
        if (came_by_status[status]) printf("status %" PRIu32 ": %" PRIu64 "\n", status, came_by_status[status]);
        else if (count >= ENOUGH && can_come(status)) differ("no status", status, status);
    }
}

int main(int words, char **word)
{
    FILE *file = words == 4 ? fopen(word[1], "rb") : NULL;
    if (!file) {
        fprintf(stderr, "usage: misuse SCRIPT SEED COUNT\n");
        return 2;
    }
    script_length = fread(script, 1, MOST_FILE, file);
    fclose(file);
    first_seed = strtoull(word[2], NULL, 10);
    long count = strtol(word[3], NULL, 10);
    for (number = 0; number < count; number++) {
        seed = first_seed + (uint64_t)number * UINT64_C(0x100000001b3);
        run_sequence();
    }
    print_statuses(count);
    printf("seed %" PRIu64 ", %ld sequences: none differs\n", first_seed, count);
    return 0;
}
