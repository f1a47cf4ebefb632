/*
 * Blocks by the library, for rvstm-developers embedding: by its calls for blocks over the caller's own storage, with a hash table as the database,
 * and by rvstm_frame.
 *
 * usage: embedding PROGRAM START FRAME, with a frame that has the storage, and one that has the calls. For each line `block` or `frame`
 * of its input it runs the calls, copies the whole result, and prints the nanoseconds of the processor. In the end, if it ran as many of
 * both, it compares the two storages, and ends with status 1 if they differ.
 */
#define _POSIX_C_SOURCE 200809L
#include <stdlib.h>
#include <time.h>

#include "text.h"

#define MIXER UINT64_C(0x9e3779b97f4a7c15) /* 2^64 divided by the golden ratio */

enum { SLOTS = 1 << 12, LONGEST = 64, MOST_FRAME_CALLS = 1024, ANSWER_ROOM = 1 << 22 };

/* What the database has at a key, under rules 1. */
struct slot {
    uint8_t key[32], value[LONGEST];
    uint8_t length;
    bool is_used, present;
};

static struct slot table[SLOTS];
static struct line *calls[MOST_FRAME_CALLS];
static size_t call_count;
static rvstm_image image;
static rvstm_session session;
static uint8_t frame[ANSWER_ROOM], answer[ANSWER_ROOM];
static size_t frame_length;

static void stop(const char *reason)
{
    fprintf(stderr, "embedding: %s\n", reason);
    exit(1);
}

static void check(uint32_t status)
{
    if (status != RVSTM_DONE) stop("a call of the library is not done");
}

static size_t read_file(const char *path, uint8_t *bytes)
{
    FILE *file = fopen(path, "rb");
    if (!file) stop("a file can't be read");
    size_t length = fread(bytes, 1, ANSWER_ROOM, file);
    fclose(file);
    return length;
}

/* ---- the database */

static struct slot *slot_of(const uint8_t key[32])
{
    uint64_t words[4], hash = 0;
    memcpy(words, key, sizeof words);
    for (int number = 0; number < 4; number++) hash = (hash ^ words[number]) * MIXER, hash ^= hash >> 32;
    size_t at = hash * MIXER >> 32 & (SLOTS - 1);
    while (table[at].is_used && memcmp(table[at].key, key, 32)) at = (at + 1) & (SLOTS - 1);
    table[at].is_used = true;
    memcpy(table[at].key, key, 32);
    return &table[at];
}

static void store(const uint8_t key[32], bool present, const uint8_t *value, size_t length)
{
    struct slot *slot = slot_of(key);
    if (length > LONGEST) stop("a value is too long");
    slot->present = present;
    slot->length = (uint8_t)length;
    memcpy(slot->value, value, length);
}

/* Puts the storage of a frame into the table, and its calls into the list. */
static void read_frame(const char *path)
{
    struct line line;
    enum line_kind kind;
    FILE *file = fopen(path, "r");
    if (!file || !read_rules(file)) stop("a frame can't be read");
    while ((kind = read_line(file, &line)) != NO_LINE) {
        if (kind == STORE_LINE) store(line.key, true, line.bytes, line.length);
        if (kind != CALL_LINE) continue;
        struct line *kept = malloc(sizeof line);
        if (!kept) stop("no memory");
        *kept = line;
        calls[call_count++] = kept;
    }
    fclose(file);
}

/* ---- the two ways */

static void run_block(void)
{
    rvstm_block block = {0};
    rvstm_key key;
    rvstm_receipt receipt;
    rvstm_write write;
    rvstm_change change;
    rvstm_result_entries entries;
    uint8_t output[256];
    uint32_t status;
    check(rvstm_block_open(&block, 1));
    for (size_t at = 0; at < call_count; at++) check(rvstm_calls_add(&block, &image, calls[at]->gas, calls[at]->bytes, calls[at]->length));
    while ((status = rvstm_run_go(&block, &key)) == RVSTM_KEY) {
        const struct slot *slot = slot_of(key.bytes);
        check(rvstm_run_base(&block, slot->present, slot->value, slot->length));
    }
    if (status != RVSTM_ENDED) stop("no memory");
    check(rvstm_result_counts(&block, &entries));
    for (size_t at = 0; at < entries.receipts; at++) {
        check(rvstm_result_receipt(&block, at, &receipt));
        check(rvstm_result_output(&block, at, output, sizeof output));
        for (size_t index = 0; index < receipt.writes; index++) check(rvstm_result_write(&block, at, index, &write));
    }
    for (size_t index = 0; index < entries.changes; index++) {
        check(rvstm_result_change(&block, index, &change));
        store(change.key, change.present, change.value, change.length);
    }
    check(rvstm_block_close(&block));
}

static void run_frame(void)
{
    check(rvstm_frame(&session, frame, frame_length));
    check(rvstm_answer(&session, answer, sizeof answer));
}

/* The session has what the table has. */
static void compare(void)
{
    for (size_t at = 0; at < SLOTS; at++) {
        const struct slot *slot = &table[at];
        char key[65], wanted[16 + 2 * LONGEST] = "absent\n";
        if (!slot->is_used) continue;
        for (size_t byte = 0; byte < 32; byte++) sprintf(key + 2 * byte, "%02x", slot->key[byte]);
        if (slot->present) strcpy(wanted, slot->length ? "value " : "value -");
        for (size_t byte = 0; byte < slot->length; byte++) sprintf(wanted + 6 + 2 * byte, "%02x", slot->value[byte]);
        if (slot->present) strcat(wanted, "\n");
        check(rvstm_get(&session, (const uint8_t *)key, 64));
        check(rvstm_answer(&session, answer, sizeof answer));
        if (rvstm_answer_length(&session) != strlen(wanted) || memcmp(answer, wanted, strlen(wanted))) stop("the storages differ");
    }
}

static long nanoseconds(void)
{
    struct timespec now;
    clock_gettime(CLOCK_PROCESS_CPUTIME_ID, &now);
    return now.tv_sec * 1000000000L + now.tv_nsec;
}

int main(int count, char **words)
{
    rvstm_refusal_parts parts;
    char way[16];
    long runs[2] = {0, 0};
    if (count != 4) stop("usage: embedding PROGRAM START FRAME");
    size_t length = read_file(words[1], frame);
    check(rvstm_image_open(&image, frame, length, &parts));
    check(rvstm_open(&session));
    check(rvstm_program(&session, frame, length));
    frame_length = read_file(words[2], frame);
    run_frame();
    frame_length = read_file(words[3], frame);
    read_frame(words[2]);
    read_frame(words[3]);
    while (scanf("%15s", way) == 1) {
        bool is_block = !strcmp(way, "block");
        long began = nanoseconds();
        if (is_block) run_block();
        else run_frame();
        printf("%ld\n", nanoseconds() - began);
        fflush(stdout);
        runs[is_block]++;
    }
    if (runs[0] == runs[1]) compare();
    while (call_count) free(calls[--call_count]);
    return rvstm_close(&session) == RVSTM_DONE && rvstm_image_close(&image) == RVSTM_DONE ? 0 : 1;
}
