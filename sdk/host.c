/* The storage calls over an array, for tests of contracts on the machine that compiles them. */

#include "host.h"

#include <setjmp.h>
#include <stdio.h>
#include <stdlib.h>

enum { STORAGE_LIMIT = 1024 }; /* keys */

struct entry {
    u8 key[KEY_LENGTH];
    u8 value[LONG_VALUE_LIMIT];
    u32 length;
    int is_present;
    int is_written; /* by the call that runs */
};

static struct entry entries[STORAGE_LIMIT];
static u32 entry_count;
static u32 written_count;
static u32 rules_of_calls = 1;

/* The call that runs. */
static int is_running;
static jmp_buf end_of_call;
static struct result result_of_call;

static u32 passed_count;
static u32 failed_count;

/* What was wanted of a call and what came, if they differed since the last check. */
static struct result wanted;
static struct result came;
static int differs;

/* As rvstm-tools test prints outputs: the most bytes that are shown in full, the bytes of a piece, and those of them
   before the first byte in which two outputs differ. */
enum { LONGEST_BYTES = 40, PIECE_BYTES = 20, BYTES_BEFORE = 4 };

/* A sanitizer sees if fewer bytes may be written. */
static void touch(volatile u8 *bytes, u32 length) {
    for (u32 at = 0; at < length; at++) {
        bytes[at] = bytes[at];
    }
}

/* A range of length 0 may be anywhere. */
static void copy_bytes(void *to, const void *from, u32 length) {
    if (length > 0) {
        memmove(to, from, length);
    }
}

/* Bytes of length 0 are the same, also at NULL. */
static int are_same_bytes(const void *one, const void *other, u32 length) {
    return length == 0 || memcmp(one, other, length) == 0;
}

static DOES_NOT_RETURN void fail_test(const char *what) {
    fprintf(stderr, "host.c: %s\n", what);
    exit(2);
}

static DOES_NOT_RETURN void end_call(enum ending ending, const void *bytes, u32 length) {
    if (!is_running) {
        fail_test("a call of the test itself went wrong, outside of a contract");
    }
    result_of_call.ending = ending;
    result_of_call.length = length;
    copy_bytes(result_of_call.output, bytes, length);
    longjmp(end_of_call, 1);
}

static void refuse_above(u32 limit, u32 length) {
    if (length > limit) {
        end_call(BAD_LENGTH, "", 0);
    }
}

static u32 value_limit(void) {
    return rules_of_calls == 1 ? VALUE_LIMIT : LONG_VALUE_LIMIT;
}

static struct entry *find(const void *key) {
    for (u32 at = 0; at < entry_count; at++) {
        if (memcmp(entries[at].key, key, KEY_LENGTH) == 0) {
            return &entries[at];
        }
    }
    return NULL;
}

/* The key's entry, which is counted as written. */
static struct entry *find_to_write(const void *key) {
    struct entry *entry = find(key);
    if (is_running && (entry == NULL || !entry->is_written) && ++written_count > KEYS_LIMIT) {
        end_call(TOO_MANY_WRITES, "", 0);
    }
    if (entry == NULL) {
        if (entry_count == STORAGE_LIMIT) {
            fail_test("the storage is full: it has at most 1024 keys, also removed ones");
        }
        entry = &entries[entry_count++];
        memset(entry, 0, sizeof *entry);
        memcpy(entry->key, key, KEY_LENGTH);
    }
    entry->is_written = is_running;
    return entry;
}

static void set_value(struct entry *entry, const void *value, u32 length) {
    copy_bytes(entry->value, value, length);
    entry->length = length;
    entry->is_present = 1;
}

u32 storage_read(const void *key, void *buffer, u32 capacity) {
    refuse_above(value_limit(), capacity);
    struct entry *entry = find(key);
    touch(buffer, capacity);
    if (entry == NULL || !entry->is_present) {
        return ABSENT;
    }
    if (entry->length > capacity) {
        return LONGER;
    }
    copy_bytes(buffer, entry->value, entry->length);
    return entry->length;
}

void storage_write(const void *key, const void *value, u32 length) {
    refuse_above(value_limit(), length);
    set_value(find_to_write(key), value, length);
}

void storage_remove(const void *key) {
    find_to_write(key)->is_present = 0;
}

void storage_add(const void *key, u64 amount) {
    u64 sum = 0;
    if (rules_of_calls < 3) {
        end_call(UNKNOWN_CALL, "", 0);
    }
    struct entry *entry = find_to_write(key);
    if (entry->is_present && entry->length == sizeof sum) {
        memcpy(&sum, entry->value, sizeof sum);
    }
    sum += amount;
    set_value(entry, &sum, sizeof sum);
}

void return_output(const void *bytes, u32 length) {
    refuse_above(OUTPUT_LIMIT, length);
    end_call(RETURNED, bytes, length);
}

void revert(const void *bytes, u32 length) {
    refuse_above(OUTPUT_LIMIT, length);
    end_call(REVERTED, bytes, length);
}

void set_rules(u32 rules) {
    if (rules < 1 || rules > 3) {
        fprintf(stderr, "host.c: set_rules(%u): the rules are 1, 2 or 3\n", rules);
        exit(2);
    }
    rules_of_calls = rules;
}

void clear_storage(void) {
    entry_count = 0;
}

static void run(const u8 *input, u32 length) {
    if (setjmp(end_of_call) == 0) {
        is_running = 1;
        contract(input, length);
        end_call(RETURNED, "", 0);
    }
    is_running = 0;
}

struct result call_contract(const void *input, u32 length) {
    static struct entry entries_before[STORAGE_LIMIT];
    u32 count_before = entry_count;
    u8 *copy;
    if (length > INPUT_LIMIT) {
        fail_test("the input is too long");
    }
    copy = malloc(length);
    if (copy == NULL && length > 0) {
        fail_test("no memory is left for the input");
    }
    copy_bytes(copy, input, length);
    for (u32 at = 0; at < entry_count; at++) {
        entries[at].is_written = 0;
    }
    written_count = 0;
    memcpy(entries_before, entries, sizeof entries);
    run(copy, length);
    if (result_of_call.ending != RETURNED) {
        memcpy(entries, entries_before, sizeof entries);
        entry_count = count_before;
    }
    free(copy);
    return result_of_call;
}

static int has_ended(struct result result, enum ending ending, const void *output, u32 length) {
    differs = result.ending != ending || result.length != length || !are_same_bytes(result.output, output, length);
    came = result;
    wanted.ending = ending;
    wanted.length = length;
    copy_bytes(wanted.output, output, length < OUTPUT_LIMIT ? length : OUTPUT_LIMIT);
    return !differs;
}

int has_returned(struct result result, const void *output, u32 length) {
    return has_ended(result, RETURNED, output, length);
}

int has_returned_u64(struct result result, u64 number) {
    return has_returned(result, &number, sizeof number);
}

int has_reverted(struct result result, const char *text) {
    return has_ended(result, REVERTED, text, (u32)strlen(text));
}

/* The first byte in which two outputs differ. */
static u32 place_of_difference(const struct result *one, const struct result *other) {
    u32 place = 0;
    while (place < one->length && place < other->length && place < OUTPUT_LIMIT &&
           one->output[place] == other->output[place]) {
        place++;
    }
    return place;
}

static int is_printable(const u8 *bytes, u32 length) {
    for (u32 at = 0; at < length; at++) {
        if (bytes[at] < 0x20 || bytes[at] > 0x7e) {
            return 0;
        }
    }
    return length > 0;
}

static void print_number(const u8 *bytes, u32 length) {
    u64 number = 0;
    for (u32 at = length; at > 0; at--) {
        number = number << 8 | bytes[at - 1];
    }
    printf("  %llu", (unsigned long long)number);
}

/* In hex, and as a text or a number if it may be one; of a long output a piece around a place. */
static void print_output(const struct result *result, u32 place, int is_piece) {
    u32 held = result->length < OUTPUT_LIMIT ? result->length : OUTPUT_LIMIT;
    u32 start = is_piece && place > BYTES_BEFORE ? place - BYTES_BEFORE : 0;
    u32 end = is_piece && start + PIECE_BYTES < held ? start + PIECE_BYTES : held;
    const char *before = start > 0 ? ".." : "", *after = end < result->length ? ".." : "";
    printf("%s", before);
    for (u32 at = start; at < end; at++) {
        printf("%02x", result->output[at]);
    }
    printf("%s%s", result->length == 0 ? "-" : "", after);
    if (!is_piece && (held == 1 || held == 2 || held == 4 || held == 8)) {
        print_number(result->output, held);
    }
    if (is_printable(result->output + start, end - start)) {
        printf("  \"%s%.*s%s\"", before, (int)(end - start), (const char *)result->output + start, after);
    }
    if (is_piece) {
        printf("  (%u bytes)", result->length);
    }
}

static void print_difference(void) {
    static const char *const names[] = {"returned", "reverted", "unknown-call", "bad-length", "too-many-writes"};
    int is_piece = wanted.length > LONGEST_BYTES || came.length > LONGEST_BYTES;
    u32 place = wanted.ending == came.ending ? place_of_difference(&wanted, &came) : 0;
    printf("    wanted  %s  ", names[wanted.ending]);
    print_output(&wanted, place, is_piece);
    printf("\n    came    %s  ", names[came.ending]);
    print_output(&came, place, is_piece);
    printf("\n");
    if (is_piece && wanted.ending == came.ending) {
        printf("    they part at byte %u\n", place);
    }
}

void check_at(const char *file, int line, const char *name, int holds) {
    if (holds) {
        passed_count++;
    } else {
        failed_count++;
        printf("failed: %s:%d: %s\n", file, line, name);
        if (differs) {
            print_difference();
        }
    }
    differs = 0;
}

int report_checks(void) {
    printf("%u passed, %u failed\n", passed_count, failed_count);
    return failed_count > 0;
}
