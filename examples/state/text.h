/*
 * Texts for the examples of this folder: lines of a block file, and lines of a result (docs/formats.md). It is C and C++. It reads
 * only block files that `rvstm` accepts.
 */
#ifndef TEXT_H
#define TEXT_H

#include <inttypes.h>
#include <stdbool.h>
#include <stdio.h>
#include <string.h>

#include "rvstm.h"

enum { LINE_ROOM = 1 << 14, INPUT_ROOM = 4096, MOST_PROGRAMS = 64, PROGRAM_ROOM = 131072 };

enum line_kind { PROGRAM_LINE, STORE_LINE, CALL_LINE, BAD_LINE, NO_LINE };

/* A line after the head. */
struct line {
    uint32_t program, gas;
    char path[LINE_ROOM];
    uint8_t key[32];
    uint8_t bytes[INPUT_ROOM]; /* a value or an input */
    size_t length;
};

/* The bytes of hex digits, or of `-`. */
static inline size_t from_hex(const char *text, uint8_t *bytes, size_t room)
{
    size_t length = 0;
    unsigned byte;
    for (; length < room && sscanf(text + 2 * length, "%2x", &byte) == 1; length++) bytes[length] = (uint8_t)byte;
    return length;
}

/* Reads the head, and returns the rules; 0 if there is no head. */
static inline uint32_t read_rules(FILE *file)
{
    unsigned format = 0, rules = 1;
    if (fscanf(file, "rvblock %u\n", &format) != 1 || format > 2) return 0;
    return format == 1 || fscanf(file, "gas %u\n", &rules) == 1 ? rules : 0;
}

static inline enum line_kind read_line(FILE *file, struct line *line)
{
    static char text[LINE_ROOM], key[LINE_ROOM], bytes[LINE_ROOM];
    if (!fgets(text, sizeof text, file)) return NO_LINE;
    if (sscanf(text, "program %" SCNu32 " %s", &line->program, line->path) == 2)
        return line->program < MOST_PROGRAMS ? PROGRAM_LINE : BAD_LINE;
    if (sscanf(text, "store %s %s", key, bytes) == 2) {
        from_hex(key, line->key, sizeof line->key);
        line->length = from_hex(bytes, line->bytes, sizeof line->bytes);
        return STORE_LINE;
    }
    if (sscanf(text, "call %" SCNu32 " %" SCNu32 " %s", &line->program, &line->gas, bytes) == 3) {
        line->length = from_hex(bytes, line->bytes, sizeof line->bytes);
        return line->program < MOST_PROGRAMS ? CALL_LINE : BAD_LINE;
    }
    return BAD_LINE;
}

static inline void print_bytes(const uint8_t *bytes, size_t length)
{
    if (!length) putchar('-');
    for (size_t at = 0; at < length; at++) printf("%02x", bytes[at]);
}

static inline void print_receipt(
    size_t call, uint32_t end, uint32_t gas, uint32_t pc, const uint32_t *registers, const uint8_t *output, size_t length)
{
    static const char *const ends[] = {"returned", "reverted", "out-of-gas", "illegal", "misaligned", "memory-fault", "fetch-fault",
                                       "breakpoint", "unknown-call", "bad-length", "too-many-writes"};
    printf("call %zu %s gas %" PRIu32 " pc %08" PRIx32 " out ", call, ends[end], gas, pc);
    print_bytes(output, length);
    printf("\nregs");
    for (int number = 0; number < 32; number++) printf(" %08" PRIx32, registers[number]);
    putchar('\n');
}

static inline void print_write(
    size_t call, const uint8_t *key, uint32_t kind, const uint8_t *value, size_t length, uint64_t amount)
{
    printf("write %zu ", call);
    print_bytes(key, 32);
    putchar(' ');
    if (kind == RVSTM_WRITE_GONE) printf("gone");
    else if (kind == RVSTM_WRITE_SUM) printf("add %" PRIu64, amount);
    else print_bytes(value, length);
    putchar('\n');
}

static inline void print_store(const uint8_t *key, const uint8_t *value, size_t length)
{
    printf("store ");
    print_bytes(key, 32);
    putchar(' ');
    print_bytes(value, length);
    putchar('\n');
}

#endif
