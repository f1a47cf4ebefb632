/*
 * Drives sessions of the library for rvstm-developers embedded: reads requests on standard input, and writes each answer.
 *
 * A request is a line `SESSION CALL NUMBER LENGTH LENGTH` with as many bytes behind it: the number of one of the sessions, the
 * letter of a call (see below), a number, and the lengths of what it is given. An answer is a line
 * `SESSION STATUS LINE NUMBER AREA NAME LENGTH` with as many bytes behind it: an area or name that is not there is `-`.
 */
#include <inttypes.h>
#include <stdio.h>
#include <stdlib.h>
#include <string.h>

#include "rvstm.h"

enum { SESSIONS = 4 };

/* Bytes and their number. */
typedef struct {
    uint8_t *bytes;
    size_t length;
} text;

static void *room(size_t length)
{
    void *bytes = malloc(length ? length : 1);
    if (!bytes) exit(2);
    return bytes;
}

/* Bytes of standard input, in a block of exactly their length, so that a read behind them is found. */
static text input(size_t length)
{
    text read = {room(length), length};
    if (fread(read.bytes, 1, length, stdin) != length) exit(2);
    return read;
}

/* Settings in text: `LIMIT GAS DIGEST BRIEF`. */
static uint32_t open_with(rvstm_session *session, text given)
{
    rvstm_settings settings;
    char words[64] = {0};
    int digest, brief;
    if (given.length >= sizeof words) exit(2);
    memcpy(words, given.bytes, given.length);
    if (sscanf(words, "%" SCNu64 " %" SCNu64 " %d %d", &settings.frame_limit, &settings.frame_gas, &digest, &brief) != 4) exit(2);
    settings.digest = digest;
    settings.brief = brief;
    return rvstm_open_with(session, &settings);
}

static uint32_t call(rvstm_session *session, char letter, uint64_t number, text first, text second)
{
    switch (letter) {
    case 'o': return rvstm_open(session);
    case 'w': return open_with(session, first);
    case 'p': return rvstm_program(session, first.bytes, first.length);
    case 'x': return rvstm_forget(session, first.bytes, first.length);
    case 'n': return rvstm_programs(session);
    case 'f': return rvstm_frame(session, first.bytes, first.length);
    case 't': return rvstm_try(session, first.bytes, first.length);
    case 'a': return rvstm_last(session);
    case 'g': return rvstm_get(session, first.bytes, first.length);
    case 'l': return rvstm_list(session, first.bytes, first.length, number);
    case 'd': return rvstm_dump(session);
    case 'b': return rvstm_begin(session, number, first.bytes, first.length, second.bytes, second.length);
    case 's': return rvstm_state(session);
    case 'c': return rvstm_close(session);
    }
    exit(2);
}

static const char *word(const uint8_t *bytes)
{
    return *bytes ? (const char *)bytes : "-";
}

static void answer(int place, rvstm_session *session, uint32_t status)
{
    rvstm_refusal_parts parts;
    size_t length = rvstm_answer_length(session);
    uint8_t *bytes = room(length), *short_bytes = room(length ? length - 1 : 0);
    uint32_t had = rvstm_refusal(session, &parts);
    uint32_t copied = rvstm_answer(session, bytes, length);
    int is_request = status == RVSTM_DONE || status == RVSTM_REFUSED || status == RVSTM_FAILED;
    if (length && rvstm_answer(session, short_bytes, length - 1) != RVSTM_SHORT_BUFFER) exit(3);
    if (copied != (had == RVSTM_CLOSED ? RVSTM_CLOSED : RVSTM_DONE)) exit(3);
    if (is_request && had != RVSTM_CLOSED && had != status) exit(3);
    printf("%d %u %zu %u %s %s %zu\n", place, status, parts.line, parts.number, word(parts.area), word(parts.name), length);
    fwrite(bytes, 1, length, stdout);
    free(bytes);
    free(short_bytes);
}

int main(void)
{
    static rvstm_session sessions[SESSIONS];
    size_t first_length, second_length;
    uint64_t number;
    int place;
    char letter;
    while (scanf("%d %c %" SCNu64 " %zu %zu", &place, &letter, &number, &first_length, &second_length) == 5) {
        getchar();
        text first = input(first_length), second = input(second_length);
        uint32_t status = call(&sessions[place], letter, number, first, second);
        free(first.bytes);
        free(second.bytes);
        answer(place, &sessions[place], status);
        fflush(stdout);
    }
    return 0;
}
