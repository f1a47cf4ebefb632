/*
 * A session in a C program: runs a block of examples/token, and compares with `rvstm seq`; is refused another one; and reads a key
 * and the session's counts.
 *
 * usage: embed RVSTM
 *
 * RVSTM is the built program. Started in examples/token. embed.expect has what it prints.
 */
#include <inttypes.h>
#include <stdio.h>
#include <stdlib.h>
#include <string.h>

#include "rvstm.h"

/* Bytes, a zero after them, and their number without it. */
typedef struct {
    uint8_t *bytes;
    size_t length;
} text;

static void stop(const char *reason)
{
    fprintf(stderr, "embed: %s\n", reason);
    exit(1);
}

static text text_of(size_t length)
{
    text room = {calloc(length + 1, 1), length};
    if (!room.bytes) stop("no memory");
    return room;
}

/* All that a stream has. */
static text read_all(FILE *stream)
{
    text all = text_of(0);
    int byte;
    if (!stream) stop("a file can't be read");
    while ((byte = getc(stream)) != EOF) {
        uint8_t *longer = realloc(all.bytes, all.length + 2);
        if (!longer) stop("no memory");
        all.bytes = longer;
        all.bytes[all.length++] = (uint8_t)byte;
        all.bytes[all.length] = 0;
    }
    return all;
}

static text read_file(const char *path)
{
    FILE *file = fopen(path, "rb");
    text all = read_all(file);
    fclose(file);
    return all;
}

/* The answer to the last request. It is an error if that is not done. */
static text answer(rvstm_session *session, uint32_t status)
{
    if (status != RVSTM_DONE) stop("a request is not done");
    text copy = text_of(rvstm_answer_length(session));
    if (rvstm_answer(session, copy.bytes, copy.length) != RVSTM_DONE) stop("no answer");
    return copy;
}

/* Prints why the last request is refused. It is an error if it is not. */
static void print_refusal(rvstm_session *session, uint32_t status)
{
    rvstm_refusal_parts parts;
    if (status != RVSTM_REFUSED || rvstm_refusal(session, &parts) != RVSTM_REFUSED) stop("a request is not refused");
    printf("refused %s %s %" PRIu32 "\n", (char *)parts.area, (char *)parts.name, parts.number);
}

static void print(text answer)
{
    fwrite(answer.bytes, 1, answer.length, stdout);
}

/* A block with a program's name in the place of its path. */
static text named(text block, const char *path, text name)
{
    char *place = strstr((char *)block.bytes, path);
    if (!place) stop("the block has no such program");
    size_t before = (size_t)(place - (char *)block.bytes), after = block.length - before - strlen(path);
    text whole = text_of(before + name.length + after);
    memcpy(whole.bytes, block.bytes, before);
    memcpy(whole.bytes + before, name.bytes, name.length);
    memcpy(whole.bytes + before + name.length, place + strlen(path), after);
    return whole;
}

/* What follows the first two lines. */
static text after_head(text dump)
{
    char *first = strchr((char *)dump.bytes, '\n'), *second = first ? strchr(first + 1, '\n') : NULL;
    if (!second) stop("a dump without its head");
    size_t head = (size_t)(second + 1 - (char *)dump.bytes);
    return (text){dump.bytes + head, dump.length - head};
}

/* The result of `seq` has the storage before its line `end`. */
static void compare(const char *rvstm, text frame, text store)
{
    char command[4096];
    snprintf(command, sizeof command, "'%s' seq token.block", rvstm);
    text in_order = read_all(popen(command, "r"));
    frame.length -= strlen("end\n");
    if (in_order.length != frame.length + store.length + strlen("end\n") || memcmp(in_order.bytes, frame.bytes, frame.length)
        || memcmp(in_order.bytes + frame.length, store.bytes, store.length))
        stop("the session and seq differ");
    printf("%zu bytes, as seq\n", in_order.length);
}

int main(int count, char **words)
{
    static const char path[] = "token.elf", key[] = "61636374616c6963650000000000000000000000000000000000000000000014";
    rvstm_session session = {0};
    if (count != 2) stop("usage: embed RVSTM");
    if (rvstm_version() != RVSTM_VERSION) stop("the library has another version than its header");
    if (rvstm_open(&session) != RVSTM_DONE) stop("no memory");

    text program = read_file(path), block = read_file("token.block");
    text name = answer(&session, rvstm_program(&session, program.bytes, program.length));
    name.length -= strlen("\n");
    text frame = named(block, path, name);
    frame = answer(&session, rvstm_frame(&session, frame.bytes, frame.length));
    compare(words[1], frame, after_head(answer(&session, rvstm_dump(&session))));

    /* This block has a path, and no name, and a session opens no file. */
    print_refusal(&session, rvstm_frame(&session, block.bytes, block.length));
    print(answer(&session, rvstm_get(&session, (const uint8_t *)key, strlen(key))));
    print(answer(&session, rvstm_state(&session)));
    return rvstm_close(&session) == RVSTM_DONE ? 0 : 1;
}
