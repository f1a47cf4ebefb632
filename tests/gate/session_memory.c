/*
 * Opens sessions, in which 100 frames run, some of them refused, while some allocations are refused; and closes them. Each has then
 * freed all that it took. The program is linked with --wrap for malloc, realloc and free, which are those of the library.
 *
 * usage: session_memory PROGRAM FRAME WRONG: a program's file, a frame that runs it, and one that is refused
 */
#include <stdbool.h>
#include <stdio.h>
#include <stdlib.h>

#include "rvstm.h"

enum { ROOM = 1 << 20, FRAMES = 100, WRONG_EACH = 7, MOST_BETWEEN = 40 };

void *__real_malloc(size_t size);
void *__real_realloc(void *block, size_t size);
void __real_free(void *block);
void *__wrap_malloc(size_t size);
void *__wrap_realloc(void *block, size_t size);
void __wrap_free(void *block);

static long blocks;         /* that are not freed */
static unsigned long asked; /* allocations so far */
static unsigned long every; /* of these one in so many is refused; 0 for none */

static bool is_refused(void)
{
    return every && ++asked % every == 0;
}

void *__wrap_malloc(size_t size)
{
    void *block = is_refused() ? NULL : __real_malloc(size);
    blocks += block != NULL;
    return block;
}

void *__wrap_realloc(void *block, size_t size)
{
    void *moved = is_refused() ? NULL : __real_realloc(block, size);
    blocks += moved != NULL && block == NULL;
    return moved;
}

void __wrap_free(void *block)
{
    blocks -= block != NULL;
    __real_free(block);
}

static size_t read_file(const char *path, uint8_t *bytes)
{
    FILE *file = fopen(path, "rb");
    if (!file) exit(2);
    size_t length = fread(bytes, 1, ROOM, file);
    fclose(file);
    return length;
}

int main(int count, char **words)
{
    static uint8_t program[ROOM], frame[ROOM], wrong[ROOM], answer[ROOM];
    unsigned statuses[RVSTM_FAILED + 1] = {0};
    if (count != 4) return 2;
    size_t program_length = read_file(words[1], program), frame_length = read_file(words[2], frame);
    size_t wrong_length = read_file(words[3], wrong);
    for (unsigned long refused = 0; refused <= MOST_BETWEEN; refused++) {
        long before = blocks;
        rvstm_session session = {0};
        every = refused;
        if (rvstm_open(&session) != RVSTM_DONE && blocks != before) return 1;
        every = 0;
        rvstm_open(&session);
        if (rvstm_program(&session, program, program_length) != RVSTM_DONE) return 1;
        every = refused;
        for (int at = 0; at < FRAMES; at++) {
            uint32_t status = at % WRONG_EACH ? rvstm_frame(&session, frame, frame_length) : rvstm_frame(&session, wrong, wrong_length);
            if (status > RVSTM_FAILED) return 1;
            statuses[status]++;
            if (status == RVSTM_DONE && rvstm_answer(&session, answer, sizeof answer) != RVSTM_DONE) return 1;
        }
        if (rvstm_close(&session) != RVSTM_DONE || blocks != before) {
            fprintf(stderr, "1 in %lu refused: %ld blocks are left\n", refused, blocks - before);
            return 1;
        }
    }
    printf("done %u, refused %u, failed %u\n", statuses[RVSTM_DONE], statuses[RVSTM_REFUSED], statuses[RVSTM_FAILED]);
    return 0;
}
