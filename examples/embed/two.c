/*
 * Two copies of the library in one program, such as for two parts that have one each. The sessions of one copy are not in the other.
 * The names of the first copy begin with rvstm_, the names of the second with second_.
 *
 * usage: two PROGRAM, the file of a program
 */
#include <stdio.h>

#include "rvstm.h"

uint32_t second_open(rvstm_session *session);
uint32_t second_program(rvstm_session *session, const uint8_t *file, size_t file_length);
uint32_t second_programs(rvstm_session *session);
size_t second_answer_length(rvstm_session *session);
uint32_t second_close(rvstm_session *session);

enum { MOST = 131072, NAME_LINE = 65 };

int main(int count, char **words)
{
    static uint8_t file[MOST];
    rvstm_session one = {0}, other = {0};
    FILE *stream = count == 2 ? fopen(words[1], "rb") : NULL;
    if (!stream) return 2;
    size_t length = fread(file, 1, sizeof file, stream);
    fclose(stream);
    if (rvstm_open(&one) != RVSTM_DONE || second_open(&other) != RVSTM_DONE) return 1;
    if (rvstm_program(&one, file, length) != RVSTM_DONE) return 1;
    if (second_programs(&other) != RVSTM_DONE || second_answer_length(&other) != 0) return 1;
    if (second_program(&other, file, length) != RVSTM_DONE || rvstm_close(&one) != RVSTM_DONE) return 1;
    if (second_programs(&other) != RVSTM_DONE || second_answer_length(&other) != NAME_LINE) return 1;
    return second_close(&other) == RVSTM_DONE ? 0 : 1;
}
