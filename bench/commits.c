/* Commits changes to a session's file by SQLite's own library: rvstm-developers chain --store has it beside rvstm.

   usage: commits FILE ROWS SYNCS

   FILE is one that rvstm chain --store made. ROWS is 1 where each commit also rewrites the rows of session and answer, else 0.
   SYNCS is 2 where one byte is written behind FILE-wal after each commit and synced, as rvstm does, else 1. A request on standard
   input is the letter `c`, the numbers of keys and of bytes of an answer, four bytes each as this machine has them, then keys of
   32 and values of 8 bytes in turn, and the answer; or the letter `l`, which reads all rows. It answers a line: the nanoseconds. */

#include <fcntl.h>
#include <sqlite3.h>
#include <stdint.h>
#include <stdio.h>
#include <stdlib.h>
#include <string.h>
#include <sys/stat.h>
#include <time.h>
#include <unistd.h>

enum { KEY_BYTES = 32, VALUE_BYTES = 8, CHANGE_BYTES = KEY_BYTES + VALUE_BYTES, DIGEST_BYTES = 32 };

static sqlite3 *file;

static void check(int is_right, const char *what) {
    if (!is_right) {
        fprintf(stderr, "commits: %s: %s\n", what, sqlite3_errmsg(file));
        exit(1);
    }
}

static sqlite3_stmt *prepared(const char *text) {
    sqlite3_stmt *statement;
    check(sqlite3_prepare_v3(file, text, -1, SQLITE_PREPARE_PERSISTENT, &statement, NULL) == SQLITE_OK, text);
    return statement;
}

static void done(sqlite3_stmt *statement) {
    while (sqlite3_step(statement) == SQLITE_ROW) {}
    check(sqlite3_reset(statement) == SQLITE_OK, sqlite3_sql(statement));
}

static void run(const char *text) {
    sqlite3_stmt *statement = prepared(text);
    done(statement);
    sqlite3_finalize(statement);
}

static uint64_t now(void) {
    struct timespec at;
    clock_gettime(CLOCK_MONOTONIC, &at);
    return at.tv_sec * UINT64_C(1000000000) + at.tv_nsec;
}

static sqlite3_stmt *begin, *change, *session, *answer, *commit;

static void prepare_all(void) {
    begin = prepared("begin immediate");
    change = prepared("insert into storage values (?1, ?2) on conflict (key) do update set value = excluded.value");
    session = prepared("update session set height = height + 1, digest = ?1");
    answer = prepared("insert into answer values (1, ?1, ?2) on conflict (id) do update set line = excluded.line, bytes = excluded.bytes");
    commit = prepared("commit");
}

static void keep_changes(const uint8_t *changes, uint32_t count) {
    for (const uint8_t *at = changes; at < changes + count * CHANGE_BYTES; at += CHANGE_BYTES) {
        sqlite3_bind_blob(change, 1, at, KEY_BYTES, SQLITE_STATIC);
        sqlite3_bind_blob(change, 2, at + KEY_BYTES, VALUE_BYTES, SQLITE_STATIC);
        done(change);
    }
}

static void keep_rows(const uint8_t *bytes, uint32_t length, const uint8_t *digest) {
    char line[32];
    sqlite3_bind_blob(session, 1, digest, DIGEST_BYTES, SQLITE_STATIC);
    done(session);
    sqlite3_bind_blob(answer, 1, line, snprintf(line, sizeof line, "ok %u\n", length), SQLITE_STATIC);
    sqlite3_bind_blob(answer, 2, bytes, length, SQLITE_STATIC);
    done(answer);
}

static void sync_once_more(int log) {
    struct stat found;
    check(fstat(log, &found) == 0 && pwrite(log, "\1", 1, found.st_size) == 1 && fdatasync(log) == 0, "the log");
}

static uint64_t commit_time(int has_rows, int log) {
    uint32_t counts[2];
    check(fread(counts, sizeof counts, 1, stdin) == 1, "a request is cut");
    size_t length = (size_t)counts[0] * CHANGE_BYTES + counts[1];
    uint8_t *body = malloc(length + 1), *bytes = body + (size_t)counts[0] * CHANGE_BYTES;
    check(body && fread(body, 1, length, stdin) == length, "a request is cut");
    uint64_t began = now();
    done(begin);
    keep_changes(body, counts[0]);
    if (has_rows) keep_rows(bytes, counts[1], body);
    done(commit);
    if (log >= 0) sync_once_more(log);
    uint64_t ended = now();
    free(body);
    return ended - began;
}

static uint64_t load_time(void) {
    static uint8_t kept[CHANGE_BYTES];
    uint64_t began = now();
    sqlite3_stmt *all = prepared("select key, value from storage");
    while (sqlite3_step(all) == SQLITE_ROW) {
        memcpy(kept, sqlite3_column_blob(all, 0), KEY_BYTES);
        memcpy(kept + KEY_BYTES, sqlite3_column_blob(all, 1), VALUE_BYTES);
    }
    sqlite3_finalize(all);
    return now() - began;
}

int main(int count, char **words) {
    check(count == 4 && sqlite3_open_v2(words[1], &file, SQLITE_OPEN_READWRITE, NULL) == SQLITE_OK, "usage: commits FILE ROWS SYNCS");
    run("pragma locking_mode = exclusive");
    run("pragma journal_mode = wal");
    run("pragma synchronous = full");
    prepare_all();
    char path[4096];
    snprintf(path, sizeof path, "%s-wal", words[1]);
    int log = -1;
    for (int word; (word = getchar()) != EOF;) {
        if (atoi(words[3]) == 2 && log < 0) log = open(path, O_RDWR | O_CREAT, 0644);
        printf("%llu\n", (unsigned long long)(word == 'l' ? load_time() : commit_time(atoi(words[2]), log)));
        fflush(stdout);
    }
    return 0;
}
