/*
 * A block over a database of SQLite. It puts the `store` lines of a block file into the database, runs its calls over that, and puts
 * there what the block changes, all in one transaction. It prints what `rvstm seq` prints over the keys that the calls ask for.
 *
 * usage: state-sqlite DATABASE < BLOCK
 *
 * The paths of programs start from the folder in which it runs.
 */
#include <sqlite3.h>
#include <stdlib.h>

#include "text.h"

static sqlite3 *database;
static sqlite3_stmt *get, *put, *delete;

/* The keys that the calls asked for or changed: those that are printed. */
static rvstm_key *touched;
static size_t touched_count;

/* Without a commit the database is as it was. */
static void stop(const char *reason)
{
    fprintf(stderr, "state-sqlite: %s\n", reason);
    exit(1);
}

/* ---- the database */

static void check(int code)
{
    if (code != SQLITE_OK) stop(sqlite3_errmsg(database));
}

static void open_database(const char *path)
{
    check(sqlite3_open(path, &database));
    check(sqlite3_exec(database, "CREATE TABLE IF NOT EXISTS state (key BLOB PRIMARY KEY, value BLOB) WITHOUT ROWID", NULL, NULL, NULL));
    check(sqlite3_prepare_v2(database, "SELECT value FROM state WHERE key = ?", -1, &get, NULL));
    check(sqlite3_prepare_v2(database, "INSERT OR REPLACE INTO state VALUES (?, ?)", -1, &put, NULL));
    check(sqlite3_prepare_v2(database, "DELETE FROM state WHERE key = ?", -1, &delete, NULL));
}

static void close_database(void)
{
    sqlite3_finalize(get);
    sqlite3_finalize(put);
    sqlite3_finalize(delete);
    check(sqlite3_close(database));
}

/* Looks a key up. Returns whether it has a value, which stays until forget() is called. */
static bool look_up(const rvstm_key *key, const uint8_t **value, size_t *length)
{
    static const uint8_t nothing[1];
    check(sqlite3_bind_blob(get, 1, key->bytes, sizeof key->bytes, SQLITE_STATIC));
    bool present = sqlite3_step(get) == SQLITE_ROW;
    const void *found = present ? sqlite3_column_blob(get, 0) : NULL;
    *value = found ? found : nothing; /* SQLite has NULL for no bytes */
    *length = present ? (size_t)sqlite3_column_bytes(get, 0) : 0;
    return present;
}

static void forget(void)
{
    check(sqlite3_reset(get));
}

static void store(const uint8_t key[32], bool present, const uint8_t *value, size_t length)
{
    sqlite3_stmt *change = present ? put : delete;
    check(sqlite3_bind_blob(change, 1, key, 32, SQLITE_STATIC));
    if (present) check(sqlite3_bind_blob(change, 2, value, (int)length, SQLITE_STATIC));
    if (sqlite3_step(change) != SQLITE_DONE) stop(sqlite3_errmsg(database));
    check(sqlite3_reset(change));
}

/* ---- the block */

static void open_image(rvstm_image *image, const char *path)
{
    static uint8_t bytes[PROGRAM_ROOM + 1]; /* one byte more than a program has */
    rvstm_refusal_parts parts;
    FILE *file = fopen(path, "rb");
    if (!file) stop("a program can't be read");
    size_t length = fread(bytes, 1, sizeof bytes, file);
    fclose(file);
    uint32_t status = rvstm_image_open(image, bytes, length, &parts);
    if (status == RVSTM_REFUSED) stop((const char *)parts.name);
    if (status != RVSTM_DONE) stop("no program, or no memory for it");
}

/* Puts the storage of a block file into the database, and its calls into a block. */
static void add_lines(FILE *file, rvstm_block *block, rvstm_image images[MOST_PROGRAMS])
{
    static struct line line;
    enum line_kind kind;
    while ((kind = read_line(file, &line)) != NO_LINE) {
        if (kind == BAD_LINE) stop("no line of a block file");
        if (kind == PROGRAM_LINE) open_image(&images[line.program], line.path);
        if (kind == STORE_LINE) store(line.key, true, line.bytes, line.length);
        if (kind == CALL_LINE && rvstm_calls_add(block, &images[line.program], line.gas, line.bytes, line.length) != RVSTM_DONE)
            stop("a call is not added");
    }
}

static void touch(const uint8_t key[32])
{
    if (touched_count % 1024 == 0) touched = realloc(touched, (touched_count + 1024) * sizeof *touched);
    if (!touched) stop("no memory");
    memcpy(touched[touched_count++].bytes, key, 32);
}

/* Runs the calls. A program that has other work could free memory after RVSTM_PAUSED, and go on. */
static void run(rvstm_block *block)
{
    rvstm_key key;
    uint32_t status;
    while ((status = rvstm_run_go(block, &key)) == RVSTM_KEY) {
        const uint8_t *value;
        size_t length;
        bool present = look_up(&key, &value, &length);
        if (rvstm_run_base(block, present, value, length) != RVSTM_DONE) stop("a value has more than 256 bytes, or no memory");
        forget();
        touch(key.bytes);
    }
    if (status != RVSTM_ENDED) stop("no memory");
}

static void store_changes(rvstm_block *block)
{
    rvstm_change change;
    for (size_t index = 0; rvstm_result_change(block, index, &change) == RVSTM_DONE; index++) {
        store(change.key, change.present, change.value, change.length);
        touch(change.key);
    }
}

/* ---- the result in text */

static void print_receipts(rvstm_block *block)
{
    rvstm_receipt receipt;
    rvstm_write write;
    uint8_t output[256];
    for (size_t call = 0; rvstm_result_receipt(block, call, &receipt) == RVSTM_DONE; call++) {
        rvstm_result_output(block, call, output, sizeof output);
        print_receipt(call, receipt.end, receipt.gas, receipt.pc, receipt.registers, output, receipt.output_length);
        for (size_t index = 0; rvstm_result_write(block, call, index, &write) == RVSTM_DONE; index++)
            print_write(call, write.key, write.kind, write.value, write.length, write.amount);
    }
}

static int by_bytes(const void *one, const void *other)
{
    return memcmp(one, other, sizeof(rvstm_key));
}

/* Prints what the database now has at each key that was touched. */
static void print_storage(void)
{
    if (touched_count) qsort(touched, touched_count, sizeof *touched, by_bytes);
    for (size_t at = 0; at < touched_count; at++) {
        const uint8_t *value;
        size_t length;
        if (at && !by_bytes(&touched[at - 1], &touched[at])) continue;
        if (look_up(&touched[at], &value, &length)) print_store(touched[at].bytes, value, length);
        forget();
    }
    printf("end\n");
}

int main(int count, char **words)
{
    static rvstm_image images[MOST_PROGRAMS]; /* static, so that all bytes are zero */
    rvstm_block block = {0};
    if (count != 2) stop("usage: state-sqlite DATABASE < BLOCK");
    if (rvstm_version() != RVSTM_VERSION) stop("the library has another version than its header");
    open_database(words[1]);
    if (rvstm_block_open(&block, read_rules(stdin)) != RVSTM_DONE) stop("no head of a block file, or no memory");

    check(sqlite3_exec(database, "BEGIN IMMEDIATE", NULL, NULL, NULL)); /* so that all answers are of one storage */
    add_lines(stdin, &block, images);
    run(&block);
    store_changes(&block);
    check(sqlite3_exec(database, "COMMIT", NULL, NULL, NULL));

    print_receipts(&block);
    print_storage();
    rvstm_block_close(&block);
    for (int number = 0; number < MOST_PROGRAMS; number++) rvstm_image_close(&images[number]);
    close_database();
    free(touched);
    return 0;
}
