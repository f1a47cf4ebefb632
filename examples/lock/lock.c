/* Locks names until a time. The node writes the time, in seconds, at the key node.clock at the beginning of each frame.

   An input of a name and a time locks the name until then. An input of the name alone opens the lock once its time has come,
   and returns how many seconds ago that was. Locks are a table of their own, so that no name leads to the node's clock. */

#include "numbers.h"
#include "sha256.h"

static const u8 clock[KEY_LENGTH] = "node.clock";

static u64 now(void) {
    u64 seconds;
    if (storage_read(clock, &seconds, sizeof seconds) != sizeof seconds) {
        REVERT("the node wrote no time");
    }
    return seconds;
}

static void lock(const u8 *key, u64 until) {
    u64 before;
    if (storage_read(key, &before, sizeof before) != ABSENT) {
        REVERT("the name is locked");
    }
    if (until <= now()) {
        REVERT("the time is over");
    }
    storage_write(key, &until, sizeof until);
    return_output(0, 0);
}

static void open(const u8 *key) {
    u64 until, seconds = now();
    if (storage_read(key, &until, sizeof until) != sizeof until) {
        REVERT("the name has no lock");
    }
    if (seconds < until) {
        REVERT("the lock is closed");
    }
    storage_remove(key);
    u64 ago = seconds - until;
    return_output(&ago, sizeof ago);
}

void contract(const u8 *input, u32 length) {
    struct cursor cursor = cursor_over(input, length);
    u8 key[KEY_LENGTH];
    table_key("lock.until", take_key(&cursor), key);
    if (cursor.left == 0) {
        open(key);
    }
    u64 until = take_u64(&cursor);
    take_end(&cursor);
    lock(key, until);
}
