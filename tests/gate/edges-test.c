#include "host.h"
#include "numbers.h"

static u8 longest[INPUT_LIMIT + 1] = {0, 0, 0, 0, 0, 7, 7, 7, 7, 7, 7, 7, 7};

int main(int count, char **words) {
    u8 key[KEY_LENGTH] = {0};
    if (words[count - 1][0] == 's') {
        for (u32 length = 1; length <= 8; length++) {
            check("shown", has_reverted(call_contract(longest, 5 + length), ""));
        }
        return report_checks();
    }
    check("the longest input", call_contract(longest, INPUT_LIMIT).ending == BAD_LENGTH);
    if (words[count - 1][0] == 'l') {
        call_contract(longest, INPUT_LIMIT + 1);
    }
    check("no output", has_returned(call_contract(0, 0), 0, 0));
    check("no text", !has_reverted(call_contract(0, 0), ""));
    check("a call that reverts", has_reverted(call_contract("\1\0\0\0", 5), ""));
    write_u32(key, 1);
    check("its key", storage_read(key, key, 4) == ABSENT);
    check("256 keys", has_returned(call_contract("\0\1\0\0", 4), 0, 0));
    check("256 keys that are there", has_returned(call_contract("\0\1\0\0", 4), 0, 0));
    check("257 keys", call_contract("\1\1\0\0", 4).ending == TOO_MANY_WRITES);
    clear_storage();
    write_u32(key, 256);
    check("no key", storage_read(key, key, 4) == ABSENT);
    for (u32 number = 0; number < 1024; number++) {
        write_u32(key, number);
        storage_write(key, 0, 0);
    }
    storage_remove(key);
    storage_write(key, 0, 0);
    check("the last of 1,024 keys", storage_read(key, 0, 0) == 0);
    set_rules((u32)(words[count - 1][0] - '0'));
    report_checks();
    write_u32(key, 1024);
    storage_write(key, 0, 0);
    return 0;
}
