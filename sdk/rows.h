/* Keys of rows. The name of the table is in bytes 0 to 3, filled up with zeros; the row begins at byte 4. No hash is
   needed, and no two rows have one key: the rows of a table have 28 bytes each, or they have 1 to 27 bytes, with zeros after
   them and their length in byte 31. docs/contracts.md says why, and why no row has a key of table_key. */

#ifndef ROWS_H
#define ROWS_H

#include "numbers.h"

enum {
    FULL_ROW_LENGTH = 28, /* of each row of a full table */
    ROW_LIMIT = 27,       /* the most bytes of a row of any other table */
    ACCOUNT_LENGTH = 20
};

/* A key at a multiple of 4. */
struct key {
    u32 words[KEY_LENGTH / 4];
} __attribute__((may_alias));

/* Who somebody is: the first 20 bytes of the SHA-256 of a public key. It is at a multiple of 4. */
struct account {
    u32 words[ACCOUNT_LENGTH / 4];
} __attribute__((may_alias));

/* TABLE(acct) declares a table whose rows have 1 to 27 bytes, FULL_TABLE(lot) one whose rows have 28. The name has 1 to 4
   letters, A to Z and a to z. Declare a table once, in the file that uses it or in a header: a second declaration of a name
   does not compile, and so a table is one or the other. */
#define TABLE(table) ROW_TABLE(table, #table, 0)
#define FULL_TABLE(table) ROW_TABLE(table, #table, 1)

/* ROW_KEY(&key, table, part ..) makes the key of a row of one to four parts, one after another. A part is a variable or a
   place: a number of 8 to 64 bits, a struct account, an array of u8, or BYTES(at, count). The key costs at most 40 gas, if
   every part is at a multiple of 4 and all but the last have a length that is a multiple of 4. */
#define ROW_KEY(to, table, ...) ROW_CHOSEN(__VA_ARGS__, ROW_KEY_HAS_AT_MOST_4_PARTS, ROW_KEY_4, ROW_KEY_3, ROW_KEY_2, ROW_KEY_1, 0)(to, table, __VA_ARGS__)

/* As many bytes at any address, as a part of a row. The count is a constant. */
#define BYTES(at, count) (*(const u8(*)[count])(at))

/* ROW_KEY_OF(&key, table, at, length) makes the key of a row whose length is known only when the call runs. If it is not 1 to 27,
   the call reverts. */
#define ROW_KEY_OF(to, table, at, length) \
    row_key_of(to, row_name_of_##table() + ROW_CHECK(!row_is_full_##table, "a row of a full table has 28 bytes: use ROW_KEY"), at, length)

/* TEXT_KEY(table, "text") and NUMBER_KEY(table, number) begin a constant, as in static const struct key pot =
   TEXT_KEY(fee, "pot"); it costs nothing when the call runs. The row is the text, or the 8 bytes of the number. */
#define TEXT_KEY(table, text) ROW_TEXT_KEY(#table, text, !row_is_full_##table)
#define NUMBER_KEY(table, number) ROW_NUMBER_KEY(#table, (u64)(number), !row_is_full_##table)

static inline int is_same_account(const struct account *one, const struct account *other) {
    for (u32 at = 0; at < ACCOUNT_LENGTH / 4; at++) {
        if (one->words[at] != other->words[at]) {
            return 0;
        }
    }
    return 1;
}

/* Lends an account of the input. All that is before it in the input has to have a multiple of 4 bytes: otherwise the call
   ends as misaligned when the account is read. */
static inline const struct account *take_account(struct cursor *cursor) {
    return (const struct account *)take_bytes(cursor, ACCOUNT_LENGTH);
}

/* All below is what the macros above are made of. */

#define ROW_INLINE static inline __attribute__((always_inline, unused))
#define ROW_CHOSEN(one, two, three, four, five, chosen, ...) chosen

#ifdef __cplusplus
#define ROW_ASSERT static_assert
#define ROW_CHECK(holds, text) (0 * sizeof(char[(holds) ? 1 : -1]))
template <class Part> struct row_type {
    static constexpr bool has_no_padding = __has_unique_object_representations(Part);
};
template <class Part> struct row_type<Part &> : row_type<Part> {};
#define ROW_IS_PART(part) row_type<decltype((part))>::has_no_padding
#else
#define ROW_ASSERT _Static_assert
#define ROW_CHECK(holds, text) (0 * sizeof(struct { u8 checked; _Static_assert(holds, text); }))
#define ROW_IS(part, type) __builtin_types_compatible_p(__typeof__(part), type)
#define ROW_IS_PART(part) \
    (ROW_IS(part, u8) || ROW_IS(part, __UINT16_TYPE__) || ROW_IS(part, u32) || ROW_IS(part, u64) || ROW_IS(part, __INT8_TYPE__) || \
     ROW_IS(part, __INT16_TYPE__) || ROW_IS(part, __INT32_TYPE__) || ROW_IS(part, __INT64_TYPE__) || \
     ROW_IS(part, u8[sizeof(part)]) || ROW_IS(part, const u8[sizeof(part)]) || ROW_IS(part, struct account))
#endif

/* A letter of a name or a text, 0 after its end. */
#define ROW_LETTER(text, place) ((u32)(u8)(text)[(place) < sizeof(text) ? (place) : sizeof(text) - 1])
#define ROW_WORD(text, place) \
    (ROW_LETTER(text, place) | ROW_LETTER(text, (place) + 1) << 8 | ROW_LETTER(text, (place) + 2) << 16 | ROW_LETTER(text, (place) + 3) << 24)
#define ROW_IS_LETTER(text, place) \
    ((place) >= sizeof(text) - 1 || (ROW_LETTER(text, place) | 32u) - 'a' < 26u)

#ifdef __OPTIMIZE__
void name_of_table_is_wrong(void) __attribute__((error("the name of a table has 1 to 4 letters, A to Z and a to z")));
#define ROW_CHECK_NAME(name) \
    if (!(ROW_IS_LETTER(name, 0) && ROW_IS_LETTER(name, 1) && ROW_IS_LETTER(name, 2) && ROW_IS_LETTER(name, 3))) name_of_table_is_wrong()
#else
#define ROW_CHECK_NAME(name)
#endif

#define ROW_TABLE(table, name, is_full) \
    ROW_ASSERT(sizeof(name) <= 5, "the name of a table has 1 to 4 letters, A to Z and a to z"); \
    enum { row_is_full_##table = is_full }; \
    ROW_INLINE u32 row_name_of_##table(void) { \
        ROW_CHECK_NAME(name); \
        return ROW_WORD(name, 0); \
    } \
    ROW_ASSERT(row_is_full_##table == is_full, "")

#define ROW_TEXT_KEY(name, text, has_lengths) \
    {{ROW_WORD(name, 0), ROW_WORD(text, 0), ROW_WORD(text, 4), ROW_WORD(text, 8), ROW_WORD(text, 12), ROW_WORD(text, 16), \
      ROW_WORD(text, 20), \
      ROW_WORD(text, 24) | (u32)(sizeof(text) - 1 + ROW_CHECK(has_lengths && sizeof(text) - 2 < ROW_LIMIT, \
          "a constant row has 1 to 27 bytes, and TABLE declares its table")) << 24}}
#define ROW_NUMBER_KEY(name, number, has_lengths) \
    {{ROW_WORD(name, 0), (u32)(number), (u32)((number) >> 32), 0, 0, 0, 0, \
      (u32)(8 + ROW_CHECK(has_lengths, "a constant row has 1 to 27 bytes, and TABLE declares its table")) << 24}}

#define ROW_KEY_1(to, table, a) ROW_MADE(to, table, sizeof(a), ROW_PUT(a, 0))
#define ROW_KEY_2(to, table, a, b) ROW_MADE(to, table, sizeof(a) + sizeof(b), ROW_PUT(a, 0) ROW_PUT(b, sizeof(a)))
#define ROW_KEY_3(to, table, a, b, c) \
    ROW_MADE(to, table, sizeof(a) + sizeof(b) + sizeof(c), \
        ROW_PUT(a, 0) ROW_PUT(b, sizeof(a)) ROW_PUT(c, sizeof(a) + sizeof(b)))
#define ROW_KEY_4(to, table, a, b, c, d) \
    ROW_MADE(to, table, sizeof(a) + sizeof(b) + sizeof(c) + sizeof(d), \
        ROW_PUT(a, 0) ROW_PUT(b, sizeof(a)) ROW_PUT(c, sizeof(a) + sizeof(b)) ROW_PUT(d, sizeof(a) + sizeof(b) + sizeof(c)))

#define ROW_MADE(to, table, length, puts) do { \
    ROW_ASSERT(!row_is_full_##table || (length) == FULL_ROW_LENGTH, "a row of a full table has 28 bytes"); \
    ROW_ASSERT(row_is_full_##table || (length) - 1 < ROW_LIMIT, "a row has 1 to 27 bytes, or 28 in a full table"); \
    struct key *row_key_ = (to); \
    row_start(row_key_, row_name_of_##table(), row_is_full_##table, length); \
    puts \
} while (0)
#define ROW_PUT(part, place) { \
    enum { is_part = ROW_IS_PART(part) }; \
    ROW_ASSERT(is_part, "a part of a row is a number, a struct account, an array of u8, or BYTES(at, count)"); \
    row_put(row_key_, place, &(part), sizeof(part), __alignof__(part)); \
}

/* The functions below have no loops: their lengths are constants, and only one branch in each place is left. */

#define ROW_EACH(act) act(0) act(1) act(2) act(3) act(4) act(5) act(6)
#define ROW_CLEAR_WORD(n) if ((n) < 6 && (n) >= length / 4) key->words[1 + (n)] = 0;
#define ROW_PUT_4(n) \
    if (length > 4 * (n)) to[4 * (n)] = from[4 * (n)]; \
    if (length > 4 * (n) + 1) to[4 * (n) + 1] = from[4 * (n) + 1]; \
    if (length > 4 * (n) + 2) to[4 * (n) + 2] = from[4 * (n) + 2]; \
    if (length > 4 * (n) + 3) to[4 * (n) + 3] = from[4 * (n) + 3];

/* Puts what a key has beside the bytes of its row. */
ROW_INLINE void row_start(struct key *key, u32 name, int is_full, u32 length) {
    key->words[0] = name;
    if (!is_full) {
        ROW_EACH(ROW_CLEAR_WORD)
        key->words[7] = length << 24;
    }
}

/* Copies at most 28 bytes. */
ROW_INLINE void row_put_bytes(u8 *to, const u8 *from, u32 length) {
    ROW_EACH(ROW_PUT_4)
}

#ifdef __riscv

typedef u32 __attribute__((may_alias)) row_word;

#define ROW_PUT_WORD(n) if (count > (n)) to[n] = at[n];
#define ROW_PUT_SHIFTED(n) \
    if (count > (n)) { \
        u32 high = at[(n) + 1]; \
        to[n] = low >> right | high << left; \
        low = high; \
    }

/* Copies at most 7 words from any address to a multiple of 4. It reads the words that have a byte of the row, and a page has
   the same rights all over; so no read faults. */
ROW_INLINE void row_put_words(row_word *to, const u8 *from, u32 count) {
    const row_word *at = (const row_word *)((u32)from & ~3u);
    u32 right = 8 * ((u32)from & 3), left = (32 - right) & 31, low;
    if (right == 0) {
        ROW_EACH(ROW_PUT_WORD)
        return;
    }
    low = at[0];
    ROW_EACH(ROW_PUT_SHIFTED)
}

#endif

/* Puts a part into a row, at a place of the row. */
ROW_INLINE void row_put(struct key *key, u32 place, const void *part, u32 length, u32 alignment) {
    u8 *to = (u8 *)key + 4 + place;
    if (place % 4 == 0 && alignment >= 4) {
        __builtin_memcpy(__builtin_assume_aligned(to, 4), __builtin_assume_aligned(part, 4), length);
        return;
    }
#ifdef __riscv
    if (place % 4 == 0 && length >= 8) {
        row_put_words((row_word *)(void *)to, (const u8 *)part, length / 4);
        row_put_bytes(to + length / 4 * 4, (const u8 *)part + length / 4 * 4, length % 4);
        return;
    }
#endif
    row_put_bytes(to, (const u8 *)part, length);
}

static inline void row_key_of(struct key *key, u32 name, const void *row, u32 length) {
    const u8 *from = (const u8 *)row, *end = from + length;
    u8 *to = (u8 *)key + 4;
    if (length - 1 >= ROW_LIMIT) {
        REVERT("a row has 1 to 27 bytes");
    }
    row_start(key, name, 0, 0);
    key->words[7] = length << 24;
    for (; from != end; from++, to++) {
        *to = *from;
    }
}

#endif
