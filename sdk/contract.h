/** @file
 * What a contract in C or C++ needs: the storage calls and the limits. */

#ifndef CONTRACT_H
#define CONTRACT_H

/* Of C's headers this one and those that need no library, stdint.h, stddef.h, stdbool.h and limits.h, may be included. */
#include <string.h>

#ifdef __cplusplus
extern "C" {
#endif

/* The same types as uint8_t, uint32_t, uint64_t and size_t. */
typedef __UINT8_TYPE__ u8;
typedef __UINT32_TYPE__ u32;
typedef __UINT64_TYPE__ u64;
typedef __SIZE_TYPE__ usize;

enum {
    KEY_LENGTH = 32,        /* of every key */
    VALUE_LIMIT = 64,       /* the most bytes of a value under rules one */
    LONG_VALUE_LIMIT = 256, /* the most bytes of a value under rules two and three */
    OUTPUT_LIMIT = 256,     /* the most bytes of an output */
    INPUT_LIMIT = 4096,     /* the most bytes of an input */
    KEYS_LIMIT = 256        /* the most keys that one call writes, removes or adds to */
};

/* What storage_read answers in place of a length. */
#define ABSENT 0xffffffffu
#define LONGER 0xfffffffeu

#define DOES_NOT_RETURN __attribute__((noreturn))

#ifdef __riscv
#define STORAGE_CALL static inline
#else
#define STORAGE_CALL /* sdk/host.c has the bodies */
#endif

/** What a call runs; each contract defines it. If it comes back, the call returns with an empty output. The input is at a
 * multiple of 4, and has at most INPUT_LIMIT bytes. */
void contract(const u8 *input, u32 length);

/* A key has KEY_LENGTH bytes at any address. A range of length 0 may be anywhere. Each call below also ends as `out-of-gas`
   if less gas is left than it costs. */

/** Copies the value at a key into a buffer, which has to be writable over its whole capacity: at most VALUE_LIMIT under rules
 * one, LONG_VALUE_LIMIT under rules two and three.
 * @return the value's length; ABSENT if there is none; LONGER if it is longer than the capacity, and then nothing is copied
 * @par Gas
 * 200 + copied bytes; under rules one 200
 * @par Ends
 * `bad-length` if the capacity is too large, `out-of-gas`, `memory-fault` if a range has no rights */
STORAGE_CALL u32 storage_read(const void *key, void *buffer, u32 capacity);

/** Gives a key a value of at most VALUE_LIMIT bytes under rules one, LONG_VALUE_LIMIT under rules two and three. An empty value
 * is not absence.
 * @par Gas
 * 400 + 4 * length
 * @par Ends
 * `bad-length` if the value is too long, `out-of-gas`, `memory-fault` if a range has no rights, `too-many-writes` if the call
 * changed KEYS_LIMIT other keys */
STORAGE_CALL void storage_write(const void *key, const void *value, u32 length);

/** Removes a key, which may be absent.
 * @par Gas
 * 300
 * @par Ends
 * `out-of-gas`, `memory-fault` if the key has no rights, `too-many-writes` if the call changed KEYS_LIMIT other keys */
STORAGE_CALL void storage_remove(const void *key);

/** Adds an amount to the number at a key, without reading it: calls that only add to a key do not conflict. The number is a
 * value of 8 bytes, the lowest first; an absent key, and a value of another length, count as 0. The sum wraps at 2^64.
 * @par Gas
 * 300
 * @par Ends
 * `unknown-call` under rules one and two, `out-of-gas`, `memory-fault` if the key has no rights, `too-many-writes` if the call
 * changed KEYS_LIMIT other keys */
STORAGE_CALL void storage_add(const void *key, u64 amount);

/** Ends the call: its writes are kept, its output is these bytes, at most OUTPUT_LIMIT.
 * @par Gas
 * 10 + length
 * @par Ends
 * `bad-length` if the output is too long, `out-of-gas`, `memory-fault` if it has no rights */
STORAGE_CALL void return_output(const void *bytes, u32 length) DOES_NOT_RETURN;

/** Ends the call: its writes are dropped, its output is these bytes, at most OUTPUT_LIMIT.
 * @par Gas
 * 10 + length
 * @par Ends
 * `bad-length` if the output is too long, `out-of-gas`, `memory-fault` if it has no rights */
STORAGE_CALL void revert(const void *bytes, u32 length) DOES_NOT_RETURN;

/** Reverts with a literal text as the output. */
#define REVERT(text) revert(text, sizeof(text) - 1)

#ifdef __riscv

static inline u32 call_storage(u32 number, const void *key, u32 second, u32 third) {
    register u32 a0 __asm__("a0") = (u32)key;
    register u32 a1 __asm__("a1") = second;
    register u32 a2 __asm__("a2") = third;
    register u32 a7 __asm__("a7") = number;
    __asm__ volatile("ecall" : "+r"(a0) : "r"(a1), "r"(a2), "r"(a7) : "memory");
    return a0;
}

DOES_NOT_RETURN static inline void end_call(u32 number, const void *bytes, u32 length) {
    register u32 a0 __asm__("a0") = (u32)bytes;
    register u32 a1 __asm__("a1") = length;
    register u32 a7 __asm__("a7") = number;
    __asm__ volatile("ecall" : : "r"(a0), "r"(a1), "r"(a7) : "memory");
    __builtin_unreachable();
}

static inline u32 storage_read(const void *key, void *buffer, u32 capacity) {
    return call_storage(0, key, (u32)buffer, capacity);
}

static inline void storage_write(const void *key, const void *value, u32 length) {
    call_storage(1, key, (u32)value, length);
}

static inline void storage_remove(const void *key) {
    call_storage(2, key, 0, 0);
}

static inline void storage_add(const void *key, u64 amount) {
    call_storage(5, key, (u32)amount, (u32)(amount >> 32));
}

static inline void return_output(const void *bytes, u32 length) {
    end_call(3, bytes, length);
}

static inline void revert(const void *bytes, u32 length) {
    end_call(4, bytes, length);
}

#endif

#ifdef __cplusplus
}
#endif

#endif
