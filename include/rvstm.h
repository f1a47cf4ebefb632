/**
 * @file
 * Two ways to run blocks of calls inside a program.
 *
 *  - **Sessions** (rvstm_session): block after block, in order, over a storage that the library keeps in memory, as `rvstm chain`
 *    runs them. Requests and answers are texts: docs/formats.md (Sessions) says what each request does, and the bytes of its answer.
 *  - **Blocks over the caller's own storage** (rvstm_image, rvstm_block): the caller adds calls, and looks up each key that a call
 *    asks for. The result is structs: what each call did, and what the block changes.
 *
 * docs/embedding.md has examples, and says how to link. Below, a handle is an rvstm_session, an rvstm_image or an rvstm_block.
 *
 * Nothing checks these duties of a caller:
 *
 *  1. All bytes of a handle are zero before it is opened, as `rvstm_session session = {0};` makes them. From then on only
 *     these functions read or change it. It may be moved; do not use its old place after that.
 *  2. Close a handle that was opened once. Otherwise its memory is not freed.
 *  3. A handle is used by one thread at a time, and never from a signal handler. Another thread may use it later, if a lock, or
 *     the start or the join of a thread, comes between. Handles are independent: two threads may use two. A block keeps what it
 *     needs of an image, so the image may be used or closed while the block runs.
 *  4. A pointer is not NULL, even if its length is 0, and points to as many bytes as the length says. No other thread changes
 *     them during the call. A buffer that a call writes to overlaps none of its other arguments.
 *  5. malloc, realloc and free are those of one C library. They align a block to each power of two up to 16 that divides its
 *     size.
 *
 * The library keeps no pointer of the caller: it copies or reads all bytes during the call. It has no global state, starts no
 * thread, opens no file, and prints nothing.
 */
#ifndef RVSTM_H
#define RVSTM_H

#include <stdbool.h>
#include <stddef.h>
#include <stdint.h>

#ifdef __cplusplus
extern "C" {
#endif

/**
 * The version of this header: major * 1,000,000 + minor * 1,000 + patch. This one is of 0.2.0. rvstm_version() has that of the
 * library. While the major number is 0, compile a program again if the minor number changes.
 */
#define RVSTM_VERSION 2000

/** A session, which owns its storage, its programs and its last answer. */
typedef struct {
    void *at;  /**< the library's own */
    bool full; /**< the library's own */
} rvstm_session;

/** What a call returns. */
enum rvstm_status {
    RVSTM_DONE = 0,            /**< the call is done */
    RVSTM_REFUSED = 1,         /**< the request is refused, on each machine that gets the same requests; the parts say why */
    RVSTM_CLOSED = 2,          /**< a handle was not opened, or is closed; nothing was done */
    RVSTM_ALREADY_OPEN = 3,    /**< the handle is open; nothing was done */
    RVSTM_FAILED = 4,          /**< this machine ran out of memory for the request; nothing changed, and you may send it again */
    RVSTM_NO_MEMORY = 5,       /**< memory for the handle ran out, and it is not open */
    RVSTM_SHORT_BUFFER = 6,    /**< the buffer is shorter than the bytes; nothing was copied */
    RVSTM_BAD_SETTINGS = 7,    /**< a number of the settings is too great; nothing was opened */
    RVSTM_KEY = 8,             /**< a call asks for a key: look it up, and answer with rvstm_run_base() */
    RVSTM_ENDED = 9,           /**< all calls of the block have ended, and its result can be read */
    RVSTM_PAUSED = 10,         /**< this machine ran out of memory in mid-run; nothing is lost: call rvstm_run_go() again */
    RVSTM_WRONG_STAGE = 11,    /**< the block is not at the stage of this call; nothing was done */
    RVSTM_BAD_RULES = 12,      /**< the rules are not 1, 2 or 3; nothing was opened */
    RVSTM_TOO_MANY_CALLS = 13, /**< the block has 1,024 calls; nothing was done */
    RVSTM_BAD_GAS = 14,        /**< the gas limit is not 1 to 10,000,000; nothing was done */
    RVSTM_LONG_INPUT = 15,     /**< the input has more than 4,096 bytes; nothing was done */
    RVSTM_NOT_ASKED = 16,      /**< no key is asked for; nothing was done */
    RVSTM_LONG_VALUE = 17,     /**< the value has more than 256 bytes; nothing was done */
    RVSTM_NO_ENTRY = 18        /**< there is no entry of this index; nothing was copied */
};

/** The gas of a frame has no bound. */
#define RVSTM_NO_LIMIT UINT64_MAX

/** The settings of a session. Sessions of equal settings give equal answers to equal requests, unless one answers RVSTM_FAILED. */
typedef struct {
    uint64_t frame_limit; /**< the greatest length of a frame, in bytes: 0 to 9,999,999,999 */
    uint64_t frame_gas;   /**< the greatest sum of the gas limits of a frame's calls: 0 to 9,999,999,999, or RVSTM_NO_LIMIT */
    bool digest;          /**< a digest of the answers is kept */
    bool brief;           /**< receipts have no `regs` lines */
} rvstm_settings;

/**
 * The parts of a refusal or a failure. The texts end with zeros, and are those of docs/messages.md. All are zero if a request is
 * done.
 */
typedef struct {
    size_t line;      /**< the number of the block's line, from 1; 0 if there is none */
    uint32_t number;  /**< the number within the area, 1 to 16 */
    uint8_t area[8];  /**< block, elf, file, frame or request; of a failure block, elf, seq or output */
    uint8_t name[24]; /**< the name of the refusal or failure */
} rvstm_refusal_parts;

/**
 * Returns the library's version, in the form of #RVSTM_VERSION. Takes no memory.
 * @return the version, which a program may compare with the header's
 */
uint32_t rvstm_version(void);

/**
 * Opens a session over an empty storage, with frames of at most 64 MiB, gas without a bound, no digest, and receipts with their
 * registers. The caller owns the session, and ends it with rvstm_close(). Takes memory for an empty session.
 * @param session  one whose bytes are zero, or that was closed
 * @retval RVSTM_DONE          it is open, with an answer without bytes
 * @retval RVSTM_ALREADY_OPEN  it was open before
 * @retval RVSTM_NO_MEMORY     it is not open
 */
uint32_t rvstm_open(rvstm_session *session);

/**
 * Opens a session with settings, as rvstm_open() does. Takes the memory of rvstm_open().
 * @param session   one whose bytes are zero, or that was closed
 * @param settings  are copied
 * @retval RVSTM_DONE          it is open, with an answer without bytes
 * @retval RVSTM_ALREADY_OPEN  it was open before; the settings are not read
 * @retval RVSTM_BAD_SETTINGS  it is not open
 * @retval RVSTM_NO_MEMORY     it is not open
 */
uint32_t rvstm_open_with(rvstm_session *session, const rvstm_settings *settings);

/**
 * @name Requests
 * A request returns one of these:
 *
 *  - RVSTM_DONE: rvstm_answer() has the bytes of the answer.
 *  - RVSTM_REFUSED or RVSTM_FAILED: the answer has no bytes, and rvstm_refusal() has the parts. Each call below lists area and
 *    name. Storage, rules and programs are as they were.
 *  - RVSTM_CLOSED.
 *
 * An argument that no request line could have is refused as `request BadLine 1` and does nothing: a name or a key that is not 64
 * lower-case hex digits, a count of 0 or above 1,024, a height or a length above 9,999,999,999. The session continues.
 */
/**@{*/

/**
 * Gives the session a program. The answer is its name, the SHA-256 of the file in 64 hex digits, and a line feed. If the session
 * has it already, the answer is the same, and nothing changes. Takes memory for the pages of 4,096 bytes that the segments fill,
 * and time in proportion to the length of the file.
 * @param session      an open one
 * @param file         the bytes of the program's file
 * @param file_length  their number
 * @retval RVSTM_DONE     the session has the program
 * @retval RVSTM_REFUSED  the file has more than 131,072 bytes (file TooLong) or is no program (elf); or for its length
 * @retval RVSTM_FAILED   elf Memory, output Memory
 * @retval RVSTM_CLOSED   the session is not open
 */
uint32_t rvstm_program(rvstm_session *session, const uint8_t *file, size_t file_length);

/**
 * Removes a program, and frees its memory. The answer has no bytes. Takes no memory.
 * @param session      an open one
 * @param name         the program's name, without a line feed
 * @param name_length  64
 * @retval RVSTM_DONE     the program is removed
 * @retval RVSTM_REFUSED  the session has no program of that name (frame NoProgram); or for the form of the name
 * @retval RVSTM_CLOSED   the session is not open
 */
uint32_t rvstm_forget(rvstm_session *session, const uint8_t *name, size_t name_length);

/**
 * Lists the names of the programs, ascending, one on each line. Takes 65 bytes of memory for each program.
 * @param session  an open one
 * @retval RVSTM_DONE    the answer has the names
 * @retval RVSTM_FAILED  output Memory
 * @retval RVSTM_CLOSED  the session is not open
 */
uint32_t rvstm_programs(rvstm_session *session);

/**
 * Runs a frame: a block file in which a program's path is its name. Its `store` lines are put over the storage, and its calls run
 * over that. The answer has the lines of the calls and `end`. A frame that is done or refused counts: the height goes up, and
 * rvstm_last() returns its answer. Two refusals do not count: for the height, and as `request BadLine 1`. Takes memory for the
 * block, for what its calls leave, and for the answer. Takes time in proportion to the length of the block and to the gas limits of
 * its calls at most; it grows little with the storage.
 * @param session       an open one
 * @param block         the bytes of the block file
 * @param block_length  their number
 * @retval RVSTM_DONE     the storage is what the calls left
 * @retval RVSTM_REFUSED  by the first of: the height (frame TooHigh), the length (frame TooLong), the text (block), the gas of its
 *                        calls (frame TooMuchGas), its rules (frame OlderRules), its programs (frame NoProgram)
 * @retval RVSTM_FAILED   block Memory, elf Memory, seq Memory, output Memory
 * @retval RVSTM_CLOSED   the session is not open
 */
uint32_t rvstm_frame(rvstm_session *session, const uint8_t *block, size_t block_length);

/**
 * Answers as rvstm_frame() would, and keeps nothing: no entry, no rules, no height, no digest. Takes the memory and the time of
 * rvstm_frame().
 * @param session       an open one
 * @param block         the bytes of the block file
 * @param block_length  their number
 * @retval RVSTM_DONE     the answer has what the calls would do
 * @retval RVSTM_REFUSED  as rvstm_frame()
 * @retval RVSTM_FAILED   as rvstm_frame()
 * @retval RVSTM_CLOSED   the session is not open
 */
uint32_t rvstm_try(rvstm_session *session, const uint8_t *block, size_t block_length);

/**
 * Repeats the answer to the last frame that counts, with the same bytes or parts. Takes no memory.
 * @param session  an open one
 * @retval RVSTM_DONE     it was done
 * @retval RVSTM_REFUSED  it was refused; or there was none, or none since rvstm_begin() (frame NoFrame)
 * @retval RVSTM_CLOSED   the session is not open
 */
uint32_t rvstm_last(rvstm_session *session);

/**
 * Reads the storage at a key: a line `value ..` or `absent`. Takes memory for the line, and the time of a look-up.
 * @param session     an open one
 * @param key         its hex digits
 * @param key_length  64
 * @retval RVSTM_DONE     the answer has the line
 * @retval RVSTM_REFUSED  for the form of the key
 * @retval RVSTM_FAILED   output Memory
 * @retval RVSTM_CLOSED   the session is not open
 */
uint32_t rvstm_get(rvstm_session *session, const uint8_t *key, size_t key_length);

/**
 * Lists the first entries from a key on, itself included, in `store` lines. Takes memory for the lines, at most 600,000 bytes.
 * @param session      an open one
 * @param from         the hex digits of the key
 * @param from_length  64
 * @param count        how many at most, 1 to 1,024
 * @retval RVSTM_DONE     the answer has the lines
 * @retval RVSTM_REFUSED  for the form of the key or the count
 * @retval RVSTM_FAILED   output Memory
 * @retval RVSTM_CLOSED   the session is not open
 */
uint32_t rvstm_list(rvstm_session *session, const uint8_t *from, size_t from_length, uint64_t count);

/**
 * Dumps the whole storage: a block file of the session's rules, which rvstm_begin() accepts. Takes memory for all of the text, for
 * each key 72 bytes and twice the length of its value, and time in proportion.
 * @param session  an open one
 * @retval RVSTM_DONE    the answer has the block file
 * @retval RVSTM_FAILED  output Memory
 * @retval RVSTM_CLOSED  the session is not open
 */
uint32_t rvstm_dump(rvstm_session *session);

/**
 * Replaces the session's storage, rules, height and digest. The programs stay, and rvstm_last() has no frame. The answer has no
 * bytes. Takes memory for the new storage beside the old one, and time in proportion to the length of the block and to the old
 * storage, which is freed.
 * @param session        an open one
 * @param height         at most 9,999,999,999
 * @param digest         64 hex digits, or `-` if the session keeps none
 * @param digest_length  64 or 1
 * @param block          the bytes of a block file without programs and calls, such as that of rvstm_dump()
 * @param block_length   their number
 * @retval RVSTM_DONE     the session has them
 * @retval RVSTM_REFUSED  by the first of: the text (block), programs or calls (frame NotADump), a digest if none is kept or none if
 *                        one is (frame OtherDigest); or for the form of height, digest and length
 * @retval RVSTM_FAILED   block Memory
 * @retval RVSTM_CLOSED   the session is not open
 */
uint32_t rvstm_begin(
    rvstm_session *session, uint64_t height, const uint8_t *digest, size_t digest_length, const uint8_t *block,
    size_t block_length);

/**
 * Reports the session's counts and settings in lines `rules N`, `height N`, `keys N`, `programs N`, `frame-limit N`, `frame-gas N`
 * or `frame-gas none`, `brief 0` or `brief 1`, and `digest HEX` if one is kept. Takes memory for the lines, less than 300 bytes.
 * @param session  an open one
 * @retval RVSTM_DONE    the answer has the lines
 * @retval RVSTM_FAILED  output Memory
 * @retval RVSTM_CLOSED  the session is not open
 */
uint32_t rvstm_state(rvstm_session *session);

/**@}*/

/**
 * Returns the length of the answer to the last request. Takes no memory.
 * @param session  any
 * @return the number of its bytes; 0 before the first request, if it was refused or failed, and if the session is not open
 */
size_t rvstm_answer_length(rvstm_session *session);

/**
 * Copies the answer to the last request to the beginning of the caller's buffer. No zero is added, and the rest of the buffer stays
 * as it was. The answer stays, and may be copied again. Takes no memory, and time in proportion to the answer.
 * @param session        an open one
 * @param buffer         the caller's bytes
 * @param buffer_length  their number
 * @retval RVSTM_DONE          the buffer has the answer
 * @retval RVSTM_SHORT_BUFFER  nothing was copied
 * @retval RVSTM_CLOSED        the session is not open
 */
uint32_t rvstm_answer(rvstm_session *session, uint8_t *buffer, size_t buffer_length);

/**
 * Copies the parts of the refusal or failure of the last request; zeros if it is done. Takes no memory.
 * @param session  an open one
 * @param parts    the caller's struct
 * @retval RVSTM_REFUSED  the last request was refused
 * @retval RVSTM_FAILED   it failed
 * @retval RVSTM_DONE     it is done
 * @retval RVSTM_CLOSED   the session is not open
 */
uint32_t rvstm_refusal(rvstm_session *session, rvstm_refusal_parts *parts);

/**
 * Closes a session, and frees its memory. It may be opened again. Takes time in proportion to what it frees.
 * @param session  any
 * @retval RVSTM_DONE    it is closed
 * @retval RVSTM_CLOSED  it was not open
 */
uint32_t rvstm_close(rvstm_session *session);

/**
 * @name Blocks over the caller's own storage
 *
 * A block goes through three stages:
 *
 *  1. **Calls**: rvstm_block_open(), then rvstm_calls_add() for each call, in block order.
 *  2. **Run**: rvstm_run_go() runs the calls in order until one asks for a key (RVSTM_KEY). Look the key up in your storage, answer
 *     with rvstm_run_base(), and call rvstm_run_go() again.
 *  3. **Result**: after RVSTM_ENDED, rvstm_result_counts() and the other calls of that name copy what each call did and what the block
 *     changes.
 *
 * A call that belongs to another stage returns RVSTM_WRONG_STAGE; rvstm_run_base() returns RVSTM_NOT_ASKED. If several statuses apply,
 * the first one in the list of the call is returned. A block asks for each key at most once: later calls see what
 * earlier ones wrote, and what was answered. A key to which calls only add is asked for after the last call, because its change
 * needs the number before the block.
 *
 * **What the result is.** For every storage that has, at each key that was asked for, what was answered: the receipts are those of
 * running the calls one after another over that storage, and the changes lead from it to the storage after the last call. Nothing
 * checks that the answers come from one storage.
 */
/**@{*/

/** A program, which was loaded once, and which calls of any number of blocks may run. */
typedef struct {
    void *at;  /**< the library's own */
    bool full; /**< the library's own */
} rvstm_image;

/** A block: its calls, then their run, then its result. */
typedef struct {
    void *at;  /**< the library's own */
    bool full; /**< the library's own */
} rvstm_block;

/** A key of the storage. */
typedef struct {
    uint8_t bytes[32]; /**< its bytes */
} rvstm_key;

/** How a call ended. docs/contracts.md says when each comes. Only RVSTM_END_RETURNED keeps the call's writes. */
enum rvstm_end {
    RVSTM_END_RETURNED = 0,        /**< it returned */
    RVSTM_END_REVERTED = 1,        /**< it reverted */
    RVSTM_END_OUT_OF_GAS = 2,      /**< less gas was left than the next instruction, or the copy of a READ, costs */
    RVSTM_END_ILLEGAL = 3,         /**< the word is no instruction */
    RVSTM_END_MISALIGNED = 4,      /**< an address is not a multiple of the size */
    RVSTM_END_MEMORY_FAULT = 5,    /**< a right to read or to write is missing */
    RVSTM_END_FETCH_FAULT = 6,     /**< a right to execute is missing */
    RVSTM_END_BREAKPOINT = 7,      /**< the instruction is EBREAK */
    RVSTM_END_UNKNOWN_CALL = 8,    /**< there is no storage call of this number */
    RVSTM_END_BAD_LENGTH = 9,      /**< a length is above its limit */
    RVSTM_END_TOO_MANY_WRITES = 10 /**< a 257th key was written */
};

/** What a write does to its key. */
enum rvstm_write_kind {
    RVSTM_WRITE_VALUE = 0, /**< the key gets a value */
    RVSTM_WRITE_GONE = 1,  /**< the key is removed */
    RVSTM_WRITE_SUM = 2    /**< an amount is added to the key's number, modulo 2^64 */
};

/** What one call did. */
typedef struct {
    uint32_t end;           /**< an rvstm_end */
    uint32_t gas;           /**< the gas that it used, at most its limit */
    uint32_t pc;            /**< the address of the instruction that ended it */
    uint32_t registers[32]; /**< the registers at its end, x0 to x31 */
    uint32_t output_length; /**< the length of what it returned or reverted with, 0 to 256; 0 after any other end */
    uint32_t writes;        /**< how many keys it wrote, 0 to 256; 0 unless it returned */
} rvstm_receipt;

/** One write of a call. */
typedef struct {
    uint64_t amount;    /**< the amount of a sum; otherwise 0 */
    uint32_t kind;      /**< an rvstm_write_kind */
    uint32_t length;    /**< the length of a value, 0 to 256; otherwise 0 */
    uint8_t key[32];    /**< the key */
    uint8_t value[256]; /**< the bytes of a value, and zeros after them */
} rvstm_write;

/** What the block leaves at one key. */
typedef struct {
    uint32_t length;    /**< the length of the value, 0 to 256; 0 if the key is removed */
    bool present;       /**< whether the key has a value; false: it is removed. An empty value is not a removal */
    uint8_t key[32];    /**< the key */
    uint8_t value[256]; /**< the bytes of the value, and zeros after them */
} rvstm_change;

/** How many entries a result has. */
typedef struct {
    size_t receipts; /**< the number of calls, 0 to 1,024 */
    size_t changes;  /**< the number of keys that the block writes */
} rvstm_result_entries;

/**
 * Loads a program. It may be closed before the blocks that use it. Takes memory for the pages of 4,096 bytes that the segments
 * fill, and time in proportion to the length of the file.
 * @param image        one whose bytes are zero, or that was closed
 * @param file         the bytes of the program's file
 * @param file_length  their number
 * @param parts        gets the parts of a refusal; zeros for any other status
 * @retval RVSTM_DONE          it is open
 * @retval RVSTM_ALREADY_OPEN  it was open before
 * @retval RVSTM_REFUSED       the file has more than 131,072 bytes (file TooLong) or is no program (elf); it is not open
 * @retval RVSTM_NO_MEMORY     it is not open
 */
uint32_t rvstm_image_open(rvstm_image *image, const uint8_t *file, size_t file_length, rvstm_refusal_parts *parts);

/**
 * Closes an image. Its memory is freed when the last block that uses it is closed. Takes no memory.
 * @param image  any
 * @retval RVSTM_DONE    it is closed
 * @retval RVSTM_CLOSED  it was not open
 */
uint32_t rvstm_image_close(rvstm_image *image);

/**
 * Opens a block without calls. Takes memory for an empty block.
 * @param block  one whose bytes are zero, or that was closed
 * @param rules  1, 2 or 3: the rules of its calls
 * @retval RVSTM_DONE          it is open
 * @retval RVSTM_ALREADY_OPEN  it was open before
 * @retval RVSTM_BAD_RULES     it is not open
 * @retval RVSTM_NO_MEMORY     it is not open
 */
uint32_t rvstm_block_open(rvstm_block *block, uint32_t rules);

/**
 * Adds a call after the others. Takes memory for the call, and for an input of more than 64 bytes.
 * @param block         an open one, before its run
 * @param image         an open one
 * @param gas           the gas limit, 1 to 10,000,000
 * @param input         the bytes of the input
 * @param input_length  their number, at most 4,096
 * @retval RVSTM_DONE            the block has the call
 * @retval RVSTM_CLOSED          the block or the image is not open
 * @retval RVSTM_WRONG_STAGE     the run has begun
 * @retval RVSTM_TOO_MANY_CALLS  the block has 1,024 calls
 * @retval RVSTM_BAD_GAS         for the gas limit
 * @retval RVSTM_LONG_INPUT      for the input
 * @retval RVSTM_FAILED          the block is as it was
 */
uint32_t rvstm_calls_add(rvstm_block *block, rvstm_image *image, uint32_t gas, const uint8_t *input, size_t input_length);

/**
 * Begins the run, or continues it, until a call asks for a key whose value the library does not know, or until all calls have
 * ended. Each call takes time in proportion to its gas limit at most, and memory for its pages, its answers and its writes. The
 * first rvstm_run_go() also takes 256 bytes for each call, which is room for two keys.
 * @param block  an open one
 * @param key    gets the key at RVSTM_KEY; otherwise it stays
 * @retval RVSTM_KEY     a call asks for the key; a second rvstm_run_go() without an answer returns the same key
 * @retval RVSTM_ENDED   all calls have ended; so does a block without calls. A further rvstm_run_go() returns it again
 * @retval RVSTM_CLOSED  the block is not open
 * @retval RVSTM_PAUSED  memory ran out. The run is at the instruction that needed memory, and the next rvstm_run_go() tries it again,
 *                       with the same result
 */
uint32_t rvstm_run_go(rvstm_block *block, rvstm_key *key);

/**
 * Answers the key that rvstm_run_go() returned: what the storage has there before the block. Takes memory for the key and the
 * value.
 * @param block         an open one
 * @param present       whether the key has a value; if it has none, the bytes are not read
 * @param value         the bytes of the value
 * @param value_length  their number, at most 256, under any rules
 * @retval RVSTM_DONE         the run may go on
 * @retval RVSTM_CLOSED       the block is not open
 * @retval RVSTM_NOT_ASKED    no key is asked for, or it was answered already
 * @retval RVSTM_LONG_VALUE   the key is still asked for
 * @retval RVSTM_FAILED       the key is still asked for
 */
uint32_t rvstm_run_base(rvstm_block *block, bool present, const uint8_t *value, size_t value_length);

/**
 * Copies how many entries the result has. Takes no memory.
 * @param block    an open one, after RVSTM_ENDED
 * @param entries  gets the numbers at RVSTM_DONE; otherwise it stays
 * @retval RVSTM_DONE         the numbers were copied
 * @retval RVSTM_CLOSED       the block is not open
 * @retval RVSTM_WRONG_STAGE  there is no result yet
 */
uint32_t rvstm_result_counts(rvstm_block *block, rvstm_result_entries *entries);

/**
 * Copies what a call did. Takes no memory, and the time of a copy.
 * @param block    an open one, after RVSTM_ENDED
 * @param call     the index of the call, from 0
 * @param receipt  gets it at RVSTM_DONE; otherwise it stays
 * @retval RVSTM_DONE         it was copied
 * @retval RVSTM_CLOSED       the block is not open
 * @retval RVSTM_WRONG_STAGE  there is no result yet
 * @retval RVSTM_NO_ENTRY     the block has no call of this index
 */
uint32_t rvstm_result_receipt(rvstm_block *block, size_t call, rvstm_receipt *receipt);

/**
 * Copies what a call returned or reverted with to the beginning of a buffer. No zero is added, and the rest of the buffer stays.
 * Takes no memory, and the time of a copy.
 * @param block          an open one, after RVSTM_ENDED
 * @param call           the index of the call, from 0
 * @param buffer         the caller's bytes; 256 are always enough
 * @param buffer_length  their number
 * @retval RVSTM_DONE          the buffer has the output
 * @retval RVSTM_CLOSED        the block is not open
 * @retval RVSTM_WRONG_STAGE   there is no result yet
 * @retval RVSTM_NO_ENTRY      the block has no call of this index
 * @retval RVSTM_SHORT_BUFFER  the buffer is shorter than the output
 */
uint32_t rvstm_result_output(rvstm_block *block, size_t call, uint8_t *buffer, size_t buffer_length);

/**
 * Copies a write of a call. The writes of a call are in the order of their keys. Takes no memory, and the time of a copy.
 * @param block  an open one, after RVSTM_ENDED
 * @param call   the index of the call, from 0
 * @param index  the index of the write, from 0
 * @param write  gets it at RVSTM_DONE; otherwise it stays
 * @retval RVSTM_DONE         it was copied
 * @retval RVSTM_CLOSED       the block is not open
 * @retval RVSTM_WRONG_STAGE  there is no result yet
 * @retval RVSTM_NO_ENTRY     the block has no such call, or the call has no such write
 */
uint32_t rvstm_result_write(rvstm_block *block, size_t call, size_t index, rvstm_write *write);

/**
 * Copies a change of the block: what it leaves at one of the keys that its calls wrote. The changes are in the order of their keys,
 * and added amounts are resolved. Make exactly these changes of your storage. Takes no memory, and the time of a copy.
 * @param block   an open one, after RVSTM_ENDED
 * @param index   the index of the change, from 0
 * @param change  gets it at RVSTM_DONE; otherwise it stays
 * @retval RVSTM_DONE         it was copied
 * @retval RVSTM_CLOSED       the block is not open
 * @retval RVSTM_WRONG_STAGE  there is no result yet
 * @retval RVSTM_NO_ENTRY     the result has no change of this index
 */
uint32_t rvstm_result_change(rvstm_block *block, size_t index, rvstm_change *change);

/**
 * Closes a block at any stage, and frees its memory. It may be opened again. Takes time in proportion to what it frees.
 * @param block  any
 * @retval RVSTM_DONE    it is closed
 * @retval RVSTM_CLOSED  it was not open
 */
uint32_t rvstm_block_close(rvstm_block *block);

/**@}*/

#ifdef __cplusplus
}
#endif

#endif
