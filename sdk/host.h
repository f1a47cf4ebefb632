/* Runs a contract on the machine that compiles it, so under a debugger or a sanitizer too. Link sdk/host.c.

   A test calls the contract by call_contract. Before and after a call it may itself read and write the storage
   by the calls of contract.h. Gas is not counted, memory has no rights, and a static variable keeps between
   calls what it has. On the ledger's machine each call starts from the program's file. */

#ifndef HOST_H
#define HOST_H

#include "contract.h"

#ifdef __cplusplus
extern "C" {
#endif

/* How a call ends; docs/contracts.md says when. */
enum ending { RETURNED, REVERTED, UNKNOWN_CALL, BAD_LENGTH, TOO_MANY_WRITES };

struct result {
    enum ending ending;
    u32 length; /* of the output */
    u8 output[OUTPUT_LIMIT];
};

/* Chooses rules 1, 2 or 3; at first they are 1. Any other number ends the test with a message and status 2. */
void set_rules(u32 rules);

/* Makes the storage empty. It has at most 1,024 keys, also removed ones: one more ends the test with a message and status 2. */
void clear_storage(void);

/* Calls the contract with a copy of the input; a sanitizer sees each read past it. What the call writes
   is kept if it returned. */
struct result call_contract(const void *input, u32 length);

/* Whether the call ended so, with this output. If its length is 0, the address may be NULL. */
int has_returned(struct result result, const void *output, u32 length);
int has_returned_u64(struct result result, u64 number);
int has_reverted(struct result result, const char *text);

/* Counts a check. Where it does not hold, prints its file, line and name, and of a call's ending by has_returned,
   has_returned_u64 or has_reverted what was wanted and what came. */
#define check(name, holds) check_at(__FILE__, __LINE__, name, holds)
void check_at(const char *file, int line, const char *name, int holds);

/* Prints 'N passed, M failed', and returns 1 if one failed, otherwise 0. */
int report_checks(void);

#ifdef __cplusplus
}
#endif

#endif
