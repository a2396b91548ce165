/* The proved banker and the commands of parbegin, for C and for whatever calls C.
 *
 * Nothing checks a call from C. What a caller owes for every function here:
 *   - each pointer is to memory of the type and the length that are named, aligned as the type asks, and not null,
 *     also where the length is 0 (gcc warns of a null that it sees; at run time it is undefined);
 *   - nothing else reads what a function writes, or writes what it reads, during the call (two threads that use one
 *     bank take a lock of their own, or copy the bank; two banks need none);
 *   - a bank is as the last call on it left it, or a copy of such a one (pb_bank_new and pb_bank_adopt ask nothing of
 *     what lies there).
 * All numbers are tested: a job or a resource that is not there, too few amounts, too much of anything. A call that
 * returns anything but PB_DONE changes no bank. The library keeps nothing between calls.
 *
 * It is built for 64 bits with x86-64-v2, and no function may be called from a signal handler. pb_call, pb_check,
 * pb_claims and pb_plan need malloc aligned to 16 bytes, and a stack of 512 KiB.
 */
#ifndef PARBEGIN_H
#define PARBEGIN_H

#include <stddef.h>
#include <stdint.h>

#ifdef __cplusplus
extern "C" {
#endif

#define PB_MAX_JOBS 64
#define PB_MAX_RESOURCES 16
#define PB_MAX_AMOUNT 1000000u

#if defined(__GNUC__)
#define PB_NONNULL __attribute__((nonnull))
#else
#define PB_NONNULL
#endif

/* ---- the banker ---- */

/* A bank of jobs that come and go. Plain data: no pointers, nothing on a heap. Copy it by `=`, keep it where you like,
 * write it to a file, forget it without a call. Read its fields; leave writing to the functions.
 *
 * A job is named by its slot, 0 to 63. The tables have `slots` rows; `jobs[p]` is not 0 if a job has the slot p. */
typedef struct pb_bank {
    size_t slots, resources;
    uint32_t capital[PB_MAX_RESOURCES], cash[PB_MAX_RESOURCES];
    uint32_t claims[PB_MAX_JOBS][PB_MAX_RESOURCES];
    uint32_t loans[PB_MAX_JOBS][PB_MAX_RESOURCES];
    uint8_t order[PB_MAX_JOBS]; /* an order in which all can finish */
    uint8_t jobs[PB_MAX_JOBS];
} pb_bank;

#if defined(__STDC_VERSION__) && __STDC_VERSION__ >= 201112L
_Static_assert(sizeof(pb_bank) == 8464, "the library was built for 64 bits");
#endif

enum {
    PB_DONE = 0,          /* or granted */
    PB_NOT_NOW = 1,       /* within the claim, but there is too little cash, or some could not finish any more */
    PB_OVER_CLAIM = 2,    /* the job would hold more than its claim */
    PB_NO_REQUEST = 3,    /* no such job, or not an amount for each resource */
    PB_NOT_HELD = 4,      /* the job does not hold so much */
    PB_NO_BANK = 6,       /* the numbers make no bank */
    PB_OVER_CAPITAL = 7,  /* a claim is over the capital */
    PB_FULL = 8,          /* there are 64 jobs already */
    PB_OVER_CASH = 9,     /* there is too little cash */
    PB_NOT_SAFE = 10      /* not all jobs could finish */
};

/* Opens a bank with this capital, of 1 to 16 resources with at most 1,000,000 of each, and no jobs. PB_NO_BANK if the
 * numbers are others. */
PB_NONNULL uint32_t pb_bank_new(pb_bank *bank, const uint32_t *capital, size_t resources);

/* Makes a bank of bytes that come from anywhere, as from a file, with the jobs and the loans that are in them:
 * PB_NO_BANK or PB_NOT_SAFE if they are none. It asks nothing of what lies there; `order` is written anew. Zeroes are no
 * bank, but damaged bytes may be a bank that nobody has written: give a file a mark and a checksum. */
PB_NONNULL uint32_t pb_bank_adopt(pb_bank *bank);

/* A job joins with a claim on each resource: the most that it will hold at once. Its slot is written to `at`, the first
 * free one. PB_OVER_CAPITAL if a claim is over the capital, with the resource at `at`; PB_FULL; PB_NO_REQUEST if there
 * is not a claim for each resource. */
PB_NONNULL uint32_t pb_bank_join(pb_bank *bank, const uint32_t *claims, size_t resources, size_t *at);

/* A job leaves: all that it holds comes back, and its slot is free. PB_NO_REQUEST if there is no such job. */
PB_NONNULL uint32_t pb_bank_leave(pb_bank *bank, size_t job);

/* Asks for an amount of each resource, all or none: PB_DONE exactly if claim and cash allow it and all jobs can still
 * finish in some order, PB_OVER_CLAIM if the claim does not allow it, else PB_NOT_NOW. */
PB_NONNULL uint32_t pb_bank_ask(pb_bank *bank, size_t job, const uint32_t *amounts, size_t resources);

/* Gives back an amount of each resource, all or none: PB_NOT_HELD if the job does not hold so much. */
PB_NONNULL uint32_t pb_bank_give(pb_bank *bank, size_t job, const uint32_t *amounts, size_t resources);

/* Gives back all that a job holds; it stays, with its claim. */
PB_NONNULL uint32_t pb_bank_drop_all(pb_bank *bank, size_t job);

/* Writes an order in which all can finish, each next one the first that fits, and returns how many are in it: `slots`.
 * A slot without a job holds nothing, and is in it too: pass over it by `jobs`. There has to be room for 64. */
PB_NONNULL size_t pb_bank_order(const pb_bank *bank, uint8_t *order);

/* Why a request would be granted or not. */
typedef struct pb_why {
    size_t resource;           /* the first resource that passes the claim or the cash, else 0 */
    uint8_t rest[PB_MAX_JOBS]; /* 1 for each job that could not finish after it, else 0 */
} pb_why;

/* Says why a request would be granted or not, and changes no bank: PB_DONE; PB_OVER_CLAIM or PB_OVER_CASH, with the
 * resource; PB_NOT_NOW, with the jobs that could not finish; PB_NO_REQUEST. */
PB_NONNULL uint32_t pb_bank_why(const pb_bank *bank, size_t job, const uint32_t *amounts, size_t resources, pb_why *why);

/* ---- the commands ---- */

/* A word of a call, in UTF-8, with no zero byte behind it. */
typedef struct pb_word {
    const uint8_t *text;
    size_t length;
} pb_word;

/* Does what `parbegin` does with these words and this input, but for `run`, `exec`, and `record` without a seed, which
 * start threads: these get the status 7 and an empty reply. (`record --seed N`, and `replay` of what it writes, is a
 * run without threads.) Returns the exit status; it is 5, and never 6, if memory does not suffice, and then the reply may be a
 * first part. `needed` is the length of the reply, of which as much is written as there is room for: if needed > room, call
 * again with more. */
PB_NONNULL uint8_t pb_call(const pb_word *words, size_t count, const uint8_t *input, size_t length, uint8_t *output,
                           size_t room, size_t *needed);

/* What `parbegin check`, `parbegin claims` and `parbegin plan` write of a text, without the reading of words. `check` and
 * `plan` take several texts, with lines %% between them: `plan` as one program, whose processes run beside one another. */
PB_NONNULL uint8_t pb_check(const uint8_t *text, size_t length, uint8_t *output, size_t room, size_t *needed);
PB_NONNULL uint8_t pb_claims(const uint8_t *text, size_t length, uint8_t *output, size_t room, size_t *needed);
PB_NONNULL uint8_t pb_plan(const uint8_t *texts, size_t length, uint8_t *output, size_t room, size_t *needed);

#ifdef __cplusplus
}
#endif
#endif
