/* Four threads, each with a bank and calls of its own and no lock, and one bank that all use under a lock. */
#include "parbegin.h"

#include <pthread.h>
#include <stdio.h>
#include <string.h>

enum { THREADS = 4, TURNS = 20000 };

static pb_bank shared;
static pthread_mutex_t lock = PTHREAD_MUTEX_INITIALIZER;
static const uint32_t one[1] = {1};

static size_t in_turn(pb_bank *bank, size_t job) {
    uint32_t said = pb_bank_ask(bank, job, one, 1);
    return said == PB_DONE ? pb_bank_give(bank, job, one, 1) != PB_DONE : said != PB_NOT_NOW;
}

static size_t checked(void) {
    static const char *const TEXT = "process p begin print q end";
    uint8_t reply[64];
    size_t needed;
    return pb_check((const uint8_t *)TEXT, strlen(TEXT), reply, sizeof reply, &needed) != 1 || needed != 17;
}

static void *work(void *given) {
    size_t job = *(size_t *)given, wrong = 0, at;
    static const uint32_t capital[1] = {2}, claims[1] = {2};
    pb_bank own;
    wrong += pb_bank_new(&own, capital, 1) != PB_DONE || pb_bank_join(&own, claims, 1, &at) != PB_DONE;
    for (int i = 0; i < TURNS; i++) {
        wrong += in_turn(&own, at);
        pthread_mutex_lock(&lock);
        wrong += in_turn(&shared, job);
        pthread_mutex_unlock(&lock);
        if (i % 100 == 0) wrong += checked();
    }
    *(size_t *)given = wrong;
    return NULL;
}

int main(void) {
    static const uint32_t capital[1] = {3}, claims[1] = {2};
    pthread_t threads[THREADS];
    size_t given[THREADS], wrong = 0;
    if (pb_bank_new(&shared, capital, 1) != PB_DONE) return 1;
    for (int t = 0; t < THREADS; t++)
        if (pb_bank_join(&shared, claims, 1, &given[t]) != PB_DONE || pthread_create(&threads[t], NULL, work, &given[t])) return 1;
    for (int t = 0; t < THREADS; t++) pthread_join(threads[t], NULL), wrong += given[t];
    printf("%zu wrong\n", wrong + (shared.cash[0] != 3));
    return 0;
}
