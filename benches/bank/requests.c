/* Nanoseconds of each kind of request to a bank: the least of many short rounds. Each line is a kind and its time. */
#define _POSIX_C_SOURCE 199309L
#include "parbegin.h"

#include <stdio.h>
#include <stdlib.h>
#include <time.h>

enum { CAPITAL = 1000000, ROUNDS = 200, NANOSECONDS = 100000 };

static size_t jobs, resources;
static pb_bank bank;
static uint32_t one[16], most[16];

static double now(void) {
    struct timespec t;
    clock_gettime(CLOCK_MONOTONIC, &t);
    return t.tv_sec * 1e9 + t.tv_nsec;
}

static void must(int holds, const char *what) {
    if (holds) return;
    fprintf(stderr, "not as it should be: %s\n", what);
    exit(1);
}

static void measure(const char *name, void (*request)(void), int calls) {
    double start = now();
    request();
    int turns = 1 + NANOSECONDS / (1 + now() - start);
    double best = 1e18;
    for (int round = 0; round < ROUNDS; round++) {
        start = now();
        for (int i = 0; i < turns; i++) request();
        double took = (now() - start) / turns / calls;
        if (took < best) best = took;
    }
    printf("%s %.1f\n", name, best);
}

/* A bank whose jobs claim 1 of each resource, and of the last one what `claim` says; each but the first holds of the last
 * what `held` says. Those who asked last come first in the order of a bank that goes by the asker. */
static void open_bank(uint32_t (*claim)(size_t), uint32_t (*held)(size_t)) {
    static uint32_t capital[16], claims[16], amounts[16];
    size_t at, last = resources - 1;
    for (size_t r = 0; r < resources; r++) capital[r] = CAPITAL, claims[r] = 1;
    must(pb_bank_new(&bank, capital, resources) == PB_DONE, "open");
    for (size_t p = 0; p < jobs; p++) {
        claims[last] = claim(p);
        must(pb_bank_join(&bank, claims, resources, &at) == PB_DONE && at == p, "join");
    }
    for (size_t p = 1; p < jobs; p++) {
        amounts[last] = held(p);
        must(pb_bank_ask(&bank, p, amounts, resources) == PB_DONE, "hold");
    }
}

static void front(void) {
    must(pb_bank_ask(&bank, 1, one, resources) == PB_DONE && pb_bank_give(&bank, 1, one, resources) == PB_DONE, "front");
}

static void last(void) {
    must(pb_bank_ask(&bank, 0, one, resources) == PB_DONE && pb_bank_give(&bank, 0, one, resources) == PB_DONE, "last");
}

static void no_cash(void) { must(pb_bank_ask(&bank, 0, most, resources) == PB_NOT_NOW, "no cash"); }

static void refused(void) { must(pb_bank_ask(&bank, 0, most, resources) == PB_NOT_NOW, "refused"); }

static void leave_and_join(void) {
    static uint32_t claims[16];
    size_t at;
    claims[0] = 1;
    must(pb_bank_leave(&bank, jobs / 2) == PB_DONE && pb_bank_join(&bank, claims, resources, &at) == PB_DONE, "join");
}

/* Two big jobs, of which the one that asked last has to come first. */
static void anew(void) {
    for (size_t p = 0; p < 2; p++)
        must(pb_bank_ask(&bank, p, one, resources) == PB_DONE && pb_bank_give(&bank, p, one, resources) == PB_DONE, "anew");
}

static uint32_t two(size_t p) { return p ? 2 : CAPITAL; }
static uint32_t unit(size_t p) { return p ? 1 : 0; }

/* The first job asks for all but 1 of what is there; the second never fits then, and each other one once `need - 1`
 * others have given back their 1. */
static uint32_t ten(size_t p) { return p == 1 ? 10 : 1; }
static uint32_t claim_of(size_t p, size_t need) { return p == 0 ? CAPITAL : p == 1 ? 10 + jobs : 1 + need; }
static uint32_t chain(size_t p) { return claim_of(p, jobs - p); }
static uint32_t turned(size_t p) { return claim_of(p, p - 1); }
static uint32_t zigzag(size_t p) { return claim_of(p, p - 2 < jobs - 1 - p ? 2 * (p - 2) + 1 : 2 * (jobs - 1 - p) + 2); }

static uint32_t big(void) { return (CAPITAL - (jobs - 2) - 2) / 2; }
static uint32_t pair_held(size_t p) { return p < 2 ? big() : 1; }
static uint32_t pair_claim(size_t p) { return p < 2 ? big() + jobs : 1 + jobs - p; }

int main(int argc, char **argv) {
    if (argc != 3) return 2;
    jobs = strtoul(argv[1], NULL, 10), resources = strtoul(argv[2], NULL, 10);
    size_t end = resources - 1;
    one[end] = 1;
    open_bank(two, unit);
    measure("front", front, 1);
    measure("last", last, 1);
    measure("leave", leave_and_join, 1);
    most[end] = CAPITAL;
    measure("cash", no_cash, 1);
    most[end] = CAPITAL - (jobs - 2) - 10 - 1;
    open_bank(chain, ten);
    measure("chain", refused, 1);
    open_bank(turned, ten);
    measure("turned", refused, 1);
    open_bank(zigzag, ten);
    measure("zigzag", refused, 1);
    open_bank(pair_claim, pair_held);
    uint32_t first[16] = {0};
    first[end] = big();
    must(pb_bank_ask(&bank, 0, first, resources) == PB_DONE, "hold");
    measure("anew", anew, 2);
    return 0;
}
