/* Nanoseconds of a turn, an ask and a give of one job after the other: the least of many short rounds. */
#define _POSIX_C_SOURCE 199309L
#include "parbegin.h"

#include <stdio.h>
#include <stdlib.h>
#include <time.h>

static double now(void) {
    struct timespec t;
    clock_gettime(CLOCK_MONOTONIC, &t);
    return t.tv_sec * 1e9 + t.tv_nsec;
}

int main(int argc, char **argv) {
    if (argc != 3) return 2;
    size_t jobs = strtoul(argv[1], NULL, 10), resources = strtoul(argv[2], NULL, 10), at;
    static pb_bank bank;
    static uint32_t capital[16], claims[16], amounts[16] = {1};
    for (size_t r = 0; r < 16; r++) capital[r] = 100, claims[r] = 50;
    if (pb_bank_new(&bank, capital, resources) != PB_DONE) return 1;
    for (size_t p = 0; p < jobs; p++)
        if (pb_bank_join(&bank, claims, resources, &at) != PB_DONE) return 1;
    double best = 1e18;
    enum { ROUNDS = 500, TURNS = 1000 };
    for (int round = 0; round < ROUNDS; round++) {
        double start = now();
        for (size_t i = 0; i < TURNS; i++)
            if (pb_bank_ask(&bank, i % jobs, amounts, resources) || pb_bank_give(&bank, i % jobs, amounts, resources)) return 1;
        double took = (now() - start) / TURNS;
        if (took < best) best = took;
    }
    printf("%.0f\n", best);
    return 0;
}
