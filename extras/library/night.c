/* A batch runner's night: jobs join, ask for devices, wait until the bank lends them, and leave. */
#include "parbegin.h"

#include <stdio.h>

enum { TAPE, DISK, DEVICES };

struct request {
    size_t job;
    unsigned device;
    uint32_t amount;
};

static const char *const SAYS[] = {"gets", "waits for", "never gets", "never gets"};

/* Says which jobs could not finish if the request were granted. */
static void tell_rest(const pb_bank *bank, struct request request, const uint32_t *amounts) {
    pb_why why;
    if (pb_bank_why(bank, request.job, amounts, DEVICES, &why) != PB_NOT_NOW) return;
    printf("  else these could not finish:");
    for (size_t p = 0; p < bank->slots; p++)
        if (why.rest[p]) printf(" %zu", p);
    printf("\n");
}

/* Asks for each request. Those that wait stay in the list, and their number is returned. */
static size_t serve(pb_bank *bank, struct request *requests, size_t count) {
    size_t waiting = 0;
    for (size_t i = 0; i < count; i++) {
        struct request request = requests[i];
        uint32_t amounts[DEVICES] = {0};
        amounts[request.device] = request.amount;
        uint32_t said = pb_bank_ask(bank, request.job, amounts, DEVICES);
        printf("job %zu %s %u of device %u\n", request.job, SAYS[said], request.amount, request.device);
        if (said != PB_NOT_NOW) continue;
        tell_rest(bank, request, amounts);
        requests[waiting++] = request;
    }
    return waiting;
}

int main(void) {
    static pb_bank bank;
    static const uint32_t capital[DEVICES] = {1, 1}, claims[3][DEVICES] = {{1, 1}, {1, 1}, {1, 0}};
    if (pb_bank_new(&bank, capital, DEVICES) != PB_DONE) return 1;
    for (size_t i = 0; i < 3; i++) {
        size_t job;
        if (pb_bank_join(&bank, claims[i], DEVICES, &job) != PB_DONE) return 1;
        printf("job %zu joins\n", job);
    }
    /* Two jobs need the same tape and the same disk in opposite order; a third is greedy. */
    struct request requests[] = {{1, DISK, 1}, {0, TAPE, 1}, {1, TAPE, 1}, {0, DISK, 1}, {2, TAPE, 2}};
    size_t waiting = serve(&bank, requests, 5);
    uint8_t order[PB_MAX_JOBS];
    size_t all = pb_bank_order(&bank, order);
    for (size_t k = 0; k < all; k++) {
        if (pb_bank_leave(&bank, order[k]) != PB_DONE) continue;
        printf("job %u ends\n", order[k]);
        waiting = serve(&bank, requests, waiting);
    }
    return 0;
}
