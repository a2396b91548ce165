/* Banks drawn at random and damaged: pb_bank_adopt says what a second reading in C says, and so does a request. */
#include "parbegin.h"

#include <stdio.h>
#include <string.h>

enum { ROUNDS = 100000 };

static uint64_t state = 88172645463325252u;

static uint32_t draw(uint32_t end) {
    state ^= state << 13, state ^= state >> 7, state ^= state << 17;
    return (uint32_t)(state >> 20) % end;
}

/* Are these the tables of a bank? */
static int sound(const pb_bank *b) {
    if (b->slots > 64 || !b->resources || b->resources > 16) return 0;
    for (size_t p = b->slots; p < 64; p++)
        if (b->jobs[p]) return 0;
    for (size_t r = 0; r < b->resources; r++) {
        uint64_t lent = 0;
        if (b->capital[r] > PB_MAX_AMOUNT) return 0;
        for (size_t p = 0; p < b->slots; p++) {
            if (b->claims[p][r] > b->capital[r] || b->loans[p][r] > b->claims[p][r]) return 0;
            if (!b->jobs[p] && b->claims[p][r]) return 0;
            lent += b->loans[p][r];
        }
        if (lent + b->cash[r] != b->capital[r]) return 0;
    }
    return 1;
}

/* Can all finish, taken from the last to the first? */
static int safe(const pb_bank *b) {
    uint32_t cash[16];
    int over[64] = {0}, more = 1;
    size_t left = b->slots;
    memcpy(cash, b->cash, sizeof cash);
    while (more) {
        more = 0;
        for (size_t p = b->slots; p-- > 0;) {
            int fits = !over[p];
            for (size_t r = 0; r < b->resources; r++) fits = fits && b->claims[p][r] - b->loans[p][r] <= cash[r];
            if (!fits) continue;
            for (size_t r = 0; r < b->resources; r++) cash[r] += b->loans[p][r];
            over[p] = more = 1;
            left--;
        }
    }
    return left == 0;
}

static void draw_bank(pb_bank *b) {
    memset(b, 0, sizeof *b);
    b->slots = draw(6), b->resources = draw(4);
    for (size_t p = 0; p < b->slots; p++) b->jobs[p] = draw(5) > 0;
    for (size_t r = 0; r < b->resources; r++) {
        uint32_t lent = 0;
        b->capital[r] = draw(8);
        for (size_t p = 0; p < b->slots; p++) {
            b->claims[p][r] = b->jobs[p] ? draw(b->capital[r] + 1) : 0;
            uint32_t rest = b->capital[r] - lent, most = rest < b->claims[p][r] ? rest : b->claims[p][r];
            lent += b->loans[p][r] = draw(most + 1);
        }
        b->cash[r] = b->capital[r] - lent;
    }
    for (size_t k = 0; k < sizeof b->order; k++) b->order[k] = (uint8_t)draw(256);
    if (draw(4) == 0) ((uint8_t *)b)[draw(sizeof *b)] = (uint8_t)draw(256);
    if (draw(16) == 0) ((uint8_t *)b)[draw(16)] = (uint8_t)draw(256);
}

/* What a request of p comes to, made in `b` if it is granted. */
static uint32_t asked(pb_bank *b, size_t p, const uint32_t *amounts) {
    for (size_t r = 0; r < b->resources; r++)
        if (amounts[r] > b->claims[p][r] - b->loans[p][r]) return PB_OVER_CLAIM;
    for (size_t r = 0; r < b->resources; r++)
        if (amounts[r] > b->cash[r]) return PB_NOT_NOW;
    for (size_t r = 0; r < b->resources; r++) b->loans[p][r] += amounts[r], b->cash[r] -= amounts[r];
    if (safe(b)) return PB_DONE;
    for (size_t r = 0; r < b->resources; r++) b->loans[p][r] -= amounts[r], b->cash[r] += amounts[r];
    return PB_NOT_NOW;
}

/* Asks for a drawn request, and leaves. Is all as it should be? */
static int use(pb_bank *bank, long *counts) {
    if (!bank->slots) return 1;
    pb_bank kept = *bank;
    uint32_t amounts[16];
    size_t p = draw((uint32_t)bank->slots), had = bank->jobs[p];
    for (size_t r = 0; r < bank->resources; r++) amounts[r] = draw(3);
    uint32_t wanted = had ? asked(&kept, p, amounts) : PB_NO_REQUEST;
    uint32_t said = pb_bank_ask(bank, p, amounts, bank->resources);
    counts[said]++;
    if (said != wanted || memcmp(bank, &kept, offsetof(pb_bank, order))) return 0;
    if (pb_bank_leave(bank, p) != (had ? PB_DONE : PB_NO_REQUEST)) return 0;
    kept = *bank;
    return sound(bank) && safe(bank) && pb_bank_adopt(&kept) == PB_DONE;
}

int main(void) {
    long counts[16] = {0}, adopted[16] = {0};
    for (long round = 0; round < ROUNDS; round++) {
        static pb_bank bank, kept;
        draw_bank(&bank);
        kept = bank;
        uint32_t said = pb_bank_adopt(&bank), wanted = !sound(&kept) ? PB_NO_BANK : !safe(&kept) ? PB_NOT_SAFE : PB_DONE;
        adopted[said]++;
        if (said != wanted || (said && memcmp(&bank, &kept, sizeof bank))) return printf("adopt: %u and not %u\n", said, wanted), 1;
        if (!said && !use(&bank, counts)) return printf("round %ld: another answer\n", round), 1;
    }
    printf("adopted %ld, no bank %ld, not safe %ld; granted %ld, not now %ld, over claim %ld, no job %ld\n", adopted[0], adopted[6],
           adopted[10], counts[0], counts[1], counts[2], counts[3]);
    return 0;
}
