/* Calls with wrong numbers: each is told, and changes nothing. */
#include "parbegin.h"

#include <stdio.h>
#include <string.h>

static int fails;

static void expect(const char *what, unsigned long said, unsigned long wanted) {
    if (said != wanted) {
        printf("%s: %lu and not %lu\n", what, said, wanted);
        fails++;
    }
}

static pb_bank bank, before;
static uint32_t capital[17], claims[17], amounts[17];

static void opening(void) {
    expect("no resources", pb_bank_new(&bank, capital, 0), PB_NO_BANK);
    expect("17 resources", pb_bank_new(&bank, capital, 17), PB_NO_BANK);
    capital[3] = PB_MAX_AMOUNT + 1;
    expect("a large capital", pb_bank_new(&bank, capital, 16), PB_NO_BANK);
    capital[3] = 10;
    expect("kept", (unsigned long)memcmp(&bank, &before, sizeof bank), 0);
    expect("16 resources", pb_bank_new(&bank, capital, 16), PB_DONE);
    expect("no slots", bank.slots, 0);
    expect("an order of nobody", pb_bank_order(&bank, (uint8_t[64]){0}), 0);
}

static void joining(void) {
    size_t at = 99;
    before = bank;
    expect("15 claims", pb_bank_join(&bank, claims, 15, &at), PB_NO_REQUEST);
    expect("17 claims", pb_bank_join(&bank, claims, 17, &at), PB_NO_REQUEST);
    claims[7] = 11;
    expect("over the capital", pb_bank_join(&bank, claims, 16, &at), PB_OVER_CAPITAL);
    expect("of the resource", at, 7);
    claims[7] = 5;
    expect("nobody joined", (unsigned long)memcmp(&bank, &before, sizeof bank), 0);
    expect("nobody to leave", pb_bank_leave(&bank, 0), PB_NO_REQUEST);
    for (size_t p = 0; p < 64; p++) {
        expect("joins", pb_bank_join(&bank, claims, 16, &at), PB_DONE);
        expect("in its slot", at, p);
    }
    before = bank;
    expect("one too many", pb_bank_join(&bank, claims, 16, &at), PB_FULL);
    expect("kept when full", (unsigned long)memcmp(&bank, &before, sizeof bank), 0);
    expect("leaves", pb_bank_leave(&bank, 7), PB_DONE);
    expect("is gone", bank.jobs[7], 0);
    expect("leaves twice", pb_bank_leave(&bank, 7), PB_NO_REQUEST);
    expect("asks when gone", pb_bank_ask(&bank, 7, amounts, 16), PB_NO_REQUEST);
    expect("drops when gone", pb_bank_drop_all(&bank, 7), PB_NO_REQUEST);
    expect("joins again", pb_bank_join(&bank, claims, 16, &at), PB_DONE);
    expect("in the free slot", at, 7);
}

static void asking(void) {
    pb_why why;
    before = bank;
    amounts[0] = 1;
    expect("job 64", pb_bank_ask(&bank, 64, amounts, 16), PB_NO_REQUEST);
    expect("job -1", pb_bank_ask(&bank, (size_t)-1, amounts, 16), PB_NO_REQUEST);
    expect("15 amounts", pb_bank_ask(&bank, 0, amounts, 15), PB_NO_REQUEST);
    expect("17 amounts", pb_bank_ask(&bank, 0, amounts, 17), PB_NO_REQUEST);
    expect("no amounts", pb_bank_ask(&bank, 0, amounts, 0), PB_NO_REQUEST);
    amounts[0] = UINT32_MAX;
    expect("very much", pb_bank_ask(&bank, 0, amounts, 16), PB_OVER_CLAIM);
    expect("why very much", pb_bank_why(&bank, 0, amounts, 16, &why), PB_OVER_CLAIM);
    amounts[0] = 0, amounts[5] = 6;
    expect("why over a claim", pb_bank_why(&bank, 0, amounts, 16, &why), PB_OVER_CLAIM);
    expect("of this resource", why.resource, 5);
    amounts[0] = 1, amounts[5] = 0;
    expect("given by one who has none", pb_bank_give(&bank, 0, amounts, 16), PB_NOT_HELD);
    expect("dropped by none", pb_bank_drop_all(&bank, 64), PB_NO_REQUEST);
    memset(&why, 0xee, sizeof why);
    expect("why of none", pb_bank_why(&bank, 64, amounts, 16, &why), PB_NO_REQUEST);
    expect("nothing beside it", why.resource + why.rest[0] + why.rest[63], 0);
    expect("why", pb_bank_why(&bank, 0, amounts, 16, &why), PB_DONE);
    expect("unchanged", (unsigned long)memcmp(&bank, &before, sizeof bank), 0);
    expect("granted", pb_bank_ask(&bank, 63, amounts, 16), PB_DONE);
    expect("cash", bank.cash[0], 9);
    expect("loan", bank.loans[63][0], 1);
    pb_bank copy = bank;
    expect("given", pb_bank_give(&copy, 63, amounts, 16), PB_DONE);
    expect("the copy", copy.cash[0], 10);
    expect("the bank", bank.cash[0], 9);
}

static void adopting(void) {
    static pb_bank any;
    before = any;
    expect("zeros", pb_bank_adopt(&any), PB_NO_BANK);
    expect("zeros stay", (unsigned long)memcmp(&any, &before, sizeof any), 0);
    memset(&any, 0xff, sizeof any);
    before = any;
    expect("ones", pb_bank_adopt(&any), PB_NO_BANK);
    expect("ones stay", (unsigned long)memcmp(&any, &before, sizeof any), 0);
    any = bank;
    memset(any.order, 0xee, sizeof any.order);
    expect("a bad order", pb_bank_adopt(&any), PB_DONE);
    expect("mended", any.order[63] < 64, 1);
    any = bank, any.jobs[3] = 200;
    expect("any byte but 0 is a job", pb_bank_adopt(&any), PB_DONE);
    any = bank, any.cash[0]++;
    expect("cash from nowhere", pb_bank_adopt(&any), PB_NO_BANK);
    any = bank, any.loans[3][2] = 6;
    expect("over a claim", pb_bank_adopt(&any), PB_NO_BANK);
    any = bank, any.claims[0][0] = 11;
    expect("over the capital", pb_bank_adopt(&any), PB_NO_BANK);
    any = bank, any.slots = 65;
    expect("65 of them", pb_bank_adopt(&any), PB_NO_BANK);
    any = bank, any.slots = 63;
    expect("a job without a row", pb_bank_adopt(&any), PB_NO_BANK);
    any = bank, any.jobs[5] = 0;
    expect("a claim without a job", pb_bank_adopt(&any), PB_NO_BANK);
    any = bank, any.resources = (size_t)-1;
    expect("very many resources", pb_bank_adopt(&any), PB_NO_BANK);
}

/* Of a bank that was adopted with a job whose byte is 200 a call that does nothing keeps that byte too. */
static void keeping(void) {
    static pb_bank any;
    size_t at;
    any = bank, any.jobs[3] = 200;
    expect("adopted", pb_bank_adopt(&any), PB_DONE);
    before = any;
    expect("a full bank", pb_bank_join(&any, claims, 16, &at), PB_FULL);
    claims[7] = 11;
    expect("a large claim", pb_bank_join(&any, claims, 16, &at), PB_OVER_CAPITAL);
    claims[7] = 5, amounts[0] = 5;
    expect("not held", pb_bank_give(&any, 3, amounts, 16), PB_NOT_HELD);
    amounts[0] = 6;
    expect("a large request", pb_bank_ask(&any, 3, amounts, 16), PB_OVER_CLAIM);
    amounts[0] = 1;
    expect("nobody gives", pb_bank_give(&any, 64, amounts, 16), PB_NO_REQUEST);
    expect("nobody leaves", pb_bank_leave(&any, 64), PB_NO_REQUEST);
    expect("nobody drops", pb_bank_drop_all(&any, 64), PB_NO_REQUEST);
    expect("each byte stays", (unsigned long)memcmp(&any, &before, sizeof any), 0);
}

static void unsafe_loans(void) {
    static pb_bank any;
    static const uint32_t two[1] = {2}, one[1] = {1};
    size_t at;
    pb_why why;
    expect("two", pb_bank_new(&any, two, 1), PB_DONE);
    expect("the first", pb_bank_join(&any, two, 1, &at), PB_DONE);
    expect("the second", pb_bank_join(&any, two, 1, &at), PB_DONE);
    expect("one for the first", pb_bank_ask(&any, 0, one, 1), PB_DONE);
    expect("not one for the second", pb_bank_ask(&any, 1, one, 1), PB_NOT_NOW);
    expect("since", pb_bank_why(&any, 1, one, 1, &why), PB_NOT_NOW);
    expect("neither", why.rest[0] + why.rest[1], 2);
    expect("two for the second", pb_bank_why(&any, 1, two, 1, &why), PB_OVER_CASH);
    any.loans[1][0] = 1, any.cash[0] = 0;
    before = any;
    expect("not safe", pb_bank_adopt(&any), PB_NOT_SAFE);
    expect("it stays", (unsigned long)memcmp(&any, &before, sizeof any), 0);
}

int main(void) {
    for (size_t r = 0; r < 17; r++) capital[r] = 10, claims[r] = 5;
    opening();
    joining();
    asking();
    adopting();
    keeping();
    unsafe_loans();
    if (!fails) printf("well\n");
    return fails != 0;
}
