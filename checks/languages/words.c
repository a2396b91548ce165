/* Calls of the commands: rooms that are too small, words that say nothing, commands that would start threads. */
#include "parbegin.h"

#include <stdio.h>
#include <string.h>

static int fails;

static void expect(const char *what, unsigned long said, unsigned long wanted) {
    if (said != wanted) {
        printf("%s: %lu and not %lu\n", what, said, wanted);
        fails++;
    }
}

int main(void) {
    uint8_t reply[64] = {0};
    size_t needed;
    const pb_word bad = {(const uint8_t *)"\xff", 1}, check = {(const uint8_t *)"check", 5}, run = {(const uint8_t *)"run", 3};
    const uint8_t *text = (const uint8_t *)"process p begin print q end";
    size_t length = strlen((const char *)text);
    expect("not UTF-8", pb_call(&bad, 1, reply, 0, reply, sizeof reply, &needed), 2);
    expect("nothing", needed, 0);
    expect("no words", pb_call(&check, 0, reply, 0, reply, sizeof reply, &needed), 2);
    expect("more", needed > sizeof reply, 1);
    expect("run", pb_call(&run, 1, reply, 0, reply, sizeof reply, &needed), 7);
    expect("nothing for run", needed, 0);
    expect("refused", pb_call(&check, 1, text, length, reply, 3, &needed), 1);
    expect("a longer reply", needed, strlen("refused N3 at 22\n"));
    expect("its front", (unsigned long)memcmp(reply, "ref", 3), 0);
    memset(reply, 0, sizeof reply);
    expect("check", pb_check(text, length, reply, sizeof reply, &needed), 1);
    expect("the same", needed, strlen("refused N3 at 22\n"));
    expect("its bytes", (unsigned long)memcmp(reply, "refused N3 at 22\n", needed), 0);
    expect("claims", pb_claims(text, length, reply, 0, &needed), 1);
    expect("claims too", needed, strlen("refused N3 at 22\n"));
    /* two texts, which are one program: the second declares the resource with another capital */
    const uint8_t *texts = (const uint8_t *)"resource r = 1; process p begin hold 1 of r do skip od end\n%%\n"
                                            "resource r = 2; process q begin hold 1 of r do skip od end\n";
    const char *clash = "text 2 refused N2 at 9\n";
    expect("plan", pb_plan(texts, strlen((const char *)texts), reply, sizeof reply, &needed), 1);
    expect("plan too", needed, strlen(clash));
    expect("of two texts", (unsigned long)memcmp(reply, clash, needed), 0);
    if (!fails) printf("well\n");
    return fails != 0;
}
