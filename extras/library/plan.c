/* Checks the plan on standard input: says whether it is a program, and what each process claims of each resource. */
#include "parbegin.h"

#include <stdio.h>
#include <stdlib.h>

enum { MOST = 65536 };

typedef uint8_t command(const uint8_t *text, size_t length, uint8_t *output, size_t room, size_t *needed);

/* Prints what a command replies, and returns its status. */
static uint8_t tell(command *does, const uint8_t *text, size_t length) {
    size_t needed = 0;
    uint8_t few[1];
    does(text, length, few, 0, &needed);
    uint8_t *reply = malloc(needed + 1);
    if (!reply) return 5;
    uint8_t status = does(text, length, reply, needed, &needed);
    fwrite(reply, 1, needed, stdout);
    free(reply);
    return status;
}

int main(void) {
    static uint8_t text[MOST];
    size_t length = fread(text, 1, sizeof text, stdin);
    uint8_t status = tell(pb_check, text, length);
    return status ? status : tell(pb_claims, text, length);
}
