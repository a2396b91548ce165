/* The program parbegin again, over pb_call: the words of its call, standard input, standard output. */
#include "parbegin.h"

#include <stdio.h>
#include <stdlib.h>
#include <string.h>

int main(int argc, char **argv) {
    pb_word words[16];
    size_t count = 0, length = 0, room = 1 << 16, needed;
    for (int i = 1; i < argc && count < 16; i++)
        words[count++] = (pb_word){(const uint8_t *)argv[i], strlen(argv[i])};
    uint8_t *input = malloc(1 << 23), *output = malloc(room);
    if (!input || !output) return 5;
    length = fread(input, 1, 1 << 23, stdin);
    uint8_t status = pb_call(words, count, input, length, output, room, &needed);
    if (needed > room) {
        free(output);
        output = malloc(room = needed);
        if (!output) return 5;
        status = pb_call(words, count, input, length, output, room, &needed);
    }
    fwrite(output, 1, needed, stdout);
    free(input);
    free(output);
    return status;
}
