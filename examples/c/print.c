/* Prints what seat prints of the input on standard input, or with the word rehearse what rehearse prints. */
#include "pallurge.h"

#include <stdio.h>
#include <stdlib.h>
#include <string.h>

typedef int64_t Call(const uint8_t *, size_t, uint8_t *, size_t);

/* The input, or as much of it as shows that it is too long. */
static uint8_t input[65536 + 1];

int main(int argc, char **argv) {
    Call *call = argc > 1 && strcmp(argv[1], "rehearse") == 0 ? pallurge_rehearse : pallurge_seat;
    size_t input_length = fread(input, 1, sizeof input, stdin);

    /* The first call has an empty buffer, so it answers the length that is needed. */
    uint8_t empty[1];
    int64_t answer = call(input, input_length, empty, 0);
    if (answer == PALLURGE_NO_MEMORY) {
        return EXIT_FAILURE;
    }
    size_t length = (size_t)-answer;

    uint8_t *buffer = malloc(length + 1);
    if (buffer == NULL || call(input, input_length, buffer, length) < 0) {
        return EXIT_FAILURE;
    }
    fwrite(buffer, 1, length, stdout);
    free(buffer);
    return EXIT_SUCCESS;
}
