/* Answers commands by the library, for tools/tests/libraries.py: a line `LANGUAGE COMMAND LENGTH SECOND_LENGTH` and then both texts for each question, and for
   each answer a line `STATUS IS_REFUSAL LENGTH` and then its bytes. */
#include "jslint.h"
#include <stdio.h>
#include <stdlib.h>

static uint8_t *reserve(uint8_t *bytes, size_t length) {
    bytes = realloc(bytes, length + 1);
    if (!bytes) {
        exit(2);
    }
    return bytes;
}

int main(void) {
    uint8_t *text = NULL, *second = NULL, *room = NULL;
    size_t length, second_length, room_length = 1 << 20;
    unsigned language, command;
    struct jslint_outcome outcome;
    room = reserve(room, room_length);
    while (scanf("%u %u %zu %zu", &language, &command, &length, &second_length) == 4 && getchar() == '\n') {
        text = reserve(text, length);
        second = reserve(second, second_length);
        if (fread(text, 1, length, stdin) < length || fread(second, 1, second_length, stdin) < second_length) {
            return 2;
        }
        jslint_answer_in(language, command, text, length, second, second_length, room, room_length, &outcome);
        if (outcome.length > room_length) {
            room_length = outcome.length;
            room = reserve(room, room_length);
            jslint_answer_in(language, command, text, length, second, second_length, room, room_length, &outcome);
        }
        printf("%u %u %zu\n", outcome.status, outcome.is_refusal, outcome.length);
        fwrite(room, 1, outcome.length, stdout);
        fflush(stdout);
    }
    return 0;
}
