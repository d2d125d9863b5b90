/* jslint for C: the nine commands over bytes in memory, `check` in two forms, `format` without further words. docs/EMBEDDING.md says what is proved of them. */
#ifndef JSLINT_H
#define JSLINT_H
#include <stddef.h>
#include <stdint.h>
#ifdef __cplusplus
extern "C" {
#endif

/* JSLINT_SPANS is `check --spans`. */
enum jslint_command { JSLINT_CHECK, JSLINT_TREE, JSLINT_FIX, JSLINT_COST, JSLINT_VERIFY, JSLINT_UNWRAP, JSLINT_SPANS, JSLINT_SAME, JSLINT_FORMAT, JSLINT_MEND };

/* What is said of the language of scripts: nothing (the base profile, or what the settings of `check` say), the base profile, strict scripts of
   ECMAScript 2022 (or what the settings say), modules of it; or that the first that accepts the script is taken, of the base profile, scripts of 2022 and
   modules. */
enum jslint_language { JSLINT_UNSAID, JSLINT_EDITION_2020, JSLINT_EDITION_2022, JSLINT_MODULE, JSLINT_ANY };

struct jslint_outcome {
    size_t length;       /* how many bytes the answer has; where there is less room, its beginning stands there */
    uint32_t status;     /* the exit status of the program: 0, 1 or 2 */
    uint32_t is_refusal; /* 1 where the answer is the line of a refusal, else 0 */
};

/* Answers a command in a language for a script and a second text, which `check` reads as its settings, in either form, `verify` as its cost table and `same` as the
   script to compare with; to the other commands it is nothing. What the program would write, to its standard output or as the line of a refusal to its standard error, is put into the room. Where
   the outcome's length is more than the room's, call again with so much room.

   The caller keeps all memory. The four stretches lie apart, and none of the pointers is null, even where a length is 0. A number of no command or
   of no language has no answer: length 0, status 2, a refusal.

   Memory comes from malloc, and all of it is freed before the call returns; where it is refused, the answer is the refusal `out of memory`. Calls
   may run side by side in several threads. The calling thread needs a stack of 6 MiB for the most deeply nested scripts: the main thread of
   Linux has 8, and a thread has what its maker gives it. */
void jslint_answer_in(uint32_t language, uint32_t command, const uint8_t *text, size_t text_length, const uint8_t *second, size_t second_length,
                      uint8_t *room, size_t room_length, struct jslint_outcome *outcome);

/* The same where nothing is said of the language. */
void jslint_answer(uint32_t command, const uint8_t *text, size_t text_length, const uint8_t *second, size_t second_length, uint8_t *room,
                   size_t room_length, struct jslint_outcome *outcome);

#ifdef __cplusplus
}
#endif
#endif
