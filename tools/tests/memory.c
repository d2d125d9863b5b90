/* Refuses the library memory, one request after the other: each answer has to be that of the call with all memory, a refusal's perhaps without its
   hint, or `out of memory`, and no block may be left. Linked with --wrap for malloc, realloc and free. Prints how many calls were made; status 1 where anything else was seen. */
#include "jslint.h"
#include <stdio.h>
#include <stdlib.h>
#include <string.h>

#define ROOM 65536
#define NO_MEMORY "jslint: out of memory\n"
#define HINT " (perhaps: --"

void *__real_malloc(size_t size);
void *__real_realloc(void *block, size_t size);
void __real_free(void *block);

/* The requests since the last call began, which of them is refused, whether all after it are too, and the blocks that are held. */
static long asked, refused, is_for_good, held;

static int is_refused(void) {
    asked++;
    return refused && (asked == refused || (is_for_good && asked > refused));
}

void *__wrap_malloc(size_t size) {
    void *block = is_refused() ? NULL : __real_malloc(size);
    held += block != NULL;
    return block;
}

void *__wrap_realloc(void *block, size_t size) {
    return is_refused() ? NULL : __real_realloc(block, size);
}

void __wrap_free(void *block) {
    held -= block != NULL;
    __real_free(block);
}

struct answer {
    uint8_t bytes[ROOM];
    struct jslint_outcome outcome;
};

static void ask(struct answer *answer, uint32_t command, const char *text, const char *second) {
    asked = 0;
    jslint_answer(command, (const uint8_t *)text, strlen(text), (const uint8_t *)second, strlen(second), answer->bytes, ROOM, &answer->outcome);
}

static int is_same(const struct answer *one, const struct answer *other) {
    return one->outcome.length == other->outcome.length && one->outcome.status == other->outcome.status &&
           one->outcome.is_refusal == other->outcome.is_refusal && !memcmp(one->bytes, other->bytes, one->outcome.length);
}

static int is_no_memory(const struct answer *answer) {
    return answer->outcome.length == strlen(NO_MEMORY) && answer->outcome.status == 2 && answer->outcome.is_refusal &&
           !memcmp(answer->bytes, NO_MEMORY, strlen(NO_MEMORY));
}

/* Whether it is the whole answer, a refusal, without the hint, for which memory was refused. */
static int is_without_hint(const struct answer *now, const struct answer *whole) {
    size_t hint = strlen(HINT), front = now->outcome.length - 1;
    return now->outcome.length > 0 && now->outcome.status == whole->outcome.status && now->outcome.is_refusal && whole->outcome.is_refusal && now->bytes[front] == '\n' &&
           front + hint <= whole->outcome.length && !memcmp(now->bytes, whole->bytes, front) && !memcmp(whole->bytes + front, HINT, hint);
}

/* The calls that were made for a command with each request refused, or -1. */
static long refuse_each(uint32_t command, const char *text, const char *second) {
    static struct answer whole, now;
    long calls = 0;
    refused = 0;
    ask(&whole, command, text, second);
    do {
        refused++;
        ask(&now, command, text, second);
        calls++;
        if (held || !(is_same(&now, &whole) || (asked >= refused && (is_no_memory(&now) || is_without_hint(&now, &whole))))) {
            fprintf(stderr, "command %u, request %ld of %ld refused, %ld blocks held: %.*s\n", command, refused, asked, held, (int)now.outcome.length, now.bytes);
            return -1;
        }
    } while (asked >= refused);
    return calls;
}

int main(void) {
    enum { COMMANDS = JSLINT_UNWRAP + 1, TEXTS = 8 };
    static const char *const texts[TEXTS] = {"", "let x = (1); x; { let x = 2; x = 3; }", "for (x = (a in b) && (c in d);;); (({})).a", "a b", "let a; let a;",
                                             "class A extends B { m(x = `${[...y]}`) { return super.m({ x, ...z }) ** 2 } } new (f())(), a?.[b]",
                                             "x = ( // c\n  (a) /* d */ + (b)); let q = (new (f().g))(1), h = (i)++ + (j)", "async () => await import.meta;"};
    static const char *const seconds[] = {"globals = [\"a\"]\n[rules]\nno-var = false\n", "jslint-cost 2\n1 Identifier\ntotal 0\n"};
    long calls = 0;
    for (int at = 0; at < 2 * 2 * COMMANDS * TEXTS; at++) {
        is_for_good = at & 1;
        long made = refuse_each(at / 4 % COMMANDS, texts[at / (4 * COMMANDS)], seconds[at / 2 & 1]);
        if (made < 0) {
            return 1;
        }
        calls += made;
    }
    printf("%ld calls\n", calls);
    return 0;
}
