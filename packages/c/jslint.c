/* An example: the commands of the program by the library, with the program's words, answers and statuses.

       cc -o jslint jslint.c libjslint.a
       ./jslint fix|unwrap|mend|format|tree|cost|check FILE
       ./jslint check --spans --settings SETTINGS FILE
       ./jslint verify FILE TABLE
       ./jslint same FILE OTHER

   Each takes `--edition 2020`, `--edition 2022`, `--module` or `--any`. `-` is standard input, as one of the files. */
#include "jslint.h"
#include <stdio.h>
#include <stdlib.h>
#include <string.h>

struct bytes {
    uint8_t *data;
    size_t length, capacity;
};

static int refuse(const char *line) {
    fprintf(stderr, "jslint: %s\n", line);
    return 2;
}

/* Gives the bytes room for so many in all. */
static int reserve(struct bytes *bytes, size_t capacity) {
    uint8_t *data = realloc(bytes->data, capacity);
    if (!data) {
        return 0;
    }
    bytes->data = data;
    bytes->capacity = capacity;
    return 1;
}

/* Reads a file to its end, no name as an empty one and `-` as standard input. Answers what went wrong, if anything did. */
static const char *read_file(const char *name, struct bytes *bytes) {
    FILE *file = !name ? NULL : strcmp(name, "-") ? fopen(name, "rb") : stdin;
    const char *wrong = reserve(bytes, 1 << 16) ? NULL : "out of memory";
    if (name && !file) {
        return "read failed";
    }
    for (size_t got = 1; file && !wrong && got;) {
        got = fread(bytes->data + bytes->length, 1, bytes->capacity - bytes->length, file);
        bytes->length += got;
        if (bytes->length == bytes->capacity && !reserve(bytes, 2 * bytes->capacity)) {
            wrong = "out of memory";
        }
    }
    if (file && ferror(file)) {
        wrong = "read failed";
    }
    if (file) {
        fclose(file);
    }
    return wrong;
}

static int write_answer(const struct bytes *answer, const struct jslint_outcome *outcome) {
    FILE *to = outcome->is_refusal ? stderr : stdout;
    if (fwrite(answer->data, 1, answer->length, to) < answer->length || fflush(to)) {
        return refuse("write failed");
    }
    return (int)outcome->status;
}

static int run(uint32_t language, uint32_t command, const char *name, const char *second_name) {
    struct bytes text = {0}, second = {0}, answer = {0};
    struct jslint_outcome outcome;
    const char *wrong = read_file(name, &text);
    wrong = wrong ? wrong : read_file(second_name, &second);
    wrong = wrong || reserve(&answer, 3 * text.length + 4096) ? wrong : "out of memory";
    if (wrong) {
        return refuse(wrong);
    }
    jslint_answer_in(language, command, text.data, text.length, second.data, second.length, answer.data, answer.capacity, &outcome);
    if (outcome.length > answer.capacity) {
        if (!reserve(&answer, outcome.length)) {
            return refuse("out of memory");
        }
        jslint_answer_in(language, command, text.data, text.length, second.data, second.length, answer.data, answer.capacity, &outcome);
    }
    answer.length = outcome.length;
    int status = write_answer(&answer, &outcome);
    free(text.data);
    free(second.data);
    free(answer.data);
    return status;
}

/* How many commands there are. */
enum { COMMANDS = JSLINT_MEND + 1 };

/* The number of a command's name, or COMMANDS. (`check --spans` has no name of its own.) */
static uint32_t command_of(const char *name) {
    static const char *const names[COMMANDS] = {"check", "tree", "fix", "cost", "verify", "unwrap", "", "same", "format", "mend"};
    uint32_t command = 0;
    while (command < COMMANDS && strcmp(name, names[command])) {
        command++;
    }
    return command;
}

/* What the words say. */
struct line {
    uint32_t language, command;
    const char *names[2], *settings;
    int files, has_spans;
};

/* Takes a word and perhaps the one behind it, or answers that they make no sense: how many words were taken, or 0. */
static int take(struct line *line, const char *word, const char *next) {
    int is_check = line->command == JSLINT_CHECK, has_settings = is_check || line->command == JSLINT_MEND;
    if (!strcmp(word, "--")) {
        return 1;
    }
    if (!strcmp(word, "--any")) {
        int is_well = line->language == JSLINT_UNSAID;
        line->language = JSLINT_ANY;
        return is_well;
    }
    if (!strcmp(word, "--module")) {
        int is_well = line->language != JSLINT_EDITION_2020 && line->language != JSLINT_ANY;
        line->language = JSLINT_MODULE;
        return is_well;
    }
    if (!strcmp(word, "--edition") && next && (!strcmp(next, "2020") || !strcmp(next, "2022"))) {
        int is_2020 = !strcmp(next, "2020"), is_module = line->language == JSLINT_MODULE;
        if (line->language == JSLINT_ANY) {
            return 0;
        }
        line->language = is_module ? JSLINT_MODULE : is_2020 ? JSLINT_EDITION_2020 : JSLINT_EDITION_2022;
        return is_module && is_2020 ? 0 : 2;
    }
    if (!strcmp(word, "--settings") && has_settings && next) {
        line->settings = next;
        return 2;
    }
    if (!strcmp(word, "--spans") && is_check) {
        line->has_spans = 1;
        return 1;
    }
    if (line->files == 2) {
        return 0;
    }
    line->names[line->files++] = word;
    return 1;
}

static const char usage[] = "usage: jslint check [--spans] [--settings SETTINGS] FILE, jslint mend [--settings SETTINGS] FILE, jslint fix|unwrap|format|tree|cost FILE, jslint verify FILE TABLE, or jslint same FILE OTHER,"
                            " each with --edition 2020|2022, --module or --any";

int main(int count, char **words) {
    struct line line = {.command = count > 1 ? command_of(words[1]) : COMMANDS};
    int has_two = line.command == JSLINT_VERIFY || line.command == JSLINT_SAME;
    if (line.command == COMMANDS || line.command == JSLINT_SPANS) {
        return refuse(usage);
    }
    for (int at = 2, taken = 1; at < count; at += taken) {
        taken = take(&line, words[at], words[at + 1]);
        if (!taken) {
            return refuse(usage);
        }
    }
    if (line.files != (has_two ? 2 : 1)) {
        return refuse(usage);
    }
    const char *second = has_two ? line.names[1] : line.settings;
    if (second && !strcmp(line.names[0], "-") && !strcmp(second, "-")) {
        return refuse("read failed: -: both files are standard input");
    }
    return run(line.language, line.has_spans ? JSLINT_SPANS : line.command, line.names[0], second);
}
