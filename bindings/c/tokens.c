/* Prints the tokens of a text, as the program lrlex does: tokens RULES INPUT
 * The status is 0 if the whole text is lexed, and else 1. Standard error has what is wrong. */
#include <lrlex.h>
#include <stdio.h>
#include <stdlib.h>
#include <string.h>

typedef struct text { uint8_t *bytes; size_t len; } text;

/* Prints a message with a path in it. */
static void say(const char *before, const char *path, const char *after) { fprintf(stderr, "%s%s%s\n", before, path, after); }

/* Prints why a call failed that was given the text of this file. */
static void say_why(int answer, const char *path) {
    if (answer == LRLEX_NOT_UTF8) say("File ", path, " is not UTF-8");
    else if (answer == LRLEX_NOMEM) say("Out of memory", "", "");
    else fprintf(stderr, "lrlex status %d\n", answer);
}

/* Reads the rest of a file. 0; LRLEX_NOMEM; -1: it can't be read. */
static int read_rest(FILE *file, text *it) {
    size_t room = 0;
    do {
        room = 2 * room + 4096;
        uint8_t *more = realloc(it->bytes, room);
        if (!more) return LRLEX_NOMEM;
        it->bytes = more;
        it->len += fread(it->bytes + it->len, 1, room - it->len, file);
    } while (it->len == room);
    return ferror(file) ? -1 : 0;
}

/* Reads a file, or prints why it can't be read. `bytes` is for the caller to free. */
static bool read_file(const char *path, text *it) {
    FILE *file = fopen(path, "rb");
    int answer = file ? read_rest(file, it) : -1;
    if (file) fclose(file);
    if (answer == -1) say("Can't open file ", path, "");
    else if (answer) say_why(answer, path);
    return answer == 0;
}

/* Prints what is wrong with the rule text, as compilers print errors. */
static void print_faults(lrlex_definition *definition, const char *path) {
    uint8_t none[1], *report = NULL;
    size_t len = 0;
    int answer = lrlex_fault_report(definition, (const uint8_t *)path, strlen(path), none, 0, &len);
    if (answer == LRLEX_NOT_UTF8) { /* a name that is not UTF-8 is not shown */
        path = "RULES";
        answer = lrlex_fault_report(definition, (const uint8_t *)path, strlen(path), none, 0, &len);
    }
    if (answer == LRLEX_OK && !(report = malloc(len + 1))) answer = LRLEX_NOMEM;
    if (answer == LRLEX_OK) answer = lrlex_fault_report(definition, (const uint8_t *)path, strlen(path), report, len, &len);
    if (answer == LRLEX_OK) fwrite(report, 1, len, stderr);
    else say_why(answer, path);
    free(report);
}

/* Prints the name of a token, however long. */
static int print_name(lrlex_definition *definition, uint32_t id) {
    uint8_t usual[256], *name = usual;
    size_t len = 0;
    int answer = lrlex_name(definition, id, usual, sizeof usual, &len);
    if (answer == LRLEX_OK && len > sizeof usual) {
        name = malloc(len);
        answer = name ? lrlex_name(definition, id, name, len, &len) : LRLEX_NOMEM;
    }
    if (answer == LRLEX_OK) fwrite(name, 1, len, stdout);
    if (name != usual) free(name);
    return answer;
}

/* Prints the tokens, and where lexing stops. `all` is then whether that is the text's end. */
static int print_tokens(lrlex_definition *definition, text input, bool *all) {
    lrlex_lexed lexed;
    /* a token has a byte at least, so there is room for all */
    lrlex_token *tokens = malloc((input.len + 1) * sizeof *tokens);
    int answer = tokens ? lrlex_lex(definition, input.bytes, input.len, tokens, input.len, &lexed) : LRLEX_NOMEM;
    for (size_t i = 0; answer == LRLEX_OK && i < lexed.count; i++) {
        answer = print_name(definition, tokens[i].id);
        putchar(' ');
        fwrite(input.bytes + tokens[i].start, 1, tokens[i].len, stdout);
        putchar('\n');
    }
    free(tokens);
    if (answer != LRLEX_OK) return answer;
    if (lexed.stopped) printf("Couldn't lex input starting at byte %zu\n", lexed.end);
    *all = !lexed.stopped;
    return LRLEX_OK;
}

/* Prints the tokens of one file by the rules of another, or what is wrong. Gives whether the whole text is lexed and printed. */
static bool run(lrlex_definition *definition, text rules, text input, char **paths) {
    lrlex_options options = LRLEX_OPTIONS;
    bool all = false;
    int answer = lrlex_definition_new(definition, rules.bytes, rules.len, &options);
    if (answer == LRLEX_OK) {
        answer = print_tokens(definition, input, &all);
        if (answer != LRLEX_OK) say_why(answer, paths[1]);
    } else if (answer == LRLEX_REFUSED) {
        print_faults(definition, paths[0]);
    } else {
        say_why(answer, paths[0]);
    }
    if (fflush(stdout) == 0 && !ferror(stdout)) return all;
    say("Can't write", "", "");
    return false;
}

int main(int count, char **words) {
    if (count != 3) return say("Usage: tokens <lexer.l> <input file>", "", ""), 1;
    text rules = {0}, input = {0};
    lrlex_definition definition = LRLEX_EMPTY;
    bool all = read_file(words[1], &rules) && read_file(words[2], &input) && run(&definition, rules, input, words + 1);
    lrlex_free(&definition);
    free(rules.bytes);
    free(input.bytes);
    return all ? 0 : 1;
}
