/* lexing RULES INPUT K [WAY]: processor time of lrlex_lex into a buffer that is kept, and of a scanner, K times each, or of the way that
   is named, `lex` or `scanner`. Each goes over all that it is given. */
#include "lrlex.h"

#include <stdio.h>
#include <stdlib.h>
#include <string.h>
#include <time.h>

enum { ROOM = 512 };

static uint8_t *read_all(const char *path, size_t *len) {
    FILE *file = fopen(path, "rb");
    if (!file || fseek(file, 0, SEEK_END)) exit(2);
    *len = (size_t)ftell(file);
    uint8_t *bytes = malloc(*len + 1);
    rewind(file);
    if (!bytes || fread(bytes, 1, *len, file) != *len) exit(2);
    fclose(file);
    return bytes;
}

static void lex(lrlex_definition *d, const uint8_t *text, size_t text_len, lrlex_token *tokens) {
    lrlex_lexed lexed;
    clock_t before = clock();
    if (lrlex_lex(d, text, text_len, tokens, text_len, &lexed)) exit(2);
    size_t bytes = 0;
    for (size_t i = 0; i < lexed.count; i++) bytes += tokens[i].len;
    printf("C lex %ld %zu\n", (long)(clock() - before), bytes > 0 ? lexed.count : 0);
}

static void scan(lrlex_definition *d, const uint8_t *text, size_t text_len) {
    lrlex_scanner scanner = LRLEX_EMPTY;
    static lrlex_tile tiles[ROOM];
    lrlex_scanned scanned;
    size_t found = 0;
    clock_t before = clock();
    if (lrlex_scanner_new(d, &scanner, text, text_len)) exit(2);
    do {
        if (lrlex_scanner_next(&scanner, tiles, ROOM, &scanned)) exit(2);
        for (size_t i = 0; i < scanned.count; i++) found += tiles[i].has_id;
    } while (scanned.end == LRLEX_SCAN_MORE);
    lrlex_free(&scanner);
    printf("C scanner %ld %zu\n", (long)(clock() - before), found);
}

int main(int count, char **words) {
    if (count < 4) return 2;
    const char *way = count > 4 ? words[4] : "";
    size_t rules_len, text_len;
    uint8_t *rules = read_all(words[1], &rules_len), *text = read_all(words[2], &text_len);
    const lrlex_options options = LRLEX_OPTIONS;
    lrlex_definition d = LRLEX_EMPTY;
    if (lrlex_definition_new(&d, rules, rules_len, &options)) return 2;
    lrlex_token *tokens = malloc((text_len + 1) * sizeof *tokens);
    if (!tokens) return 2;
    for (long k = strtol(words[3], NULL, 10); k > 0; k--) {
        if (strcmp(way, "scanner")) lex(&d, text, text_len, tokens);
        if (strcmp(way, "lex")) scan(&d, text, text_len);
    }
    lrlex_free(&d);
    free(tokens), free(text), free(rules);
    return 0;
}
