/* What the tests in C share. */
#ifndef CHECK_H
#define CHECK_H

#include "lrlex.h"

#include <stdio.h>
#include <string.h>

#define CHECK(condition) check((condition) != 0, #condition, __FILE__, __LINE__)

static int failed = 0;

static void check(int holds, const char *what, const char *file, int line) {
    if (!holds) {
        printf("%s:%d: %s\n", file, line, what);
        failed = 1;
    }
}

static const char WORDS[] = "%%\n[0-9]+ 'INT'\n[a-z]+ 'ID'\n[ ] ;\n";

/* Comments that nest. Of one, `*` and `/` alone have no rule. */
static const char NESTED[] = "%x C\n%%\n[a-z]+ 'ID'\n[ ]+ ;\n<INITIAL,C>/\\* <+C>;\n<C>\\*/ <-C>;\n<C>[^*/]+ ;\n";

/* The bytes of a text that ends with a byte 0. */
static const uint8_t *bytes(const char *text) { return (const uint8_t *)text; }

/* A definition with default options. */
static int define(lrlex_definition *d, const char *rules) {
    const lrlex_options options = LRLEX_OPTIONS;
    return lrlex_definition_new(d, bytes(rules), strlen(rules), &options);
}

/* The same, with all faults where the text is refused. */
static int check_rules(lrlex_definition *d, const char *rules) {
    const lrlex_options options = LRLEX_OPTIONS;
    return lrlex_check(d, bytes(rules), strlen(rules), &options);
}

#endif
