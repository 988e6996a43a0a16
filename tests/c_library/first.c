/* A first text, a text that stops, texts that end in start states, and where they enter these, a refused rule text, one with all its faults, warnings, a document through edits, and a scanner, as a user of the header writes them. */
#include "check.h"

#include <stdlib.h>

static void show(lrlex_definition *d, const char *text, const lrlex_token *tokens, const lrlex_lexed *lexed) {
    for (size_t i = 0; i < lexed->count; i++) {
        uint8_t name[64];
        lrlex_place place;
        size_t len = 0;
        CHECK(lrlex_name(d, tokens[i].id, name, sizeof name, &len) == LRLEX_OK && len <= sizeof name);
        CHECK(lrlex_places(bytes(text), strlen(text), &tokens[i].start, 1, &place, 1) == LRLEX_OK);
        printf("%zu:%zu %.*s %.*s\n", place.line, place.column, (int)len, (const char *)name, (int)tokens[i].len,
               text + tokens[i].start);
    }
    if (lexed->stopped) printf("stopped at %zu in state %zu\n", lexed->end, lexed->state);
}

static void lex(const char *text) {
    lrlex_definition d = LRLEX_EMPTY;
    lrlex_token few[1];
    lrlex_lexed lexed;
    CHECK(define(&d, WORDS) == LRLEX_OK);
    CHECK(lrlex_lex(&d, bytes(text), strlen(text), few, 1, &lexed) == LRLEX_OK);
    const size_t count = lexed.count;
    lrlex_token *tokens = malloc((count + 1) * sizeof *tokens);
    if (!tokens) exit(2);
    CHECK(lrlex_lex(&d, bytes(text), strlen(text), tokens, count, &lexed) == LRLEX_OK);
    CHECK(lexed.count == count);
    CHECK(count == 0 || memcmp(&few[0].start, &tokens[0].start, sizeof few[0].start) == 0);
    show(&d, text, tokens, &lexed);
    free(tokens);
    lrlex_free(&d);
    CHECK(d.hidden == NULL);
}

/* Texts that end in start states, with room for one token: all are counted, the first is written, and what is behind the room stays. */
static void count(void) {
    const char *texts[] = {"ab\"cd", "ab\"cd\"", "ab\"?", "?"};
    lrlex_definition d = LRLEX_EMPTY;
    CHECK(define(&d, "%x S\n%%\n[a-z]+ 'ID'\n\" <+S>;\n<S>\" <-S>;\n<S>[a-z]+ 'TEXT'\n") == LRLEX_OK);
    for (size_t i = 0; i < 4; i++) {
        lrlex_token tokens[2] = {{7, 7, 7}, {7, 7, 7}};
        lrlex_lexed lexed;
        CHECK(lrlex_lex(&d, bytes(texts[i]), strlen(texts[i]), tokens, 1, &lexed) == LRLEX_OK);
        CHECK(tokens[0].start == (lexed.count ? 0 : 7) && tokens[0].len == (lexed.count ? 2 : 7) && tokens[1].start == 7 && tokens[1].id == 7);
        printf("%zu tokens, end %zu in state %zu%s\n", lexed.count, lexed.end, lexed.state, lexed.stopped ? ", stopped" : "");
    }
    lrlex_free(&d);
}

static void show_entered(int status, const lrlex_entered *entered) {
    if (status == LRLEX_OK) printf("state %zu, entered at %zu to %zu\n", entered->state, entered->start, entered->end);
    else printf("%s\n", status == LRLEX_NONE ? "not entered" : "failed");
}

/* Where texts enter the start states in which they end, and a document that is edited. */
static void enter(void) {
    const char *texts[] = {"a /* b /* c */ d", "a /* b /* c", "a /* b */ c", "", "/*", "a /* b * c", "a ? /*"};
    lrlex_definition d = LRLEX_EMPTY;
    lrlex_document document = LRLEX_EMPTY;
    lrlex_entered entered;
    CHECK(define(&d, NESTED) == LRLEX_OK);
    for (size_t i = 0; i < sizeof texts / sizeof *texts; i++) show_entered(lrlex_entered_by(&d, bytes(texts[i]), strlen(texts[i]), &entered), &entered);
    CHECK(lrlex_document_new(&d, &document, bytes(texts[0]), strlen(texts[0])) == LRLEX_OK);
    show_entered(lrlex_document_entered_by(&document, &entered), &entered);
    /* without the end of the inner comment, and then without its beginning too */
    CHECK(lrlex_document_edit(&document, 12, 14, bytes(""), 0) == LRLEX_OK);
    show_entered(lrlex_document_entered_by(&document, &entered), &entered);
    CHECK(lrlex_document_edit(&document, 7, 9, bytes("*/"), 2) == LRLEX_OK);
    show_entered(lrlex_document_entered_by(&document, &entered), &entered);
    lrlex_free(&document);
    /* a rule that goes back to INITIAL */
    CHECK(define(&d, "%x S\n%%\na ;\n\" <S>;\n<S>\" <INITIAL>;\n<S>a ;\n") == LRLEX_OK);
    show_entered(lrlex_entered_by(&d, bytes("a\"aa\"a"), 6, &entered), &entered);
    lrlex_free(&d);
}

static void refuse(const char *rules, int (*read)(lrlex_definition *, const char *)) {
    lrlex_definition d = LRLEX_EMPTY;
    uint8_t text[1024];
    size_t len = 0;
    CHECK(read(&d, rules) == LRLEX_REFUSED);
    const size_t count = lrlex_fault_count(&d);
    for (size_t i = 0; i < count; i++) {
        lrlex_fault fault;
        CHECK(lrlex_fault_at(&d, i, &fault) == LRLEX_OK);
        CHECK(lrlex_fault_text(&d, i, text, sizeof text, &len) == LRLEX_OK && len <= sizeof text);
        printf("kind %u, %.*s:", (unsigned)fault.kind, (int)len, (const char *)text);
        for (size_t k = 0; k < fault.spans; k++) {
            lrlex_fault_span span;
            CHECK(lrlex_fault_span_at(&d, i, k, &span) == LRLEX_OK);
            CHECK(k > 0 || (span.start == fault.start && span.end == fault.end && span.line == fault.line && span.column == fault.column));
            printf(" %zu:%zu, bytes %zu to %zu", span.line, span.column, span.start, span.end);
        }
        CHECK(lrlex_fault_message(&d, i, text, sizeof text, &len) == LRLEX_OK && len <= sizeof text);
        printf("\n  %.*s\n", (int)len, (const char *)text);
    }
    CHECK(lrlex_fault_report(&d, bytes("a.l"), 3, text, sizeof text, &len) == LRLEX_OK && len <= sizeof text);
    fwrite(text, 1, len, stdout);
    lrlex_free(&d);
}

/* What a rule text says that its author hardly meant. */
static void warn(const char *rules) {
    lrlex_definition d = LRLEX_EMPTY;
    lrlex_warning warnings[8];
    uint8_t text[1024];
    size_t count = 0, len = 0;
    CHECK(check_rules(&d, rules) == LRLEX_OK);
    CHECK(lrlex_warnings(&d, bytes(rules), strlen(rules), warnings, 8, &count) == LRLEX_OK && count <= 8);
    for (size_t i = 0; i < count; i++) {
        const lrlex_warning *it = &warnings[i];
        CHECK(lrlex_warning_name(it->kind, text, sizeof text, &len) == LRLEX_OK && len <= sizeof text);
        printf("%zu:%zu, bytes %zu to %zu, kind %u, %.*s", it->line, it->column, it->start, it->end, (unsigned)it->kind, (int)len, (const char *)text);
        CHECK(lrlex_warning_text(it->kind, text, sizeof text, &len) == LRLEX_OK && len <= sizeof text);
        printf(": %.*s\n", (int)len, (const char *)text);
    }
    CHECK(lrlex_warning_report(&d, bytes("a.l"), 3, bytes(rules), strlen(rules), text, sizeof text, &len) == LRLEX_OK && len <= sizeof text);
    printf("%zu warnings\n%.*s", count, (int)len, (const char *)text);
    lrlex_free(&d);
}

/* The names of kinds, up to the first number that none has. */
static void kinds(int (*name_of)(uint32_t, uint8_t *, size_t, size_t *)) {
    uint8_t name[64];
    size_t len = 0;
    for (uint32_t kind = 0; name_of(kind, name, sizeof name, &len) == LRLEX_OK; kind++) printf("%s%.*s", kind ? " " : "", (int)len, (const char *)name);
    puts("");
}

/* The names of a definition's rules and start states. */
static void names(void) {
    lrlex_definition d = LRLEX_EMPTY;
    uint8_t name[64];
    size_t len = 0;
    CHECK(define(&d, "%x STRING\n%%\na 'A'\n<STRING>b ;\n") == LRLEX_OK);
    for (size_t i = 0; i < lrlex_rule_count(&d); i++) {
        lrlex_rule rule;
        CHECK(lrlex_rule_at(&d, i, &rule) == LRLEX_OK);
        CHECK(lrlex_rule_name(&d, i, name, sizeof name, &len) == (rule.has_name ? LRLEX_OK : LRLEX_NONE));
        if (rule.has_name) printf("rule %zu: %.*s, id %u, bytes %zu to %zu\n", i, (int)len, (const char *)name, (unsigned)rule.id, rule.name_start, rule.name_end);
    }
    for (size_t i = 0; i < lrlex_state_count(&d); i++) {
        lrlex_state state;
        CHECK(lrlex_state_at(&d, i, &state) == LRLEX_OK);
        CHECK(lrlex_state_name(&d, i, name, sizeof name, &len) == LRLEX_OK && len == state.name_len);
        printf("state %zu: %.*s%s\n", state.id, (int)len, (const char *)name, state.exclusive ? ", exclusive" : "");
    }
    lrlex_free(&d);
}

/* Ids that are those of a grammar. */
static void ids(void) {
    const lrlex_named_id given[] = {{bytes("ID"), 2, 70}, {bytes("WORD"), 4, 8}, {bytes("ID"), 2, 71}};
    const char *text = "abc 123";
    lrlex_definition d = LRLEX_EMPTY;
    lrlex_token tokens[8];
    lrlex_lexed lexed;
    bool missing[3];
    CHECK(define(&d, WORDS) == LRLEX_OK);
    CHECK(lrlex_definition_set_rule_ids(&d, given, 3, missing, 3) == LRLEX_OK);
    for (size_t i = 0; i < 3; i++)
        if (missing[i]) printf("no rule has the name %.*s\n", (int)given[i].name_len, (const char *)given[i].name);
    for (size_t i = 0; i < lrlex_rule_count(&d); i++) {
        lrlex_rule rule;
        CHECK(lrlex_rule_at(&d, i, &rule) == LRLEX_OK);
        if (rule.has_name && !rule.has_id) printf("rule %zu has no id\n", i);
    }
    CHECK(lrlex_lex(&d, bytes(text), strlen(text), tokens, 8, &lexed) == LRLEX_OK);
    show(&d, text, tokens, &lexed);
    CHECK(lexed.stopped && !lexed.unmatched && tokens[0].id == 71);
    lrlex_free(&d);
}

static void show_document(lrlex_document *document) {
    lrlex_token tokens[16];
    lrlex_lexed lexed;
    CHECK(lrlex_document_tokens(document, 0, tokens, 16, &lexed) == LRLEX_OK);
    for (size_t i = 0; i < lexed.count; i++) printf("%s%zu+%zu:%u", i ? " " : "", tokens[i].start, tokens[i].len, (unsigned)tokens[i].id);
    printf(", end %zu%s\n", lexed.end, lexed.stopped ? ", stopped" : "");
}

/* The document's text, its places, and the pieces of a part. */
static void show_parts(lrlex_document *document) {
    uint8_t text[32];
    lrlex_piece pieces[16];
    lrlex_lexed lexed;
    lrlex_place place, position;
    size_t len = 0, written = 0;
    CHECK(lrlex_document_len(document, &len) == LRLEX_OK);
    CHECK(lrlex_document_text(document, 0, len, text, sizeof text, &written) == LRLEX_OK && written == len);
    CHECK(lrlex_document_place(document, len, &place) == LRLEX_OK);
    CHECK(lrlex_document_position(document, len, &position) == LRLEX_OK);
    CHECK(lrlex_document_offset_at(document, position.line, position.column, LRLEX_UTF16, &written) == LRLEX_OK && written == len);
    printf("%.*s, to %zu:%zu, %zu:%zu\n", (int)len, (const char *)text, place.line, place.column, position.line, position.column);
    CHECK(lrlex_document_pieces(document, pieces, 16, &lexed) == LRLEX_OK);
    printf("%zu pieces\n", lexed.count);
    CHECK(lrlex_document_pieces_in(document, 4, 7, pieces, 16, &lexed) == LRLEX_OK);
    for (size_t i = 0; i < lexed.count; i++) printf("piece %zu+%zu of rule %zu\n", pieces[i].start, pieces[i].len, pieces[i].rule);
}

static void edit(void) {
    lrlex_definition d = LRLEX_EMPTY;
    lrlex_document document = LRLEX_EMPTY;
    CHECK(define(&d, WORDS) == LRLEX_OK);
    CHECK(lrlex_document_new(&d, &document, bytes("abc 123"), 7) == LRLEX_OK);
    lrlex_free(&d); /* the document keeps what it needs */
    show_document(&document);
    CHECK(lrlex_document_edit(&document, 3, 4, bytes(""), 0) == LRLEX_OK);
    show_document(&document);
    CHECK(lrlex_document_edit(&document, 6, 6, bytes(" ?"), 2) == LRLEX_OK);
    show_document(&document);
    show_parts(&document);
    lrlex_free(&document);
    CHECK(document.hidden == NULL);
}

/* The tiles of a text, two at a time. */
static void scan(const char *text) {
    lrlex_definition d = LRLEX_EMPTY;
    lrlex_scanner scanner = LRLEX_EMPTY;
    lrlex_tile tiles[2];
    lrlex_scanned scanned;
    CHECK(define(&d, WORDS) == LRLEX_OK);
    CHECK(lrlex_scanner_new(&d, &scanner, bytes(text), strlen(text)) == LRLEX_OK);
    lrlex_free(&d); /* the scanner keeps what it needs */
    do {
        CHECK(lrlex_scanner_next(&scanner, tiles, 2, &scanned) == LRLEX_OK);
        for (size_t i = 0; i < scanned.count; i++) {
            printf("%zu+%zu of rule %zu", tiles[i].start, tiles[i].len, tiles[i].rule);
            if (tiles[i].has_id) printf(", id %u", (unsigned)tiles[i].id);
            puts("");
        }
    } while (scanned.end == LRLEX_SCAN_MORE);
    printf("at %zu, end %u in state %zu\n", scanned.place, (unsigned)scanned.end, scanned.state);
    lrlex_free(&scanner);
    CHECK(scanner.hidden == NULL);
}

/* The places of bytes in any order, past the text's end and inside a character too, with room for one fewer. */
static void places(void) {
    const char *text = "\xc3\xa9\nb c";
    const size_t asked[] = {0, 2, 5, 3, 1, SIZE_MAX, 4, 4};
    lrlex_place found[8] = {{0, 0}};
    CHECK(lrlex_places(bytes(text), strlen(text), asked, 8, found, 7) == LRLEX_OK);
    for (size_t i = 0; i < 7; i++) printf("%s%zu:%zu", i ? " " : "places ", found[i].line, found[i].column);
    puts("");
    CHECK(found[7].line == 0 && found[7].column == 0);
}

int main(void) {
    lex("abc 123");
    lex("ab ?");
    lex("");
    count();
    enter();
    refuse("%x A A\n%%\na+b 'A'\nb 'A'\nc( 'C'\n", define);
    refuse("%x A A\n%%\nc( 'C'\na 'A'\nb 'A'\n<B>b ;\n", check_rules);
    warn("%x S\n%%\n[a-z]+ 'ID'\nif 'IF'\n\"[^\"]*\" 'S'\n");
    warn("%%\na 'A'\n");
    kinds(lrlex_fault_name);
    kinds(lrlex_warning_name);
    names();
    ids();
    edit();
    places();
    scan("ab 1 c");
    scan("");
    scan("ab?");
    CHECK(lrlex_version() == LRLEX_VERSION);
    return failed;
}
