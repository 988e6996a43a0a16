/* What a caller may do wrong is answered by a status, and leaves the handles as they were. */
#include "check.h"

static lrlex_token tokens[8];
static lrlex_piece pieces[8];
static lrlex_lexed lexed;
static lrlex_entered entered;
static lrlex_fault fault;
static lrlex_fault_span span;
static lrlex_warning warnings[8];
static lrlex_rule rule;
static lrlex_state state;
static lrlex_place place;
static lrlex_named_id named;
static lrlex_tile tiles[8];
static lrlex_scanned scanned;
static bool missing[2];
static uint8_t text[8];
static size_t len;

/* Calls on a definition's handle that holds no definition. */
static void none(lrlex_definition *d) {
    void *before = d->hidden;
    lrlex_document document = LRLEX_EMPTY;
    lrlex_scanner scanner = LRLEX_EMPTY;
    lrlex_definition other = LRLEX_EMPTY;
    CHECK(lrlex_lex(d, bytes("a"), 1, tokens, 8, &lexed) == LRLEX_MISUSE);
    CHECK(lrlex_pieces(d, bytes("a"), 1, pieces, 8, &lexed) == LRLEX_MISUSE);
    CHECK(lrlex_stop_report(d, bytes("f"), 1, bytes("a"), 1, text, sizeof text, &len) == LRLEX_MISUSE);
    CHECK(lrlex_entered_by(d, bytes("a"), 1, &entered) == LRLEX_MISUSE);
    CHECK(lrlex_warnings(d, bytes("%%"), 2, warnings, 8, &len) == LRLEX_MISUSE);
    CHECK(lrlex_warnings(d, bytes("\xff"), 1, warnings, 8, &len) == LRLEX_MISUSE);
    CHECK(lrlex_warning_report(d, bytes("f"), 1, bytes("%%"), 2, text, sizeof text, &len) == LRLEX_MISUSE);
    CHECK(lrlex_rule_count(d) == 0 && lrlex_state_count(d) == 0);
    CHECK(lrlex_rule_at(d, 0, &rule) == LRLEX_MISUSE);
    CHECK(lrlex_rule_name(d, 0, text, sizeof text, &len) == LRLEX_MISUSE);
    CHECK(lrlex_name(d, 0, text, sizeof text, &len) == LRLEX_MISUSE);
    CHECK(lrlex_definition_set_rule_ids(d, &named, 1, missing, 1) == LRLEX_MISUSE);
    CHECK(lrlex_state_at(d, 0, &state) == LRLEX_MISUSE);
    CHECK(lrlex_state_name(d, 0, text, sizeof text, &len) == LRLEX_MISUSE);
    CHECK(lrlex_definition_share(d, &other) == LRLEX_MISUSE);
    CHECK(lrlex_document_new(d, &document, bytes("a"), 1) == LRLEX_MISUSE);
    CHECK(lrlex_scanner_new(d, &scanner, bytes("a"), 1) == LRLEX_MISUSE);
    CHECK(d->hidden == before && document.hidden == NULL && scanner.hidden == NULL && other.hidden == NULL);
}

/* Calls on a handle that holds no faults. */
static void no_faults(lrlex_definition *d) {
    CHECK(lrlex_fault_count(d) == 0);
    CHECK(lrlex_fault_at(d, 0, &fault) == LRLEX_MISUSE);
    CHECK(lrlex_fault_span_at(d, 0, 0, &span) == LRLEX_MISUSE);
    CHECK(lrlex_fault_text(d, 0, text, sizeof text, &len) == LRLEX_MISUSE);
    CHECK(lrlex_fault_message(d, 0, text, sizeof text, &len) == LRLEX_MISUSE);
    CHECK(lrlex_fault_report(d, bytes("f"), 1, text, sizeof text, &len) == LRLEX_MISUSE);
}

/* Calls on a document's handle that holds no document. */
static void no_document(lrlex_document *document) {
    void *before = document->hidden;
    CHECK(lrlex_document_edit(document, 0, 0, bytes("a"), 1) == LRLEX_MISUSE);
    CHECK(lrlex_document_tokens(document, 0, tokens, 8, &lexed) == LRLEX_MISUSE);
    CHECK(lrlex_document_len(document, &len) == LRLEX_MISUSE);
    CHECK(lrlex_document_text(document, 0, 0, text, sizeof text, &len) == LRLEX_MISUSE);
    CHECK(lrlex_document_pieces(document, pieces, 8, &lexed) == LRLEX_MISUSE);
    CHECK(lrlex_document_pieces_in(document, 0, 1, pieces, 8, &lexed) == LRLEX_MISUSE);
    CHECK(lrlex_document_entered_by(document, &entered) == LRLEX_MISUSE);
    CHECK(lrlex_document_place(document, 0, &place) == LRLEX_MISUSE);
    CHECK(lrlex_document_position(document, 0, &place) == LRLEX_MISUSE);
    CHECK(lrlex_document_position_in(document, 0, LRLEX_UTF8, &place) == LRLEX_MISUSE);
    CHECK(lrlex_document_position_in(document, 0, 2, &place) == LRLEX_MISUSE);
    CHECK(lrlex_document_offset_at(document, 0, 0, LRLEX_UTF16, &len) == LRLEX_MISUSE);
    CHECK(lrlex_document_offset_at(document, 0, 0, 2, &len) == LRLEX_MISUSE);
    CHECK(document->hidden == before);
}

/* Calls on a scanner's handle that holds no scanner. */
static void no_scanner(lrlex_scanner *scanner) {
    void *before = scanner->hidden;
    CHECK(lrlex_scanner_next(scanner, tiles, 8, &scanned) == LRLEX_MISUSE);
    CHECK(lrlex_scanner_next(scanner, tiles, 0, &scanned) == LRLEX_MISUSE);
    CHECK(scanner->hidden == before);
}

static void handles(void) {
    lrlex_definition d = LRLEX_EMPTY, refused = LRLEX_EMPTY;
    lrlex_document document = LRLEX_EMPTY;
    lrlex_scanner scanner = LRLEX_EMPTY;
    none(&d);
    no_faults(&d);
    no_document(&document);
    no_scanner(&scanner);
    lrlex_free(&d);
    lrlex_free(&document);
    lrlex_free(&scanner);
    CHECK(define(&d, WORDS) == LRLEX_OK);
    CHECK(define(&refused, "%%\n( 'A'\n") == LRLEX_REFUSED);
    CHECK(lrlex_document_new(&d, &document, bytes("ab"), 2) == LRLEX_OK);
    CHECK(lrlex_scanner_new(&d, &scanner, bytes("ab"), 2) == LRLEX_OK);
    none(&refused);
    none((lrlex_definition *)&document);
    none((lrlex_definition *)&scanner);
    no_faults(&d);
    no_faults((lrlex_definition *)&document);
    no_faults((lrlex_definition *)&scanner);
    no_document((lrlex_document *)&d);
    no_document((lrlex_document *)&refused);
    no_document((lrlex_document *)&scanner);
    no_scanner((lrlex_scanner *)&d);
    no_scanner((lrlex_scanner *)&refused);
    no_scanner((lrlex_scanner *)&document);
    CHECK(lrlex_fault_count(&refused) == 1);
    CHECK(lrlex_fault_at(&refused, 1, &fault) == LRLEX_NONE);
    CHECK(lrlex_fault_span_at(&refused, 0, 1, &span) == LRLEX_NONE);
    CHECK(lrlex_fault_span_at(&refused, 1, 0, &span) == LRLEX_NONE);
    CHECK(lrlex_fault_span_at(&refused, SIZE_MAX, SIZE_MAX, &span) == LRLEX_NONE);
    CHECK(lrlex_fault_text(&refused, 1, text, sizeof text, &len) == LRLEX_NONE);
    CHECK(lrlex_fault_message(&refused, 1, text, sizeof text, &len) == LRLEX_NONE);
    CHECK(lrlex_fault_report(&refused, bytes("\xff"), 1, text, sizeof text, &len) == LRLEX_NOT_UTF8);
    lrlex_free(&d);
    lrlex_free(&d);
    none(&d);
    lrlex_free(&document);
    lrlex_free(&document);
    lrlex_free(&scanner);
    lrlex_free(&scanner);
    no_scanner(&scanner);
    lrlex_free(&refused);
    CHECK(!d.hidden && !document.hidden && !scanner.hidden && !refused.hidden);
}

static void texts(void) {
    static const char *const bad[] = {"\xff", "a\x80", "\xc3", "\xed\xa0\x80", "\xf4\x90\x80\x80"};
    lrlex_definition d = LRLEX_EMPTY, lone = LRLEX_EMPTY, other = LRLEX_EMPTY;
    lrlex_document document = LRLEX_EMPTY;
    CHECK(define(&d, WORDS) == LRLEX_OK && define(&lone, WORDS) == LRLEX_OK);
    CHECK(lrlex_document_new(&d, &document, bytes("ab"), 2) == LRLEX_OK);
    for (size_t i = 0; i < sizeof bad / sizeof *bad; i++) {
        const size_t size = strlen(bad[i]), at = 0;
        lrlex_document made = LRLEX_EMPTY;
        lrlex_scanner scanner = LRLEX_EMPTY;
        CHECK(define(&other, bad[i]) == LRLEX_NOT_UTF8);
        CHECK(check_rules(&other, bad[i]) == LRLEX_NOT_UTF8);
        CHECK(lrlex_warnings(&d, bytes(bad[i]), size, warnings, 8, &len) == LRLEX_NOT_UTF8);
        CHECK(lrlex_warning_report(&d, bytes("f"), 1, bytes(bad[i]), size, text, sizeof text, &len) == LRLEX_NOT_UTF8);
        CHECK(lrlex_warning_report(&d, bytes(bad[i]), size, bytes(WORDS), strlen(WORDS), text, sizeof text, &len) == LRLEX_NOT_UTF8);
        CHECK(lrlex_lex(&d, bytes(bad[i]), size, tokens, 8, &lexed) == LRLEX_NOT_UTF8);
        CHECK(lrlex_pieces(&d, bytes(bad[i]), size, pieces, 8, &lexed) == LRLEX_NOT_UTF8);
        CHECK(lrlex_stop_report(&d, bytes("f"), 1, bytes(bad[i]), size, text, sizeof text, &len) == LRLEX_NOT_UTF8);
        CHECK(lrlex_stop_report(&d, bytes(bad[i]), size, bytes("?"), 1, text, sizeof text, &len) == LRLEX_NOT_UTF8);
        CHECK(lrlex_entered_by(&d, bytes(bad[i]), size, &entered) == LRLEX_NOT_UTF8);
        CHECK(lrlex_places(bytes(bad[i]), size, &at, 1, &place, 1) == LRLEX_NOT_UTF8);
        const lrlex_named_id names[] = {{bytes("ID"), 2, 7}, {bytes(bad[i]), size, 8}};
        CHECK(lrlex_definition_set_rule_ids(&lone, names, 2, missing, 2) == LRLEX_NOT_UTF8);
        CHECK(lrlex_rule_at(&lone, 1, &rule) == LRLEX_OK && rule.has_id && rule.id == 1);
        CHECK(lrlex_document_new(&d, &made, bytes(bad[i]), size) == LRLEX_NOT_UTF8 && !made.hidden);
        CHECK(lrlex_scanner_new(&d, &scanner, bytes(bad[i]), size) == LRLEX_NOT_UTF8 && !scanner.hidden);
        CHECK(lrlex_document_edit(&document, 0, 0, bytes(bad[i]), size) == LRLEX_NOT_UTF8);
    }
    CHECK(lrlex_lex(&d, bytes(""), 0, tokens, 8, &lexed) == LRLEX_OK && lexed.count == 0 && lexed.end == 0);
    CHECK(lrlex_lex(&d, bytes("a b"), 3, tokens, 0, &lexed) == LRLEX_OK && lexed.count == 2);
    CHECK(lrlex_document_edit(&document, 1, 0, bytes(""), 0) == LRLEX_DOES_NOT_FIT);
    CHECK(lrlex_document_edit(&document, 0, 3, bytes(""), 0) == LRLEX_DOES_NOT_FIT);
    CHECK(lrlex_document_edit(&document, SIZE_MAX, SIZE_MAX, bytes(""), 0) == LRLEX_DOES_NOT_FIT);
    CHECK(lrlex_document_edit(&document, 2, 2, bytes("\xc3\xa9"), 2) == LRLEX_OK);
    CHECK(lrlex_document_edit(&document, 3, 3, bytes("x"), 1) == LRLEX_DOES_NOT_FIT);
    CHECK(lrlex_document_tokens(&document, 0, tokens, 8, &lexed) == LRLEX_OK && lexed.end == 2 && lexed.stopped);
    CHECK(lrlex_document_tokens(&document, SIZE_MAX, tokens, 8, &lexed) == LRLEX_OK && lexed.count == 1);
    CHECK(lrlex_document_text(&document, 3, 4, text, sizeof text, &len) == LRLEX_OK && len == 1 && text[0] == 0xa9);
    CHECK(lrlex_document_text(&document, 0, 5, text, sizeof text, &len) == LRLEX_DOES_NOT_FIT);
    CHECK(lrlex_document_text(&document, 2, 1, text, sizeof text, &len) == LRLEX_DOES_NOT_FIT);
    CHECK(lrlex_document_text(&document, SIZE_MAX, SIZE_MAX, text, sizeof text, &len) == LRLEX_DOES_NOT_FIT);
    CHECK(lrlex_document_pieces_in(&document, 0, SIZE_MAX, pieces, 8, &lexed) == LRLEX_OK && lexed.count == 1);
    CHECK(lrlex_document_pieces_in(&document, 9, 1, pieces, 8, &lexed) == LRLEX_OK && lexed.count == 0);
    CHECK(lrlex_document_place(&document, 3, &place) == LRLEX_OK && place.line == 1 && place.column == 3);
    CHECK(lrlex_document_place(&document, SIZE_MAX, &place) == LRLEX_OK && place.line == 1 && place.column == 4);
    CHECK(lrlex_document_position(&document, SIZE_MAX, &place) == LRLEX_OK && place.line == 0 && place.column == 3);
    CHECK(lrlex_document_position_in(&document, SIZE_MAX, LRLEX_UTF8, &place) == LRLEX_OK && place.line == 0 && place.column == 4);
    CHECK(lrlex_document_position_in(&document, 0, 2, &place) == LRLEX_NONE);
    CHECK(lrlex_document_position_in(&document, 0, UINT32_MAX, &place) == LRLEX_NONE);
    CHECK(lrlex_stop_report(&d, bytes("f"), 1, bytes("a"), 1, text, sizeof text, &len) == LRLEX_NONE);
    CHECK(lrlex_entered_by(&d, bytes("a ?"), 3, &entered) == LRLEX_NONE);
    CHECK(lrlex_document_entered_by(&document, &entered) == LRLEX_NONE);
    lrlex_free(&document);
    lrlex_free(&d);
    lrlex_free(&lone);
    CHECK(!other.hidden);
}

static void buffers(void) {
    lrlex_definition d = LRLEX_EMPTY;
    uint8_t name[2] = {'#', '#'};
    CHECK(define(&d, WORDS) == LRLEX_OK);
    CHECK(lrlex_name(&d, 0, name, 0, &len) == LRLEX_OK && len == 3 && name[0] == '#');
    CHECK(lrlex_name(&d, 0, name, 1, &len) == LRLEX_OK && len == 3 && name[0] == 'I' && name[1] == '#');
    CHECK(lrlex_name(&d, 2, name, 2, &len) == LRLEX_NONE && lrlex_name(&d, UINT32_MAX, name, 2, &len) == LRLEX_NONE);
    CHECK(lrlex_rule_name(&d, 2, name, 2, &len) == LRLEX_NONE && lrlex_rule_name(&d, 3, name, 2, &len) == LRLEX_NONE);
    CHECK(lrlex_rule_at(&d, 3, &rule) == LRLEX_NONE && lrlex_rule_at(&d, SIZE_MAX, &rule) == LRLEX_NONE);
    CHECK(lrlex_state_at(&d, 1, &state) == LRLEX_NONE && lrlex_state_name(&d, SIZE_MAX, name, 2, &len) == LRLEX_NONE);
    tokens[1].start = 77;
    CHECK(lrlex_lex(&d, bytes("a b c"), 5, tokens, 1, &lexed) == LRLEX_OK);
    CHECK(lexed.count == 3 && tokens[0].start == 0 && tokens[1].start == 77);
    /* a handle that holds something is used again */
    CHECK(define(&d, "%%\na 'A'\n") == LRLEX_OK);
    CHECK(lrlex_rule_count(&d) == 1);
    lrlex_free(&d);
}

/* A checked rule text fills any handle. Warnings are told with any room, of any text, and kinds have any number. */
static void checks(void) {
    static const char warned[] = "%x A B\n%%\na 'A'\n<B>b 'B'\n", faulty[] = "%%\n( 'A'\n) 'B'\n";
    lrlex_definition d = LRLEX_EMPTY;
    lrlex_document document = LRLEX_EMPTY;
    uint8_t name[16] = {0};
    CHECK(check_rules(&d, faulty) == LRLEX_REFUSED && lrlex_fault_count(&d) == 2);
    none(&d);
    CHECK(check_rules(&d, warned) == LRLEX_OK);
    no_faults(&d);
    CHECK(lrlex_document_new(&d, &document, bytes("a"), 1) == LRLEX_OK);
    CHECK(check_rules((lrlex_definition *)&document, faulty) == LRLEX_REFUSED);
    no_document(&document);
    CHECK(check_rules((lrlex_definition *)&document, "\xff") == LRLEX_NOT_UTF8 && !document.hidden);
    /* A is never entered, and has no rules; B is never entered */
    for (size_t cap = 0; cap <= 4; cap++) {
        for (size_t i = 0; i < 8; i++) warnings[i].kind = 77, warnings[i].line = 0;
        CHECK(lrlex_warnings(&d, bytes(warned), strlen(warned), warnings, cap, &len) == LRLEX_OK && len == 3);
        for (size_t i = 0; i < 8; i++) CHECK((warnings[i].kind != 77) == (i < cap && i < 3) && (warnings[i].line == 1) == (i < cap && i < 3));
    }
    CHECK(warnings[0].kind == LRLEX_NEVER_ENTERED && warnings[1].kind == LRLEX_NO_RULES && warnings[2].kind == LRLEX_NEVER_ENTERED);
    CHECK(warnings[1].start == 3 && warnings[1].end == 4 && warnings[1].column == 4 && warnings[2].start == 5 && warnings[2].column == 6);
    /* texts that the definition was not read from: a shorter one, and one with a character there */
    CHECK(lrlex_warnings(&d, bytes("%x"), 2, warnings, 8, &len) == LRLEX_OK && len == 3 && warnings[2].start == 2 && warnings[2].end == 2 && warnings[2].column == 3);
    CHECK(lrlex_warnings(&d, bytes("a\n\xf0\x9f\x98\x80"), 6, warnings, 8, &len) == LRLEX_OK && len == 3 && warnings[1].start == 2 && warnings[1].line == 2 && warnings[1].column == 1);
    CHECK(lrlex_warnings(&d, bytes(""), 0, warnings, 8, &len) == LRLEX_OK && len == 3 && warnings[0].line == 1 && warnings[0].column == 1);
    CHECK(lrlex_warning_report(&d, bytes("f"), 1, bytes(""), 0, text, 0, &len) == LRLEX_OK && len > sizeof text);
    CHECK(lrlex_fault_name(LRLEX_PREMATURE_END, name, sizeof name, &len) == LRLEX_OK && len == 12 && memcmp(name, "PrematureEnd", 12) == 0);
    name[1] = '#';
    CHECK(lrlex_fault_name(LRLEX_TOO_MANY_RULES, name, 1, &len) == LRLEX_OK && len == 12 && name[0] == 'T' && name[1] == '#');
    CHECK(lrlex_fault_name(LRLEX_TOO_MANY_RULES, name, 0, &len) == LRLEX_OK && len == 12 && name[0] == 'T');
    CHECK(lrlex_fault_name(LRLEX_TOO_MANY_RULES + 1, name, sizeof name, &len) == LRLEX_NONE && lrlex_fault_name(UINT32_MAX, name, sizeof name, &len) == LRLEX_NONE);
    CHECK(lrlex_warning_name(LRLEX_NEVER_WINS, name, sizeof name, &len) == LRLEX_OK && len == 9 && memcmp(name, "NeverWins", 9) == 0);
    name[1] = '#';
    CHECK(lrlex_warning_name(LRLEX_NO_RULES, name, 1, &len) == LRLEX_OK && len == 7 && name[0] == 'N' && name[1] == '#');
    CHECK(lrlex_warning_name(LRLEX_NO_RULES + 1, name, sizeof name, &len) == LRLEX_NONE && lrlex_warning_name(UINT32_MAX, name, sizeof name, &len) == LRLEX_NONE);
    CHECK(lrlex_warning_text(LRLEX_NO_RULES, name, 0, &len) == LRLEX_OK && len > sizeof name && name[0] == 'N');
    CHECK(lrlex_warning_text(LRLEX_NO_RULES + 1, name, sizeof name, &len) == LRLEX_NONE && lrlex_warning_text(UINT32_MAX, name, sizeof name, &len) == LRLEX_NONE);
    lrlex_free(&d);
}

/* The byte of any line and column. */
static void offsets(void) {
    /* a, a character of four bytes and of two code units of UTF-16, b; one of two bytes, c */
    static const char lines[] = "a\xf0\x9f\x98\x80" "b\n\xc3\xa9" "c";
    static const struct {
        const char *text;
        size_t line, column;
        uint32_t encoding;
        size_t byte;
    } rows[] = {
        {lines, 0, 0, LRLEX_UTF16, 0}, {lines, 0, 1, LRLEX_UTF16, 1}, {lines, 0, 3, LRLEX_UTF16, 5}, {lines, 0, 5, LRLEX_UTF8, 5},
        /* between a pair of surrogates, and inside a character */
        {lines, 0, 2, LRLEX_UTF16, 1}, {lines, 0, 2, LRLEX_UTF8, 1}, {lines, 0, 4, LRLEX_UTF8, 1}, {lines, 1, 1, LRLEX_UTF8, 7},
        /* at and past a line's end */
        {lines, 0, 4, LRLEX_UTF16, 6}, {lines, 0, 5, LRLEX_UTF16, 6}, {lines, 0, SIZE_MAX, LRLEX_UTF16, 6}, {lines, 0, 7, LRLEX_UTF8, 6},
        /* in the last line, past its end, and past the last line */
        {lines, 1, 0, LRLEX_UTF16, 7}, {lines, 1, 1, LRLEX_UTF16, 9}, {lines, 1, 2, LRLEX_UTF16, 10}, {lines, 1, 99, LRLEX_UTF8, 10},
        {lines, 2, 0, LRLEX_UTF16, 10}, {lines, SIZE_MAX, SIZE_MAX, LRLEX_UTF8, 10},
        /* empty texts and lines */
        {"", 0, 0, LRLEX_UTF16, 0}, {"", 0, 5, LRLEX_UTF8, 0}, {"", 5, 0, LRLEX_UTF16, 0}, {"\n", 0, 9, LRLEX_UTF16, 0}, {"\n", 1, 9, LRLEX_UTF8, 1},
        {"\n\n", 1, 0, LRLEX_UTF16, 1},
        /* lines that U+000D ends, with U+000A behind it or alone */
        {"a\r\nb", 0, 9, LRLEX_UTF16, 1}, {"a\r\nb", 1, 0, LRLEX_UTF16, 3}, {"a\rb", 0, 9, LRLEX_UTF16, 1}, {"a\rb", 1, 0, LRLEX_UTF8, 2},
        {"\r\r\n", 1, 9, LRLEX_UTF8, 1}, {"\r\r\n", 2, 0, LRLEX_UTF8, 3},
    };
    lrlex_definition d = LRLEX_EMPTY;
    CHECK(define(&d, WORDS) == LRLEX_OK);
    for (size_t i = 0; i < sizeof rows / sizeof *rows; i++) {
        lrlex_document document = LRLEX_EMPTY;
        size_t byte = 99;
        CHECK(lrlex_document_new(&d, &document, bytes(rows[i].text), strlen(rows[i].text)) == LRLEX_OK);
        CHECK(lrlex_document_offset_at(&document, rows[i].line, rows[i].column, rows[i].encoding, &byte) == LRLEX_OK);
        if (byte != rows[i].byte) printf("row %zu: %zu\n", i, byte);
        CHECK(byte == rows[i].byte);
        CHECK(lrlex_document_offset_at(&document, 0, 0, 2, &byte) == LRLEX_NONE);
        CHECK(lrlex_document_offset_at(&document, 0, 0, UINT32_MAX, &byte) == LRLEX_NONE);
        /* each place is the inverse of its position, but that between U+000D and U+000A */
        for (size_t at = 0; at <= strlen(rows[i].text); at++) {
            if (((uint8_t)rows[i].text[at] & 0xc0) == 0x80) continue;
            const size_t place_at = at > 0 && rows[i].text[at - 1] == '\r' && rows[i].text[at] == '\n' ? at - 1 : at;
            for (uint32_t encoding = LRLEX_UTF8; encoding <= LRLEX_UTF16; encoding++) {
                CHECK(lrlex_document_position_in(&document, at, encoding, &place) == LRLEX_OK);
                CHECK(lrlex_document_offset_at(&document, place.line, place.column, encoding, &byte) == LRLEX_OK && byte == place_at);
            }
        }
        lrlex_free(&document);
    }
    lrlex_free(&d);
}

/* A scanner is asked with any room, also past its end. */
static void scanners(void) {
    lrlex_definition d = LRLEX_EMPTY;
    lrlex_scanner scanner = LRLEX_EMPTY;
    uint8_t lent[] = "ab 1?";
    CHECK(define(&d, WORDS) == LRLEX_OK);
    CHECK(lrlex_scanner_new(&d, &scanner, lent, 5) == LRLEX_OK);
    memset(lent, '!', sizeof lent); /* it has a copy */
    named = (lrlex_named_id){bytes("ID"), 2, 7};
    CHECK(lrlex_definition_set_rule_ids(&d, &named, 1, missing, 1) == LRLEX_SHARED);
    lrlex_free(&d);
    tiles[0].start = 77;
    CHECK(lrlex_scanner_next(&scanner, tiles, 0, &scanned) == LRLEX_OK && tiles[0].start == 77);
    CHECK(scanned.count == 0 && scanned.place == 0 && scanned.end == LRLEX_SCAN_MORE);
    tiles[1].start = 77;
    CHECK(lrlex_scanner_next(&scanner, tiles, 1, &scanned) == LRLEX_OK && tiles[1].start == 77);
    CHECK(scanned.count == 1 && scanned.place == 2 && scanned.end == LRLEX_SCAN_MORE && tiles[0].start == 0 && tiles[0].len == 2 && tiles[0].has_id && tiles[0].id == 1);
    CHECK(lrlex_scanner_next(&scanner, tiles, 2, &scanned) == LRLEX_OK);
    CHECK(scanned.count == 2 && scanned.place == 4 && scanned.end == LRLEX_SCAN_MORE && !tiles[0].has_id && tiles[0].rule == 2 && tiles[1].start == 3 && tiles[1].rule == 0);
    for (int again = 0; again < 2; again++) {
        CHECK(lrlex_scanner_next(&scanner, tiles, 8, &scanned) == LRLEX_OK);
        CHECK(scanned.count == 0 && scanned.place == 4 && scanned.end == LRLEX_SCAN_NO_MATCH && scanned.state == 0 && scanned.rule == 0);
    }
    /* a handle that holds something is used again */
    CHECK(define(&d, "%x S\n%%\n\" <S>;\n<S>a 'A'\n") == LRLEX_OK);
    CHECK(lrlex_scanner_new(&d, &scanner, bytes("\"?"), 2) == LRLEX_OK);
    CHECK(lrlex_scanner_next(&scanner, tiles, 8, &scanned) == LRLEX_OK && scanned.count == 1 && scanned.end == LRLEX_SCAN_NO_MATCH && scanned.state == 1);
    lrlex_free(&scanner);
    CHECK(lrlex_definition_set_rule_ids(&d, &named, 0, missing, 0) == LRLEX_OK);
    CHECK(lrlex_scanner_new(&d, &scanner, bytes("\"a"), 2) == LRLEX_OK);
    CHECK(lrlex_scanner_next(&scanner, tiles, 8, &scanned) == LRLEX_OK && scanned.count == 1 && scanned.end == LRLEX_SCAN_NO_ID && scanned.rule == 1 && scanned.place == 1);
    lrlex_free(&scanner);
    CHECK(lrlex_scanner_new(&d, &scanner, bytes(""), 0) == LRLEX_OK);
    CHECK(lrlex_scanner_next(&scanner, tiles, 8, &scanned) == LRLEX_OK && scanned.count == 0 && scanned.end == LRLEX_SCAN_DONE && scanned.place == 0);
    lrlex_free(&scanner);
    lrlex_free(&d);
}

/* A definition with another owner keeps its ids. */
static void owners(void) {
    lrlex_definition d = LRLEX_EMPTY, other = LRLEX_EMPTY;
    lrlex_document document = LRLEX_EMPTY;
    named = (lrlex_named_id){bytes("ID"), 2, 7};
    CHECK(define(&d, WORDS) == LRLEX_OK);
    CHECK(lrlex_definition_share(&d, &other) == LRLEX_OK);
    CHECK(lrlex_definition_set_rule_ids(&d, &named, 1, missing, 1) == LRLEX_SHARED);
    CHECK(lrlex_definition_set_rule_ids(&other, &named, 1, missing, 1) == LRLEX_SHARED);
    lrlex_free(&other);
    CHECK(lrlex_document_new(&d, &document, bytes("a"), 1) == LRLEX_OK);
    CHECK(lrlex_definition_set_rule_ids(&d, &named, 1, missing, 1) == LRLEX_SHARED);
    CHECK(lrlex_rule_at(&d, 1, &rule) == LRLEX_OK && rule.id == 1);
    lrlex_free(&document);
    missing[0] = true, missing[1] = true;
    CHECK(lrlex_definition_set_rule_ids(&d, &named, 1, missing, 2) == LRLEX_OK && !missing[0] && missing[1]);
    CHECK(lrlex_rule_at(&d, 1, &rule) == LRLEX_OK && rule.id == 7);
    CHECK(lrlex_rule_at(&d, 0, &rule) == LRLEX_OK && !rule.has_id && rule.has_name);
    missing[0] = true;
    CHECK(lrlex_definition_set_rule_ids(&d, &named, 0, missing, 2) == LRLEX_OK && missing[0]);
    CHECK(lrlex_definition_set_rule_ids(&d, &named, 1, missing, 0) == LRLEX_OK && missing[0]);
    CHECK(lrlex_rule_at(&d, 1, &rule) == LRLEX_OK && rule.id == 7);
    lrlex_free(&d);
}

int main(void) {
    handles();
    owners();
    texts();
    buffers();
    checks();
    offsets();
    scanners();
    return failed;
}
