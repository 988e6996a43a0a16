/* Refuses each request for memory in turn (linked with -Wl,--wrap=malloc,--wrap=realloc,--wrap=free). A call then answers
   LRLEX_NOMEM, or what it answers with memory for all, and the call made once more answers as it should. In the end each block was
   freed. The last line says how many were refused. */
#include "check.h"

#include <stdlib.h>

void *__real_malloc(size_t size);
void *__real_realloc(void *block, size_t size);
void __real_free(void *block);
void *__wrap_malloc(size_t size);
void *__wrap_realloc(void *block, size_t size);
void __wrap_free(void *block);

/* Requests up to the one that is refused, or less than 0; blocks that aren't freed yet. */
static long left = -1, blocks = 0;

static int is_refused(void) { return left >= 0 && left-- == 0; }

void *__wrap_malloc(size_t size) {
    if (is_refused()) return NULL;
    void *block = __real_malloc(size);
    blocks += block != NULL;
    return block;
}

void *__wrap_realloc(void *block, size_t size) {
    if (is_refused()) return NULL;
    blocks += block == NULL;
    return __real_realloc(block, size);
}

void __wrap_free(void *block) {
    blocks -= block != NULL;
    __real_free(block);
}

static const char RULES[] = "%x S\n%%\n[0-9]+ 'INT'\n[a-z]+ 'ID'\n[ ] ;\n\" <+S>;\n<S>\" <-S>;\n<S>[^\"]+ 'TEXT'\n";
static const char FAULTY[] = "%x A A\n%%\na+b 'A'\nb 'A'\nc( 'C'\n";
static const char WARNED[] = "%x A B\n%%\na+ 'A'\na 'B'\n<B>b$ 'C'\n";
static const char TEXT[] = "ab 12 \"x y\" c", EDITED[] = "ab \" q \"x y\" c";

static lrlex_definition d, shared, refused, alone, warned, faulty;
static lrlex_document document;
static lrlex_scanner scanner;
/* Where the scanner stands, and where its text ends. */
static size_t scanned_to, scan_end;

/* Whether the document is of this text: whether its tokens are those of it. */
static int is_of(const char *text) {
    lrlex_token one[32], other[32];
    lrlex_lexed of_document, of_text;
    if (lrlex_document_tokens(&document, 0, one, 32, &of_document) || lrlex_lex(&d, bytes(text), strlen(text), other, 32, &of_text)) return 0;
    if (of_document.count != of_text.count || of_document.end != of_text.end) return 0;
    for (size_t i = 0; i < of_text.count; i++)
        if (one[i].start != other[i].start || one[i].len != other[i].len || one[i].id != other[i].id) return 0;
    return 1;
}

static int make(void) { return define(&d, RULES); }

static int refuse(void) { return define(&refused, FAULTY); }

static int make_warned(void) { return check_rules(&warned, WARNED); }

static int refuse_for_all(void) { return check_rules(&faulty, FAULTY); }

static int lex(void) {
    lrlex_token tokens[32];
    lrlex_lexed lexed;
    return lrlex_lex(&d, bytes(TEXT), strlen(TEXT), tokens, 32, &lexed);
}

static int cut(void) {
    lrlex_piece pieces[32];
    lrlex_lexed lexed;
    return lrlex_pieces(&d, bytes(TEXT), strlen(TEXT), pieces, 32, &lexed);
}

static int name_ids(void) {
    const lrlex_named_id ids[] = {{bytes("ID"), 2, 1}, {bytes("TEXT"), 4, 2}, {bytes("NUMBER"), 6, 3}, {bytes("INT"), 3, 0}};
    bool missing[4];
    return lrlex_definition_set_rule_ids(&alone, ids, 4, missing, 4);
}

static int make_alone(void) { return define(&alone, RULES); }

static int share(void) { return lrlex_definition_share(&d, &shared); }

static int open_document(void) { return lrlex_document_new(&d, &document, bytes(TEXT), strlen(TEXT)); }

static int edit(void) { return lrlex_document_edit(&document, 3, 5, bytes("\" q"), 3); }

static int open_scanner(void) {
    scanned_to = 0, scan_end = strlen(TEXT);
    return lrlex_scanner_new(&d, &scanner, bytes(TEXT), scan_end);
}

/* Three tiles from where it stands: they follow those before, so that the scanner is where it was if a call failed. */
static int scan(void) {
    lrlex_tile tiles[3];
    lrlex_scanned scanned;
    const int status = lrlex_scanner_next(&scanner, tiles, 3, &scanned);
    if (status) return status;
    CHECK(scanned.count == (scanned_to < scan_end ? 3 : 0) && (scanned.end == LRLEX_SCAN_MORE) == (scanned.count == 3));
    for (size_t i = 0; i < scanned.count; i++) {
        CHECK(tiles[i].start == scanned_to && tiles[i].len > 0);
        scanned_to += tiles[i].len;
    }
    CHECK(scanned.place == scanned_to);
    return LRLEX_OK;
}

static int find_places(void) {
    static const size_t at[] = {0, 4};
    lrlex_place places[2];
    return lrlex_places(bytes("a\nb\nc"), 5, at, 2, places, 2);
}

/* It ends in a start state. */
static int find_entered(void) {
    lrlex_entered entered;
    const int status = lrlex_entered_by(&d, bytes(EDITED), strlen(EDITED), &entered);
    CHECK(status || (entered.start == 11 && entered.end == 12 && entered.state == 1));
    return status;
}

static uint8_t written[512];
static size_t len;

static int tell_fault(void) { return lrlex_fault_text(&refused, 0, written, sizeof written, &len); }
static int tell_message(void) { return lrlex_fault_message(&refused, 0, written, sizeof written, &len); }

static int report_faults(void) { return lrlex_fault_report(&refused, bytes("a.l"), 3, written, sizeof written, &len); }

/* Of the start states A and B, and of the rules B and C. */
static int tell_warnings(void) {
    lrlex_warning warnings[8];
    const int status = lrlex_warnings(&warned, bytes(WARNED), strlen(WARNED), warnings, 8, &len);
    CHECK(status || (len == 5 && warnings[3].kind == LRLEX_NEVER_WINS && warnings[3].line == 4 && warnings[4].kind == LRLEX_LOOKS_AROUND));
    return status;
}

static int report_warnings(void) { return lrlex_warning_report(&warned, bytes("a.l"), 3, bytes(WARNED), strlen(WARNED), written, sizeof written, &len); }

static int report_stop(void) { return lrlex_stop_report(&d, bytes("a"), 1, bytes("ab ?"), 4, written, sizeof written, &len); }

static int cut_document(void) {
    lrlex_piece pieces[32];
    lrlex_lexed lexed;
    return lrlex_document_pieces(&document, pieces, 32, &lexed);
}

static int cut_part(void) {
    lrlex_piece pieces[32];
    lrlex_lexed lexed;
    return lrlex_document_pieces_in(&document, 3, 9, pieces, 32, &lexed);
}

/* Calls that ask for no memory. */
static int look(void) {
    lrlex_fault fault;
    lrlex_fault_span span;
    lrlex_rule rule;
    lrlex_state state;
    lrlex_token tokens[32];
    lrlex_lexed lexed;
    lrlex_place place;
    lrlex_entered entered;
    const int answers[] = {
        lrlex_fault_at(&refused, 0, &fault),
        lrlex_fault_span_at(&refused, 0, 0, &span),
        lrlex_rule_at(&d, 0, &rule),
        lrlex_rule_name(&d, 0, written, sizeof written, &len),
        lrlex_name(&d, 0, written, sizeof written, &len),
        lrlex_state_at(&d, 0, &state),
        lrlex_state_name(&d, 0, written, sizeof written, &len),
        lrlex_document_tokens(&document, 0, tokens, 32, &lexed),
        lrlex_document_entered_by(&document, &entered),
        lrlex_document_len(&document, &len),
        lrlex_document_text(&document, 0, 1, written, sizeof written, &len),
        lrlex_document_place(&document, 1, &place),
        lrlex_document_position(&document, 1, &place),
        lrlex_document_position_in(&document, 1, LRLEX_UTF8, &place),
        lrlex_document_offset_at(&document, 0, 1, LRLEX_UTF16, &len),
        lrlex_fault_name(LRLEX_PREMATURE_END, written, sizeof written, &len),
        lrlex_warning_name(LRLEX_NEVER_WINS, written, sizeof written, &len),
        lrlex_warning_text(LRLEX_NEVER_WINS, written, sizeof written, &len),
        lrlex_fault_count(&refused) == 0,
        lrlex_rule_count(&d) == 0,
        lrlex_state_count(&d) == 0,
        lrlex_version() == 0,
    };
    for (size_t i = 0; i < sizeof answers / sizeof *answers; i++)
        if (answers[i]) return answers[i];
    return LRLEX_OK;
}

static const struct {
    const char *name;
    int (*call)(void);
    int answer;
} CALLS[] = {
    {"lrlex_definition_new", make, LRLEX_OK},
    {"lrlex_definition_new, refused", refuse, LRLEX_REFUSED},
    {"lrlex_fault_text", tell_fault, LRLEX_OK},
    {"lrlex_fault_message", tell_message, LRLEX_OK},
    {"lrlex_fault_report", report_faults, LRLEX_OK},
    {"lrlex_check", make_warned, LRLEX_OK},
    {"lrlex_check, refused", refuse_for_all, LRLEX_REFUSED},
    {"lrlex_warnings", tell_warnings, LRLEX_OK},
    {"lrlex_warning_report", report_warnings, LRLEX_OK},
    {"lrlex_lex", lex, LRLEX_OK},
    {"lrlex_pieces", cut, LRLEX_OK},
    {"lrlex_stop_report", report_stop, LRLEX_OK},
    {"lrlex_entered_by", find_entered, LRLEX_OK},
    {"lrlex_definition_new, for ids", make_alone, LRLEX_OK},
    {"lrlex_definition_set_rule_ids", name_ids, LRLEX_OK},
    {"lrlex_definition_share", share, LRLEX_OK},
    {"lrlex_document_new", open_document, LRLEX_OK},
    {"lrlex_document_edit", edit, LRLEX_OK},
    {"lrlex_document_pieces", cut_document, LRLEX_OK},
    {"lrlex_document_pieces_in", cut_part, LRLEX_OK},
    {"lrlex_scanner_new", open_scanner, LRLEX_OK},
    {"lrlex_scanner_next", scan, LRLEX_OK},
    {"lrlex_scanner_next, further on", scan, LRLEX_OK},
    {"lrlex_places", find_places, LRLEX_OK},
    {"calls that ask for no memory", look, LRLEX_OK},
};

int main(void) {
    long requests = 0, reported = 0;
    for (size_t k = 0; k < sizeof CALLS / sizeof *CALLS; k++) {
        for (long request = 0;; request++) {
            left = request;
            int status = CALLS[k].call();
            const int was_refused = left < 0;
            left = -1;
            if (!was_refused) {
                CHECK(status == CALLS[k].answer);
                CHECK((request == 0) == (CALLS[k].call == look));
                break;
            }
            requests++, reported += status == LRLEX_NOMEM;
            if (CALLS[k].call == edit) {
                if (status == LRLEX_OK) {
                    /* the edit did without: it is undone */
                    CHECK(is_of(EDITED));
                    CHECK(lrlex_document_edit(&document, 3, 6, bytes("12"), 2) == LRLEX_OK);
                }
                CHECK(is_of(TEXT));
            }
            if (status != LRLEX_NOMEM && status != CALLS[k].answer) printf("%s, request %ld: status %d\n", CALLS[k].name, request, status);
            CHECK(status == LRLEX_NOMEM || status == CALLS[k].answer);
        }
    }
    CHECK(is_of(EDITED));
    lrlex_free(&d), lrlex_free(&alone), lrlex_free(&shared), lrlex_free(&refused), lrlex_free(&warned), lrlex_free(&faulty), lrlex_free(&document), lrlex_free(&scanner);
    CHECK(blocks == 0 && reported > 0);
    printf("%ld requests refused, %ld reported, %ld blocks left\n", requests, reported, blocks);
    return failed;
}
