/* fuzz SEEDS SECONDS [SEED]: mutated rule texts, inputs and edits through the C library, with laws on what comes back: of definitions,
   all faults, warnings, ids by names, lexing, scanners, and documents with their places and offsets.
   SEEDS has cases: of each the lengths of a rule text and of an input, as two uint32_t, then both. The last line says how many texts there
   were. A law that fails is printed with its case, and the status is 1. Build it with -fsanitize=address,undefined. */
#include "lrlex.h"

#include <stdio.h>
#include <stdlib.h>
#include <string.h>
#include <time.h>

enum { LONGEST = 6000, ROOM = 16384, NAMES = 4 };

typedef struct text {
    uint8_t bytes[ROOM];
    size_t len;
} text;

typedef struct seed {
    uint8_t *rules, *input;
    uint32_t rules_len, input_len;
} seed;

static seed *seeds;
static size_t seed_count;
static text rules, input;
static uint64_t state;
static unsigned long long texts, built, refused, not_utf8, tokens_seen, warnings_seen, edits, scans, offsets;

static const char *const BITS[] = {"%%\n", "%x a\n", "%s b c\n", "<a>", "<+a>", "<-a>", "'X'\n", ";\n", "[a-z]+", "(a|b)*", "\\p{L}", "(?i)", "\\b", "$",
                                   "^", "{3}", "{1,40}", "\\x41", "\\u{41}", "\xc3\xa9", "\xf0\x9f\x98\x80", "\"", "'", "<*>", "//", "\r\n", "\r", "\xe2\x80\xa8",
                                   "(?:", "[^", "&&", "\\", "|", "*?", ".", "\n", "\t"};

static size_t below(size_t n) {
    state ^= state << 13;
    state ^= state >> 7;
    state ^= state << 17;
    return n ? (size_t)(state >> 11) % n : 0;
}

static void show(const char *name, const text *it) {
    printf("%s, %zu bytes: \"", name, it->len);
    for (size_t i = 0; i < it->len; i++) printf(it->bytes[i] >= ' ' && it->bytes[i] < 127 && it->bytes[i] != '"' && it->bytes[i] != '\\' ? "%c" : "\\x%02x", it->bytes[i]);
    puts("\"");
}

#define LAW(condition) law((condition) != 0, #condition, __LINE__)

static void law(int holds, const char *what, int line) {
    if (holds) return;
    printf("line %d: %s\n", line, what);
    show("rules", &rules);
    show("input", &input);
    exit(1);
}

/* Puts bytes in the place of those from `at` up to `end`, if there is room. */
static void put(text *it, size_t at, size_t end, const uint8_t *bytes, size_t len) {
    if (it->len - (end - at) + len > LONGEST) return;
    memmove(it->bytes + at + len, it->bytes + end, it->len - end);
    memcpy(it->bytes + at, bytes, len);
    it->len = it->len - (end - at) + len;
}

/* A few changes of a text: a byte, a bit of a rule text, a part of another seed, a part of its own, a part less. */
static void mutate(text *it, size_t most) {
    for (size_t k = 1 + below(most); k > 0; k--) {
        const size_t at = below(it->len + 1);
        const size_t end = at + below((it->len - at < 8 ? it->len - at : 8) + 1);
        const seed *other = &seeds[below(seed_count)];
        const char *bit = BITS[below(sizeof BITS / sizeof *BITS)];
        uint8_t part[16];
        const size_t from = below(it->len + 1), len = below((it->len - from < sizeof part ? it->len - from : sizeof part) + 1);
        const size_t first = below(other->rules_len), rest = other->rules_len - first;
        switch (below(6)) {
        case 0: part[0] = (uint8_t)(below(50) ? below(128) : below(256)); put(it, at, end < at + 1 ? end : at + 1, part, 1); break;
        case 1: put(it, at, end, part, 0); break;
        case 2: put(it, at, at, (const uint8_t *)bit, strlen(bit)); break;
        case 3: put(it, at, at, other->rules + first, rest < 20 ? rest : 20); break;
        case 4: memcpy(part, it->bytes + from, len); put(it, at, at, part, len); break;
        default: if (at < it->len && it->bytes[at] < 128) it->bytes[at] ^= (uint8_t)(1U << below(7)); break;
        }
    }
}

static void set(text *it, const uint8_t *bytes, size_t len) {
    it->len = 0;
    put(it, 0, 0, bytes, len < LONGEST ? len : LONGEST);
}

static lrlex_options options(void) {
    lrlex_options it = LRLEX_OPTIONS;
    if (below(3) == 0) it.set = (uint32_t)below(512), it.on = (uint32_t)below(512);
    if (below(20) == 0) it.nest_limit = (uint32_t)below(2000);
    if (below(20) == 0) it.size_limit = below(100000);
    if (below(10) == 0) it.limit_tables = true, it.table_rows = below(200), it.table_work = below(200000);
    return it;
}

static int same_tokens(const lrlex_token *one, const lrlex_lexed *a, const lrlex_token *other, const lrlex_lexed *b) {
    if (a->count != b->count || a->end != b->end || a->state != b->state || a->stopped != b->stopped || a->unmatched != b->unmatched) return 0;
    for (size_t i = 0; i < a->count; i++)
        if (one[i].start != other[i].start || one[i].len != other[i].len || one[i].id != other[i].id) return 0;
    return 1;
}

static lrlex_token tokens[ROOM], others[ROOM];
static lrlex_piece pieces[ROOM], parts[ROOM];

/* The pieces are the text from its front, and the tokens are those of rules with a name and an id. */
static void check_pieces(lrlex_definition *d, const lrlex_lexed *lexed, const lrlex_lexed *cut) {
    size_t at = 0, token = 0;
    for (size_t i = 0; i < cut->count; i++) {
        lrlex_rule rule;
        LAW(pieces[i].start == at && pieces[i].len > 0);
        LAW(lrlex_rule_at(d, pieces[i].rule, &rule) == LRLEX_OK);
        at += pieces[i].len;
        if (!rule.has_name) continue;
        if (!rule.has_id) {
            LAW(lexed->stopped && i + 1 == cut->count);
            continue;
        }
        LAW(token < lexed->count && tokens[token].start == pieces[i].start && tokens[token].len == pieces[i].len && tokens[token].id == rule.id);
        token++;
    }
    LAW(token == lexed->count && cut->end == lexed->end && cut->stopped == lexed->stopped && cut->state == lexed->state);
    LAW(lexed->end <= input.len && (lexed->stopped || lexed->end == input.len) && (at == lexed->end || (lexed->stopped && !lexed->unmatched)));
}

/* Where a text enters the start state in which it ends: at one of its pieces. A text begins in state 0, so it enters any other. */
static void check_entered(int status, const lrlex_entered *entered, const lrlex_lexed *cut) {
    size_t i = 0;
    LAW(status == LRLEX_OK || (status == LRLEX_NONE && cut->state == 0));
    if (status != LRLEX_OK) return;
    while (i < cut->count && pieces[i].start < entered->start) i++;
    LAW(i < cut->count && pieces[i].start == entered->start && pieces[i].start + pieces[i].len == entered->end);
    LAW(entered->end <= cut->end && entered->state == cut->state);
}

/* The tiles of a scanner, asked for a few at a time, are the pieces. It ends where and why lexing does. */
static void check_scanner(lrlex_definition *d, const lrlex_lexed *lexed, const lrlex_lexed *cut) {
    lrlex_scanner scanner = LRLEX_EMPTY;
    lrlex_tile tiles[40];
    lrlex_scanned scanned;
    size_t found = 0;
    LAW(lrlex_scanner_new(d, &scanner, input.bytes, input.len) == LRLEX_OK);
    do {
        const size_t cap = below(4) ? below(6) : below(41);
        LAW(lrlex_scanner_next(&scanner, tiles, cap, &scanned) == LRLEX_OK);
        LAW(scanned.count <= cap && (scanned.end == LRLEX_SCAN_MORE) == (scanned.count == cap));
        for (size_t i = 0; i < scanned.count; i++, found++) {
            lrlex_rule rule;
            LAW(found < cut->count && tiles[i].start == pieces[found].start && tiles[i].len == pieces[found].len && tiles[i].rule == pieces[found].rule);
            LAW(lrlex_rule_at(d, tiles[i].rule, &rule) == LRLEX_OK);
            LAW(tiles[i].has_id == (rule.has_name && rule.has_id) && (!tiles[i].has_id || tiles[i].id == rule.id));
        }
    } while (scanned.end == LRLEX_SCAN_MORE);
    LAW(found == cut->count && scanned.place == lexed->end);
    LAW((scanned.end == LRLEX_SCAN_DONE) == !lexed->stopped && (scanned.end == LRLEX_SCAN_NO_MATCH) == lexed->unmatched);
    LAW(scanned.end != LRLEX_SCAN_NO_MATCH || scanned.state == lexed->state);
    if (scanned.end == LRLEX_SCAN_NO_ID) {
        lrlex_rule rule;
        LAW(lrlex_rule_at(d, scanned.rule, &rule) == LRLEX_OK && rule.has_name && !rule.has_id);
    }
    LAW(scanned.end <= LRLEX_SCAN_NO_ID);
    lrlex_free(&scanner);
    scans++;
}

/* Line and column of a place of a text, from 1, as a reader counts them. */
static lrlex_place place_of(const text *of, size_t byte) {
    lrlex_place it = {1, 1};
    if (byte > of->len) byte = of->len;
    while (byte < of->len && (of->bytes[byte] & 0xc0) == 0x80) byte--;
    for (size_t i = 0; i < byte; i++) {
        if (of->bytes[i] == '\n') it.line++, it.column = 1;
        else if ((of->bytes[i] & 0xc0) != 0x80) it.column++;
    }
    return it;
}

/* How many columns the character takes that begins here. */
static size_t width_of(uint8_t first, uint32_t encoding) {
    if (encoding == LRLEX_UTF16) return first < 0xf0 ? 1 : 2;
    return first < 0x80 ? 1 : first < 0xe0 ? 2 : first < 0xf0 ? 3 : 4;
}

/* Whether a position can tell this byte: it is between two characters, and not between U+000D and U+000A. */
static int has_position(size_t at) {
    if (at >= input.len) return at == input.len;
    return (input.bytes[at] & 0xc0) != 0x80 && !(at > 0 && input.bytes[at - 1] == '\r' && input.bytes[at] == '\n');
}

/* Goes from the place before a character to the one behind it: U+000A ends a line, and U+000D where no U+000A follows. */
static void step(lrlex_place *place, size_t at, uint32_t encoding) {
    const int is_pair = at + 1 < input.len && input.bytes[at + 1] == '\n';
    if (input.bytes[at] == '\n' || (input.bytes[at] == '\r' && !is_pair)) place->line++, place->column = 0;
    else if ((input.bytes[at] & 0xc0) != 0x80) place->column += width_of(input.bytes[at], encoding);
}

/* The last place that has a position, at or before this byte. */
static size_t nearest(size_t byte) {
    if (byte > input.len) byte = input.len;
    while (!has_position(byte)) byte--;
    return byte;
}

/* Line and column of that, from 0. */
static lrlex_place position_of(size_t byte, uint32_t encoding) {
    lrlex_place it = {0, 0};
    for (size_t at = 0; at < nearest(byte); at++) step(&it, at, encoding);
    return it;
}

/* The last place whose line and column, from 0, aren't behind these. */
static size_t offset_of(size_t line, size_t column, uint32_t encoding) {
    lrlex_place it = {0, 0};
    size_t found = 0;
    for (size_t at = 0; at <= input.len; at++) {
        if (has_position(at) && (it.line < line || (it.line == line && it.column <= column))) found = at;
        if (at < input.len) step(&it, at, encoding);
    }
    return found;
}

/* The byte of any position is the last up to it, and a position leads back to its byte. */
static void check_offsets(lrlex_document *document, size_t from) {
    const uint32_t encoding = (uint32_t)below(2);
    const size_t line = below(5), column = below(10) ? below(40) : SIZE_MAX;
    size_t byte = 0;
    lrlex_place place;
    LAW(lrlex_document_offset_at(document, line, column, encoding, &byte) == LRLEX_OK && byte == offset_of(line, column, encoding));
    LAW(lrlex_document_position_in(document, from, encoding, &place) == LRLEX_OK);
    LAW(place.line == position_of(from, encoding).line && place.column == position_of(from, encoding).column);
    LAW(lrlex_document_offset_at(document, place.line, place.column, encoding, &byte) == LRLEX_OK && byte == nearest(from));
    offsets++;
}

static void check_document(lrlex_document *document, lrlex_definition *d) {
    static uint8_t copy[ROOM];
    lrlex_lexed one, other, cut, part;
    lrlex_entered entered, of_text;
    lrlex_place place;
    size_t len = 0, from = below(input.len + 2), to = below(input.len + 2), found = 0;
    LAW(lrlex_document_text(document, 0, input.len, copy, ROOM, &len) == LRLEX_OK && len == input.len && memcmp(copy, input.bytes, len) == 0);
    LAW(lrlex_document_len(document, &len) == LRLEX_OK && len == input.len);
    LAW(lrlex_document_tokens(document, 0, others, ROOM, &other) == LRLEX_OK);
    LAW(lrlex_lex(d, input.bytes, input.len, tokens, ROOM, &one) == LRLEX_OK);
    LAW(same_tokens(tokens, &one, others, &other));
    LAW(lrlex_document_pieces(document, pieces, ROOM, &cut) == LRLEX_OK);
    check_pieces(d, &one, &cut);
    const int status = lrlex_document_entered_by(document, &entered);
    check_entered(status, &entered, &cut);
    LAW(lrlex_entered_by(d, input.bytes, input.len, &of_text) == status);
    LAW(status != LRLEX_OK || (entered.start == of_text.start && entered.end == of_text.end && entered.state == of_text.state));
    LAW(lrlex_document_pieces_in(document, from, to, parts, ROOM, &part) == LRLEX_OK && part.end == cut.end);
    for (size_t i = 0; i < cut.count; i++) {
        if (pieces[i].start >= to || pieces[i].start + pieces[i].len <= from || from >= to) continue;
        LAW(found < part.count && parts[found].start == pieces[i].start && parts[found].len == pieces[i].len && parts[found].rule == pieces[i].rule);
        found++;
    }
    LAW(found == part.count);
    LAW(lrlex_document_place(document, from, &place) == LRLEX_OK);
    LAW(place.line == place_of(&input, from).line && place.column == place_of(&input, from).column);
    LAW(lrlex_document_position(document, from, &place) == LRLEX_OK);
    LAW(place.line == position_of(from, LRLEX_UTF16).line && place.column == position_of(from, LRLEX_UTF16).column);
    check_offsets(document, from);
}

/* A document through edits: after each it is what the whole text gives. An edit that is refused changes nothing. */
static void check_edits(lrlex_definition *d) {
    lrlex_document document = LRLEX_EMPTY;
    LAW(lrlex_document_new(d, &document, input.bytes, input.len) == LRLEX_OK);
    for (size_t k = input.len + 100 < LONGEST ? below(4) : 0; k > 0; k--) {
        text piece;
        const seed *other = &seeds[below(seed_count)];
        const size_t from = below(input.len + 2), to = from + below(6), first = below(other->input_len);
        set(&piece, other->input + first, below(other->input_len - first + 1) % 30);
        const int status = lrlex_document_edit(&document, from, to, piece.bytes, piece.len);
        LAW(status == LRLEX_OK || status == LRLEX_DOES_NOT_FIT || status == LRLEX_NOT_UTF8);
        if (status == LRLEX_OK) {
            LAW(to <= input.len);
            put(&input, from, to, piece.bytes, piece.len);
            edits++;
        }
        check_document(&document, d);
    }
    lrlex_free(&document);
}

/* Ids by names: the rules have those of their names, and missing are the names that no rule has. */
static void check_ids(lrlex_definition *d) {
    static uint8_t names[NAMES][16];
    lrlex_named_id ids[NAMES];
    bool missing[NAMES];
    for (size_t i = 0; i < NAMES; i++) {
        size_t len = 0;
        const int status = lrlex_rule_name(d, below(lrlex_rule_count(d) + 1), names[i], sizeof names[i], &len);
        ids[i] = (lrlex_named_id){names[i], status == LRLEX_OK && len < sizeof names[i] ? len : 0, (uint32_t)(below(3) + i)};
        if (ids[i].name_len && below(3) == 0) names[i][0] ^= 1;
    }
    const int status = lrlex_definition_set_rule_ids(d, ids, NAMES, missing, NAMES);
    LAW(status == LRLEX_OK || status == LRLEX_NOT_UTF8);
    if (status != LRLEX_OK) return;
    int has_rule[NAMES] = {0};
    for (size_t rule = 0; rule < lrlex_rule_count(d); rule++) {
        uint8_t name[16];
        size_t len = 0;
        lrlex_rule it;
        int given = -1;
        LAW(lrlex_rule_at(d, rule, &it) == LRLEX_OK);
        if (!it.has_name) continue;
        LAW(lrlex_rule_name(d, rule, name, sizeof name, &len) == LRLEX_OK && len == it.name_len);
        for (int i = 0; i < NAMES; i++)
            if (len <= sizeof name && len == ids[i].name_len && memcmp(name, ids[i].name, len) == 0) has_rule[i] = 1, given = i;
        LAW(it.has_id == (given >= 0) && (given < 0 || it.id == ids[given].id));
    }
    for (size_t i = 0; i < NAMES; i++) LAW(missing[i] == !has_rule[i]);
}

/* A checked text has a definition where the text has one, and warnings that fit in it. A report shows each. */
static void check_warnings(const lrlex_options *how) {
    static lrlex_warning warnings[ROOM];
    static uint8_t report[16 * ROOM];
    lrlex_definition d = LRLEX_EMPTY;
    size_t count = 0, len = 0, shown = 0;
    LAW(lrlex_check(&d, rules.bytes, rules.len, how) == LRLEX_OK);
    LAW(lrlex_warnings(&d, rules.bytes, rules.len, warnings, ROOM, &count) == LRLEX_OK);
    for (size_t i = 0; i < count && i < ROOM; i++) {
        const lrlex_warning *it = &warnings[i];
        const lrlex_place place = place_of(&rules, it->start);
        uint8_t name[32];
        LAW(it->kind <= LRLEX_NO_RULES && it->start <= it->end && it->end <= rules.len && it->line == place.line && it->column == place.column);
        LAW(lrlex_warning_name(it->kind, name, sizeof name, &len) == LRLEX_OK && len > 0 && len <= sizeof name);
        LAW(lrlex_warning_text(it->kind, report, sizeof report, &len) == LRLEX_OK && len > 0);
    }
    LAW(lrlex_warning_report(&d, rules.bytes, 0, rules.bytes, rules.len, report, sizeof report, &len) == LRLEX_OK && (len == 0) == (count == 0));
    if (len <= sizeof report) {
        for (size_t i = 0; i < len; i++) shown += report[i] == '\n';
        LAW(shown == 3 * count);
    }
    lrlex_free(&d);
    warnings_seen += count;
}

static void check_definition(lrlex_definition *d, const lrlex_options *how) {
    static uint8_t report[ROOM];
    lrlex_lexed lexed, cut, slow;
    lrlex_entered entered;
    lrlex_definition plain = LRLEX_EMPTY;
    size_t len = 0, at = 0;
    const int status = lrlex_lex(d, input.bytes, input.len, tokens, ROOM, &lexed);
    built++;
    if (status == LRLEX_NOT_UTF8) {
        not_utf8++;
        return;
    }
    LAW(status == LRLEX_OK);
    for (size_t i = 0; i < lexed.count; i++) {
        LAW(tokens[i].start >= at && tokens[i].len > 0 && tokens[i].start + tokens[i].len <= lexed.end);
        at = tokens[i].start + tokens[i].len;
    }
    tokens_seen += lexed.count;
    LAW(lrlex_pieces(d, input.bytes, input.len, pieces, ROOM, &cut) == LRLEX_OK);
    check_pieces(d, &lexed, &cut);
    check_entered(lrlex_entered_by(d, input.bytes, input.len, &entered), &entered, &cut);
    LAW(lrlex_stop_report(d, input.bytes, 0, input.bytes, input.len, report, ROOM, &len) == (lexed.stopped ? LRLEX_OK : LRLEX_NONE));
    if (below(4) == 0) {
        /* without tables the answers are the same */
        lrlex_options without = *how;
        without.limit_tables = true, without.table_rows = without.table_work = 0;
        LAW(lrlex_definition_new(&plain, rules.bytes, rules.len, &without) == LRLEX_OK);
        LAW(lrlex_lex(&plain, input.bytes, input.len, others, ROOM, &slow) == LRLEX_OK);
        LAW(same_tokens(tokens, &lexed, others, &slow));
        lrlex_free(&plain);
    }
    if (below(2) == 0) check_scanner(d, &lexed, &cut);
    if (below(8) == 0) {
        check_ids(d);
        LAW(lrlex_lex(d, input.bytes, input.len, tokens, ROOM, &lexed) == LRLEX_OK);
        LAW(lrlex_pieces(d, input.bytes, input.len, pieces, ROOM, &cut) == LRLEX_OK);
        check_pieces(d, &lexed, &cut);
        check_scanner(d, &lexed, &cut);
    }
    if (below(2) == 0) check_edits(d);
    if (below(2) == 0) check_warnings(how);
}

/* All faults of a refused text: first those that the reading tells. */
static void check_all_faults(lrlex_definition *d, const lrlex_options *how) {
    lrlex_definition all = LRLEX_EMPTY;
    const size_t count = lrlex_fault_count(d);
    LAW(lrlex_check(&all, rules.bytes, rules.len, how) == LRLEX_REFUSED && lrlex_fault_count(&all) >= count);
    for (size_t i = 0; i < lrlex_fault_count(&all); i++) {
        lrlex_fault one, other;
        LAW(lrlex_fault_at(&all, i, &one) == LRLEX_OK && one.spans > 0 && one.start <= one.end && one.end <= rules.len);
        if (i >= count) continue;
        LAW(lrlex_fault_at(d, i, &other) == LRLEX_OK);
        LAW(one.start == other.start && one.end == other.end && one.spans == other.spans && one.kind == other.kind);
    }
    lrlex_free(&all);
}

static void check_faults(lrlex_definition *d, const lrlex_options *how) {
    static uint8_t report[ROOM];
    const size_t count = lrlex_fault_count(d);
    size_t len = 0;
    refused++;
    LAW(count > 0);
    for (size_t i = 0; i < count && i < 20; i++) {
        lrlex_fault fault;
        lrlex_fault_span span;
        uint8_t name[32];
        LAW(lrlex_fault_at(d, i, &fault) == LRLEX_OK && fault.spans > 0 && fault.kind <= LRLEX_TOO_MANY_RULES);
        for (size_t k = 0; k < fault.spans; k++)
            LAW(lrlex_fault_span_at(d, i, k, &span) == LRLEX_OK && span.start <= span.end && span.end <= rules.len && span.line && span.column);
        LAW(lrlex_fault_span_at(d, i, fault.spans, &span) == LRLEX_NONE);
        LAW(lrlex_fault_name(fault.kind, name, sizeof name, &len) == LRLEX_OK && len > 0 && len <= sizeof name);
        LAW(lrlex_fault_text(d, i, report, ROOM, &len) == LRLEX_OK && len > 0);
        LAW(lrlex_fault_message(d, i, report, ROOM, &len) == LRLEX_OK && len > 0);
    }
    LAW(lrlex_fault_report(d, rules.bytes, 0, report, ROOM, &len) == LRLEX_OK && len > 0);
    check_all_faults(d, how);
}

static void once(void) {
    const seed *one = &seeds[below(seed_count)], *other = below(3) ? one : &seeds[below(seed_count)];
    lrlex_definition d = LRLEX_EMPTY;
    set(&rules, one->rules, one->rules_len);
    set(&input, other->input, other->input_len);
    if (below(2)) mutate(&rules, 3);
    if (below(4)) mutate(&input, 6);
    const lrlex_options how = options();
    texts++;
    switch (lrlex_definition_new(&d, rules.bytes, rules.len, &how)) {
    case LRLEX_OK: check_definition(&d, &how); break;
    case LRLEX_REFUSED: check_faults(&d, &how); break;
    case LRLEX_NOT_UTF8: not_utf8++; LAW(d.hidden == NULL); break;
    default: law(0, "a status of a definition", __LINE__);
    }
    lrlex_free(&d);
    LAW(d.hidden == NULL);
}

static uint8_t *part_of(FILE *file, size_t len) {
    uint8_t *bytes = malloc(len + 1);
    if (!bytes || fread(bytes, 1, len, file) != len) exit(2);
    return bytes;
}

int main(int count, char **words) {
    uint32_t lengths[2];
    if (count < 3) return 2;
    FILE *file = fopen(words[1], "rb");
    if (!file) return 2;
    while (fread(lengths, sizeof lengths, 1, file) == 1) {
        seed *more = realloc(seeds, (seed_count + 1) * sizeof *seeds);
        if (!more) return 2;
        seeds = more;
        seed *it = &seeds[seed_count++];
        it->rules_len = lengths[0], it->input_len = lengths[1];
        it->rules = part_of(file, lengths[0]), it->input = part_of(file, lengths[1]);
    }
    fclose(file);
    if (seed_count == 0) return 2;
    state = (count > 3 ? strtoull(words[3], NULL, 10) : 1) * UINT64_C(0x9E3779B97F4A7C15) + 1;
    const time_t end = time(NULL) + (time_t)strtol(words[2], NULL, 10);
    while (time(NULL) < end) once();
    for (size_t i = 0; i < seed_count; i++) free(seeds[i].rules), free(seeds[i].input);
    free(seeds);
    printf("%llu texts: %llu definitions, %llu refused, %llu not UTF-8, %llu tokens, %llu warnings, %llu edits, %llu scans, %llu offsets: nothing found\n", texts, built, refused,
           not_utf8, tokens_seen, warnings_seen, edits, scans, offsets);
    return 0;
}
