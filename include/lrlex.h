/* lrlex.h - lexers from rule files (.l), for C and C++.
 *
 * A definition is read from a rule text. It cuts texts into lexemes: at each place the rule with the longest match wins, and on a tie
 * the earliest rule. A document is a text that is edited and kept lexed. A scanner cuts a text a
 * few tiles at a time: the matches of all rules, also of those without a name.
 *
 *     lrlex_definition d = LRLEX_EMPTY;
 *     lrlex_options options = LRLEX_OPTIONS;
 *     if (lrlex_definition_new(&d, rules, rules_len, &options) == LRLEX_OK) {
 *         lrlex_token tokens[64];
 *         lrlex_lexed lexed;
 *         if (lrlex_lex(&d, text, text_len, tokens, 64, &lexed) == LRLEX_OK)
 *             use(tokens, lexed.count < 64 ? lexed.count : 64);
 *     }
 *     lrlex_free(&d);
 *
 * Handles. lrlex_definition, lrlex_document and lrlex_scanner are structs of one pointer, which the caller holds and passes by address.
 * LRLEX_EMPTY, or all bytes zero, is an empty handle. A handle owns what it points to, until lrlex_free. It may be moved (as by memcpy or
 * realloc), and then the old bytes must not be used. It must not be copied: use lrlex_definition_share. Calls that fill a handle first
 * free what it has.
 *
 * Misuse. A call on an empty handle, or on a handle of another kind, returns LRLEX_MISUSE (a count is then 0). It changes nothing, but a
 * handle that the call is to fill is empty then. A handle that is freed is empty, so it can be freed again.
 *
 * Texts. A text is a pointer and a length in bytes, in UTF-8, without a 0 at its end. It is read during the call and may be freed after
 * it: a document and a scanner have a copy. Offsets count bytes from 0. `char` and `uint8_t` have the same bytes: cast the pointer.
 *
 * Buffers. A call that writes into a buffer of `cap` elements writes as many as there is room for and reports how many there are. So call
 * it with room that is likely enough, or with `cap` 0, and once more with the number that it reports. Three calls report no such number.
 * lrlex_places and lrlex_definition_set_rule_ids write an element for each that they are given. lrlex_scanner_next writes the tiles that
 * come next: give it room for one at least, since with `cap` 0 it never comes to an end. If a call does not return LRLEX_OK, what its
 * other pointers point to is unspecified, and is never uninitialized by the call.
 *
 * Pointers. No pointer may be NULL, even with a length of 0. Pointers that a call writes to must not overlap with others of the call.
 *
 * Failures. A call that returns an int returns a lrlex_status. LRLEX_NOMEM can come from each call that says so; after it a handle that
 * the call is to fill is empty, any other is as it was, and the call can be made again. No call prints, exits, raises a signal, calls
 * back or keeps a pointer of the caller.
 *
 * Threads. A handle is used by one call at a time, on any thread. Handles of one definition (shared ones, its documents and its scanners)
 * may be used by several threads at the same time: what they share is only read, and counted atomically. There is no global state.
 * lrlex_definition_share makes a second handle of the same definition without copying it.
 *
 * Memory. The library uses malloc, realloc and free of the program, which must align to 16 bytes. Patterns of the greatest depth
 * (nest_limit) take about 1 MB of stack.
 *
 * What the calls return is proved against the specification in docs/specification.md: see crates/lrlex_c. What C itself does is not
 * part of that: valid pointers and lengths are the caller's part.
 */
#ifndef LRLEX_H
#define LRLEX_H

#include <stdbool.h>
#include <stddef.h>
#include <stdint.h>

#ifdef __cplusplus
extern "C" {
#endif

/* ---- The version ---- */

#define LRLEX_VERSION_MAJOR 0
#define LRLEX_VERSION_MINOR 1
#define LRLEX_VERSION_PATCH 0
/* The version of this header as one number, as lrlex_version() gives that of the library. Before 1.0 a header and a library fit where
 * LRLEX_VERSION / 100 and lrlex_version() / 100 are the same: the first two numbers. The shared library has them in its name. */
#define LRLEX_VERSION (LRLEX_VERSION_MAJOR * 10000 + LRLEX_VERSION_MINOR * 100 + LRLEX_VERSION_PATCH)

/* The version of the library. Cannot fail. */
uint32_t lrlex_version(void);

/* ---- What calls return ---- */

typedef enum lrlex_status {
    LRLEX_OK = 0,
    LRLEX_REFUSED = 1,      /* the rule text has faults; the handle has them */
    LRLEX_NOMEM = 2,        /* out of memory */
    LRLEX_NOT_UTF8 = 3,     /* a text is not UTF-8 */
    LRLEX_MISUSE = 4,       /* the handle is empty, of another kind, or has faults where a definition is wanted */
    LRLEX_NONE = 5,         /* there is nothing at this index or of this number, or nothing to report */
    LRLEX_DOES_NOT_FIT = 6, /* offsets past the text's end, inside a character, or in the wrong order */
    LRLEX_SHARED = 7        /* the definition has other owners, so it cannot be changed */
} lrlex_status;

/* ---- Handles ---- */

/* A definition, or the faults of the rule text that it was to be read from. */
typedef struct lrlex_definition { void *hidden; } lrlex_definition;

/* A text that is edited and kept lexed. */
typedef struct lrlex_document { void *hidden; } lrlex_document;

/* A text that is cut a few tiles at a time, as a parser asks for them. */
typedef struct lrlex_scanner { void *hidden; } lrlex_scanner;

#define LRLEX_EMPTY { NULL }

/* Frees what a handle has: the argument is a pointer to an lrlex_definition, an lrlex_document or an lrlex_scanner. The handle is empty
 * then. An empty one stays empty. Cannot fail. */
void lrlex_free(void *handle);

/* ---- Definitions ---- */

/* Flags of lrlex_options. */
enum {
    LRLEX_DOT_MATCHES_NEW_LINE = 1,      /* `.` matches U+000A; on unless set to off */
    LRLEX_MULTI_LINE = 2,                /* `^` and `$` match at the ends of lines; on unless set to off */
    LRLEX_OCTAL = 4,                     /* `\052` is an octal escape; on unless set to off */
    LRLEX_POSIX_ESCAPES = 8,             /* `\b` is the backspace, not a word boundary */
    LRLEX_ALLOW_WHOLELINE_COMMENTS = 16, /* a line that begins with `//` is a comment */
    LRLEX_CASE_INSENSITIVE = 32,         /* letters match in either case */
    LRLEX_SWAP_GREED = 64,               /* `a*` is lazy and `a*?` greedy */
    LRLEX_IGNORE_WHITESPACE = 128,       /* white space in a pattern is ignored */
    LRLEX_UNICODE = 256                  /* classes and case folding are Unicode's; on unless set to off */
};

/* The settings that a rule text is read with. All zero is the usual. */
typedef struct lrlex_options {
    size_t size_limit;   /* about how many bytes a compiled pattern may take; 0 is 10 MiB */
    size_t table_rows;   /* with limit_tables: how many rows of tables to make at most, of some 512 bytes each */
    size_t table_work;   /* with limit_tables: how much work to spend on tables at most; 1,000 for each row, and more */
    uint32_t set;        /* which flags are set, */
    uint32_t on;         /* and which of these are on */
    uint32_t nest_limit; /* how deep a pattern may nest; 0 is 250, and the most is 1,000 */
    bool limit_tables;   /* whether table_rows and table_work limit the tables. With none, each rule is matched by its regular
                            expression, which is slower. The answers are the same */
} lrlex_options;

/* The usual settings: all zero. */
#define LRLEX_OPTIONS { 0, 0, 0, 0, 0, 0, false }

/* Reads a rule text. What `out` has is freed first.
 * LRLEX_OK: `out` has the definition. LRLEX_REFUSED: `out` has the faults of the text, up to the first that is neither a duplicate nor
 * verbatim code, for the calls lrlex_fault_*; free it too.
 * LRLEX_NOT_UTF8, LRLEX_NOMEM: `out` is empty. */
int lrlex_definition_new(lrlex_definition *out, const uint8_t *rules, size_t rules_len, const lrlex_options *options);

/* Reads a rule text as lrlex_definition_new does, and tells all its faults: a fault ends its line alone, and the next line is read after
 * it. A refused text is read twice. What `out` has is freed first.
 * LRLEX_OK: `out` has the definition. LRLEX_REFUSED: `out` has all faults of the text, for the calls lrlex_fault_*; free it too.
 * LRLEX_NOT_UTF8, LRLEX_NOMEM: `out` is empty. */
int lrlex_check(lrlex_definition *out, const uint8_t *rules, size_t rules_len, const lrlex_options *options);

/* Gives `out` the same definition, which is freed with its last owner. What `out` has is freed first. `out` is another handle than `d`.
 * LRLEX_OK; LRLEX_MISUSE, LRLEX_NOMEM: `out` is empty. */
int lrlex_definition_share(lrlex_definition *d, lrlex_definition *out);

/* ---- Faults of a rule text ---- */

/* The kinds of faults. */
enum {
    LRLEX_PREMATURE_END = 0, LRLEX_ROUTINES_NOT_SUPPORTED = 1, LRLEX_UNKNOWN_DECLARATION = 2, LRLEX_MISSING_SPACE = 3,
    LRLEX_INVALID_NAME = 4, LRLEX_UNKNOWN_START_STATE = 5, LRLEX_DUPLICATE_START_STATE = 6, LRLEX_INVALID_START_STATE = 7,
    LRLEX_INVALID_START_STATE_NAME = 8, LRLEX_DUPLICATE_NAME = 9, LRLEX_REGEX_ERROR = 10, LRLEX_VERBATIM_NOT_SUPPORTED = 11,
    LRLEX_TOO_MANY_RULES = 12
};

/* A fault: its kind, its first span in the rule text, in bytes, with line and column, and how many spans it has. */
typedef struct lrlex_fault {
    size_t start, end;
    size_t line, column; /* of start, from 1; the column counts characters */
    size_t spans;
    uint32_t kind;
} lrlex_fault;

/* A span in the rule text, in bytes, with line and column. */
typedef struct lrlex_fault_span {
    size_t start, end;
    size_t line, column; /* of start, from 1; the column counts characters */
} lrlex_fault_span;

/* How many faults the handle has: at least one after LRLEX_REFUSED, and else 0. Cannot fail. */
size_t lrlex_fault_count(lrlex_definition *d);

/* The fault at this index. LRLEX_OK; LRLEX_NONE: there are fewer; LRLEX_MISUSE: the handle has no faults. */
int lrlex_fault_at(lrlex_definition *d, size_t index, lrlex_fault *out);

/* A span of the fault at this index. Span 0 is that of lrlex_fault_at. Of a duplicate it is the first place, and the others are
 * where it is declared again.
 * LRLEX_OK; LRLEX_NONE: there are fewer faults or fewer spans; LRLEX_MISUSE. */
int lrlex_fault_span_at(lrlex_definition *d, size_t index, size_t span, lrlex_fault_span *out);

/* The name of a kind of faults, such as DuplicateName. `len` is how many bytes it has. LRLEX_OK; LRLEX_NONE: there is no such kind. */
int lrlex_fault_name(uint32_t kind, uint8_t *out, size_t cap, size_t *len);

/* What the fault at this index is, in English, without a full stop. `len` is how many bytes that takes.
 * LRLEX_OK; LRLEX_NONE; LRLEX_MISUSE; LRLEX_NOMEM. */
int lrlex_fault_text(lrlex_definition *d, size_t index, uint8_t *out, size_t cap, size_t *len);

/* What the fault at this index is, and what to write where the mistake is usual, in English, without a full stop: its message in
 * lrlex_fault_report. `len` is how many bytes that takes.
 * LRLEX_OK; LRLEX_NONE; LRLEX_MISUSE; LRLEX_NOMEM. */
int lrlex_fault_message(lrlex_definition *d, size_t index, uint8_t *out, size_t cap, size_t *len);

/* A report for people of the faults that the handle has: of each FILE:LINE:COLUMN, the message, the line, and carets under the place. `file` is the
 * name to show. `len` is how many bytes that takes.
 * LRLEX_OK; LRLEX_NOT_UTF8; LRLEX_MISUSE; LRLEX_NOMEM. */
int lrlex_fault_report(lrlex_definition *d, const uint8_t *file, size_t file_len, uint8_t *out, size_t cap, size_t *len);

/* ---- Warnings of a rule text ---- */

/* The kinds of warnings: what is legal in a rule text and hardly meant. */
enum {
    LRLEX_NEVER_WINS = 0, LRLEX_NEVER_ACTIVE = 1, LRLEX_LOOKS_AROUND = 2, LRLEX_NO_TABLE = 3, LRLEX_TARGET_IN_PATTERN = 4,
    LRLEX_BLANK_AFTER_STATES = 5, LRLEX_LOST_ESCAPE = 6, LRLEX_ESCAPE_AFTER_STATES = 7, LRLEX_LOST_ALTERNATIVE = 8,
    LRLEX_NAME_IN_PATTERN = 9, LRLEX_QUOTED_PATTERN = 10, LRLEX_BARE_OPERATOR = 11, LRLEX_LOST_CARET = 12, LRLEX_GREEDY_DOT = 13,
    LRLEX_CLASS_OPERATOR = 14, LRLEX_UNKNOWN_CLASS = 15, LRLEX_NEVER_ENTERED = 16, LRLEX_NO_RULES = 17
};

/* A warning: its kind, and its span in the rule text, in bytes, with line and column: a rule's pattern with its list of start states,
 * or a start state's name. */
typedef struct lrlex_warning {
    size_t start, end;
    size_t line, column; /* of start, from 1; the column counts characters */
    uint32_t kind;
} lrlex_warning;

/* The warnings of a definition: those of each start state, then those of each rule, in order. `rules` is the text that the definition
 * was read from; with another text the nearest places are told. `count` is how many warnings there are.
 * LRLEX_OK; LRLEX_NOT_UTF8; LRLEX_MISUSE; LRLEX_NOMEM. */
int lrlex_warnings(lrlex_definition *d, const uint8_t *rules, size_t rules_len, lrlex_warning *out, size_t cap, size_t *count);

/* The name of a kind of warnings, such as NeverWins. `len` is how many bytes it has. LRLEX_OK; LRLEX_NONE: there is no such kind. */
int lrlex_warning_name(uint32_t kind, uint8_t *out, size_t cap, size_t *len);

/* What a warning of this kind says, in English, without a full stop: what is unusual, why, and what to write. `len` is how many bytes
 * that takes. LRLEX_OK; LRLEX_NONE: there is no such kind. */
int lrlex_warning_text(uint32_t kind, uint8_t *out, size_t cap, size_t *len);

/* A report for people of the warnings that lrlex_warnings tells: of each FILE:LINE:COLUMN, the message, the kind's name, the line, and
 * carets under the place. `file` is the name to show. `len` is how many bytes that takes: 0 where there are no warnings.
 * LRLEX_OK; LRLEX_NOT_UTF8: one of the texts is not UTF-8; LRLEX_MISUSE; LRLEX_NOMEM. */
int lrlex_warning_report(lrlex_definition *d, const uint8_t *file, size_t file_len, const uint8_t *rules, size_t rules_len, uint8_t *out,
                         size_t cap, size_t *len);

/* ---- Rules and start states ---- */

typedef struct lrlex_rule {
    size_t name_start, name_end; /* where the name is in the rule text */
    size_t name_len;             /* how many bytes the name has */
    uint32_t id;                 /* if has_id */
    bool has_id;
    bool has_name;               /* a rule without a name gives no lexeme */
} lrlex_rule;

typedef struct lrlex_state {
    size_t id;
    size_t name_start, name_end; /* where the name is in the rule text */
    size_t name_len;             /* how many bytes the name has */
    bool exclusive;              /* whether only rules that list the state are active in it */
} lrlex_state;

/* How many rules the definition has, or 0 if the handle has none. Cannot fail. */
size_t lrlex_rule_count(lrlex_definition *d);

/* The rule at this index. LRLEX_OK; LRLEX_NONE: there are fewer; LRLEX_MISUSE. */
int lrlex_rule_at(lrlex_definition *d, size_t index, lrlex_rule *out);

/* The name of the rule at this index. LRLEX_OK; LRLEX_NONE: there are fewer, or it has none; LRLEX_MISUSE. */
int lrlex_rule_name(lrlex_definition *d, size_t index, uint8_t *out, size_t cap, size_t *len);

/* The name of the first rule that has a name and this id: what a token with the id is called.
 * LRLEX_OK; LRLEX_NONE: there is no such rule; LRLEX_MISUSE. */
int lrlex_name(lrlex_definition *d, uint32_t id, uint8_t *out, size_t cap, size_t *len);

/* How many start states the definition has, with INITIAL, or 0 if the handle has none. Cannot fail. */
size_t lrlex_state_count(lrlex_definition *d);

/* The start state at this index. LRLEX_OK; LRLEX_NONE: there are fewer; LRLEX_MISUSE. */
int lrlex_state_at(lrlex_definition *d, size_t index, lrlex_state *out);

/* The name of the start state at this index. LRLEX_OK; LRLEX_NONE: there are fewer; LRLEX_MISUSE. */
int lrlex_state_name(lrlex_definition *d, size_t index, uint8_t *out, size_t cap, size_t *len);

/* A name, and the id that the rules of this name are to have. */
typedef struct lrlex_named_id {
    const uint8_t *name;
    size_t name_len;
    uint32_t id;
} lrlex_named_id;

/* Gives each named rule the id that its name has in `ids`, or none: for a parser whose grammar says which id each token has. Of entries
 * with the same name the last counts. Unnamed rules keep theirs. Lexing stops where a rule matches that has a name and no id.
 * `missing` has, for as many entries as there is room, whether no rule has the name. Rules that are left without an id are those of
 * lrlex_rule_at with has_name and not has_id. If the call does not return LRLEX_OK, the definition is as it was.
 * LRLEX_OK; LRLEX_SHARED: another handle is an owner of the definition too, one that it is shared with, or that of a document or a
 * scanner; LRLEX_NOT_UTF8: a name is not; LRLEX_MISUSE; LRLEX_NOMEM. */
int lrlex_definition_set_rule_ids(lrlex_definition *d, const lrlex_named_id *ids, size_t count, bool *missing, size_t cap);

/* ---- Lexing ---- */

/* A lexeme: its place, its length, and the id of its rule. */
typedef struct lrlex_token {
    size_t start, len;
    uint32_t id;
} lrlex_token;

/* A piece of a text as it was cut: its place, its length, and the index of its rule, as for lrlex_rule_at. */
typedef struct lrlex_piece {
    size_t start, len;
    size_t rule;
} lrlex_piece;

/* How lexing went. */
typedef struct lrlex_lexed {
    size_t count;   /* how many lexemes or pieces there are, even if there was room for fewer */
    size_t end;     /* where lexing ended: the text's length, or the place of the error */
    size_t state;   /* the id of the start state there */
    bool stopped;   /* whether it ended at an error */
    bool unmatched; /* whether that error is that no rule matches. Else the rule that matches gives no lexeme */
} lrlex_lexed;

/* Lexes a text. Where lexing stops at an error, the lexemes before it are written, and the call returns LRLEX_OK.
 * LRLEX_OK; LRLEX_NOT_UTF8; LRLEX_MISUSE; LRLEX_NOMEM. */
int lrlex_lex(lrlex_definition *d, const uint8_t *text, size_t text_len, lrlex_token *tokens, size_t cap, lrlex_lexed *out);

/* Cuts a text: as lrlex_lex, with the pieces of unnamed rules, such as white space and comments. Each byte up to `end` is in one piece.
 * LRLEX_OK; LRLEX_NOT_UTF8; LRLEX_MISUSE; LRLEX_NOMEM. */
int lrlex_pieces(lrlex_definition *d, const uint8_t *text, size_t text_len, lrlex_piece *pieces, size_t cap, lrlex_lexed *out);

/* A report for people of the error at which lexing this text stops: FILE:LINE:COLUMN, the message, the line, and a caret. `file` is
 * the name to show. `len` is how many bytes that takes.
 * LRLEX_OK; LRLEX_NONE: lexing does not stop; LRLEX_NOT_UTF8: one of the texts is not UTF-8; LRLEX_MISUSE; LRLEX_NOMEM. */
int lrlex_stop_report(lrlex_definition *d, const uint8_t *file, size_t file_len, const uint8_t *text, size_t text_len, uint8_t *out,
                      size_t cap, size_t *len);

/* Where a text enters the start state in which it ends: the bytes of the piece that enters it, and the state. */
typedef struct lrlex_entered {
    size_t start, end; /* where the piece starts and ends */
    size_t state;      /* the id of the start state: `state` of lrlex_lexed */
} lrlex_entered;

/* Where a text enters the start state in which it ends, such as the beginning of a comment that nothing closes: the last piece before
 * which the stack of start states lacks what is on top at the end. Where lexing stops at an error, the text ends there. A text that ends
 * in INITIAL has such a piece too if it left INITIAL: `state` tells. The call lexes the text, and keeps nothing of it.
 * LRLEX_OK; LRLEX_NONE: the text begins in the start state in which it ends, and no piece leaves it; LRLEX_NOT_UTF8; LRLEX_MISUSE;
 * LRLEX_NOMEM. */
int lrlex_entered_by(lrlex_definition *d, const uint8_t *text, size_t text_len, lrlex_entered *out);

/* ---- Scanners ---- */

/* A tile: a piece of a text as it is cut, with the id of its lexeme. */
typedef struct lrlex_tile {
    size_t start, len;
    size_t rule;  /* the index of its rule, as for lrlex_rule_at */
    uint32_t id;  /* if has_id */
    bool has_id;  /* a rule without a name gives no lexeme */
} lrlex_tile;

/* Why a scanner gives no more tiles. */
enum {
    LRLEX_SCAN_MORE = 0,      /* it may give more */
    LRLEX_SCAN_DONE = 1,      /* the text ends */
    LRLEX_SCAN_NO_MATCH = 2,  /* no rule matches in the start state `state` */
    LRLEX_SCAN_NO_ID = 3,     /* the rule `rule` matches, which has a name and no id */
    LRLEX_SCAN_NO_TARGET = 4, /* the rule `rule` matches, and enters no start state; no rule text has such a rule */
    LRLEX_SCAN_NO_STATE = 5   /* there is no start state of id 0; each rule text gives one */
};

/* How a scanner went on. */
typedef struct lrlex_scanned {
    size_t count; /* how many tiles were written */
    size_t place; /* the place behind them */
    size_t state; /* of LRLEX_SCAN_NO_MATCH; else 0 */
    size_t rule;  /* of LRLEX_SCAN_NO_ID and LRLEX_SCAN_NO_TARGET; else 0 */
    uint32_t end; /* one of LRLEX_SCAN_ */
} lrlex_scanned;

/* Makes a scanner of this text, at its front. It has a copy of the text, and keeps nothing of the tiles that it gives. It is an owner of
 * the definition, so `d` can be freed before it. What `out` has is freed first.
 * LRLEX_OK; LRLEX_NOT_UTF8, LRLEX_MISUSE, LRLEX_NOMEM: `out` is empty. */
int lrlex_scanner_new(lrlex_definition *d, lrlex_scanner *out, const uint8_t *text, size_t text_len);

/* Writes the tiles that come next, and moves behind them. If `end` is LRLEX_SCAN_MORE, `cap` tiles are written. Else those up to an end
 * are, and each further call gives none and says the same again. Give it room for some hundred tiles: each call costs about as much as
 * a few of them, and looks ahead anew. If the call does not return LRLEX_OK, the scanner is where it was.
 * LRLEX_OK; LRLEX_MISUSE; LRLEX_NOMEM. */
int lrlex_scanner_next(lrlex_scanner *scanner, lrlex_tile *tiles, size_t cap, lrlex_scanned *out);

/* ---- Lines and columns ---- */

typedef struct lrlex_place {
    size_t line, column;
} lrlex_place;

/* Line and column, from 1, of the place before each of these bytes; a column counts characters. Inside a character it is the place
 * before that, and past the text's end the end. Writes as many as both `n` and `cap` allow. Each call reads the whole text, so ask for
 * many places at once. In ascending order they take no further pass, however long the lines are.
 * LRLEX_OK; LRLEX_NOT_UTF8; LRLEX_NOMEM. */
int lrlex_places(const uint8_t *text, size_t text_len, const size_t *bytes, size_t n, lrlex_place *out, size_t cap);

/* ---- Documents ---- */

/* Makes a document of this text. It is an owner of the definition, so `d` can be freed before it. What `out` has is freed first.
 * LRLEX_OK; LRLEX_NOT_UTF8, LRLEX_MISUSE, LRLEX_NOMEM: `out` is empty. */
int lrlex_document_new(lrlex_definition *d, lrlex_document *out, const uint8_t *text, size_t text_len);

/* Puts a text in the place of the bytes from `from` up to `to`, and lexes again what that changes. If the call does not return LRLEX_OK,
 * the document is as it was.
 * LRLEX_OK; LRLEX_DOES_NOT_FIT; LRLEX_NOT_UTF8; LRLEX_MISUSE; LRLEX_NOMEM. */
int lrlex_document_edit(lrlex_document *d, size_t from, size_t to, const uint8_t *put, size_t put_len);

/* The lexemes from index `first` on; `count` of `out` counts all of the document, those before `first` too. LRLEX_OK; LRLEX_MISUSE. */
int lrlex_document_tokens(lrlex_document *d, size_t first, lrlex_token *tokens, size_t cap, lrlex_lexed *out);

/* How many bytes the document has. LRLEX_OK; LRLEX_MISUSE. */
int lrlex_document_len(lrlex_document *d, size_t *len);

/* The bytes from `from` up to `to`. The ends may be inside characters. `len` is `to - from`.
 * LRLEX_OK; LRLEX_DOES_NOT_FIT: `to` is past the end or before `from`; LRLEX_MISUSE. */
int lrlex_document_text(lrlex_document *d, size_t from, size_t to, uint8_t *out, size_t cap, size_t *len);

/* The pieces of the whole document, as lrlex_pieces gives them. LRLEX_OK; LRLEX_MISUSE; LRLEX_NOMEM. */
int lrlex_document_pieces(lrlex_document *d, lrlex_piece *pieces, size_t cap, lrlex_lexed *out);

/* The pieces that have a byte from `from` up to `to`, such as those of the lines that an editor shows. Each is whole: the first may begin
 * before `from`, and the last end after `to`. Any numbers will do. `count` of `out` counts these pieces.
 * LRLEX_OK; LRLEX_MISUSE; LRLEX_NOMEM. */
int lrlex_document_pieces_in(lrlex_document *d, size_t from, size_t to, lrlex_piece *pieces, size_t cap, lrlex_lexed *out);

/* Where the document enters the start state in which it ends, as lrlex_entered_by tells it of a text.
 * LRLEX_OK; LRLEX_NONE: it begins in that state, and no piece leaves it; LRLEX_MISUSE. */
int lrlex_document_entered_by(lrlex_document *d, lrlex_entered *out);

/* Line and column, from 1, of the place before this byte; the column counts characters. Inside a character it is the place before that,
 * and past the text's end the end. LRLEX_OK; LRLEX_MISUSE. */
int lrlex_document_place(lrlex_document *d, size_t byte, lrlex_place *out);

/* Line and column of the place before this byte as the Language Server Protocol counts them: both from 0, the column in code units of
 * UTF-16. A line ends by U+000A, by U+000D and U+000A, or by U+000D alone. Inside a character, or between U+000D and U+000A, it is the
 * place before that, and past the text's end the end. LRLEX_OK; LRLEX_MISUSE. */
int lrlex_document_position(lrlex_document *d, size_t byte, lrlex_place *out);

/* What the columns of a position count. */
enum {
    LRLEX_UTF8 = 0, /* bytes */
    LRLEX_UTF16 = 1 /* code units of UTF-16 */
};

/* The same, its column counted as `encoding` says. LRLEX_OK; LRLEX_NONE: there is no such encoding; LRLEX_MISUSE. */
int lrlex_document_position_in(lrlex_document *d, size_t byte, uint32_t encoding, lrlex_place *out);

/* The byte of a line and column, both from 0, the column counted as `encoding` says: the inverse of lrlex_document_position_in. Past a
 * line's end it is the place before what ends the line, past the last line the text's end, and inside a character the place before
 * that. LRLEX_OK; LRLEX_NONE: there is no such encoding; LRLEX_MISUSE. */
int lrlex_document_offset_at(lrlex_document *d, size_t line, size_t column, uint32_t encoding, size_t *byte);

#ifdef __cplusplus
}
#endif

#endif
