// What is wrong with a rule text, or hardly meant in it.

#include "expect.hpp"
#include "lrlex.hpp"

#include <string>
#include <string_view>
#include <vector>

namespace {

/// The status of the Error that a call throws. LRLEX_OK if it throws none.
template <class Call> int status_of(Call call) {
    try {
        call();
    } catch (const lrlex::Error &error) {
        return error.status();
    }
    return LRLEX_OK;
}

/// The findings in one line: `fault 10 3:1 8..8, warning NeverWins 4:1 20..22`.
std::string shown(const std::vector<lrlex::Finding> &findings) {
    std::string text;
    for (const lrlex::Finding &it : findings) {
        text += text.empty() ? "" : ", ";
        text += it.is_fault ? "fault " + std::to_string(it.kind) : "warning " + lrlex::warning_name(it.kind);
        for (const lrlex_fault_span &span : it.spans) {
            text += " " + std::to_string(span.line) + ":" + std::to_string(span.column);
            text += " " + std::to_string(span.start) + ".." + std::to_string(span.end);
        }
    }
    return text;
}

std::string found_in(std::string_view rules, const lrlex::Options &options = {}) { return shown(lrlex::check(rules, options)); }

// A message of `./rolgumzai check`, and the end of another.
const std::string NEVER_WINS =
    "this rule never wins: it matches no byte, or other rules match as much or more; put it before them, or make them match less";
const std::string OPERATOR = "write a backslash before each operator to match its character, as \\+ or \\(";

void faults_below_the_first() {
    EXPECT(found_in("word\n%s 1\n%%\na 'A'\n") == "fault 2 1:1 0..0, fault 8 2:4 8..8");
    EXPECT(found_in("word\n%%\n( 'A'\n") == "fault 2 1:1 0..0, fault 10 3:1 8..8");
    EXPECT(found_in("%%\n\xc3\xa9 'A'\nb 'A'\n( 'B'\nc 'A'\n") == "fault 9 2:4 7..8 3:4 13..14, fault 10 4:1 16..16, fault 9 2:4 7..8 5:4 25..26");
    EXPECT(found_in("") == "fault 0 1:1 0..0");
    EXPECT(lrlex::check("%%\nc( 'C'\n").at(0).message == "Invalid regular expression: unclosed group");
    EXPECT(lrlex::check("%%\n( 'C'\n").at(0).message == "Invalid regular expression: unclosed group: " + OPERATOR);
    try {
        lrlex::Definition definition("word\n%%\n( 'A'\n");
        expect(false, "it was taken", __LINE__);
    } catch (const lrlex::RulesError &error) {
        EXPECT(error.faults().size() == 1 && error.faults()[0].kind == LRLEX_UNKNOWN_DECLARATION);
    }
}

void warnings() {
    EXPECT(found_in("%%\nif 'IF'\n[a-z]+ 'ID'\n").empty());
    EXPECT(found_in("%x S\n%%\n[a-z]+ 'ID'\nif 'IF'\n") ==
           "warning NeverEntered 1:4 3..4, warning NoRules 1:4 3..4, warning NeverWins 4:1 20..22");
    EXPECT(found_in("%%\n\xc3\xa9 'E'\n[a-z]+ 'ID'\nif 'IF'\n") == "warning NeverWins 4:1 22..24");
    const lrlex::Finding found = lrlex::check("%%\n[a-z]+ 'ID'\nif 'IF'\n").at(0);
    EXPECT(!found.is_fault && found.kind == LRLEX_NEVER_WINS && found.message == NEVER_WINS);
    std::string rules = "%%\n";
    for (int at = 0; at < 100; at++) rules += "| ;\n";
    const std::vector<lrlex::Finding> many = lrlex::check(rules);
    EXPECT(many.size() == 200 && many[0].kind == LRLEX_NEVER_WINS && many[199].kind == LRLEX_BARE_OPERATOR);
    EXPECT(many.at(199).spans[0].start == 399 && many.at(199).spans[0].line == 101);
}

void kinds_of_faults() {
    const struct {
        std::uint32_t kind;
        const char *name;
    } rows[] = {
        {LRLEX_PREMATURE_END, "PrematureEnd"},
        {LRLEX_ROUTINES_NOT_SUPPORTED, "RoutinesNotSupported"},
        {LRLEX_UNKNOWN_DECLARATION, "UnknownDeclaration"},
        {LRLEX_MISSING_SPACE, "MissingSpace"},
        {LRLEX_INVALID_NAME, "InvalidName"},
        {LRLEX_UNKNOWN_START_STATE, "UnknownStartState"},
        {LRLEX_DUPLICATE_START_STATE, "DuplicateStartState"},
        {LRLEX_INVALID_START_STATE, "InvalidStartState"},
        {LRLEX_INVALID_START_STATE_NAME, "InvalidStartStateName"},
        {LRLEX_DUPLICATE_NAME, "DuplicateName"},
        {LRLEX_REGEX_ERROR, "RegexError"},
        {LRLEX_VERBATIM_NOT_SUPPORTED, "VerbatimNotSupported"},
        {LRLEX_TOO_MANY_RULES, "TooManyRules"},
    };
    for (const auto &it : rows) EXPECT(lrlex::fault_name(it.kind) == it.name);
    EXPECT(lrlex::fault_name(13).empty() && lrlex::fault_name(UINT32_MAX).empty());
}

void kinds_of_warnings() {
    const struct {
        std::uint32_t kind;
        const char *name;
    } rows[] = {
        {LRLEX_NEVER_WINS, "NeverWins"},
        {LRLEX_NEVER_ACTIVE, "NeverActive"},
        {LRLEX_LOOKS_AROUND, "LooksAround"},
        {LRLEX_NO_TABLE, "NoTable"},
        {LRLEX_TARGET_IN_PATTERN, "TargetInPattern"},
        {LRLEX_BLANK_AFTER_STATES, "BlankAfterStates"},
        {LRLEX_LOST_ESCAPE, "LostEscape"},
        {LRLEX_ESCAPE_AFTER_STATES, "EscapeAfterStates"},
        {LRLEX_LOST_ALTERNATIVE, "LostAlternative"},
        {LRLEX_NAME_IN_PATTERN, "NameInPattern"},
        {LRLEX_QUOTED_PATTERN, "QuotedPattern"},
        {LRLEX_BARE_OPERATOR, "BareOperator"},
        {LRLEX_LOST_CARET, "LostCaret"},
        {LRLEX_GREEDY_DOT, "GreedyDot"},
        {LRLEX_CLASS_OPERATOR, "ClassOperator"},
        {LRLEX_UNKNOWN_CLASS, "UnknownClass"},
        {LRLEX_NEVER_ENTERED, "NeverEntered"},
        {LRLEX_NO_RULES, "NoRules"},
    };
    for (const auto &it : rows) EXPECT(lrlex::warning_name(it.kind) == it.name);
    EXPECT(lrlex::warning_name(18).empty() && lrlex::warning_name(UINT32_MAX).empty());
}

void options() {
    EXPECT(found_in("%%\n#.* ;\n") == "warning GreedyDot 2:1 3..6");
    EXPECT(found_in("%%\n#.* ;\n", lrlex::Options().off(LRLEX_DOT_MATCHES_NEW_LINE)).empty());
    EXPECT(lrlex::check_report("%%\n#.* ;\n", "a.l", lrlex::Options().off(LRLEX_DOT_MATCHES_NEW_LINE)).empty());
    EXPECT(found_in("// c\n%%\na 'A'\n") == "fault 2 1:1 0..0");
    EXPECT(found_in("// c\n%%\na 'A'\n", lrlex::Options().on(LRLEX_ALLOW_WHOLELINE_COMMENTS)).empty());
}

void reports() {
    EXPECT(lrlex::check_report("%%\nif 'IF'\n[a-z]+ 'ID'\n", "a.l").empty());
    EXPECT(lrlex::check_report("%%\n[a-z]+ 'ID'\nif 'IF'\n", "a.l") ==
           "a.l:3:1: Warning: " + NEVER_WINS + " [NeverWins]\n3 | if 'IF'\n  | ^^\n");
    EXPECT(lrlex::check_report("%%\n( 'A'\n) 'B'\n", "a.l") ==
           "a.l:2:1: Invalid regular expression: unclosed group: " + OPERATOR + "\n2 | ( 'A'\n  | ^\n"
           "a.l:3:1: Invalid regular expression: unopened group: " + OPERATOR + "\n3 | ) 'B'\n  | ^\n");
    // one that needs more than the first room
    const std::string file(5000, 'a');
    EXPECT(lrlex::check_report("%%\n[a-z]+ 'ID'\nif 'IF'\n", file).find(file + ":3:1: Warning: ") == 0);
}

void what_is_not_utf8() {
    EXPECT(status_of([] { lrlex::check("%%\n\xff"); }) == LRLEX_NOT_UTF8);
    EXPECT(status_of([] { lrlex::check_report("%%\n\xff", "a.l"); }) == LRLEX_NOT_UTF8);
    for (const char *rules : {"%%\n", ""}) EXPECT(status_of([&] { lrlex::check_report(rules, "\xff"); }) == LRLEX_NOT_UTF8);
}

} // namespace

int main() {
    faults_below_the_first();
    warnings();
    kinds_of_faults();
    kinds_of_warnings();
    options();
    reports();
    what_is_not_utf8();
    return failed;
}
