// A first text, a refused rule text, a document through edits, and a scanner.

#include "expect.hpp"
#include "lrlex.hpp"

#include <algorithm>
#include <iterator>
#include <memory_resource>
#include <string>
#include <type_traits>
#include <utility>
#include <vector>

namespace {

/// The Error that a call throws. One of LRLEX_OK if it throws none.
template <class Call> lrlex::Error error_of(Call call) {
    try {
        call();
    } catch (const lrlex::Error &error) {
        return error;
    }
    return {"no error", LRLEX_OK};
}

template <class Call> int status_of(Call call) { return error_of(call).status(); }

const char *const WORDS = "%%\n[0-9]+ 'INT'\n[a-z]+ 'ID'\n[ ] ;\n";

std::string shown(const lrlex::Definition &definition, const lrlex::Tokens &tokens) {
    std::string text;
    for (const lrlex::Token &token : tokens) text.append(definition.name(token.id)).append(" ").append(token.text).append("\n");
    return text;
}

void tokens_of_a_text() {
    const lrlex::Definition definition(WORDS);
    const lrlex::Tokens tokens = definition.lex("abc 123");
    EXPECT(shown(definition, tokens) == "ID abc\nINT 123\n");
    EXPECT(tokens.size() == 2 && tokens[1].start == 4 && !tokens.stop);
    EXPECT(definition.lex({}).empty());
    EXPECT(definition.name(99).empty());
    const std::string letters(1000, 'a');
    EXPECT(lrlex::Definition("%%\na 'A'\n").lex(letters).size() == 1000);
}

/// Whether a call takes, or is of, what it would view.
template <template <class> class Call, class Viewed, class = void> constexpr bool is_there = false;
template <template <class> class Call, class Viewed> constexpr bool is_there<Call, Viewed, std::void_t<Call<Viewed>>> = true;

template <class Text> using Lex = decltype(std::declval<const lrlex::Definition &>().lex(std::declval<Text>()));
template <class Text>
using LexInto = decltype(std::declval<const lrlex::Definition &>().lex(std::declval<Text>(), std::declval<lrlex::Tokens &>()));
template <class Text> using Scan = decltype(lrlex::Scanner(std::declval<const lrlex::Definition &>(), std::declval<Text>()));
template <class Document> using TokensOf = decltype(std::declval<Document>().lex());
template <class Document> using TextOf = decltype(std::declval<Document>().text());

template <class Text> constexpr bool is_viewed = is_there<Lex, Text> && is_there<LexInto, Text> && is_there<Scan, Text>;
template <class Text> constexpr bool is_refused = !is_there<Lex, Text> && !is_there<LexInto, Text> && !is_there<Scan, Text>;
static_assert(is_viewed<std::string &> && is_viewed<const std::string &> && is_viewed<std::string_view> && is_viewed<const char *>);
static_assert(is_refused<std::string> && is_refused<const std::string> && is_refused<std::pmr::string>);
static_assert(is_there<TokensOf, const lrlex::Document &> && is_there<TextOf, const lrlex::Document &>);
static_assert(!is_there<TokensOf, lrlex::Document> && !is_there<TextOf, lrlex::Document>);

void a_text_that_grows_denser() {
    const lrlex::Definition definition(WORDS);
    std::string text(10000, ' ');
    for (int at = 0; at < 10000; at++) text += "a1";
    for (int time = 0; time < 2; time++) {
        EXPECT(definition.lex(text).size() == 20000);
        EXPECT(definition.pieces(text).size() == 30000);
    }
    const lrlex::Document document(definition, text);
    lrlex::Tokens tokens = document.lex();
    definition.lex("a", tokens);
    EXPECT(tokens.size() == 1 && tokens[0].text == "a" && !tokens.stop);
    definition.lex(text, tokens);
    EXPECT(tokens.size() == 20000 && tokens[19999].text == "1" && tokens[19999].start == 29999);
}

void lexing_stops_where_no_rule_matches() {
    const lrlex::Tokens tokens = lrlex::Definition(WORDS).lex("ab\n?");
    EXPECT(tokens.size() == 1 && tokens.stop);
    EXPECT(tokens.stop->start == 2 && tokens.stop->line == 1 && tokens.stop->column == 3 && tokens.stop->state == 0U);
}

void a_report_of_a_stop() {
    const lrlex::Definition definition(WORDS);
    const std::string report = definition.stop_report("ab ?", "a.txt");
    EXPECT(report.find("a.txt:1:4: ") == 0 && report.find("\n1 | ab ?\n  |    ^") != std::string::npos);
    EXPECT(definition.stop_report("ab", "a.txt").empty());
    EXPECT(status_of([&] { definition.stop_report("a\xff", "a.txt"); }) == LRLEX_NOT_UTF8);
    const std::string line(5000, 'a');
    EXPECT(definition.stop_report(line + "?", line).find(line + ":1:5001: ") == 0);
}

void ids_by_names() {
    lrlex::Definition definition(WORDS);
    const lrlex::Unmatched found = definition.set_rule_ids({{"ID", 70}, {"WORD", 8}});
    EXPECT(found.missing == std::vector<std::string>{"WORD"} && found.unused == std::vector<std::string>{"INT"});
    EXPECT(definition.lex("a")[0].id == 70 && definition.name(70) == "ID" && definition.name(0).empty());
    EXPECT(definition.lex("1").stop && !definition.lex("1").stop->state);
    {
        const lrlex::Document document(definition, "a");
        EXPECT(status_of([&] { definition.set_rule_ids({}); }) == LRLEX_SHARED);
    }
    {
        const lrlex::Definition other = definition.share();
        EXPECT(status_of([&] { definition.set_rule_ids({}); }) == LRLEX_SHARED && other.lex("a")[0].id == 70);
    }
    EXPECT(definition.set_rule_ids({{"INT", 0}, {"ID", 1}}).unused.empty());
    EXPECT(definition.set_rule_ids({}).unused.size() == 2);
}

void a_refused_rule_text() {
    try {
        lrlex::Definition definition("%x A A\n%%\na+b 'A'\nb 'A'\nc( 'C'\n");
        expect(false, "it was taken", __LINE__);
    } catch (lrlex::RulesError &error) {
        EXPECT(error.faults().size() == 3);
        EXPECT(error.faults()[0].message == "Start state already exists");
        EXPECT(error.faults()[0].kind == LRLEX_DUPLICATE_START_STATE);
        EXPECT(error.faults()[0].spans.size() == 2 && error.faults()[0].spans[1].start == 5);
        EXPECT(std::string(error.what()).find("1:4: Start state already exists, again at 1:6\n3:6: ") == 0);
        const lrlex::RulesError kept = std::move(error);
        for (const lrlex::RulesError *it : {&kept, static_cast<const lrlex::RulesError *>(&error)}) {
            EXPECT(it->report("a.l").find("a.l:1:6: Start state already exists\n1 | %x A A\n  |      ^\na.l:1:4: first here\n") == 0);
            EXPECT(it->report("").find(":1:6: ") == 0 && it->faults().size() == 3);
            EXPECT(status_of([&] { it->report("\xff"); }) == LRLEX_NOT_UTF8);
        }
    }
}

static_assert(std::is_nothrow_copy_constructible_v<lrlex::RulesError> && std::is_nothrow_copy_assignable_v<lrlex::RulesError>);

void a_text_that_is_not_utf8() {
    lrlex::Tokens tokens = lrlex::Definition(WORDS).lex("a?");
    EXPECT(status_of([&] { lrlex::Definition(WORDS).lex("a\xff", tokens); }) == LRLEX_NOT_UTF8);
    EXPECT(tokens.empty() && !tokens.stop);
    EXPECT(status_of([] { lrlex::Definition(WORDS).lex("a\xff"); }) == LRLEX_NOT_UTF8);
}

void options_change_what_matches() {
    const lrlex::Options &kept = lrlex::Options().on(LRLEX_CASE_INSENSITIVE).size_limit(1 << 20).nest_limit(10).off(LRLEX_OCTAL);
    lrlex::Options changed = kept;
    changed.off(LRLEX_CASE_INSENSITIVE).on(LRLEX_OCTAL);
    EXPECT(kept.get()->on == LRLEX_CASE_INSENSITIVE && changed.get()->on == LRLEX_OCTAL && kept.get()->set == changed.get()->set);
    EXPECT(kept.get()->size_limit == 1 << 20 && kept.get()->nest_limit == 10);
    const lrlex::Definition definition(WORDS, kept);
    EXPECT(shown(definition, definition.lex("ABC")) == "ID ABC\n");
    EXPECT(lrlex::Definition(WORDS, lrlex::Options().budget(0, 0)).lex("a 1").size() == 2);
}

void pieces_are_the_whole_text() {
    const lrlex::Definition definition(WORDS);
    const lrlex::Pieces pieces = definition.pieces("ab 1?");
    EXPECT(pieces.size() == 3 && pieces.stop && pieces.stop->start == 4);
    EXPECT(definition.rule_count() == 3 && definition.rule_name(pieces[0].rule) == "ID" && definition.rule_name(2).empty());
    EXPECT(definition.state_name(0) == "INITIAL" && definition.state_name(1).empty());
}

/// Comments that nest. Of one, `*` and `/` alone have no rule.
const char *const NESTED = "%x C\n%%\n[a-z]+ 'ID'\n[ ]+ ;\n<INITIAL,C>/\\* <+C>;\n<C>\\*/ <-C>;\n<C>[^*/]+ ;\n";

/// Whether the state is the first behind INITIAL, and entered at this place.
bool is_at(const std::optional<lrlex_entered> &entered, std::size_t start, std::size_t end) {
    return entered && entered->start == start && entered->end == end && entered->state == 1;
}

void where_a_text_enters_a_start_state() {
    const lrlex::Definition definition(NESTED);
    EXPECT(is_at(definition.entered_by("a /* b /* c */ d"), 2, 4) && is_at(definition.entered_by("a /* b /* c"), 7, 9));
    EXPECT(is_at(definition.entered_by("a /* b * c"), 2, 4) && definition.state_name(1) == "C");
    EXPECT(!definition.entered_by("a /* b */ c") && !definition.entered_by({}) && !definition.entered_by("a ? /*"));
    EXPECT(status_of([&] { definition.entered_by("a\xff"); }) == LRLEX_NOT_UTF8);
    lrlex::Document document(definition, "a /* b /* c */ d");
    EXPECT(is_at(document.entered_by(), 2, 4));
    document.edit(12, 14, "");
    EXPECT(is_at(document.entered_by(), 7, 9));
    document.edit(7, 9, "*/");
    EXPECT(!document.entered_by());
}

void places_of_a_text() {
    const char *text = "\xc3\xa9\nb c";
    std::string told;
    for (const lrlex_place &it : lrlex::places(text, {0, 2, 5, 3, 1, SIZE_MAX}))
        told += std::to_string(it.line) + ":" + std::to_string(it.column) + " ";
    EXPECT(told == "1:1 1:2 2:3 2:1 1:1 2:4 ");
    EXPECT(lrlex::places("", {}).empty() && lrlex::places("", {3}).at(0).column == 1 && lrlex::places("a", {}).empty());
    EXPECT(status_of([] { lrlex::places("\xff", {0}); }) == LRLEX_NOT_UTF8);
}

lrlex::Document moved(lrlex::Document document) { return document; }

void a_document_through_edits() {
    const lrlex::Definition definition(WORDS);
    lrlex::Document document = moved(lrlex::Document(definition, "abc 123"));
    document.edit(3, 4, "");
    EXPECT(document.text() == "abc123");
    EXPECT(shown(definition, document.lex()) == "ID abc\nINT 123\n");
    for (auto range : {std::pair<std::size_t, std::size_t>(4, 99), {2, 1}})
        EXPECT(status_of([&] { document.edit(range.first, range.second, ""); }) == LRLEX_DOES_NOT_FIT);
    document.edit(6, 6, " x");
    EXPECT(document.text() == "abc123 x" && document.lex().size() == 3);
    EXPECT(document.place(7).column == 8 && document.position(7).column == 7);
    EXPECT(document.pieces(4, 7).size() == 2 && document.pieces(0, SIZE_MAX).size() == 4 && document.pieces(3, 1).empty());
}

void a_document_takes_parts_of_its_own_text() {
    const lrlex::Definition definition(WORDS);
    // short texts are in the std::string itself, and long ones grow into new memory
    for (const std::string &text : {std::string("ab 12 "), std::string("abcdefgh 12345678 ijklmnop 90123456 ")}) {
        for (std::size_t from = 0; from <= text.size(); from++) {
            for (std::size_t at = 0; at <= text.size(); at++) {
                lrlex::Document document(definition, text);
                document.edit(from, text.size(), std::string_view(document.text()).substr(at));
                const std::string wanted = text.substr(0, from) + text.substr(at);
                EXPECT(document.text() == wanted);
                EXPECT(shown(definition, document.lex()) == shown(definition, definition.lex(wanted)));
            }
        }
        lrlex::Document twice(definition, text);
        twice.edit(0, 0, twice.text());
        EXPECT(twice.text() == text + text && twice.lex().size() == 2 * definition.lex(text).size());
    }
}

void bytes_of_positions() {
    const lrlex::Definition definition(WORDS);
    const lrlex::Document document(definition, "a\xf0\x9f\x98\x80" "b\n\xc3\xa9" "c");
    EXPECT(document.position(5).column == 3 && document.position(5, LRLEX_UTF8).column == 5);
    EXPECT(document.offset_at({0, 3}) == 5 && document.offset_at({0, 5}, LRLEX_UTF8) == 5);
    EXPECT(document.offset_at({0, 2}) == 1 && document.offset_at({0, 3}, LRLEX_UTF8) == 1);
    EXPECT(document.offset_at({0, 99}) == 6 && document.offset_at({1, 99}) == 10 && document.offset_at({2, 0}) == 10);
    EXPECT(lrlex::Document(definition, "").offset_at({0, 0}) == 0);
    EXPECT(status_of([&] { document.offset_at({0, 0}, 2); }) == LRLEX_NONE);
}

void a_scanner_gives_tiles() {
    std::string text = "ab 1?";
    lrlex::Scanner scanner = lrlex::Scanner(lrlex::Definition(WORDS), text);
    std::string found;
    for (const lrlex::Tile &tile : scanner)
        found += std::string(tile.text) + ':' + std::to_string(tile.rule) + (tile.id ? "+ " : "- ");
    EXPECT(found == "ab:1+  :2- 1:0+ ");
    EXPECT(!scanner.next() && scanner.stop() && scanner.stop()->start == 4 && scanner.stop()->column == 5 && scanner.stop()->state == 0U);
    lrlex::Definition definition(WORDS);
    {
        lrlex::Scanner other(definition, "a");
        EXPECT(status_of([&] { definition.set_rule_ids({}); }) == LRLEX_SHARED);
        EXPECT(other.next()->start == 0 && !other.stop() && !other.next() && !other.stop());
    }
    definition.set_rule_ids({});
    lrlex::Scanner none(definition, "a");
    EXPECT(!none.next() && none.stop() && !none.stop()->state);
    EXPECT(!lrlex::Scanner(definition, "").next());
}

void iterators() {
    using Names = std::iterator_traits<lrlex::Tokens::iterator>;
    static_assert(std::is_same_v<Names::reference, lrlex::Token> && std::is_same_v<Names::pointer, lrlex::Tokens::iterator::pointer>);
    const lrlex::Definition definition(WORDS);
    const lrlex::Tokens tokens = definition.lex("ab 1");
    lrlex::Tokens::iterator at;
    at = tokens.begin();
    EXPECT(at->text == "ab" && (*at++).id == 1 && at->start == 3 && at != tokens.end() && ++at == tokens.end());
    EXPECT(lrlex::Tokens::iterator() == lrlex::Tokens().begin() && lrlex::Tokens().begin() == lrlex::Tokens().end());
    EXPECT(std::count_if(tokens.begin(), tokens.end(), [](const lrlex::Token &it) { return it.id == 1; }) == 1);

    lrlex::Scanner scanner(definition, "ab 1"), other(definition, "ab"), empty(definition, "");
    lrlex::Scanner::iterator first = scanner.begin();
    const lrlex::Scanner::iterator &same = first;
    EXPECT(first == same && !(first != same) && first != scanner.end() && first != other.begin() && empty.begin() == empty.end());
    EXPECT((*first++).text == "ab" && first->start == 2 && (++first)->rule == 0 && ++first == scanner.end() && first == same);
}

void a_scanner_gives_what_lexing_gives() {
    const lrlex::Definition definition(WORDS);
    std::string text;
    for (int i = 0; i < 5000; i++) text += "ab 12 ";
    const lrlex::Tokens tokens = definition.lex(text);
    lrlex::Scanner scanner(definition, text);
    std::size_t at = 0;
    while (std::optional<lrlex::Tile> tile = scanner.next()) {
        if (!tile->id) continue;
        EXPECT(at < tokens.size() && tokens[at].id == tile->id && tokens[at].start == tile->start && tokens[at].text == tile->text);
        at++;
    }
    EXPECT(at == tokens.size() && at == 10000);
}

void a_definition_is_moved() {
    lrlex::Definition one(WORDS), other = std::move(one);
    EXPECT(other.lex("a").size() == 1);
    one = std::move(other);
    EXPECT(one.lex("a").size() == 1);
}

template <class Movable> constexpr bool is_moved_alone =
    std::is_nothrow_move_constructible_v<Movable> && std::is_nothrow_move_assignable_v<Movable> && !std::is_copy_constructible_v<Movable>;
static_assert(is_moved_alone<lrlex::Definition> && is_moved_alone<lrlex::Document> && is_moved_alone<lrlex::Scanner>);
static_assert(is_moved_alone<lrlex::Tokens> && is_moved_alone<lrlex::Pieces> && !std::is_default_constructible_v<lrlex::Definition>);

template <class Movable> void move_to_itself(Movable &it) {
    Movable &same = it;
    it = std::move(same);
}

void what_is_moved_from_is_empty() {
    // texts that are too long for a std::string to hold them in itself
    const std::string letters(100, 'a'), text = letters + " 1";
    lrlex::Definition definition(WORDS);

    lrlex::Tokens tokens = definition.lex(text), more = std::move(tokens);
    EXPECT(tokens.empty() && tokens.begin() == tokens.end() && more.size() == 2);
    tokens = std::move(more);
    move_to_itself(tokens);
    EXPECT(more.empty() && more.begin() == more.end() && tokens.size() == 2 && tokens[1].text == "1");
    definition.lex(text, more);
    EXPECT(more.size() == 2 && more[0].text == letters);

    lrlex::Pieces pieces = definition.pieces(text), others = std::move(pieces);
    EXPECT(pieces.empty() && pieces.begin() == pieces.end() && others.size() == 3);
    pieces = std::move(others);
    move_to_itself(pieces);
    EXPECT(others.empty() && others.begin() == others.end() && pieces.size() == 3 && pieces[2].start == 101);

    lrlex::Document document(definition, text), other(definition, "a b c");
    document = std::move(other);
    move_to_itself(document);
    EXPECT(document.text() == "a b c" && document.lex().size() == 3);
    EXPECT(other.text().empty() && status_of([&] { other.lex(); }) == LRLEX_MISUSE);
    EXPECT(status_of([&] { other.entered_by(); }) == LRLEX_MISUSE);
    EXPECT(status_of([&] { other.edit(0, 0, "a"); }) == LRLEX_MISUSE && other.text().empty());
    const lrlex::Document last = std::move(document);
    EXPECT(document.text().empty() && status_of([&] { document.place(0); }) == LRLEX_MISUSE && last.text() == "a b c");
    other = lrlex::Document(definition, text);
    EXPECT(other.lex().size() == 2);

    lrlex::Scanner scanner(definition, text), behind(definition, "a?");
    EXPECT(behind.next().has_value());
    scanner = std::move(behind);
    move_to_itself(scanner);
    EXPECT(status_of([&] { behind.next(); }) == LRLEX_MISUSE && !behind.stop());
    EXPECT(!scanner.next() && scanner.stop() && scanner.stop()->start == 1);

    lrlex::Definition owner = std::move(definition);
    move_to_itself(owner);
    EXPECT(owner.lex(text).size() == 2 && definition.rule_count() == 0);
    EXPECT(status_of([&] { definition.entered_by("a"); }) == LRLEX_MISUSE);
    EXPECT(status_of([&] { definition.name(0); }) == LRLEX_MISUSE && status_of([&] { definition.share(); }) == LRLEX_MISUSE);
    EXPECT(error_of([&] { definition.lex("a"); }).what() == std::string("the object is empty: it was moved from"));
}

} // namespace

int main() {
    tokens_of_a_text();
    a_text_that_grows_denser();
    lexing_stops_where_no_rule_matches();
    a_report_of_a_stop();
    ids_by_names();
    a_refused_rule_text();
    a_text_that_is_not_utf8();
    options_change_what_matches();
    pieces_are_the_whole_text();
    where_a_text_enters_a_start_state();
    places_of_a_text();
    a_document_through_edits();
    a_document_takes_parts_of_its_own_text();
    bytes_of_positions();
    a_scanner_gives_tiles();
    iterators();
    a_scanner_gives_what_lexing_gives();
    a_definition_is_moved();
    what_is_moved_from_is_empty();
    return failed;
}
