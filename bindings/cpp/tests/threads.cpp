// threads [ROUNDS]: threads that share a definition find what one alone finds.

#include "lrlex.hpp"

#include <atomic>
#include <cstdio>
#include <cstdlib>
#include <string>
#include <thread>
#include <utility>
#include <vector>

namespace {

constexpr int THREADS = 8;

const char *const RULES = "%x TEXT\n%%\nif 'IF'\n[0-9]+ 'INT'\n[a-z]+[0-9]* 'ID'\n[ \\n]+ ;\n"
                          "\" <+TEXT>;\n<TEXT>\" <-TEXT>;\n<TEXT>[^\"]+ 'TEXT'\n";

/// A text of some 100,000 bytes, which stops at its end.
std::string long_text() {
    std::string text;
    for (int line = 0; line < 2000; line++)
        text += "abc " + std::to_string(line) + " \"a text in quotes\" x" + std::to_string(line % 7) + " if\n";
    return text + "?";
}

/// What is found in a text: each token or tile as numbers, and where lexing stops.
using Found = std::vector<std::size_t>;

void add(Found &found, const lrlex::Tokens &tokens) {
    for (const lrlex::Token &token : tokens) found.insert(found.end(), {token.id, token.start, token.text.size()});
    if (tokens.stop) found.insert(found.end(), {tokens.stop->start, tokens.stop->line, tokens.stop->column});
}

/// All that a thread does with its definition: it lexes, scans, edits a document, asks for names, and shares the definition again.
Found work(const lrlex::Definition &definition, const std::string &text) {
    Found found;
    lrlex::Tokens tokens;
    definition.lex(text, tokens);
    add(found, tokens);
    found.push_back(definition.pieces(text).size());
    lrlex::Scanner scanner(definition.share(), text);
    for (const lrlex::Tile &tile : scanner) found.insert(found.end(), {tile.rule, tile.start, tile.id ? *tile.id : 99});
    lrlex::Document document(definition, text);
    for (std::size_t at = 0; at < 200; at += 20) document.edit(at, at + 3, at % 40 ? "\"" : "12 ab");
    add(found, document.lex());
    for (const auto &entered : {definition.entered_by(text), document.entered_by()})
        if (entered) found.insert(found.end(), {entered->start, entered->end, entered->state});
    for (std::size_t rule = 0; rule < definition.rule_count(); rule++) found.push_back(definition.rule_name(rule).size());
    found.push_back(definition.stop_report(text, "a").size());
    return found;
}

/// Whether threads with a share of the definition each find what is wanted. The definition itself goes while they work.
bool agree(lrlex::Definition definition, const std::string &text, const Found &wanted) {
    std::atomic<int> equal{0};
    std::vector<std::thread> threads;
    for (int number = 0; number < THREADS; number++)
        threads.emplace_back([&, own = definition.share()] { equal += work(own, text) == wanted; });
    { const lrlex::Definition gone = std::move(definition); }
    for (std::thread &thread : threads) thread.join();
    return equal == THREADS;
}

/// Threads that report one error each get the whole report.
bool reports_agree(int rounds) {
    try {
        lrlex::Definition("%%\n( 'A'\n");
    } catch (const lrlex::RulesError &error) {
        const std::string wanted = error.report("a.l");
        std::atomic<int> wrong{0};
        std::vector<std::thread> threads;
        for (int number = 0; number < THREADS; number++) {
            threads.emplace_back([&, rounds, own = error] {
                for (int round = 0; round < 100 * rounds; round++) wrong += own.report("a.l") != wanted;
            });
        }
        for (std::thread &thread : threads) thread.join();
        return wrong == 0 && !wanted.empty();
    }
    return false;
}

} // namespace

int main(int count, char **words) {
    const int rounds = count > 1 ? std::atoi(words[1]) : 3;
    if (!reports_agree(rounds)) {
        std::puts("a thread got another report");
        return 1;
    }
    // with tables, and with the regular expressions alone
    for (const lrlex::Options &options : {lrlex::Options(), lrlex::Options().budget(0, 0)}) {
        const lrlex::Definition definition(RULES, options);
        const std::string text = options.get()->limit_tables ? long_text().substr(0, 5000) : long_text();
        const Found wanted = work(definition, text);
        for (int round = 0; round < rounds; round++) {
            if (!agree(definition.share(), text, wanted)) {
                std::printf("round %d: a thread found something else\n", round);
                return 1;
            }
        }
    }
    return 0;
}
