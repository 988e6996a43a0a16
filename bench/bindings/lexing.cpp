// lexing RULES INPUT K [WAY]: processor time of Definition::lex into tokens that are kept, and of a Scanner, K times each, or of the way
// that is named, `lex` or `scanner`.
#include "lrlex.hpp"

#include <cstdio>
#include <cstdlib>
#include <ctime>
#include <fstream>
#include <iterator>
#include <string>

static std::string read_all(const char *path) {
    std::ifstream file(path, std::ios::binary);
    return {std::istreambuf_iterator<char>(file), std::istreambuf_iterator<char>()};
}

static void lex(const lrlex::Definition &definition, const std::string &text, lrlex::Tokens &tokens) {
    std::size_t found = 0, bytes = 0;
    const std::clock_t before = std::clock();
    definition.lex(text, tokens);
    for (const lrlex::Token &token : tokens) found++, bytes += token.text.size();
    std::printf("C++ lex %ld %zu\n", static_cast<long>(std::clock() - before), bytes ? found : 0);
}

static void scan(const lrlex::Definition &definition, const std::string &text) {
    std::size_t found = 0;
    const std::clock_t before = std::clock();
    lrlex::Scanner scanner(definition, text);
    while (const std::optional<lrlex::Tile> tile = scanner.next()) found += tile->id.has_value();
    std::printf("C++ scanner %ld %zu\n", static_cast<long>(std::clock() - before), found);
}

int main(int count, char **words) {
    if (count < 4) return 2;
    const std::string rules = read_all(words[1]), text = read_all(words[2]), way = count > 4 ? words[4] : "";
    const lrlex::Definition definition(rules);
    lrlex::Tokens tokens;
    for (long k = std::strtol(words[3], nullptr, 10); k > 0; k--) {
        if (way != "scanner") lex(definition, text, tokens);
        if (way != "lex") scan(definition, text);
    }
}
