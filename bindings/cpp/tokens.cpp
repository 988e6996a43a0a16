// Prints the tokens of a text, as the program lrlex does: tokens RULES INPUT
// The status is 0 if the whole text is lexed, and else 1. Standard error has what is wrong.

#include <lrlex.hpp>

#include <exception>
#include <fstream>
#include <iostream>
#include <stdexcept>
#include <string>
#include <unordered_map>

static std::string read_file(const char *path) {
    std::ifstream file(path, std::ios::binary);
    std::string text;
    char part[4096];
    while (file.read(part, sizeof part), file.gcount() > 0) text.append(part, static_cast<std::size_t>(file.gcount()));
    if (!file.eof()) throw std::runtime_error(std::string("Can't open file ") + path);
    return text;
}

/// What a call gives that takes the text of this file.
template <class Call> static auto with_file(const char *path, Call call) try {
    return call();
} catch (const lrlex::Error &error) {
    if (error.status() != LRLEX_NOT_UTF8) throw;
    throw std::runtime_error(std::string("File ") + path + " is not UTF-8");
}

/// The report of a refused rule file. A name that isn't UTF-8 isn't shown.
static std::string report_of(const lrlex::RulesError &error, const char *path) try {
    return error.report(path);
} catch (const lrlex::Error &) {
    return error.report("RULES");
}

int main(int count, char **words) try {
    if (count != 3) throw std::runtime_error("Usage: tokens <lexer.l> <input file>");
    const std::string rules = read_file(words[1]), input = read_file(words[2]);
    const lrlex::Definition definition = with_file(words[1], [&] { return lrlex::Definition(rules); });
    const lrlex::Tokens tokens = with_file(words[2], [&] { return definition.lex(input); });
    std::unordered_map<std::uint32_t, std::string> names;
    for (const lrlex::Token &token : tokens) {
        const auto name = names.try_emplace(token.id);
        if (name.second) name.first->second = definition.name(token.id);
        std::cout << name.first->second << ' ' << token.text << '\n';
    }
    if (tokens.stop) std::cout << "Couldn't lex input starting at byte " << tokens.stop->start << '\n';
    if (!std::cout.flush()) throw std::runtime_error("Can't write");
    return tokens.stop ? 1 : 0;
} catch (const lrlex::RulesError &error) {
    std::cerr << report_of(error, words[1]);
    return 1;
} catch (const std::exception &error) {
    std::cerr << error.what() << '\n';
    return 1;
}
