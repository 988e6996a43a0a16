// Tokens, pieces and a scanner are ranges of C++20, where the compiler has it.

#include "lrlex.hpp"

#include <algorithm>
#include <iterator>

#if __cplusplus >= 202002L && __has_include(<ranges>)
#include <ranges>

static_assert(std::ranges::forward_range<const lrlex::Tokens> && std::ranges::common_range<const lrlex::Tokens>);
static_assert(std::ranges::sized_range<const lrlex::Tokens>);
static_assert(std::ranges::contiguous_range<const lrlex::Pieces> && std::ranges::sized_range<const lrlex::Pieces>);
static_assert(std::ranges::input_range<lrlex::Scanner> && std::ranges::common_range<lrlex::Scanner>);
// what would view what is gone is no view
static_assert(!std::ranges::borrowed_range<lrlex::Tokens> && !std::ranges::borrowed_range<lrlex::Pieces>);

int main() {
    const lrlex::Definition definition("%%\n[0-9]+ 'INT'\n[a-z]+ 'ID'\n[ ] ;\n");
    const lrlex::Tokens tokens = definition.lex("abc 123 d");
    lrlex::Scanner scanner(definition, "abc 123 d");
    const auto words = std::ranges::count(tokens, 1U, [](const lrlex::Token &it) { return it.id; });
    const auto blanks = std::ranges::count(scanner, 2U, [](const lrlex::Tile &it) { return it.rule; });
    return words == 2 && blanks == 2 ? 0 : 1;
}
#else
int main() { return 0; }
#endif
