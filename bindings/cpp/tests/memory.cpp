// What calls leave where `new` has no memory, or not so much at once.

#include "expect.hpp"
#include "lrlex.hpp"

#include <cstdlib>
#include <new>
#include <string>

namespace {

// How many requests to `new` are granted before one is refused, and the largest one.
std::size_t granted = SIZE_MAX, largest = 0;

const char *const WORDS = "%%\n[0-9]+ 'INT'\n[a-z]+ 'ID'\n[ ] ;\n";

/// Whether the call ends where so many requests are granted.
template <class Call> bool ends_with(std::size_t requests, Call call) {
    granted = requests;
    try {
        call();
    } catch (const std::bad_alloc &) {
        granted = SIZE_MAX;
        return false;
    }
    granted = SIZE_MAX;
    return true;
}

/// Refuses each request of a call in turn, until it ends. After each refusal `check` is called. Gives how many were refused.
template <class Call, class Check> std::size_t refuse(Call call, Check check) {
    std::size_t requests = 0;
    for (; !ends_with(requests, call); requests++) check();
    return requests;
}

void ids_are_set_or_not() {
    const std::string word(100, 'w');
    lrlex::Definition definition("%%\n[0-9]+ 'INT'\n[a-z]+ 'ID_with_a_name_that_is_longer_than_a_string_has_room_for'\n[ ] ;\n");
    lrlex::Unmatched found;
    const auto call = [&] { found = definition.set_rule_ids({{"INT", 7}, {word, 8}}); };
    const std::size_t refused = refuse(call, [&] { EXPECT(definition.name(0) == "INT" && !definition.name(1).empty()); });
    EXPECT(refused > 0 && definition.name(7) == "INT" && definition.name(1).empty());
    EXPECT(found.missing.size() == 1 && found.missing[0] == word && found.unused.size() == 1 && found.unused[0].find("ID_") == 0);
}

void tokens_are_whole_or_none() {
    const lrlex::Definition definition(WORDS);
    const std::string text(100, '1'), other = text + " a ?";
    lrlex::Tokens tokens = definition.lex("?");
    const auto call = [&] { definition.lex(other, tokens); };
    EXPECT(refuse(call, [&] { EXPECT(tokens.empty() && !tokens.stop); }) > 0);
    EXPECT(tokens.size() == 2 && tokens[0].text == text && tokens.stop && tokens.stop->start == 103);
}

void a_document_is_edited_or_not() {
    const lrlex::Definition definition(WORDS);
    const std::string text(100, 'a');
    lrlex::Document document(definition, text);
    const auto call = [&] { document.edit(0, 0, document.text()); };
    EXPECT(refuse(call, [&] { EXPECT(document.text() == text && document.lex()[0].text == text); }) > 0);
    EXPECT(document.text() == text + text && document.lex()[0].text == document.text());
}

void pieces_of_a_line_take_memory_for_a_line() {
    const lrlex::Definition definition(WORDS);
    const lrlex::Document document(definition, std::string(100000, '1'));
    largest = 0;
    EXPECT(document.pieces(99000, 99100).size() == 1 && document.pieces(SIZE_MAX - 1, SIZE_MAX).empty());
    EXPECT(largest <= 100 * sizeof(lrlex_piece));
}

} // namespace

// Not inlined, since gcc warns of a `free` whose pointer it sees come from `new`.
#define ALONE __attribute__((noinline))

ALONE void *operator new(std::size_t size) {
    if (largest < size) largest = size;
    if (granted == 0) throw std::bad_alloc();
    if (granted != SIZE_MAX) granted--;
    if (void *made = std::malloc(size ? size : 1)) return made;
    throw std::bad_alloc();
}
ALONE void *operator new[](std::size_t size) { return operator new(size); }
ALONE void operator delete(void *made) noexcept { std::free(made); }
ALONE void operator delete(void *made, std::size_t) noexcept { std::free(made); }
ALONE void operator delete[](void *made) noexcept { std::free(made); }
ALONE void operator delete[](void *made, std::size_t) noexcept { std::free(made); }

int main() {
    ids_are_set_or_not();
    tokens_are_whole_or_none();
    a_document_is_edited_or_not();
    pieces_of_a_line_take_memory_for_a_line();
    return failed;
}
