/// Lexers from rule files (.l), for C++17, over the C interface of lrlex.h.
///
///     lrlex::Definition definition("%%\n[0-9]+ 'INT'\n[a-z]+ 'ID'\n[ ] ;");
///     for (const lrlex::Token &token : definition.lex("abc 123"))
///         std::cout << definition.name(token.id) << ' ' << token.text << '\n';
///
/// A rule text with faults throws RulesError, memory that runs out std::bad_alloc. Texts are UTF-8; one that isn't throws
/// Error. Spans are in bytes. Calls on one object come one at a time, also those that are const, on any thread. For a second thread
/// `share()` makes a second Definition of the same rules. What is moved from is empty: it has no tokens, pieces and text, and takes other
/// content; calls that need its handle throw Error, with the status LRLEX_MISUSE.
///
/// `check` gives all faults of a rule text, or warnings of what is legal there and hardly meant.
#ifndef LRLEX_HPP
#define LRLEX_HPP

#include "lrlex.h"

#include <cstddef>
#include <cstdint>
#include <functional>
#include <iterator>
#include <memory>
#include <mutex>
#include <new>
#include <optional>
#include <stdexcept>
#include <string>
#include <string_view>
#include <utility>
#include <vector>

namespace lrlex {

/// A call failed. `status()` is one of lrlex_status.
class Error : public std::runtime_error {
public:
    Error(const std::string &what, int status) : std::runtime_error(what), status_(status) {}
    int status() const noexcept { return status_; }

private:
    int status_;
};

namespace detail {

/// The bytes of a text. No pointer may be null.
inline const std::uint8_t *bytes(std::string_view text) noexcept {
    return reinterpret_cast<const std::uint8_t *>(text.data() ? text.data() : "");
}

inline void check(int status) {
    switch (status) {
    case LRLEX_OK: return;
    case LRLEX_NOMEM: throw std::bad_alloc();
    case LRLEX_NOT_UTF8: throw Error("the text isn't UTF-8", status);
    case LRLEX_MISUSE: throw Error("the object is empty: it was moved from", status);
    case LRLEX_NONE: throw Error("there is nothing of this number", status);
    case LRLEX_DOES_NOT_FIT: throw Error("the edit doesn't fit the text", status);
    case LRLEX_SHARED: throw Error("the definition has other owners: it is shared, or that of a document or a scanner", status);
    default: throw Error("lrlex status " + std::to_string(status), status);
    }
}

/// The text that a call writes into a buffer, with its length; empty if there is none. Where it is longer than there is room for, the
/// call is made twice.
template <class Call> std::string text_by(Call call, std::size_t room = 64) {
    std::string text(room, '\0');
    for (;; room = text.size()) {
        std::size_t length = 0;
        const int status = call(reinterpret_cast<std::uint8_t *>(&text[0]), room, &length);
        if (status == LRLEX_NONE) return {};
        check(status);
        text.resize(length);
        if (length <= room) return text;
    }
}

/// An owner of a handle. It moves, and isn't copied. One that is moved has an empty handle.
template <class Handle> class Owner {
public:
    Owner() = default;
    Owner(Owner &&other) noexcept : handle_(std::exchange(other.handle_, Handle{})) {}
    Owner &operator=(Owner &&other) noexcept {
        Owner taken(std::move(other));
        std::swap(handle_, taken.handle_);
        return *this;
    }
    ~Owner() { lrlex_free(&handle_); }
    Handle *get() const noexcept { return &handle_; }

private:
    mutable Handle handle_{};
};

} // namespace detail

/// Line and column, from 1, of the place before each of these bytes of a text, such as the starts of tokens; a column counts characters.
/// Inside a character it is the place before that, and past the text's end the end. Each call reads the whole text, so ask for many
/// places at once: in ascending order they take no further pass.
inline std::vector<lrlex_place> places(std::string_view text, const std::vector<std::size_t> &at) {
    std::vector<lrlex_place> found(at.size());
    if (!at.empty()) detail::check(lrlex_places(detail::bytes(text), text.size(), at.data(), at.size(), found.data(), found.size()));
    return found;
}

/// A fault of a rule text: what is wrong, and where. There is more than one span if something is declared twice: the first place, and
/// where it is declared again. Lines and columns count from 1.
struct Fault {
    std::string message;
    std::uint32_t kind;
    std::vector<lrlex_fault_span> spans;
};

namespace detail {

/// A call that tells what a fault is: `lrlex_fault_text`, or `lrlex_fault_message`.
using FaultCall = int (*)(lrlex_definition *, std::size_t, std::uint8_t *, std::size_t, std::size_t *);

inline std::vector<Fault> faults_of(const Owner<lrlex_definition> &refused, FaultCall call) {
    std::vector<Fault> found;
    for (std::size_t at = 0, count = lrlex_fault_count(refused.get()); at < count; at++) {
        lrlex_fault fault;
        check(lrlex_fault_at(refused.get(), at, &fault));
        Fault it{{}, fault.kind, std::vector<lrlex_fault_span>(fault.spans)};
        for (std::size_t span = 0; span < fault.spans; span++) check(lrlex_fault_span_at(refused.get(), at, span, &it.spans[span]));
        it.message = text_by([&](std::uint8_t *out, std::size_t room, std::size_t *length) {
            return call(refused.get(), at, out, room, length);
        });
        found.push_back(std::move(it));
    }
    return found;
}

/// A rule text that is refused: the handle that has the text, and its faults. An exception may be copied to any thread, so calls on the
/// handle wait for each other.
struct Refusal {
    explicit Refusal(Owner<lrlex_definition> refused) : owner(std::move(refused)), faults(faults_of(owner, lrlex_fault_text)) {}
    Owner<lrlex_definition> owner;
    std::vector<Fault> faults;
    mutable std::mutex mutex;
};

} // namespace detail

/// The rule text is refused. `faults()` has what is wrong with it, up to the first fault that is neither a duplicate nor verbatim code, and
/// `report(file)` shows it. It is copied and not moved, so that it is never empty.
class RulesError : public Error {
public:
    explicit RulesError(std::shared_ptr<const detail::Refusal> refusal)
        : Error(shown(refusal->faults), LRLEX_REFUSED), refusal_(std::move(refusal)) {}
    RulesError(const RulesError &) noexcept = default;
    RulesError &operator=(const RulesError &) noexcept = default;
    const std::vector<Fault> &faults() const noexcept { return refusal_->faults; }

    /// A report of its faults for people: of each FILE:LINE:COLUMN, the message, the line, and carets under the place. `file` is the name
    /// to show. Throws Error if that isn't UTF-8.
    std::string report(std::string_view file) const {
        const auto call = [&](std::uint8_t *out, std::size_t room, std::size_t *length) {
            return lrlex_fault_report(refusal_->owner.get(), detail::bytes(file), file.size(), out, room, length);
        };
        const std::lock_guard<std::mutex> alone(refusal_->mutex);
        return detail::text_by(call, 1024);
    }

private:
    static std::string shown(const std::vector<Fault> &faults) {
        std::string text;
        for (const Fault &fault : faults) {
            if (!text.empty()) text += '\n';
            for (std::size_t at = 0; at < fault.spans.size(); at++) {
                if (at) text += at == 1 ? ", again at " : ", ";
                text += std::to_string(fault.spans[at].line) + ':' + std::to_string(fault.spans[at].column);
                if (!at) text += ": " + fault.message;
            }
        }
        return text;
    }
    std::shared_ptr<const detail::Refusal> refusal_;
};

namespace detail {

/// A string that goes with its expression: nothing may view it longer.
template <class Memory> using Temporary = const std::basic_string<char, std::char_traits<char>, Memory> &&;

/// A buffer of tokens or pieces, and how many it has. It grows, and keeps nothing of what was in it then. One that is moved has none.
template <class Row> struct Rows {
    std::unique_ptr<Row[]> rows;
    std::size_t room = 0, count = 0;

    Rows() = default;
    Rows(Rows &&other) noexcept
        : rows(std::move(other.rows)), room(std::exchange(other.room, 0)), count(std::exchange(other.count, 0)) {}
    Rows &operator=(Rows &&other) noexcept {
        Rows taken(std::move(other));
        rows.swap(taken.rows);
        room = taken.room;
        count = taken.count;
        return *this;
    }

    Row *with_room(std::size_t wanted) {
        if (!rows || room < wanted) {
            rows.reset();
            room = 0;
            rows.reset(new Row[wanted]);
            room = wanted;
        }
        return rows.get();
    }
};

} // namespace detail

/// A token: its text, which is part of the text that was lexed, where that begins, and the id of its rule.
struct Token {
    std::string_view text;
    std::size_t start;
    std::uint32_t id;
};

/// Where lexing stopped before the end of the text. `state` is the start state in which no rule matched. It has no value if a rule
/// matched that gives no token.
struct Stop {
    std::size_t start, line, column;
    std::optional<std::size_t> state;
};

/// The tokens of a text, in order, and where lexing stopped if that wasn't the text's end. They view the text, which has to outlive them:
/// a string that a call returns is kept in a variable first.
class Tokens {
public:
    /// Goes over the tokens. Each is made as it is asked for.
    class iterator {
    public:
        /// A token for as long as one of its parts is asked for.
        struct pointer {
            Token token;
            const Token *operator->() const noexcept { return &token; }
        };
        using iterator_category = std::input_iterator_tag;
        using iterator_concept = std::forward_iterator_tag;
        using value_type = Token;
        using difference_type = std::ptrdiff_t;
        using reference = Token;
        iterator() = default;
        iterator(std::string_view text, const lrlex_token *at) noexcept : text_(text), at_(at) {}
        Token operator*() const noexcept { return {std::string_view(text_.data() + at_->start, at_->len), at_->start, at_->id}; }
        pointer operator->() const noexcept { return {**this}; }
        iterator &operator++() noexcept { ++at_; return *this; }
        iterator operator++(int) noexcept { iterator before = *this; ++at_; return before; }
        friend bool operator==(const iterator &one, const iterator &other) noexcept { return one.at_ == other.at_; }
        friend bool operator!=(const iterator &one, const iterator &other) noexcept { return one.at_ != other.at_; }

    private:
        std::string_view text_;
        const lrlex_token *at_ = nullptr;
    };

    Tokens() = default;

    std::size_t size() const noexcept { return rows_.count; }
    bool empty() const noexcept { return size() == 0; }
    iterator begin() const noexcept { return {text_, rows_.rows.get()}; }
    iterator end() const noexcept { return {text_, rows_.rows.get() + size()}; }
    /// The token of this number, from 0, below `size()`.
    Token operator[](std::size_t at) const noexcept { return *iterator(text_, rows_.rows.get() + at); }

    std::optional<Stop> stop;

private:
    friend class Definition;
    friend class Document;
    std::string_view text_;
    detail::Rows<lrlex_token> rows_;
};

/// The pieces of a text as the rules cut it, also those of rules without a name, and where lexing stopped.
class Pieces {
public:
    Pieces() = default;

    std::size_t size() const noexcept { return rows_.count; }
    bool empty() const noexcept { return size() == 0; }
    const lrlex_piece *begin() const noexcept { return rows_.rows.get(); }
    const lrlex_piece *end() const noexcept { return rows_.rows.get() + size(); }
    /// The piece of this number, from 0, below `size()`.
    const lrlex_piece &operator[](std::size_t at) const noexcept { return rows_.rows[at]; }

    std::optional<Stop> stop;

private:
    friend class Definition;
    friend class Document;
    detail::Rows<lrlex_piece> rows_;
};

/// A tile: a piece of a text with its text, where that begins, the number of its rule, from 0, and the id of its token. A rule without
/// a name gives no token.
struct Tile {
    std::string_view text;
    std::size_t start, rule;
    std::optional<std::uint32_t> id;
};

/// An id for the rules of a name.
struct NamedId {
    std::string_view name;
    std::uint32_t id;
};

/// The names with an id that no rule has, and the names of rules that have no id.
struct Unmatched {
    std::vector<std::string> missing, unused;
};

/// The flags and limits that a rule file is read with: Options().on(LRLEX_CASE_INSENSITIVE).off(LRLEX_UNICODE). A call on a variable
/// changes it; a call on a temporary returns the changed options.
class Options {
public:
    Options &on(std::uint32_t flags) & {
        options_.set |= flags;
        options_.on |= flags;
        return *this;
    }
    Options &off(std::uint32_t flags) & {
        options_.set |= flags;
        options_.on &= ~flags;
        return *this;
    }
    Options &size_limit(std::size_t bytes) & { options_.size_limit = bytes; return *this; }
    Options &nest_limit(std::uint32_t levels) & { options_.nest_limit = levels; return *this; }
    /// How much may be spent on tables. It changes how fast texts are lexed, and no answer.
    Options &budget(std::size_t rows, std::size_t work) & {
        options_.limit_tables = true;
        options_.table_rows = rows;
        options_.table_work = work;
        return *this;
    }
    Options on(std::uint32_t flags) && { return on(flags); }
    Options off(std::uint32_t flags) && { return off(flags); }
    Options size_limit(std::size_t bytes) && { return size_limit(bytes); }
    Options nest_limit(std::uint32_t levels) && { return nest_limit(levels); }
    Options budget(std::size_t rows, std::size_t work) && { return budget(rows, work); }
    const lrlex_options *get() const noexcept { return &options_; }

private:
    lrlex_options options_{};
};

namespace detail {

/// Has a call write tokens or pieces into a buffer. Where there are more than there is room for, the call is made twice.
template <class Row, class Call> void fill(Rows<Row> &rows, std::size_t room, lrlex_lexed &lexed, Call call) {
    for (;; room = lexed.count) {
        Row *out = rows.with_room(room);
        check(call(out, rows.room, &lexed));
        if (lexed.count <= rows.room) return;
    }
}

/// How many tokens or pieces 1,024 bytes have: the most that a text had, or 0 before the first.
class Density {
public:
    /// Has a call write the tokens or pieces of a text, for which there is room at once unless the text is denser by a quarter than
    /// each before it. `call` takes the text too. Of the first text the front is lexed to see how many there may be.
    template <class Row, class Call> void fill(Rows<Row> &rows, std::string_view text, lrlex_lexed &lexed, Call call) {
        std::size_t room = text.size();
        if (room > sample && room > rows.room) {
            if (!most_) {
                std::size_t end = sample;
                while (end > sample - 4 && (text[end] & 0xc0) == 0x80) end--;
                Row none[1];
                check(call(text.substr(0, end), none, 0, &lexed));
                see(lexed);
            }
            // memory with room for the most so far stays: new memory costs about as much as lexing
            const std::size_t parts = room / 1024 + 1, likely = parts * (most_ * 5 / 4 + 1);
            if (parts * (most_ + 1) <= rows.room) room = rows.room;
            else if (likely < room) room = likely;
        }
        detail::fill(rows, room, lexed, [&](Row *out, std::size_t cap, lrlex_lexed *how) { return call(text, out, cap, how); });
        see(lexed);
    }

private:
    static constexpr std::size_t sample = 8192;
    void see(const lrlex_lexed &lexed) {
        const std::size_t here = lexed.count * 1024 / (lexed.end + 1) + 1;
        if (most_ < here) most_ = here;
    }
    std::size_t most_ = 0;
};

/// Keeps of the names those whose number, from 0, holds. It needs no memory.
template <class Holds> void keep(std::vector<std::string> &names, Holds holds) {
    std::size_t kept = 0;
    for (std::size_t at = 0; at < names.size(); at++)
        if (holds(at)) names[kept++].swap(names[at]);
    names.resize(kept);
}

/// Where lexing of the text stopped, if it did.
inline std::optional<Stop> stop(std::string_view text, const lrlex_lexed &lexed) {
    if (!lexed.stopped) return std::nullopt;
    lrlex_place place;
    check(lrlex_places(bytes(text), text.size(), &lexed.end, 1, &place, 1));
    return Stop{lexed.end, place.line, place.column, lexed.unmatched ? std::optional<std::size_t>(lexed.state) : std::nullopt};
}

/// What a call says of where a text enters the start state in which it ends.
template <class Call> std::optional<lrlex_entered> entered_by(Call call) {
    lrlex_entered entered;
    const int status = call(&entered);
    if (status == LRLEX_NONE) return std::nullopt;
    check(status);
    return entered;
}

} // namespace detail

/// What `check` finds in a rule text: a fault, or a warning of what is legal there and hardly meant. `kind` is one of LRLEX_PREMATURE_END
/// and so on of a fault, and one of LRLEX_NEVER_WINS and so on of a warning, so ask `is_fault` first. A warning has one span, and a fault
/// those of a Fault. The message of a fault also says what to write where the mistake is usual.
struct Finding {
    bool is_fault;
    std::uint32_t kind;
    std::string message;
    std::vector<lrlex_fault_span> spans;
};

namespace detail {

/// Whether `lrlex_check` finds faults in a rule text. The handle has them then, and else the text's definition.
inline bool has_faults(const Owner<lrlex_definition> &owner, std::string_view rules, const Options &options) {
    const int status = lrlex_check(owner.get(), bytes(rules), rules.size(), options.get());
    if (status == LRLEX_REFUSED) return true;
    check(status);
    return false;
}

/// The warnings of a rule text, whose definition the handle has. Where there are more than there is room for, the call is made twice.
inline std::vector<lrlex_warning> warnings_of(const Owner<lrlex_definition> &owner, std::string_view rules) {
    std::vector<lrlex_warning> found;
    std::size_t count = 64;
    do {
        found.resize(count);
        check(lrlex_warnings(owner.get(), bytes(rules), rules.size(), found.data(), found.size(), &count));
    } while (count > found.size());
    found.resize(count);
    return found;
}

} // namespace detail

/// All faults of a rule text, or its warnings if it has none. Empty if nothing is found. It goes on below a faulty line, at which the
/// faults of a RulesError end, and never throws that.
inline std::vector<Finding> check(std::string_view rules, const Options &options = {}) {
    const detail::Owner<lrlex_definition> owner;
    std::vector<Finding> found;
    if (detail::has_faults(owner, rules, options)) {
        for (Fault &it : detail::faults_of(owner, lrlex_fault_message)) {
            found.push_back({true, it.kind, std::move(it.message), std::move(it.spans)});
        }
        return found;
    }
    for (const lrlex_warning &it : detail::warnings_of(owner, rules)) {
        const auto message = [&](std::uint8_t *out, std::size_t room, std::size_t *length) {
            return lrlex_warning_text(it.kind, out, room, length);
        };
        found.push_back({false, it.kind, detail::text_by(message, 256), {{it.start, it.end, it.line, it.column}}});
    }
    return found;
}

/// A report of what `check` finds for people: of each FILE:LINE:COLUMN, the message, the line, and carets under the place. Empty if
/// nothing is found. `file` is the name to show.
inline std::string check_report(std::string_view rules, std::string_view file, const Options &options = {}) {
    const detail::Owner<lrlex_definition> owner;
    const bool is_refused = detail::has_faults(owner, rules, options);
    const auto call = [&](std::uint8_t *out, std::size_t room, std::size_t *length) {
        const std::uint8_t *name = detail::bytes(file);
        if (is_refused) return lrlex_fault_report(owner.get(), name, file.size(), out, room, length);
        return lrlex_warning_report(owner.get(), name, file.size(), detail::bytes(rules), rules.size(), out, room, length);
    };
    return detail::text_by(call, 1024);
}

/// The name of a kind of faults, as "DuplicateName" of LRLEX_DUPLICATE_NAME; empty if there is no such kind.
inline std::string fault_name(std::uint32_t kind) {
    return detail::text_by([&](std::uint8_t *out, std::size_t room, std::size_t *length) {
        return lrlex_fault_name(kind, out, room, length);
    });
}

/// The name of a kind of warnings, as "NeverWins" of LRLEX_NEVER_WINS; empty if there is no such kind.
inline std::string warning_name(std::uint32_t kind) {
    return detail::text_by([&](std::uint8_t *out, std::size_t room, std::size_t *length) {
        return lrlex_warning_name(kind, out, room, length);
    });
}

/// The rules of a rule file, ready to lex texts.
class Definition {
public:
    /// Reads a rule text. Throws RulesError if it has faults.
    explicit Definition(std::string_view rules, const Options &options = {}) {
        const int status = lrlex_definition_new(owner_.get(), detail::bytes(rules), rules.size(), options.get());
        if (status == LRLEX_REFUSED) throw RulesError(std::make_shared<detail::Refusal>(std::move(owner_)));
        detail::check(status);
    }

    /// The same definition once more, as for another thread. It is not copied, and goes with its last owner.
    Definition share() const {
        Definition other;
        detail::check(lrlex_definition_share(owner_.get(), other.owner_.get()));
        other.tokens_ = tokens_;
        other.pieces_ = pieces_;
        return other;
    }

    /// The tokens of a text, which view it.
    Tokens lex(std::string_view text) const {
        Tokens tokens;
        lex(text, tokens);
        return tokens;
    }
    template <class Memory> Tokens lex(detail::Temporary<Memory> text) const = delete;

    /// The tokens of a text in the place of others, whose memory they take: it is as quick as lrlex_lex where texts are many or long. On
    /// an exception there are none.
    void lex(std::string_view text, Tokens &tokens) const {
        lrlex_lexed lexed;
        tokens.rows_.count = 0;
        tokens.stop.reset();
        tokens_.fill(tokens.rows_, text, lexed, [&](std::string_view part, lrlex_token *out, std::size_t room, lrlex_lexed *how) {
            return lrlex_lex(owner_.get(), detail::bytes(part), part.size(), out, room, how);
        });
        tokens.stop = detail::stop(text, lexed);
        tokens.text_ = text;
        tokens.rows_.count = lexed.count;
    }
    template <class Memory> void lex(detail::Temporary<Memory> text, Tokens &tokens) const = delete;

    /// The whole text as the rules cut it, up to where lexing stops.
    Pieces pieces(std::string_view text) const {
        lrlex_lexed lexed;
        Pieces pieces;
        pieces_.fill(pieces.rows_, text, lexed, [&](std::string_view part, lrlex_piece *out, std::size_t room, lrlex_lexed *how) {
            return lrlex_pieces(owner_.get(), detail::bytes(part), part.size(), out, room, how);
        });
        pieces.stop = detail::stop(text, lexed);
        pieces.rows_.count = lexed.count;
        return pieces;
    }

    /// A report for people of the place at which lexing this text stops: FILE:LINE:COLUMN, the message, the line, and a caret. Empty if
    /// it doesn't stop. `file` is the name to show.
    std::string stop_report(std::string_view text, std::string_view file) const {
        const auto call = [&](std::uint8_t *out, std::size_t room, std::size_t *length) {
            return lrlex_stop_report(owner_.get(), detail::bytes(file), file.size(), detail::bytes(text), text.size(), out, room, length);
        };
        return detail::text_by(call, 1024);
    }

    /// Where a text enters the start state in which it ends, such as the beginning of a comment that nothing closes: the piece that
    /// enters it, and the number of the state. Where lexing stops, the text ends. There is no value if the text begins in that state and
    /// no piece leaves it. A text that ends in INITIAL has one if it left INITIAL.
    std::optional<lrlex_entered> entered_by(std::string_view text) const {
        return detail::entered_by([&](lrlex_entered *out) { return lrlex_entered_by(owner_.get(), detail::bytes(text), text.size(), out); });
    }

    /// The name of the first rule that has a name and this id; empty if there is none.
    std::string name(std::uint32_t id) const {
        return detail::text_by([&](std::uint8_t *out, std::size_t room, std::size_t *length) {
            return lrlex_name(owner_.get(), id, out, room, length);
        });
    }

    /// How many rules there are.
    std::size_t rule_count() const noexcept { return lrlex_rule_count(owner_.get()); }

    /// The name of the rule of this number, from 0; empty if it has none.
    std::string rule_name(std::size_t rule) const {
        return detail::text_by([&](std::uint8_t *out, std::size_t room, std::size_t *length) {
            return lrlex_rule_name(owner_.get(), rule, out, room, length);
        });
    }

    /// The name of the start state of this number, from 0; empty if there is none.
    std::string state_name(std::size_t state) const {
        return detail::text_by([&](std::uint8_t *out, std::size_t room, std::size_t *length) {
            return lrlex_state_name(owner_.get(), state, out, room, length);
        });
    }

    /// Gives each named rule the id of its name here, or none, as for a parser whose grammar has the ids. Lexing stops where a rule
    /// matches that has a name and no id. Throws Error if the definition is shared, or a document or a scanner has it too. On an exception
    /// it is as it was.
    Unmatched set_rule_ids(const std::vector<NamedId> &ids) {
        // all names first: once the ids are set, nothing asks for memory
        std::vector<lrlex_named_id> given;
        Unmatched names;
        for (const NamedId &it : ids) {
            given.push_back({detail::bytes(it.name), it.name.size(), it.id});
            names.missing.emplace_back(it.name);
        }
        given.push_back({});
        for (std::size_t rule = 0; rule < rule_count(); rule++) names.unused.push_back(rule_name(rule));
        const std::unique_ptr<bool[]> missing(new bool[ids.size() + 1]());
        detail::check(lrlex_definition_set_rule_ids(owner_.get(), given.data(), ids.size(), missing.get(), ids.size()));
        detail::keep(names.missing, [&](std::size_t at) { return missing[at]; });
        detail::keep(names.unused, [&](std::size_t at) { return is_unused(at); });
        return names;
    }

    /// The handle, for calls of lrlex.h.
    lrlex_definition *get() const noexcept { return owner_.get(); }

private:
    Definition() = default;

    /// Whether the rule of this number has a name and no id.
    bool is_unused(std::size_t number) const {
        lrlex_rule rule;
        detail::check(lrlex_rule_at(owner_.get(), number, &rule));
        return rule.has_name && !rule.has_id;
    }

    detail::Owner<lrlex_definition> owner_;
    mutable detail::Density tokens_, pieces_;
};

/// A text that is edited. An edit lexes again only what it changes. The definition may go before it.
class Document {
public:
    Document(const Definition &definition, std::string text) : text_(std::move(text)) {
        detail::check(lrlex_document_new(definition.get(), owner_.get(), detail::bytes(text_), text_.size()));
    }
    Document(Document &&other) noexcept : owner_(std::move(other.owner_)) { text_.swap(other.text_); }
    Document &operator=(Document &&other) noexcept {
        Document taken(std::move(other));
        text_.swap(taken.text_);
        owner_ = std::move(taken.owner_);
        return *this;
    }

    /// Puts a text in the place of the bytes from `from` up to `to`. It may be a part of the document's own text. On an exception the
    /// document is as it was.
    void edit(std::size_t from, std::size_t to, std::string_view put) {
        if (is_within(put, text_)) return edit(from, to, std::string(put));
        const std::size_t length = from <= to && to <= text_.size() ? text_.size() - (to - from) + put.size() : 0;
        if (length > text_.capacity()) text_.reserve(length);
        detail::check(lrlex_document_edit(owner_.get(), from, to, detail::bytes(put), put.size()));
        text_.replace(from, to - from, put);
    }

    /// The text as it is now.
    const std::string &text() const & noexcept { return text_; }
    const std::string &text() const && = delete;

    /// The tokens of the text as it is now. They view the text, until the document is edited or moved.
    Tokens lex() const & {
        // a document is lexed, so the first call costs nothing: it says how many there are
        lrlex_lexed lexed;
        Tokens tokens;
        detail::fill(tokens.rows_, 0, lexed, [&](lrlex_token *out, std::size_t room, lrlex_lexed *how) {
            return lrlex_document_tokens(owner_.get(), 0, out, room, how);
        });
        tokens.stop = detail::stop(text_, lexed);
        tokens.text_ = text_;
        tokens.rows_.count = lexed.count;
        return tokens;
    }
    Tokens lex() const && = delete;

    /// The pieces that have a byte from `from` up to `to`, such as those of the lines that an editor shows. Each is whole.
    Pieces pieces(std::size_t from, std::size_t to) const {
        const std::size_t end = to < text_.size() ? to : text_.size(), length = from < end ? end - from : 0;
        lrlex_lexed lexed;
        Pieces pieces;
        detail::fill(pieces.rows_, length, lexed, [&](lrlex_piece *out, std::size_t room, lrlex_lexed *how) {
            return lrlex_document_pieces_in(owner_.get(), from, to, out, room, how);
        });
        pieces.stop = detail::stop(text_, lexed);
        pieces.rows_.count = lexed.count;
        return pieces;
    }

    /// Where the text enters the start state in which it ends, as `entered_by` of a Definition tells it.
    std::optional<lrlex_entered> entered_by() const {
        return detail::entered_by([&](lrlex_entered *out) { return lrlex_document_entered_by(owner_.get(), out); });
    }

    /// Line and column of a byte, from 1; the column counts characters.
    lrlex_place place(std::size_t byte) const {
        lrlex_place place;
        detail::check(lrlex_document_place(owner_.get(), byte, &place));
        return place;
    }

    /// The same place as the Language Server Protocol counts it: from 0, in code units of UTF-16, or in bytes with LRLEX_UTF8.
    lrlex_place position(std::size_t byte, std::uint32_t encoding = LRLEX_UTF16) const {
        lrlex_place place;
        detail::check(lrlex_document_position_in(owner_.get(), byte, encoding, &place));
        return place;
    }

    /// The byte of such a position. Past a line's end it is the line's end, past the last line the text's end, and inside a character
    /// the place before that.
    std::size_t offset_at(lrlex_place position, std::uint32_t encoding = LRLEX_UTF16) const {
        std::size_t byte;
        detail::check(lrlex_document_offset_at(owner_.get(), position.line, position.column, encoding, &byte));
        return byte;
    }

    /// The handle, for calls of lrlex.h.
    lrlex_document *get() const noexcept { return owner_.get(); }

private:
    static bool is_within(std::string_view part, const std::string &text) noexcept {
        const std::less<const char *> is_before;
        return !is_before(part.data(), text.data()) && !is_before(text.data() + text.size(), part.data());
    }

    std::string text_;
    detail::Owner<lrlex_document> owner_;
};

/// A text whose tiles are pulled, for a parser that asks for one token after the other. The definition may go before it.
///
///     lrlex::Scanner scanner(definition, text);
///     while (std::optional<lrlex::Tile> tile = scanner.next())
///         if (tile->id) use(*tile);
///     if (scanner.stop()) report(*scanner.stop());
class Scanner {
public:
    /// Goes over the tiles that are left. Two are equal if both are at the end, or if neither is and they are of one scanner.
    class iterator {
    public:
        using iterator_category = std::input_iterator_tag;
        using value_type = Tile;
        using difference_type = std::ptrdiff_t;
        using pointer = const Tile *;
        using reference = const Tile &;
        iterator() = default;
        explicit iterator(Scanner &scanner) : scanner_(&scanner), tile_(scanner.next()) {}
        const Tile &operator*() const noexcept { return *tile_; }
        const Tile *operator->() const noexcept { return &*tile_; }
        iterator &operator++() { tile_ = scanner_->next(); return *this; }
        iterator operator++(int) { iterator before = *this; ++*this; return before; }
        friend bool operator==(const iterator &one, const iterator &other) noexcept { return one.behind() == other.behind(); }
        friend bool operator!=(const iterator &one, const iterator &other) noexcept { return !(one == other); }

    private:
        /// The scanner that may give more tiles, or null at the end.
        const Scanner *behind() const noexcept { return tile_ ? scanner_ : nullptr; }
        Scanner *scanner_ = nullptr;
        std::optional<Tile> tile_;
    };

    /// A scanner at the front of a text, which the tiles view: it has to outlive them.
    Scanner(const Definition &definition, std::string_view text) : text_(text), tiles_(new lrlex_tile[room]) {
        detail::check(lrlex_scanner_new(definition.get(), owner_.get(), detail::bytes(text), text.size()));
    }
    template <class Memory> Scanner(const Definition &definition, detail::Temporary<Memory> text) = delete;

    /// The next tile, or nothing at the text's end and where lexing stops. On an exception it is where it was.
    std::optional<Tile> next() {
        if (!tiles_) detail::check(LRLEX_MISUSE);
        if (at_ == scanned_.count) {
            lrlex_scanned scanned;
            detail::check(lrlex_scanner_next(owner_.get(), tiles_.get(), room, &scanned));
            scanned_ = scanned;
            at_ = 0;
            if (scanned.count == 0) return std::nullopt;
        }
        const lrlex_tile &it = tiles_[at_++];
        return Tile{std::string_view(text_.data() + it.start, it.len), it.start, it.rule, it.has_id ? std::optional<std::uint32_t>(it.id) : std::nullopt};
    }

    iterator begin() { return iterator(*this); }
    iterator end() noexcept { return {}; }

    /// Where lexing stopped, once `next()` gave nothing. It has no value at the text's end.
    std::optional<Stop> stop() const {
        if (!tiles_ || at_ != scanned_.count || scanned_.end == LRLEX_SCAN_MORE || scanned_.end == LRLEX_SCAN_DONE) return std::nullopt;
        lrlex_place place;
        detail::check(lrlex_places(detail::bytes(text_), text_.size(), &scanned_.place, 1, &place, 1));
        const bool unmatched = scanned_.end == LRLEX_SCAN_NO_MATCH;
        return Stop{scanned_.place, place.line, place.column, unmatched ? std::optional<std::size_t>(scanned_.state) : std::nullopt};
    }

    /// The handle, for calls of lrlex.h. It stands behind the tiles that are kept for the next calls of `next()`.
    lrlex_scanner *get() const noexcept { return owner_.get(); }

private:
    static constexpr std::size_t room = 512;
    std::string_view text_;
    std::unique_ptr<lrlex_tile[]> tiles_;
    std::size_t at_ = 0;
    lrlex_scanned scanned_{};
    detail::Owner<lrlex_scanner> owner_;
};

} // namespace lrlex

#endif
