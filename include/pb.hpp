// pb.hpp: the functions of pb.h for C++17. A fault is an exception with its position, a checker and a reader free what they own, an instance
// has vectors, and texts are strings.
//
//     pb::Checker checker(instance);
//     while (next(piece))
//         checker.feed(piece);
//     if (checker.finish().kind() == pb::Kind::Unsat)
//         ...
//
// The rules of pb.h for memory and threads hold here too. No pointer that is passed is null, also for an empty text.
#ifndef PB_HPP
#define PB_HPP

#include <pb.h>

#include <cstdint>
#include <cstdlib>
#include <memory>
#include <new>
#include <optional>
#include <stdexcept>
#include <string>
#include <string_view>
#include <utility>
#include <vector>

namespace pb {

// Why a text is rejected. The values are the numbers of pb.h, where each is explained.
enum class Reason : std::uint32_t {
    None = 0,
    Byte = PB_BYTE,
    TooLarge = PB_TOO_LARGE,
    Ended = PB_ENDED,
    TooLong = PB_TOO_LONG,
    Memory = PB_MEMORY,
    Overflow = PB_OVERFLOW,
    FormulaCount = PB_FORMULA_COUNT,
    NoSuchId = PB_NO_SUCH_ID,
    NotImplied = PB_NOT_IMPLIED,
    Conflict = PB_CONFLICT,
    NotTotal = PB_NOT_TOTAL,
    Violates = PB_VIOLATES,
    NoObjective = PB_NO_OBJECTIVE,
    NoContradiction = PB_NO_CONTRADICTION,
    SolutionLogged = PB_SOLUTION_LOGGED,
    NoSolution = PB_NO_SOLUTION,
    NotBound = PB_NOT_BOUND,
    IdsSpent = PB_IDS_SPENT,
    Order = PB_ORDER,
    Misused = PB_MISUSED,
};

enum class Input : std::uint32_t { None = 0, Instance = PB_IN_INSTANCE, Proof = PB_IN_PROOF };

enum class Kind : std::uint32_t { None = PB_CLAIM_NONE, Unsat = PB_CLAIM_UNSAT, Sat = PB_CLAIM_SAT, Bounds = PB_CLAIM_BOUNDS };

// A position: lines and columns from 1, columns and offsets in bytes.
using Place = pb_place_t;

// An integer of 128 bits: 2^64 times the high word plus the low word.
struct Wide {
    std::uint64_t low = 0;
    std::int64_t high = 0;

    friend bool operator==(const Wide &one, const Wide &other) { return one.low == other.low && one.high == other.high; }
    friend bool operator!=(const Wide &one, const Wide &other) { return !(one == other); }

    // Its decimal digits, after a `-` if it is negative.
    std::string str() const
    {
        const bool negative = high < 0;
        std::uint64_t upper = static_cast<std::uint64_t>(high), lower = low;
        if (negative) {
            upper = lower == 0 ? 0 - upper : ~upper;
            lower = 0 - lower;
        }
        std::uint64_t words[4] = {upper >> 32, upper & 0xffffffffu, lower >> 32, lower & 0xffffffffu};
        std::string digits;
        do {
            std::uint64_t rest = 0;
            for (std::uint64_t &word : words) {
                rest = (rest << 32) + word;
                word = rest / 10;
                rest %= 10;
            }
            digits.insert(digits.begin(), static_cast<char>('0' + rest));
        } while ((words[0] | words[1] | words[2] | words[3]) != 0);
        return negative ? "-" + digits : digits;
    }
};

// The options of a call. The keys are drawn at random; PB_OPTIONS_FIXED has fixed ones.
#ifndef PB_NO_RANDOM
inline pb_options_t random_options()
{
    pb_options_t options;
    pb_options(&options);
    return options;
}
#endif

// A call failed. what() is the line that the command prints, without its line feed.
class Fault : public std::runtime_error {
public:
    Fault(std::uint8_t status, const pb_report_t &report, std::string name)
        : std::runtime_error(line_of(report, name)), status_(status), report_(report), name_(std::move(name))
    {
    }

    // PB_REFUSED, PB_MISUSE or PB_FAILED.
    std::uint8_t status() const noexcept { return status_; }
    Reason reason() const noexcept { return static_cast<Reason>(report_.reason); }
    Input input() const noexcept { return static_cast<Input>(report_.input); }
    // The position: 0, 0, 0 if the reason has none.
    std::uint64_t line() const noexcept { return report_.line; }
    std::uint64_t column() const noexcept { return report_.column; }
    std::uint64_t offset() const noexcept { return report_.offset; }
    // The byte, the count, the number of the name or the id that the reason is about.
    std::uint64_t number() const noexcept { return report_.number; }
    // The id of Reason::NoSuchId, as written.
    std::int64_t id() const noexcept { return report_.id; }
    // The name of Reason::NotTotal.
    const std::string &name() const noexcept { return name_; }

private:
    static std::string reason_of(const pb_report_t &report, const std::string &name)
    {
        switch (static_cast<Reason>(report.reason)) {
        case Reason::None:
            return "no fault";
        case Reason::Byte: {
            const char *digits = "0123456789abcdef";
            return std::string("byte 0x") + digits[report.number / 16 % 16] + digits[report.number % 16];
        }
        case Reason::TooLarge:
            return "number too large";
        case Reason::Ended:
            return "input ended";
        case Reason::TooLong:
            return "input too long";
        case Reason::Memory:
            return "out of memory";
        case Reason::Overflow:
            return "overflow";
        case Reason::FormulaCount:
            return "formula has " + std::to_string(report.number) + " constraints";
        case Reason::NoSuchId:
            return "no such id " + std::to_string(report.id);
        case Reason::NotImplied:
            return "not implied";
        case Reason::Conflict:
            return "conflict";
        case Reason::NotTotal:
            return "no value for " + name;
        case Reason::Violates:
            return "violates constraint " + std::to_string(report.number);
        case Reason::NoObjective:
            return "no objective";
        case Reason::NoContradiction:
            return "not a contradiction";
        case Reason::SolutionLogged:
            return "a solution was logged";
        case Reason::NoSolution:
            return "no solution";
        case Reason::NotBound:
            return "not a bound";
        case Reason::IdsSpent:
            return "ids spent";
        case Reason::Order:
            return "out of order";
        case Reason::Misused:
            return "options that are not allowed, or a checker that is closed";
        }
        return "reason " + std::to_string(report.reason);
    }

    static std::string line_of(const pb_report_t &report, const std::string &name)
    {
        std::string line;
        if (report.input != 0)
            line = report.input == PB_IN_PROOF ? "proof: " : "instance: ";
        if (report.line != 0)
            line += "line " + std::to_string(report.line) + " column " + std::to_string(report.column) + ": ";
        return line + reason_of(report, name);
    }

    std::uint8_t status_;
    pb_report_t report_;
    std::string name_;
};

// What a proof has shown.
class Verdict {
public:
    explicit Verdict(const pb_claim_t &claim) : claim_(claim) {}

    Kind kind() const noexcept { return static_cast<Kind>(claim_.kind); }
    // The bounds of Kind::Bounds. There is none if it is infinite.
    std::optional<Wide> lower() const { return bound(claim_.lower_finite, claim_.lower_low, claim_.lower_high); }
    std::optional<Wide> upper() const { return bound(claim_.upper_finite, claim_.upper_low, claim_.upper_high); }

    // The line that the command prints, without its line feed.
    std::string str() const
    {
        switch (kind()) {
        case Kind::None:
            return "verified NONE";
        case Kind::Unsat:
            return "verified UNSAT";
        case Kind::Sat:
            return "verified SAT";
        case Kind::Bounds:
            break;
        }
        return "verified BOUNDS " + (lower() ? lower()->str() : "INF") + " " + (upper() ? upper()->str() : "INF");
    }

private:
    static std::optional<Wide> bound(bool finite, std::uint64_t low, std::int64_t high)
    {
        return finite ? std::optional<Wide>(Wide{low, high}) : std::nullopt;
    }

    pb_claim_t claim_;
};

namespace inner {

// The bytes of a text, by a pointer that is not null.
inline const std::uint8_t *bytes_of(std::string_view text)
{
    return reinterpret_cast<const std::uint8_t *>(text.empty() ? "" : text.data());
}

// One element more than there are, so that no pointer is null.
template <typename T> std::vector<T> room_for(std::size_t count) { return std::vector<T>(count + 1); }

// A name, by a call that writes it into a buffer.
template <typename Call> std::string name_of(Call call)
{
    std::string name(64, '\0');
    for (;;) {
        std::size_t length = 0;
        call(reinterpret_cast<std::uint8_t *>(&name[0]), name.size(), &length);
        const bool fits = length <= name.size();
        name.resize(length);
        if (fits)
            return name;
    }
}

} // namespace inner

// What a checker has accepted: the number of statements, the newest id of a constraint or 0, and the visits of the last `rup` or 0.
using State = pb_state_t;

// A term: the coefficient times a name, or its negation.
struct Term {
    Wide coefficient;
    std::string name;
    bool negated;
};

// A live constraint in normal form: the sum of its terms is at least the degree.
struct Live {
    std::vector<Term> terms;
    Wide degree;
};

// Checks the proof of one instance while the proof is written. It belongs to the thread that made it. Each call may throw a Fault.
class Checker {
public:
    Checker(std::string_view instance, const pb_options_t &options)
    {
        pb_report_t report;
        answer(pb_checker_open(inner::bytes_of(instance), instance.size(), &options, &checker_, &report), report);
    }
#ifndef PB_NO_RANDOM
    explicit Checker(std::string_view instance) : Checker(instance, random_options()) {}
#endif
    Checker(Checker &&other) noexcept : checker_(std::exchange(other.checker_, pb_checker_t PB_CHECKER_CLOSED)) {}
    Checker &operator=(Checker &&other) noexcept
    {
        std::swap(checker_, other.checker_);
        return *this;
    }
    Checker(const Checker &) = delete;
    Checker &operator=(const Checker &) = delete;
    ~Checker() { pb_checker_close(&checker_); }

    // Takes a piece of the proof, cut anywhere. Returns how many of its bytes belong to the proof.
    std::size_t feed(std::string_view piece)
    {
        pb_report_t report;
        std::size_t used = 0;
        answer(pb_checker_feed(&checker_, inner::bytes_of(piece), piece.size(), &used, &report), report);
        return used;
    }

    // Takes a piece of the proof up to the end of the next statement, and leaves the rest of the piece. Returns whether a statement ended there
    // and was accepted. If none did, the whole piece was taken, and nothing is left of it.
    bool step(std::string_view &piece)
    {
        pb_report_t report;
        std::size_t used = 0;
        bool ended = false;
        answer(pb_checker_step(&checker_, inner::bytes_of(piece), piece.size(), &used, &ended, &report), report);
        piece.remove_prefix(ended ? used : piece.size());
        return ended;
    }

    // What was accepted so far. After a fault only the number of statements has a meaning.
    State state()
    {
        State state;
        closed(pb_checker_state(&checker_, &state));
        return state;
    }

    // The live constraint with an id, if one has it. It has no meaning after a fault.
    std::optional<Live> constraint(std::uint64_t id)
    {
        std::size_t count = 0;
        if (pb_checker_terms(&checker_, id, &count) != PB_OK)
            return std::nullopt;
        auto numbers = inner::room_for<std::uint64_t>(count), lows = numbers;
        auto highs = inner::room_for<std::int64_t>(count);
        auto negated = inner::room_for<std::uint8_t>(count);
        pb_number_t degree;
        closed(pb_checker_constraint(&checker_, id, numbers.data(), count, negated.data(), count, lows.data(), count, highs.data(), count,
                                     &degree));
        Live live{{}, Wide{degree.low, degree.high}};
        live.terms.reserve(count);
        for (std::size_t at = 0; at < count; at++)
            live.terms.push_back(Term{Wide{lows[at], highs[at]}, name_of(numbers[at]), negated[at] != 0});
        return live;
    }

    // What the proof shows if it ends here.
    Verdict finish()
    {
        pb_report_t report;
        pb_claim_t claim;
        answer(pb_checker_finish(&checker_, &claim, &report), report);
        return Verdict(claim);
    }

    // The position of the next byte of the proof.
    Place place()
    {
        Place place;
        closed(pb_checker_place(&checker_, &place));
        return place;
    }

    // How much of the current statement is stored.
    std::size_t held()
    {
        std::size_t held = 0;
        closed(pb_checker_held(&checker_, &held));
        return held;
    }

private:
    std::string name_of(std::uint64_t number)
    {
        return inner::name_of([&](std::uint8_t *room, std::size_t size, std::size_t *length) {
            pb_checker_name(&checker_, static_cast<std::size_t>(number), room, size, length);
        });
    }

    void answer(std::uint8_t status, const pb_report_t &report)
    {
        if (status != PB_OK)
            throw Fault(status, report, report.reason == PB_NOT_TOTAL ? name_of(report.number) : std::string());
    }

    void closed(std::uint8_t status)
    {
        if (status != PB_OK)
            throw Fault(status, pb_report_t{0, 0, 0, 0, 0, PB_MISUSED, 0}, std::string());
    }

    pb_checker_t checker_ = PB_CHECKER_CLOSED;
};

// An instance as arrays. Name k is names[k]. Term t has the coefficient coefficients[t] on the name numbers[t], or on its negation if
// negated[t] is 1. A row is the objective, if there is one, or a constraint. Row k has the terms from ends[k - 1], or 0 for the first row, to
// ends[k], kinds[k] is PB_OBJECTIVE, PB_AT_LEAST or PB_EQUAL, and its first byte is at places[k].
class Instance {
public:
    std::vector<std::string> names;
    std::vector<std::uint64_t> numbers;
    std::vector<std::uint8_t> negated;
    std::vector<Wide> coefficients;
    std::vector<std::uint8_t> kinds;
    std::vector<std::uint64_t> ends;
    std::vector<Wide> degrees;
    std::vector<Place> places;

    // Reads an instance. Throws a Fault.
    static Instance read(std::string_view text, const pb_options_t &options)
    {
        Arrays arrays;
        pb_report_t report;
        const std::uint8_t status = pb_instance_read(inner::bytes_of(text), text.size(), &options, &arrays.instance, &report);
        if (status != PB_OK)
            throw Fault(status, report, std::string());
        return Instance(&arrays.instance);
    }
#ifndef PB_NO_RANDOM
    static Instance read(std::string_view text) { return read(text, random_options()); }
#endif

private:
    struct Arrays {
        pb_instance_t instance = PB_INSTANCE_CLOSED;
        Arrays() = default;
        Arrays(const Arrays &) = delete;
        Arrays &operator=(const Arrays &) = delete;
        ~Arrays() { pb_instance_close(&instance); }
    };

    explicit Instance(pb_instance_t *instance)
    {
        pb_sizes_t sizes;
        pb_instance_sizes(instance, &sizes);
        read_names(instance, sizes);
        read_terms(instance, sizes.terms);
        read_rows(instance, sizes.rows);
    }

    void read_names(pb_instance_t *instance, const pb_sizes_t &sizes)
    {
        auto bytes = inner::room_for<std::uint8_t>(sizes.name_bytes);
        auto starts = inner::room_for<std::uint64_t>(sizes.names);
        pb_instance_names(instance, bytes.data(), sizes.name_bytes, starts.data(), sizes.names);
        starts[sizes.names] = sizes.name_bytes;
        names.reserve(sizes.names);
        for (std::size_t at = 0; at < sizes.names; at++)
            names.emplace_back(reinterpret_cast<const char *>(bytes.data()) + starts[at], starts[at + 1] - starts[at]);
    }

    void read_terms(pb_instance_t *instance, std::size_t count)
    {
        auto lows = inner::room_for<std::uint64_t>(count);
        auto highs = inner::room_for<std::int64_t>(count);
        numbers = inner::room_for<std::uint64_t>(count);
        negated = inner::room_for<std::uint8_t>(count);
        pb_instance_terms(instance, numbers.data(), count, negated.data(), count, lows.data(), count, highs.data(), count);
        numbers.resize(count);
        negated.resize(count);
        coefficients.reserve(count);
        for (std::size_t term = 0; term < count; term++)
            coefficients.push_back(Wide{lows[term], highs[term]});
    }

    void read_rows(pb_instance_t *instance, std::size_t count)
    {
        auto lows = inner::room_for<std::uint64_t>(count), lines = lows, columns = lows, firsts = lows, pasts = lows;
        auto highs = inner::room_for<std::int64_t>(count);
        kinds = inner::room_for<std::uint8_t>(count);
        ends = inner::room_for<std::uint64_t>(count);
        pb_instance_rows(instance, kinds.data(), count, ends.data(), count, lows.data(), count, highs.data(), count);
        pb_instance_places(instance, lines.data(), count, columns.data(), count, firsts.data(), count, pasts.data(), count);
        kinds.resize(count);
        ends.resize(count);
        degrees.reserve(count);
        places.reserve(count);
        for (std::size_t row = 0; row < count; row++) {
            degrees.push_back(Wide{lows[row], highs[row]});
            places.push_back(Place{lines[row], columns[row], firsts[row]});
        }
    }
};

enum class Format : std::uint32_t { Instance = PB_READS_INSTANCE, Proof = PB_READS_PROOF };

// A part of a statement: one of the PB_TOKEN_ codes of pb.h, the number of its name or 0, and its number or 0.
struct Token {
    std::uint8_t code;
    std::uint64_t name;
    Wide number;
};

// A statement: one of the PB_EVENT_ kinds of pb.h, the position of its first byte, the offset past its last, its tokens, and the free text of
// a header or a comment.
struct Event {
    std::uint32_t kind;
    Place place;
    std::uint64_t past;
    std::vector<Token> tokens;
    std::string text;
};

// Reads an instance or a proof, one statement at a time. It checks the text and not the proof. It belongs to the thread that made it. Each call
// may throw a Fault.
//
//     while (next(piece))
//         while (auto event = reader.next(piece))
//             ...
//     reader.finish();
class Reader {
public:
    Reader(Format format, const pb_options_t &options)
    {
        pb_report_t report;
        answer(pb_reader_open(static_cast<std::uint32_t>(format), &options, &reader_, &report), report);
    }
#ifndef PB_NO_RANDOM
    explicit Reader(Format format) : Reader(format, random_options()) {}
#endif
    Reader(Reader &&other) noexcept : reader_(std::exchange(other.reader_, pb_reader_t PB_READER_CLOSED)) {}
    Reader &operator=(Reader &&other) noexcept
    {
        std::swap(reader_, other.reader_);
        return *this;
    }
    Reader(const Reader &) = delete;
    Reader &operator=(const Reader &) = delete;
    ~Reader() { pb_reader_close(&reader_); }

    // Takes a piece of the text, cut anywhere, up to the end of the next statement, and leaves the rest of the piece. Returns the statement that
    // ended there. If there is none, the whole piece was taken, or the text has ended: then what is left of the piece is not part of it.
    std::optional<Event> next(std::string_view &piece)
    {
        pb_report_t report;
        pb_event_t event;
        std::size_t used = 0;
        answer(pb_reader_feed(&reader_, inner::bytes_of(piece), piece.size(), &used, &event, &report), report);
        piece.remove_prefix(used);
        if (event.kind == PB_EVENT_NONE)
            return std::nullopt;
        return Event{event.kind, Place{event.line, event.column, event.offset}, event.past, tokens(event.tokens), text(event.bytes)};
    }

    // Throws a Fault if the text may not end here. What follows its last statement is not part of it.
    void finish()
    {
        pb_report_t report;
        answer(pb_reader_finish(&reader_, &report), report);
    }

    // The name with a number. Names are numbered from 0 in the order in which they first appear.
    std::string name(std::uint64_t number)
    {
        return inner::name_of([&](std::uint8_t *room, std::size_t size, std::size_t *length) {
            pb_reader_name(&reader_, static_cast<std::size_t>(number), room, size, length);
        });
    }

private:
    std::vector<Token> tokens(std::size_t count)
    {
        auto codes = inner::room_for<std::uint8_t>(count);
        auto names = inner::room_for<std::uint64_t>(count), lows = names;
        auto highs = inner::room_for<std::int64_t>(count);
        pb_reader_tokens(&reader_, codes.data(), count, names.data(), count, lows.data(), count, highs.data(), count);
        std::vector<Token> found;
        found.reserve(count);
        for (std::size_t at = 0; at < count; at++)
            found.push_back(Token{codes[at], names[at], Wide{lows[at], highs[at]}});
        return found;
    }

    std::string text(std::size_t size)
    {
        std::string text(size, '\0');
        std::size_t length = 0;
        if (size > 0)
            pb_reader_bytes(&reader_, reinterpret_cast<std::uint8_t *>(&text[0]), size, &length);
        return text;
    }

    void answer(std::uint8_t status, const pb_report_t &report)
    {
        if (status != PB_OK)
            throw Fault(status, report, std::string());
    }

    pb_reader_t reader_ = PB_READER_CLOSED;
};

// tidy() or show() failed. what() is the line of the fault, without its line feed.
class Refusal : public std::runtime_error {
public:
    Refusal(std::uint8_t status, std::string text) : std::runtime_error(line_of(text)), status_(status), text_(std::move(text)) {}

    // PB_REFUSED, PB_MISUSE or PB_FAILED.
    std::uint8_t status() const noexcept { return status_; }
    // What the call wrote. It ends in the line of the fault, or in a prefix of that line if memory ran out for it.
    const std::string &text() const noexcept { return text_; }
    // The position: 0, 0 if the reason has none.
    std::uint64_t line() const { return number_after("file: line "); }
    std::uint64_t column() const { return number_after(" column "); }

private:
    static std::string line_of(const std::string &text)
    {
        const std::size_t end = text.find_last_not_of('\n') + 1, start = end == 0 ? 0 : text.rfind('\n', end - 1) + 1;
        return text.substr(start, end - start);
    }

    std::uint64_t number_after(const char *word) const
    {
        const std::string line = what();
        const std::size_t at = line.compare(0, 11, "file: line ") == 0 ? line.find(word) : std::string::npos;
        return at == std::string::npos ? 0 : std::strtoull(line.c_str() + at + std::string(word).size(), nullptr, 10);
    }

    std::uint8_t status_;
    std::string text_;
};

namespace inner {

// What a call writes. It gets so much room that a second call with the length of the first is hardly ever needed. The pages of room that it
// does not write to take no memory.
template <typename Call> std::string written(std::size_t guess, Call call)
{
    std::size_t size = guess + 4096, length = 0;
    for (;;) {
        std::unique_ptr<std::uint8_t[]> room(new (std::nothrow) std::uint8_t[size]);
        if (!room)
            room.reset(new std::uint8_t[size = 4096]);
        const std::uint8_t status = call(room.get(), size, &length);
        if (length <= size) {
            std::string text(reinterpret_cast<const char *>(room.get()), length);
            if (status != PB_OK)
                throw Refusal(status, std::move(text));
            return text;
        }
        size = length;
    }
}

} // namespace inner

// The canonical text of an instance or a proof, or with `normal` the normal form of an instance. Throws a Refusal.
inline std::string tidy(std::string_view text, bool normal, const pb_options_t &options)
{
    return inner::written(text.size() * (normal ? 6 : 2), [&](std::uint8_t *room, std::size_t size, std::size_t *length) {
        return pb_tidy(inner::bytes_of(text), text.size(), normal, &options, room, size, length);
    });
}

// The statements of a text, each after its line and column. Throws a Refusal, whose text has the statements before the fault.
inline std::string show(std::string_view text, const pb_options_t &options)
{
    return inner::written(text.size() * 6, [&](std::uint8_t *room, std::size_t size, std::size_t *length) {
        return pb_show(inner::bytes_of(text), text.size(), &options, room, size, length);
    });
}
#ifndef PB_NO_RANDOM
inline std::string tidy(std::string_view text, bool normal = false) { return tidy(text, normal, random_options()); }
inline std::string show(std::string_view text) { return show(text, random_options()); }
#endif

// No statement was written. token() is the index of the token that breaks a rule, with PB_REFUSED. The number of tokens stands for one that is
// missing, or for the free text.
class WriteFault : public std::runtime_error {
public:
    WriteFault(std::uint8_t status, std::size_t token) : std::runtime_error(words_of(status, token)), status_(status), token_(token) {}

    // PB_REFUSED, PB_MISUSE or PB_FAILED.
    std::uint8_t status() const noexcept { return status_; }
    std::size_t token() const noexcept { return token_; }

private:
    static std::string words_of(std::uint8_t status, std::size_t token)
    {
        if (status == PB_REFUSED)
            return "token " + std::to_string(token) + ": no statement has it there";
        return status == PB_MISUSE ? "options that are not allowed" : "out of memory";
    }

    std::uint8_t status_;
    std::size_t token_;
};

// The names of tokens: the one that was added first has the number 0.
class NameTable {
public:
    // Adds a name, and returns its number.
    std::uint64_t add(std::string_view name)
    {
        starts_.back() = bytes_.size();
        bytes_.append(name);
        starts_.push_back(0);
        return starts_.size() - 2;
    }

    std::string_view bytes() const noexcept { return bytes_; }
    // Where each name begins.
    const std::uint64_t *starts() const noexcept { return starts_.data(); }
    std::size_t size() const noexcept { return starts_.size() - 1; }

private:
    std::string bytes_;
    // one element more than there are names
    std::vector<std::uint64_t> starts_ = std::vector<std::uint64_t>(1);
};

// The canonical text of a statement, without a line feed. `kind` is one of the PB_EVENT_ kinds of pb.h, and `text` the free text of a header or a
// comment. Of the options only `bits` matters. Throws a WriteFault.
inline std::string write_statement(std::uint32_t kind, const std::vector<Token> &tokens, std::string_view text, const NameTable &names,
                                   const pb_options_t &options = pb_options_t PB_OPTIONS_FIXED)
{
    const std::size_t count = tokens.size();
    auto codes = inner::room_for<std::uint8_t>(count);
    auto numbers = inner::room_for<std::uint64_t>(count), lows = numbers;
    auto highs = inner::room_for<std::int64_t>(count);
    for (std::size_t at = 0; at < count; at++) {
        codes[at] = tokens[at].code;
        numbers[at] = tokens[at].name;
        lows[at] = tokens[at].number.low;
        highs[at] = tokens[at].number.high;
    }
    std::string line(text.size() + 32 * count + 64, '\0');
    for (;;) {
        std::size_t length = 0, wrong = 0;
        const std::uint8_t status =
            pb_write_statement(kind, codes.data(), count, numbers.data(), count, lows.data(), count, highs.data(), count, inner::bytes_of(text),
                               text.size(), inner::bytes_of(names.bytes()), names.bytes().size(), names.starts(), names.size(), &options,
                               &wrong, reinterpret_cast<std::uint8_t *>(&line[0]), line.size(), &length);
        if (status != PB_OK)
            throw WriteFault(status, wrong);
        const bool fits = length <= line.size();
        line.resize(length);
        if (fits)
            return line;
    }
}

// Checks a proof of an instance, both in memory. Throws a Fault.
inline Verdict check(std::string_view instance, std::string_view proof, const pb_options_t &options)
{
    Checker checker(instance, options);
    checker.feed(proof);
    return checker.finish();
}
#ifndef PB_NO_RANDOM
inline Verdict check(std::string_view instance, std::string_view proof) { return check(instance, proof, random_options()); }
#endif

} // namespace pb

#endif
