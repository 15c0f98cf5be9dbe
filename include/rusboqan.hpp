// The engine as a C++ value (C++17): it is closed once, by its owner. Not for two threads at once.
#ifndef RUSBOQAN_HPP
#define RUSBOQAN_HPP

#include "rusboqan.h"

#include <cassert>
#include <memory>
#include <optional>
#include <string>
#include <string_view>
#include <utility>

namespace rusboqan_detail {
struct Closes {
    void operator()(struct ::rusboqan *engine) const { rusboqan_close(engine); }
};

inline const uint8_t *bytes_of(std::string_view text) {
    static const char empty = 0;
    return reinterpret_cast<const uint8_t *>(text.data() ? text.data() : &empty);
}
}

class RusboqanOpened;

// An engine of which this value is the only owner. One that was moved from owns none: it may be destroyed or given another
// engine, and it may not be asked, which an assertion says.
class RusboqanEngine {
    std::unique_ptr<struct ::rusboqan, rusboqan_detail::Closes> engine;

    explicit RusboqanEngine(struct ::rusboqan *opened) : engine(opened) {}

    struct ::rusboqan *asked() const {
        assert(engine && "this RusboqanEngine was moved from");
        return engine.get();
    }

    // The text of that length that was made last; none if none was made.
    std::optional<std::string> told(std::size_t length) const {
        if (length >= RUSBOQAN_NO_START) return std::nullopt;
        const uint8_t *text = nullptr;
        rusboqan_told(asked(), &text);
        return std::string(reinterpret_cast<const char *>(text), length);
    }

public:
    // An engine over the bytes of an airport file, or why there is none.
    static RusboqanOpened open(std::string_view airport);

    // The reply to one command; empty if the line is a comment or blank. The line comes without its line feed, and without a
    // carriage return before that.
    std::string answer(std::string_view line) { return std::string(answer_view(line)); }

    // The same where it lies in the engine: it can be read until the next call for this engine, or until its owner ends.
    std::string_view answer_view(std::string_view line) & {
        const uint8_t *text = nullptr;
        const std::size_t length = rusboqan_answer(asked(), rusboqan_detail::bytes_of(line), line.size());
        if (length) rusboqan_text(asked(), &text);
        return {reinterpret_cast<const char *>(text), length};
    }

    // What `taxi-tools` writes of the commands that were answered. Each gives none if memory runs out, for its text or for a command
    // before, as rusboqan.h says.

    // The last command and its reply as an object, with this number as that of its line.
    std::optional<std::string> json(uint64_t line) { return told(rusboqan_json(asked(), line)); }

    // What is in force as a table. With a start, the civil time of second 0, its times are civil times; none too if it is no such time.
    std::optional<std::string> plan(std::string_view start = {}) {
        return told(rusboqan_plan(asked(), rusboqan_detail::bytes_of(start), start.size()));
    }

    std::optional<std::string> figures() { return told(rusboqan_figures(asked())); }

    // What is in force as a command file.
    std::optional<std::string> checkpoint() { return told(rusboqan_checkpoint(asked())); }

    // Why this line would be answered as it would if it came next. It is not answered.
    std::optional<std::string> explain(std::string_view line) {
        return told(rusboqan_explain(asked(), rusboqan_detail::bytes_of(line), line.size()));
    }
};

// Why no engine was opened.
struct RusboqanRefusal {
    uint8_t why = RUSBOQAN_SOUND; // what rusboqan_why gives; RUSBOQAN_SOUND and RUSBOQAN_MEMORY mean that memory ran out
    uint32_t record = 0;          // with RUSBOQAN_REFUSED, the number of the first record that breaks a rule

    std::string rule;             // and the word of that rule, as `no-horizon`

    std::string text() const {
        if (why == RUSBOQAN_REFUSED) return "record " + std::to_string(record) + " breaks a rule: " + rule;
        return why == RUSBOQAN_TOO_LARGE ? "more than 4,194,304 bytes" : "memory ran out";
    }
};

// An engine, or why there is none. It is used as the std::optional that it is, and error() tells the reason.
class RusboqanOpened : public std::optional<RusboqanEngine> {
    RusboqanRefusal refusal;

public:
    RusboqanOpened(RusboqanEngine &&engine) : std::optional<RusboqanEngine>(std::move(engine)) {}
    RusboqanOpened(RusboqanRefusal why) : refusal(std::move(why)) {}

    // Why there is no engine. To be asked only where there was none from the beginning.
    const RusboqanRefusal &error() const {
        assert(!has_value() && "there is an engine, and so no error");
        return refusal;
    }
};

inline RusboqanOpened RusboqanEngine::open(std::string_view airport) {
    const uint8_t *bytes = rusboqan_detail::bytes_of(airport);
    struct ::rusboqan *opened = nullptr;
    if (rusboqan_open(bytes, airport.size(), &opened)) return RusboqanEngine(opened);
    RusboqanRefusal refusal;
    refusal.why = rusboqan_why(bytes, airport.size(), &refusal.record);
    uint8_t word[64]; // No rule has a longer word.
    const std::size_t length = rusboqan_rule(bytes, airport.size(), word, sizeof word);
    refusal.rule.assign(reinterpret_cast<const char *>(word), length);
    return refusal;
}

#endif
