// Tries the C++ wrapper over the stand-in: wrapper WHAT. Status 0 if all is as it should be, and 1 else.
#include "rusboqan.hpp"

#include <cstdio>
#include <cstring>

static const char airport[] = "taxi-airport,1\n";

static int opens_and_answers() {
    auto engine = RusboqanEngine::open(airport);
    if (!engine || engine->answer("cancel F1") != "refused not-in-force\n") return 1;
    if (engine->answer_view("# a comment") != "" || (*engine).answer("") != "") return 1;
    // As it was used when open gave an optional.
    std::optional<RusboqanEngine> other = RusboqanEngine::open(airport);
    return other.has_value() && other.value().answer("timetable") == "timetable 0\n" ? 0 : 1;
}

static int tells_why() {
    const auto refused = RusboqanEngine::open("no airport"), large = RusboqanEngine::open(std::string(4194305, '\n'));
    const auto memory = RusboqanEngine::open("memory");
    if (refused || refused.error().why != RUSBOQAN_REFUSED || refused.error().record != 2 || refused.error().rule != "no-horizon") return 1;
    if (refused.error().text() != "record 2 breaks a rule: no-horizon" || large.error().text() != "more than 4,194,304 bytes") return 1;
    return memory.error().text() == "memory ran out" ? 0 : 1;
}

static int tells_of_its_run() {
    auto engine = RusboqanEngine::open(airport);
    if (engine->json(1) != "" || engine->checkpoint() != "") return 1;
    engine->answer("file F1");
    if (engine->json(7) != "{\"command\":1,\"line\":7}\n" || engine->checkpoint()->find("file F1 M 100") == std::string::npos) return 1;
    if (engine->plan("now") || !engine->plan("2024-02-28T23:58:30Z") || engine->plan()->substr(0, 9) != "name,kind") return 1;
    if (engine->figures()->substr(0, 11) != "commands 3\n" || engine->explain("cancel F1") != "nothing to explain\n") return 1;
    engine->answer("memory");
    return engine->figures() || engine->json(1) || engine->explain("cancel F1") ? 1 : 0;
}

static int moves() {
    auto engine = RusboqanEngine::open(airport);
    engine->answer("file F1");
    RusboqanEngine owner = std::move(*engine);
    RusboqanEngine next = std::move(owner);
    owner = std::move(*RusboqanEngine::open(airport));
    return next.answer("cancel F1") == "cancelled F1\n" && owner.answer("timetable") == "timetable 0\n" ? 0 : 1;
}

static int asks_one_that_was_moved_from() {
    auto engine = RusboqanEngine::open(airport);
    const RusboqanEngine owner = std::move(*engine);
    engine->answer("timetable");
    return 1;
}

int main(int argc, char **argv) {
    if (argc != 2) return 64;
    if (!std::strcmp(argv[1], "opens")) return opens_and_answers();
    if (!std::strcmp(argv[1], "why")) return tells_why();
    if (!std::strcmp(argv[1], "moves")) return moves();
    if (!std::strcmp(argv[1], "run")) return tells_of_its_run();
    return asks_one_that_was_moved_from();
}
