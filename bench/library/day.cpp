// day AIRPORT COMMANDS [VERB [WORD]]: answers the commands of a file over the C++ wrapper, and writes what `taxi route` writes. With a
// verb it writes what `taxi-tools VERB AIRPORT COMMANDS [WORD]` writes: plan, figures, explain, checkpoint or json.
#include "rusboqan.hpp"

#include <fstream>
#include <iostream>
#include <iterator>

using Text = std::optional<std::string>;

// The next line that holds a command, or not; false at the end. A line comes without its end.
static bool next(std::istream &lines, std::string &line) {
    if (!std::getline(lines, line)) return false;
    if (!line.empty() && line.back() == '\r') line.pop_back();
    return true;
}

static bool is_command(const std::string &line) { return line[0] != '#' && line.find_first_not_of(" \t") != std::string::npos; }

// Each reply, or the object of each, and the number of the commands.
static Text answer_all(RusboqanEngine &engine, std::istream &lines, bool as_objects) {
    std::size_t count = 0, number = 1;
    for (std::string line; next(lines, line); number++) {
        const std::string_view reply = engine.answer_view(line);
        if (reply.empty()) continue;
        count++;
        if (!as_objects) {
            std::cout << reply;
        } else if (const Text object = engine.json(number)) {
            std::cout << *object;
        } else {
            return std::nullopt;
        }
    }
    return as_objects ? "{\"done\":" + std::to_string(count) + "}\n" : "done " + std::to_string(count) + "\n";
}

static Text explained(RusboqanEngine &engine, std::istream &lines, std::size_t wanted) {
    std::size_t count = 0;
    for (std::string line; next(lines, line); engine.answer_view(line))
        if (is_command(line) && ++count == wanted) return engine.explain(line);
    return "no command " + std::to_string(wanted) + "\n";
}

static Text told(RusboqanEngine &engine, std::istream &lines, const std::string &verb, const std::string &word) {
    if (verb == "route" || verb == "json") return answer_all(engine, lines, verb == "json");
    if (verb == "explain") return explained(engine, lines, std::stoul(word));
    for (std::string line; next(lines, line);) engine.answer_view(line);
    return verb == "plan" ? engine.plan(word) : verb == "figures" ? engine.figures() : engine.checkpoint();
}

int main(int argc, char **argv) {
    if (argc < 3 || argc > 5) return 64;
    std::ifstream file(argv[1], std::ios::binary), lines(argv[2], std::ios::binary);
    auto engine = RusboqanEngine::open(std::string(std::istreambuf_iterator<char>(file), {}));
    if (!engine) return std::cerr << engine.error().text() << "\n", 1;
    std::ios::sync_with_stdio(false);
    const Text text = told(*engine, lines, argc > 3 ? argv[3] : "route", argc > 4 ? argv[4] : "");
    if (!text) return std::cerr << "memory ran out, or the start is no civil time\n", 5;
    std::cout << *text;
}
