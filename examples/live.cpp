// A router that runs all day over the library: live AIRPORT LOG <COMMANDS. It answers each line at once, and keeps in LOG what it
// answered. Started again with the same LOG, after whatever end, it goes on from there.
#include "rusboqan.hpp"

#include <filesystem>
#include <fstream>
#include <iostream>
#include <iterator>
#include <sstream>

static std::string whole(const char *name) {
    std::ifstream file(name, std::ios::binary);
    return {std::istreambuf_iterator<char>(file), {}};
}

int main(int argc, char **argv) {
    if (argc != 3) return std::cerr << "usage: live AIRPORT LOG\n", 64;
    auto engine = RusboqanEngine::open(whole(argv[1]));
    if (!engine) return std::cerr << "live: " << argv[1] << ": " << engine.error().text() << "\n", 1;
    std::string kept = whole(argv[2]), line;
    kept.resize(kept.rfind('\n') + 1); // A crash may have left a part of a last line: it is cut off.
    std::ofstream log(argv[2], std::ios::binary | std::ios::app);
    if (!log) return std::cerr << "live: " << argv[2] << " can't be written\n", 4;
    std::filesystem::resize_file(argv[2], kept.size());
    for (std::istringstream lines(kept); std::getline(lines, line);)
        if (engine->answer_view(line) == "refused memory\n") return std::cerr << "live: memory ran out\n", 5;
    while (std::getline(std::cin, line)) {
        if (!line.empty() && line.back() == '\r') line.pop_back();
        const std::string_view reply = engine->answer_view(line);
        // The log comes before the reply: what a reader was told is never lost. What was refused for want of memory changed nothing.
        if (!reply.empty() && reply != "refused memory\n" && !(log << line << '\n' << std::flush))
            return std::cerr << "live: " << argv[2] << " can't be written\n", 4;
        if (!(std::cout << reply << std::flush)) return 4;
    }
}
