// driver ask AREA SEED CASES: writes the questions.  driver compare AREA SEED CASES: reads the Rust's answers and tells where ours differ.
#include "area.hpp"
#include <cstdlib>
#include <cstring>
#include <iostream>

static const Area *areas[] = {&compactions, &filtered, &memtables, &reads, &prefixes};

int main(int argc, char **argv) {
    std::ios::sync_with_stdio(false);
    if (argc != 5) {
        std::cerr << "usage: driver ask|compare AREA SEED CASES\n";
        return 2;
    }
    uint64_t seed = std::strtoull(argv[3], nullptr, 10), cases = std::strtoull(argv[4], nullptr, 10), wrong = 0;
    for (const Area *area : areas) {
        if (std::strcmp(area->name, argv[2]) != 0) continue;
        bool asking = std::strcmp(argv[1], "ask") == 0;
        std::string answer;
        for (uint64_t i = 0; i < cases; i++) {
            if (asking) {
                std::cout << area->ask(seed, i) << '\n';
                continue;
            }
            if (!std::getline(std::cin, answer)) {
                std::cerr << area->name << ": the Rust stopped at case " << i << '\n';
                return 1;
            }
            std::string difference = area->compare(seed, i, answer);
            if (!difference.empty() && ++wrong <= 10) {
                std::cout << area->name << " " << i << " differs: " << difference << "\n  " << area->ask(seed, i) << "\n  " << answer << '\n';
            }
        }
        if (!asking) std::cout << area->name << ": " << cases << " cases, " << wrong << " differ\n";
        return wrong == 0 ? 0 : 1;
    }
    std::cerr << "driver: no area " << argv[2] << '\n';
    return 2;
}
