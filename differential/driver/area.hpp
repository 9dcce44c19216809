// One area of the comparison: it makes the i-th case from a seed, asks the Rust about it, and holds our answer to the Rust's.
#pragma once
#include <cstdint>
#include <string>

struct Area {
    const char *name;
    // The question in the oracle's protocol.
    std::string (*ask)(uint64_t seed, uint64_t i);
    // Empty if our answer is the Rust's, else what differs.
    std::string (*compare)(uint64_t seed, uint64_t i, const std::string &answer);
};

extern const Area compactions, filtered, memtables, reads, prefixes;
