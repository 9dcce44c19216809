// What compactions share, with a filter or without: a question's words, the Rust's answer, how a call is held to it.
#pragma once
#include "list.hpp"
#include "vls.h"
#include <functional>

// A list, and what is asked for.
struct Job {
    std::vector<Version> list;
    uint64_t threshold;
    bool evict, zero;
};

std::string question(const Job &job);

// The Rust's answer, as ours is to be written.
struct Answer {
    uint64_t kept = 0, reported = 0;
    Bytes output, report;
};

// Whether these words are an answer; if so, it is told.
bool is_answer(const std::string &words, Answer &answer);

// What was lent, with a pattern that tells what was written, past its end too.
struct Lent {
    size_t size;
    Bytes bytes, was;
    explicit Lent(size_t n) : size(n), bytes(n + 16, 0xA5), was(bytes) {}
    bool untouched() const { return bytes == was; }
    bool begins(const Bytes &with) const;
};

// A compaction in which only the list and what is lent are open.
using Call = std::function<vls_compacted(const Bytes &list, Lent &out, Lent &report)>;

// The three below are empty if all is right, else they say what differs.

// The answer, the output, the report and what lies past them; then with an output, a report or both one byte short.
std::string compacts(const Call &call, const Bytes &list, const Answer &answer);

// A refusal, and nothing written to an output and a report of these sizes.
std::string refuses(const Call &call, const Bytes &list, size_t out_size, size_t report_size, uint64_t number,
                    uint64_t record, const std::string &what);

// A list that was damaged: its own refusal, before all others.
std::string refuses_damaged(const Call &call, const Bytes &list, Random &random);
