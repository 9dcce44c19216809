// Compactions: every one-key list of up to three versions first, then random lists, each also with too little room and damaged.
#include "area.hpp"
#include "compaction.hpp"

namespace {

const uint64_t SHORT = 369;
const uint64_t RULES = 20;

// The n-th of the lists with up to three versions of one key, over seqnos 0 to 3 and all tags.
std::vector<Version> short_list(uint64_t n) {
    for (unsigned chosen = 0; chosen < 16; chosen++) {
        unsigned size = __builtin_popcount(chosen);
        if (size > 3) continue;
        uint64_t ways = uint64_t(1) << (2 * size);
        if (n >= ways) {
            n -= ways;
            continue;
        }
        std::vector<Version> list;
        for (int seqno = 3; seqno >= 0; seqno--) {
            if (!(chosen >> seqno & 1)) continue;
            list.push_back({"a", uint64_t(seqno), TAGS[n & 3], "v"});
            n >>= 2;
        }
        return list;
    }
    return {};
}

Job make(uint64_t seed, uint64_t i) {
    if (i < SHORT * RULES) {
        uint64_t rule = i / SHORT;
        return {short_list(i % SHORT), rule / 4, (rule & 1) != 0, (rule & 2) != 0};
    }
    Random random(seed + i);
    Job job;
    job.list = draw_list(random, random.one_in(20) ? 60 : 10);
    job.threshold = draw_seqno(random) + random.below(2);
    job.evict = random.one_in(2);
    job.zero = random.one_in(2);
    return job;
}

std::string ask(uint64_t seed, uint64_t i) { return question(make(seed, i)); }

std::string compare(uint64_t seed, uint64_t i, const std::string &words) {
    Job job = make(seed, i);
    Answer answer;
    if (!is_answer(words, answer)) return "the Rust did not answer: " + words;
    Call call = [&](const Bytes &list, Lent &out, Lent &report) {
        return vls_compact(list.data(), list.size(), job.threshold, job.evict, job.zero, out.bytes.data(), out.size,
                           report.bytes.data(), report.size);
    };
    Bytes list = encode(job.list);
    Random random(seed ^ i);
    std::string wrong = compacts(call, list, answer);
    return wrong.empty() ? refuses_damaged(call, list, random) : wrong;
}

} // namespace

const Area compactions = {"compact", ask, compare};
