// Compactions with a filter: every case of up to two versions of one key first, then random ones, each also with too
// little room, with a verdict too few or too many, and with its verdicts and its list damaged.
#include "area.hpp"
#include "compaction.hpp"

namespace {

// What it says, and of a replacement the tag and the place of its value.
struct Verdict {
    uint64_t what, tag, start, length;
};

struct Case {
    Job job;
    std::vector<Verdict> verdicts;
    std::string values;
};

// At a seqno a short list has no version, or one with any of four tags and any of six verdicts.
const uint64_t WAYS = 1 + 4 * 6;
const uint64_t FLAGS = 4;
const uint64_t PAIRS = WAYS * WAYS * 4 * FLAGS;
const uint64_t TRIPLES = WAYS * WAYS * WAYS * 6 * FLAGS;

// Keep, drop, or replace by one of the tags. Of keep and drop the other three words are any.
Verdict draw_verdict(Random &random, uint64_t choice, size_t values) {
    const uint64_t any = uint64_t(1) << 32;
    if (choice < 2) return {choice, random.below(any), random.below(any), random.below(any)};
    uint64_t start = random.below(values + 1);
    return {2, TAGS[choice - 2], start, random.below(values - start + 1)};
}

// The n-th case of up to so many versions of one key, at the seqnos 0, 2 and so on, with a threshold at or beside one.
Case short_case(Random &random, const std::string &values, uint64_t n, uint64_t most) {
    uint64_t rule = n % (2 * most * FLAGS);
    Case c{{{}, rule / FLAGS, (rule & 1) != 0, (rule & 2) != 0}, {}, values};
    n /= 2 * most * FLAGS;
    for (uint64_t left = most; left > 0; left--) {
        uint64_t way = n % WAYS;
        n /= WAYS;
        if (way == 0) continue;
        c.job.list.push_back({"a", 2 * (left - 1), TAGS[(way - 1) % 4], "v"});
        c.verdicts.push_back(draw_verdict(random, (way - 1) / 4, values.size()));
    }
    return c;
}

// Several versions of few keys, with a threshold at or beside one of their seqnos.
Case long_case(Random &random, const std::string &values) {
    std::vector<std::string> keys;
    for (uint64_t n = 1 + random.below(3); n > 0; n--) keys.push_back(draw_key(random));
    Case c{{draw_list(random, 24, keys), 0, random.one_in(2), random.one_in(2)}, {}, values};
    const std::vector<Version> &list = c.job.list;
    uint64_t near = list.empty() ? draw_seqno(random) : list[random.below(list.size())].seqno;
    c.job.threshold = near + random.below(3) - 1;
    for (size_t k = 0; k < list.size(); k++) {
        uint64_t choice = random.below(3);
        c.verdicts.push_back(draw_verdict(random, choice < 2 ? choice : 2 + random.below(4), values.size()));
    }
    return c;
}

Case make(uint64_t seed, uint64_t i) {
    Random random(seed + i);
    std::string values;
    for (uint64_t n = random.below(8); n > 0; n--) values += char(random.below(256));
    if (i < PAIRS) return short_case(random, values, i, 2);
    if (random.one_in(3)) return short_case(random, values, random.below(TRIPLES), 3);
    return long_case(random, values);
}

std::string word(const Verdict &v, const std::string &values) {
    if (v.what < 2) return v.what == 0 ? "k" : "d";
    return std::string("r") + letter(uint8_t(v.tag)) + "=" + hex(values.substr(v.start, v.length));
}

std::string ask(uint64_t seed, uint64_t i) {
    Case c = make(seed, i);
    std::string text = question(c.job) + " |";
    for (const Verdict &v : c.verdicts) text += " " + word(v, c.values);
    return text;
}

Bytes table(const std::vector<Verdict> &verdicts) {
    Bytes bytes;
    for (const Verdict &v : verdicts) {
        for (uint64_t entry : {v.what, v.tag, v.start, v.length}) put(bytes, entry, 4);
    }
    return bytes;
}

// The case's call by these verdicts.
Call call_by(const Case &c, const Bytes &verdicts) {
    return [&c, verdicts](const Bytes &list, Lent &out, Lent &report) {
        return vls_compact_filtered(list.data(), list.size(), c.job.threshold, c.job.evict, c.job.zero, verdicts.data(),
                                    verdicts.size(), bytes_of(c.values), c.values.size(), out.bytes.data(), out.size,
                                    report.bytes.data(), report.size);
    };
}

// Verdicts as the request asks for them: as many as the records, each one of the three, and replacements by a tag and a
// value that lies in the values.
bool are_verdicts(const Bytes &verdicts, size_t records, size_t values) {
    if (verdicts.size() / VLS_VERDICT_SIZE != records) return false;
    for (size_t k = 0; k < records; k++) {
        size_t at = VLS_VERDICT_SIZE * k;
        uint64_t what = get(verdicts, at, 4), tag = get(verdicts, at + 4, 4);
        uint64_t end = get(verdicts, at + 8, 4) + get(verdicts, at + 12, 4);
        if (what > 2) return false;
        if (what == 2 && (tag == 3 || tag > 4 || end > values)) return false;
    }
    return true;
}

// Some words of one verdict become others: near what is allowed, or so large that a sum of 32 bits would wrap.
void spoil(Bytes &verdicts, size_t values, Random &random) {
    size_t at = VLS_VERDICT_SIZE * random.below(verdicts.size() / VLS_VERDICT_SIZE);
    for (size_t entry = 0; entry < VLS_VERDICT_SIZE; entry += 4) {
        if (random.one_in(2)) continue;
        uint64_t near = random.one_in(2) ? random.below(6) : values + random.below(3) - 1;
        uint64_t number = random.one_in(3) ? UINT32_MAX - random.below(8) : near;
        for (int k = 0; k < 4; k++) verdicts[at + entry + k] = uint8_t(number >> (8 * k));
    }
}

// One verdict too few, though all but a byte of it is there, and one too many: 12, with or without room.
std::string refuses_miscounted(const Case &c, const Bytes &list, const Bytes &verdicts) {
    Bytes many = verdicts, few = verdicts;
    many.resize(verdicts.size() + VLS_VERDICT_SIZE);
    std::string wrong = refuses(call_by(c, many), list, 0, 0, 12, 0, "with a verdict too many");
    if (!wrong.empty() || verdicts.empty()) return wrong;
    few.resize(verdicts.size() - 1);
    return refuses(call_by(c, few), list, list.size(), 4 * c.verdicts.size(), 12, 0, "with a verdict too few");
}

// Damaged verdicts: 12 if one is no longer good, asked or not; else the output is a list of as many records as were
// kept.
std::string judges_damaged(const Case &c, const Bytes &list, Bytes verdicts, Random &random) {
    if (random.one_in(2) || verdicts.empty()) {
        damage(verdicts, random);
    } else {
        spoil(verdicts, c.values.size(), random);
    }
    size_t records = c.verdicts.size(), most = list.size() + records * c.values.size();
    Call call = call_by(c, verdicts);
    if (!are_verdicts(verdicts, records, c.values.size())) {
        return refuses(call, list, most, 4 * records, 12, 0, "for a damaged verdict");
    }
    Lent out(most), report(4 * records);
    vls_compacted r = call(list, out, report);
    if (r.number != 0 || r.length > most) return "answer for an altered verdict";
    Judged j = judge(Bytes(out.bytes.begin(), out.bytes.begin() + r.length));
    return j.number == 0 && j.count == r.kept ? "" : "output for an altered verdict";
}

std::string compare(uint64_t seed, uint64_t i, const std::string &words) {
    Case c = make(seed, i);
    Answer answer;
    if (!is_answer(words, answer)) return "the Rust did not answer: " + words;
    Bytes list = encode(c.job.list), verdicts = table(c.verdicts), more = verdicts;
    Random random(seed ^ i);
    // Bytes past the last whole verdict don't count.
    more.resize(verdicts.size() + random.below(VLS_VERDICT_SIZE), 0xFF);
    std::string wrong = compacts(call_by(c, more), list, answer);
    if (wrong.empty()) wrong = refuses_miscounted(c, list, verdicts);
    if (wrong.empty()) wrong = judges_damaged(c, list, verdicts, random);
    if (wrong.empty()) wrong = refuses_damaged(call_by(c, random.one_in(2) ? verdicts : Bytes()), list, random);
    return wrong;
}

} // namespace

const Area filtered = {"filtered", ask, compare};
