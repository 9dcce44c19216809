// Reads: lists with no key and seqno in two of them, bounds of all kinds, any mix of steps from both ends; key and value of each entry; then damaged.
#include "area.hpp"
#include "list.hpp"
#include "vls.h"
#include <cstring>
#include <set>
#include <sstream>

namespace {

// 0 absent, 1 included, 2 excluded.
struct Bound {
    int kind = 0;
    std::string key;
};

struct Case {
    std::vector<std::vector<Version>> lists;
    std::string kinds, steps;
    Bound lower, upper;
    uint64_t snapshot;
};

Bound draw_bound(Random &random) {
    Bound b;
    b.kind = int(random.below(3));
    if (b.kind != 0 && !random.one_in(20)) b.key = draw_key(random);
    return b;
}

Case make(uint64_t seed, uint64_t i) {
    Random random(seed + i);
    Case c;
    size_t n = 1 + random.below(random.one_in(4) ? 16 : 4);
    std::set<std::pair<std::string, uint64_t>> taken;
    for (size_t k = 0; k < n; k++) {
        std::vector<Version> list;
        for (const Version &v : draw_list(random, 8)) {
            if (taken.insert({v.key, v.seqno}).second) list.push_back(v);
        }
        c.kinds += list.empty() || random.one_in(2) ? 'm' : 't';
        c.lists.push_back(list);
    }
    c.lower = draw_bound(random);
    c.upper = draw_bound(random);
    if (c.lower.kind != 0 && c.upper.kind != 0 && c.upper.key < c.lower.key) std::swap(c.lower.key, c.upper.key);
    c.snapshot = draw_seqno(random) + random.below(2);
    for (uint64_t j = 1 + random.below(12); j > 0; j--) c.steps += random.one_in(2) ? 'F' : 'B';
    return c;
}

std::string bound_word(const Bound &b) { return b.kind == 0 ? "-" : (b.kind == 1 ? "i:" : "x:") + hex(b.key); }

std::string ask(uint64_t seed, uint64_t i) {
    Case c = make(seed, i);
    std::string text = "read " + std::to_string(c.snapshot) + " " + bound_word(c.lower) + " " + bound_word(c.upper) + " " + c.steps;
    for (size_t k = 0; k < c.lists.size(); k++) {
        text += std::string(" ") + c.kinds[k];
        for (const Version &v : c.lists[k]) text += " " + word(v);
    }
    return text;
}

bool is(const Bytes &bundle, vls_part part, const std::string &text) {
    return part.fit && part.length == text.size() && std::equal(text.begin(), text.end(), bundle.begin() + part.start, [](char a, uint8_t b) { return uint8_t(a) == b; });
}

// A bundle, judged by the paper's order: its lists' number, its lengths, the lists in turn, the index. In `list` the list refused.
Judged judge_bundle(const Bytes &bundle, const Bytes &lengths, size_t room, uint64_t &list) {
    size_t n = lengths.size() / 4, at = 0, count = 0;
    uint64_t sum = 0;
    list = 0;
    if (n > 16) return {9, 0, 0};
    for (size_t k = 0; k < n; k++) sum += get(lengths, 4 * k, 4);
    if (sum != bundle.size()) return {8, 0, 0};
    for (size_t k = 0; k < n; k++) {
        size_t length = get(lengths, 4 * k, 4);
        Judged j = judge(Bytes(bundle.begin() + at, bundle.begin() + at + length));
        if (j.number != 0) {
            list = k;
            return j;
        }
        at += length;
        count += j.count;
    }
    if (count > room) return {10, 0, 0};
    return {0, 0, count};
}

// A damaged bundle, table of lengths or room for the index: the refusal, and an index that is left alone; and a step on what was altered after opening
// either answers or gives 11 with the cursor as it was.
std::string damaged(Bytes bundle, Bytes lengths, Bytes index, const vls_cursor &cursor, Random random) {
    uint64_t which = random.below(5);
    if (which < 3) damage(bundle, random);
    if (which == 3) damage(lengths, random);
    vls_stepped r = vls_front(bundle.data(), bundle.size(), lengths.data(), lengths.size(), index.data(), index.size(), cursor);
    if (r.number != 0 && (r.number != 11 || r.list != 0 || r.record != 0)) return "a step on what was altered";
    if (!r.found && std::memcmp(&r.cursor, &cursor, sizeof cursor) != 0) return "a cursor that moved without an entry";
    if (which == 4 && !index.empty()) index.resize(index.size() - 1);
    Bytes was = index;
    uint64_t list;
    Judged j = judge_bundle(bundle, lengths, index.size() / 4, list);
    vls_checked opened = vls_open(bundle.data(), bundle.size(), lengths.data(), lengths.size(), index.data(), index.size());
    if (opened.number != j.number || opened.list != list || opened.record != j.record || opened.count != j.count) return "opening what is damaged";
    if (j.number != 0 && index != was) return "an index written by a refused opening";
    return "";
}

std::string compare(uint64_t seed, uint64_t i, const std::string &answer) {
    Case c = make(seed, i);
    Bytes bundle, lengths;
    size_t records = 0;
    for (const auto &list : c.lists) {
        Bytes bytes = encode(list);
        bundle.insert(bundle.end(), bytes.begin(), bytes.end());
        put(lengths, bytes.size(), 4);
        records += list.size();
    }
    Bytes index(4 * records);
    vls_checked opened = vls_open(bundle.data(), bundle.size(), lengths.data(), lengths.size(), index.data(), index.size());
    if (opened.number != 0 || opened.count != records) return "opening";
    vls_started s = vls_start(bundle.data(), bundle.size(), lengths.data(), lengths.size(), index.data(), index.size(), c.lower.kind != 0, c.lower.kind == 2,
                              bytes_of(c.lower.key), c.lower.key.size(), c.upper.kind != 0, c.upper.kind == 2, bytes_of(c.upper.key), c.upper.key.size(), c.snapshot);
    if (s.number != 0) return "start";
    std::istringstream words(answer);
    std::string w;
    words >> w;
    if (w != "ok") return "the Rust did not answer";
    vls_cursor cursor = s.cursor;
    for (char step : c.steps) {
        auto take = step == 'F' ? vls_front : vls_back;
        vls_stepped r = take(bundle.data(), bundle.size(), lengths.data(), lengths.size(), index.data(), index.size(), cursor);
        if (r.number != 0 || !(words >> w)) return "a step refused, or no answer for it";
        std::string ours = r.found ? std::to_string(r.at_list) + "." + std::to_string(r.at_record) : "-";
        if (ours != w) return "a step gives " + ours;
        if (r.found) {
            const Version &v = c.lists.at(r.at_list).at(r.at_record);
            if (!is(bundle, vls_key(bundle.data(), bundle.size(), lengths.data(), lengths.size(), index.data(), index.size(), r.at_list, r.at_record), v.key)) return "key";
            if (!is(bundle, vls_value(bundle.data(), bundle.size(), lengths.data(), lengths.size(), index.data(), index.size(), r.at_list, r.at_record), v.value)) return "value";
        }
        cursor = r.cursor;
    }
    return damaged(bundle, lengths, index, s.cursor, Random(seed ^ i));
}

} // namespace

const Area reads = {"read", ask, compare};
