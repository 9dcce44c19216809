// Memtables: inserts in any order, replacing ones too, and gets between them; the whole image and the state at the end; then a damaged one.
#include "area.hpp"
#include "list.hpp"
#include "vls.h"
#include <algorithm>
#include <sstream>

namespace {

struct Call {
    bool inserts;
    Version version;
};

std::vector<Call> make(uint64_t seed, uint64_t i) {
    static const uint8_t tags[] = {0, 1, 2, 4};
    Random random(seed + i);
    std::vector<Call> calls;
    for (uint64_t n = random.below(16); n > 0; n--) {
        Version v{draw_key(random), draw_seqno(random), tags[random.below(4)], ""};
        for (uint64_t j = random.below(4); j > 0; j--) v.value += char(random.below(256));
        calls.push_back({!random.one_in(3), v});
    }
    return calls;
}

std::string ask(uint64_t seed, uint64_t i) {
    std::string text = "memtable 7";
    for (const Call &c : make(seed, i)) {
        text += c.inserts ? " +" + word(c.version) : " ?" + hex(c.version.key) + "@" + std::to_string(c.version.seqno);
    }
    return text + " all highest";
}

std::string found_word(const Bytes &buffer, const Call &c, const vls_found &f) {
    if (!f.found) return "-";
    std::string value(buffer.begin() + f.value_start, buffer.begin() + f.value_start + f.value_len);
    return std::to_string(f.at) + ":" + word({c.version.key, f.seqno, uint8_t(f.tag), value});
}

// What a call on this image and state is refused with, by the paper's order; 0 if it is not.
Judged judge_image(const Bytes &buffer, const vls_memtable &s, std::vector<Version> &held) {
    if (s.used > buffer.size()) return {11, 0, 0};
    Judged j = judge(Bytes(buffer.begin(), buffer.begin() + s.used), &held);
    if (j.number != 0) return j;
    uint64_t size = 0, highest = 0;
    for (const Version &v : held) {
        size += v.key.size() + v.value.size();
        highest = std::max(highest, v.seqno);
    }
    if (size != s.size || highest != s.highest_seqno) return {11, 0, 0};
    return {0, 0, held.size()};
}

// The first version of the key below the seqno, as a get tells it.
std::string newest(const std::vector<Version> &held, const Version &asked) {
    for (size_t i = 0; i < held.size(); i++) {
        if (held[i].key == asked.key && held[i].seqno < asked.seqno) return std::to_string(i) + ":" + word(held[i]);
    }
    return "-";
}

// A damaged image or state: the refusal, what get finds where there is none, and an insert that is refused leaves everything.
std::string damaged(Bytes buffer, vls_memtable s, Random random) {
    uint64_t which = random.below(6);
    if (which == 0) s.used += random.below(3) - 1;
    if (which == 1) s.size += random.below(3) - 1;
    if (which == 2) s.highest_seqno += random.below(3) - 1;
    if (which == 3) buffer.resize(random.below(s.used + 2));
    if (which > 3) buffer[random.below(s.used)] ^= uint8_t(1 << random.below(8));
    Call c{false, {draw_key(random), draw_seqno(random), 0, "new"}};
    const Version &v = c.version;
    std::vector<Version> held;
    Judged j = judge_image(buffer, s, held);
    vls_found f = vls_get(buffer.data(), buffer.size(), s, bytes_of(v.key), v.key.size(), v.seqno);
    if (f.number != j.number || f.record != j.record || f.list != 0) return "get on a damaged table";
    if (j.number == 0) return found_word(buffer, c, f) == newest(held, v) ? "" : "what get finds in an altered table";
    Bytes was = buffer;
    vls_changed t = vls_memtable_insert(buffer.data(), buffer.size(), s, bytes_of(v.key), v.key.size(), v.seqno, v.tag, bytes_of(v.value), v.value.size());
    bool same = t.state.used == s.used && t.state.size == s.size && t.state.highest_seqno == s.highest_seqno && t.state.id == s.id && t.state.flagged == s.flagged;
    if (t.number != j.number || t.record != j.record || !same || buffer != was) return "insert into a damaged table";
    return "";
}

std::string compare(uint64_t seed, uint64_t i, const std::string &answer) {
    Bytes buffer(8192, 0xA5);
    vls_changed t = vls_memtable_new(buffer.data(), buffer.size(), 7);
    if (t.number != 0) return "creation";
    std::istringstream words(answer);
    std::string w;
    words >> w;
    if (w != "ok") return "the Rust did not answer";
    std::vector<Version> held;
    for (const Call &c : make(seed, i)) {
        words >> w;
        const Version &v = c.version;
        if (!c.inserts) {
            vls_found f = vls_get(buffer.data(), buffer.size(), t.state, bytes_of(v.key), v.key.size(), v.seqno);
            if (f.number != 0 || found_word(buffer, c, f) != w) return "get gives " + found_word(buffer, c, f);
            continue;
        }
        t = vls_memtable_insert(buffer.data(), buffer.size(), t.state, bytes_of(v.key), v.key.size(), v.seqno, v.tag, bytes_of(v.value), v.value.size());
        if (t.number != 0) return "insert";
        auto same = [&](const Version &o) { return o.key == v.key && o.seqno == v.seqno; };
        held.erase(std::remove_if(held.begin(), held.end(), same), held.end());
        held.push_back(v);
        std::sort(held.begin(), held.end(), before);
    }
    Bytes image = encode(held);
    if (t.state.used != image.size() || !std::equal(image.begin(), image.end(), buffer.begin())) return "image";
    words >> w;
    std::string all;
    for (const Version &v : held) all += (all.empty() ? "" : ",") + word(v);
    if ((all.empty() ? "-" : all) != w) return "all";
    words >> w;
    if (w != (held.empty() ? "-" : std::to_string(t.state.highest_seqno))) return "highest seqno";
    return damaged(buffer, t.state, Random(seed ^ i));
}

} // namespace

const Area memtables = {"memtable", ask, compare};
