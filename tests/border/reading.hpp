// What the tests of reading share: a bundle with its tables as opening leaves them, built by hand, and its
// copies in lent memory.
#pragma once

#include "support.hpp"

namespace border {

struct Bundle {
    Bytes bytes, lengths, index;
};

// Opened: the index has each record's start, counted from the bundle's first byte.
inline Bundle bundle(const std::vector<Versions> &lists) {
    Bundle b;
    for (const Versions &versions : lists) {
        std::uint64_t at = b.bytes.size() + 9;
        for (const Version &v : versions) {
            b.index = b.index + le(at, 4);
            at += 15 + v.key.size() + v.value.size();
        }
        Bytes l = list(versions);
        b.bytes = b.bytes + l;
        b.lengths = b.lengths + le(l.size(), 4);
    }
    return b;
}

struct LentBundle {
    Lent bytes, lengths, index;
    LentBundle(const Bundle &b, Side side) : bytes(b.bytes, side), lengths(b.lengths, side), index(b.index, side) {}
    // A call whose first arguments are bundle, lengths and index.
    template <class Call, class... More> auto ask(Call call, More... more) const {
        return call(bytes.data(), bytes.size(), lengths.data(), lengths.size(), index.data(), index.size(), more...);
    }
    void kept(const std::string &what) const { bytes.kept(what), lengths.kept(what), index.kept(what); }
};

inline Numbers numbers(const vls_cursor &c) {
    Numbers n;
    for (std::uint32_t p : c.front) n.push_back(p);
    for (std::uint32_t p : c.back) n.push_back(p);
    n.push_back(c.snapshot);
    return n;
}

// A cursor's bytes, and a cursor where such bytes are lent.
inline Bytes bytes(const vls_cursor &c) {
    Bytes b(sizeof c);
    std::memcpy(b.data(), &c, sizeof c);
    return b;
}

inline vls_cursor *as_cursor(const Lent &lent) { return reinterpret_cast<vls_cursor *>(lent.data()); }

inline vls_cursor cursor(std::initializer_list<std::uint32_t> front, std::initializer_list<std::uint32_t> back,
                         std::uint64_t snapshot) {
    vls_cursor c = {};
    std::copy(front.begin(), front.end(), c.front);
    std::copy(back.begin(), back.end(), c.back);
    c.snapshot = snapshot;
    return c;
}

inline Numbers operator+(Numbers a, const Numbers &b) {
    a.insert(a.end(), b.begin(), b.end());
    return a;
}

inline Bundle with_index(Bundle b, std::size_t entry, std::uint64_t to) {
    Bytes bytes = le(to, 4);
    std::copy(bytes.begin(), bytes.end(), b.index.begin() + static_cast<long>(4 * entry));
    return b;
}

inline Bundle with_byte(Bundle b, std::size_t at, std::uint8_t to) {
    b.bytes[at] = to;
    return b;
}

// What makes lengths and index no cover of this bundle of two lists or more, its index full.
inline std::vector<std::pair<const char *, Bundle>> uncovered(const Bundle &b) {
    auto with_lengths = [&](const Bytes &lengths) { return Bundle{b.bytes, lengths, b.index}; };
    std::uint64_t n = b.bytes.size();
    return {
        {"no lengths", with_lengths({})},
        {"one list too few", with_lengths(cut(b.lengths, b.lengths.size() - 1))},
        {"one list too many", with_lengths(b.lengths + le(9, 4))},
        {"a list of no bytes", with_lengths(b.lengths + le(0, 4))},
        {"a list of 8 bytes", with_lengths(table({n - 8, 8}))},
        {"lengths over the bundle", with_lengths(table({n + 1}))},
        {"lengths that add up past 32 bits", with_lengths(table({n - 9, UINT32_MAX, 10}))},
        {"17 lists", {list({}) + Bytes(9 * 16), table(Numbers(17, 9)), {}}},
        {"no index", {b.bytes, b.lengths, {}}},
        {"an index one byte short", {b.bytes, b.lengths, cut(b.index, b.index.size() - 1)}},
        {"a count that the index has no entries for", with_byte(b, 5, 200)},
        {"a count of 2^32 - 1", with_byte(with_byte(with_byte(with_byte(b, 5, 255), 6, 255), 7, 255), 8, 255)},
        {"no bytes", {{}, b.lengths, b.index}},
        {"a byte more", {b.bytes + Bytes{0}, b.lengths, b.index}},
    };
}

// In order: a@5 (0,0), a@3 (1,0), b@8 (2,0), b@6 (2,1), b@4 (1,1), c@2 (0,1), c@1 (1,2), d@9 (0,2), d@9 (2,2),
// e@1 (1,3), f@3 (2,3).
inline const Bundle X = bundle({{{"a", 5, V, "a5"}, {"c", 2, T, ""}, {"d", 9, V, "d"}},
                                {{"a", 3, V, ""}, {"b", 4, V, ""}, {"c", 1, V, ""}, {"e", 1, I, "far"}},
                                {{"b", 8, W, ""}, {"b", 6, V, ""}, {"d", 9, V, "D"}, {"f", 3, V, ""}}});
inline vls_cursor whole(std::uint64_t snapshot) { return cursor({}, {3, 4, 4}, snapshot); }

// Three lists: a@2, a@1, b@1, d@1, d@0; no records; c@5, da@1.
inline const Bundle BOUNDED =
    bundle({{{"a", 2, V, ""}, {"a", 1, V, ""}, {"b", 1, V, ""}, {"d", 1, V, ""}, {"d", 0, V, ""}},
            {},
            {{"c", 5, V, ""}, {"da", 1, V, ""}}});

// One list of a@1, b@1 and c@1: its records are at 9, 25 and 41, its end at 57.
inline const Bundle ABC = bundle({{{"a", 1, V, ""}, {"b", 1, V, ""}, {"c", 1, V, ""}}});

// What makes its second record not whole.
inline std::vector<std::pair<const char *, Bundle>> second_broken() {
    return {
        {"an entry past the bundle", with_index(ABC, 1, 57)},
        {"an entry of 2^32 - 1", with_index(ABC, 1, UINT32_MAX)},
        {"a wrong tag", with_byte(ABC, 25 + 11, 3)},
        {"a key past the list", with_byte(ABC, 26, 1)},
        {"a value past the list", with_byte(ABC, 25 + 12, 17)},
        {"a value past 32 bits", with_byte(ABC, 25 + 15, 255)},
    };
}

// Two lists, at 0 and at 9, the second with one record at 18. Its header is altered so that from its first byte on
// a record with no key reads whole, its value the 97 bytes from 24 on. So entry 9 is whole in its list, 8 isn't.
inline const Bundle HEADER_READS =
    with_byte(with_byte(bundle({{}, {{"a", 0, V, std::string(200, 'v')}}}), 9, 0), 10, 0);

} // namespace border
