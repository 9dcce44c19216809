// vls_check: each refusal exactly under its condition and in its order, at the limits too.
#include "support.hpp"

using namespace border;

namespace {

void judged(const std::string &what, const Bytes &list, const Numbers &want) {
    for (Side side : SIDES) {
        Lent lent(list, side);
        same(what, numbers(vls_check(lent.data(), lent.size())), want);
        lent.kept(what);
    }
}

// The second sample row: a@7 V "x".
const Bytes ONE = {0x56, 0x4C, 0x53, 0x01, 0x00, 0x01, 0x00, 0x00, 0x00, 0x01, 0x00, 0x61, 0x07,
                   0x00, 0x00, 0x00, 0x00, 0x00, 0x00, 0x00, 0x00, 0x01, 0x00, 0x00, 0x00, 0x78};

void samples() {
    judged("the empty list", {0x56, 0x4C, 0x53, 0x01, 0x00, 0x00, 0x00, 0x00, 0x00}, accepted(0));
    judged("a@7 V x", ONE, accepted(1));
    same("the sample's bytes", list({{"a", 7, V, "x"}}), ONE);
}

void headers() {
    for (std::size_t n = 0; n < 9; ++n) {
        judged("a header cut short", cut(header(0), n), refused(VLS_TRUNCATED));
        judged("other bytes, under 9", filled(n, 0xFF), refused(VLS_TRUNCATED));
    }
    for (std::size_t at = 0; at < 3; ++at) judged("another mark", with(header(0), at, 'x'), refused(VLS_BAD_MARK));
    judged("small letters", text("vls") + le(1, 2) + le(0, 4), refused(VLS_BAD_MARK));
    for (std::uint64_t version : Numbers{0, 2, 255, 256, 257, 65535})
        judged("another version", text("VLS") + le(version, 2) + le(0, 4), refused(VLS_BAD_VERSION));
    judged("mark before version", text("VLs") + le(2, 2) + le(0, 4), refused(VLS_BAD_MARK));
    judged("version before records", text("VLS") + le(2, 2) + le(1, 4), refused(VLS_BAD_VERSION));
    judged("more records told of than there are", header(UINT32_MAX), refused(VLS_TRUNCATED));
    judged("nine zeros", filled(9, 0), refused(VLS_BAD_MARK));
}

// All values of every byte of the second sample row. Its bytes: 9 of header, key length at 9, the key at 11,
// the seqno at 12, the tag at 20, the value's length at 21, the value at 25.
Numbers one_altered(std::size_t at, unsigned to) {
    if (at < 3) return refused(VLS_BAD_MARK);
    if (at < 5) return refused(VLS_BAD_VERSION);
    if (at < 9) return at == 5 && to == 0 ? refused(VLS_EXCESS) : refused(VLS_TRUNCATED, 0, 1);
    if (at == 9 && to == 0) return refused(VLS_EMPTY_KEY);
    if (at == 9 && to == 6) return refused(VLS_BAD_TAG); // the tag is then at 25: 78
    if (at < 11) return refused(VLS_TRUNCATED);
    if (at == 20) return to == 1 || to == 2 || to == 4 ? accepted(1) : refused(VLS_BAD_TAG);
    if (at == 21 && to == 0) return refused(VLS_EXCESS, 0, 1);
    if (21 <= at && at < 25) return refused(VLS_TRUNCATED);
    return accepted(1);
}

void altered() {
    for (std::size_t at = 0; at < ONE.size(); ++at)
        for (unsigned to = 0; to < 256; ++to)
            if (to != ONE[at])
                judged("byte " + std::to_string(at) + " is " + std::to_string(to),
                       with(ONE, at, static_cast<std::uint8_t>(to)), one_altered(at, to));
}

const Versions FOUR = {
    {"a", 9, V, "first"}, {"a", 3, T, ""}, {"ab", 3, W, "kept"}, {"b", MOST, I, std::string(30, 'z')}};

void cut_short() {
    Bytes whole = list(FOUR);
    std::vector<std::size_t> ends = {9};
    for (const Version &v : FOUR) ends.push_back(ends.back() + 15 + v.key.size() + v.value.size());
    judged("four records", whole, accepted(4));
    for (std::size_t n = 9; n < whole.size(); ++n) {
        std::uint64_t before = 0;
        while (ends[before + 1] <= n) ++before;
        judged("cut after " + std::to_string(n), cut(whole, n), refused(VLS_TRUNCATED, 0, before));
    }
    judged("a byte more", whole + Bytes{0}, refused(VLS_EXCESS, 0, 4));
    judged("a record more", whole + record({"c", 1, V, ""}), refused(VLS_EXCESS, 0, 4));
    for (std::uint8_t count = 0; count < 4; ++count)
        judged("a smaller count", with(whole, 5, count), refused(VLS_EXCESS, 0, count));
    judged("a larger count", with(whole, 5, 5), refused(VLS_TRUNCATED, 0, 4));
}

void keys() {
    judged("an empty key", list({{"", 1, V, ""}}), refused(VLS_EMPTY_KEY));
    judged("an empty key, third", list({{"a", 2, V, ""}, {"a", 1, V, ""}, {"", 1, V, ""}}),
           refused(VLS_EMPTY_KEY, 0, 2));
    judged("an empty key and nothing behind", header(1) + le(0, 2), refused(VLS_EMPTY_KEY));
    judged("an empty key before a wrong tag", list({{"", 1, 9, ""}}), refused(VLS_EMPTY_KEY));
    judged("half a key length", header(1) + Bytes{0}, refused(VLS_TRUNCATED));
    judged("the longest key", list({{std::string(65535, 'k'), 1, V, "v"}}), accepted(1));
    judged("the longest key cut", header(1) + le(65535, 2) + filled(65534, 'k'), refused(VLS_TRUNCATED));
}

void tags() {
    for (unsigned tag = 0; tag < 256; ++tag) {
        bool known = tag == 0 || tag == 1 || tag == 2 || tag == 4;
        Bytes one = list({{"k", 1, static_cast<std::uint8_t>(tag), "value"}});
        judged("tag " + std::to_string(tag), one, known ? accepted(1) : refused(VLS_BAD_TAG));
        judged("nothing behind tag " + std::to_string(tag), cut(one, 21),
               known ? refused(VLS_TRUNCATED) : refused(VLS_BAD_TAG));
    }
    judged("no tag", cut(list({{"k", 1, 9, ""}}), 20), refused(VLS_TRUNCATED));
    judged("a wrong tag, second", list({{"k", 2, V, ""}, {"k", 1, 3, ""}}), refused(VLS_BAD_TAG, 0, 1));
}

void order() {
    judged("key and seqno twice", list({{"a", 5, V, ""}, {"a", 5, V, ""}}), refused(VLS_DISORDER, 0, 1));
    judged("the tag takes no part", list({{"a", 5, V, ""}, {"a", 5, T, ""}}), refused(VLS_DISORDER, 0, 1));
    judged("nor the value", list({{"a", 5, V, "1"}, {"a", 5, V, "2"}}), refused(VLS_DISORDER, 0, 1));
    judged("an older version first", list({{"a", 5, V, ""}, {"a", 6, V, ""}}), refused(VLS_DISORDER, 0, 1));
    judged("a newer version first", list({{"a", 6, V, ""}, {"a", 5, V, ""}}), accepted(2));
    judged("a smaller key second", list({{"b", 1, V, ""}, {"a", 9, V, ""}}), refused(VLS_DISORDER, 0, 1));
    judged("a greater key second", list({{"a", 1, V, ""}, {"b", 9, V, ""}}), accepted(2));
    judged("a proper prefix first", list({{"ab", 1, V, ""}, {"abc", 1, V, ""}}), accepted(2));
    judged("a proper prefix second", list({{"abc", 1, V, ""}, {"ab", 1, V, ""}}), refused(VLS_DISORDER, 0, 1));
    judged("bytes have no sign", list({{"\x7F", 1, V, ""}, {"\x80", 1, V, ""}, {"\xFF", 1, V, ""}}), accepted(3));
    judged("bytes have no sign, the other way", list({{"\x80", 1, V, ""}, {"\x7F", 1, V, ""}}),
           refused(VLS_DISORDER, 0, 1));
    judged("seqnos have no sign", list({{"a", MOST, V, ""}, {"a", MOST / 2, V, ""}, {"a", 0, V, ""}}), accepted(3));
    judged("seqnos go by all 64 bits", list({{"a", 1ull << 32, V, ""}, {"a", 5, V, ""}}), accepted(2));
    judged("seqnos in little-endian", list({{"a", 256, V, ""}, {"a", 255, V, ""}}), accepted(2));
    std::string long_key(300, 'k');
    judged("a late byte decides", list({{long_key + "a", 1, V, ""}, {long_key + "b", 1, V, ""}}), accepted(2));
    judged("a late byte decides, the other way", list({{long_key + "b", 1, V, ""}, {long_key + "a", 1, V, ""}}),
           refused(VLS_DISORDER, 0, 1));
    judged("an early byte before later ones", list({{"a" + long_key, 1, V, ""}, {"b", 1, V, ""}}), accepted(2));
    Bytes back = list({{"a", 3, V, ""}, {"b", 3, V, ""}, {"a", 2, V, "v"}});
    judged("the third stands back", back, refused(VLS_DISORDER, 0, 2));
    judged("order once the record is whole", cut(back, back.size() - 1), refused(VLS_TRUNCATED, 0, 2));
    judged("the tag before order", list({{"b", 3, V, ""}, {"a", 3, 9, ""}}), refused(VLS_BAD_TAG, 0, 1));
    judged("order before what is behind", back + Bytes{0}, refused(VLS_DISORDER, 0, 2));
}

void values() {
    for (std::uint8_t tag : {V, T, W, I})
        judged("any type may carry a value", list({{"k", 1, tag, "value"}}), accepted(1));
    for (std::uint64_t n :
         Numbers{6ull, 255ull, 65535ull, 0x7FFFFFFFull, 0x80000000ull, 0xFFFFFFE5ull, 0xFFFFFFFFull}) {
        Bytes one = header(1) + le(1, 2) + text("k") + le(1, 8) + Bytes{V} + le(n, 4) + text("value");
        judged("a value longer than the list", one, refused(VLS_TRUNCATED));
    }
}

void limits() {
    judged("1,048,576 bytes", list_of_size(VLS_LIST_LIMIT), accepted(1));
    judged("1,048,577 bytes", list_of_size(VLS_LIST_LIMIT + 1), refused(VLS_TOO_LARGE));
    judged("1,048,577 zeros", filled(VLS_LIST_LIMIT + 1, 0), refused(VLS_TOO_LARGE));
    judged("1,048,576 zeros", filled(VLS_LIST_LIMIT, 0), refused(VLS_BAD_MARK));
    Versions most;
    for (std::uint64_t i = 0; i < VLS_RECORD_LIMIT; ++i) most.push_back({"k", VLS_RECORD_LIMIT - i, V, ""});
    judged("65,535 records", list(most), accepted(VLS_RECORD_LIMIT));
    most.back().value = "seventh";
    judged("65,535 records in 1,048,576 bytes", list(most), accepted(VLS_RECORD_LIMIT));
    judged("all but the last byte", cut(list(most), VLS_LIST_LIMIT - 1),
           refused(VLS_TRUNCATED, 0, VLS_RECORD_LIMIT - 1));
    most.back().value += "+";
    judged("65,535 records in 1,048,577 bytes", list(most), refused(VLS_TOO_LARGE));
    Vast vast((1ull << 32) + 26);
    if (vast.data()) same("2^32 + 26 bytes", numbers(vls_check(vast.data(), vast.size())), refused(VLS_TOO_LARGE));
}

} // namespace

int main() {
    samples();
    headers();
    altered();
    cut_short();
    keys();
    tags();
    order();
    values();
    limits();
    return ended("check");
}
