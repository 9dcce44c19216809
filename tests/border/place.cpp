// vls_record, vls_value and vls_key: a record whole, and the parts of the bundle where its value and key stand; or
// "not fit".
#include "reading.hpp"

using namespace border;

namespace {

Numbers numbers(const vls_part &p) { return {p.fit, p.start, p.length}; }

const Numbers UNFIT = {0, 0, 0};

Numbers part(std::uint64_t start, std::uint64_t length) { return {1, start, length}; }

std::uint64_t number(const Bytes &b, std::uint64_t at, int width) {
    std::uint64_t x = 0;
    for (; 0 < width; --width) x = 256 * x + b[at + static_cast<std::uint64_t>(width) - 1];
    return x;
}

// Seqno and tag stand behind the key.
Numbers whole(const Bundle &bundle, const Numbers &key, const Numbers &value) {
    if (key == UNFIT) return Numbers(7, 0);
    std::uint64_t at = key[1] + key[2];
    return {1, key[1], key[2], number(bundle.bytes, at, 8), number(bundle.bytes, at + 8, 1), value[1], value[2]};
}

void placed(const std::string &what, const Bundle &bundle, std::uint64_t list, std::uint64_t record, const Numbers &key,
            const Numbers &value) {
    for (Side side : SIDES) {
        LentBundle b(bundle, side);
        vls_placed p = b.ask(vls_record, list, record);
        same(what, Numbers{p.fit, p.key_start, p.key_len, p.seqno, p.tag, p.value_start, p.value_len},
             whole(bundle, key, value));
        same(what + ": key", numbers(b.ask(vls_key, list, record)), key);
        same(what + ": value", numbers(b.ask(vls_value, list, record)), value);
        b.kept(what);
    }
}

void unfit(const std::string &what, const Bundle &bundle, std::uint64_t list, std::uint64_t record) {
    placed(what, bundle, list, record, UNFIT, UNFIT);
}

// List 0 has its records at 9 and 26 and ends at 42; list 1 is empty and ends at 51; list 2 has its records at 60
// and 77 and ends at 96.
const Bundle THREE = bundle({{{"a", 7, V, "x"}, {"b", 7, T, ""}}, {}, {{"aa", 1, W, ""}, {"b", 7, I, "yyy"}}});

void fit_places() {
    placed("(0,0)", THREE, 0, 0, part(11, 1), part(25, 1));
    placed("(0,1), a tombstone", THREE, 0, 1, part(28, 1), part(42, 0));
    placed("(2,0), an empty value", THREE, 2, 0, part(62, 2), part(77, 0));
    placed("(2,1)", THREE, 2, 1, part(79, 1), part(93, 3));
    same("a value", whole(THREE, part(11, 1), part(25, 1)), Numbers{1, 11, 1, 7, V, 25, 1});
    same("an indirection", whole(THREE, part(79, 1), part(93, 3)), Numbers{1, 79, 1, 7, I, 93, 3});
    Bundle newest = bundle({{{"a", MOST, W, ""}}});
    placed("the greatest seqno", newest, 0, 0, part(11, 1), part(25, 0));
    same("the greatest seqno", whole(newest, part(11, 1), part(25, 0)), Numbers{1, 11, 1, MOST, W, 25, 0});
    Bundle more = {THREE.bytes, THREE.lengths + filled(3, 0xFF), THREE.index + filled(7, 0xFF)};
    placed("tables of more bytes", more, 2, 1, part(79, 1), part(93, 3));
    Bundle ends = bundle({{{"a", 1, V, ""}}});
    placed("an empty value at the bundle's end", ends, 0, 0, part(11, 1), part(25, 0));
    Bundle large = bundle({{{"k", 1, V, std::string(VLS_LIST_LIMIT, 'v')}}, {{"k", 1, V, "w"}}});
    placed("a list over the limit is no matter", large, 1, 0, part(VLS_LIST_LIMIT + 25 + 11, 1),
           part(VLS_LIST_LIMIT + 25 + 25, 1));
}

void nowhere() {
    for (std::uint64_t far : Numbers{2, 3, 1ull << 32, MOST}) unfit("a record that isn't there", THREE, 0, far);
    unfit("a record of an empty list", THREE, 1, 0);
    for (std::uint64_t far : Numbers{3, 16, 1ull << 32, 1ull << 62, MOST}) {
        unfit("a list that isn't there", THREE, far, 0);
        unfit("neither list nor record", THREE, far, far);
    }
    unfit("no bundle", {}, 0, 0);
    for (const auto &[what, b] : uncovered(THREE))
        for (std::uint64_t list : Numbers{0, 2}) unfit(what, b, list, 0);
}

void altered() {
    // The index entry of (2,1) is the fourth. Only its own record is unfit by it.
    for (std::uint64_t to : Numbers{0, 50, 82, 95, 96, 97, UINT32_MAX}) {
        Bundle b = with_index(THREE, 3, to);
        unfit("an entry at " + std::to_string(to), b, 2, 1);
        placed("another record", b, 2, 0, part(62, 2), part(77, 0));
    }
    placed("an entry at another record", with_index(THREE, 3, 60), 2, 1, part(62, 2), part(77, 0));
    unfit("an entry in another list", with_index(THREE, 3, 9), 2, 1);
    // At 51 stands list 2's header: 56 4C as key length is too long.
    unfit("an entry at the header", with_index(THREE, 3, 51), 2, 1);
    for (unsigned tag : {3u, 5u, 255u})
        unfit("a wrong tag", with_byte(THREE, 77 + 11, static_cast<std::uint8_t>(tag)), 2, 1);
    placed("another tag", with_byte(THREE, 77 + 11, T), 2, 1, part(79, 1), part(93, 3));
    unfit("a longer key", with_byte(THREE, 78, 1), 2, 1);
    unfit("a value past the list", with_byte(THREE, 89, 4), 2, 1);
    unfit("a value past 32 bits", with_byte(THREE, 92, 255), 2, 1);
    placed("a shorter value", with_byte(THREE, 89, 2), 2, 1, part(79, 1), part(93, 2));
    // (0,1) ends its list: a value of 9 bytes would lie in the next, and be whole in the bundle.
    unfit("a value in the next list", with_byte(THREE, 26 + 12, 9), 0, 1);
    placed("mark and version aren't looked at", with_byte(with_byte(THREE, 51, 0), 54, 9), 2, 1, part(79, 1),
           part(93, 3));
    // With key length 0 the seqno starts at 79, the tag at 87 is 0, and the value's length at 88 is 04 03 00 00.
    unfit("no key, and a value too long by it", with_byte(THREE, 77, 0), 2, 1);
    Bundle no_key = bundle({{{"", 1, V, "v"}}});
    placed("a key of length 0 is whole", no_key, 0, 0, part(11, 0), part(24, 1));
    placed("an entry at its list's start", with_index(HEADER_READS, 0, 9), 1, 0, part(11, 0), part(24, 97));
    for (std::uint64_t before : Numbers{0, 7, 8})
        unfit("an entry before its list's start", with_index(HEADER_READS, 0, before), 1, 0);
    // One record less by list 0's header: list 2's entries are then those from the second on.
    Bundle fewer = with_byte(THREE, 5, 1);
    unfit("(0,1) by a smaller count", fewer, 0, 1);
    unfit("(2,0) by a smaller count", fewer, 2, 0); // the entry is 26, in list 0
    placed("(2,1) by a smaller count", fewer, 2, 1, part(62, 2), part(77, 0));
    // One more by list 2's header: with an entry for it, it is read.
    Bundle longer = with_byte({THREE.bytes, THREE.lengths, THREE.index + le(60, 4)}, 56, 3);
    placed("(2,2) by a larger count", longer, 2, 2, part(62, 2), part(77, 0));
}

} // namespace

int main() {
    fit_places();
    nowhere();
    altered();
    return ended("place");
}
