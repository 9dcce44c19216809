// vls_open: lists judged within their own bytes, the index filled only when nothing can be refused any more.
#include "support.hpp"

using namespace border;

namespace {

void opened(const std::string &what, const Bytes &bundle, const Bytes &lengths, const Bytes &index, const Numbers &want,
            const Bytes &index_then) {
    for (Side side : SIDES) {
        Lent b(bundle, side), l(lengths, side), i(index, side, true);
        same(what, numbers(vls_open(b.data(), b.size(), l.data(), l.size(), i.data(), i.size())), want);
        same(what + ": index", i.now(), index_then);
        b.kept(what), l.kept(what);
        expect(what + ": guard bytes of the index", i.guarded());
    }
}

// Refused, whatever the index is like: it stays.
void not_opened(const std::string &what, const Bytes &bundle, const Bytes &lengths, const Numbers &want) {
    for (std::size_t n : Numbers{0, 3, 400}) opened(what, bundle, lengths, filled(n, 0xEE), want, filled(n, 0xEE));
}

struct Bundle {
    Bytes bytes, lengths;
};

Bundle bundle(const std::vector<Bytes> &lists) {
    Bundle b;
    for (const Bytes &l : lists) {
        b.bytes = b.bytes + l;
        b.lengths = b.lengths + le(l.size(), 4);
    }
    return b;
}

// Starts, by hand: list 0 at 0, its records at 9 and 9+16+1 = 26, its end 42; list 1, empty, from 42 to 51; list 2
// at 51, its records at 60 and 60+17 = 77, 77+16 = 93, its end 109+3 = 112.
const std::vector<Bytes> THREE = {
    list({{"a", 7, V, "x"}, {"b", 7, T, ""}}),
    list({}),
    list({{"aa", 1, V, ""}, {"b", 8, W, ""}, {"b", 7, I, "yyy"}}),
};
const Numbers STARTS = {9, 26, 60, 77, 93};

void accepted_ones() {
    opened("no lists and no bytes", {}, {}, {}, accepted(0), {});
    opened("no lists, an index", {}, {}, filled(9, 0xEE), accepted(0), filled(9, 0xEE));
    Bundle three = bundle(THREE);
    same("the bundle's size", Numbers{three.bytes.size()}, Numbers{112});
    opened("three lists", three.bytes, three.lengths, filled(20, 0xEE), accepted(5), table(STARTS));
    for (std::size_t more : Numbers{1, 2, 3, 4, 5, 40})
        opened("index bytes past the records stay", three.bytes, three.lengths, filled(20 + more, 0xEE), accepted(5),
               over(filled(20 + more, 0xEE), table(STARTS)));
    for (std::size_t more : Numbers{1, 2, 3})
        opened("lengths of 4n+r bytes", three.bytes, three.lengths + filled(more, 0xFF), filled(20, 0xEE), accepted(5),
               table(STARTS));
    Bundle one = bundle({list({})});
    opened("one empty list, no index", one.bytes, one.lengths, {}, accepted(0), {});
    Bundle twice = bundle({list({{"a", 1, V, ""}}), list({{"a", 1, V, ""}})});
    opened("key and seqno in two lists", twice.bytes, twice.lengths, filled(8, 0), accepted(2), table({9, 34}));
}

void short_index() {
    Bundle three = bundle(THREE);
    for (std::size_t n = 0; n < 20; ++n)
        opened("an index of " + std::to_string(n) + " bytes", three.bytes, three.lengths, filled(n, 0xEE),
               refused(VLS_NO_ROOM), filled(n, 0xEE));
    Bundle two = bundle({list({{"a", 2, V, ""}, {"a", 1, V, ""}})});
    opened("7 bytes are too short for 2 records", two.bytes, two.lengths, filled(7, 0xEE), refused(VLS_NO_ROOM),
           filled(7, 0xEE));
}

void lengths() {
    Bytes l = list({{"a", 7, V, "x"}}); // 26 bytes
    not_opened("no lists and some bytes", {0}, {}, refused(VLS_EXCESS));
    not_opened("three bytes of lengths are no list", l, filled(3, 0), refused(VLS_EXCESS));
    not_opened("lengths under the bundle", l, table({25}), refused(VLS_EXCESS));
    not_opened("lengths over the bundle", l, table({27}), refused(VLS_EXCESS));
    not_opened("lengths and no bundle", {}, table({9}), refused(VLS_EXCESS));
    not_opened("the first is right, the second too much", l, table({26, 1}), refused(VLS_EXCESS));
    not_opened("sums have more than 32 bits", header(0), table({UINT32_MAX, 10}), refused(VLS_EXCESS));
    not_opened("sums have more than 32 bits, twice", header(0) + header(0), table({9, UINT32_MAX, UINT32_MAX, 11}),
               refused(VLS_EXCESS));
    not_opened("16 of the greatest lengths", l, table(Numbers(16, UINT32_MAX)), refused(VLS_EXCESS));
    not_opened("17 of the greatest lengths", l, table(Numbers(17, UINT32_MAX)), refused(VLS_TOO_LARGE));
    not_opened("8 before the lists", Bytes{0} + l, table({26}), refused(VLS_EXCESS));
    not_opened("an empty list of no bytes", {}, table({0}), refused(VLS_TRUNCATED));
    not_opened("a list of no bytes, second", l, table({26, 0}), refused(VLS_TRUNCATED, 1, 0));
    not_opened("a list of no bytes, first", l, table({0, 26}), refused(VLS_TRUNCATED, 0, 0));
    not_opened("a list of 8 bytes", l + cut(l, 8), table({26, 8}), refused(VLS_TRUNCATED, 1, 0));
}

void lists_in_turn() {
    Bytes good = list({{"a", 7, V, "x"}}), two = list({{"a", 2, V, ""}, {"b", 1, V, ""}});
    Bytes disorder = list({{"a", 2, V, ""}, {"b", 1, V, ""}, {"a", 1, V, ""}}), tagged = list({{"a", 1, 3, ""}});
    struct Row {
        const char *what;
        std::vector<Bytes> lists;
        Numbers want;
    };
    const Row rows[] = {
        {"the third in disorder", {good, two, disorder}, refused(VLS_DISORDER, 2, 2)},
        {"the first refused decides", {good, tagged, disorder}, refused(VLS_BAD_TAG, 1, 0)},
        {"another mark, second", {good, with(good, 0, 'v')}, refused(VLS_BAD_MARK, 1, 0)},
        {"another version, second", {good, with(good, 3, 2)}, refused(VLS_BAD_VERSION, 1, 0)},
        {"an empty key, second", {two, list({{"a", 1, V, ""}, {"", 1, V, ""}})}, refused(VLS_EMPTY_KEY, 1, 1)},
        {"bytes behind the first", {good + Bytes{0}, good}, refused(VLS_EXCESS, 0, 1)},
        {"bytes behind the last", {good, good + Bytes{0}}, refused(VLS_EXCESS, 1, 1)},
        {"too large, second", {good, list_of_size(VLS_LIST_LIMIT + 1)}, refused(VLS_TOO_LARGE, 1, 0)},
        {"too large behind a refused one", {tagged, list_of_size(VLS_LIST_LIMIT + 1)}, refused(VLS_BAD_TAG, 0, 0)},
    };
    for (const Row &row : rows) {
        Bundle b = bundle(row.lists);
        not_opened(row.what, b.bytes, b.lengths, row.want);
    }
}

// Lists are judged each in its own part: what would be whole across the border isn't.
void parts() {
    Bytes both = list({{"a", 7, V, "xyz"}}) + list({}); // 28 and 9 bytes
    for (std::size_t n = 9; n < 28; ++n)
        not_opened("a border too early", both, table({n, 37 - n}), refused(VLS_TRUNCATED));
    not_opened("a border too late", both, table({29, 8}), refused(VLS_EXCESS, 0, 1));
    // The value's length reaches just to the bundle's end, past the list's own.
    Bytes reach = header(1) + le(1, 2) + text("a") + le(1, 8) + Bytes{V} + le(9, 4) + header(0);
    opened("as one list", reach, table({34}), filled(4, 0), accepted(1), table({9}));
    not_opened("as two", reach, table({25, 9}), refused(VLS_TRUNCATED));
}

void sixteen() {
    std::vector<Bytes> lists;
    Bytes index;
    for (std::uint64_t k = 0; k < 16; ++k) {
        lists.push_back(list({{"k", k, V, ""}}));
        index = index + le(25 * k + 9, 4);
    }
    Bundle b = bundle(lists);
    opened("16 lists", b.bytes, b.lengths, filled(64, 0xEE), accepted(16), index);
    opened("16 lists and three bytes", b.bytes, b.lengths + filled(3, 0x11), filled(64, 0xEE), accepted(16), index);
    lists.push_back(list({}));
    b = bundle(lists);
    not_opened("17 lists", b.bytes, b.lengths, refused(VLS_TOO_LARGE));
    not_opened("17 lengths that don't add up", b.bytes, b.lengths + le(1, 4), refused(VLS_TOO_LARGE));
    not_opened("17 lists of no bytes", {}, table(Numbers(17, 0)), refused(VLS_TOO_LARGE));
    lists.back() = Bytes{0};
    b = bundle(lists);
    not_opened("17 lists, the last damaged", b.bytes, b.lengths, refused(VLS_TOO_LARGE));
    not_opened("16 lists and a byte", cut(b.bytes, 401), cut(b.lengths, 64), refused(VLS_EXCESS));
}

void largest() {
    Versions most;
    for (std::uint64_t i = 0; i < VLS_RECORD_LIMIT; ++i) most.push_back({"k", VLS_RECORD_LIMIT - i, V, ""});
    most.back().value = "seventh";
    Bytes l = list(most), bytes, starts;
    for (std::uint64_t k = 0; k < 16; ++k) {
        bytes.insert(bytes.end(), l.begin(), l.end());
        for (std::uint64_t i = 0; i < VLS_RECORD_LIMIT; ++i) {
            Bytes e = le(k * VLS_LIST_LIMIT + 9 + 16 * i, 4);
            starts.insert(starts.end(), e.begin(), e.end());
        }
    }
    Bytes lengths = table(Numbers(16, VLS_LIST_LIMIT));
    opened("16 lists of 1,048,576 bytes", bytes, lengths, filled(starts.size(), 0xEE), accepted(16 * VLS_RECORD_LIMIT),
           starts);
    Bytes one_less = filled(starts.size() - 1, 0xEE);
    opened("one index byte too few", bytes, lengths, one_less, refused(VLS_NO_ROOM), one_less);
    Bytes larger = table({VLS_LIST_LIMIT - 1, VLS_LIST_LIMIT + 1});
    opened("a list over the limit, but the first is cut", cut(bytes, 2 * VLS_LIST_LIMIT), larger, {},
           refused(VLS_TRUNCATED, 0, VLS_RECORD_LIMIT - 1), {});
    Vast vast((1ull << 32) + 9);
    if (!vast.data()) return;
    // The true sum of the lengths is the bundle's size; then the first list is over the limit.
    Bytes whole = table({UINT32_MAX, 10}), nine = table({9});
    same("2^32 + 9 bytes", numbers(vls_open(vast.data(), vast.size(), whole.data(), whole.size(), nullptr, 0)),
         refused(VLS_TOO_LARGE));
    same("2^32 + 9 bytes are not 9", numbers(vls_open(vast.data(), vast.size(), nine.data(), nine.size(), nullptr, 0)),
         refused(VLS_EXCESS));
}

} // namespace

int main() {
    accepted_ones();
    short_index();
    lengths();
    lists_in_turn();
    parts();
    sixteen();
    largest();
    return ended("open");
}
