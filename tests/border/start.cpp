// vls_start: where a read's two ends stand, and what it is refused for.
#include "reading.hpp"

using namespace border;

namespace {

struct Bound {
    bool present, excluded;
    std::string key;
};
const Bound ABSENT = {false, false, ""};
Bound included(const std::string &key) { return {true, false, key}; }
Bound excluded(const std::string &key) { return {true, true, key}; }

const Numbers FINE = {0, 0, 0};

void started(const std::string &what, const Bundle &bundle, const Bound &lower, const Bound &upper, const Numbers &why,
             const vls_cursor &then) {
    Bytes low = text(lower.key), up = text(upper.key);
    for (Side side : SIDES) {
        LentBundle b(bundle, side);
        Lent l(low, side), u(up, side);
        vls_started s = b.ask(vls_start, lower.present, lower.excluded, l.data(), l.size(), upper.present,
                              upper.excluded, u.data(), u.size(), then.snapshot);
        same(what, Numbers{s.number, s.list, s.record} + numbers(s.cursor), why + numbers(then));
        b.kept(what), l.kept(what), u.kept(what);
    }
}

// A refused start: positions 0, and the snapshot.
void not_started(const std::string &what, const Bundle &bundle, const Bound &lower, const Bound &upper,
                 std::uint64_t number) {
    for (std::uint64_t snapshot : Numbers{0, 9, MOST})
        started(what, bundle, lower, upper, {number, 0, 0}, cursor({}, {}, snapshot));
}

void bounds() {
    const Bundle &b = BOUNDED;
    struct Row {
        const char *what;
        Bound lower, upper;
        std::uint32_t front0, back0, front2, back2;
    };
    const Row rows[] = {
        {"all", ABSENT, ABSENT, 0, 5, 0, 2},
        {"from no key", included(""), ABSENT, 0, 5, 0, 2},
        {"after no key", excluded(""), ABSENT, 0, 5, 0, 2},
        {"from a", included("a"), ABSENT, 0, 5, 0, 2},
        {"after a", excluded("a"), ABSENT, 2, 5, 0, 2},
        {"from b", included("b"), ABSENT, 2, 5, 0, 2},
        {"after b", excluded("b"), ABSENT, 3, 5, 0, 2},
        {"from c", included("c"), ABSENT, 3, 5, 0, 2},
        {"after c", excluded("c"), ABSENT, 3, 5, 1, 2},
        {"from d", included("d"), ABSENT, 3, 5, 1, 2},
        {"after d", excluded("d"), ABSENT, 5, 5, 1, 2},
        {"from da", included("da"), ABSENT, 5, 5, 1, 2},
        {"after da", excluded("da"), ABSENT, 5, 5, 2, 2},
        {"from FF", included("\xFF"), ABSENT, 5, 5, 2, 2},
        {"to no key", ABSENT, included(""), 0, 0, 0, 0},
        {"below no key", ABSENT, excluded(""), 0, 0, 0, 0},
        {"to a", ABSENT, included("a"), 0, 2, 0, 0},
        {"below a", ABSENT, excluded("a"), 0, 0, 0, 0},
        {"to b", ABSENT, included("b"), 0, 3, 0, 0},
        {"below b", ABSENT, excluded("b"), 0, 2, 0, 0},
        {"to c", ABSENT, included("c"), 0, 3, 0, 1},
        {"below c", ABSENT, excluded("c"), 0, 3, 0, 0},
        {"to d", ABSENT, included("d"), 0, 5, 0, 1},
        {"below d", ABSENT, excluded("d"), 0, 3, 0, 1},
        {"to da", ABSENT, included("da"), 0, 5, 0, 2},
        {"below da", ABSENT, excluded("da"), 0, 5, 0, 1},
        {"to FF", ABSENT, included("\xFF"), 0, 5, 0, 2},
        {"from b to b", included("b"), included("b"), 2, 3, 0, 0},
        {"from b below b", included("b"), excluded("b"), 2, 2, 0, 0},
        {"after b to b", excluded("b"), included("b"), 3, 3, 0, 0},
        {"after b below d", excluded("b"), excluded("d"), 3, 3, 0, 1},
        {"after a to c", excluded("a"), included("c"), 2, 3, 0, 1},
        {"the prefix d", included("d"), excluded("e"), 3, 5, 1, 2},
        {"from d to a", included("d"), included("a"), 3, 3, 1, 1},
        {"after da below a", excluded("da"), excluded("a"), 5, 5, 2, 2},
    };
    for (const Row &r : rows)
        started(r.what, b, r.lower, r.upper, FINE, cursor({r.front0, 0, r.front2}, {r.back0, 0, r.back2}, 7));
    std::string longest(65535, 'k'), longer(65536, 'k');
    started("the longest bounds", b, included(longest), excluded(longest), FINE, cursor({5, 0, 2}, {5, 0, 2}, 7));
    Bound ignored = {false, true, longer};
    started("absent bounds have no bytes", b, ignored, ignored, FINE, cursor({}, {5, 0, 2}, 7));
    not_started("a longer lower bound", b, included(longer), ABSENT, VLS_LONG_KEY);
    not_started("a longer lower bound, excluded", b, excluded(longer), included("a"), VLS_LONG_KEY);
    not_started("a longer upper bound", b, ABSENT, included(longer), VLS_LONG_KEY);
    not_started("two longer bounds", b, excluded(longer), excluded(longer), VLS_LONG_KEY);
    started("no lists", {}, included("a"), included("b"), FINE, cursor({}, {}, 7));
    not_started("no lists, a longer bound", {}, included(longer), ABSENT, VLS_LONG_KEY);
}

void snapshots() {
    for (std::uint64_t snapshot : Numbers{0, 1, 10, 1ull << 32, MOST})
        started("any snapshot", X, ABSENT, ABSENT, FINE, whole(snapshot));
}

// Lists that were never opened: from the first record that the lower bound admits to the last that the upper admits.
void out_of_order() {
    Bundle b = bundle({{{"d", 1, V, ""}, {"a", 1, V, ""}}});
    started("d, a from c to b", b, included("c"), included("b"), FINE, cursor({}, {2}, 7));
    started("d, a from a to d", b, included("a"), included("d"), FINE, cursor({}, {2}, 7));
    started("d, a from b to c", b, included("b"), included("c"), FINE, cursor({}, {2}, 7));
    started("d, a below a", b, ABSENT, excluded("a"), FINE, cursor({}, {}, 7));
    Bundle no_key = bundle({{{"", 1, V, "v"}, {"a", 1, V, ""}}});
    started("a key of length 0 is whole", no_key, ABSENT, ABSENT, FINE, cursor({}, {2}, 7));
    started("and is not after no key", no_key, excluded(""), ABSENT, FINE, cursor({1}, {2}, 7));
    started("but from it, and to it", no_key, included(""), included(""), FINE, cursor({}, {1}, 7));
}

void altered_tables() {
    std::string longer(65536, 'k');
    for (const auto &[what, b] : uncovered(X)) {
        not_started(what, b, ABSENT, ABSENT, VLS_UNFIT);
        not_started(std::string(what) + ", before the bounds", b, included(longer), included(longer), VLS_UNFIT);
    }
    Bundle more = {X.bytes, X.lengths + filled(3, 0xFF), X.index + filled(7, 0xFF)};
    started("tables of more bytes", more, ABSENT, ABSENT, FINE, whole(10));
}

// Every record is read, outside the bounds too.
void broken() {
    std::string longer(65536, 'k');
    for (const auto &[what, b] : second_broken())
        for (const Bound &lower : {ABSENT, included("c"), included(longer)})
            not_started(what, b, lower, ABSENT, VLS_UNFIT);
    Bundle two =
        bundle({{{"a", 1, V, ""}}, {{"b", 1, V, ""}, {"c", 1, V, ""}}}); // list 1 at 25, its records at 34 and 50
    not_started("an entry in the list before", with_index(two, 1, 9), ABSENT, ABSENT, VLS_UNFIT);
    not_started("an entry in the list behind", with_index(two, 0, 34), ABSENT, ABSENT, VLS_UNFIT);
    not_started("a value in the list behind", with_byte(two, 9 + 12, 5), ABSENT, ABSENT, VLS_UNFIT);
    started("an entry at another record", with_index(ABC, 1, 9), ABSENT, ABSENT, FINE, cursor({}, {3}, 7));
    started("an entry at its list's start", with_index(HEADER_READS, 0, 9), ABSENT, ABSENT, FINE,
            cursor({}, {0, 1}, 7));
    for (std::uint64_t before : Numbers{0, 7, 8})
        not_started("an entry before its list's start", with_index(HEADER_READS, 0, before), ABSENT, ABSENT, VLS_UNFIT);
}

void altered_counts() {
    started("a smaller count", with_byte(ABC, 5, 2), ABSENT, ABSENT, FINE, cursor({}, {2}, 7));
    started("no records by the count", with_byte(ABC, 5, 0), ABSENT, ABSENT, FINE, cursor({}, {}, 7));
    started("another mark and version", with_byte(with_byte(ABC, 0, 0), 3, 9), ABSENT, ABSENT, FINE,
            cursor({}, {3}, 7));
    // One more by the header of the first list: its entry is then the second list's first.
    Bundle two = bundle({{{"a", 1, V, ""}}, {{"b", 1, V, ""}}});
    not_started("a larger count", with_byte({two.bytes, two.lengths, two.index + le(34, 4)}, 5, 2), ABSENT, ABSENT,
                VLS_UNFIT);
}

void limits() {
    std::vector<Versions> lists(16, {{"k", 1, V, ""}});
    vls_cursor all = cursor({}, {}, 7);
    for (std::uint32_t &end : all.back) end = 1;
    started("16 lists", bundle(lists), ABSENT, ABSENT, FINE, all);
    Bundle over_limit = bundle({{{"k", 1, V, std::string(VLS_LIST_LIMIT, 'v')}}, {{"k", 2, V, ""}}});
    started("a list over the limit is no matter", over_limit, ABSENT, ABSENT, FINE, cursor({}, {1, 1}, 7));
    Vast vast((1ull << 32) + 9);
    if (!vast.data()) return;
    // 2^32 + 9 zeros are two lists of no records; as one list of 9 bytes they are not covered.
    Bytes two = table({UINT32_MAX, 10}), one = table({9});
    auto start = [&](const Bytes &lengths) {
        return vls_start(vast.data(), vast.size(), lengths.data(), lengths.size(), nullptr, 0, false, false, nullptr, 0,
                         false, false, nullptr, 0, 7)
            .number;
    };
    same("2^32 + 9 bytes", Numbers{start(two), start(one)}, Numbers{VLS_FINE, VLS_UNFIT});
}

} // namespace

int main() {
    bounds();
    snapshots();
    out_of_order();
    altered_tables();
    broken();
    altered_counts();
    limits();
    return ended("start");
}
