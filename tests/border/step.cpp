// vls_front and vls_back, by value and in place: reading a bundle from both ends, as it was opened and as it was
// altered since.
#include <deque>

#include "reading.hpp"

using namespace border;

namespace {

enum End { FRONT, BACK };

vls_stepped step(const std::string &what, const Bundle &bundle, End end, const vls_cursor &given) {
    vls_stepped answers[2];
    for (Side side : SIDES) {
        LentBundle b(bundle, side);
        vls_stepped &s = answers[side == Side::left];
        s = b.ask(end == FRONT ? vls_front : vls_back, given);
        Bytes content = bytes(given);
        Lent c(content, side, true);
        vls_answer a = b.ask(end == FRONT ? vls_front_in_place : vls_back_in_place, as_cursor(c));
        same(what + ": in place", Numbers{a.number, a.list, a.record, a.found, a.at_list, a.at_record},
             Numbers{s.number, s.list, s.record, s.found, s.at_list, s.at_record});
        same(what + ": the cursor in place", c.now(), bytes(s.cursor));
        expect(what + ": guard bytes", c.guarded());
        b.kept(what);
    }
    const vls_stepped &l = answers[0], &r = answers[1];
    same(what + ": the same twice", Numbers{l.number, l.found, l.at_list, l.at_record} + numbers(l.cursor),
         Numbers{r.number, r.found, r.at_list, r.at_record} + numbers(r.cursor));
    return l;
}

void stepped(const std::string &what, const Bundle &bundle, End end, const vls_cursor &given, const Numbers &want,
             const vls_cursor &then) {
    vls_stepped s = step(what, bundle, end, given);
    same(what, Numbers{s.number, s.list, s.record, s.found, s.at_list, s.at_record} + numbers(s.cursor),
         want + numbers(then));
}

void finds(const std::string &what, const Bundle &b, End end, const vls_cursor &given, std::uint64_t list,
           std::uint64_t record, const vls_cursor &then) {
    stepped(what, b, end, given, {0, 0, 0, 1, list, record}, then);
}

void finds_nothing(const std::string &what, const Bundle &b, End end, const vls_cursor &given) {
    stepped(what, b, end, given, {0, 0, 0, 0, 0, 0}, given);
}

void unfit(const std::string &what, const Bundle &b, End end, const vls_cursor &given) {
    stepped(what, b, end, given, {VLS_UNFIT, 0, 0, 0, 0, 0}, given);
}

using Place = std::pair<std::uint64_t, std::uint64_t>;

// Every mix of front and back steps, one more than there are entries.
void reads(const std::string &what, const Bundle &b, const vls_cursor &from, const std::deque<Place> &entries) {
    std::size_t steps = entries.size() + 1;
    for (unsigned mix = 0; mix < 1u << steps; ++mix) {
        std::deque<Place> left = entries;
        vls_cursor c = from;
        for (std::size_t i = 0; i < steps; ++i) {
            End end = mix >> i & 1 ? BACK : FRONT;
            vls_stepped s = step(what, b, end, c);
            if (left.empty()) {
                same(what + ": nothing left", Numbers{s.number, s.found, s.at_list, s.at_record} + numbers(s.cursor),
                     Numbers{0, 0, 0, 0} + numbers(c));
                continue;
            }
            Place p = end == FRONT ? left.front() : left.back();
            end == FRONT ? left.pop_front() : left.pop_back();
            same(what, Numbers{s.number, s.found, s.at_list, s.at_record}, Numbers{0, 1, p.first, p.second});
            c = s.cursor;
        }
    }
}

void samples() {
    Bundle b = bundle({{{"a", 5, V, ""}, {"c", 2, T, ""}}, {{"a", 3, V, ""}, {"b", 4, V, ""}, {"c", 1, V, ""}}});
    finds("back: b", b, BACK, cursor({}, {2, 3}, 6), 1, 1, cursor({}, {1, 1}, 6));
    finds("front: a", b, FRONT, cursor({}, {1, 1}, 6), 0, 0, cursor({1, 1}, {1, 1}, 6));
    finds_nothing("front: nothing", b, FRONT, cursor({1, 1}, {1, 1}, 6));
    finds("the sample at 2: c", b, FRONT, cursor({}, {2, 3}, 2), 1, 2, cursor({2, 3}, {2, 3}, 2));
}

void snapshots() {
    struct Row {
        std::uint64_t snapshot;
        std::deque<Place> entries;
    };
    const Row rows[] = {
        {MOST, {{0, 0}, {0, 2}, {1, 3}, {2, 3}}},
        {10, {{0, 0}, {0, 2}, {1, 3}, {2, 3}}}, // b@8 and c@2 are tombstones; of the two d@9 the lower list's
        {9, {{0, 0}, {1, 3}, {2, 3}}},
        {8, {{0, 0}, {2, 1}, {1, 3}, {2, 3}}},
        {7, {{0, 0}, {2, 1}, {1, 3}, {2, 3}}},
        {6, {{0, 0}, {1, 1}, {1, 3}, {2, 3}}},
        {5, {{1, 0}, {1, 1}, {1, 3}, {2, 3}}},
        {4, {{1, 0}, {1, 3}, {2, 3}}},
        {3, {{1, 3}}},
        {2, {{1, 2}, {1, 3}}},
        {1, {}},
        {0, {}},
    };
    for (const Row &r : rows) {
        reads("snapshot " + std::to_string(r.snapshot), X, whole(r.snapshot), r.entries);
    }
}

// The stepping end stands right behind the key's last version, and no further.
void ends() {
    finds("front: a", X, FRONT, whole(10), 0, 0, cursor({1, 1, 0}, {3, 4, 4}, 10));
    finds("front: d", X, FRONT, cursor({1, 1, 0}, {3, 4, 4}, 10), 0, 2, cursor({3, 3, 3}, {3, 4, 4}, 10));
    finds("front: e", X, FRONT, cursor({3, 3, 3}, {3, 4, 4}, 10), 1, 3, cursor({3, 4, 3}, {3, 4, 4}, 10));
    finds("front: f", X, FRONT, cursor({3, 4, 3}, {3, 4, 4}, 10), 2, 3, cursor({3, 4, 4}, {3, 4, 4}, 10));
    finds_nothing("front: nothing", X, FRONT, cursor({3, 4, 4}, {3, 4, 4}, 10));
    finds("back: f", X, BACK, whole(10), 2, 3, cursor({}, {3, 4, 3}, 10));
    finds("back: e", X, BACK, cursor({}, {3, 4, 3}, 10), 1, 3, cursor({}, {3, 3, 3}, 10));
    finds("back: d", X, BACK, cursor({}, {3, 3, 3}, 10), 0, 2, cursor({}, {2, 3, 2}, 10));
    finds("back: a", X, BACK, cursor({}, {2, 3, 2}, 10), 0, 0, cursor({}, {}, 10));
    finds_nothing("back: nothing", X, BACK, cursor({}, {}, 10));
    // Between the two only versions of b and c are left: both tombstones.
    for (End end : {FRONT, BACK}) finds_nothing("only tombstones are left", X, end, cursor({1, 1, 0}, {2, 3, 2}, 10));
    for (End end : {FRONT, BACK}) finds_nothing("nothing is below 0", X, end, whole(0));
}

void between_bounds() {
    reads("the prefix d", BOUNDED, cursor({3, 0, 1}, {5, 0, 2}, 7), {{0, 3}, {2, 1}});
    reads("from d to a", BOUNDED, cursor({3, 0, 1}, {3, 0, 1}, 7), {});
    for (End end : {FRONT, BACK}) finds_nothing("no lists", {}, end, cursor({}, {}, 7));
}

// Lists that were never opened: the rules of the steps decide.
void out_of_order() {
    Bundle b = bundle({{{"d", 1, V, ""}, {"a", 1, V, ""}}});
    reads("d, a", b, cursor({}, {2}, 7), {{0, 0}, {0, 1}});
    Bundle two = bundle({{{"z", 1, V, ""}, {"c", 1, V, ""}}, {{"b", 1, V, ""}}});
    finds("the least next is b", two, FRONT, cursor({}, {2, 1}, 7), 1, 0, cursor({0, 1}, {2, 1}, 7));
    finds("then z", two, FRONT, cursor({0, 1}, {2, 1}, 7), 0, 0, cursor({1, 1}, {2, 1}, 7));
    finds("then c", two, FRONT, cursor({1, 1}, {2, 1}, 7), 0, 1, cursor({2, 1}, {2, 1}, 7));
    finds("the greatest last is c", two, BACK, cursor({}, {2, 1}, 7), 0, 1, cursor({}, {1, 1}, 7));
    Bundle again = bundle({{{"a", 1, V, ""}, {"b", 1, V, ""}, {"a", 1, V, ""}}});
    finds("a", again, FRONT, cursor({}, {3}, 7), 0, 0, cursor({1}, {3}, 7));
    finds("a again", again, FRONT, cursor({2}, {3}, 7), 0, 2, cursor({3}, {3}, 7));
    Bundle rising = bundle({{{"a", 1, V, ""}, {"a", 5, T, ""}, {"b", 1, V, ""}}});
    finds("in front the first visible version passed", rising, FRONT, cursor({}, {3}, 7), 0, 0, cursor({2}, {3}, 7));
    finds("at the back the last", rising, BACK, cursor({}, {2}, 7), 0, 0, cursor({}, {}, 7));
    finds_nothing("a@5 is not below 5", rising, BACK, cursor({1}, {2}, 5));
    Bundle no_key = bundle({{{"", 1, V, "v"}, {"a", 1, V, ""}}});
    reads("a key of length 0", no_key, cursor({}, {2}, 7), {{0, 0}, {0, 1}});
}

void altered_tables() {
    for (const auto &[what, b] : uncovered(X)) {
        for (End end : {FRONT, BACK})
            for (const vls_cursor &c : {whole(10), cursor({}, {}, 10)}) unfit(what, b, end, c);
    }
}

void altered_cursors() {
    vls_cursor last = whole(10);
    last.front[15] = last.back[15] = 1;
    const std::pair<const char *, vls_cursor> rows[] = {
        {"crossed in list 0", cursor({3, 0, 0}, {2, 4, 4}, 10)},
        {"crossed in list 1", cursor({0, 1, 0}, {3, 0, 4}, 10)},
        {"crossed where nothing is left", cursor({1}, {}, 0)},
        {"past list 0", cursor({}, {4, 4, 4}, 10)},
        {"past list 2", cursor({}, {3, 4, 5}, 10)},
        {"far past list 0", cursor({}, {UINT32_MAX, 4, 4}, 10)},
        {"both ends past list 0", cursor({4, 0, 0}, {4, 4, 4}, 10)},
        {"both ends far past list 0", cursor({UINT32_MAX}, {UINT32_MAX}, 0)},
        {"a list that isn't there", cursor({}, {3, 4, 4, 1}, 10)},
        {"a list that isn't there, nothing left in it", cursor({0, 0, 0, 1}, {3, 4, 4, 1}, 10)},
        {"a list that isn't there, crossed", cursor({0, 0, 0, 1}, {3, 4, 4, 0}, 10)},
        {"a list that isn't there, nothing left at all", cursor({3, 4, 4, 0, 9}, {3, 4, 4, 0, 9}, 10)},
        {"the sixteenth list", last},
    };
    for (const auto &[what, c] : rows)
        for (End end : {FRONT, BACK}) unfit(what, X, end, c);
    for (End end : {FRONT, BACK}) unfit("a position where there are no lists", {}, end, cursor({1}, {1}, 10));
    // Ends in the middle of a key are as ABC as any.
    finds("front from b@6", X, FRONT, cursor({1, 1, 1}, {3, 4, 4}, 10), 2, 1, cursor({1, 2, 2}, {3, 4, 4}, 10));
    finds("back to b@8", X, BACK, cursor({1, 1, 0}, {1, 2, 2}, 8), 2, 1, cursor({1, 1, 0}, {1, 1, 0}, 8));
    finds_nothing("only b@8 is left", X, BACK, cursor({1, 2, 0}, {1, 2, 1}, 8));
}

// Records that aren't whole, where a step reads them and where it doesn't.
void broken() {
    for (const auto &[what, b] : second_broken()) {
        unfit(what, b, FRONT, cursor({}, {3}, 7));
        unfit(what, b, BACK, cursor({}, {3}, 7));
        unfit(what, b, FRONT, cursor({}, {2}, 7));
        unfit(what, b, BACK, cursor({1}, {3}, 7));
        unfit(what, b, FRONT, cursor({1}, {2}, 7));
        unfit(what, b, BACK, cursor({1}, {2}, 7));
        finds(what, b, FRONT, cursor({}, {1}, 7), 0, 0, cursor({1}, {1}, 7));
        finds(what, b, BACK, cursor({}, {1}, 7), 0, 0, cursor({}, {}, 7));
        finds(what, b, FRONT, cursor({2}, {3}, 7), 0, 2, cursor({3}, {3}, 7));
        finds(what, b, BACK, cursor({2}, {3}, 7), 0, 2, cursor({2}, {2}, 7));
        for (End end : {FRONT, BACK}) finds_nothing(what, b, end, cursor({1}, {1}, 7));
    }
    Bundle third = with_index(ABC, 2, 0); // at 0 stands 56 4C, a key too long
    finds("the third broken: a", third, FRONT, cursor({}, {3}, 7), 0, 0, cursor({1}, {3}, 7));
    unfit("the third broken: b counts once the third is read", third, FRONT, cursor({1}, {3}, 7));
    finds("the third broken, but not left", third, FRONT, cursor({1}, {2}, 7), 0, 1, cursor({2}, {2}, 7));
    unfit("the third broken: from the back", third, BACK, cursor({}, {3}, 7));

    Bundle two =
        bundle({{{"a", 1, V, ""}}, {{"b", 1, V, ""}, {"c", 1, V, ""}}}); // list 1 at 25, its records at 34 and 50
    Bundle other = with_index(two, 1, 9);
    unfit("an entry in the list before", other, FRONT, cursor({}, {1, 2}, 7));
    finds("and from the back", other, BACK, cursor({0, 1}, {1, 2}, 7), 1, 1, cursor({0, 1}, {1, 1}, 7));
    unfit("each list's next is read", other, BACK, cursor({}, {1, 1}, 7));
    unfit("an entry in the list behind", with_index(two, 0, 34), FRONT, cursor({}, {1, 2}, 7));
    unfit("a value in the list behind", with_byte(two, 9 + 12, 5), FRONT, cursor({}, {1, 2}, 7));
    // An entry at another record of its list: a, a, c.
    Bundle twice = with_index(ABC, 1, 9);
    finds("a, twice", twice, FRONT, cursor({}, {3}, 7), 0, 0, cursor({2}, {3}, 7));
    finds("a, twice, from the back", twice, BACK, cursor({}, {2}, 7), 0, 0, cursor({}, {}, 7));
    finds("an entry at its list's start", with_index(HEADER_READS, 0, 9), FRONT, cursor({}, {0, 1}, MOST), 1, 0,
          cursor({0, 1}, {0, 1}, MOST));
    for (std::uint64_t before : Numbers{0, 7, 8})
        unfit("an entry before its list's start", with_index(HEADER_READS, 0, before), FRONT, cursor({}, {0, 1}, MOST));
}

void altered_records() {
    reads("b is deleted", with_byte(ABC, 25 + 11, T), cursor({}, {3}, 7), {{0, 0}, {0, 2}});
    reads("b is deleted weakly", with_byte(ABC, 25 + 11, W), cursor({}, {3}, 7), {{0, 0}, {0, 2}});
    reads("b is elsewhere", with_byte(ABC, 25 + 11, I), cursor({}, {3}, 7), {{0, 0}, {0, 1}, {0, 2}});
    reads("b is newer", with_byte(ABC, 25 + 3, 7), cursor({}, {3}, 7), {{0, 0}, {0, 2}});
    reads("b is z", with_byte(ABC, 25 + 2, 'z'), cursor({}, {3}, 7), {{0, 0}, {0, 1}, {0, 2}});
    reads("b is a", with_byte(ABC, 25 + 2, 'a'), cursor({}, {3}, 7), {{0, 0}, {0, 2}});
    reads("another mark and version", with_byte(with_byte(ABC, 0, 0), 3, 9), cursor({}, {3}, 7),
          {{0, 0}, {0, 1}, {0, 2}});
    // One record less by the header.
    Bundle fewer = with_byte(ABC, 5, 2);
    for (End end : {FRONT, BACK}) unfit("a cursor past the smaller count", fewer, end, cursor({}, {3}, 7));
    reads("a smaller count", fewer, cursor({}, {2}, 7), {{0, 0}, {0, 1}});
    // One more by the header of the first list: its entry is then the second list's first.
    Bundle two = bundle({{{"a", 1, V, ""}}, {{"b", 1, V, ""}}});
    Bundle more = with_byte({two.bytes, two.lengths, two.index + le(34, 4)}, 5, 2);
    finds("a larger count, but not left", more, FRONT, cursor({}, {1, 1}, 7), 0, 0, cursor({1}, {1, 1}, 7));
    finds("the second list's entry is the third", more, FRONT, cursor({1}, {1, 1}, 7), 1, 0, cursor({1, 1}, {1, 1}, 7));
}

void sixteen() {
    std::vector<Versions> falling, alike, versions;
    std::deque<Place> entries;
    vls_cursor all = cursor({}, {}, MOST);
    for (std::uint64_t k = 0; k < 16; ++k) {
        falling.push_back({{std::string(1, static_cast<char>('p' - k)), 1, V, ""}});
        alike.push_back({{"k", 1, V, ""}});
        versions.push_back({{"k", k, V, ""}});
        entries.push_front({k, 0});
        all.back[k] = 1;
    }
    Bundle b = bundle(falling);
    vls_cursor c = all;
    for (std::uint64_t k = 16; 0 < k; --k) {
        vls_cursor next = c;
        next.front[k - 1] = 1;
        finds("16 lists from the front", b, FRONT, c, k - 1, 0, next);
        c = next;
    }
    finds_nothing("16 lists from the front", b, FRONT, c);
    c = all;
    for (std::uint64_t k = 0; k < 16; ++k) {
        vls_cursor next = c;
        next.back[k] = 0;
        finds("16 lists from the back", b, BACK, c, k, 0, next);
        c = next;
    }
    finds_nothing("16 lists from the back", b, BACK, c);
    reads("16 lists alike: the lowest", bundle(alike), all, {{0, 0}});
    reads("16 versions: the newest", bundle(versions), all, {{15, 0}});
    all.snapshot = 7;
    reads("16 versions at 7", bundle(versions), all, {{6, 0}});
}

void large() {
    Bundle over_limit = bundle({{{"k", 1, V, std::string(VLS_LIST_LIMIT, 'v')}}, {{"k", 2, V, ""}}});
    reads("a list over the limit", over_limit, cursor({}, {1, 1}, 7), {{1, 0}});
    // 65,535 versions of one key, all but the last at or above the snapshot.
    Bundle most = {header(VLS_RECORD_LIMIT), {}, {}};
    for (std::uint64_t i = 0; i < VLS_RECORD_LIMIT; ++i) {
        for (std::uint8_t x : le(most.bytes.size(), 4)) most.index.push_back(x);
        for (std::uint8_t x : record({"k", VLS_RECORD_LIMIT - i, V, ""})) most.bytes.push_back(x);
    }
    most.lengths = table({most.bytes.size()});
    finds("the last of 65,535 versions", most, FRONT, cursor({}, {65535}, 2), 0, 65534, cursor({65535}, {65535}, 2));
    finds("and from the back", most, BACK, cursor({}, {65535}, 2), 0, 65534, cursor({}, {}, 2));
    finds("the first of 65,535 versions", most, BACK, cursor({}, {65535}, MOST), 0, 0, cursor({}, {}, MOST));
}

} // namespace

int main() {
    samples();
    snapshots();
    ends();
    between_bounds();
    out_of_order();
    altered_tables();
    altered_cursors();
    broken();
    altered_records();
    sixteen();
    large();
    return ended("step");
}
